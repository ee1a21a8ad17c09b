/* The headers stand alone in each language that they are for, and beside the C++ library cedar, whose namespace and guard have names
 * of their own. Compiled and not run. */
#ifdef __cplusplus
#define CEDAR_H
namespace cedar {
struct da {};
}
#endif

#include "cedar.h"
#include "cedar.h"

#if defined(__cplusplus) && __cplusplus >= 201703L
#include "cedar.hpp"
#include "cedar.hpp"

roskvidh::dictionary of_the_class;
#endif

#ifdef __cplusplus
cedar::da other_library;
#else
cedar short_name = CEDAR_CLOSED;
#endif

cedar_dictionary dictionary = CEDAR_CLOSED;
cedar_dictionary another(void);
cedar_dictionary another(void) {
    dictionary = cedar_closed();
    return cedar_closed();
}
cedar_pair pair;
cedar_match match;
cedar_found found;
