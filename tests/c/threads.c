/* A dictionary that four threads use in turn, ordered by a lock. */
#include "cedar.h"
#include "check.h"
#include <pthread.h>

static cedar shared = CEDAR_CLOSED;
static pthread_mutex_t lock = PTHREAD_MUTEX_INITIALIZER;

static void *work(void *first_byte) {
    size_t position;
    int32_t value;
    for (int i = 0; i < 50000; i++) {
        uint8_t key[2] = {*(uint8_t *)first_byte, (uint8_t)(1 + i % 255)};
        pthread_mutex_lock(&lock);
        CHECK(cedar_update(&shared, key, 2, i, &position) == CEDAR_OK);
        CHECK(cedar_get(&shared, key, 2, &value) && value == i);
        pthread_mutex_unlock(&lock);
    }
    return NULL;
}

int main(void) {
    pthread_t threads[4];
    uint8_t first_bytes[4] = {1, 2, 3, 4};
    CHECK(cedar_new(&shared) == CEDAR_OK);
    for (int i = 0; i < 4; i++) CHECK(pthread_create(&threads[i], NULL, work, &first_bytes[i]) == 0);
    for (int i = 0; i < 4; i++) pthread_join(threads[i], NULL);
    CHECK(cedar_len(&shared) == 4 * 255);
    cedar_free(&shared);
    puts("ok");
    return 0;
}
