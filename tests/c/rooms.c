/* A store for whose records there is no room: no change is made then, and the store goes on. Argument: a folder to write in. */
#define _GNU_SOURCE /* sigaction, setrlimit */
#include "cedar.h"
#include "check.h"
#include <errno.h>
#include <signal.h>
#include <string.h>
#include <sys/resource.h>
#include <unistd.h>

static char path[4096];

static const uint8_t *bytes(const char *text) { return (const uint8_t *)text; }

static uint32_t update(cedar_store *s, const char *key, int32_t value) { return cedar_store_update(s, bytes(key), strlen(key), value, NULL); }

static uint32_t erase(cedar_store *s, const char *key) { return cedar_store_erase(s, bytes(key), strlen(key), NULL); }

static int32_t at(const cedar_store *s, const char *key) {
    int32_t value;
    return cedar_get(cedar_store_dictionary(s), bytes(key), strlen(key), &value) ? value : -1;
}

/* From now on no file of this process may be longer. */
static void limit(size_t length) {
    struct rlimit now;
    CHECK(getrlimit(RLIMIT_FSIZE, &now) == 0);
    now.rlim_cur = length == 0 ? now.rlim_max : (rlim_t)length;
    CHECK(setrlimit(RLIMIT_FSIZE, &now) == 0);
}

static bool lacks_room(uint32_t status) { return status == CEDAR_STORE_NO_ROOM && errno == EFBIG; }

static size_t size_of(const char *name) {
    FILE *file = fopen(name, "rb");
    CHECK(file != NULL && fseek(file, 0, SEEK_END) == 0);
    long size = ftell(file);
    CHECK(size >= 0 && fclose(file) == 0);
    return (size_t)size;
}

/* The file has these values and no others, in a store that is opened to read. */
static void expect(int32_t net, int32_t nets, int32_t ten) {
    cedar_store s = CEDAR_STORE_CLOSED;
    CHECK(cedar_store_open_to_read(&s, path) == CEDAR_OK);
    CHECK(at(&s, "net") == net && at(&s, "nets") == nets && at(&s, "ten") == ten);
    CHECK(cedar_len(cedar_store_dictionary(&s)) == (size_t)((net >= 0) + (nets >= 0) + (ten >= 0)));
    cedar_store_close(&s);
}

/* Changes one by one, with room for so many bytes more. */
static void check_changes(size_t more) {
    cedar_store s = CEDAR_STORE_CLOSED;
    unlink(path);
    CHECK(cedar_store_open(&s, path) == CEDAR_OK && update(&s, "net", 7) == CEDAR_OK && update(&s, "nets", 8) == CEDAR_OK);
    size_t length = cedar_store_file_len(&s);
    limit(length + more);
    for (int turn = 0; turn < 2; turn++) {
        CHECK(lacks_room(update(&s, "ten", 9)) && lacks_room(update(&s, "net", 6)) && lacks_room(erase(&s, "nets")));
        CHECK(erase(&s, "ten") == CEDAR_OK); /* it isn't held: nothing is written */
        CHECK(at(&s, "net") == 7 && at(&s, "nets") == 8 && at(&s, "ten") == -1);
        CHECK(!cedar_store_failed(&s) && cedar_store_file_len(&s) == length && size_of(path) == length && cedar_store_records(&s) == 2);
        expect(7, 8, -1);
    }
    limit(0);
    CHECK(update(&s, "ten", 9) == CEDAR_OK && update(&s, "net", 6) == CEDAR_OK && erase(&s, "nets") == CEDAR_OK);
    CHECK(cedar_store_records(&s) == 5);
    cedar_store_close(&s);
    expect(6, -1, 9);
}

/* Changes that are made as one. */
static void check_batch(size_t more) {
    const cedar_change changes[] = {{bytes("ten"), 3, 9, false}, {bytes("nets"), 4, 0, true}, {bytes("net"), 3, 6, false}};
    cedar_store s = CEDAR_STORE_CLOSED;
    unlink(path);
    CHECK(cedar_store_open(&s, path) == CEDAR_OK && update(&s, "net", 7) == CEDAR_OK && update(&s, "nets", 8) == CEDAR_OK);
    size_t length = cedar_store_file_len(&s);
    limit(length + more);
    CHECK(lacks_room(cedar_store_apply(&s, changes, 3, NULL, NULL)) && !cedar_store_failed(&s));
    CHECK(at(&s, "net") == 7 && at(&s, "nets") == 8 && at(&s, "ten") == -1 && size_of(path) == length && cedar_store_records(&s) == 2);
    expect(7, 8, -1);
    limit(0);
    CHECK(cedar_store_apply(&s, changes, 3, NULL, NULL) == CEDAR_OK && cedar_store_records(&s) == 3);
    cedar_store_close(&s);
    expect(6, -1, 9);
}

/* Changes that wait for each other wait on. */
static void check_waiting(size_t more) {
    cedar_store s = CEDAR_STORE_CLOSED;
    unlink(path);
    CHECK(cedar_store_open(&s, path) == CEDAR_OK && update(&s, "net", 7) == CEDAR_OK && update(&s, "nets", 8) == CEDAR_OK);
    CHECK(cedar_store_sync_every(&s, 3) == CEDAR_OK && update(&s, "ten", 9) == CEDAR_OK && erase(&s, "nets") == CEDAR_OK);
    size_t length = cedar_store_file_len(&s);
    limit(length + more);
    CHECK(lacks_room(cedar_store_sync(&s)) && cedar_store_waiting(&s) == 2 && size_of(path) == length);
    CHECK(lacks_room(update(&s, "net", 6)) && cedar_store_waiting(&s) == 3);
    CHECK(lacks_room(cedar_store_sync_every(&s, 1)) && lacks_room(cedar_store_open(&s, path)) && cedar_store_waiting(&s) == 3);
    CHECK(at(&s, "net") == 6 && at(&s, "nets") == -1 && at(&s, "ten") == 9 && !cedar_store_failed(&s) && cedar_store_records(&s) == 2);
    expect(7, 8, -1);
    limit(0);
    CHECK(cedar_store_sync(&s) == CEDAR_OK && cedar_store_waiting(&s) == 0 && cedar_store_records(&s) == 3);
    expect(6, -1, 9);
    cedar_store_close(&s);
    expect(6, -1, 9);
}

int main(int count, char **arguments) {
    struct sigaction ignored = {.sa_handler = SIG_IGN};
    CHECK(count == 2 && snprintf(path, sizeof path, "%s/rooms.store", arguments[1]) < (int)sizeof path);
    CHECK(sigaction(SIGXFSZ, &ignored, NULL) == 0);
    for (size_t more = 0; more < 10; more++) {
        check_changes(more);
        check_batch(more);
        check_waiting(more);
    }
    puts("a store without room goes on");
    return 0;
}
