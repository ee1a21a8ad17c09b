/* How many look-ups a second one thread and eight threads make in one dictionary: rate LIST [ROUNDS]. The list has a word a line. It isn't
 * run by tests/c/run: a rate says something only on a machine that has nothing else to do.
 *
 *     gcc -std=c11 -O2 -pthread -Ic/include -o rate tests/c/rate.c crates/cedar_c/out/c/libroskvidh.a && ./rate words.txt
 *
 * Each thread looks up all words in an order of its own, ROUNDS times. It prints the rates, by how much the one is above the other, and the
 * time of a processor that a look-up takes: on four processors without other work the rate is four times as high where that stays. */
#include "cedar.h"
#include "check.h"
#include <pthread.h>
#include <string.h>

enum { THREADS = 8, MOST = 1 << 20, TEXT = 1 << 25 };

static uint8_t text[TEXT];
static const uint8_t *words[MOST];
static size_t lengths[MOST], count;
static int rounds = 5;

typedef struct Work {
    cedar d;
    uint32_t *order;
    uint64_t sum;
} Work;

static void read_words(const char *path) {
    FILE *list = fopen(path, "rb");
    CHECK(list != NULL);
    size_t length = fread(text, 1, TEXT - 1, list);
    fclose(list);
    text[length++] = '\n';
    for (size_t place = 0, start = 0; place < length && count < MOST; place++) {
        if (text[place] != '\n') continue;
        words[count] = text + start;
        lengths[count] = place - start;
        if (place > start) count++;
        start = place + 1;
    }
}

static uint32_t *shuffled(void) {
    uint32_t *order = malloc((count + 1) * sizeof *order);
    CHECK(order != NULL);
    for (size_t i = 0; i < count; i++) order[i] = (uint32_t)i;
    for (size_t i = count; i > 1; i--) {
        size_t j = (size_t)(next_random() % i);
        uint32_t other = order[i - 1];
        order[i - 1] = order[j];
        order[j] = other;
    }
    return order;
}

static void *look_up(void *given) {
    Work *work = given;
    for (int round = 0; round < rounds; round++) {
        for (size_t i = 0; i < count; i++) {
            int32_t value = 0;
            uint32_t word = work->order[i];
            if (cedar_get(&work->d, words[word], lengths[word], &value)) work->sum += (uint64_t)value;
        }
    }
    return NULL;
}

/* Prints the look-ups a second of so many threads, and answers how many these are. */
static double rate_of(size_t threads, Work *work) {
    pthread_t running[THREADS];
    double begun = seconds(), look_ups = (double)threads * (double)count * rounds;
    clock_t spent = clock();
    for (size_t i = 0; i < threads; i++) CHECK(pthread_create(&running[i], NULL, look_up, &work[i]) == 0);
    for (size_t i = 0; i < threads; i++) CHECK(pthread_join(running[i], NULL) == 0);
    double rate = look_ups / (seconds() - begun);
    double nanoseconds = (double)(clock() - spent) * 1e9 / CLOCKS_PER_SEC / look_ups;
    printf("%zu threads: %.0f look-ups a second, each %.0f ns of a processor\n", threads, rate, nanoseconds);
    return rate;
}

int main(int argc, char **argv) {
    static Work work[THREADS];
    cedar d = CEDAR_CLOSED;
    CHECK(argc > 1);
    if (argc > 2) rounds = atoi(argv[2]);
    read_words(argv[1]);
    CHECK(cedar_new(&d) == CEDAR_OK);
    for (size_t i = 0; i < count; i++) CHECK(cedar_update(&d, words[i], lengths[i], (int32_t)i, NULL) == CEDAR_OK);
    for (size_t i = 0; i < THREADS; i++) {
        work[i].d = d;
        work[i].order = shuffled();
    }
    double one = rate_of(1, work);
    printf("%.2f times as many\n", rate_of(THREADS, work) / one);
    for (size_t i = 0; i < THREADS; i++) free(work[i].order);
    cedar_free(&d);
    return 0;
}
