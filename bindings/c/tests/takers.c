/*
 * Four threads take names on each network of each width, alone and by lists: the names are 0 to k-1, each once. Each
 * status of the calls of takers; a refusal changes nothing. Only an open and a split ask for memory, and all of it is
 * freed.
 */
#include "growths.h"
#include "judge.h"
#include <limits.h>
#include <pthread.h>

enum { THREADS = 4, ALONE = 200, LIST = 50, LISTS = 4, EACH = ALONE + LIST * LISTS, ALL = THREADS * EACH };

struct thread {
    pthread_t id;
    renamer_taker taker;
    uint64_t entries, names[EACH];
};

/* ---- threads */

static void *take_all(void *argument) {
    struct thread *thread = argument;
    uint64_t entered;
    for (uint64_t i = 0; i < ALONE; i++) {
        CHECK(renamer_take(&thread->taker, 7 * i % thread->entries, &thread->names[i]) == RENAMER_DONE);
        CHECK(renamer_takes_entered(&thread->taker, &entered) == RENAMER_DONE);
        CHECK(thread->names[i] < entered && entered <= ALL);
    }
    for (uint64_t i = ALONE; i < EACH; i += LIST)
        CHECK(renamer_take_many(&thread->taker, i % thread->entries, &thread->names[i], LIST) == RENAMER_DONE);
    return NULL;
}

static void run_threads(uint32_t kind, uint32_t width, uint32_t apart) {
    static struct thread threads[THREADS];
    static unsigned char is_taken[ALL];
    renamer_taker first = RENAMER_NO_TAKER_YET;
    uint64_t entered, name;
    CHECK(renamer_open_takes(&first, kind, width, apart) == RENAMER_DONE);
    for (int t = 0; t < THREADS; t++) {
        threads[t].entries = kind == RENAMER_TREE ? 1 : width;
        CHECK(renamer_split_taker(&first, &threads[t].taker) == RENAMER_DONE);
    }
    for (int t = 0; t < THREADS; t++)
        CHECK(pthread_create(&threads[t].id, NULL, take_all, &threads[t]) == 0);
    for (int at = 0; at < ALL; at++)
        is_taken[at] = 0;
    for (int t = 0; t < THREADS; t++) {
        CHECK(pthread_join(threads[t].id, NULL) == 0);
        for (int at = 0; at < EACH; at++)
            CHECK(threads[t].names[at] < ALL && !is_taken[threads[t].names[at]]++);
        renamer_free_taker(&threads[t].taker);
    }
    CHECK(renamer_takes_entered(&first, &entered) == RENAMER_DONE && entered == ALL);
    CHECK(renamer_take(&first, 0, &name) == RENAMER_DONE && name == ALL);
    renamer_free_taker(&first);
}

/* ---- statuses */

static void none(renamer_taker *taker) {
    renamer_taker other = RENAMER_NO_TAKER_YET;
    uint64_t number = 77;
    renamer_free_taker(NULL);
    renamer_free_taker(taker);
    CHECK(renamer_split_taker(taker, &other) == RENAMER_NONE);
    CHECK(renamer_take(taker, 0, &number) == RENAMER_NONE);
    CHECK(renamer_take_many(taker, UINT64_MAX, &number, SIZE_MAX) == RENAMER_NONE);
    CHECK(renamer_takes_entered(taker, &number) == RENAMER_NONE);
    CHECK(number == 77 && !taker->at && !other.at);
}

static void refused(void) {
    static const uint32_t widths[] = {0, 1, 3, 5, 127, 257, 512, UINT32_MAX};
    renamer_taker taker = RENAMER_NO_TAKER_YET;
    uint64_t names[2] = {77, 78}, entered;
    none(&taker);
    CHECK(renamer_open_takes(&taker, 3, 7, 1) == RENAMER_KIND && !taker.at);
    CHECK(renamer_open_takes(&taker, RENAMER_PERIODIC, 16, UINT32_MAX) == RENAMER_DONE);
    CHECK(renamer_take(&taker, 15, &entered) == RENAMER_DONE && entered == 0);
    for (size_t i = 0; i < sizeof widths / sizeof *widths; i++)
        CHECK(renamer_open_takes(&taker, RENAMER_TREE, widths[i], 0) == RENAMER_WIDTH);
    CHECK(renamer_take(&taker, 16, names) == RENAMER_NO_SUCH_ENTRY);
    CHECK(renamer_take_many(&taker, 16, names, SIZE_MAX) == RENAMER_NO_SUCH_ENTRY);
    CHECK(renamer_take_many(&taker, 15, names, (size_t)1 << 62) == RENAMER_QUOTA_SPENT);
    CHECK(renamer_take_many(&taker, 15, names, 0) == RENAMER_DONE);
    CHECK(renamer_takes_entered(&taker, &entered) == RENAMER_DONE && entered == 1 && names[0] == 77 && names[1] == 78);
    none(&taker);
}

/* A first taker gives 2^40 names, that one 2^20, and each other half of what it has, until one has a single name. */
static void quota_ends(void) {
    enum { LINKS = 22 };
    renamer_taker chain[LINKS + 2] = {RENAMER_NO_TAKER_YET};
    uint64_t names[2] = {77, 78};
    CHECK(renamer_open_takes(&chain[0], RENAMER_TREE, 2, 0) == RENAMER_DONE);
    CHECK(renamer_take_many(&chain[0], 0, names, SIZE_MAX / 2) == RENAMER_QUOTA_SPENT);
    for (int link = 0; link < LINKS; link++)
        CHECK(renamer_split_taker(&chain[link], &chain[link + 1]) == RENAMER_DONE);
    CHECK(renamer_split_taker(&chain[LINKS], &chain[LINKS + 1]) == RENAMER_QUOTA_TOO_SMALL && !chain[LINKS + 1].at);
    CHECK(renamer_take_many(&chain[LINKS], 0, names, 2) == RENAMER_QUOTA_SPENT && names[0] == 77 && names[1] == 78);
    CHECK(renamer_take(&chain[LINKS], 0, names) == RENAMER_DONE && names[0] == 0);
    CHECK(renamer_take(&chain[LINKS], 0, names) == RENAMER_QUOTA_SPENT && names[0] == 0);
    CHECK(renamer_split_taker(&chain[LINKS], &chain[LINKS + 1]) == RENAMER_QUOTA_TOO_SMALL);
    CHECK(renamer_split_taker(&chain[0], &chain[LINKS]) == RENAMER_DONE);
    CHECK(renamer_take(&chain[LINKS], 0, names) == RENAMER_DONE && names[0] == 1);
    for (int link = 0; link <= LINKS; link++)
        renamer_free_taker(&chain[link]);
}

/* ---- memory */

/* Makes a call with its growths refused from the first on, from the second on, and so on, until it gets all its
   memory. */
#define EACH_GROWTH(call, is_kept)                                                                                     \
    for (long granted = 0, refused = 1; refused; granted++) {                                                         \
        growths_refuse(granted, LONG_MAX);                                                                             \
        uint32_t status = call;                                                                                        \
        refused = growths_refused();                                                                                   \
        growths_refuse(0, 0);                                                                                          \
        CHECK(status == (refused ? RENAMER_MEMORY : RENAMER_DONE));                                                    \
        CHECK(!refused || (is_kept));                                                                                  \
    }

static void wants_memory(uint32_t kind, uint32_t width) {
    renamer_taker taker = RENAMER_NO_TAKER_YET, other = RENAMER_NO_TAKER_YET;
    uint64_t name, names[LIST];
    long asked;
    EACH_GROWTH(renamer_open_takes(&taker, kind, width, width % 4), !taker.at);
    EACH_GROWTH(renamer_split_taker(&taker, &other), taker.at && !other.at);
    asked = growths_asked();
    for (uint64_t at = 0; at < 1000; at++) {
        CHECK(renamer_take(&other, 0, &name) == RENAMER_DONE && name == at * (1 + LIST));
        CHECK(renamer_take_many(&taker, 0, names, LIST) == RENAMER_DONE);
    }
    CHECK(growths_asked() == asked);
    renamer_free_taker(&taker);
    CHECK(renamer_take(&other, 0, &name) == RENAMER_DONE && name == UINT64_C(1000) * (1 + LIST));
    renamer_free_taker(&other);
}

int main(void) {
    long live = growths_live();
    refused();
    quota_ends();
    for (uint32_t kind = 0; kind < KINDS; kind++)
        for (uint32_t level = 1; level <= LEVELS; level++) {
            wants_memory(kind, 1u << level);
            CHECK(growths_live() == live);
            run_threads(kind, 1u << level, level % 2);
        }
    return 0;
}
