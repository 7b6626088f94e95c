/*
 * A thousand threads are alive at once on each network, each with a lane of its own. They name a client each, and free
 * their lanes or hand them back; then the floor is closed by all of them.
 */
#define _POSIX_C_SOURCE 200112L
#include "judge.h"
#include <pthread.h>

enum { MOST_THREADS = 1000, STACK = 1 << 17 };

struct thread {
    pthread_t id;
    renamer_lane lane;
    uint64_t client, entries;
};

static pthread_barrier_t all_are_there;
static struct thread threads[MOST_THREADS];

static void *name_one(void *argument) {
    struct thread *thread = argument;
    uint64_t name;
    pthread_barrier_wait(&all_are_there);
    CHECK(renamer_name(&thread->lane, thread->client, thread->client % thread->entries, &name) == RENAMER_DONE);
    if (IS_ORDER_UNSEEN)
        return NULL;
    if (thread->client % 2)
        renamer_free(&thread->lane);
    else
        CHECK(renamer_hand_back(&thread->lane) == RENAMER_DONE);
    return NULL;
}

/* Threads that are alive at once, each with a lane. */
static void at_once(uint32_t kind, int count) {
    renamer_lane lane = RENAMER_NO_LANE_YET;
    pthread_attr_t small;
    CHECK(pthread_attr_init(&small) == 0 && pthread_attr_setstacksize(&small, STACK) == 0);
    CHECK(pthread_barrier_init(&all_are_there, NULL, (unsigned)count) == 0);
    CHECK(renamer_open(&lane, kind, 8, (uint64_t)count) == RENAMER_DONE);
    for (int t = 0; t < count; t++) {
        threads[t].client = (uint64_t)t;
        threads[t].lane = RENAMER_NO_LANE;
        CHECK(renamer_entries(&lane, &threads[t].entries) == RENAMER_DONE);
        CHECK(renamer_split(&lane, 1, &threads[t].lane) == RENAMER_DONE);
        CHECK(pthread_create(&threads[t].id, IS_ORDER_UNSEEN ? NULL : &small, name_one, &threads[t]) == 0);
    }
    for (int t = 0; t < count; t++) {
        CHECK(pthread_join(threads[t].id, NULL) == 0);
        renamer_free(&threads[t].lane);
    }
    close_floor(&lane, (uint64_t)count);
    CHECK(pthread_barrier_destroy(&all_are_there) == 0 && pthread_attr_destroy(&small) == 0);
}

int main(int count, char **words) {
    int number = count > 1 ? atoi(words[1]) : MOST_THREADS;
    for (uint32_t kind = 0; kind < KINDS; kind++)
        at_once(kind, number);
}
