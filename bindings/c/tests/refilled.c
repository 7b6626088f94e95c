/*
 * Quota where it is needed: threads take in lanes that were handed back for that, as docs/EMBEDDING.md shows it, by the
 * two functions that stand there. One thread is faster than the others. When the first finds nothing back, at least 95
 * percent of the floor's names are given, by 4 threads and by 64; all are different, and the floor is closed.
 */
#include "judge.h"
#include <pthread.h>

enum { MOST_THREADS = 64, ALL = RENAMER_MOST_CLIENTS, SLOWNESS = 200 };

/* Splits all quota of a lane into small lanes and hands them back: any lane of the floor can take them in. */
static uint32_t hand_out(renamer_lane *rest, uint64_t each) {
    renamer_lane small = RENAMER_NO_LANE_YET;
    uint64_t quota;
    uint32_t status = renamer_quota(rest, &quota);
    for (; status == RENAMER_DONE && quota > 0; quota -= each) {
        if (each > quota)
            each = quota;
        status = renamer_split(rest, each, &small);
        if (status == RENAMER_DONE)
            status = renamer_hand_back(&small);
    }
    return status;
}

/* Names a client. A lane without quota takes in small lanes, until RENAMER_NOTHING_BACK: then the floor is spent. */
static uint32_t name_one(renamer_lane *lane, uint64_t client, uint64_t entry, uint64_t *name) {
    uint32_t status = renamer_name(lane, client, entry, name);
    while (status == RENAMER_QUOTA_SPENT && (status = renamer_join(lane)) == RENAMER_DONE)
        status = renamer_name(lane, client, entry, name);
    return status;
}

struct thread {
    pthread_t id;
    renamer_lane lane;
    uint64_t named;
    int is_fast;
};

static unsigned char is_given[ALL];
static int is_spent;

static void *name_on(void *argument) {
    struct thread *thread = argument;
    uint32_t status = RENAMER_DONE;
    uint64_t name;
    while (!__atomic_load_n(&is_spent, __ATOMIC_RELAXED)
           && (status = name_one(&thread->lane, thread->named, 0, &name)) == RENAMER_DONE) {
        CHECK(name < ALL && !is_given[name]++);
        thread->named++;
        for (volatile int work = thread->is_fast ? 0 : SLOWNESS; work > 0; work--) {
        }
    }
    CHECK(status == RENAMER_DONE || status == RENAMER_NOTHING_BACK);
    __atomic_store_n(&is_spent, 1, __ATOMIC_RELAXED);
    return NULL;
}

static void run_floor(int count) {
    static struct thread threads[MOST_THREADS];
    renamer_lane rest = RENAMER_NO_LANE_YET;
    uint64_t named = 0;
    CHECK(renamer_open(&rest, RENAMER_TREE, 2, ALL) == RENAMER_DONE);
    is_spent = 0;
    for (int name = 0; name < ALL; name++)
        is_given[name] = 0;
    for (int t = 0; t < count; t++) {
        threads[t].named = 0, threads[t].is_fast = t == 0;
        CHECK(renamer_split(&rest, 0, &threads[t].lane) == RENAMER_DONE);
    }
    CHECK(hand_out(&rest, ALL / 32 / (uint64_t)count) == RENAMER_DONE);
    for (int t = 0; t < count; t++)
        CHECK(pthread_create(&threads[t].id, NULL, name_on, &threads[t]) == 0);
    for (int t = 0; t < count; t++) {
        CHECK(pthread_join(threads[t].id, NULL) == 0);
        named += threads[t].named;
        renamer_free(&threads[t].lane);
    }
    printf("%d threads used %.1f percent of a floor\n", count, 100.0 * (double)named / ALL);
    CHECK(named >= ALL * 95 / 100);
    close_floor(&rest, named);
}

int main(void) {
    for (int count = 4; count <= MOST_THREADS; count *= 4)
        run_floor(IS_ORDER_UNSEEN ? 1 : count);
    return 0;
}
