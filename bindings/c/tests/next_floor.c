/*
 * The next floor: threads that run on and on go from floor to floor together, as docs/EMBEDDING.md shows it, by the
 * function that stands there. On each floor each name is given once.
 */
#define _POSIX_C_SOURCE 200112L
#include "judge.h"
#include <pthread.h>

enum { THREADS = 4, FLOORS = 5, ALL = RENAMER_MOST_CLIENTS };

static void must(uint32_t status) {
    CHECK(status == RENAMER_DONE);
}

static renamer_lane rest = RENAMER_NO_LANE_YET, lanes[THREADS];
static pthread_barrier_t all_threads;
static uint64_t epoch;

/* Each thread calls this at its start, and whenever its lane has no quota left. Once all are here, one of them opens
   the next floor, with a lane for each, and the names of the last one are nobody's. */
static void next_floor(int thread) {
    renamer_free(&lanes[thread]);
    if (pthread_barrier_wait(&all_threads) == PTHREAD_BARRIER_SERIAL_THREAD) {
        /* If it is asked who had which name, renamer_join_all and renamer_close come here. */
        must(renamer_open(&rest, RENAMER_TREE, 64, RENAMER_MOST_CLIENTS));
        for (int t = 0; t < THREADS; t++)
            must(renamer_split(&rest, RENAMER_MOST_CLIENTS / THREADS, &lanes[t]));
        epoch++;
    }
    pthread_barrier_wait(&all_threads);
}

static unsigned char is_given[FLOORS + 1][ALL];

static void *name_on(void *argument) {
    int thread = (int)((renamer_lane *)argument - lanes);
    uint64_t client = 0, name;
    for (next_floor(thread); epoch <= FLOORS; next_floor(thread))
        for (; renamer_name(&lanes[thread], client, 0, &name) == RENAMER_DONE; client++)
            CHECK(name < ALL && !is_given[epoch][name]++);
    return NULL;
}

int main(void) {
    pthread_t threads[THREADS];
    CHECK(pthread_barrier_init(&all_threads, NULL, THREADS) == 0);
    for (int t = 0; t < THREADS; t++)
        CHECK(pthread_create(&threads[t], NULL, name_on, &lanes[t]) == 0);
    for (int t = 0; t < THREADS; t++)
        CHECK(pthread_join(threads[t], NULL) == 0);
    for (int floor = 1; floor <= FLOORS; floor++) {
        int given = 0;
        for (int name = 0; name < ALL; name++)
            given += is_given[floor][name];
        CHECK(given == ALL);
    }
    for (int t = 0; t < THREADS; t++)
        renamer_free(&lanes[t]);
    renamer_free(&rest);
    return 0;
}
