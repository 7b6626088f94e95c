/*
 * Numbers for workers. Four threads start workers, each as many as it happens to need. A worker's number is its
 * place in one array, which the threads fill at once and without a lock: no two workers have the same number, and when
 * the threads have ended the numbers have no gap. Then the lanes are joined and the floor is closed, which says who has
 * which number.
 */
#include "renamer.h"
#include <inttypes.h>
#include <pthread.h>
#include <stdio.h>
#include <stdlib.h>

enum { THREADS = 4, MOST_EACH = 1000, MOST = THREADS * MOST_EACH };

struct worker {
    uint64_t client;
    unsigned done;
};

static struct worker workers[MOST];

struct thread {
    pthread_t id;
    renamer_lane lane;
    uint64_t first;
    unsigned needed;
};

static void must(uint32_t status, const char *call) {
    if (status != RENAMER_DONE) {
        fprintf(stderr, "pool: %s: status %" PRIu32 "\n", call, status);
        exit(1);
    }
}

static void *start_workers(void *argument) {
    struct thread *thread = argument;
    for (unsigned i = 0; i < thread->needed; i++) {
        uint64_t client = thread->first + i, number;
        must(renamer_name(&thread->lane, client, 0, &number), "renamer_name");
        workers[number].client = client;
        workers[number].done++;
    }
    return NULL;
}

/* Takes in all lanes that were handed back, closes the floor, and looks who has which number. */
static void close_floor(renamer_lane *rest, uint64_t count) {
    static uint64_t holders[MOST];
    renamer_quiet quiet = RENAMER_NO_QUIET_YET;
    must(renamer_join_all(rest), "renamer_join_all");
    must(renamer_close(rest, &quiet), "renamer_close");
    must(renamer_holders(&quiet, holders, count), "renamer_holders");
    for (uint64_t number = 0; number < MOST; number++)
        if (workers[number].done != (number < count) || (number < count && workers[number].client != holders[number]))
            exit(1);
    renamer_free_quiet(&quiet);
}

int main(void) {
    static struct thread threads[THREADS];
    renamer_lane rest = RENAMER_NO_LANE_YET;
    uint64_t count = 0;
    must(renamer_open(&rest, RENAMER_TREE, 8, MOST), "renamer_open");
    for (unsigned t = 0; t < THREADS; t++) {
        must(renamer_split(&rest, MOST_EACH, &threads[t].lane), "renamer_split");
        threads[t].first = 1000000 * (uint64_t)(t + 1);
        threads[t].needed = 100 + 37 * t;
        if (pthread_create(&threads[t].id, NULL, start_workers, &threads[t]) != 0)
            return 1;
    }
    for (unsigned t = 0; t < THREADS; t++) {
        pthread_join(threads[t].id, NULL);
        count += threads[t].needed;
        must(renamer_hand_back(&threads[t].lane), "renamer_hand_back");
    }
    close_floor(&rest, count);
    printf("%" PRIu64 " workers have the numbers 0 to %" PRIu64 "\n", count, count - 1);
    return 0;
}
