/*
 * A table with a row for each client of an epoch. Two threads serve clients at once; a client's name is its row, so the
 * rows of an epoch are the first ones, and the threads write them without a lock. The next epoch has a floor of its own,
 * and its rows begin at 0 again.
 */
#include "renamer.h"
#include <inttypes.h>
#include <pthread.h>
#include <stdio.h>
#include <stdlib.h>

enum { THREADS = 2, EPOCHS = 3, ROWS = 64 };

static uint64_t rows[ROWS];

struct thread {
    pthread_t id;
    renamer_lane lane;
    uint64_t first;
    uint64_t clients;
    uint64_t entry; /* the first of this thread's own two */
    uint32_t status;
};

/* Each client of this thread gets a row, and writes into it what it has: here its identity. */
static void *serve(void *argument) {
    struct thread *thread = argument;
    for (uint64_t client = thread->first; client < thread->first + thread->clients; client++) {
        uint64_t row;
        thread->status = renamer_name(&thread->lane, client, thread->entry + client % 2, &row);
        if (thread->status != RENAMER_DONE)
            break;
        rows[row] = client;
    }
    return NULL;
}

static void must(uint32_t status, const char *call) {
    if (status != RENAMER_DONE) {
        fprintf(stderr, "table: %s: status %" PRIu32 "\n", call, status);
        exit(1);
    }
}

static uint64_t run_epoch(uint64_t epoch) {
    static struct thread threads[THREADS];
    renamer_lane rest = RENAMER_NO_LANE_YET;
    uint64_t count = 0;
    must(renamer_open(&rest, RENAMER_BITONIC, 4, ROWS), "renamer_open");
    for (uint64_t t = 0; t < THREADS; t++) {
        threads[t].first = 100 * epoch + 50 * t;
        threads[t].clients = epoch + 2 * t;
        threads[t].entry = 2 * t;
        must(renamer_split(&rest, ROWS / THREADS, &threads[t].lane), "renamer_split");
        if (pthread_create(&threads[t].id, NULL, serve, &threads[t]) != 0)
            exit(1);
    }
    for (uint64_t t = 0; t < THREADS; t++) {
        pthread_join(threads[t].id, NULL);
        must(threads[t].status, "renamer_name");
        count += threads[t].clients;
        renamer_free(&threads[t].lane);
    }
    renamer_free(&rest);
    return count;
}

int main(void) {
    for (uint64_t epoch = 1; epoch <= EPOCHS; epoch++) {
        uint64_t count = run_epoch(epoch);
        for (uint64_t row = 0; row < ROWS; row++)
            if ((rows[row] / 100 == epoch) != (row < count))
                return 1;
        printf("epoch %" PRIu64 ": %" PRIu64 " clients in the first rows\n", epoch, count);
    }
    return 0;
}
