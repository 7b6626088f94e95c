/*
 * Statistics for which each thread has a row of its own, so that no two threads write to one word. Threads come and go:
 * a thread's row is a slot, which it takes when it first counts, and which a key of the thread gives back as it ends. So
 * there are no more rows than threads run at once, and no lock. Who reads the statistics adds up the rows.
 *
 * A free slot is a lane with one name that was handed back: who takes it back has the slot.
 */
#include "renamer.h"
#include <pthread.h>
#include <stdio.h>
#include <stdlib.h>

enum { ROWS = 4, THREADS = 64, COUNTS = 1000 };

struct own {
    renamer_lane slot;
    uint64_t row;
};

static unsigned long rows[ROWS];
/* The floor's first lane, which is no slot. Once the slots are made all threads share it, since it is only asked. */
static renamer_lane slots = RENAMER_NO_LANE_YET;
static pthread_key_t key;

static void must(uint32_t status, const char *call) {
    if (status != RENAMER_DONE) {
        fprintf(stderr, "stats: %s: %s\n", call, renamer_explain(status));
        exit(1);
    }
}

/* Names a client in each of so many lanes, which are handed back. */
static void make_slots(void) {
    uint64_t name;
    must(renamer_open(&slots, RENAMER_TREE, 2, ROWS), "renamer_open");
    for (uint64_t slot = 0; slot < ROWS; slot++) {
        renamer_lane made = RENAMER_NO_LANE_YET;
        must(renamer_split(&slots, 1, &made), "renamer_split");
        must(renamer_name(&made, slot, 0, &name), "renamer_name");
        must(renamer_hand_back(&made), "renamer_hand_back");
    }
}

/* Gives a thread's row back as the thread ends. */
static void give_back(void *value) {
    struct own *own = value;
    must(renamer_hand_back(&own->slot), "renamer_hand_back");
    free(own);
}

/* What the calling thread has, from its first call on. */
static struct own *own_of_thread(void) {
    struct own *own = pthread_getspecific(key);
    if (own == NULL) {
        renamer_grant grant;
        own = calloc(1, sizeof *own); /* a handle that is all zero has nothing */
        if (own == NULL || pthread_setspecific(key, own) != 0)
            exit(1);
        must(renamer_take_back(&slots, &own->slot), "renamer_take_back");
        must(renamer_grants(&own->slot, 0, &grant, 1), "renamer_grants");
        own->row = grant.name;
    }
    return own;
}

static void *count(void *argument) {
    for (int turn = 0; turn < COUNTS; turn++)
        rows[own_of_thread()->row]++; /* the slot has no other owner */
    return argument;
}

int main(void) {
    pthread_t threads[ROWS];
    unsigned long sum = 0;
    make_slots();
    if (pthread_key_create(&key, give_back) != 0)
        return 1;
    for (int t = 0; t < THREADS + ROWS; t++) {
        if (t >= ROWS)
            pthread_join(threads[t % ROWS], NULL);
        if (t < THREADS && pthread_create(&threads[t % ROWS], NULL, count, NULL) != 0)
            return 1;
    }
    renamer_free(&slots);
    for (int row = 0; row < ROWS; row++)
        sum += rows[row];
    if (sum != THREADS * COUNTS)
        return 1;
    printf("%d threads counted to %lu in %d rows\n", THREADS, sum, ROWS);
    return 0;
}
