/*
 * A table of connections: each has a row, from the thread that opens it until another thread has closed it. A row is a
 * slot, so it is given back by whoever closes the connection, and no two connections have one row. Opening waits for
 * nobody but when all rows are taken.
 */
#include "renamer.h"
#include <pthread.h>
#include <sched.h>
#include <stdio.h>
#include <stdlib.h>

enum { ROWS = 16, THREADS = 4, CONNECTIONS = 1000 };

struct connection {
    renamer_lane slot;
    uint64_t row;
    struct connection *next;
};

static struct connection *table[ROWS], *ended;
static renamer_lane slots = RENAMER_NO_LANE_YET;
static pthread_mutex_t lock = PTHREAD_MUTEX_INITIALIZER;
static pthread_cond_t is_ended = PTHREAD_COND_INITIALIZER;

static void must(uint32_t status, const char *call) {
    if (status != RENAMER_DONE) {
        fprintf(stderr, "connections: %s: %s\n", call, renamer_explain(status));
        exit(1);
    }
}

/* Names a client in each of so many lanes, which are handed back. */
static void make_slots(void) {
    uint64_t name;
    must(renamer_open(&slots, RENAMER_TREE, 2, ROWS), "renamer_open");
    for (uint64_t slot = 0; slot < ROWS; slot++) {
        renamer_lane made = RENAMER_NO_LANE_YET;
        must(renamer_split(&slots, 1, &made), "renamer_split");
        must(renamer_name(&made, slot, 0, &name), "renamer_name");
        must(renamer_hand_back(&made), "renamer_hand_back");
    }
}

static struct connection *open_connection(void) {
    struct connection *opened = calloc(1, sizeof *opened);
    renamer_grant grant;
    uint32_t status;
    if (opened == NULL)
        exit(1);
    while ((status = renamer_take_back(&slots, &opened->slot)) == RENAMER_NOTHING_BACK)
        sched_yield(); /* all rows are taken */
    must(status, "renamer_take_back");
    must(renamer_grants(&opened->slot, 0, &grant, 1), "renamer_grants");
    opened->row = grant.name;
    return opened;
}

/* Opens connections, which another thread closes. */
static void *open_all(void *argument) {
    for (int i = 0; i < CONNECTIONS; i++) {
        struct connection *opened = open_connection();
        if (table[opened->row] != NULL)
            exit(1);
        table[opened->row] = opened;
        pthread_mutex_lock(&lock);
        opened->next = ended;
        ended = opened;
        pthread_cond_signal(&is_ended);
        pthread_mutex_unlock(&lock);
    }
    return argument;
}

static void close_next(void) {
    struct connection *closed;
    pthread_mutex_lock(&lock);
    while (ended == NULL)
        pthread_cond_wait(&is_ended, &lock);
    closed = ended;
    ended = closed->next;
    pthread_mutex_unlock(&lock);
    table[closed->row] = NULL;
    must(renamer_hand_back(&closed->slot), "renamer_hand_back");
    free(closed);
}

int main(void) {
    pthread_t threads[THREADS];
    make_slots();
    for (int t = 0; t < THREADS; t++)
        if (pthread_create(&threads[t], NULL, open_all, NULL) != 0)
            return 1;
    for (int i = 0; i < THREADS * CONNECTIONS; i++)
        close_next();
    for (int t = 0; t < THREADS; t++)
        pthread_join(threads[t], NULL);
    renamer_free(&slots);
    printf("%d connections had one of %d rows each\n", THREADS * CONNECTIONS, ROWS);
    return 0;
}
