/*
 * Workers that come and go, four at once, and fill the rows of one table by name: no two workers get the same row, and
 * the rows that are filled are the first ones. There is no lock, no list of workers, and no end of names: each place for
 * a worker has a taker, with which the next worker there goes on.
 */
#include "renamer.h"
#include <inttypes.h>
#include <pthread.h>
#include <stdio.h>
#include <stdlib.h>

enum { PLACES = 4, WORKERS = 64, SINGLE = 36, LIST = 64, ROWS = WORKERS * (SINGLE + LIST) };

static unsigned rows[ROWS];

struct place {
    pthread_t worker;
    renamer_taker taker;
};

static void must(uint32_t status, const char *call) {
    if (status != RENAMER_DONE) {
        fprintf(stderr, "workers: %s: %s\n", call, renamer_explain(status));
        exit(1);
    }
}

/* A worker fills some rows one by one, and some together. */
static void *fill_rows(void *argument) {
    struct place *place = argument;
    uint64_t row, list[LIST];
    for (int i = 0; i < SINGLE; i++) {
        must(renamer_take(&place->taker, 0, &row), "renamer_take");
        rows[row]++;
    }
    must(renamer_take_many(&place->taker, 0, list, LIST), "renamer_take_many");
    for (int i = 0; i < LIST; i++)
        rows[list[i]]++;
    return NULL;
}

int main(void) {
    struct place places[PLACES] = {{0, RENAMER_NO_TAKER_YET}};
    must(renamer_open_takes(&places[0].taker, RENAMER_TREE, 8, 0), "renamer_open_takes");
    for (int p = 1; p < PLACES; p++)
        must(renamer_split_taker(&places[0].taker, &places[p].taker), "renamer_split_taker");
    for (int worker = 0; worker < WORKERS + PLACES; worker++) {
        struct place *place = &places[worker % PLACES];
        if (worker >= PLACES)
            pthread_join(place->worker, NULL);
        if (worker < WORKERS && pthread_create(&place->worker, NULL, fill_rows, place) != 0)
            return 1;
    }
    for (int p = 0; p < PLACES; p++)
        renamer_free_taker(&places[p].taker);
    for (int row = 0; row < ROWS; row++)
        if (rows[row] != 1)
            return 1;
    printf("%d workers filled the rows 0 to %d, each once\n", WORKERS, ROWS - 1);
    return 0;
}
