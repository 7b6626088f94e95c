/* What the tests share: a check that ends the program with its place, and the shares of exits. */
#ifndef JUDGE_H
#define JUDGE_H

#include "renamer.h"
#include <stdio.h>
#include <stdlib.h>

#define CHECK(condition)                                                                                               \
    do {                                                                                                               \
        if (!(condition)) {                                                                                            \
            fprintf(stderr, "%s:%d: %s\n", __FILE__, __LINE__, #condition);                                            \
            exit(1);                                                                                                   \
        }                                                                                                              \
    } while (0)

/* The sanitizer for threads does not see what orders memory inside the archive. So where a lane goes from thread to thread
   only by the archive, tests make that one step at a time under it, by what it sees. */
#ifdef __SANITIZE_THREAD__
enum { IS_ORDER_UNSEEN = 1 };
#else
enum { IS_ORDER_UNSEEN = 0 };
#endif

enum { KINDS = 3, LEVELS = 8 };

/* How many of k clients leave by exit i of w. */
static inline uint64_t share(uint64_t k, uint64_t w, uint64_t i) {
    return (k + w - 1 - i) / w;
}

/* Takes in all lanes that are back, and closes the floor, which has named so many clients. */
static inline void close_floor(renamer_lane *lane, uint64_t clients) {
    renamer_quiet quiet = RENAMER_NO_QUIET_YET;
    uint64_t named;
    CHECK(renamer_join_all(lane) == RENAMER_DONE && renamer_join(lane) == RENAMER_NOTHING_BACK);
    CHECK(renamer_close(lane, &quiet) == RENAMER_DONE);
    CHECK(renamer_quiet_clients(&quiet, &named) == RENAMER_DONE && named == clients);
    renamer_free_quiet(&quiet);
}

#endif
