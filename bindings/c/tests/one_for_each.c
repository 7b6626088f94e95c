/*
 * As many lanes are back as there are threads. Each thread takes one in by a join, and hands it back with its own, round
 * after round: so each holds one of them at most, and at least one is back at each moment of a join. RENAMER_NOTHING_BACK
 * would be wrong, and never comes. So it is beside lanes that others hold. The number of rounds is the argument.
 */
#include "judge.h"
#include <pthread.h>

enum { MOST_THREADS = 8, MOST_HELD = 1000 };

struct thread {
    pthread_t id;
    renamer_lane lane;
    long rounds, wrong;
};

/* Splits a lane off, joins one into it, and hands it back. */
static void *join_one(void *argument) {
    struct thread *thread = argument;
    renamer_lane one = RENAMER_NO_LANE;
    for (long round = 0; round < thread->rounds; round++) {
        CHECK(renamer_split(&thread->lane, 0, &one) == RENAMER_DONE);
        uint32_t status = renamer_join(&one);
        CHECK(status == RENAMER_DONE || status == RENAMER_NOTHING_BACK);
        CHECK(renamer_hand_back(&one) == RENAMER_DONE);
        if (status == RENAMER_NOTHING_BACK) {
            thread->wrong++;
            /* The lane that is back too many is taken in again. */
            while (renamer_join(&thread->lane) != RENAMER_DONE) {
            }
        }
    }
    return NULL;
}

static void split_off(renamer_lane *lane, renamer_lane *other) {
    *other = RENAMER_NO_LANE;
    CHECK(renamer_split(lane, 0, other) == RENAMER_DONE);
}

/* Threads that join so many lanes, while so many others are held. */
static void one_for_each(int threads, long rounds, int held) {
    static struct thread all[MOST_THREADS];
    static renamer_lane lanes[MOST_HELD];
    renamer_lane first = RENAMER_NO_LANE_YET, other;
    CHECK(renamer_open(&first, RENAMER_TREE, 2, 0) == RENAMER_DONE);
    for (int t = 0; t < threads; t++)
        split_off(&first, &all[t].lane);
    for (int lane = 0; lane < held; lane++)
        split_off(&first, &lanes[lane]);
    for (int t = 0; t < threads; t++) {
        split_off(&first, &other);
        CHECK(renamer_hand_back(&other) == RENAMER_DONE);
    }
    for (int t = 0; t < threads; t++) {
        all[t].rounds = rounds;
        CHECK(pthread_create(&all[t].id, NULL, join_one, &all[t]) == 0);
    }
    for (int t = 0; t < threads; t++) {
        CHECK(pthread_join(all[t].id, NULL) == 0 && all[t].wrong == 0);
        renamer_free(&all[t].lane);
    }
    for (int lane = 0; lane < held; lane++)
        renamer_free(&lanes[lane]);
    close_floor(&first, 0);
}

int main(int count, char **words) {
    long rounds = count == 2 ? atol(words[1]) : 0;
    CHECK(rounds > 0);
    for (int threads = 2; threads <= MOST_THREADS; threads *= 2)
        for (int held = 0; held <= MOST_HELD; held += MOST_HELD)
            one_for_each(IS_ORDER_UNSEEN ? 1 : threads, rounds, held);
    return 0;
}
