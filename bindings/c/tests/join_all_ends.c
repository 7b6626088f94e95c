/*
 * While threads split off lanes and hand them back without a pause, renamer_join_all returns each time, and has taken
 * in each lane that was back when it was called. How often is the argument. Between these calls the threads pause, since
 * they hand back more lanes than one thread takes in.
 */
#include "judge.h"
#include <pthread.h>
#include <sched.h>
#include <unistd.h>

enum { THREADS = 2, KEPT = 100, SECONDS = 300 };

struct thread {
    pthread_t id;
    renamer_lane lane;
};

enum { PAUSE, SPLIT, END };

/* What the threads do. */
static int what = PAUSE;

static void tell(int next) {
    __atomic_store_n(&what, next, __ATOMIC_SEQ_CST);
}

/* Splits lanes with no quota off its own, and hands them back. */
static void *split_on(void *argument) {
    struct thread *thread = argument;
    renamer_lane other = RENAMER_NO_LANE_YET;
    int now;
    while ((now = __atomic_load_n(&what, __ATOMIC_SEQ_CST)) != END) {
        if (now == PAUSE && !IS_ORDER_UNSEEN) {
            sched_yield();
            continue;
        }
        CHECK(renamer_split(&thread->lane, 0, &other) == RENAMER_DONE);
        CHECK(renamer_hand_back(&other) == RENAMER_DONE);
        if (IS_ORDER_UNSEEN)
            break;
    }
    return NULL;
}

/* Hands back lanes with all of the quota, and takes them in while the threads go on. */
static void join_kept(renamer_lane *lane) {
    static renamer_lane kept[KEPT];
    uint64_t quota;
    for (int i = 0; i < KEPT; i++)
        CHECK(renamer_split(lane, 1, &kept[i]) == RENAMER_DONE);
    for (int i = KEPT; i-- > 0;)
        CHECK(renamer_hand_back(&kept[i]) == RENAMER_DONE);
    tell(SPLIT);
    CHECK(renamer_join_all(lane) == RENAMER_DONE);
    tell(PAUSE);
    CHECK(renamer_quota(lane, &quota) == RENAMER_DONE && quota == KEPT);
    CHECK(renamer_join_all(lane) == RENAMER_DONE);
}

int main(int count, char **words) {
    static struct thread threads[THREADS];
    long rounds = count == 2 ? atol(words[1]) : 0;
    renamer_lane lane = RENAMER_NO_LANE_YET;
    CHECK(rounds > 0);
    alarm(SECONDS);
    CHECK(renamer_open(&lane, RENAMER_TREE, 2, KEPT) == RENAMER_DONE);
    for (int t = 0; t < THREADS; t++) {
        CHECK(renamer_split(&lane, 0, &threads[t].lane) == RENAMER_DONE);
        CHECK(pthread_create(&threads[t].id, NULL, split_on, &threads[t]) == 0);
        if (IS_ORDER_UNSEEN)
            CHECK(pthread_join(threads[t].id, NULL) == 0);
    }
    for (long round = 0; round < rounds; round++)
        join_kept(&lane);
    tell(END);
    for (int t = 0; t < THREADS; t++) {
        if (!IS_ORDER_UNSEEN)
            CHECK(pthread_join(threads[t].id, NULL) == 0);
        renamer_free(&threads[t].lane);
    }
    close_floor(&lane, 0);
    return 0;
}
