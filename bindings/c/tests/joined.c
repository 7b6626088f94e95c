/*
 * Four threads name clients on each network of each width, by names, lists and single steps, and hand their lanes back, free
 * them or split them. Then one lane takes all in and closes the floor: the counts are the shares, and of the names 0 to
 * k-1 each has its holder. So it is on a floor that goes on from that one.
 */
#include "judge.h"
#include <pthread.h>

enum { THREADS = 4, EACH = 250, ALL = THREADS * EACH, MOST_WIDTH = 256 };

struct thread {
    pthread_t id;
    renamer_lane lane;
    uint64_t first, names[EACH];
    int how;
};

/* Lets all clients of a lane out, and notes their names. */
static void walk_out(struct thread *thread, renamer_lane *lane) {
    uint64_t wire;
    renamer_moved moved;
    while (renamer_lowest(lane, &wire) == RENAMER_DONE) {
        CHECK(renamer_step(lane, wire, &moved) == RENAMER_DONE);
        if (moved.has_left)
            thread->names[moved.client - thread->first] = moved.next;
        else
            CHECK(moved.next > wire && moved.place < MOST_WIDTH * MOST_WIDTH);
    }
}

/* Names ten clients by one call. */
static void name_ten(struct thread *thread, renamer_lane *lane, uint64_t from, uint64_t entries) {
    renamer_client clients[10];
    renamer_grant grants[10];
    for (uint64_t i = 0; i < 10; i++) {
        clients[i].client = thread->first + from + i;
        clients[i].entry = clients[i].client % entries;
    }
    CHECK(renamer_name_many(lane, clients, 10, grants, 10) == RENAMER_DONE);
    for (uint64_t i = 0; i < 10; i++)
        thread->names[grants[i].client - thread->first] = grants[i].name;
}

/* Names the clients with these numbers: some by one call each or for ten, others by single steps, ten at a time. */
static void name_some(struct thread *thread, renamer_lane *lane, uint64_t from, uint64_t to) {
    uint64_t entries;
    CHECK(renamer_entries(lane, &entries) == RENAMER_DONE);
    for (uint64_t i = from; i < to; i++) {
        uint64_t client = thread->first + i;
        if (i % 30 == 0 && i + 10 <= to) {
            name_ten(thread, lane, i, entries);
            i += 9;
            continue;
        }
        if (i % 20 < 10) {
            CHECK(renamer_name(lane, client, client % entries, &thread->names[i]) == RENAMER_DONE);
            continue;
        }
        CHECK(renamer_enter(lane, client, client % entries) == RENAMER_DONE);
        if (i % 10 == 9 || i + 1 == to)
            walk_out(thread, lane);
    }
}

static void *run(void *argument) {
    struct thread *thread = argument;
    renamer_lane other = RENAMER_NO_LANE_YET;
    CHECK(renamer_split(&thread->lane, EACH / 2, &other) == RENAMER_DONE);
    name_some(thread, &other, 0, EACH / 2);
    if (thread->how == 0)
        CHECK(renamer_hand_back(&other) == RENAMER_DONE);
    else
        renamer_free(&other);
    name_some(thread, &thread->lane, EACH / 2, EACH);
    /* It may take in a lane of another thread, and hands that back with its own. */
    if (thread->how == 2 && !IS_ORDER_UNSEEN) {
        uint32_t status = renamer_join(&thread->lane);
        CHECK(status == RENAMER_DONE || status == RENAMER_NOTHING_BACK);
    }
    if (thread->how == 1)
        renamer_free(&thread->lane);
    else
        CHECK(renamer_hand_back(&thread->lane) == RENAMER_DONE);
    CHECK(!thread->lane.at && !other.at);
    return NULL;
}

static void judge(const struct thread *threads, renamer_quiet *quiet, uint64_t width, uint64_t before) {
    uint64_t holders[ALL], counts[MOST_WIDTH], number;
    CHECK(renamer_quiet_clients(quiet, &number) == RENAMER_DONE && number == ALL);
    CHECK(renamer_holders(quiet, holders, ALL) == RENAMER_DONE && renamer_counts(quiet, counts, width) == RENAMER_DONE);
    for (int t = 0; t < THREADS; t++)
        for (uint64_t i = 0; i < EACH; i++)
            CHECK(threads[t].names[i] < ALL && holders[threads[t].names[i]] == threads[t].first + i);
    for (uint64_t i = 0; i < width; i++)
        CHECK(counts[i] == share(before + ALL, width, i) - share(before, width, i));
}

/* Runs threads on the floor of a lane, before which so many clients came, and closes it. */
static void run_floor(renamer_lane *rest, renamer_quiet *quiet, uint64_t width, uint64_t before) {
    static struct thread threads[THREADS];
    uint64_t quota;
    for (int t = 0; t < THREADS; t++) {
        threads[t].first = (uint64_t)EACH * t;
        threads[t].how = t % 3;
        CHECK(renamer_split(rest, EACH, &threads[t].lane) == RENAMER_DONE);
        CHECK(pthread_create(&threads[t].id, NULL, run, &threads[t]) == 0);
    }
    for (int t = 0; t < THREADS; t++)
        CHECK(pthread_join(threads[t].id, NULL) == 0);
    CHECK(renamer_close(rest, quiet) == RENAMER_LANES_MISSING);
    while (renamer_join(rest) == RENAMER_DONE) {
    }
    CHECK(renamer_join(rest) == RENAMER_NOTHING_BACK);
    CHECK(renamer_quota(rest, &quota) == RENAMER_DONE && quota == 0);
    CHECK(renamer_close(rest, quiet) == RENAMER_DONE && !rest->at);
    judge(threads, quiet, width, before);
}

int main(void) {
    renamer_lane rest = RENAMER_NO_LANE_YET;
    renamer_quiet quiet = RENAMER_NO_QUIET_YET;
    for (uint32_t kind = 0; kind < KINDS; kind++)
        for (uint32_t level = 1; level <= LEVELS; level++) {
            uint32_t width = (uint32_t)1 << level;
            CHECK(renamer_open(&rest, kind, width, ALL) == RENAMER_DONE);
            run_floor(&rest, &quiet, width, 0);
            CHECK(renamer_open_after(&rest, &quiet, ALL) == RENAMER_DONE);
            run_floor(&rest, &quiet, width, ALL);
        }
    renamer_free_quiet(&quiet);
    return 0;
}
