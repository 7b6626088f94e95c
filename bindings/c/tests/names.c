/*
 * Four threads name clients on each network of each width, and then on a floor that goes on from another: the names are 0
 * to k-1, each once, and each exit has its share. A floor that one lane has is closed, and has the counts and holders. So it
 * is on floors whose words lie side by side, and on floors whose words lie apart.
 */
#include "judge.h"
#include <pthread.h>
#include <string.h>

enum { THREADS = 4, EACH = 500, ALL = THREADS * EACH, MOST_WIDTH = 256 };

struct thread {
    pthread_t id;
    renamer_lane lane;
    uint64_t first, names[EACH];
};

static void *name_all(void *argument) {
    struct thread *thread = argument;
    uint64_t entries, entered;
    CHECK(renamer_entries(&thread->lane, &entries) == RENAMER_DONE);
    for (uint64_t i = 0; i < EACH; i++) {
        uint64_t client = thread->first + i;
        CHECK(renamer_name(&thread->lane, client, 7 * client % entries, &thread->names[i]) == RENAMER_DONE);
        CHECK(renamer_entered(&thread->lane, &entered) == RENAMER_DONE);
        CHECK(thread->names[i] < entered && entered <= ALL);
    }
    return NULL;
}

/* Notes the names of a thread, and by which exits its clients left: its grants say the same. */
static void note(struct thread *thread, unsigned char *seen, uint64_t *counts, uint64_t width) {
    static renamer_grant grants[EACH];
    uint64_t count;
    CHECK(renamer_grant_count(&thread->lane, &count) == RENAMER_DONE && count == EACH);
    CHECK(renamer_grants(&thread->lane, 0, grants, EACH) == RENAMER_DONE);
    for (uint64_t i = 0; i < EACH; i++) {
        CHECK(grants[i].client == thread->first + i && grants[i].name == thread->names[i] && grants[i].exit < width);
        CHECK(grants[i].name < ALL && !seen[grants[i].name]++);
        counts[grants[i].exit]++;
    }
}

/* Runs threads on the floor of a lane, before which so many clients came. */
static void run_threads(renamer_lane *rest, uint64_t width, uint64_t before) {
    static struct thread threads[THREADS];
    unsigned char seen[ALL] = {0};
    uint64_t counts[MOST_WIDTH] = {0}, entered;
    for (int t = 0; t < THREADS; t++) {
        threads[t].first = (uint64_t)EACH * t;
        CHECK(renamer_split(rest, EACH, &threads[t].lane) == RENAMER_DONE);
        CHECK(pthread_create(&threads[t].id, NULL, name_all, &threads[t]) == 0);
    }
    for (int t = 0; t < THREADS; t++) {
        CHECK(pthread_join(threads[t].id, NULL) == 0);
        note(&threads[t], seen, counts, width);
        renamer_free(&threads[t].lane);
    }
    CHECK(renamer_entered(rest, &entered) == RENAMER_DONE && entered == ALL);
    for (uint64_t i = 0; i < width; i++)
        CHECK(counts[i] == share(before + ALL, width, i) - share(before, width, i));
}

/* Names three clients by one lane and closes the floor; one worker names in the order of its calls. */
static void close_three(renamer_lane *lane, renamer_quiet *quiet, uint64_t width) {
    static const uint64_t clients[] = {17, 5, 99};
    uint64_t holders[3], counts[MOST_WIDTH], number;
    for (uint64_t i = 0; i < 3; i++)
        CHECK(renamer_name(lane, clients[i], 0, &number) == RENAMER_DONE && number == i);
    CHECK(renamer_close(lane, quiet) == RENAMER_DONE && !lane->at);
    CHECK(renamer_quiet_exits(quiet, &number) == RENAMER_DONE && number == width);
    CHECK(renamer_quiet_clients(quiet, &number) == RENAMER_DONE && number == 3);
    CHECK(renamer_holders(quiet, holders, 3) == RENAMER_DONE && !memcmp(holders, clients, sizeof holders));
    CHECK(renamer_counts(quiet, counts, width) == RENAMER_DONE);
    for (uint64_t i = 0; i < width; i++)
        CHECK(counts[i] == share(3, width, i));
}

/* A call that opens a floor over a network. */
typedef uint32_t opens(renamer_lane *lane, uint32_t kind, uint32_t width, uint64_t quota);

static void run_network(opens *open, uint32_t kind, uint32_t width) {
    renamer_lane rest = RENAMER_NO_LANE_YET;
    renamer_quiet quiet = RENAMER_NO_QUIET_YET;
    CHECK(open(&rest, kind, width, ALL) == RENAMER_DONE);
    run_threads(&rest, width, 0);
    CHECK(open(&rest, kind, width, 3) == RENAMER_DONE);
    close_three(&rest, &quiet, width);
    CHECK(renamer_open_after(&rest, &quiet, ALL) == RENAMER_DONE);
    run_threads(&rest, width, 3);
    renamer_free(&rest);
    renamer_free_quiet(&quiet);
}

int main(void) {
    for (uint32_t kind = 0; kind < KINDS; kind++)
        for (uint32_t level = 1; level <= LEVELS; level++) {
            run_network(renamer_open, kind, (uint32_t)1 << level);
            run_network(renamer_open_apart, kind, (uint32_t)1 << level);
        }
    return 0;
}
