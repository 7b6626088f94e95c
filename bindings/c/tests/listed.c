/*
 * Lists of clients who come in by one entry, on each network: each name is that of the client at its place, as the
 * lane's grants have it; clients that stand in a list more than once get as many names; while other threads name clients
 * too. A list of nobody, and lists that are refused, change nothing.
 */
#include "seen.h"
#include <pthread.h>

enum { MOST = 300, THREADS = 4, ROUNDS = 40 };

/* The lane's grants from one on say that these clients have these names, each pair once. */
static void are_granted(const renamer_lane *lane, uint64_t before, const uint64_t *clients, const uint64_t *names,
                        size_t count) {
    renamer_grant grants[MOST];
    unsigned char is_taken[MOST] = {0};
    CHECK(renamer_grants(lane, before, grants, count) == RENAMER_DONE);
    for (size_t i = 0; i < count; i++) {
        size_t at = 0;
        while (at < count && (is_taken[at] || grants[at].name != names[i]))
            at++;
        CHECK(at < count && grants[at].client == clients[i]);
        is_taken[at] = 1;
    }
}

/* Clients of a list: all different, all the same, few of them again and again, or such as a hash of few bits mixes up. */
static void draw_clients(uint64_t *clients, size_t count, int form) {
    for (size_t i = 0; i < count; i++)
        clients[i] = form == 0 ? 1000 + i : form == 1 ? 7 : form == 2 ? i * i % 5 : (uint64_t)i << 56;
}

static void name_lists(renamer_lane *lane, uint64_t entry) {
    static const size_t counts[] = {0, 1, 2, 3, 63, 64, 65, 128, 129, MOST};
    for (size_t i = 0; i < sizeof counts / sizeof *counts; i++)
        for (int form = 0; form < 4; form++) {
            uint64_t clients[MOST] = {0}, names[MOST + 1], before;
            memset(names, 0x5a, sizeof names);
            draw_clients(clients, counts[i], form);
            CHECK(renamer_grant_count(lane, &before) == RENAMER_DONE);
            CHECK(renamer_name_list(lane, clients, counts[i], entry, names, counts[i]) == RENAMER_DONE);
            are_granted(lane, before, clients, names, counts[i]);
            for (size_t at = counts[i]; at <= MOST; at++)
                CHECK(names[at] == 0x5a5a5a5a5a5a5a5a);
        }
}

static void on_each_network(void) {
    for (uint32_t kind = 0; kind < KINDS; kind++)
        for (uint32_t width = 2; width <= 256; width *= 2) {
            renamer_lane lane = RENAMER_NO_LANE_YET;
            renamer_quiet quiet = RENAMER_NO_QUIET_YET;
            uint64_t entries, quota;
            CHECK(renamer_open(&lane, kind, width, 10000) == RENAMER_DONE);
            CHECK(renamer_entries(&lane, &entries) == RENAMER_DONE);
            name_lists(&lane, 0);
            name_lists(&lane, entries - 1);
            CHECK(renamer_quota(&lane, &quota) == RENAMER_DONE && renamer_close(&lane, &quiet) == RENAMER_DONE);
            CHECK(renamer_quiet_clients(&quiet, &entries) == RENAMER_DONE && entries == 10000 - quota);
            renamer_free_quiet(&quiet);
        }
}

/* Refused calls, of a lane with a quota of 3 on a network with 4 entries: the first cause that stands. */
static void refused(void) {
    static const uint64_t clients[] = {7, 8, 7, 9};
    uint64_t names[] = {77, 77, 77, 77};
    renamer_lane lane = RENAMER_NO_LANE_YET;
    struct seen before;
    CHECK(renamer_name_list(&lane, clients, 4, 4, names, 3) == RENAMER_NONE);
    CHECK(renamer_open(&lane, RENAMER_BITONIC, 4, 3) == RENAMER_DONE && renamer_enter(&lane, 1, 0) == RENAMER_DONE);
    before = seen_of(&lane);
    CHECK(renamer_name_list(&lane, clients, 4, 4, names, 3) == RENAMER_SIZE);
    CHECK(renamer_name_list(&lane, clients, 0, 4, names, 1) == RENAMER_SIZE);
    CHECK(renamer_name_list(&lane, clients, 4, 4, names, 4) == RENAMER_STILL_WALKING && is_as(&lane, &before));
    CHECK(renamer_open(&lane, RENAMER_BITONIC, 4, 3) == RENAMER_DONE);
    before = seen_of(&lane);
    CHECK(renamer_name_list(&lane, clients, 4, 4, names, 4) == RENAMER_NO_SUCH_ENTRY);
    CHECK(renamer_name_list(&lane, clients, 0, UINT64_MAX, names, 0) == RENAMER_NO_SUCH_ENTRY);
    CHECK(renamer_name_list(&lane, clients, 4, 3, names, 4) == RENAMER_QUOTA_SPENT && is_as(&lane, &before));
    CHECK(renamer_name_list(&lane, clients, 0, 3, names, 0) == RENAMER_DONE && is_as(&lane, &before));
    for (int i = 0; i < 4; i++)
        CHECK(names[i] == 77);
    CHECK(renamer_name_list(&lane, clients, 3, 3, names, 3) == RENAMER_DONE && names[3] == 77);
    are_granted(&lane, 0, clients, names, 3);
    renamer_free(&lane);
}

/* ---- while others name clients */

static void *name_in_thread(void *argument) {
    renamer_lane *lane = argument;
    for (int round = 0; round < ROUNDS; round++) {
        uint64_t clients[MOST], names[MOST], before;
        draw_clients(clients, MOST, round % 4);
        CHECK(renamer_grant_count(lane, &before) == RENAMER_DONE);
        CHECK(renamer_name_list(lane, clients, MOST, 0, names, MOST) == RENAMER_DONE);
        are_granted(lane, before, clients, names, MOST);
    }
    return NULL;
}

static void by_threads(uint32_t kind, uint32_t width) {
    renamer_lane lanes[THREADS] = {RENAMER_NO_LANE_YET};
    renamer_quiet quiet = RENAMER_NO_QUIET_YET;
    pthread_t threads[THREADS];
    CHECK(renamer_open(&lanes[0], kind, width, THREADS * MOST * ROUNDS) == RENAMER_DONE);
    for (int i = 1; i < THREADS; i++)
        CHECK(renamer_split(&lanes[0], MOST * ROUNDS, &lanes[i]) == RENAMER_DONE);
    for (int i = 0; i < THREADS; i++)
        CHECK(pthread_create(&threads[i], NULL, name_in_thread, &lanes[i]) == 0);
    for (int i = 0; i < THREADS; i++)
        CHECK(pthread_join(threads[i], NULL) == 0);
    for (int i = 1; i < THREADS; i++)
        renamer_free(&lanes[i]);
    CHECK(renamer_join_all(&lanes[0]) == RENAMER_DONE && renamer_close(&lanes[0], &quiet) == RENAMER_DONE);
    renamer_free_quiet(&quiet);
}

int main(void) {
    on_each_network();
    refused();
    by_threads(RENAMER_TREE, 2);
    by_threads(RENAMER_TREE, 64);
    by_threads(RENAMER_BITONIC, 8);
    return 0;
}
