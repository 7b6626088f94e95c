/*
 * Each status of each call but RENAMER_MEMORY (memory.c) and RENAMER_CARRIED (carried.c). A refusal changes nothing.
 */
#include "seen.h"

/* Handles that are none: never set to something, or freed. */
static void none(renamer_lane *lane, renamer_quiet *quiet) {
    renamer_lane other = RENAMER_NO_LANE_YET;
    renamer_grant grant = {1, 2, 3, 4};
    renamer_client client = {1, 0};
    renamer_moved moved = {1, 2, 3, 4, 5};
    renamer_swept swept = {1, 2, 3, 4};
    uint64_t number = 77;
    renamer_free(NULL), renamer_free_quiet(NULL);
    renamer_free(lane), renamer_free_quiet(quiet);
    renamer_free(lane), renamer_free_quiet(quiet);
    CHECK(renamer_split(lane, 0, &other) == RENAMER_NONE);
    CHECK(renamer_reserve(lane, 0) == RENAMER_NONE);
    CHECK(renamer_name(lane, 1, 0, &number) == RENAMER_NONE);
    CHECK(renamer_entered(lane, &number) == RENAMER_NONE);
    CHECK(renamer_quota(lane, &number) == RENAMER_NONE);
    CHECK(renamer_inside(lane, &number) == RENAMER_NONE);
    CHECK(renamer_entries(lane, &number) == RENAMER_NONE);
    CHECK(renamer_exits(lane, &number) == RENAMER_NONE);
    CHECK(renamer_grant_count(lane, &number) == RENAMER_NONE);
    CHECK(renamer_grants(lane, 0, &grant, 1) == RENAMER_NONE);
    CHECK(renamer_name_many(lane, &client, 1, &grant, 1) == RENAMER_NONE);
    CHECK(renamer_name_list(lane, &client.client, 1, 0, &number, 1) == RENAMER_NONE);
    CHECK(renamer_enter(lane, 1, 0) == RENAMER_NONE);
    CHECK(renamer_step(lane, 0, &moved) == RENAMER_NONE);
    CHECK(renamer_sweep(lane, 0, &swept) == RENAMER_NONE);
    CHECK(renamer_lowest(lane, &number) == RENAMER_NONE);
    CHECK(renamer_hand_back(lane) == RENAMER_NONE);
    CHECK(renamer_join(lane) == RENAMER_NONE && renamer_join_all(lane) == RENAMER_NONE);
    CHECK(renamer_take_back(lane, &other) == RENAMER_NONE);
    CHECK(renamer_close(lane, quiet) == RENAMER_NONE);
    CHECK(renamer_quiet_exits(quiet, &number) == RENAMER_NONE);
    CHECK(renamer_quiet_clients(quiet, &number) == RENAMER_NONE);
    CHECK(renamer_counts(quiet, &number, 1) == RENAMER_NONE);
    CHECK(renamer_holders(quiet, &number, 1) == RENAMER_NONE);
    CHECK(renamer_open_after(lane, quiet, 1) == RENAMER_NONE);
    CHECK(number == 77 && grant.name == 4 && moved.next == 5 && swept.clients == 4);
    CHECK(!lane->at && !other.at && !quiet->at);
}

static void open_refuses(void) {
    static const uint32_t widths[] = {0, 1, 3, 5, 127, 257, 512, UINT32_MAX};
    static const uint64_t quotas[] = {RENAMER_MOST_CLIENTS + 1, UINT64_MAX};
    renamer_lane lane = RENAMER_NO_LANE_YET;
    struct seen before;
    CHECK(renamer_open(&lane, 3, 8, 1) == RENAMER_KIND && !lane.at);
    CHECK(renamer_open(&lane, UINT32_MAX, 7, UINT64_MAX) == RENAMER_KIND && !lane.at);
    CHECK(renamer_open(&lane, RENAMER_PERIODIC, 16, RENAMER_MOST_CLIENTS) == RENAMER_DONE);
    before = seen_of(&lane);
    CHECK(before.quota == RENAMER_MOST_CLIENTS && before.entries == 16 && before.exits == 16 && !before.entered);
    for (size_t i = 0; i < sizeof widths / sizeof *widths; i++)
        CHECK(renamer_open(&lane, RENAMER_TREE, widths[i], UINT64_MAX) == RENAMER_WIDTH && is_as(&lane, &before));
    for (size_t i = 0; i < sizeof quotas / sizeof *quotas; i++)
        CHECK(renamer_open(&lane, RENAMER_TREE, 8, quotas[i]) == RENAMER_QUOTA && is_as(&lane, &before));
    CHECK(renamer_open(&lane, RENAMER_TREE, 8, 0) == RENAMER_DONE);
    before = seen_of(&lane);
    CHECK(before.quota == 0 && before.entries == 1 && before.exits == 8);
    renamer_free(&lane);
}

/* Clients that do not come in, of a lane with a quota of 2 on a network with 4 entries. */
static void naming_refuses(renamer_lane *lane) {
    uint64_t name = 77;
    struct seen before = seen_of(lane);
    CHECK(renamer_name(lane, 1, 4, &name) == RENAMER_NO_SUCH_ENTRY);
    CHECK(renamer_name(lane, 1, UINT64_MAX, &name) == RENAMER_NO_SUCH_ENTRY);
    CHECK(name == 77 && is_as(lane, &before));
    CHECK(renamer_name(lane, 1, 3, &name) == RENAMER_DONE && name == 0);
    CHECK(renamer_name(lane, 2, 0, &name) == RENAMER_DONE && name == 1);
    before = seen_of(lane);
    CHECK(renamer_name(lane, 3, 0, &name) == RENAMER_QUOTA_SPENT && name == 1 && is_as(lane, &before));
    CHECK(renamer_name(lane, 3, 4, &name) == RENAMER_NO_SUCH_ENTRY && name == 1 && is_as(lane, &before));
}

static void lists_refuse(renamer_lane *lane, renamer_quiet *quiet) {
    renamer_grant grants[3];
    uint64_t numbers[5] = {77, 77, 77, 77, 77};
    CHECK(renamer_grants(lane, 0, grants, 3) == RENAMER_SIZE);
    CHECK(renamer_grants(lane, 3, grants, 0) == RENAMER_SIZE);
    CHECK(renamer_grants(lane, UINT64_MAX, grants, 2) == RENAMER_SIZE);
    CHECK(renamer_grants(lane, 2, grants, 0) == RENAMER_DONE && renamer_grants(lane, 0, grants, 2) == RENAMER_DONE);
    CHECK(renamer_close(lane, quiet) == RENAMER_DONE && !lane->at);
    CHECK(renamer_counts(quiet, numbers, 3) == RENAMER_SIZE && renamer_counts(quiet, numbers, 5) == RENAMER_SIZE);
    CHECK(renamer_holders(quiet, numbers, 1) == RENAMER_SIZE && renamer_holders(quiet, numbers, 3) == RENAMER_SIZE);
    CHECK(numbers[0] == 77 && renamer_counts(quiet, numbers, 4) == RENAMER_DONE);
    CHECK(numbers[0] == 1 && numbers[1] == 1 && numbers[2] == 0 && numbers[3] == 0 && numbers[4] == 77);
    CHECK(renamer_open_after(lane, quiet, RENAMER_MOST_CLIENTS + 1) == RENAMER_QUOTA && !lane->at);
}

/* Lanes that are not split off. */
static void split_refuses(void) {
    renamer_lane lane = RENAMER_NO_LANE_YET, other = RENAMER_NO_LANE_YET;
    struct seen before;
    CHECK(renamer_open(&lane, RENAMER_TREE, 4, 3) == RENAMER_DONE);
    before = seen_of(&lane);
    CHECK(renamer_split(&lane, 4, &other) == RENAMER_QUOTA_TOO_SMALL && !other.at);
    CHECK(renamer_split(&lane, UINT64_MAX, &other) == RENAMER_QUOTA_TOO_SMALL && !other.at && is_as(&lane, &before));
    CHECK(renamer_split(&lane, 2, &other) == RENAMER_DONE);
    before = seen_of(&lane);
    CHECK(before.quota == 1 && (before = seen_of(&other)).quota == 2);
    renamer_free(&lane);
    renamer_free(&other);
}

/* Lists of clients that are not named, of a lane with a quota of 3 on a network with 4 entries. */
static void lists_of_clients(void) {
    static const renamer_client clients[] = {{7, 3}, {8, 0}, {9, 3}, {10, 4}};
    renamer_lane lane = RENAMER_NO_LANE_YET;
    renamer_grant grants[4] = {{0, 0, 0, 77}, {0, 0, 0, 77}, {0, 0, 0, 77}, {0, 0, 0, 77}}, own[3];
    struct seen before;
    unsigned char seen[3] = {0};
    CHECK(renamer_open(&lane, RENAMER_BITONIC, 4, 3) == RENAMER_DONE);
    before = seen_of(&lane);
    CHECK(renamer_name_many(&lane, clients, 3, grants, 2) == RENAMER_SIZE);
    CHECK(renamer_name_many(&lane, clients + 3, 1, grants, 0) == RENAMER_SIZE);
    CHECK(renamer_name_many(&lane, clients, 4, grants, 4) == RENAMER_NO_SUCH_ENTRY);
    CHECK(renamer_name_many(&lane, clients + 3, 1, grants, 1) == RENAMER_NO_SUCH_ENTRY);
    CHECK(renamer_name_many(&lane, clients, 0, grants, 0) == RENAMER_DONE && is_as(&lane, &before) && grants[0].name == 77);
    CHECK(renamer_name_many(&lane, clients, 3, grants, 3) == RENAMER_DONE && grants[3].name == 77);
    CHECK(renamer_grants(&lane, 0, own, 3) == RENAMER_DONE && !memcmp(grants, own, sizeof own));
    for (int i = 0; i < 3; i++)
        CHECK(grants[i].name < 3 && grants[i].client >= 7 && grants[i].client <= 9 && !seen[grants[i].client - 7]++);
    before = seen_of(&lane);
    CHECK(before.quota == 0 && before.inside == 0 && before.entered == 3);
    CHECK(renamer_name_many(&lane, clients, 1, grants, 1) == RENAMER_QUOTA_SPENT && is_as(&lane, &before));
    CHECK(renamer_open(&lane, RENAMER_BITONIC, 4, 2) == RENAMER_DONE && renamer_enter(&lane, 7, 0) == RENAMER_DONE);
    before = seen_of(&lane);
    CHECK(renamer_name_many(&lane, clients, 4, grants, 4) == RENAMER_STILL_WALKING && is_as(&lane, &before));
    renamer_free(&lane);
}

/* An array of size 0 may be NULL. */
static void lists_of_nobody(void) {
    renamer_lane lane = RENAMER_NO_LANE_YET;
    renamer_quiet quiet = RENAMER_NO_QUIET_YET;
    renamer_taker taker = RENAMER_NO_TAKER_YET;
    renamer_client client = {7, 0};
    uint64_t name = 77;
    CHECK(renamer_open(&lane, RENAMER_TREE, 2, 1) == RENAMER_DONE);
    CHECK(renamer_name_many(&lane, NULL, 0, NULL, 0) == RENAMER_DONE);
    CHECK(renamer_name_many(&lane, &client, 1, NULL, 0) == RENAMER_SIZE);
    CHECK(renamer_name_list(&lane, NULL, 0, 0, NULL, 0) == RENAMER_DONE);
    CHECK(renamer_name_list(&lane, NULL, 0, 0, &name, 1) == RENAMER_SIZE && name == 77);
    CHECK(renamer_grants(&lane, 0, NULL, 0) == RENAMER_DONE && renamer_grants(&lane, 1, NULL, 0) == RENAMER_SIZE);
    CHECK(renamer_close(&lane, &quiet) == RENAMER_DONE);
    CHECK(renamer_counts(&quiet, NULL, 0) == RENAMER_SIZE && renamer_holders(&quiet, NULL, 0) == RENAMER_DONE);
    renamer_free_quiet(&quiet);
    CHECK(renamer_open_takes(&taker, RENAMER_TREE, 2, 0) == RENAMER_DONE);
    CHECK(renamer_take_many(&taker, 0, NULL, 0) == RENAMER_DONE);
    renamer_free_taker(&taker);
}

/* Clients of a list by one entry go on together, 64 of them at most: on the tree of width 2 those by one exit leave
   right after one another. */
static void lists_go_together(void) {
    enum { TOGETHER = 64, LISTED = TOGETHER + 2 };
    static renamer_client clients[LISTED];
    static renamer_grant grants[LISTED];
    renamer_lane lane = RENAMER_NO_LANE_YET;
    for (uint64_t i = 0; i < LISTED; i++)
        clients[i].client = i;
    CHECK(renamer_open(&lane, RENAMER_TREE, 2, LISTED) == RENAMER_DONE);
    CHECK(renamer_name_many(&lane, clients, LISTED, grants, LISTED) == RENAMER_DONE);
    for (int i = 0; i < LISTED; i++)
        CHECK(grants[i].name == grants[i].client && grants[i].exit == grants[i].client % 2);
    for (int i = 0; i < TOGETHER; i++)
        CHECK(grants[i].client < TOGETHER && grants[i].exit == grants[i / (TOGETHER / 2) * (TOGETHER / 2)].exit);
    CHECK(grants[0].exit != grants[TOGETHER / 2].exit && grants[TOGETHER].exit != grants[TOGETHER + 1].exit);
    renamer_free(&lane);
}

/* Wires on which no client of the lane is. */
static void nobody_there(renamer_lane *lane, uint64_t but) {
    static const uint64_t wires[] = {0, 1, 2, 7, 8, 15, 16, 1000, UINT32_MAX, 4294967296, 4294967297, UINT64_MAX};
    renamer_moved moved = {1, 2, 3, 4, 5};
    renamer_swept swept = {1, 2, 3, 4};
    struct seen before = seen_of(lane);
    for (size_t i = 0; i < sizeof wires / sizeof *wires; i++)
        if (wires[i] != but) {
            CHECK(renamer_step(lane, wires[i], &moved) == RENAMER_NOBODY_THERE && moved.next == 5);
            CHECK(renamer_sweep(lane, wires[i], &swept) == RENAMER_NOBODY_THERE && swept.clients == 4);
        }
    CHECK(is_as(lane, &before));
}

/* What a lane with clients inside refuses, and that they go on by steps and sweeps. */
static void clients_inside(void) {
    renamer_lane lane = RENAMER_NO_LANE_YET;
    renamer_quiet quiet = RENAMER_NO_QUIET_YET;
    renamer_moved moved;
    renamer_swept swept;
    struct seen before;
    uint64_t number = 77, holders[3];
    CHECK(renamer_open(&lane, RENAMER_BITONIC, 2, 3) == RENAMER_DONE);
    CHECK(renamer_lowest(&lane, &number) == RENAMER_NOBODY_THERE && number == 77);
    nobody_there(&lane, UINT64_MAX - 1);
    CHECK(renamer_enter(&lane, 7, 1) == RENAMER_DONE && renamer_enter(&lane, 8, 1) == RENAMER_DONE);
    before = seen_of(&lane);
    CHECK(before.inside == 2 && before.quota == 1 && before.entered == 2 && before.grants == 0);
    nobody_there(&lane, 1);
    CHECK(renamer_enter(&lane, 9, 2) == RENAMER_NO_SUCH_ENTRY && renamer_enter(&lane, 9, UINT64_MAX) == RENAMER_NO_SUCH_ENTRY);
    CHECK(renamer_name(&lane, 9, 0, &number) == RENAMER_STILL_WALKING && number == 77);
    CHECK(renamer_name(&lane, 9, 2, &number) == RENAMER_STILL_WALKING && number == 77);
    CHECK(renamer_hand_back(&lane) == RENAMER_STILL_WALKING && renamer_close(&lane, &quiet) == RENAMER_STILL_WALKING);
    CHECK(renamer_join(&lane) == RENAMER_NOTHING_BACK && is_as(&lane, &before) && !quiet.at);
    CHECK(renamer_lowest(&lane, &number) == RENAMER_DONE && number == 1);
    CHECK(renamer_step(&lane, 1, &moved) == RENAMER_DONE);
    CHECK(moved.client == 7 && !moved.has_left && moved.place == 0 && moved.number == 0 && moved.next == 2);
    CHECK(renamer_enter(&lane, 9, 1) == RENAMER_DONE && renamer_enter(&lane, 10, 0) == RENAMER_QUOTA_SPENT);
    CHECK(renamer_sweep(&lane, 1, &swept) == RENAMER_DONE);
    CHECK(!swept.have_left && swept.place == 0 && swept.first == 1 && swept.clients == 2);
    CHECK(renamer_sweep(&lane, 2, &swept) == RENAMER_DONE);
    CHECK(swept.have_left && swept.place == 0 && swept.first == 0 && swept.clients == 2);
    CHECK(renamer_step(&lane, 3, &moved) == RENAMER_DONE);
    CHECK(moved.client == 8 && moved.has_left && moved.place == 1 && moved.number == 0 && moved.next == 1);
    CHECK(renamer_close(&lane, &quiet) == RENAMER_DONE && renamer_holders(&quiet, holders, 3) == RENAMER_DONE);
    CHECK(holders[0] == 7 && holders[1] == 8 && holders[2] == 9);
    renamer_free_quiet(&quiet);
}

/* A lane that is freed with clients inside takes them along: the floor stays open. */
static void lost_inside(void) {
    renamer_lane lane = RENAMER_NO_LANE_YET, other = RENAMER_NO_LANE_YET;
    renamer_quiet quiet = RENAMER_NO_QUIET_YET;
    CHECK(renamer_open(&lane, RENAMER_TREE, 4, 3) == RENAMER_DONE && renamer_split(&lane, 2, &other) == RENAMER_DONE);
    CHECK(renamer_enter(&other, 7, 0) == RENAMER_DONE);
    renamer_free(&other);
    CHECK(renamer_join(&lane) == RENAMER_NOTHING_BACK && renamer_close(&lane, &quiet) == RENAMER_LANES_MISSING);
    renamer_free(&lane);
}

/* More lanes come back than a floor has places for them: each finds one. */
static void many_back(void) {
    enum { MANY = 100 };
    static renamer_lane others[MANY];
    renamer_lane lane = RENAMER_NO_LANE_YET;
    renamer_quiet quiet = RENAMER_NO_QUIET_YET;
    CHECK(renamer_open(&lane, RENAMER_TREE, 4, MANY) == RENAMER_DONE);
    for (int i = 0; i < MANY; i++)
        CHECK(renamer_split(&lane, 1, &others[i]) == RENAMER_DONE);
    CHECK(renamer_close(&lane, &quiet) == RENAMER_LANES_MISSING);
    for (int i = 0; i < MANY; i++)
        CHECK(renamer_hand_back(&others[i]) == RENAMER_DONE && !others[i].at);
    for (int i = 0; i < MANY; i++)
        CHECK(renamer_join(&lane) == RENAMER_DONE);
    CHECK(renamer_join(&lane) == RENAMER_NOTHING_BACK && seen_of(&lane).quota == MANY);
    CHECK(renamer_close(&lane, &quiet) == RENAMER_DONE);
    renamer_free_quiet(&quiet);
}

/* A lane comes back whole, and what was in its handle is handed back then. A refused call leaves the handle as it was,
   and a lane with nothing does not come. */
static void taken_back(void) {
    renamer_lane lane = RENAMER_NO_LANE_YET, other = RENAMER_NO_LANE_YET, back = RENAMER_NO_LANE_YET;
    struct seen before, asked;
    uint64_t name;
    CHECK(renamer_open(&lane, RENAMER_TREE, 4, 3) == RENAMER_DONE && renamer_split(&lane, 2, &other) == RENAMER_DONE);
    CHECK(renamer_name(&other, 7, 0, &name) == RENAMER_DONE && name == 0);
    before = seen_of(&other), asked = seen_of(&lane);
    CHECK(renamer_take_back(&back, &other) == RENAMER_NONE && is_as(&other, &before));
    CHECK(renamer_take_back(&lane, &back) == RENAMER_NOTHING_BACK && !back.at);
    CHECK(renamer_take_back(&lane, &other) == RENAMER_NOTHING_BACK && is_as(&other, &before));
    CHECK(renamer_hand_back(&other) == RENAMER_DONE && renamer_take_back(&lane, &back) == RENAMER_DONE);
    before.at = back.at;
    CHECK(is_as(&back, &before) && is_as(&lane, &asked));
    CHECK(renamer_take_back(&lane, &other) == RENAMER_NOTHING_BACK && !other.at);
    CHECK(renamer_split(&lane, 1, &other) == RENAMER_DONE && renamer_hand_back(&other) == RENAMER_DONE);
    CHECK(renamer_take_back(&lane, &back) == RENAMER_DONE && seen_of(&back).quota == 1 && !seen_of(&back).grants);
    CHECK(renamer_take_back(&lane, &other) == RENAMER_DONE && seen_of(&other).last.client == 7);
    CHECK(renamer_take_back(&back, &other) == RENAMER_NOTHING_BACK && seen_of(&other).last.client == 7);
    CHECK(renamer_split(&lane, 0, &other) == RENAMER_DONE && renamer_hand_back(&other) == RENAMER_DONE);
    CHECK(renamer_take_back(&lane, &other) == RENAMER_DONE && seen_of(&other).last.client == 7);
    renamer_free(&other), renamer_free(&back);
    close_floor(&lane, 1);
}

/* Each status has a sentence of its own. */
static void explained(void) {
    for (uint32_t status = 0; status <= RENAMER_LANES_THERE + 1; status++)
        for (uint32_t other = 0; other < status; other++)
            CHECK(strlen(renamer_explain(status)) > 10 && strcmp(renamer_explain(status), renamer_explain(other)));
}

/* A lane goes back to its own floor, also where lanes of several are there. */
static void two_floors(void) {
    renamer_lane lanes[2] = {RENAMER_NO_LANE_YET, RENAMER_NO_LANE_YET}, other = RENAMER_NO_LANE_YET;
    renamer_quiet quiet = RENAMER_NO_QUIET_YET;
    uint64_t name;
    for (int i = 0; i < 2; i++)
        CHECK(renamer_open(&lanes[i], RENAMER_TREE, 4, 3) == RENAMER_DONE);
    CHECK(renamer_split(&lanes[0], 2, &other) == RENAMER_DONE && renamer_name(&other, 7, 0, &name) == RENAMER_DONE);
    CHECK(renamer_hand_back(&other) == RENAMER_DONE && renamer_join(&lanes[1]) == RENAMER_NOTHING_BACK);
    CHECK(renamer_close(&lanes[1], &quiet) == RENAMER_DONE && renamer_join(&lanes[0]) == RENAMER_DONE);
    CHECK(seen_of(&lanes[0]).quota == 2 && seen_of(&lanes[0]).last.client == 7);
    /* The only lane of a floor, too: the floor goes with it. */
    CHECK(renamer_hand_back(&lanes[0]) == RENAMER_DONE && !lanes[0].at);
    renamer_free_quiet(&quiet);
}

/* A floor is not closed while a lane is there still, or while one that was freed is not joined yet. */
static void missing_lanes(void) {
    renamer_lane lane = RENAMER_NO_LANE_YET, other = RENAMER_NO_LANE_YET;
    renamer_quiet quiet = RENAMER_NO_QUIET_YET;
    struct seen before;
    CHECK(renamer_open(&lane, RENAMER_TREE, 4, 3) == RENAMER_DONE);
    before = seen_of(&lane);
    CHECK(renamer_split(&lane, 0, &other) == RENAMER_DONE && is_as(&lane, &before));
    CHECK(renamer_close(&lane, &quiet) == RENAMER_LANES_THERE && !quiet.at && is_as(&lane, &before));
    renamer_free(&other);
    CHECK(renamer_close(&lane, &quiet) == RENAMER_DONE && quiet.at && !lane.at);
    CHECK(renamer_open_after(&lane, &quiet, 3) == RENAMER_DONE && renamer_split(&lane, 1, &other) == RENAMER_DONE);
    renamer_free(&other);
    before = seen_of(&lane);
    CHECK(renamer_close(&lane, &quiet) == RENAMER_LANES_MISSING && is_as(&lane, &before));
    CHECK(renamer_join(&lane) == RENAMER_DONE && renamer_close(&lane, &quiet) == RENAMER_DONE);
    renamer_free_quiet(&quiet);
}

int main(void) {
    renamer_lane lane = RENAMER_NO_LANE_YET;
    renamer_quiet quiet = RENAMER_NO_QUIET_YET;
    CHECK(renamer_version() == RENAMER_VERSION);
    none(&lane, &quiet);
    open_refuses();
    CHECK(renamer_open(&lane, RENAMER_BITONIC, 4, 2) == RENAMER_DONE);
    CHECK(renamer_reserve(&lane, 1048577) == RENAMER_MEMORY && renamer_reserve(&lane, UINT64_MAX) == RENAMER_MEMORY);
    CHECK(renamer_reserve(&lane, 1048576) == RENAMER_DONE && renamer_reserve(&lane, 2) == RENAMER_DONE);
    naming_refuses(&lane);
    lists_refuse(&lane, &quiet);
    CHECK(renamer_open_after(&lane, &quiet, 5) == RENAMER_DONE);
    none(&lane, &quiet);
    split_refuses();
    lists_of_clients();
    lists_of_nobody();
    lists_go_together();
    clients_inside();
    lost_inside();
    many_back();
    taken_back();
    explained();
    two_floors();
    missing_lanes();
    return 0;
}
