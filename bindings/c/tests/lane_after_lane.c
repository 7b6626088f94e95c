/*
 * Lanes that come and go one after another, 100,000 of them: each names a client and is handed back, which takes no
 * memory and is never refused. They take no more memory than one if they are joined, and the floor is closed by all of
 * them also if none is joined before the end. No split takes more growths of memory than the first, also if lanes are
 * freed with a client inside.
 */
#include "growths.h"
#include "judge.h"
#include <limits.h>

/* Lanes one after another, of which each names a client. Those that are not joined meanwhile are joined at the end; with
   memory refused they are handed back all the same. */
static void one_after_another(int count, int are_joined) {
    renamer_lane lane = RENAMER_NO_LANE_YET, other = RENAMER_NO_LANE_YET;
    uint64_t name;
    CHECK(renamer_open(&lane, RENAMER_TREE, 64, (uint64_t)count) == RENAMER_DONE);
    CHECK(renamer_reserve(&lane, (uint64_t)count) == RENAMER_DONE);
    long live = 0;
    for (int client = 0; client < count; client++) {
        CHECK(renamer_split(&lane, 1, &other) == RENAMER_DONE);
        CHECK(renamer_name(&other, (uint64_t)client, 0, &name) == RENAMER_DONE && name == (uint64_t)client);
        growths_refuse(0, LONG_MAX);
        CHECK(renamer_hand_back(&other) == RENAMER_DONE && growths_refused() == 0);
        growths_refuse(0, 0);
        if (are_joined)
            CHECK(renamer_join(&lane) == RENAMER_DONE);
        if (client == 0)
            live = growths_live();
    }
    if (are_joined)
        CHECK(growths_live() == live);
    close_floor(&lane, (uint64_t)count);
}

/* How many growths a split takes. */
static long growths_of_split(renamer_lane *lane, renamer_lane *other) {
    long asked = growths_asked();
    uint64_t quota;
    CHECK(renamer_quota(lane, &quota) == RENAMER_DONE);
    CHECK(renamer_split(lane, quota > 0, other) == RENAMER_DONE);
    return growths_asked() - asked;
}

/* Lanes one after another, of which each splits off one more, and is itself a lane that was split off just now. */
static void as_the_first(int count) {
    renamer_lane lane = RENAMER_NO_LANE_YET, other = RENAMER_NO_LANE_YET, third = RENAMER_NO_LANE_YET;
    CHECK(renamer_open(&lane, RENAMER_TREE, 64, 0) == RENAMER_DONE);
    long first = growths_of_split(&lane, &other);
    renamer_free(&other);
    CHECK(renamer_join(&lane) == RENAMER_DONE);
    for (int round = 0; round < count; round++) {
        CHECK(growths_of_split(&lane, &other) <= first && growths_of_split(&other, &third) <= first);
        renamer_free(&third);
        renamer_free(&other);
        CHECK(renamer_join(&lane) == RENAMER_DONE && renamer_join(&lane) == RENAMER_DONE);
    }
    close_floor(&lane, 0);
}

/* Lanes one after another that are freed with a client inside. */
static void freed_with_one_inside(int count) {
    renamer_lane lane = RENAMER_NO_LANE_YET, other = RENAMER_NO_LANE_YET;
    long first = LONG_MAX;
    CHECK(renamer_open(&lane, RENAMER_TREE, 64, (uint64_t)count) == RENAMER_DONE);
    for (int client = 0; client < count; client++) {
        long growths = growths_of_split(&lane, &other);
        CHECK(growths <= first && renamer_enter(&other, (uint64_t)client, 0) == RENAMER_DONE);
        renamer_free(&other);
        first = growths;
    }
    renamer_free(&lane);
}

int main(int count, char **words) {
    int lanes = count > 1 ? atoi(words[1]) : 100000;
    as_the_first(lanes);
    freed_with_one_inside(lanes);
    one_after_another(lanes, 1);
    one_after_another(lanes, 0);
    CHECK(growths_live() == 0);
}
