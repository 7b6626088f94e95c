/*
 * Opens, splits, names, hands back, joins and closes, round after round: after each there are as many blocks of memory as
 * before it. The number of rounds is the argument.
 */
#include "growths.h"
#include "judge.h"

/* A lane of a floor that goes on from a closed one is handed back with its name, another is freed; both are joined, and the
   floor is closed. */
static void join_and_close(renamer_quiet *quiet) {
    renamer_lane lane = RENAMER_NO_LANE_YET, other = RENAMER_NO_LANE_YET;
    uint64_t name, holder;
    CHECK(renamer_open_after(&lane, quiet, 4) == RENAMER_DONE);
    CHECK(renamer_split(&lane, 2, &other) == RENAMER_DONE);
    CHECK(renamer_name(&other, 7, 0, &name) == RENAMER_DONE && name == 0);
    CHECK(renamer_hand_back(&other) == RENAMER_DONE);
    CHECK(renamer_split(&lane, 1, &other) == RENAMER_DONE);
    renamer_free(&other);
    CHECK(renamer_join(&lane) == RENAMER_DONE && renamer_join(&lane) == RENAMER_DONE);
    CHECK(renamer_join(&lane) == RENAMER_NOTHING_BACK);
    CHECK(renamer_close(&lane, quiet) == RENAMER_DONE);
    CHECK(renamer_holders(quiet, &holder, 1) == RENAMER_DONE && holder == 7);
}

/* A round in which the floor is closed and others go on from it, and in which a lane that goes is freed. */
static void run_round(uint32_t kind, uint32_t width) {
    renamer_lane lane = RENAMER_NO_LANE_YET, other = RENAMER_NO_LANE_YET;
    renamer_quiet quiet = RENAMER_NO_QUIET_YET;
    uint64_t name, holders[3];
    CHECK(renamer_open(&lane, kind, width, 3) == RENAMER_DONE);
    CHECK(renamer_split(&lane, 0, &other) == RENAMER_DONE);
    for (uint64_t client = 7; client <= 9; client++)
        CHECK(renamer_name(&lane, client, 0, &name) == RENAMER_DONE && name == client - 7);
    renamer_free(&other);
    CHECK(renamer_close(&lane, &quiet) == RENAMER_DONE);
    CHECK(renamer_holders(&quiet, holders, 3) == RENAMER_DONE);
    CHECK(holders[0] == 7 && holders[1] == 8 && holders[2] == 9);
    join_and_close(&quiet);
    CHECK(renamer_open_after(&lane, &quiet, 2) == RENAMER_DONE);
    CHECK(renamer_split(&lane, 2, &other) == RENAMER_DONE);
    CHECK(renamer_name(&other, 7, 0, &name) == RENAMER_DONE);
    renamer_free(&other);
    /* What is there is freed as something else comes. */
    CHECK(renamer_open(&lane, kind, width, 1) == RENAMER_DONE);
    CHECK(renamer_close(&lane, &quiet) == RENAMER_DONE);
    renamer_free_quiet(&quiet);
    CHECK(!lane.at && !other.at && !quiet.at);
}

int main(int count, char **words) {
    long rounds = count == 2 ? atol(words[1]) : 0;
    CHECK(rounds > 0);
    for (long round = 0; round < rounds; round++) {
        long before = growths_live();
        /* Wide networks take longer to open than a round takes else: one round in 256 has one. */
        uint32_t level = round % 256 == 0 ? 1 + (uint32_t)(round / 256 % LEVELS) : 1 + (uint32_t)(round % 3);
        run_round((uint32_t)(round % KINDS), (uint32_t)1 << level);
        CHECK(growths_live() == before);
    }
    return 0;
}
