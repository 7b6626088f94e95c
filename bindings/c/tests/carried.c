/*
 * Floors that go on from one another, each with the most clients, until as many came before as may: one more client,
 * and the next floor is refused.
 */
#include "judge.h"

enum { FLOORS = RENAMER_MOST_CARRIED / RENAMER_MOST_CLIENTS };

static void name_clients(renamer_lane *lane, uint64_t count) {
    for (uint64_t client = 0; client < count; client++) {
        uint64_t name;
        CHECK(renamer_name(lane, client, 0, &name) == RENAMER_DONE && name == client);
    }
}

int main(void) {
    renamer_lane lane = RENAMER_NO_LANE_YET;
    renamer_quiet quiet = RENAMER_NO_QUIET_YET;
    uint64_t counts[2];
    CHECK(renamer_open(&lane, RENAMER_TREE, 2, RENAMER_MOST_CLIENTS) == RENAMER_DONE);
    for (int floor = 0; floor < FLOORS; floor++) {
        name_clients(&lane, RENAMER_MOST_CLIENTS);
        CHECK(renamer_close(&lane, &quiet) == RENAMER_DONE);
        CHECK(renamer_counts(&quiet, counts, 2) == RENAMER_DONE);
        CHECK(counts[0] == RENAMER_MOST_CLIENTS / 2 && counts[1] == RENAMER_MOST_CLIENTS / 2);
        CHECK(renamer_open_after(&lane, &quiet, RENAMER_MOST_CLIENTS) == RENAMER_DONE);
    }
    name_clients(&lane, 1);
    CHECK(renamer_close(&lane, &quiet) == RENAMER_DONE);
    CHECK(renamer_open_after(&lane, &quiet, 1) == RENAMER_CARRIED && !lane.at);
    CHECK(renamer_open_after(&lane, &quiet, RENAMER_MOST_CLIENTS + 1) == RENAMER_CARRIED);
    CHECK(renamer_counts(&quiet, counts, 2) == RENAMER_DONE && counts[0] == 1 && counts[1] == 0);
    renamer_free_quiet(&quiet);
    return 0;
}
