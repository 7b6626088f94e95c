/* What a lane says of itself, to see that a refused call changes nothing. */
#ifndef SEEN_H
#define SEEN_H

#include "judge.h"
#include <string.h>

struct seen {
    void *at;
    uint64_t quota, inside, entered, grants, entries, exits;
    renamer_grant last;
};

static inline struct seen seen_of(renamer_lane *lane) {
    struct seen seen;
    memset(&seen, 0, sizeof seen);
    seen.at = lane->at;
    CHECK(renamer_quota(lane, &seen.quota) == RENAMER_DONE);
    CHECK(renamer_inside(lane, &seen.inside) == RENAMER_DONE);
    CHECK(renamer_entered(lane, &seen.entered) == RENAMER_DONE);
    CHECK(renamer_grant_count(lane, &seen.grants) == RENAMER_DONE);
    CHECK(renamer_entries(lane, &seen.entries) == RENAMER_DONE);
    CHECK(renamer_exits(lane, &seen.exits) == RENAMER_DONE);
    if (seen.grants)
        CHECK(renamer_grants(lane, seen.grants - 1, &seen.last, 1) == RENAMER_DONE);
    return seen;
}

static inline int is_as(renamer_lane *lane, const struct seen *before) {
    struct seen now = seen_of(lane);
    return memcmp(&now, before, sizeof now) == 0;
}

#endif
