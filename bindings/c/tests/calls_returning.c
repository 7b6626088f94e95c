/* The calls that take in lanes that were handed back, and that take them back whole. */
#include "calls.h"
#include <string.h>

/* The lane took one in that was handed back, or all: with the quota and the grants that it has more now. */
static void judge_joined(struct handle *handle, int (*join)(struct lane *, uint64_t, const renamer_grant *, size_t)) {
    struct lane *lane = handle->model;
    uint64_t quota, count, room = lane->room;
    long asked = run.asked;
    renamer_grant *grants;
    CHECK(MADE_WITH_MEMORY(quota, (&handle->lane, &quota)) == RENAMER_DONE && quota >= lane->quota);
    CHECK(MADE_WITH_MEMORY(grant_count, (&handle->lane, &count)) == RENAMER_DONE && count >= lane->granted);
    count -= lane->granted;
    grants = unset_array(count, sizeof *grants);
    CHECK(MADE_WITH_MEMORY(grants, (&handle->lane, lane->granted, grants, count)) == RENAMER_DONE);
    CHECK(join(lane, quota - lane->quota, grants, count));
    CHECK(room < count || asked == 0);
    judge_lane(handle, count < 64);
    free(grants);
}

void call_join(void) {
    struct handle *handle = some_handle();
    struct lane *lane = handle->model;
    uint32_t wanted = RENAMER_NONE, status = MADE(join, (&handle->lane));
    show("");
    if (lane)
        wanted = lane->floor->back ? RENAMER_DONE : RENAMER_NOTHING_BACK;
    if (is_done(status, wanted, 0)) {
        judge_joined(handle, lane_join);
        return;
    }
    judge_refused(handle);
    if (status != RENAMER_MEMORY)
        return;
    /* What was not taken in for want of memory is there for the next call. */
    CHECK(MADE_WITH_MEMORY(join, (&handle->lane)) == RENAMER_DONE);
    judge_joined(handle, lane_join);
}

void call_join_all(void) {
    struct handle *handle = some_handle();
    uint32_t status = MADE(join_all, (&handle->lane));
    show("");
    if (!is_done(status, handle->model ? RENAMER_DONE : RENAMER_NONE, 0)) {
        if (!handle->model)
            return;
        /* Some may be taken in by now: the next call takes the rest. */
        CHECK(MADE_WITH_MEMORY(join_all, (&handle->lane)) == RENAMER_DONE);
    }
    judge_joined(handle, lane_join_all);
}

/* ---- lanes that come back whole */

static int has_any(const struct lane *lane) {
    return lane->quota || lane->granted;
}

/* Frees the lanes with nothing that are back: a call that took a lane back may have met them. Returns whether there
   were some. */
static int forget_empty(struct floor *floor) {
    struct lane **place = &floor->back, *lane;
    int some = 0;
    while ((lane = *place)) {
        if (has_any(lane)) {
            place = &lane->next;
            continue;
        }
        *place = lane->next;
        lane_free(lane);
        some = 1;
    }
    return some;
}

/* The lane that was back with such a quota and such grants is no more among those that are back. Which of several it is
   nobody knows: so each is held to have no more room, and to know of no more clients, than any of them. */
static struct lane *taken_out(struct floor *floor, uint64_t quota, const renamer_grant *grants, uint64_t count) {
    struct lane **found = NULL, *taken;
    uint64_t room = UINT64_MAX, known = UINT64_MAX;
    for (int is_second = 0; is_second < 2; is_second++)
        for (struct lane **place = &floor->back; *place; place = &(*place)->next) {
            struct lane *lane = *place;
            if (lane->quota != quota || lane->granted != count
                || (count && memcmp(lane->grants, grants, count * sizeof *grants) != 0))
                continue;
            lane->room = room = lane->room < room ? lane->room : room;
            lane->known = known = lane->known < known ? lane->known : known;
            found = place;
        }
    CHECK(found);
    taken = *found;
    *found = taken->next;
    floor->lanes++;
    return taken;
}

/* A lane of the floor came back whole, with what it has now. */
static void judge_taken(struct floor *floor, struct handle *back) {
    uint64_t quota, count;
    renamer_grant *grants;
    CHECK(MADE_WITH_MEMORY(quota, (&back->lane, &quota)) == RENAMER_DONE);
    CHECK(MADE_WITH_MEMORY(grant_count, (&back->lane, &count)) == RENAMER_DONE && quota + count > 0);
    grants = unset_array(count, sizeof *grants);
    CHECK(MADE_WITH_MEMORY(grants, (&back->lane, 0, grants, count)) == RENAMER_DONE);
    put_lane(back, taken_out(floor, quota, grants, count));
    judge_lane(back, count < 64);
    free(grants);
}

void call_take_back(void) {
    struct handle *handle = some_handle(), *back = &handles[drawn(run.span)];
    struct floor *floor = handle->model ? handle->model->floor : NULL;
    uint32_t status, wanted = floor ? RENAMER_NOTHING_BACK : RENAMER_NONE;
    int some;
    if (back == handle)
        return;
    for (struct lane *lane = floor ? floor->back : NULL; lane; lane = lane->next)
        wanted = has_any(lane) ? RENAMER_DONE : wanted;
    status = MADE(take_back, (&handle->lane, &back->lane));
    show("into %d", (int)(back - handles));
    CHECK(run.asked == 0);
    some = floor && forget_empty(floor);
    if (!is_done(status, wanted, 0)) {
        judge_refused(handle);
        judge_refused(back);
        return;
    }
    judge_taken(floor, back);
    if (some) {
        /* Of those with nothing some may be back still. */
        CHECK(MADE_WITH_MEMORY(join_all, (&handle->lane)) == RENAMER_DONE);
        judge_joined(handle, lane_join_all);
    }
}
