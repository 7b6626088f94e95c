/* The calls that open floors, split and hand back lanes, close floors, and free. */
#include "calls.h"

enum { MOST_ROOM = 1048576 };

static uint64_t some_quota(void) {
    return drawn(8) ? drawn(40) : drawn(4) ? drawn(2000) : odd_number();
}

void put_lane(struct handle *handle, struct lane *lane) {
    if (handle->model)
        lane_let_go(handle->model);
    handle->model = lane;
    CHECK(handle->lane.at);
}

void call_open(void) {
    struct handle *handle = some_handle();
    uint32_t kind = (uint32_t)(drawn(16) ? drawn(KINDS) : odd_number());
    uint32_t width = (uint32_t)(drawn(16) ? 2u << drawn(run.level) : odd_number());
    uint64_t quota = some_quota();
    const struct network *network = network_of(kind, width);
    int is_apart = drawn(4) == 0;
    uint32_t status, wanted = RENAMER_DONE;
    if (kind >= KINDS)
        wanted = RENAMER_KIND;
    else if (!network)
        wanted = RENAMER_WIDTH;
    else if (quota > RENAMER_MOST_CLIENTS)
        wanted = RENAMER_QUOTA;
    /* Growths are refused only if the handle is none: else that of the hand-back of its lane could be the one. */
    begin_call(is_apart ? CALL_open_apart : CALL_open, !handle->model);
    status = end_call((is_apart ? renamer_open_apart : renamer_open)(&handle->lane, kind, width, quota));
    show("kind %" PRIu32 ", width %" PRIu32 ", quota %" PRIu64, kind, width, quota);
    if (is_done(status, wanted, 0))
        put_lane(handle, floor_open(network, NULL, quota));
    else
        judge_refused(handle);
}

void call_open_after(void) {
    struct closed *floor = some_closed();
    struct handle *handle = some_handle();
    const struct quiet *quiet = floor->model;
    uint64_t quota = some_quota();
    uint32_t status, wanted = RENAMER_NONE;
    if (quiet)
        wanted = quota > RENAMER_MOST_CLIENTS ? RENAMER_QUOTA : RENAMER_DONE;
    begin_call(CALL_open_after, !handle->model);
    status = end_call(renamer_open_after(&handle->lane, &floor->quiet, quota));
    show("closed floor %d, quota %" PRIu64, (int)(floor - closed), quota);
    if (is_done(status, wanted, 0))
        put_lane(handle, floor_open(quiet->network, quiet, quota));
    else
        judge_refused(handle);
}

static void free_lane(struct handle *handle) {
    begin_call(CALL_free, 1);
    renamer_free(&handle->lane);
    end_call(RENAMER_DONE);
    show("");
    CHECK(!handle->lane.at);
    if (handle->model)
        lane_let_go(handle->model);
    handle->model = NULL;
}

static void split(struct handle *handle, uint64_t quota, struct handle *other) {
    struct lane *lane = handle->model;
    uint32_t status, wanted = RENAMER_NONE;
    if (lane)
        wanted = quota > lane->quota ? RENAMER_QUOTA_TOO_SMALL : RENAMER_DONE;
    begin_call(CALL_split, !other->model);
    status = end_call(renamer_split(&handle->lane, quota, &other->lane));
    show("quota %" PRIu64 ", into %d", quota, (int)(other - handles));
    if (is_done(status, wanted, 0)) {
        put_lane(other, lane_split(lane, quota));
    } else {
        judge_refused(handle);
        judge_refused(other);
    }
}

void call_split(void) {
    struct handle *handle = some_handle(), *other = &handles[drawn(run.span)];
    const struct lane *lane = handle->model;
    uint64_t quota = drawn(8) ? drawn(lane ? lane->quota + 2 : 3) : odd_number();
    if (other != handle)
        split(handle, quota, other);
}

void call_reserve(void) {
    struct handle *handle = some_handle();
    struct lane *lane = handle->model;
    uint64_t clients = drawn(64) ? drawn(64) : odd_number();
    uint32_t wanted = RENAMER_NONE, status = MADE(reserve, (&handle->lane, clients));
    show("%" PRIu64, clients);
    if (lane)
        wanted = clients > MOST_ROOM ? RENAMER_MEMORY : RENAMER_DONE;
    if (is_done(status, wanted, 0))
        lane->room = clients > lane->room ? clients : lane->room;
    else
        judge_refused(handle);
}

static void hand_back(struct handle *handle) {
    struct lane *lane = handle->model;
    uint32_t wanted = RENAMER_NONE, status = MADE(hand_back, (&handle->lane));
    show("");
    if (lane && lane->inside)
        wanted = RENAMER_STILL_WALKING;
    else if (lane)
        wanted = RENAMER_DONE;
    CHECK(run.asked == 0);
    if (is_done(status, wanted, 0)) {
        lane_let_go(lane);
        handle->model = NULL;
    }
    judge_refused(handle);
}

void call_hand_back(void) {
    hand_back(some_handle());
}

/* More lanes come back than a row of places has. */
void call_many_back(void) {
    struct handle *handle = some_handle(), *other = &handles[LANES];
    uint64_t many = drawn(16) ? 80 : 1000;
    for (uint64_t lanes = 0; lanes < many && handle->model; lanes++) {
        split(handle, drawn(2), other);
        if (other->model)
            hand_back(other);
        free_lane(other);
    }
}

/* ---- closes */

static uint32_t why_not_closed(const struct lane *lane) {
    if (!lane)
        return RENAMER_NONE;
    if (lane->inside)
        return RENAMER_STILL_WALKING;
    if (lane->quota + lane->granted != lane->floor->quota)
        return RENAMER_LANES_MISSING;
    return lane->floor->lanes > 1 ? RENAMER_LANES_THERE : RENAMER_DONE;
}

void call_close(void) {
    struct handle *handle = some_handle();
    struct closed *floor = &closed[drawn(QUIETS)];
    const void *at = floor->quiet.at;
    uint32_t wanted = why_not_closed(handle->model), status = MADE(close, (&handle->lane, &floor->quiet));
    show("into %d", (int)(floor - closed));
    if (!is_done(status, wanted, STATUS(LANES_THERE))) {
        CHECK(floor->quiet.at == at);
        judge_refused(handle);
        if (status != RENAMER_MEMORY)
            return;
        if (!is_done(MADE_WITH_MEMORY(close, (&handle->lane, &floor->quiet)), wanted, 0))
            return;
    }
    quiet_free(floor->model);
    floor->model = lane_close(handle->model);
    handle->model = NULL;
    CHECK(!handle->lane.at && floor->quiet.at);
}

/* ---- frees */

static void free_closed(struct closed *floor) {
    begin_call(CALL_free_quiet, 1);
    renamer_free_quiet(&floor->quiet);
    end_call(RENAMER_DONE);
    show("");
    CHECK(!floor->quiet.at && run.asked == 0);
    quiet_free(floor->model);
    floor->model = NULL;
}

void call_free(void) {
    free_lane(some_handle());
}

void call_free_quiet(void) {
    free_closed(some_closed());
}

void call_free_all(void) {
    for (int at = 0; at < LANES; at++)
        free_lane(&handles[at]);
    for (int at = 0; at < QUIETS; at++)
        free_closed(&closed[at]);
}
