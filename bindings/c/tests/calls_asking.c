/* The calls that ask. None takes memory. */
#include "calls.h"
#include <string.h>

static const uint64_t UNSET_NUMBER = 77;

/* What is asked of a lane. */
static uint64_t right(enum call call, const struct lane *lane) {
    switch (call) {
    case CALL_quota:
        return lane->quota;
    case CALL_inside:
        return lane->inside;
    case CALL_entries:
        return lane->floor->network->entries;
    case CALL_exits:
        return lane->floor->network->width;
    case CALL_grant_count:
        return lane->granted;
    default:
        return lane_lowest(lane);
    }
}

static void judge_number(uint32_t status, uint32_t wanted, uint64_t number, uint64_t right_number) {
    show("%" PRIu64, number);
    CHECK(number == (is_done(status, wanted, 0) ? right_number : UNSET_NUMBER));
    CHECK(run.asked == 0);
}

static void ask(struct handle *handle, enum call call, uint32_t (*asking)(const renamer_lane *, uint64_t *)) {
    const struct lane *lane = handle->model;
    uint64_t number = UNSET_NUMBER;
    uint32_t status, wanted = RENAMER_DONE;
    if (!lane)
        wanted = RENAMER_NONE;
    else if (call == CALL_lowest && !lane->inside)
        wanted = RENAMER_NOBODY_THERE;
    begin_call(call, 0);
    status = end_call(asking(&handle->lane, &number));
    judge_number(status, wanted, number, lane ? right(call, lane) : 0);
}

static const struct {
    enum call call;
    uint32_t (*asking)(const renamer_lane *, uint64_t *);
} numbers[] = {{CALL_quota, renamer_quota},     {CALL_inside, renamer_inside},
               {CALL_lowest, renamer_lowest},   {CALL_grant_count, renamer_grant_count},
               {CALL_entries, renamer_entries}, {CALL_exits, renamer_exits}};
enum { NUMBERS = sizeof numbers / sizeof *numbers };

void call_number(void) {
    uint64_t which = drawn(NUMBERS);
    ask(some_handle(), numbers[which].call, numbers[which].asking);
}

static void judge_grants(struct handle *handle) {
    const struct lane *lane = handle->model;
    renamer_grant *grants = unset_array(lane->granted, sizeof *grants);
    CHECK(is_done(MADE_WITH_MEMORY(grants, (&handle->lane, 0, grants, lane->granted)), RENAMER_DONE, 0));
    CHECK(lane->granted == 0 || memcmp(grants, lane->grants, lane->granted * sizeof *grants) == 0);
    free(grants);
}

void judge_lane(struct handle *handle, int with_grants) {
    if (!handle->model) {
        CHECK(!handle->lane.at);
        return;
    }
    for (int which = 0; which < NUMBERS; which++)
        ask(handle, numbers[which].call, numbers[which].asking);
    if (with_grants)
        judge_grants(handle);
}

void judge_refused(struct handle *handle) {
    if (!handle->model || drawn(8) == 0)
        judge_lane(handle, 0);
}

void call_all_of_lane(void) {
    judge_lane(some_handle(), 1);
}

void call_version(void) {
    begin_call(CALL_version, 1);
    CHECK(renamer_version() == RENAMER_VERSION);
    end_call(RENAMER_DONE);
}

/* No less than the lane knew of before, than its clients, and than each of its names and one; no more than came in. */
void call_entered(void) {
    struct handle *handle = some_handle();
    struct lane *lane = handle->model;
    uint64_t number = UNSET_NUMBER;
    uint32_t status = MADE(entered, (&handle->lane, &number));
    show("%" PRIu64, number);
    CHECK(run.asked == 0);
    if (!is_done(status, lane ? RENAMER_DONE : RENAMER_NONE, 0)) {
        CHECK(number == UNSET_NUMBER);
        return;
    }
    CHECK(lane->known <= number && lane->above <= number && lane->granted + lane->inside <= number);
    CHECK(number <= lane->floor->entered);
    lane->known = number;
}

void call_grants(void) {
    struct handle *handle = some_handle();
    const struct lane *lane = handle->model;
    uint64_t granted = lane ? lane->granted : 0, first = drawn(4) ? drawn(granted + 2) : odd_number();
    uint64_t left = first < granted ? granted - first : 0, size = drawn(4) ? drawn(left + 2) : left;
    int are_there = first <= granted && size <= left;
    size_t space = are_there ? size : left;
    renamer_grant *grants = unset_array(space, sizeof *grants);
    uint32_t status, wanted = are_there ? RENAMER_DONE : RENAMER_SIZE;
    if (!are_there && drawn(4) == 0)
        size = UINT64_MAX - drawn(3);
    status = MADE(grants, (&handle->lane, first, grants, size));
    show("from %" PRIu64 ", %" PRIu64, first, size);
    CHECK(run.asked == 0);
    if (is_done(status, lane ? wanted : RENAMER_NONE, 0)) {
        CHECK(size == 0 || memcmp(grants, lane->grants + first, size * sizeof *grants) == 0);
        CHECK(is_unset(grants, size, space, sizeof *grants));
    } else {
        CHECK(is_unset(grants, 0, space, sizeof *grants));
    }
    free(grants);
}

/* ---- closed floors */

void call_quiet_number(void) {
    struct closed *floor = some_closed();
    const struct quiet *quiet = floor->model;
    uint64_t number = UNSET_NUMBER;
    uint32_t status, wanted = quiet ? RENAMER_DONE : RENAMER_NONE;
    if (drawn(2)) {
        status = MADE(quiet_exits, (&floor->quiet, &number));
        judge_number(status, wanted, number, quiet ? quiet->network->width : 0);
    } else {
        status = MADE(quiet_clients, (&floor->quiet, &number));
        judge_number(status, wanted, number, quiet ? quiet->clients : 0);
    }
}

/* A size for a list of such a size: most often the right one. */
static size_t some_size(size_t size) {
    switch (drawn(8)) {
    case 0:
        return size + 1;
    case 1:
        return size ? size - 1 : 2;
    case 2:
        return odd_number();
    default:
        return size;
    }
}

/* Judges a list of a closed floor that was copied into an array of another size, or of the right one. */
static void judge_list(uint32_t status, const struct quiet *quiet, size_t size, const uint64_t *list,
                       size_t right_size) {
    uint32_t wanted = size == right_size ? RENAMER_DONE : RENAMER_SIZE;
    show("%zu", size);
    CHECK(run.asked == 0);
    if (is_done(status, quiet ? wanted : RENAMER_NONE, 0))
        CHECK(is_unset(list, size, size, sizeof *list));
    else
        CHECK(is_unset(list, 0, right_size, sizeof *list));
}

void call_counts(void) {
    struct closed *floor = some_closed();
    const struct quiet *quiet = floor->model;
    size_t width = quiet ? quiet->network->width : 0, size = some_size(width);
    uint64_t *counts = unset_array(width, sizeof *counts);
    uint32_t status = MADE(counts, (&floor->quiet, counts, size));
    judge_list(status, quiet, size, counts, width);
    for (size_t at = 0; at < width && status == RENAMER_DONE; at++)
        CHECK(counts[at] == share(quiet->before + quiet->clients, width, at) - share(quiet->before, width, at));
    free(counts);
}

void call_holders(void) {
    struct closed *floor = some_closed();
    const struct quiet *quiet = floor->model;
    size_t clients = quiet ? quiet->clients : 0, size = some_size(clients);
    uint64_t *holders = unset_array(clients, sizeof *holders);
    uint32_t status = MADE(holders, (&floor->quiet, holders, size));
    judge_list(status, quiet, size, holders, clients);
    CHECK(status != RENAMER_DONE || clients == 0 || memcmp(holders, quiet->holders, clients * sizeof *holders) == 0);
    free(holders);
}
