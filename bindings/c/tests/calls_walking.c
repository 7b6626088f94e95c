/* The calls by which clients come in, walk, and get their names. */
#include "calls.h"
#include <string.h>

enum { MOST_LISTED = 200 };

static uint64_t some_client(void) {
    return drawn(2) ? drawn(4) : drawn(UINT64_MAX);
}

/* Most often an entry that the lane's network has. */
static uint64_t some_entry(const struct lane *lane) {
    uint64_t entries = lane ? lane->floor->network->entries : 1;
    return drawn(16) ? drawn(entries) : drawn(2) ? entries : odd_number();
}

/* Why a client or more do not come in, if they do not. */
static uint32_t why_not(const struct lane *lane, int is_entry, uint64_t count) {
    if (!is_entry)
        return RENAMER_NO_SUCH_ENTRY;
    return count > lane->quota ? RENAMER_QUOTA_SPENT : RENAMER_DONE;
}

void call_name(void) {
    struct handle *handle = some_handle();
    struct lane *lane = handle->model;
    uint64_t client = some_client(), entry = some_entry(lane), name = 77;
    uint32_t wanted = RENAMER_NONE, status = MADE(name, (&handle->lane, client, entry, &name));
    show("client %" PRIu64 ", entry %" PRIu64 ", name %" PRIu64, client, entry, name);
    if (lane)
        wanted = lane->inside ? RENAMER_STILL_WALKING : why_not(lane, entry < lane->floor->network->entries, 1);
    CHECK(!lane || !lane->room || run.asked == 0);
    if (!is_done(status, wanted, 0)) {
        CHECK(name == 77);
        judge_refused(handle);
        return;
    }
    lane_enter(lane, client, entry);
    while (lane->inside)
        lane_step(lane, 0);
    CHECK(name == lane->grants[lane->granted - 1].name);
}

void call_enter(void) {
    struct handle *handle = some_handle();
    struct lane *lane = handle->model;
    uint64_t client = some_client(), entry = some_entry(lane);
    uint32_t wanted = RENAMER_NONE, status = MADE(enter, (&handle->lane, client, entry));
    show("client %" PRIu64 ", entry %" PRIu64, client, entry);
    if (lane)
        wanted = why_not(lane, entry < lane->floor->network->entries, 1);
    CHECK(!lane || !lane->room || run.asked == 0);
    if (is_done(status, wanted, 0))
        lane_enter(lane, client, entry);
    else
        judge_refused(handle);
}

/* ---- lists */

/* A list by one entry, by the same for some one after another, or by any; now and then one of them is no entry. */
static int draw_list(const struct lane *lane, renamer_client *clients, size_t count) {
    uint64_t entries = lane ? lane->floor->network->entries : 1, form = drawn(3);
    for (size_t at = 0; at < count; at++) {
        int is_new = at == 0 || form == 0 || (form == 1 && drawn(9) == 0);
        clients[at].client = some_client();
        clients[at].entry = is_new ? drawn(entries) : clients[at - 1].entry;
    }
    if (count == 0 || drawn(16))
        return 1;
    clients[drawn(count)].entry = drawn(2) ? entries : UINT64_MAX - drawn(9);
    return 0;
}

/* Judges the grants of a list: who gets which name is open. They are taken as the lane's. */
static void judge_listed(const renamer_client *clients, const renamer_grant *grants, renamer_grant *model,
                         size_t count) {
    static unsigned char is_name_seen[MOST_LISTED], is_client_seen[MOST_LISTED];
    memset(is_name_seen, 0, sizeof is_name_seen);
    memset(is_client_seen, 0, sizeof is_client_seen);
    for (size_t at = 0; at < count; at++) {
        size_t name = 0, client = 0;
        while (name < count && (is_name_seen[name] || model[name].name != grants[at].name))
            name++;
        CHECK(name < count && model[name].exit == grants[at].exit && model[name].visit == grants[at].visit);
        is_name_seen[name] = 1;
        while (client < count && (is_client_seen[client] || clients[client].client != grants[at].client))
            client++;
        CHECK(client < count);
        is_client_seen[client] = 1;
    }
    if (count)
        memcpy(model, grants, count * sizeof *grants);
}

void call_name_many(void) {
    struct handle *handle = some_handle();
    struct lane *lane = handle->model;
    size_t count = drawn(drawn(2) ? 4 : MOST_LISTED), size = drawn(8) ? count : drawn(2) ? count + 1 : odd_number();
    renamer_client *clients = unset_array(count, sizeof *clients);
    renamer_grant *grants = unset_array(count, sizeof *grants);
    int are_entries = draw_list(lane, clients, count), has_room = lane && lane->room >= count;
    uint32_t wanted = RENAMER_NONE, status = MADE(name_many, (&handle->lane, clients, count, grants, size));
    show("%zu clients, %zu grants", count, size);
    if (lane && size != count)
        wanted = RENAMER_SIZE;
    else if (lane)
        wanted = lane->inside ? RENAMER_STILL_WALKING : why_not(lane, are_entries, count);
    CHECK(!has_room || run.asked == 0);
    if (is_done(status, wanted, 0)) {
        size_t before = lane->granted;
        for (size_t at = 0; at < count; at++)
            lane_enter(lane, clients[at].client, clients[at].entry);
        while (lane->inside)
            lane_step(lane, 0);
        judge_listed(clients, grants, lane->grants + before, count);
        CHECK(is_unset(grants, count, count, sizeof *grants));
    } else {
        CHECK(is_unset(grants, 0, count, sizeof *grants));
        judge_refused(handle);
    }
    free(clients);
    free(grants);
}

/* Judges the names of clients who came in by one entry: each is that of its client by one of these grants. */
static void judge_names(const uint64_t *clients, const uint64_t *names, const renamer_grant *grants, size_t count) {
    static unsigned char is_seen[MOST_LISTED];
    memset(is_seen, 0, sizeof is_seen);
    for (size_t at = 0; at < count; at++) {
        size_t grant = 0;
        while (grant < count && (is_seen[grant] || grants[grant].name != names[at]))
            grant++;
        CHECK(grant < count && grants[grant].client == clients[at]);
        is_seen[grant] = 1;
    }
}

/* Takes clients of a list as named in the model, by the lane's last grants. */
static void take_listed(struct handle *handle, const uint64_t *clients, uint64_t entry, const uint64_t *names,
                        size_t count) {
    static renamer_client listed[MOST_LISTED];
    static renamer_grant grants[MOST_LISTED];
    struct lane *lane = handle->model;
    size_t before = lane->granted;
    CHECK(renamer_grants(&handle->lane, before, grants, count) == RENAMER_DONE);
    for (size_t at = 0; at < count; at++) {
        listed[at] = (renamer_client){clients[at], entry};
        lane_enter(lane, clients[at], entry);
    }
    while (lane->inside)
        lane_step(lane, 0);
    judge_listed(listed, grants, lane->grants + before, count);
    judge_names(clients, names, grants, count);
}

void call_name_list(void) {
    struct handle *handle = some_handle();
    struct lane *lane = handle->model;
    size_t count = drawn(drawn(2) ? 4 : MOST_LISTED), size = drawn(8) ? count : drawn(2) ? count + 1 : odd_number();
    uint64_t *clients = unset_array(count, sizeof *clients), *names = unset_array(count, sizeof *names);
    uint64_t entry = some_entry(lane);
    int has_room = lane && lane->room >= count;
    for (size_t at = 0; at < count; at++)
        clients[at] = some_client();
    uint32_t wanted = RENAMER_NONE, status = MADE(name_list, (&handle->lane, clients, count, entry, names, size));
    show("%zu clients by entry %" PRIu64 ", %zu names", count, entry, size);
    if (lane && size != count)
        wanted = RENAMER_SIZE;
    else if (lane)
        wanted = lane->inside ? RENAMER_STILL_WALKING : why_not(lane, entry < lane->floor->network->entries, count);
    CHECK(!has_room || run.asked == 0);
    if (is_done(status, wanted, 0)) {
        CHECK(is_unset(names, count, count, sizeof *names));
        take_listed(handle, clients, entry, names, count);
    } else {
        CHECK(is_unset(names, 0, count, sizeof *names));
        judge_refused(handle);
    }
    free(clients);
    free(names);
}

/* ---- steps */

/* Most often a wire on which a client of the lane stands. */
static uint64_t some_wire(const struct lane *lane) {
    if (!lane || drawn(16) == 0)
        return odd_number();
    if (!lane->inside || drawn(16) == 0)
        return drawn(lane->floor->network->wires + 2);
    return drawn(2) ? lane_lowest(lane) : lane->tokens[drawn(lane->inside)].wire;
}

static uint32_t wanted_on(const struct lane *lane, uint64_t wire) {
    if (!lane)
        return RENAMER_NONE;
    return lane_first(lane, wire) < lane->inside ? RENAMER_DONE : RENAMER_NOBODY_THERE;
}

void call_step(void) {
    struct handle *handle = some_handle();
    struct lane *lane = handle->model;
    uint64_t wire = some_wire(lane);
    renamer_moved *moved = unset_array(1, sizeof *moved), right;
    uint32_t status = MADE(step, (&handle->lane, wire, moved));
    show("wire %" PRIu64, wire);
    CHECK(run.asked == 0);
    if (is_done(status, wanted_on(lane, wire), 0)) {
        right = lane_step(lane, lane_first(lane, wire));
        CHECK(memcmp(moved, &right, sizeof right) == 0);
    } else {
        CHECK(is_unset(moved, 0, 1, sizeof *moved));
        judge_refused(handle);
    }
    free(moved);
}

static void sweep(struct handle *handle, uint64_t wire) {
    struct lane *lane = handle->model;
    renamer_swept *swept = unset_array(1, sizeof *swept), right;
    uint32_t status = MADE(sweep, (&handle->lane, wire, swept));
    show("wire %" PRIu64, wire);
    CHECK(run.asked == 0);
    if (is_done(status, wanted_on(lane, wire), 0)) {
        right = lane_sweep(lane, wire);
        CHECK(memcmp(swept, &right, sizeof right) == 0);
    } else {
        CHECK(is_unset(swept, 0, 1, sizeof *swept));
        judge_refused(handle);
    }
    free(swept);
}

void call_sweep(void) {
    struct handle *handle = some_handle();
    sweep(handle, some_wire(handle->model));
}

void call_let_out(void) {
    struct handle *handle = some_handle();
    while (handle->model && handle->model->inside)
        sweep(handle, lane_lowest(handle->model));
}
