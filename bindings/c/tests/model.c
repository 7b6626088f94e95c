#include "model.h"
#include <string.h>

static struct network networks[KINDS][LEVELS];

void *new_block(size_t size) {
    void *block = calloc(1, size ? size : 1);
    CHECK(block);
    return block;
}

/* A list with space for one element more: its space is a power of two. */
static void *grown(void *list, size_t count, size_t size) {
    if (count & (count - 1))
        return list;
    list = realloc(list, (count ? 2 * count : 1) * size);
    CHECK(list);
    return list;
}

static void *copy_of(const void *list, size_t size) {
    void *copy = new_block(size);
    memcpy(copy, list, size);
    return copy;
}

/* ---- networks */

static uint64_t depth_of(uint32_t kind, uint64_t level) {
    return kind == RENAMER_BITONIC ? level * (level + 1) / 2 : kind == RENAMER_PERIODIC ? level * level : level;
}

/* Notes where a client went by a step, which is where each went before who came there. */
static void note(struct network *network, uint64_t wire, const renamer_moved *moved) {
    CHECK(wire < network->wires);
    if (network->end[wire] == UINT64_MAX) {
        network->end[wire] = moved->place;
        network->is_exit[wire] = moved->has_left != 0;
    }
    CHECK(network->end[wire] == moved->place && network->is_exit[wire] == moved->has_left);
    if (moved->has_left) {
        CHECK(moved->place < network->width);
        return;
    }
    CHECK(moved->place < network->balancers && moved->next > wire && moved->next >= network->entries);
    if (network->next[moved->place][moved->number % 2] == UINT64_MAX)
        network->next[moved->place][moved->number % 2] = moved->next;
    CHECK(network->next[moved->place][moved->number % 2] == moved->next);
}

/* Lets a client in and out by single steps, as many as the network is deep and one. */
static void walk(struct network *network, renamer_lane *lane, uint64_t entry, uint64_t depth) {
    renamer_moved moved = {0, 0, 0, 0, 0};
    uint64_t wire, steps = 0;
    CHECK(renamer_enter(lane, entry, entry) == RENAMER_DONE);
    CHECK(renamer_lowest(lane, &wire) == RENAMER_DONE && wire == entry);
    for (; !moved.has_left; steps++) {
        CHECK(renamer_step(lane, wire, &moved) == RENAMER_DONE);
        note(network, wire, &moved);
        wire = moved.next;
    }
    CHECK(steps == depth + 1);
}

static void learn(struct network *network, uint32_t kind, uint64_t level) {
    renamer_lane lane = RENAMER_NO_LANE_YET;
    uint64_t depth = depth_of(kind, level), entries;
    network->width = 1u << level;
    network->entries = kind == RENAMER_TREE ? 1 : network->width;
    network->balancers = kind == RENAMER_TREE ? network->width - 1 : network->width / 2 * depth;
    network->wires = network->entries + 2 * network->balancers;
    network->is_exit = new_block(network->wires);
    network->end = new_block(network->wires * sizeof *network->end);
    network->next = new_block(network->balancers * sizeof *network->next);
    memset(network->end, 0xff, network->wires * sizeof *network->end);
    memset(network->next, 0xff, network->balancers * sizeof *network->next);
    CHECK(renamer_open(&lane, kind, network->width, 4 * network->width) == RENAMER_DONE);
    CHECK(renamer_entries(&lane, &entries) == RENAMER_DONE && entries == network->entries);
    for (uint64_t client = 0; client < 4 * network->width; client++)
        walk(network, &lane, client % entries, depth);
    for (uint64_t wire = 0; wire < network->wires; wire++)
        CHECK(network->end[wire] != UINT64_MAX);
    for (uint64_t at = 0; at < network->balancers; at++)
        CHECK(network->next[at][0] != UINT64_MAX && network->next[at][1] != UINT64_MAX
              && network->next[at][0] != network->next[at][1]);
    renamer_free(&lane);
}

void networks_learn(void) {
    for (uint32_t kind = 0; kind < KINDS; kind++)
        for (uint64_t level = 1; level <= LEVELS; level++)
            learn(&networks[kind][level - 1], kind, level);
}

void networks_free(void) {
    for (uint32_t kind = 0; kind < KINDS; kind++)
        for (uint64_t level = 0; level < LEVELS; level++) {
            free(networks[kind][level].is_exit);
            free(networks[kind][level].end);
            free(networks[kind][level].next);
        }
}

const struct network *network_of(uint32_t kind, uint32_t width) {
    for (uint64_t level = 0; kind < KINDS && level < LEVELS; level++)
        if (networks[kind][level].width == width)
            return &networks[kind][level];
    return NULL;
}

/* ---- lanes */

static struct lane *new_lane(struct floor *floor, uint64_t quota) {
    struct lane *lane = new_block(sizeof *lane);
    lane->floor = floor;
    lane->quota = quota;
    floor->lanes++;
    return lane;
}

void lane_free(struct lane *lane) {
    free(lane->tokens);
    free(lane->grants);
    free(lane);
}

struct lane *lane_split(struct lane *lane, uint64_t quota) {
    lane->quota -= quota;
    return new_lane(lane->floor, quota);
}

static void stand(struct lane *lane, struct token token) {
    lane->tokens = grown(lane->tokens, lane->inside, sizeof token);
    lane->tokens[lane->inside++] = token;
}

static void take_grant(struct lane *lane, const renamer_grant *grant) {
    lane->grants = grown(lane->grants, lane->granted, sizeof *grant);
    lane->grants[lane->granted++] = *grant;
    lane->above = grant->name < lane->above ? lane->above : grant->name + 1;
}

void lane_enter(struct lane *lane, uint64_t client, uint64_t entry) {
    struct token token = {client, entry};
    lane->quota--;
    lane->room -= lane->room > 0;
    lane->floor->entered++;
    stand(lane, token);
}

size_t lane_first(const struct lane *lane, uint64_t wire) {
    size_t at = 0;
    while (at < lane->inside && lane->tokens[at].wire != wire)
        at++;
    return at;
}

uint64_t lane_lowest(const struct lane *lane) {
    uint64_t wire = UINT64_MAX;
    for (size_t at = 0; at < lane->inside; at++)
        wire = lane->tokens[at].wire < wire ? lane->tokens[at].wire : wire;
    return wire;
}

renamer_moved lane_step(struct lane *lane, size_t at) {
    struct floor *floor = lane->floor;
    const struct network *network = floor->network;
    struct token token = lane->tokens[at];
    renamer_moved moved = {token.client, network->is_exit[token.wire], network->end[token.wire], 0, 0};
    lane->inside--;
    memmove(lane->tokens + at, lane->tokens + at + 1, (lane->inside - at) * sizeof token);
    if (moved.has_left) {
        moved.number = floor->visited[moved.place]++;
        moved.next = moved.number * network->width + moved.place - floor->before;
        renamer_grant grant = {token.client, moved.place, moved.number, moved.next};
        take_grant(lane, &grant);
    } else {
        moved.number = floor->passed[moved.place]++;
        moved.next = token.wire = network->next[moved.place][moved.number % 2];
        stand(lane, token);
    }
    return moved;
}

renamer_swept lane_sweep(struct lane *lane, uint64_t wire) {
    const struct network *network = lane->floor->network;
    renamer_swept swept = {network->is_exit[wire], network->end[wire], 0, 0};
    swept.first = swept.have_left ? lane->floor->visited[swept.place] : lane->floor->passed[swept.place];
    for (size_t at; (at = lane_first(lane, wire)) < lane->inside; swept.clients++)
        lane_step(lane, at);
    return swept;
}

/* ---- floors */

struct lane *floor_open(const struct network *network, const struct quiet *quiet, uint64_t quota) {
    struct floor *floor = new_block(sizeof *floor);
    size_t balancers = network->balancers * sizeof *floor->passed, exits = network->width * sizeof *floor->visited;
    floor->network = network;
    floor->quota = quota;
    floor->before = quiet ? quiet->before + quiet->clients : 0;
    floor->passed = quiet ? copy_of(quiet->passed, balancers) : new_block(balancers);
    floor->visited = quiet ? copy_of(quiet->visited, exits) : new_block(exits);
    return new_lane(floor, quota);
}

static void free_floor(struct floor *floor) {
    while (floor->back) {
        struct lane *lane = floor->back;
        floor->back = lane->next;
        lane_free(lane);
    }
    free(floor->passed);
    free(floor->visited);
    free(floor);
}

void lane_let_go(struct lane *lane) {
    struct floor *floor = lane->floor;
    floor->lanes--;
    if (floor->lanes && !lane->inside) {
        lane->next = floor->back;
        floor->back = lane;
    } else
        lane_free(lane);
    if (!floor->lanes)
        free_floor(floor);
}

int lane_join(struct lane *lane, uint64_t quota, const renamer_grant *grants, size_t count) {
    for (struct lane **place = &lane->floor->back; *place; place = &(*place)->next) {
        struct lane *other = *place;
        if (other->quota != quota || other->granted != count
            || (count && memcmp(other->grants, grants, count * sizeof *grants) != 0))
            continue;
        *place = other->next;
        lane->quota += quota;
        lane->room -= lane->room < count ? lane->room : count;
        for (size_t at = 0; at < count; at++)
            take_grant(lane, &grants[at]);
        lane_free(other);
        return 1;
    }
    return 0;
}

/* Whether the first of these grants are all that the lane has. */
static int has_first(const struct lane *lane, const renamer_grant *grants, size_t count) {
    size_t size = lane->granted * sizeof *grants;
    return lane->granted <= count && (size == 0 || memcmp(lane->grants, grants, size) == 0);
}

int lane_join_all(struct lane *lane, uint64_t quota, const renamer_grant *grants, size_t count) {
    while (lane->floor->back) {
        struct lane *other = lane->floor->back;
        for (; other && !has_first(other, grants, count); other = other->next) {}
        if (!other || other->quota > quota)
            return 0;
        size_t taken = other->granted;
        quota -= other->quota;
        if (!lane_join(lane, other->quota, grants, taken))
            return 0;
        grants += taken;
        count -= taken;
    }
    return !quota && !count;
}

struct quiet *lane_close(struct lane *lane) {
    struct floor *floor = lane->floor;
    struct quiet *quiet = new_block(sizeof *quiet);
    unsigned char *is_named = new_block(lane->granted);
    size_t balancers = floor->network->balancers * sizeof *floor->passed;
    quiet->network = floor->network;
    quiet->before = floor->before;
    quiet->clients = lane->granted;
    quiet->passed = copy_of(floor->passed, balancers);
    quiet->visited = copy_of(floor->visited, floor->network->width * sizeof *floor->visited);
    quiet->holders = new_block(lane->granted * sizeof *quiet->holders);
    for (size_t at = 0; at < lane->granted; at++) {
        CHECK(lane->grants[at].name < lane->granted && !is_named[lane->grants[at].name]);
        is_named[lane->grants[at].name] = 1;
        quiet->holders[lane->grants[at].name] = lane->grants[at].client;
    }
    for (uint64_t at = 0; at < floor->network->width; at++)
        CHECK(quiet->visited[at] == share(quiet->before + quiet->clients, floor->network->width, at));
    free(is_named);
    lane_free(lane);
    free_floor(floor);
    return quiet;
}

void quiet_free(struct quiet *quiet) {
    if (!quiet)
        return;
    free(quiet->passed);
    free(quiet->visited);
    free(quiet->holders);
    free(quiet);
}
