/*
 * What a lane takes of memory: under 1 kB on each network, until the first client comes in by renamer_enter or by a list
 * that walks together. A single name takes only the memory of its grant. And what a floor takes whose words lie apart: 128
 * bytes for each word in place of 8, and so does a floor that goes on from it. And that room for clients is no larger.
 */
#include "judge.h"
#include <string.h>

enum { HEAD = 16, MOST_BYTES = 1024, LANES = 100, LINE_PAIR = 128 };

void *__real_malloc(size_t size);
void *__real_realloc(void *block, size_t size);
void __real_free(void *block);
void *__wrap_malloc(size_t size);
void *__wrap_calloc(size_t count, size_t size);
void *__wrap_realloc(void *block, size_t size);
void __wrap_free(void *block);

/* How many bytes are there, in blocks of which each stands behind its size. */
static size_t live;

static void *sized(char *head, size_t size) {
    if (!head)
        return NULL;
    memcpy(head, &size, sizeof size);
    live += size;
    return head + HEAD;
}

static char *unsized(void *block) {
    size_t size;
    if (!block)
        return NULL;
    memcpy(&size, (char *)block - HEAD, sizeof size);
    live -= size;
    return (char *)block - HEAD;
}

void *__wrap_malloc(size_t size) {
    return sized(__real_malloc(HEAD + size), size);
}

void *__wrap_calloc(size_t count, size_t size) {
    void *block = __wrap_malloc(count * size);
    return block ? memset(block, 0, count * size) : NULL;
}

void *__wrap_realloc(void *block, size_t size) {
    return sized(__real_realloc(unsized(block), HEAD + size), size);
}

void __wrap_free(void *block) {
    __real_free(unsized(block));
}

/* Lanes that are there at once, of which each names a client. */
static void small_lanes(uint32_t kind, uint32_t width) {
    renamer_lane first = RENAMER_NO_LANE_YET, lanes[LANES];
    uint64_t name;
    CHECK(renamer_open(&first, kind, width, LANES) == RENAMER_DONE);
    size_t before = live;
    for (int lane = 0; lane < LANES; lane++) {
        lanes[lane] = RENAMER_NO_LANE;
        CHECK(renamer_split(&first, 1, &lanes[lane]) == RENAMER_DONE);
    }
    CHECK(live - before < (size_t)MOST_BYTES * LANES);
    for (int lane = 0; lane < LANES; lane++)
        CHECK(renamer_name(&lanes[lane], 17, 0, &name) == RENAMER_DONE && name == (uint64_t)lane);
    CHECK(live - before < (size_t)MOST_BYTES * LANES);
    for (int lane = 0; lane < LANES; lane++)
        renamer_free(&lanes[lane]);
    close_floor(&first, LANES);
}

/* How many words a floor over a network has: one for the lanes, and one for each entry, balancer and exit. */
static size_t word_count(uint32_t kind, uint32_t width) {
    size_t level = 0, halves = width / 2;
    while ((uint32_t)1 << level < width)
        level++;
    switch (kind) {
    case RENAMER_BITONIC: return 1 + width + halves * level * (level + 1) / 2 + width;
    case RENAMER_PERIODIC: return 1 + width + halves * level * level + width;
    default: return 1 + 1 + (width - 1) + width;
    }
}

/* How many bytes a floor takes that a call opens, and one that goes on from it. */
struct sizes {
    size_t first, next;
};

static struct sizes floor_sizes(uint32_t (*open)(renamer_lane *, uint32_t, uint32_t, uint64_t), uint32_t kind,
                                uint32_t width) {
    renamer_lane lane = RENAMER_NO_LANE_YET;
    renamer_quiet quiet = RENAMER_NO_QUIET_YET;
    struct sizes sizes;
    size_t before = live;
    CHECK(open(&lane, kind, width, 3) == RENAMER_DONE);
    sizes.first = live - before;
    CHECK(renamer_close(&lane, &quiet) == RENAMER_DONE);
    before = live;
    CHECK(renamer_open_after(&lane, &quiet, 3) == RENAMER_DONE);
    sizes.next = live - before;
    renamer_free(&lane);
    renamer_free_quiet(&quiet);
    return sizes;
}

static void large_floors(uint32_t kind, uint32_t width) {
    struct sizes packed = floor_sizes(renamer_open, kind, width), apart = floor_sizes(renamer_open_apart, kind, width);
    size_t more = (LINE_PAIR - sizeof(uint64_t)) * word_count(kind, width);
    CHECK(apart.first == packed.first + more && apart.next == packed.next + more);
}

/* Room for many clients: a grant of 32 bytes and a record of 24 for each, and the yard's lines, of at most 16 bytes for each
   wire. Each word but one has one wire or two. */
static void large_room(uint32_t kind, uint32_t width) {
    enum { CLIENTS = 65536, CLIENT_BYTES = 32 + 24, LINE_BYTES = 16 };
    renamer_lane lane = RENAMER_NO_LANE_YET;
    CHECK(renamer_open(&lane, kind, width, CLIENTS) == RENAMER_DONE);
    size_t before = live;
    CHECK(renamer_reserve(&lane, CLIENTS) == RENAMER_DONE);
    CHECK(live - before < (size_t)CLIENT_BYTES * CLIENTS + LINE_BYTES * 2 * word_count(kind, width) + MOST_BYTES);
    renamer_free(&lane);
}

int main(void) {
    for (uint32_t kind = 0; kind < KINDS; kind++)
        for (uint32_t level = 0; level < LEVELS; level++) {
            small_lanes(kind, (uint32_t)2 << level);
            large_floors(kind, (uint32_t)2 << level);
            large_room(kind, (uint32_t)2 << level);
        }
    CHECK(live == 0);
    return 0;
}
