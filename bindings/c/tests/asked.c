/*
 * Calls that only ask write nothing: four threads ask one lane, one closed floor and one taker at once, while the
 * handles and all memory that the library took may only be read. A write ends the program by a signal. Nor is anything
 * written to a lane by which others are taken back: while threads take them and hand them back, its handle and its own
 * memory may only be read, and nothing is taken of malloc or freed.
 */
#define _DEFAULT_SOURCE
#include "judge.h"
#include <pthread.h>
#include <string.h>
#include <sys/mman.h>

enum { BYTES = 1 << 24, PAGE = 1 << 16, HEAD = 16 };
enum { NAMED = 60, INSIDE = 4, WIDTH = 4, SLOTS = 5, THREADS = 4, ROUNDS = 1000 };

/* The memory that the library takes, one block after another, each behind its size, and in pages of its own if they are
   apart. None is used again. */
static struct {
    renamer_lane lane;
    renamer_quiet quiet;
    renamer_taker taker;
    size_t used;
    __attribute__((aligned(PAGE))) char bytes[BYTES];
} *there;

static int are_apart;
/* How often memory was taken or freed. */
static long calls;

void *__wrap_malloc(size_t size);
void *__wrap_calloc(size_t count, size_t size);
void *__wrap_realloc(void *block, size_t size);
void __wrap_free(void *block);

void *__wrap_malloc(size_t size) {
    size_t unit = are_apart ? PAGE : HEAD, whole = (HEAD + size + unit - 1) / unit * unit;
    __atomic_add_fetch(&calls, 1, __ATOMIC_SEQ_CST);
    there->used = (there->used + unit - 1) / unit * unit;
    if (there->used + whole > BYTES)
        return NULL;
    char *block = there->bytes + there->used;
    there->used += whole;
    memcpy(block, &size, sizeof size);
    return block + HEAD;
}

void *__wrap_calloc(size_t count, size_t size) {
    void *block = __wrap_malloc(count * size);
    return block ? memset(block, 0, count * size) : NULL;
}

void *__wrap_realloc(void *block, size_t size) {
    size_t old = 0;
    void *grown = __wrap_malloc(size);
    if (block && grown) {
        memcpy(&old, (char *)block - HEAD, sizeof old);
        memcpy(grown, block, old < size ? old : size);
    }
    return grown;
}

void __wrap_free(void *block) {
    __atomic_add_fetch(&calls, block != NULL, __ATOMIC_SEQ_CST);
}

static void ask_lane(const renamer_lane *lane) {
    uint64_t number;
    renamer_grant grants[NAMED];
    CHECK(renamer_quota(lane, &number) == RENAMER_DONE && number == 100 - NAMED - INSIDE);
    CHECK(renamer_inside(lane, &number) == RENAMER_DONE && number == INSIDE);
    CHECK(renamer_entered(lane, &number) == RENAMER_DONE && number == NAMED + INSIDE);
    CHECK(renamer_entries(lane, &number) == RENAMER_DONE && number == WIDTH);
    CHECK(renamer_exits(lane, &number) == RENAMER_DONE && number == WIDTH);
    CHECK(renamer_grant_count(lane, &number) == RENAMER_DONE && number == NAMED);
    CHECK(renamer_lowest(lane, &number) == RENAMER_DONE && number == 1);
    CHECK(renamer_grants(lane, 0, grants, NAMED) == RENAMER_DONE && grants[NAMED - 1].client == NAMED - 1);
    CHECK(renamer_grants(lane, 1, grants, NAMED) == RENAMER_SIZE);
}

static void ask_quiet(const renamer_quiet *quiet) {
    uint64_t number, counts[WIDTH], holders[NAMED];
    CHECK(renamer_quiet_exits(quiet, &number) == RENAMER_DONE && number == WIDTH);
    CHECK(renamer_quiet_clients(quiet, &number) == RENAMER_DONE && number == NAMED);
    CHECK(renamer_counts(quiet, counts, WIDTH) == RENAMER_DONE && counts[WIDTH - 1] == NAMED / WIDTH);
    CHECK(renamer_holders(quiet, holders, NAMED) == RENAMER_DONE && holders[NAMED - 1] == NAMED - 1);
    CHECK(renamer_holders(quiet, holders, 1) == RENAMER_SIZE);
}

static void ask_taker(const renamer_taker *taker) {
    uint64_t entered;
    CHECK(renamer_takes_entered(taker, &entered) == RENAMER_DONE && entered == NAMED);
}

/* By which the sanitizer for threads sees that a lane goes from one to another. */
static pthread_mutex_t lane_by_lane = PTHREAD_MUTEX_INITIALIZER;

/* Takes back lanes of one floor, and hands them back. */
static void *take_back(void *argument) {
    for (int round = 0; round < ROUNDS; round++) {
        renamer_lane back = RENAMER_NO_LANE_YET;
        renamer_grant grant;
        CHECK(!IS_ORDER_UNSEEN || pthread_mutex_lock(&lane_by_lane) == 0);
        CHECK(renamer_take_back(&there->lane, &back) == RENAMER_DONE);
        CHECK(renamer_grants(&back, 0, &grant, 1) == RENAMER_DONE && grant.client < SLOTS);
        if (round % 2)
            renamer_free(&back);
        else
            CHECK(renamer_hand_back(&back) == RENAMER_DONE);
        CHECK(!IS_ORDER_UNSEEN || pthread_mutex_unlock(&lane_by_lane) == 0);
    }
    return argument;
}

static void *ask(void *argument) {
    (void)argument;
    for (int round = 0; round < ROUNDS; round++) {
        ask_lane(&there->lane);
        ask_quiet(&there->quiet);
        ask_taker(&there->taker);
    }
    return NULL;
}

/* Names clients on a floor over a bitonic network, one after another. */
static void open_and_name(renamer_lane *lane) {
    uint64_t name;
    CHECK(renamer_open(lane, RENAMER_BITONIC, WIDTH, 100) == RENAMER_DONE);
    for (uint64_t client = 0; client < NAMED; client++)
        CHECK(renamer_name(lane, client, client % WIDTH, &name) == RENAMER_DONE && name == client);
}

/* Takes names on a floor over a bitonic network, together. */
static void open_and_take(renamer_taker *taker) {
    uint64_t names[NAMED];
    CHECK(renamer_open_takes(taker, RENAMER_BITONIC, WIDTH, 0) == RENAMER_DONE);
    CHECK(renamer_take_many(taker, 1, names, NAMED) == RENAMER_DONE);
}

/* Makes so many threads do one thing, while some memory may only be read. */
static void at_once(void *(*what)(void *), void *memory, size_t size) {
    pthread_t threads[THREADS];
    CHECK(mprotect(memory, size, PROT_READ) == 0);
    for (int t = 0; t < THREADS; t++)
        CHECK(pthread_create(&threads[t], NULL, what, NULL) == 0);
    for (int t = 0; t < THREADS; t++)
        CHECK(pthread_join(threads[t], NULL) == 0);
    CHECK(mprotect(memory, size, PROT_READ | PROT_WRITE) == 0);
}

/* Lanes with one grant each are back, and are taken by a lane whose own memory begins a page. */
static void ask_by_taking_back(void) {
    renamer_lane slots[SLOTS];
    uint64_t name;
    long before;
    are_apart = 1;
    CHECK(renamer_open(&there->lane, RENAMER_TREE, 2, SLOTS) == RENAMER_DONE);
    for (uint64_t slot = 0; slot < SLOTS; slot++) {
        slots[slot] = RENAMER_NO_LANE;
        CHECK(renamer_split(&there->lane, 1, &slots[slot]) == RENAMER_DONE);
        CHECK(renamer_name(&slots[slot], slot, 0, &name) == RENAMER_DONE);
    }
    for (int slot = 0; slot < SLOTS; slot++)
        CHECK(renamer_hand_back(&slots[slot]) == RENAMER_DONE);
    before = calls;
    at_once(take_back, there, there->bytes - (char *)there);
    at_once(take_back, (char *)there->lane.at - HEAD, PAGE);
    CHECK(calls == before);
}

int main(void) {
    there = mmap(NULL, sizeof *there, PROT_READ | PROT_WRITE, MAP_PRIVATE | MAP_ANONYMOUS, -1, 0);
    CHECK(there != MAP_FAILED);
    open_and_name(&there->lane);
    CHECK(renamer_close(&there->lane, &there->quiet) == RENAMER_DONE);
    open_and_name(&there->lane);
    for (uint64_t client = 0; client < INSIDE; client++)
        CHECK(renamer_enter(&there->lane, NAMED + client, 1) == RENAMER_DONE);
    open_and_take(&there->taker);
    at_once(ask, there, sizeof *there);
    renamer_free(&there->lane);
    renamer_free_quiet(&there->quiet);
    renamer_free_taker(&there->taker);
    ask_by_taking_back();
    renamer_free(&there->lane);
    return 0;
}
