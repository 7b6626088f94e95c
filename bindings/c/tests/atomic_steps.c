/*
 * How many atomic instructions a call makes, wherever their code lies: in the library, in the archive's C or in the C
 * library. A name and a take make one at the entry, one at each balancer on the way and one at the exit; a list of 64 by
 * one entry makes one at the entry, and then one for each part of it that stands on a wire, which is halved at each
 * balancer. Calls that ask make none, a hand-back at most a dozen, and one that takes a lane back 9 at most, in the way
 * of a thread that meets no other. So nobody counts, locks or adds to another word.
 *
 * They are counted by the processor's trap for single steps: for Linux on x86-64.
 */
#define _GNU_SOURCE
#include "judge.h"
#include <pthread.h>
#include <signal.h>
#include <string.h>
#include <unistd.h>

enum { LIST = 64, QUOTA = 1000, ROOM = 400, MOST_AT_A_HAND_BACK = 12, MOST_AT_A_TAKE_BACK = 9, MANY = 1000 };

static volatile long counted;

/* Whether an instruction has the prefix lock, or exchanges a register with memory. */
static int is_atomic(const unsigned char *code) {
    while (*code && strchr("\x66\x67\xf2\xf3\x26\x2e\x36\x3e\x64\x65", *code))
        code++;
    if (*code == 0xf0)
        return 1;
    code += (*code & 0xf0) == 0x40;
    return (code[0] == 0x86 || code[0] == 0x87) && code[1] < 0xc0;
}

static void trap(int number, siginfo_t *info, void *context) {
    (void)number, (void)info;
    counted += is_atomic((const unsigned char *)((ucontext_t *)context)->uc_mcontext.gregs[REG_RIP]);
}

/* Makes a call step by step, which is done, and counts its atomic instructions. */
#define COUNT(call)                                                                                                    \
    do {                                                                                                               \
        uint32_t status_of_call;                                                                                       \
        counted = 0;                                                                                                   \
        __asm__ volatile("subq $128, %%rsp; pushfq; orq $0x100, (%%rsp); popfq; addq $128, %%rsp" ::: "cc", "memory"); \
        status_of_call = (call);                                                                                       \
        __asm__ volatile("subq $128, %%rsp; pushfq; andq $~0x100, (%%rsp); popfq; addq $128, %%rsp" ::: "cc",          \
                         "memory");                                                                                    \
        CHECK(status_of_call == RENAMER_DONE);                                                                         \
    } while (0)

#define COUNTS(call, wanted)                                                                                           \
    do {                                                                                                               \
        COUNT(call);                                                                                                   \
        CHECK(counted == (wanted));                                                                                    \
    } while (0)

static long depth_of(uint32_t kind, int level) {
    return kind == RENAMER_TREE ? level : kind == RENAMER_BITONIC ? level * (level + 1) / 2 : level * level;
}

/* What a list of 64 makes: parts are halved until each has one client. */
static long steps_of_list(long depth) {
    long steps = 1, parts = 1;
    for (long passed = 0; passed <= depth; passed++) {
        steps += parts;
        parts = parts < LIST ? 2 * parts : LIST;
    }
    return steps;
}

static void name_and_take(renamer_lane *lane, renamer_taker *taker, uint64_t entry, long depth) {
    uint64_t name, names[LIST], clients[LIST] = {0};
    renamer_client list[LIST];
    renamer_grant grants[LIST];
    for (int i = 0; i < LIST; i++)
        list[i] = (renamer_client){(uint64_t)i, entry};
    COUNTS(renamer_name(lane, 7, entry, &name), depth + 2);
    COUNTS(renamer_take(taker, entry, &name), depth + 2);
    COUNTS(renamer_name_many(lane, list, LIST, grants, LIST), steps_of_list(depth));
    COUNTS(renamer_name_list(lane, clients, LIST, entry, names, LIST), steps_of_list(depth));
    COUNTS(renamer_take_many(taker, entry, names, LIST), steps_of_list(depth));
}

/* Lets one client step out, and two be swept out of the entry. */
static void step_and_sweep(renamer_lane *lane, uint64_t entry, long depth) {
    renamer_moved moved = {0};
    renamer_swept swept;
    uint64_t wire = entry;
    COUNTS(renamer_enter(lane, 8, entry), 1);
    for (long passed = 0; passed <= depth; passed++) {
        COUNTS(renamer_step(lane, wire, &moved), 1);
        wire = moved.next;
    }
    CHECK(moved.has_left);
    COUNTS(renamer_enter(lane, 9, entry), 1);
    COUNTS(renamer_enter(lane, 10, entry), 1);
    COUNTS(renamer_sweep(lane, entry, &swept), 1);
    while (renamer_lowest(lane, &wire) == RENAMER_DONE)
        COUNTS(renamer_sweep(lane, wire, &swept), 1);
}

static void ask(const renamer_lane *lane, const renamer_taker *taker) {
    uint64_t number;
    renamer_grant grant;
    COUNTS(renamer_entered(lane, &number), 0);
    COUNTS(renamer_quota(lane, &number), 0);
    COUNTS(renamer_inside(lane, &number), 0);
    COUNTS(renamer_entries(lane, &number), 0);
    COUNTS(renamer_exits(lane, &number), 0);
    COUNTS(renamer_grant_count(lane, &number), 0);
    COUNTS(renamer_grants(lane, 0, &grant, 1), 0);
    COUNTS(renamer_takes_entered(taker, &number), 0);
}

/* Hands a lane back, and takes it back, while so many others are out. */
static void hand_back(renamer_lane *lane, int others) {
    static renamer_lane out[MANY];
    renamer_lane back = RENAMER_NO_LANE_YET;
    for (int i = 0; i < others; i++)
        CHECK(renamer_split(lane, 0, &out[i]) == RENAMER_DONE);
    CHECK(renamer_split(lane, 1, &back) == RENAMER_DONE);
    COUNT(renamer_hand_back(&back));
    CHECK(counted <= MOST_AT_A_HAND_BACK);
    COUNT(renamer_take_back(lane, &back));
    CHECK(counted <= MOST_AT_A_TAKE_BACK);
    renamer_free(&back);
    for (int i = 0; i < others; i++)
        renamer_free(&out[i]);
    CHECK(renamer_join_all(lane) == RENAMER_DONE);
}

static void count_on(uint32_t kind, int level) {
    renamer_lane lane = RENAMER_NO_LANE_YET;
    renamer_taker taker = RENAMER_NO_TAKER_YET;
    uint64_t entries;
    uint32_t width = 1u << level;
    long depth = depth_of(kind, level);
    CHECK(renamer_open(&lane, kind, width, QUOTA) == RENAMER_DONE);
    CHECK(renamer_open_takes(&taker, kind, width, level % 2) == RENAMER_DONE);
    CHECK(renamer_reserve(&lane, ROOM) == RENAMER_DONE && renamer_entries(&lane, &entries) == RENAMER_DONE);
    for (uint64_t entry = 0; entry < entries; entry += entries > 1 ? entries - 1 : 1)
        name_and_take(&lane, &taker, entry, depth);
    step_and_sweep(&lane, entries - 1, depth);
    ask(&lane, &taker);
    hand_back(&lane, 10);
    hand_back(&lane, MANY);
    renamer_free(&lane);
    renamer_free_taker(&taker);
}

/* While there is another thread, the C library leaves no lock out. */
static void *stay(void *argument) {
    for (;;)
        pause();
    return argument;
}

int main(void) {
    pthread_t other;
    struct sigaction action;
    memset(&action, 0, sizeof action);
    action.sa_sigaction = trap;
    action.sa_flags = SA_SIGINFO;
    CHECK(sigaction(SIGTRAP, &action, NULL) == 0 && pthread_create(&other, NULL, stay, NULL) == 0);
    for (uint32_t kind = 0; kind < KINDS; kind++)
        for (int level = 1; level <= LEVELS; level++)
            count_on(kind, level);
    return 0;
}
