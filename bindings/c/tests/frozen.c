/*
 * Threads are stopped for good in the midst of a hand-back, a split or a join, or of a take, as by the scheduler: one
 * at each instruction of the library in such a call, as far as there are threads. No other thread waits for them: lanes
 * are split off, handed back and joined as if they were not there, and what they do not keep themselves is found; and
 * names are taken, and takers split off, as if they were not there.
 *
 * A thread stops where the processor's trap for single steps has come so often: for Linux on x86-64.
 */
#define _GNU_SOURCE
#include "judge.h"
#include <pthread.h>
#include <signal.h>
#include <stdio.h>
#include <unistd.h>

enum { MOST_STOPPED = 100, FREE = 500, WIDTH = 8, LIST = 5, SECONDS = 60, STACK = 1 << 17 };

/* The code of this program, with the archive: what it calls in other libraries, as malloc, is not stopped. */
extern const char __executable_start, etext;

enum call { HAND_BACK, SPLIT, JOIN, CALLS, TAKE = CALLS, TAKE_MANY, SPLIT_TAKER, ALL_CALLS };

static const char *const names_of_calls[ALL_CALLS] = {"renamer_hand_back", "renamer_split",     "renamer_join",
                                                      "renamer_take",      "renamer_take_many", "renamer_split_taker"};

struct thread {
    pthread_t id;
    enum call call;
    renamer_lane lane, other;
    renamer_taker taker, other_taker;
};

static __thread long steps, last_step;
static int stopped;

static void trap(int number, siginfo_t *info, void *context) {
    const char *at = (const char *)((ucontext_t *)context)->uc_mcontext.gregs[REG_RIP];
    (void)number, (void)info;
    if (at < &__executable_start || at >= &etext || ++steps != last_step)
        return;
    __atomic_add_fetch(&stopped, 1, __ATOMIC_SEQ_CST);
    for (;;)
        pause();
}

static uint32_t make_call(struct thread *thread) {
    uint64_t names[LIST];
    switch (thread->call) {
    case HAND_BACK:
        return renamer_hand_back(&thread->lane);
    case SPLIT:
        return renamer_split(&thread->lane, 1, &thread->other);
    case JOIN:
        return renamer_join(&thread->lane);
    case TAKE:
        return renamer_take(&thread->taker, 0, names);
    case TAKE_MANY:
        return renamer_take_many(&thread->taker, 0, names, LIST);
    default:
        return renamer_split_taker(&thread->taker, &thread->other_taker);
    }
}

/* Makes a call step by step, and returns how many steps it took in the library. */
static long step_through(struct thread *thread, long last) {
    uint32_t status;
    steps = 0, last_step = last;
    __asm__ volatile("subq $128, %%rsp; pushfq; orq $0x100, (%%rsp); popfq; addq $128, %%rsp" ::: "cc", "memory");
    status = make_call(thread);
    __asm__ volatile("subq $128, %%rsp; pushfq; andq $~0x100, (%%rsp); popfq; addq $128, %%rsp" ::: "cc", "memory");
    CHECK(status == RENAMER_DONE);
    return steps;
}

static long last_of[MOST_STOPPED];
static struct thread threads[MOST_STOPPED];

static void *stop_within(void *argument) {
    struct thread *thread = argument;
    step_through(thread, last_of[thread - threads]);
    __atomic_add_fetch(&stopped, 1, __ATOMIC_SEQ_CST);
    return NULL;
}

/* Splits off lanes, hands all back and takes all in that are there, of so many. */
static void go_on(renamer_lane *lane, int kept) {
    static renamer_lane free_lanes[FREE];
    uint64_t before, after, count;
    CHECK(renamer_quota(lane, &before) == RENAMER_DONE);
    for (int i = 0; i < FREE; i++)
        CHECK(renamer_split(lane, 1, &free_lanes[i]) == RENAMER_DONE);
    for (int i = 0; i < FREE; i++) {
        CHECK(renamer_name(&free_lanes[i], (uint64_t)i, 0, &count) == RENAMER_DONE);
        CHECK(renamer_hand_back(&free_lanes[i]) == RENAMER_DONE);
    }
    CHECK(renamer_join_all(lane) == RENAMER_DONE && renamer_join(lane) == RENAMER_NOTHING_BACK);
    CHECK(renamer_grant_count(lane, &count) == RENAMER_DONE && count == FREE);
    CHECK(renamer_quota(lane, &after) == RENAMER_DONE && after + FREE >= before && after + FREE <= before + kept);
}

/* Starts a thread that stops, and waits until it has. */
static void stop_thread(int t, const pthread_attr_t *small) {
    CHECK(pthread_create(&threads[t].id, small, stop_within, &threads[t]) == 0);
    while (__atomic_load_n(&stopped, __ATOMIC_SEQ_CST) <= t)
        usleep(100);
}

static void tell(enum call call, long steps_of_call) {
    printf("%d threads are stopped in one of %ld steps of %s\n", MOST_STOPPED, steps_of_call, names_of_calls[call]);
}

/* Stops threads in calls, one at each of the call's steps or spread over them, and goes on meanwhile. */
static void stop_in(enum call call) {
    renamer_lane lane = RENAMER_NO_LANE_YET, one = RENAMER_NO_LANE_YET;
    pthread_attr_t small;
    struct thread first = {.call = call};
    CHECK(pthread_attr_init(&small) == 0 && pthread_attr_setstacksize(&small, STACK) == 0);
    CHECK(renamer_open(&lane, RENAMER_TREE, 2, 10000) == RENAMER_DONE);
    CHECK(renamer_split(&lane, 2, &first.lane) == RENAMER_DONE);
    if (call == JOIN)
        CHECK(renamer_split(&lane, 1, &one) == RENAMER_DONE && renamer_hand_back(&one) == RENAMER_DONE);
    long all = step_through(&first, 0);
    CHECK(all > 0);
    renamer_free(&first.lane), renamer_free(&first.other);
    CHECK(renamer_join_all(&lane) == RENAMER_DONE);
    __atomic_store_n(&stopped, 0, __ATOMIC_SEQ_CST);
    for (int t = 0; t < MOST_STOPPED; t++) {
        threads[t] = (struct thread){.call = call};
        last_of[t] = 1 + all * t / MOST_STOPPED;
        CHECK(renamer_split(&lane, 2, &threads[t].lane) == RENAMER_DONE);
    }
    for (int t = 0; t < MOST_STOPPED; t++) {
        if (call == JOIN)
            CHECK(renamer_split(&lane, 1, &one) == RENAMER_DONE && renamer_hand_back(&one) == RENAMER_DONE);
        stop_thread(t, &small);
    }
    go_on(&lane, 2 * MOST_STOPPED);
    tell(call, all);
}

/* Splits off takers, and takes names by all: each is given once, and is low. */
static void take_on(renamer_taker *taker) {
    enum { BEGUN = (1 + MOST_STOPPED) * LIST + 3 * FREE };
    static unsigned char is_given[BEGUN];
    renamer_taker other = RENAMER_NO_TAKER_YET;
    uint64_t names[3], begun;
    for (int i = 0; i < BEGUN; i++)
        is_given[i] = 0;
    for (int i = 0; i < FREE; i++) {
        CHECK(renamer_split_taker(taker, &other) == RENAMER_DONE);
        CHECK(renamer_take(taker, (uint64_t)i % WIDTH, &names[0]) == RENAMER_DONE);
        CHECK(renamer_take_many(&other, 1, &names[1], 2) == RENAMER_DONE);
        for (int name = 0; name < 3; name++)
            CHECK(names[name] < BEGUN && !is_given[names[name]]++);
        CHECK(renamer_takes_entered(taker, &begun) == RENAMER_DONE && names[0] < begun && begun <= BEGUN);
    }
    renamer_free_taker(&other);
}

/* The same of calls of takers. */
static void stop_takers(enum call call) {
    renamer_taker taker = RENAMER_NO_TAKER_YET;
    pthread_attr_t small;
    struct thread first = {.call = call};
    CHECK(pthread_attr_init(&small) == 0 && pthread_attr_setstacksize(&small, STACK) == 0);
    CHECK(renamer_open_takes(&taker, RENAMER_BITONIC, WIDTH, 0) == RENAMER_DONE);
    CHECK(renamer_split_taker(&taker, &first.taker) == RENAMER_DONE);
    long all = step_through(&first, 0);
    CHECK(all > 0);
    __atomic_store_n(&stopped, 0, __ATOMIC_SEQ_CST);
    for (int t = 0; t < MOST_STOPPED; t++) {
        threads[t] = (struct thread){.call = call};
        last_of[t] = 1 + all * t / MOST_STOPPED;
        CHECK(renamer_split_taker(&taker, &threads[t].taker) == RENAMER_DONE);
        stop_thread(t, &small);
    }
    take_on(&taker);
    tell(call, all);
}

int main(void) {
    struct sigaction action = {0};
    action.sa_sigaction = trap;
    action.sa_flags = SA_SIGINFO;
    CHECK(sigaction(SIGTRAP, &action, NULL) == 0);
    alarm(SECONDS);
    for (int call = 0; call < CALLS; call++)
        stop_in((enum call)call);
    for (int call = TAKE; call < ALL_CALLS; call++)
        stop_takers((enum call)call);
    fflush(stdout);
    _exit(0);
}
