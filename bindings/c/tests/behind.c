/*
 * A lane is handed back to a place that two joins have passed, and one of them takes the lane that lay before both.
 * Some lane is back all the time, so the other join finds one too: it searches again, since a lane was handed back
 * meanwhile. The hand-back begins then, or began before both and was stopped in its midst. And a join that finds none
 * passes free places by their counts.
 *
 * All go step by step, by the processor's trap for single steps, which runs the second join within the first one, and
 * lets the hand-back go on within the second: for Linux on x86-64. An argument says into how many parts each is cut.
 */
#define _GNU_SOURCE
#include "judge.h"
#include <limits.h>
#include <pthread.h>
#include <semaphore.h>
#include <signal.h>
#include <ucontext.h>

enum { LANES = 20, BEHIND = 1, BEFORE = 18, CUTS = 9, NEAR = 16, MANY = 300 };

/* The code of this program, with the archive. */
extern const char __executable_start, etext;

static renamer_lane first, lanes[MANY];
/* The calls that go step by step: how many steps each made, and at which the trap does what another thread might. Of
   threads only one goes on at a time. */
static enum { OUTER, INNER, RETURN, CALLS } now;
static long steps[CALLS], step[CALLS];
static void (*within[CALLS])(void);

static void trap(int number, siginfo_t *info, void *context) {
    const char *at = (const char *)((ucontext_t *)context)->uc_mcontext.gregs[REG_RIP];
    (void)number, (void)info;
    if (at >= &__executable_start && at < &etext && ++steps[now] == step[now])
        within[now]();
}

/* Makes a call of a lane step by step. */
static uint32_t by_steps(int call, uint32_t (*make)(renamer_lane *), renamer_lane *lane) {
    uint32_t status;
    now = call, steps[call] = 0;
    __asm__ volatile("subq $128, %%rsp; pushfq; orq $0x100, (%%rsp); popfq; addq $128, %%rsp" ::: "cc", "memory");
    status = make(lane);
    __asm__ volatile("subq $128, %%rsp; pushfq; andq $~0x100, (%%rsp); popfq; addq $128, %%rsp" ::: "cc", "memory");
    return status;
}

/* The hand-back, by a thread of its own: it stops at its step until it is to go on. */
static pthread_t thread;
static sem_t is_stopped, goes_on;
static int has_begun, has_ended;

static void *hand_back(void *none) {
    CHECK(by_steps(RETURN, renamer_hand_back, &lanes[BEHIND]) == RENAMER_DONE);
    return none;
}

static void wait_for(sem_t *event) {
    while (sem_wait(event) != 0) {}
}

static void stop(void) {
    CHECK(sem_post(&is_stopped) == 0);
    wait_for(&goes_on);
}

static void begin(void) {
    has_begun = 1;
    CHECK(pthread_create(&thread, NULL, hand_back, NULL) == 0);
    wait_for(&is_stopped);
}

static void end(void) {
    if (has_ended++)
        return;
    if (has_begun) {
        now = RETURN;
        CHECK(sem_post(&goes_on) == 0 && pthread_join(thread, NULL) == 0);
    } else
        hand_back(NULL);
    now = INNER;
}

static void split(int count) {
    CHECK(renamer_open(&first, RENAMER_TREE, 2, 1000) == RENAMER_DONE);
    for (int i = 0; i < count; i++)
        CHECK(renamer_split(&first, 1, &lanes[i]) == RENAMER_DONE);
}

static void free_all(void) {
    for (int i = 0; i < LANES; i++)
        renamer_free(&lanes[i]);
    renamer_free(&first);
}

/* Makes a join of a floor of which one lane is back, while another is being handed back if the hand-back is to stop. */
static uint32_t join_one(void) {
    uint32_t status;
    split(LANES);
    CHECK(renamer_hand_back(&lanes[BEFORE]) == RENAMER_DONE);
    has_begun = has_ended = 0;
    if (step[RETURN])
        begin();
    status = by_steps(OUTER, renamer_join, &lanes[0]);
    end();
    free_all();
    return status;
}

/* Hands a lane back while no other one is back. */
static uint32_t hand_one_back(void) {
    split(LANES);
    hand_back(NULL);
    free_all();
    return RENAMER_DONE;
}

static int is_there;

static void look(void) {
    renamer_lane found = RENAMER_NO_LANE_YET;
    is_there = renamer_take_back(&first, &found) == RENAMER_DONE;
    renamer_free(&found);
}

/* The last step of a call at which another thread still finds a lane that is back, or none, as before the call; or one
   before it, by at most so small a part of all steps. */
static long last_before(int call, uint32_t (*make)(void), int is_before, long part) {
    long low = 1, high;
    within[call] = look, step[call] = 0;
    CHECK(make() == RENAMER_DONE);
    for (high = steps[call]; high - low > 1 + high / part;) {
        step[call] = (low + high) / 2;
        make();
        *(is_there == is_before ? &low : &high) = step[call];
    }
    return low;
}

static void join_another(void) {
    CHECK(by_steps(INNER, renamer_join, &lanes[LANES - 1]) == RENAMER_DONE);
    now = OUTER;
}

/* Pairs of joins, cut into so many parts, and a hand-back that stops at a step, or at none. */
static long pairs(long stops_at, long cuts) {
    long met = 0;
    within[RETURN] = stop, step[RETURN] = stops_at;
    long last = last_before(OUTER, join_one, 1, NEAR);
    within[OUTER] = join_another;
    for (long one = 1; one <= cuts; one++)
        for (long other = 1; other <= cuts; other++, met++) {
            step[OUTER] = one * last / cuts, step[INNER] = other * last / cuts;
            CHECK(join_one() == RENAMER_DONE);
        }
    return met;
}

/* How many steps a join makes that finds no lane, on a floor with places for so many, which are free. */
static long steps_in_vain(int count) {
    step[OUTER] = 0;
    split(count);
    for (int i = 0; i < count; i++)
        renamer_free(&lanes[i]);
    CHECK(renamer_join_all(&first) == RENAMER_DONE && by_steps(OUTER, renamer_join, &first) == RENAMER_NOTHING_BACK);
    renamer_free(&first);
    return steps[OUTER];
}

int main(int count, char **words) {
    struct sigaction action = {.sa_sigaction = trap, .sa_flags = SA_SIGINFO | SA_NODEFER};
    long cuts = count > 1 ? atol(words[1]) : CUTS, met;
    CHECK(sigaction(SIGTRAP, &action, NULL) == 0 && sem_init(&is_stopped, 0, 0) == 0 && sem_init(&goes_on, 0, 0) == 0);
    CHECK(steps_in_vain(MANY) < 5 * steps_in_vain(LANES));
    within[INNER] = end;
    met = pairs(last_before(RETURN, hand_one_back, 0, LONG_MAX), cuts);
    met += pairs(0, cuts);
    printf("%ld pairs of joins found a lane each\n", met);
    return 0;
}
