/*
 * Slots that come back: lanes with one grant each, whose names are the numbers of the slots. How often each thread takes
 * one is the argument. All take them back by one lane that they share, and hand them back. No slot ever has two owners.
 * With a slot for each thread no thread is ever refused, and with fewer only if each slot could be another's at some
 * moment of the call. In the end all slots are there. Other threads split off lanes with nothing and free them: none of
 * these comes in place of a slot.
 */
#include "judge.h"
#include <pthread.h>

enum { MOST_SLOTS = 100, MOST_THREADS = 8, NOISE = 2 };

struct thread {
    pthread_t id;
    renamer_lane own;
    /* Odd from before it asks for a slot until it has none. */
    unsigned long turn;
};

static renamer_lane shared = RENAMER_NO_LANE_YET;
static struct thread threads[MOST_THREADS], noise[NOISE];
static int owners[MOST_SLOTS], thread_count, slot_count, are_done;
static long cycles;

static unsigned long turn_of(int t) {
    return __atomic_load_n(&threads[t].turn, __ATOMIC_SEQ_CST);
}

static void next_turn(struct thread *thread) {
    __atomic_add_fetch(&thread->turn, 1, __ATOMIC_SEQ_CST);
}

/* Whether as many other threads had a slot, or asked for one, since their turns were these, as there are slots. */
static int are_all_out(const struct thread *own, const unsigned long *before) {
    int busy = 0;
    for (int t = 0; t < thread_count; t++)
        busy += &threads[t] != own && (before[t] % 2 || turn_of(t) != before[t]);
    return busy >= slot_count;
}

/* Has a slot for a moment, if one is there. */
static void have_slot(struct thread *thread, int is_freed) {
    renamer_lane slot = RENAMER_NO_LANE_YET;
    renamer_grant grant;
    unsigned long before[MOST_THREADS];
    uint64_t count, quota;
    for (int t = 0; t < thread_count; t++)
        before[t] = turn_of(t);
    next_turn(thread);
    uint32_t status = renamer_take_back(&shared, &slot);
    if (status == RENAMER_NOTHING_BACK) {
        CHECK(!slot.at && are_all_out(thread, before));
    } else {
        CHECK(status == RENAMER_DONE);
        CHECK(renamer_quota(&slot, &quota) == RENAMER_DONE && quota == 0);
        CHECK(renamer_grant_count(&slot, &count) == RENAMER_DONE && count == 1);
        CHECK(renamer_grants(&slot, 0, &grant, 1) == RENAMER_DONE);
        CHECK(grant.name < (uint64_t)slot_count && grant.client == grant.name);
        CHECK(__atomic_exchange_n(&owners[grant.name], 1, __ATOMIC_SEQ_CST) == 0);
        CHECK(__atomic_exchange_n(&owners[grant.name], 0, __ATOMIC_SEQ_CST) == 1);
        if (is_freed)
            renamer_free(&slot);
        else
            CHECK(renamer_hand_back(&slot) == RENAMER_DONE);
    }
    next_turn(thread);
}

static void *have_slots(void *argument) {
    for (long cycle = 0; cycle < cycles; cycle++)
        have_slot(argument, cycle % 2);
    return NULL;
}

static void *make_noise(void *argument) {
    struct thread *thread = argument;
    do {
        renamer_lane empty = RENAMER_NO_LANE_YET;
        CHECK(renamer_split(&thread->own, 0, &empty) == RENAMER_DONE);
        renamer_free(&empty);
    } while (!__atomic_load_n(&are_done, __ATOMIC_SEQ_CST));
    return NULL;
}

static void open_slots(void) {
    static renamer_lane slots[MOST_SLOTS];
    uint64_t name;
    CHECK(renamer_open(&shared, RENAMER_TREE, 2, (uint64_t)slot_count) == RENAMER_DONE);
    for (int slot = 0; slot < slot_count; slot++) {
        CHECK(renamer_split(&shared, 1, &slots[slot]) == RENAMER_DONE);
        CHECK(renamer_name(&slots[slot], (uint64_t)slot, 0, &name) == RENAMER_DONE);
    }
    for (int slot = 0; slot < slot_count; slot++)
        CHECK(renamer_hand_back(&slots[slot]) == RENAMER_DONE);
}

/* Starts a thread. The sanitizer for threads sees one after another. */
static void start(struct thread *thread, void *(*what)(void *)) {
    CHECK(renamer_split(&shared, 0, &thread->own) == RENAMER_DONE);
    CHECK(pthread_create(&thread->id, NULL, what, thread) == 0);
    if (IS_ORDER_UNSEEN)
        CHECK(pthread_join(thread->id, NULL) == 0);
}

static void end(struct thread *thread) {
    if (!IS_ORDER_UNSEEN)
        CHECK(pthread_join(thread->id, NULL) == 0);
    renamer_free(&thread->own);
}

static void run(int count, int slots, int noises) {
    thread_count = count, slot_count = slots, are_done = IS_ORDER_UNSEEN;
    open_slots();
    for (int t = 0; t < noises; t++)
        start(&noise[t], make_noise);
    for (int t = 0; t < count; t++)
        start(&threads[t], have_slots);
    for (int t = 0; t < count; t++)
        end(&threads[t]);
    __atomic_store_n(&are_done, 1, __ATOMIC_SEQ_CST);
    for (int t = 0; t < noises; t++)
        end(&noise[t]);
    close_floor(&shared, (uint64_t)slots);
}

int main(int count, char **words) {
    cycles = count == 2 ? atol(words[1]) : 0;
    CHECK(cycles > 0);
    for (int threads = 1; threads <= MOST_THREADS; threads *= 2)
        for (int noises = 0; noises <= NOISE; noises += NOISE) {
            run(threads, threads, noises);
            run(threads, threads < 4 ? 1 : 3, noises);
            run(threads, MOST_SLOTS, noises);
        }
    return 0;
}
