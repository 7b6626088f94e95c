/*
 * Lanes and data that go from a thread to another while both run. The sanitizer for threads sees neither the library's
 * atomic steps nor, here, the flags: so it reports races, unless it is told what bindings/c/README.md says.
 */
#include "judge.h"
#include <pthread.h>

#ifdef __SANITIZE_THREAD__
void __tsan_acquire(void *address);
void __tsan_release(void *address);
#else
#define __tsan_acquire(address) ((void)(address))
#define __tsan_release(address) ((void)(address))
#endif

static renamer_lane lanes[2] = {RENAMER_NO_LANE_YET};
static int data, are_back, is_read;

static void raise_flag(int *flag) {
    __atomic_store_n(flag, 1, __ATOMIC_RELAXED);
}

static void wait_for(const int *flag) {
    while (!__atomic_load_n(flag, __ATOMIC_RELAXED))
        ;
}

static void *hand_back(void *argument) {
    uint64_t name;
    for (uint64_t i = 0; i < 2; i++)
        CHECK(renamer_name(&lanes[i], i, 0, &name) == RENAMER_DONE);
    data = 7;
    __tsan_release(&data);
    for (int i = 0; i < 2; i++)
        CHECK(renamer_hand_back(&lanes[i]) == RENAMER_DONE);
    raise_flag(&are_back);
    wait_for(&is_read);
    return argument;
}

int main(void) {
    renamer_lane first = RENAMER_NO_LANE_YET, back = RENAMER_NO_LANE_YET;
    renamer_quiet quiet = RENAMER_NO_QUIET_YET;
    pthread_t thread;
    CHECK(renamer_open(&first, RENAMER_TREE, 2, 2) == RENAMER_DONE);
    for (int i = 0; i < 2; i++)
        CHECK(renamer_split(&first, 1, &lanes[i]) == RENAMER_DONE);
    CHECK(pthread_create(&thread, NULL, hand_back, NULL) == 0);
    wait_for(&are_back);
    CHECK(renamer_take_back(&first, &back) == RENAMER_DONE);
    __tsan_acquire(&data);
    CHECK(data == 7 && renamer_join(&back) == RENAMER_DONE);
    raise_flag(&is_read);
    CHECK(renamer_join(&first) == RENAMER_NOTHING_BACK && renamer_hand_back(&back) == RENAMER_DONE);
    CHECK(renamer_join(&first) == RENAMER_DONE && renamer_close(&first, &quiet) == RENAMER_DONE);
    renamer_free_quiet(&quiet);
    CHECK(pthread_join(thread, NULL) == 0);
    return 0;
}
