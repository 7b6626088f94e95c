/*
 * Handles that go from thread to thread: a lane that four threads use by turns under a lock, lanes that are split off
 * in one thread, name in a second and are freed in a third, and a closed floor that is read elsewhere.
 */
#include "judge.h"
#include <pthread.h>

enum { THREADS = 4, EACH = 250, ALL = THREADS * EACH };

static pthread_mutex_t lock = PTHREAD_MUTEX_INITIALIZER;
static renamer_lane shared = RENAMER_NO_LANE_YET, split[THREADS];
static renamer_quiet quiet = RENAMER_NO_QUIET_YET;
static unsigned char seen[ALL];

/* One lane, by turns: no name is given twice. */
static void *name_by_turns(void *unused) {
    for (int i = 0; i < EACH; i++) {
        uint64_t name;
        pthread_mutex_lock(&lock);
        CHECK(renamer_name(&shared, (uint64_t)i, 0, &name) == RENAMER_DONE && name < ALL && !seen[name]++);
        pthread_mutex_unlock(&lock);
    }
    return unused;
}

static void *split_off(void *lane) {
    pthread_mutex_lock(&lock);
    CHECK(renamer_split(&shared, EACH, lane) == RENAMER_DONE);
    pthread_mutex_unlock(&lock);
    return NULL;
}

static void *name_by_itself(void *lane) {
    uint64_t name;
    for (uint64_t i = 0; i < EACH; i++)
        CHECK(renamer_name(lane, i, 0, &name) == RENAMER_DONE && name < ALL);
    return NULL;
}

/* A lane that is freed is handed back, and the last one frees what the others handed back. */
static void *free_lane(void *lane) {
    if (IS_ORDER_UNSEEN)
        pthread_mutex_lock(&lock);
    renamer_free(lane);
    renamer_free(lane);
    if (IS_ORDER_UNSEEN)
        pthread_mutex_unlock(&lock);
    return NULL;
}

/* Frees the lane that named all, and closes another floor. */
static void *close_one(void *unused) {
    uint64_t name;
    CHECK(renamer_open(&shared, RENAMER_TREE, 16, 1) == RENAMER_DONE);
    CHECK(renamer_name(&shared, 7, 0, &name) == RENAMER_DONE && renamer_close(&shared, &quiet) == RENAMER_DONE);
    return unused;
}

static void *read_quiet(void *unused) {
    uint64_t clients;
    CHECK(renamer_quiet_clients(&quiet, &clients) == RENAMER_DONE && clients == 1);
    renamer_free_quiet(&quiet);
    return unused;
}

/* Runs it in four threads, each with its lane. */
static void in_threads(void *(*run)(void *)) {
    pthread_t ids[THREADS];
    for (int t = 0; t < THREADS; t++)
        CHECK(pthread_create(&ids[t], NULL, run, &split[t]) == 0);
    for (int t = 0; t < THREADS; t++)
        CHECK(pthread_join(ids[t], NULL) == 0);
}

static void in_a_thread(void *(*run)(void *)) {
    pthread_t id;
    CHECK(pthread_create(&id, NULL, run, NULL) == 0 && pthread_join(id, NULL) == 0);
}

int main(void) {
    CHECK(renamer_open(&shared, RENAMER_TREE, 16, ALL) == RENAMER_DONE);
    in_threads(name_by_turns);
    renamer_free(&shared);
    CHECK(renamer_open(&shared, RENAMER_TREE, 16, ALL) == RENAMER_DONE);
    in_threads(split_off);
    in_threads(name_by_itself);
    in_a_thread(close_one);
    in_a_thread(read_quiet);
    CHECK(!shared.at && !quiet.at);
    CHECK(renamer_open(&shared, RENAMER_BITONIC, 16, ALL) == RENAMER_DONE);
    in_threads(split_off);
    renamer_free(&shared);
    in_threads(name_by_itself);
    in_threads(free_lane);
    return 0;
}
