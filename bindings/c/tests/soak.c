/*
 * Eight threads or a hundred name 262,144 clients on each of many floors, over random networks that go on from random
 * counters: by names, by lists, and by single steps and sweeps, with lanes that are split off, handed back and taken in
 * while others walk. Before that all threads at once split off lanes with nothing, up to ten each, and hand them back.
 * Then one lane takes all in and closes the floor. Each name is judged when it is given, by how many came in so far,
 * and each floor by its names, by the grants of that lane, and by the counts and clients of the closed floor. Beside
 * each floor is one over the same network whose names are taken, as many, by single takes and lists; they are judged
 * alike.
 *
 *     soak FLOORS SECONDS SEED
 *
 * Floor n has the seed SEED + n, and what is drawn for it follows from that. It prints a line for each floor that is
 * wrong, and at the end how many were made, how many of them are wrong, and how often each call was made. When the
 * seconds are over it makes no more; the status is 0 only if all were made and none is wrong.
 */
#include "takes.h"
#include <string.h>
#include <time.h>

enum { FEW_THREADS = 8, MOST_THREADS = 100, MOST_WIDTH = 256, MOST_BEFORE = 1000, HELD = 10, TURNS = 2000 };

static struct thread threads[MOST_THREADS];

/* ---- lanes */

static const char *name_some(struct thread *thread, renamer_lane *lane, uint64_t first, uint64_t count) {
    static const char *(*const ways[])(struct thread *, renamer_lane *, uint64_t, uint64_t) = {by_names, by_a_list,
                                                                                               by_steps};
    const char *wrong = NULL;
    while (count && !wrong) {
        uint64_t part = 1 + drawn(thread, count < MOST_PART ? count : MOST_PART);
        wrong = ways[drawn(thread, 3)](thread, lane, first, part);
        first += part;
        count -= part;
    }
    return wrong;
}

/* Takes in a lane that was handed back, of any thread, if one was. */
static const char *join_one(struct thread *thread, renamer_lane *lane) {
    uint32_t status = renamer_join(lane);
    thread->did[JOINS] += status == RENAMER_DONE;
    return status == RENAMER_DONE || status == RENAMER_NOTHING_BACK ? NULL : "renamer_join was refused";
}

static const char *hand_back(struct thread *thread, renamer_lane *lane) {
    thread->did[BACK]++;
    return renamer_hand_back(lane) == RENAMER_DONE && !lane->at ? NULL : "renamer_hand_back was refused";
}

/* Names clients by a lane that is split off, while a few clients of the thread's own lane are inside. */
static const char *name_by_another(struct thread *thread, uint64_t first, uint64_t count) {
    renamer_lane other = RENAMER_NO_LANE_YET;
    uint64_t inside = drawn(thread, count < MOST_PART ? count : MOST_PART);
    const char *wrong = let_in(thread, &thread->lane, first, inside);
    if (wrong)
        return wrong;
    if (renamer_split(&thread->lane, count - inside, &other) != RENAMER_DONE)
        return "renamer_split was refused";
    thread->did[SPLITS]++;
    wrong = name_some(thread, &other, first + inside, count - inside);
    wrong = wrong ? wrong : let_out(thread, &thread->lane);
    if (!wrong && drawn(thread, 4) == 0)
        wrong = join_one(thread, &other);
    return wrong ? wrong : hand_back(thread, &other);
}

/* Splits off lanes and hands them back, by turns, and takes in what other threads hand back. */
static const char *come_and_go(struct thread *thread) {
    renamer_lane held[HELD] = {RENAMER_NO_LANE_YET};
    const char *wrong = NULL;
    for (int turn = 0; turn < TURNS && !wrong; turn++) {
        renamer_lane *lane = &held[drawn(thread, HELD)];
        if (lane->at)
            wrong = drawn(thread, 4) ? hand_back(thread, lane) : join_one(thread, lane);
        else if (renamer_split(&thread->lane, 0, lane) != RENAMER_DONE)
            wrong = "renamer_split was refused";
        else
            thread->did[SPLITS]++;
        if (!wrong && drawn(thread, 2))
            wrong = join_one(thread, &thread->lane);
    }
    for (int at = 0; at < HELD && !wrong; at++)
        wrong = held[at].at ? hand_back(thread, &held[at]) : NULL;
    return wrong;
}

/* Names all clients of a thread, part by part: by its lane, or by one that is split off meanwhile. */
static void *name_all(void *argument) {
    struct thread *thread = argument;
    uint64_t first = thread->first, left = thread->count, most = 1 + left / 8;
    const char *wrong = come_and_go(thread);
    while (left && !wrong) {
        uint64_t part = 1 + drawn(thread, left < most ? left : most);
        wrong = drawn(thread, 4) ? name_by_another(thread, first, part) : name_some(thread, &thread->lane, first, part);
        first += part;
        left -= part;
    }
    thread->wrong = wrong ? wrong : hand_back(thread, &thread->lane);
    return NULL;
}

/* ---- floors */

/* Opens a floor that goes on from one on which so many clients came. */
static const char *open_after(renamer_lane *rest, uint32_t kind, uint32_t width, uint64_t before) {
    renamer_quiet quiet = RENAMER_NO_QUIET_YET;
    uint32_t status = renamer_open(rest, kind, width, before);
    for (uint64_t client = 0, name; client < before && status == RENAMER_DONE; client++)
        status = renamer_name(rest, client, 0, &name);
    status = status ? status : renamer_close(rest, &quiet);
    status = status ? status : renamer_open_after(rest, &quiet, ALL);
    renamer_free_quiet(&quiet);
    return status == RENAMER_DONE ? NULL : "the floor was not opened";
}

/* Shares out the clients to so many threads. */
static void share_out(int threads_there, uint64_t entries, uint64_t *chance) {
    uint64_t first = 1;
    memset(named, 0, sizeof named);
    atomic_store(&came_in, 0);
    for (int t = 0; t < threads_there; t++) {
        struct thread *thread = &threads[t];
        uint64_t left = ALL + 1 - first, most = 1 + 2 * left / (uint64_t)(threads_there - t);
        uint64_t count = t == threads_there - 1 ? left : draw(chance) % most;
        thread->chance = draw(chance), thread->entries = entries, thread->first = first, thread->count = count;
        thread->wrong = NULL;
        first += count;
    }
}

/* Runs so many threads to their ends. */
static const char *run_all(int threads_there, void *(*run)(void *)) {
    const char *wrong = NULL;
    for (int t = 0; t < threads_there; t++)
        CHECK(pthread_create(&threads[t].id, NULL, run, &threads[t]) == 0);
    for (int t = 0; t < threads_there; t++) {
        CHECK(pthread_join(threads[t].id, NULL) == 0);
        wrong = wrong ? wrong : threads[t].wrong;
    }
    return wrong;
}

/* Runs so many threads on a floor, whose rest has the whole quota, and takes their lanes in. */
static const char *run_threads(renamer_lane *rest, int threads_there, uint64_t *chance) {
    const char *wrong;
    uint64_t entries;
    if (renamer_entries(rest, &entries) != RENAMER_DONE)
        return "renamer_entries was refused";
    share_out(threads_there, entries, chance);
    for (int t = 0; t < threads_there; t++)
        if (renamer_split(rest, threads[t].count, &threads[t].lane) != RENAMER_DONE)
            return "renamer_split was refused";
    wrong = run_all(threads_there, name_all);
    return !wrong && renamer_join_all(rest) != RENAMER_DONE ? "renamer_join_all was refused" : wrong;
}

/* The same of a floor whose names are taken, by takers that are split off its first one. */
static const char *run_takers(int threads_there, uint32_t kind, uint32_t width, uint64_t *chance) {
    renamer_taker first = RENAMER_NO_TAKER_YET;
    const char *wrong = NULL;
    if (renamer_open_takes(&first, kind, width, (uint32_t)(draw(chance) % 2)) != RENAMER_DONE)
        return "renamer_open_takes was refused";
    share_out(threads_there, kind == RENAMER_TREE ? 1 : width, chance);
    for (int t = 0; t < threads_there && !wrong; t++)
        if (renamer_split_taker(&first, &threads[t].taker) != RENAMER_DONE)
            wrong = "renamer_split_taker was refused";
    renamer_free_taker(&first);
    wrong = wrong ? wrong : run_all(threads_there, take_all);
    for (uint64_t name = 0; name < ALL && !wrong; name++)
        wrong = named[name] ? NULL : "a name was not taken";
    return wrong;
}

/* Judges what the lane was given that took all in: each client one name, and each name that of its exit and visit. */
static const char *judge_grants(renamer_lane *rest, uint64_t width, uint64_t before) {
    static unsigned char seen[ALL + 1];
    uint64_t count;
    memset(seen, 0, sizeof seen);
    for (uint64_t name = 0; name < ALL; name++)
        if (named[name] - 1 >= ALL || seen[named[name]]++)
            return "a client has no name, or two";
    if (renamer_grant_count(rest, &count) != RENAMER_DONE || count != ALL)
        return "there are more grants, or fewer";
    for (uint64_t i = 0; i < count; i++) {
        renamer_grant grant;
        if (renamer_grants(rest, i, &grant, 1) != RENAMER_DONE)
            return "renamer_grants was refused";
        if (grant.name >= ALL || named[grant.name] != grant.client)
            return "a grant is another";
        if (grant.exit >= width || grant.name + before != grant.exit + width * grant.visit)
            return "a name is not that of its exit and visit";
    }
    return NULL;
}

/* Closes a floor, and judges what it leaves: the shares of the exits, and the clients by name. */
static const char *judge_quiet(renamer_lane *rest, uint64_t width, uint64_t before) {
    static uint64_t holders[ALL];
    uint64_t counts[MOST_WIDTH];
    renamer_quiet quiet = RENAMER_NO_QUIET_YET;
    if (renamer_close(rest, &quiet) != RENAMER_DONE)
        return "renamer_close was refused";
    uint32_t status = renamer_counts(&quiet, counts, width);
    status = status ? status : renamer_holders(&quiet, holders, ALL);
    renamer_free_quiet(&quiet);
    if (status != RENAMER_DONE || memcmp(holders, named, sizeof named) != 0)
        return "the holders are others";
    for (uint64_t i = 0; i < width; i++)
        if (counts[i] != share(before + ALL, width, i) - share(before, width, i))
            return "a count is another";
    return NULL;
}

/* Runs a floor, and says what is wrong with it, if something is. */
static const char *run_floor(uint64_t seed) {
    renamer_lane rest = RENAMER_NO_LANE_YET;
    uint64_t chance = seed;
    uint32_t kind = (uint32_t)(draw(&chance) % KINDS), width = (uint32_t)2 << draw(&chance) % LEVELS;
    uint64_t before = draw(&chance) % MOST_BEFORE;
    int count = draw(&chance) % 2 ? FEW_THREADS : MOST_THREADS;
    const char *wrong = open_after(&rest, kind, width, before);
    wrong = wrong ? wrong : run_threads(&rest, count, &chance);
    wrong = wrong ? wrong : judge_grants(&rest, width, before);
    wrong = wrong ? wrong : judge_quiet(&rest, width, before);
    wrong = wrong ? wrong : run_takers(count, kind, width, &chance);
    for (int t = 0; t < MOST_THREADS; t++)
        renamer_free(&threads[t].lane), renamer_free_taker(&threads[t].taker);
    renamer_free(&rest);
    return wrong;
}

static void print_calls(void) {
    static const char *const calls[CALLS] = {"names",  "lists",      "names in lists", "enters",    "steps", "sweeps",
                                             "splits", "lanes back", "lanes joined", "takes",
                                             "lists of takes", "takers split off"};
    for (int call = 0; call < CALLS; call++) {
        uint64_t all = 0;
        for (int t = 0; t < MOST_THREADS; t++)
            all += threads[t].did[call];
        printf("%s%" PRIu64 " %s", call ? ", " : "", all, calls[call]);
    }
    printf("\n");
}

int main(int count, char **words) {
    time_t began = time(NULL);
    uint64_t floors, seed, made = 0, wrong = 0;
    CHECK(count == 4);
    floors = strtoull(words[1], NULL, 10), seed = strtoull(words[3], NULL, 10);
    for (; made < floors && time(NULL) - began < atol(words[2]); made++) {
        const char *found = run_floor(seed + made);
        if (found) {
            printf("seed %" PRIu64 ": %s\n", seed + made, found);
            fflush(stdout);
            wrong++;
        }
    }
    print_calls();
    printf("%" PRIu64 " of %" PRIu64 " floors of %d names, %" PRIu64 " wrong\n", made, floors, ALL, wrong);
    return wrong != 0 || made < floors;
}
