/*
 * Random calls of the library by one thread, with valid and invalid words, over up to 128 lanes, with growths of memory
 * that are refused. Each call's status and all that it writes is compared with a model (model.c).
 *
 *     fuzz SEED CALLS [EPISODE]
 *
 * Episodes of some 1,600 calls are made until there were so many calls; each begins and ends with nothing. Episode n
 * follows from the seed and n: with EPISODE it makes this one, and shows each call. At the first call that differs it
 * prints what was to hold, and where that was. Else it prints how often each call returned which status. The status is
 * 0 only if nothing differed, and, of a million calls, each status came but RENAMER_CARRIED (carried.c).
 */
#include "calls.h"
#include <stdarg.h>
#include <string.h>

struct run run;
struct handle handles[LANES + 1];
struct closed closed[QUIETS];

#define NAME(name, statuses) #name,
const char *const call_names[CALL_COUNT] = {CALLS(NAME)};
#define LISTED(name, statuses) (statuses) | STATUS(DONE),
static const uint32_t listed[CALL_COUNT] = {CALLS(LISTED)};

/* ---- what is drawn */

/* The next of a series of random numbers (splitmix64). */
static uint64_t draw(uint64_t *chance) {
    uint64_t z = (*chance += 0x9e3779b97f4a7c15u);
    z = (z ^ (z >> 30)) * 0xbf58476d1ce4e5b9u;
    z = (z ^ (z >> 27)) * 0x94d049bb133111ebu;
    return z ^ (z >> 31);
}

uint64_t drawn(uint64_t below) {
    return draw(&run.chance) % below;
}

uint64_t odd_number(void) {
    static const uint64_t limits[] = {0,
                                      2,
                                      64,
                                      256,
                                      262144,
                                      1048576,
                                      1u << 31,
                                      UINT64_C(1) << 32,
                                      UINT64_C(1) << 59,
                                      UINT64_C(1) << 60,
                                      UINT64_C(1) << 61,
                                      UINT64_C(1) << 63};
    return limits[drawn(sizeof limits / sizeof *limits)] + drawn(3) - 1;
}

struct handle *some_handle(void) {
    uint64_t place = drawn(run.span), tries = drawn(64) ? run.span : 0;
    while (tries-- && !handles[place].model)
        place = (place + 1) % run.span;
    run.place = (int)place;
    return &handles[place];
}

struct closed *some_closed(void) {
    uint64_t place = drawn(QUIETS), tries = drawn(8) ? QUIETS : 0;
    while (tries-- && !closed[place].model)
        place = (place + 1) % QUIETS;
    run.place = (int)place;
    return &closed[place];
}

/* ---- a call */

void begin_call(enum call call, int may_be_refused) {
    long granted = (long)drawn(drawn(4) ? 7 : 40), refused = drawn(2) ? 1 : 1000000;
    run.call = call;
    run.calls++;
    growths_refuse(granted, may_be_refused && drawn(100) < run.refusals ? refused : 0);
    run.asked = growths_asked();
}

uint32_t end_call(uint32_t status) {
    run.asked = growths_asked() - run.asked;
    run.refused = growths_refused();
    growths_refuse(0, 0);
    run.status = status;
    run.calls_refused += run.refused > 0;
    CHECK(status < STATUSES && (listed[run.call] >> status & 1));
    run.by_status[run.call][status]++;
    return status;
}

int is_done(uint32_t status, uint32_t wanted, uint32_t later) {
    if (status == RENAMER_MEMORY && run.refused && (wanted == RENAMER_DONE || (later >> wanted & 1)))
        return 0;
    CHECK(status == wanted);
    return status == RENAMER_DONE;
}

void show(const char *form, ...) {
    va_list words;
    if (!run.is_shown)
        return;
    va_start(words, form);
    printf("%s %d: ", call_names[run.call], run.place);
    vprintf(form, words);
    printf(" returned %" PRIu32 ", %ld growths refused\n", run.status, run.refused);
    va_end(words);
}

void *unset_array(size_t count, size_t size) {
    void *array = new_block((count + GUARD) * size);
    memset(array, UNSET, (count + GUARD) * size);
    return array;
}

int is_unset(const void *array, size_t from, size_t count, size_t size) {
    const unsigned char *bytes = array;
    for (size_t at = from * size; at < (count + GUARD) * size; at++)
        if (bytes[at] != UNSET)
            return 0;
    return 1;
}

/* ---- episodes */

static const struct {
    void (*make)(void);
    uint64_t weight;
} ways[] = {
    {call_version, 1},    {call_open, 12},   {call_open_after, 6},   {call_split, 22},      {call_reserve, 8},
    {call_name, 60},      {call_enter, 40},  {call_name_many, 16},   {call_step, 40},       {call_sweep, 24},
    {call_name_list, 12},
    {call_let_out, 40},   {call_number, 17}, {call_entered, 12},     {call_grants, 8},      {call_all_of_lane, 2},
    {call_hand_back, 20}, {call_join, 16},   {call_take_back, 14},   {call_join_all, 5},    {call_many_back, 1},
    {call_close, 14},
    {call_counts, 5},     {call_holders, 5}, {call_quiet_number, 4}, {call_free_quiet, 2},  {call_free, 6},
    {call_take, 30},      {call_take_many, 12}, {call_takes_entered, 8}, {call_open_takes, 6}, {call_split_taker, 10},
    {call_chain_of_takers, 1}, {call_free_taker, 3}};
enum { WAYS = sizeof ways / sizeof *ways };

static int are_none(void) {
    uint64_t place = 0;
    while (place < run.span && !handles[place].model)
        place++;
    return place == run.span;
}

static void make_one(void) {
    uint64_t all = 0, left;
    size_t way = 0;
    if (are_none() && drawn(8)) {
        call_open();
        return;
    }
    for (size_t at = 0; at < WAYS; at++)
        all += ways[at].weight;
    for (left = drawn(all); left >= ways[way].weight; way++)
        left -= ways[way].weight;
    ways[way].make();
}

static void run_episode(uint64_t seed, uint64_t episode) {
    static const uint64_t spans[] = {4, 12, LANES}, levels[] = {3, 3, 3, 6, LEVELS};
    long live = growths_live();
    uint64_t calls;
    run.chance = seed;
    run.chance = draw(&run.chance) + episode;
    run.span = spans[drawn(3)];
    run.level = levels[drawn(5)];
    run.refusals = drawn(2) ? drawn(60) : 0;
    calls = drawn(16) ? 400 : 3000;
    while (calls--)
        make_one();
    run.span = LANES;
    run.refusals = 0;
    for (int at = 0; at < LANES; at++)
        judge_lane(&handles[at], 1);
    call_free_all();
    call_free_takers();
    CHECK(growths_live() == live);
}

/* Where the run is, for one that ends before its time. */
static uint64_t seed, episode;
static int is_over;

static void tell_where(void) {
    if (!is_over)
        printf("seed %" PRIu64 ", episode %" PRIu64 ", call %" PRIu64 ": %s %d returned %" PRIu32 "\n", seed, episode,
               run.calls, call_names[run.call], run.place, run.status);
}

/* Shows how often each call returned which status, and says how many that are looked for did not come. */
static int tell_statuses(void) {
    int missing = 0;
    for (int call = 0; call < CALL_COUNT; call++) {
        printf("%s", call_names[call]);
        for (uint32_t status = 0; status < STATUSES; status++)
            if (listed[call] >> status & 1) {
                printf(", %" PRIu64 " of %" PRIu32, run.by_status[call][status], status);
                missing += status != RENAMER_CARRIED && run.by_status[call][status] == 0;
            }
        printf("\n");
    }
    printf("seed %" PRIu64 ": %" PRIu64 " calls in %" PRIu64 " episodes, %" PRIu64 " of them with refused growths; %d "
           "statuses did not come\n",
           seed, run.calls, episode, run.calls_refused, missing);
    return missing;
}

int main(int count, char **words) {
    uint64_t most;
    CHECK(count == 3 || count == 4);
    atexit(tell_where);
    seed = strtoull(words[1], NULL, 10);
    most = strtoull(words[2], NULL, 10);
    networks_learn();
    if (count == 4) {
        run.is_shown = 1;
        run_episode(seed, episode = strtoull(words[3], NULL, 10));
    }
    for (; count == 3 && run.calls < most; episode++)
        run_episode(seed, episode);
    networks_free();
    is_over = 1;
    return count == 3 && tell_statuses() > 0 && most >= 1000000;
}
