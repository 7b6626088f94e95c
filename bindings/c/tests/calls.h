/* The handles of a run of random calls, each with its model, and how a call is made, judged and shown. */
#ifndef CALLS_H
#define CALLS_H

#include "growths.h"
#include "model.h"
#include <inttypes.h>

enum { LANES = 32, QUIETS = 8, STATUSES = RENAMER_LANES_THERE + 1, UNSET = 0xa5 };

/* How many elements more an array has than a call knows of, which stay unset: none if writes beyond it are seen, as
   by valgrind. */
#ifndef GUARD
#define GUARD 1
#endif

/* Each call of the header, and the statuses that it can return, a bit each. */
#define STATUS(name) (1u << RENAMER_##name)
#define CALLS(X)                                                                                                       \
    X(version, 0)                                                                                                      \
    X(open, STATUS(KIND) | STATUS(WIDTH) | STATUS(QUOTA) | STATUS(MEMORY))                                             \
    X(open_apart, STATUS(KIND) | STATUS(WIDTH) | STATUS(QUOTA) | STATUS(MEMORY))                                       \
    X(split, STATUS(NONE) | STATUS(QUOTA_TOO_SMALL) | STATUS(MEMORY))                                                  \
    X(reserve, STATUS(NONE) | STATUS(MEMORY))                                                                          \
    X(name, STATUS(NONE) | STATUS(STILL_WALKING) | STATUS(NO_SUCH_ENTRY) | STATUS(QUOTA_SPENT) | STATUS(MEMORY))       \
    X(name_many, STATUS(NONE) | STATUS(SIZE) | STATUS(STILL_WALKING) | STATUS(NO_SUCH_ENTRY) | STATUS(QUOTA_SPENT)     \
                     | STATUS(MEMORY))                                                                                 \
    X(name_list, STATUS(NONE) | STATUS(SIZE) | STATUS(STILL_WALKING) | STATUS(NO_SUCH_ENTRY) | STATUS(QUOTA_SPENT)     \
                     | STATUS(MEMORY))                                                                                 \
    X(enter, STATUS(NONE) | STATUS(NO_SUCH_ENTRY) | STATUS(QUOTA_SPENT) | STATUS(MEMORY))                              \
    X(step, STATUS(NONE) | STATUS(NOBODY_THERE))                                                                       \
    X(sweep, STATUS(NONE) | STATUS(NOBODY_THERE))                                                                      \
    X(lowest, STATUS(NONE) | STATUS(NOBODY_THERE))                                                                     \
    X(entered, STATUS(NONE))                                                                                           \
    X(quota, STATUS(NONE))                                                                                             \
    X(inside, STATUS(NONE))                                                                                            \
    X(entries, STATUS(NONE))                                                                                           \
    X(exits, STATUS(NONE))                                                                                             \
    X(grant_count, STATUS(NONE))                                                                                       \
    X(grants, STATUS(NONE) | STATUS(SIZE))                                                                             \
    X(hand_back, STATUS(NONE) | STATUS(STILL_WALKING))                                                                 \
    X(join, STATUS(NONE) | STATUS(NOTHING_BACK) | STATUS(MEMORY))                                                      \
    X(take_back, STATUS(NONE) | STATUS(NOTHING_BACK))                                                                  \
    X(join_all, STATUS(NONE) | STATUS(MEMORY))                                                                         \
    X(close, STATUS(NONE) | STATUS(STILL_WALKING) | STATUS(LANES_MISSING) | STATUS(MEMORY) | STATUS(LANES_THERE))      \
    X(quiet_exits, STATUS(NONE))                                                                                       \
    X(quiet_clients, STATUS(NONE))                                                                                     \
    X(counts, STATUS(NONE) | STATUS(SIZE))                                                                             \
    X(holders, STATUS(NONE) | STATUS(SIZE))                                                                            \
    X(open_after, STATUS(NONE) | STATUS(CARRIED) | STATUS(QUOTA) | STATUS(MEMORY))                                     \
    X(open_takes, STATUS(KIND) | STATUS(WIDTH) | STATUS(MEMORY))                                                       \
    X(split_taker, STATUS(NONE) | STATUS(QUOTA_TOO_SMALL) | STATUS(MEMORY))                                            \
    X(take, STATUS(NONE) | STATUS(NO_SUCH_ENTRY) | STATUS(QUOTA_SPENT))                                                \
    X(take_many, STATUS(NONE) | STATUS(NO_SUCH_ENTRY) | STATUS(QUOTA_SPENT))                                           \
    X(takes_entered, STATUS(NONE))                                                                                     \
    X(free, 0)                                                                                                         \
    X(free_quiet, 0)                                                                                                   \
    X(free_taker, 0)

#define NAMED(name, statuses) CALL_##name,
enum call { CALLS(NAMED) CALL_COUNT };

struct handle {
    renamer_lane lane;
    struct lane *model;
};

struct closed {
    renamer_quiet quiet;
    struct quiet *model;
};

struct run {
    uint64_t calls, calls_refused, by_status[CALL_COUNT][STATUSES];
    /* Of the episode: what is drawn next, the greatest level, how many handles are used, in how many calls of a hundred
       growths are refused, and whether calls are shown. */
    uint64_t chance, level, span, refusals;
    int is_shown;
    /* The call, the place of its handle, its status, and how many growths it asked for and did not get. */
    enum call call;
    int place;
    uint32_t status;
    long asked, refused;
};

extern struct run run;
/* The last one is none between calls. */
extern struct handle handles[LANES + 1];
extern struct closed closed[QUIETS];
extern const char *const call_names[CALL_COUNT];
uint64_t drawn(uint64_t below);
/* A number at one of the limits of numbers or of the library. */
uint64_t odd_number(void);

/* A handle, most often one that is not none. */
struct handle *some_handle(void);
struct closed *some_closed(void);

/* Makes a call: `MADE(reserve, (&lane, 9))` is its status. Growths of it are refused, if that is drawn. */
#define MADE(name, words) (begin_call(CALL_##name, 1), end_call(renamer_##name words))
#define MADE_WITH_MEMORY(name, words) (begin_call(CALL_##name, 0), end_call(renamer_##name words))
void begin_call(enum call call, int may_be_refused);
uint32_t end_call(uint32_t status);

/* Judges the status of the call, and says whether it was done. Memory may be wanting before the causes in `later`. */
int is_done(uint32_t status, uint32_t wanted, uint32_t later);
/* Shows the call, in the form of printf. */
void show(const char *form, ...);

/* An array that nobody wrote to; whether it is still so from an element on; and its end. */
void *unset_array(size_t count, size_t size);
int is_unset(const void *array, size_t from, size_t count, size_t size);

/* Puts another lane into a handle. What was there is freed: its own growth can be refused. */
void put_lane(struct handle *handle, struct lane *lane);

/* Judges what a lane says of itself, and all its grants if that is asked; and now and then, after a refused call. */
void judge_lane(struct handle *handle, int with_grants);
void judge_refused(struct handle *handle);

/* Each makes one call with random words, and judges what it does. */
void call_version(void);
void call_open(void);
void call_open_after(void);
void call_split(void);
void call_reserve(void);
void call_hand_back(void);
void call_join(void);
void call_take_back(void);
void call_join_all(void);
void call_close(void);
void call_free(void);
void call_free_quiet(void);
void call_name(void);
void call_name_many(void);
void call_name_list(void);
void call_enter(void);
void call_step(void);
void call_sweep(void);
void call_entered(void);
void call_grants(void);
void call_counts(void);
void call_holders(void);
void call_open_takes(void);
void call_split_taker(void);
void call_chain_of_takers(void);
void call_take(void);
void call_take_many(void);
void call_takes_entered(void);
void call_free_taker(void);
/* One of those that ask a lane, or a closed floor, for a number. */
void call_number(void);
void call_quiet_number(void);

/* All that a lane says of itself is asked. More lanes are handed back to a floor than a row of places has. All clients of
   a lane are let out. All is freed. */
void call_all_of_lane(void);
void call_many_back(void);
void call_let_out(void);
void call_free_all(void);
void call_free_takers(void);

#endif
