/*
 * Refuses growths of each call: all from one on, for each of its growths in turn. The call returns RENAMER_MEMORY and
 * has changed nothing, and asked again with memory at hand it is done. If only one growth is refused, a call may find
 * another way. A name by a lane with room asks for no memory, and lists grow seldom.
 */
#include "growths.h"
#include "seen.h"
#include <limits.h>

/* How many calls were refused so far. */
static long refusals;

/* Makes a call with its growths refused from each in turn on, until none is left; `same`: that nothing has changed. */
#define EACH_GROWTH(call, same)                                                                                        \
    do {                                                                                                               \
        uint32_t status = RENAMER_MEMORY;                                                                              \
        for (long growth = 0; status != RENAMER_DONE; growth++) {                                                      \
            growths_refuse(growth, LONG_MAX);                                                                          \
            status = (call);                                                                                           \
            refusals += growths_refused() > 0;                                                                         \
            CHECK(status == (growths_refused() > 0 ? RENAMER_MEMORY : RENAMER_DONE));                                  \
            growths_refuse(0, 0);                                                                                      \
            CHECK(status == RENAMER_DONE || (same));                                                                   \
        }                                                                                                              \
    } while (0)

#define NO_GROWTH(call)                                                                                                \
    do {                                                                                                               \
        long asked = growths_asked();                                                                                  \
        CHECK((call) == RENAMER_DONE && growths_asked() == asked);                                                     \
    } while (0)

/* Opens floors into a handle that has one, each with one growth refused. */
static void open_with_one_refused(renamer_lane *lane, uint32_t kind, uint32_t width, uint64_t quota) {
    long live = growths_live();
    int refused = 1;
    for (long growth = 0; refused; growth++) {
        struct seen before = seen_of(lane);
        uint32_t status;
        growths_refuse(growth, 1);
        status = renamer_open(lane, kind, width, quota);
        refused = growths_refused() > 0;
        growths_refuse(0, 0);
        CHECK(status == RENAMER_DONE || (refused && status == RENAMER_MEMORY && is_as(lane, &before)));
        CHECK(growths_live() == live);
    }
}

/* Opens a floor into a handle that is none, and others into the same handle. */
static void open_one(renamer_lane *lane, uint32_t kind, uint32_t width, uint64_t quota) {
    struct seen before;
    long live = growths_live();
    EACH_GROWTH(renamer_open(lane, kind, width, quota), !lane->at && growths_live() == live);
    before = seen_of(lane), live = growths_live();
    EACH_GROWTH(renamer_open_apart(lane, kind, width, quota), is_as(lane, &before) && growths_live() == live);
    before = seen_of(lane), live = growths_live();
    EACH_GROWTH(renamer_open(lane, kind, width, quota), is_as(lane, &before) && growths_live() == live);
    open_with_one_refused(lane, kind, width, quota);
}

/* Names clients with and without room: with room, a name wants no memory. */
static void name_some(renamer_lane *lane, uint64_t first) {
    uint64_t name = 77;
    struct seen before = seen_of(lane);
    EACH_GROWTH(renamer_name(lane, first, 0, &name), is_as(lane, &before) && name == 77);
    before = seen_of(lane);
    EACH_GROWTH(renamer_reserve(lane, 50), is_as(lane, &before));
    for (uint64_t client = first + 1; client <= first + 50; client++)
        NO_GROWTH(renamer_name(lane, client, 0, &name));
}

/* Names a list of clients without room and with some. */
static void name_a_list(renamer_lane *lane, uint64_t first) {
    renamer_client clients[10];
    renamer_grant grants[10];
    struct seen before = seen_of(lane);
    for (uint64_t i = 0; i < 10; i++)
        clients[i] = (renamer_client){first + i, 0};
    EACH_GROWTH(renamer_name_many(lane, clients, 10, grants, 10), is_as(lane, &before));
    before = seen_of(lane);
    EACH_GROWTH(renamer_reserve(lane, 10), is_as(lane, &before));
    NO_GROWTH(renamer_name_many(lane, clients, 10, grants, 10));
}

/* The same with a list of their numbers. */
static void list_some(renamer_lane *lane, uint64_t first) {
    uint64_t clients[10], names[10];
    struct seen before = seen_of(lane);
    for (uint64_t i = 0; i < 10; i++)
        clients[i] = first + i;
    EACH_GROWTH(renamer_name_list(lane, clients, 10, 0, names, 10), is_as(lane, &before));
    before = seen_of(lane);
    EACH_GROWTH(renamer_reserve(lane, 10), is_as(lane, &before));
    NO_GROWTH(renamer_name_list(lane, clients, 10, 0, names, 10));
}

/* Lets clients in with and without room, and on by steps, which want no memory. */
static void step_some(renamer_lane *lane, uint64_t first) {
    renamer_moved moved;
    renamer_swept swept;
    uint64_t wire;
    struct seen before = seen_of(lane);
    EACH_GROWTH(renamer_enter(lane, first, 0), is_as(lane, &before));
    before = seen_of(lane);
    EACH_GROWTH(renamer_reserve(lane, 2), is_as(lane, &before));
    NO_GROWTH(renamer_enter(lane, first + 1, 0));
    NO_GROWTH(renamer_enter(lane, first + 2, 0));
    NO_GROWTH(renamer_step(lane, 0, &moved));
    while (renamer_lowest(lane, &wire) == RENAMER_DONE)
        NO_GROWTH(renamer_sweep(lane, wire, &swept));
}

/* A lane that is not joined for want of memory is there for each lane of the floor, as before; and the lanes that are back
   stay there if a close gets no memory. */
static void give_back(uint32_t kind, uint32_t width) {
    renamer_lane lane = RENAMER_NO_LANE_YET, other = RENAMER_NO_LANE_YET;
    renamer_quiet quiet = RENAMER_NO_QUIET_YET;
    uint64_t name;
    CHECK(renamer_open(&lane, kind, width, 3) == RENAMER_DONE && renamer_split(&lane, 2, &other) == RENAMER_DONE);
    CHECK(renamer_name(&other, 7, 0, &name) == RENAMER_DONE && renamer_hand_back(&other) == RENAMER_DONE);
    CHECK(renamer_split(&lane, 1, &other) == RENAMER_DONE);
    growths_refuse(0, LONG_MAX);
    CHECK(renamer_join(&other) == RENAMER_MEMORY && renamer_join(&lane) == RENAMER_MEMORY);
    CHECK(renamer_hand_back(&other) == RENAMER_DONE && growths_refused() > 0);
    growths_refuse(0, 0);
    for (int i = 0; i < 2; i++)
        CHECK(renamer_join(&lane) == RENAMER_DONE);
    CHECK(renamer_split(&lane, 0, &other) == RENAMER_DONE && renamer_hand_back(&other) == RENAMER_DONE);
    for (long growth = 0, refused = 1; refused; growth++) {
        growths_refuse(growth, LONG_MAX);
        uint32_t status = renamer_close(&lane, &quiet);
        refused = growths_refused();
        growths_refuse(0, 0);
        CHECK(status == (refused ? RENAMER_MEMORY : RENAMER_DONE));
        if (refused) {
            CHECK(renamer_join(&lane) == RENAMER_DONE && renamer_join(&lane) == RENAMER_NOTHING_BACK);
            CHECK(renamer_split(&lane, 0, &other) == RENAMER_DONE && renamer_hand_back(&other) == RENAMER_DONE);
        }
    }
    renamer_free_quiet(&quiet);
}

/* If a lane gets no memory to take in all that are back, some may be in; what closes the floor then says which are not. The
   call takes in the rest once there is memory. */
static void join_all(uint32_t kind, uint32_t width) {
    renamer_lane lane = RENAMER_NO_LANE_YET, other = RENAMER_NO_LANE_YET;
    renamer_quiet quiet = RENAMER_NO_QUIET_YET;
    uint64_t name;
    CHECK(renamer_open(&lane, kind, width, 9) == RENAMER_DONE);
    for (uint64_t first = 0; first < 9; first += 3) {
        CHECK(renamer_split(&lane, 3, &other) == RENAMER_DONE);
        for (uint64_t client = first; client < first + 3; client++)
            CHECK(renamer_name(&other, client, 0, &name) == RENAMER_DONE);
        CHECK(renamer_hand_back(&other) == RENAMER_DONE);
    }
    growths_refuse(0, LONG_MAX);
    CHECK(renamer_join_all(&lane) == RENAMER_MEMORY && renamer_close(&lane, &quiet) == RENAMER_LANES_MISSING);
    growths_refuse(0, 0);
    EACH_GROWTH(renamer_join_all(&lane), lane.at != NULL);
    CHECK(seen_of(&lane).grants == 9);
    NO_GROWTH(renamer_join_all(&lane));
    CHECK(renamer_close(&lane, &quiet) == RENAMER_DONE);
    renamer_free_quiet(&quiet);
}

/* All lists of a network have their whole space from the start, but that of its wires, which grows once, and the lists of
   places for lanes have one size: so lists grow as often by each width as by 2. The list of a lane's grants doubles, so
   each name but some needs no memory: at most 1 + log2 of their number. */
static void few_growths(uint32_t kind, uint32_t width) {
    enum { NAMES = 4096, MOST_GROWTHS = 13 };
    static long by_two;
    renamer_lane lane = RENAMER_NO_LANE_YET;
    uint64_t name;
    long before = growths_regrown();
    CHECK(renamer_open(&lane, kind, width, NAMES) == RENAMER_DONE);
    if (width == 2)
        by_two = growths_regrown() - before;
    CHECK(growths_regrown() - before == by_two);
    before = growths_asked();
    for (uint64_t client = 0; client < NAMES; client++)
        CHECK(renamer_name(&lane, client, 0, &name) == RENAMER_DONE);
    CHECK(growths_asked() - before <= MOST_GROWTHS);
    renamer_free(&lane);
}

/* A hand-back and a free of a lane take no memory and free none: who takes the lane in frees that of its handle. */
static void free_nothing(uint32_t kind, uint32_t width) {
    renamer_lane lane = RENAMER_NO_LANE_YET, other = RENAMER_NO_LANE_YET;
    open_one(&lane, kind, width, 10);
    for (int is_freed = 0; is_freed < 2; is_freed++) {
        CHECK(renamer_split(&lane, 1, &other) == RENAMER_DONE);
        long live = growths_live(), asked = growths_asked();
        if (is_freed)
            renamer_free(&other);
        else
            CHECK(renamer_hand_back(&other) == RENAMER_DONE);
        CHECK(!other.at && growths_live() == live && growths_asked() == asked);
        CHECK(renamer_join(&lane) == RENAMER_DONE && growths_live() == live - 1);
    }
    renamer_free(&lane);
}

static void run_floor(uint32_t kind, uint32_t width) {
    renamer_lane lane = RENAMER_NO_LANE_YET, other = RENAMER_NO_LANE_YET;
    renamer_quiet quiet = RENAMER_NO_QUIET_YET;
    struct seen before;
    open_one(&lane, kind, width, 200);
    before = seen_of(&lane);
    EACH_GROWTH(renamer_split(&lane, 100, &other), is_as(&lane, &before) && !other.at);
    name_some(&lane, 1000);
    name_some(&other, 2000);
    step_some(&other, 2100);
    growths_refuse(0, LONG_MAX);
    NO_GROWTH(renamer_hand_back(&other));
    growths_refuse(0, 0);
    before = seen_of(&lane);
    EACH_GROWTH(renamer_join(&lane), is_as(&lane, &before));
    before = seen_of(&lane);
    CHECK(before.grants == 105 && before.quota == 95);
    CHECK(renamer_split(&lane, 60, &other) == RENAMER_DONE);
    name_some(&other, 4000);
    CHECK(renamer_hand_back(&other) == RENAMER_DONE && renamer_split(&lane, 0, &other) == RENAMER_DONE);
    growths_refuse(0, LONG_MAX);
    CHECK(renamer_join(&other) == RENAMER_MEMORY && renamer_hand_back(&other) == RENAMER_DONE);
    growths_refuse(0, 0);
    CHECK(renamer_join(&lane) == RENAMER_DONE && renamer_join(&lane) == RENAMER_DONE);
    before = seen_of(&lane);
    CHECK(before.grants == 156 && before.quota == 44);
    EACH_GROWTH(renamer_open(&lane, kind, width, 60), lane.at != NULL);
    name_some(&lane, 3000);
    EACH_GROWTH(renamer_open(&lane, kind, width, 60), lane.at != NULL);
    name_a_list(&lane, 5000);
    list_some(&lane, 6000);
    before = seen_of(&lane);
    EACH_GROWTH(renamer_close(&lane, &quiet), is_as(&lane, &before) && !quiet.at);
    CHECK(!lane.at && !other.at);
    EACH_GROWTH(renamer_open_after(&lane, &quiet, 200), !lane.at);
    renamer_free(&lane);
    renamer_free_quiet(&quiet);
}

int main(void) {
    long live = growths_live();
    for (uint32_t kind = 0; kind < KINDS; kind++)
        for (uint32_t level = 1; level <= 4; level++)
            run_floor(kind, 1u << level), give_back(kind, 1u << level), join_all(kind, 1u << level),
                free_nothing(kind, 1u << level);
    for (uint32_t kind = 0; kind < KINDS; kind++)
        for (uint32_t level = 1; level <= LEVELS; level++)
            few_growths(kind, 1u << level);
    CHECK(growths_live() == live);
    printf("%ld calls were refused their memory\n", refusals);
    return 0;
}
