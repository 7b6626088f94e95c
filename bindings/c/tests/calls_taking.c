/* The calls of takers. One thread takes the names 0, 1, 2 and so on, of whatever network. */
#include "calls.h"

enum { TAKERS = 8, MOST_LISTED = 300, CHAIN = 64 };

/* A floor whose names are taken: how many takers it has, and its next name. */
struct taken_floor {
    uint64_t entries, next;
    int takers;
};

/* A taker: its quota, the greatest number of takes that it knew of, and the greatest of its names and one. */
static struct taker {
    renamer_taker handle;
    struct taken_floor *floor;
    uint64_t quota, known, above;
} takers[TAKERS];

static struct taker *some_taker(void) {
    uint64_t place = drawn(TAKERS), tries = drawn(8) ? TAKERS : 0;
    while (tries-- && !takers[place].floor)
        place = (place + 1) % TAKERS;
    run.place = (int)place;
    return &takers[place];
}

static void let_go(struct taker *taker) {
    if (taker->floor && --taker->floor->takers == 0)
        free(taker->floor);
    taker->floor = NULL;
}

/* Puts another taker into a handle, in whose place it may be the one that was split. */
static void put(struct taker *taker, struct taken_floor *floor, uint64_t quota) {
    floor->takers++;
    let_go(taker);
    taker->floor = floor;
    taker->quota = quota;
    taker->known = taker->above = 0;
    CHECK(taker->handle.at);
}

void call_open_takes(void) {
    struct taker *taker = some_taker();
    uint32_t kind = (uint32_t)(drawn(16) ? drawn(KINDS) : odd_number());
    uint32_t width = (uint32_t)(drawn(16) ? 2u << drawn(run.level) : odd_number());
    uint32_t apart = (uint32_t)(drawn(2) ? 0 : odd_number()), status, wanted = RENAMER_DONE;
    const struct network *network = network_of(kind, width);
    const void *at = taker->handle.at;
    if (!network)
        wanted = kind >= KINDS ? RENAMER_KIND : RENAMER_WIDTH;
    /* As for a lane: growths are refused only if no growth of a free could be the one. */
    begin_call(CALL_open_takes, !taker->floor);
    status = end_call(renamer_open_takes(&taker->handle, kind, width, apart));
    show("kind %" PRIu32 ", width %" PRIu32 ", apart %" PRIu32, kind, width, apart);
    if (is_done(status, wanted, 0)) {
        struct taken_floor *floor = new_block(sizeof *floor);
        floor->entries = network->entries;
        put(taker, floor, UINT64_C(1) << 62);
    } else {
        CHECK(taker->handle.at == at);
    }
}

static uint32_t split(struct taker *taker, struct taker *other) {
    const void *at = other->handle.at;
    uint64_t most = UINT64_C(1) << (taker->quota > UINT64_C(3) << 60 ? 40 : 20);
    uint64_t share = taker->quota / 2 < most ? taker->quota / 2 : most;
    uint32_t status, wanted = RENAMER_NONE;
    if (taker->floor)
        wanted = share ? RENAMER_DONE : RENAMER_QUOTA_TOO_SMALL;
    begin_call(CALL_split_taker, !other->floor);
    status = end_call(renamer_split_taker(&taker->handle, &other->handle));
    show("into %d", (int)(other - takers));
    if (is_done(status, wanted, 0)) {
        taker->quota -= share;
        put(other, taker->floor, share);
    } else {
        CHECK(other->handle.at == at);
    }
    return status;
}

void call_split_taker(void) {
    struct taker *taker = some_taker(), *other = &takers[drawn(TAKERS)];
    if (other != taker)
        split(taker, other);
}

/* Each taker is split off the one before, with half of what that had, until one has a single name. */
void call_chain_of_takers(void) {
    uint64_t at = drawn(TAKERS);
    for (int links = 0; links < CHAIN; links++, at++)
        if (split(&takers[at % TAKERS], &takers[(at + 1) % TAKERS]) != RENAMER_DONE)
            return;
}

static uint32_t why_not(const struct taker *taker, uint64_t entry, uint64_t count) {
    if (!taker->floor)
        return RENAMER_NONE;
    if (entry >= taker->floor->entries)
        return RENAMER_NO_SUCH_ENTRY;
    return count > taker->quota ? RENAMER_QUOTA_SPENT : RENAMER_DONE;
}

static uint64_t some_entry(const struct taker *taker) {
    uint64_t entries = taker->floor ? taker->floor->entries : 1;
    return drawn(16) ? drawn(entries) : drawn(2) ? entries : odd_number();
}

/* So many names were taken. */
static void took(struct taker *taker, uint64_t count) {
    taker->quota -= count;
    taker->floor->next += count;
    taker->above = count ? taker->floor->next : taker->above;
}

void call_take(void) {
    struct taker *taker = some_taker();
    uint64_t entry = some_entry(taker), name = 77;
    uint32_t status = MADE(take, (&taker->handle, entry, &name));
    show("entry %" PRIu64 ", name %" PRIu64, entry, name);
    CHECK(run.asked == 0);
    if (!is_done(status, why_not(taker, entry, 1), 0)) {
        CHECK(name == 77);
        return;
    }
    CHECK(name == taker->floor->next);
    took(taker, 1);
}

/* Each of the next names stands in the list once. */
static void judge_names(const uint64_t *names, uint64_t first, uint64_t count) {
    unsigned char seen[MOST_LISTED] = {0};
    for (uint64_t at = 0; at < count; at++)
        CHECK(names[at] >= first && names[at] - first < count && !seen[names[at] - first]++);
}

void call_take_many(void) {
    struct taker *taker = some_taker();
    size_t space = drawn(drawn(2) ? 4 : MOST_LISTED), count = space;
    uint64_t entry = some_entry(taker), *names = unset_array(space, sizeof *names);
    uint32_t status, wanted;
    /* What is refused may be any number. */
    if (why_not(taker, entry, UINT64_MAX) != RENAMER_QUOTA_SPENT || taker->quota < space)
        count = drawn(2) ? space : UINT64_MAX - drawn(3);
    wanted = why_not(taker, entry, count);
    status = MADE(take_many, (&taker->handle, entry, names, count));
    show("entry %" PRIu64 ", %zu names", entry, count);
    CHECK(run.asked == 0);
    if (is_done(status, wanted, 0)) {
        judge_names(names, taker->floor->next, count);
        CHECK(is_unset(names, count, space, sizeof *names));
        took(taker, count);
    } else {
        CHECK(is_unset(names, 0, space, sizeof *names));
    }
    free(names);
}

/* No less than the taker knew of before and than each of its names and one; no more than were begun. */
void call_takes_entered(void) {
    struct taker *taker = some_taker();
    uint64_t number = 77;
    uint32_t status = MADE(takes_entered, (&taker->handle, &number));
    show("%" PRIu64, number);
    CHECK(run.asked == 0);
    if (!is_done(status, taker->floor ? RENAMER_DONE : RENAMER_NONE, 0)) {
        CHECK(number == 77);
        return;
    }
    CHECK(taker->known <= number && taker->above <= number && number <= taker->floor->next);
    taker->known = number;
}

static void free_taker(struct taker *taker) {
    begin_call(CALL_free_taker, 1);
    renamer_free_taker(&taker->handle);
    end_call(RENAMER_DONE);
    show("");
    CHECK(!taker->handle.at && run.asked == 0);
    let_go(taker);
}

void call_free_taker(void) {
    free_taker(some_taker());
}

void call_free_takers(void) {
    for (int at = 0; at < TAKERS; at++)
        free_taker(&takers[at]);
}
