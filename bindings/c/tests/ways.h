/* The ways in which the threads of the soak name clients: each notes the names, and returns what is wrong, if something is. */
#ifndef WAYS_H
#define WAYS_H

#include "judge.h"
#include <inttypes.h>
#include <pthread.h>
#include <stdatomic.h>

enum { ALL = RENAMER_MOST_CLIENTS, MOST_PART = 128, RECENT = 16 };

/* How often what was done. */
enum { NAMES, LISTS, LISTED, ENTERS, STEPS, SWEEPS, SPLITS, BACK, JOINS, TAKES, TAKE_LISTS, TAKERS, CALLS };

struct thread {
    pthread_t id;
    renamer_lane lane;
    renamer_taker taker;
    uint64_t chance, entries, first, count, did[CALLS];
    /* Some wires on which clients of the thread stood. */
    uint64_t wires[RECENT];
    /* Why the floor is wrong, if it is. */
    const char *wrong;
};

/* The client with each name: 0 is nobody, and clients are numbered from 1. */
static uint64_t named[ALL];

/* How many clients came in at most: it is raised before they do. */
static _Atomic uint64_t came_in;

/* The next of a series of random numbers (splitmix64). */
static uint64_t draw(uint64_t *chance) {
    uint64_t z = (*chance += 0x9e3779b97f4a7c15u);
    z = (z ^ (z >> 30)) * 0xbf58476d1ce4e5b9u;
    z = (z ^ (z >> 27)) * 0x94d049bb133111ebu;
    return z ^ (z >> 31);
}

static uint64_t drawn(struct thread *thread, uint64_t below) {
    return draw(&thread->chance) % below;
}

/* ---- names */

/* No other thread has this name, so the place is this thread's. */
static const char *note(uint64_t name, uint64_t client) {
    if (name >= ALL)
        return "a name is too high";
    if (name >= atomic_load(&came_in))
        return "a name is not below the number of those who came in";
    if (named[name])
        return "a name was given twice";
    named[name] = client;
    return NULL;
}

static const char *note_grants(const renamer_grant *grants, uint64_t count) {
    const char *wrong = NULL;
    for (uint64_t i = 0; i < count && !wrong; i++)
        wrong = note(grants[i].name, grants[i].client);
    return wrong;
}

static const char *by_names(struct thread *thread, renamer_lane *lane, uint64_t first, uint64_t count) {
    const char *wrong = NULL;
    for (uint64_t i = 0; i < count && !wrong; i++) {
        uint64_t name, entered;
        atomic_fetch_add(&came_in, 1);
        if (renamer_name(lane, first + i, drawn(thread, thread->entries), &name) != RENAMER_DONE)
            return "renamer_name was refused";
        if (i == 0
            && (renamer_entered(lane, &entered) != RENAMER_DONE || entered <= name || entered > atomic_load(&came_in)))
            return "renamer_entered is too low or too high";
        wrong = note(name, first + i);
    }
    thread->did[NAMES] += count;
    return wrong;
}

static const char *by_a_list(struct thread *thread, renamer_lane *lane, uint64_t first, uint64_t count) {
    renamer_client clients[MOST_PART] = {{0, 0}};
    renamer_grant grants[MOST_PART];
    for (uint64_t i = 0; i < count; i++) {
        clients[i].client = first + i;
        clients[i].entry = drawn(thread, thread->entries);
    }
    atomic_fetch_add(&came_in, count);
    if (renamer_name_many(lane, clients, count, grants, count) != RENAMER_DONE)
        return "renamer_name_many was refused";
    thread->did[LISTS]++;
    thread->did[LISTED] += count;
    return note_grants(grants, count);
}

/* ---- steps */

static const char *let_in(struct thread *thread, renamer_lane *lane, uint64_t first, uint64_t count) {
    for (uint64_t i = 0; i < count; i++) {
        uint64_t entry = drawn(thread, thread->entries);
        atomic_fetch_add(&came_in, 1);
        if (renamer_enter(lane, first + i, entry) != RENAMER_DONE)
            return "renamer_enter was refused";
        thread->wires[drawn(thread, RECENT)] = entry;
    }
    thread->did[ENTERS] += count;
    return NULL;
}

/* Lets the first client on a wire go on. */
static uint32_t step(struct thread *thread, renamer_lane *lane, uint64_t wire, const char **wrong) {
    renamer_moved moved;
    uint32_t status = renamer_step(lane, wire, &moved);
    if (status != RENAMER_DONE)
        return status;
    thread->did[STEPS]++;
    if (moved.has_left)
        *wrong = note(moved.next, moved.client);
    else
        thread->wires[drawn(thread, RECENT)] = moved.next;
    return status;
}

/* Lets all clients on a wire go on, which are those of one part at most. */
static uint32_t sweep(struct thread *thread, renamer_lane *lane, uint64_t wire, const char **wrong) {
    renamer_swept swept;
    renamer_grant grants[MOST_PART];
    uint64_t count;
    uint32_t status = renamer_sweep(lane, wire, &swept);
    if (status != RENAMER_DONE)
        return status;
    thread->did[SWEEPS]++;
    if (!swept.have_left)
        thread->wires[drawn(thread, RECENT)] = thread->entries + 2 * swept.place + drawn(thread, 2);
    else if (swept.clients <= MOST_PART && renamer_grant_count(lane, &count) == RENAMER_DONE
             && renamer_grants(lane, count - swept.clients, grants, swept.clients) == RENAMER_DONE)
        *wrong = note_grants(grants, swept.clients);
    else
        *wrong = "the grants of a sweep are not there";
    return status;
}

/* Lets all clients of a lane out: now those on the lowest wire go on, and now those on another, if some stand there. */
static const char *let_out(struct thread *thread, renamer_lane *lane) {
    const char *wrong = NULL;
    uint64_t lowest;
    while (!wrong && renamer_lowest(lane, &lowest) == RENAMER_DONE) {
        uint64_t wire = drawn(thread, 2) ? lowest : thread->wires[drawn(thread, RECENT)];
        uint32_t status = drawn(thread, 2) ? step(thread, lane, wire, &wrong) : sweep(thread, lane, wire, &wrong);
        if (status != RENAMER_DONE && (status != RENAMER_NOBODY_THERE || wire == lowest))
            return "a step or a sweep was refused";
    }
    return wrong;
}

static const char *by_steps(struct thread *thread, renamer_lane *lane, uint64_t first, uint64_t count) {
    const char *wrong = let_in(thread, lane, first, count);
    return wrong ? wrong : let_out(thread, lane);
}

#endif
