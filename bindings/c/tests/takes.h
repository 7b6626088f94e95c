/* How the threads of the soak take names, of which there are as many as clients on a floor of lanes. */
#ifndef TAKES_H
#define TAKES_H

#include "ways.h"

enum { MOST_SPLITS = 20 };

static const char *take_alone(struct thread *thread, renamer_taker *taker, uint64_t count) {
    const char *wrong = NULL;
    for (uint64_t i = 0; i < count && !wrong; i++) {
        uint64_t name, entered;
        atomic_fetch_add(&came_in, 1);
        if (renamer_take(taker, drawn(thread, thread->entries), &name) != RENAMER_DONE)
            return "renamer_take was refused";
        if (i == 0
            && (renamer_takes_entered(taker, &entered) != RENAMER_DONE || entered <= name
                || entered > atomic_load(&came_in)))
            return "renamer_takes_entered is too low or too high";
        wrong = note(name, thread->first);
    }
    thread->did[TAKES] += count;
    return wrong;
}

static const char *take_together(struct thread *thread, renamer_taker *taker, uint64_t count) {
    uint64_t names[MOST_PART];
    const char *wrong = NULL;
    atomic_fetch_add(&came_in, count);
    if (renamer_take_many(taker, drawn(thread, thread->entries), names, count) != RENAMER_DONE)
        return "renamer_take_many was refused";
    for (uint64_t i = 0; i < count && !wrong; i++)
        wrong = note(names[i], thread->first);
    thread->did[TAKE_LISTS]++;
    return wrong;
}

/* Takes all names of a thread, part by part: by its taker, or now and then by another that is split off it. */
static void *take_all(void *argument) {
    struct thread *thread = argument;
    const char *wrong = NULL;
    int splits = 0;
    for (uint64_t part, left = thread->count; left && !wrong; left -= part) {
        renamer_taker other = RENAMER_NO_TAKER_YET, *taker = &thread->taker;
        part = 1 + drawn(thread, left < MOST_PART ? left : MOST_PART);
        if (splits < MOST_SPLITS && drawn(thread, 8) == 0) {
            if (renamer_split_taker(&thread->taker, &other) != RENAMER_DONE)
                wrong = "renamer_split_taker was refused";
            taker = &other;
            thread->did[TAKERS]++, splits++;
        }
        if (!wrong)
            wrong = (drawn(thread, 2) ? take_alone : take_together)(thread, taker, part);
        renamer_free_taker(&other);
    }
    thread->wrong = wrong;
    renamer_free_taker(&thread->taker);
    return NULL;
}

#endif
