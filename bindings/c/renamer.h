/*
 * renamer: tight one-shot renaming on counting networks, for C99 and C++11.
 *
 * A floor is a counting network on atomic words. Threads name clients on it at once, without a lock: each client gets a
 * name, and no two clients of a floor get the same. Each name is below the number of clients that came in, and when
 * nobody is inside the names of k clients are 0 to k-1. A floor is for one epoch: it lets in at most
 * RENAMER_MOST_CLIENTS, and names are not given back one by one, but all at once by the next floor; only slots come back
 * one by one, as renamer_take_back says. If a program needs names only, and need not ask who has which, it takes them:
 * renamer_open_takes opens a floor whose names do not end.
 *
 *     renamer_lane lane = RENAMER_NO_LANE_YET;
 *     uint64_t name;
 *     if (renamer_open(&lane, RENAMER_TREE, 64, 1000) == RENAMER_DONE
 *         && renamer_name(&lane, 17, 0, &name) == RENAMER_DONE)
 *         printf("client 17 has name %llu\n", (unsigned long long)name);
 *     renamer_free(&lane);
 *
 * HANDLES. There are three kinds, a lane, a quiet floor and a taker. Each is a struct with one pointer, and one that is
 * all zero has nothing: it is none. Set a handle to zero before its first call, also before renamer_open: by
 * RENAMER_NO_LANE_YET where it is declared, or by `lane = RENAMER_NO_LANE;` later, as in a struct from malloc. Pass its
 * address, and keep one copy only: a handle may be moved to another place, also by memcpy, if the old place is not used
 * any more, or is set to none. A call that puts something into a handle frees what was there before. renamer_free,
 * renamer_free_quiet and renamer_free_taker free all that a handle has; after them it is none.
 *
 * STATUSES. Calls take any numbers, any sizes and any handle, also one that is none, and all that take a handle return
 * a status, but for the three that free. A call that does not return RENAMER_DONE has changed no handle, no floor, and
 * no number or array of the caller's; only renamer_join_all may have taken in some lanes. Of several causes the first
 * in the order of the call's list is returned. A status is returned as a number of 32 bits and not as a renamer_status,
 * since C99 leaves the size of an enumeration to the compiler.
 *
 * THREADS. Calls on different handles may run at once in any threads, also on lanes or takers of one floor. Calls on
 * one handle may not overlap, but for those that take it as `const`: they only ask, and write nothing to it, so any
 * number of threads may make them at once, while no other call on it is made. Nothing marks a handle as in use: what
 * two calls do that overlap on one handle is not defined. A handle may go to another thread by what orders memory: a
 * start or a join of a thread, a lock, an atomic. No call may be made from a signal handler, or in the child of a fork
 * of a process with threads. A fork copies floors: parent and child both give name 1, to two clients.
 *
 * WAITING. No call starts a thread, and in the library's own code no call waits for another thread, wherever that is
 * stopped. But malloc and free of the C library may make threads wait for one another. Calls that open, split, join or
 * close use them, and those that free a quiet floor or a taker. Calls that name clients or let them in use them only if
 * the lane has no room, which renamer_reserve makes. Calls that step, sweep, take names, hand a lane back or only ask
 * never use them; nor does renamer_free of a lane, which hands it back, if no client is inside. But if the lane is the
 * floor's last, its floor is freed. A call that takes a lane back frees those that it finds with nothing.
 *
 * THE CALLER'S SIDE. What no call can check is the caller's: no pointer is NULL but one that is freed, and that of an
 * array of size 0. An array is as long as its size says; a number or an array that a call writes overlaps nothing else
 * that is passed; two handles of one call are not the same handle.
 */
#ifndef RENAMER_H
#define RENAMER_H

#include <stddef.h>
#include <stdint.h>

/* With these a compiler warns at a call of a status that is not looked at, and of NULL where something is to stand: in a
   call of lists, for the handle. */
#ifdef __GNUC__
#define RENAMER_NO_NULL __attribute__((nonnull))
#define RENAMER_HANDLE_NO_NULL __attribute__((nonnull(1)))
#else
#define RENAMER_NO_NULL
#define RENAMER_HANDLE_NO_NULL
#endif
#if (defined(__cplusplus) && __cplusplus >= 201703L) || (defined(__STDC_VERSION__) && __STDC_VERSION__ >= 202311L)
#define RENAMER_STATUS [[nodiscard]]
#elif defined(__GNUC__)
#define RENAMER_STATUS __attribute__((warn_unused_result))
#else
#define RENAMER_STATUS
#endif
#define RENAMER_CALL RENAMER_STATUS RENAMER_NO_NULL
#define RENAMER_LIST_CALL RENAMER_STATUS RENAMER_HANDLE_NO_NULL

#ifdef __cplusplus
extern "C" {
#endif

/* The calls stand in another library, or in an archive that hides them. Both are found, whatever visibility a program
   is compiled with. */
#ifdef __GNUC__
#pragma GCC visibility push(default)
#endif

/* The version of this header: major * 1000000 + minor * 1000 + patch. renamer_version returns that of the library. */
#define RENAMER_VERSION 1000000

/* How many clients a floor lets in at most, and how many may have come in before a floor that goes on from others. */
#define RENAMER_MOST_CLIENTS 262144
#define RENAMER_MOST_CARRIED 2147483648

/* A lane of a floor, or none: a thread's own part of the floor, by which it lets clients in. */
typedef struct renamer_lane {
    void *at;
} renamer_lane;

/* A floor that is closed, or none: how many left by each exit, and who has which name. */
typedef struct renamer_quiet {
    void *at;
} renamer_quiet;

/* A taker of a floor, or none: a thread's own part of a floor whose names are only taken. */
typedef struct renamer_taker {
    void *at;
} renamer_taker;

/* Handles that are none: where they are declared, and to be assigned. */
#ifdef __cplusplus
#define RENAMER_NO_LANE_YET {}
#define RENAMER_NO_QUIET_YET {}
#define RENAMER_NO_TAKER_YET {}
#define RENAMER_NO_LANE renamer_lane()
#define RENAMER_NO_QUIET renamer_quiet()
#define RENAMER_NO_TAKER renamer_taker()
#else
#define RENAMER_NO_LANE_YET {NULL}
#define RENAMER_NO_QUIET_YET {NULL}
#define RENAMER_NO_TAKER_YET {NULL}
#define RENAMER_NO_LANE ((renamer_lane){NULL})
#define RENAMER_NO_QUIET ((renamer_quiet){NULL})
#define RENAMER_NO_TAKER ((renamer_taker){NULL})
#endif

/* A client that is to come in, and by which entry. */
typedef struct renamer_client {
    uint64_t client;
    uint64_t entry;
} renamer_client;

/* A client that got its name. It left by the exit, and so many clients had left by that exit before as visit says. */
typedef struct renamer_grant {
    uint64_t client;
    uint64_t exit;
    uint64_t visit;
    uint64_t name;
} renamer_grant;

/* Where a client went by one step. Either it passed the balancer `place` as its passage `number`, and stands last on
   the wire `next`; or it left by the exit `place` as its visit `number`, and `next` is its name. Passages and visits
   count from 0. */
typedef struct renamer_moved {
    uint64_t client;
    uint64_t has_left; /* 0 or 1 */
    uint64_t place;
    uint64_t number;
    uint64_t next;
} renamer_moved;

/* Where the clients on a wire went by one sweep. There were `clients` of them, and they went in the order in which they
   stood, by the balancer or the exit `place`, with the passages or visits from `first` on. */
typedef struct renamer_swept {
    uint64_t have_left; /* 0 or 1 */
    uint64_t place;
    uint64_t first;
    uint64_t clients;
} renamer_swept;

/* The networks. The width is a power of two from 2 to 256. A tree has one entry, the others as many as their width. */
enum {
    RENAMER_BITONIC = 0,
    RENAMER_PERIODIC = 1,
    RENAMER_TREE = 2
};

/* What calls return. */
typedef enum renamer_status {
    RENAMER_DONE = 0,
    RENAMER_NONE = 1,            /* the handle is none */
    RENAMER_MEMORY = 2,          /* the system gave no memory */
    RENAMER_KIND = 3,            /* there is no network of this kind */
    RENAMER_WIDTH = 4,           /* there is no network of this width */
    RENAMER_QUOTA = 5,           /* a floor takes no quota above RENAMER_MOST_CLIENTS */
    RENAMER_NO_SUCH_ENTRY = 6,   /* the network has no entry with this number */
    RENAMER_QUOTA_SPENT = 7,     /* the lane or the taker may let in no more, or not so many */
    RENAMER_QUOTA_TOO_SMALL = 8, /* the lane or the taker has less quota than is to be split off */
    RENAMER_STILL_WALKING = 9,   /* the lane has clients inside */
    RENAMER_NOBODY_THERE = 10,   /* the lane has no client there */
    RENAMER_LANES_MISSING = 11,  /* other lanes of the floor have quota, grants or clients of it */
    RENAMER_NOTHING_BACK = 12,   /* no lane of the floor was handed back */
    RENAMER_SIZE = 13,           /* the array has the wrong size */
    RENAMER_CARRIED = 14,        /* more clients came before than RENAMER_MOST_CARRIED */
    RENAMER_LANES_THERE = 15     /* other lanes of the floor are there still, with nothing of it */
} renamer_status;

/* Returns a sentence that says what a status means, and what is allowed. It is there as long as the program runs. */
const char *renamer_explain(uint32_t status);

/* Returns the version of the library, as RENAMER_VERSION has it. */
uint32_t renamer_version(void);

/* Opens a floor over a network. The lane has the whole quota: so many clients may come in, over all lanes. The handle
   must be none or have something. One that was never set holds a pointer to nowhere, which the call would free.
   RENAMER_KIND, _WIDTH, _QUOTA, _MEMORY. One thread at a time. */
RENAMER_CALL uint32_t renamer_open(renamer_lane *lane, uint32_t kind, uint32_t width, uint64_t quota);

/* Opens a floor as renamer_open does, whose words lie 128 bytes apart in memory and not 8. So threads that pass two
   ends at once do not wait for one cache line. That is for machines of many processors: the words take 16 times the
   memory, and by one thread a name takes up to 1.7 times as long, on a busy machine 2.6 times. The words of the next
   floor, opened by renamer_open_after, lie apart too.
   RENAMER_KIND, _WIDTH, _QUOTA, _MEMORY. One thread at a time. */
RENAMER_CALL uint32_t renamer_open_apart(renamer_lane *lane, uint32_t kind, uint32_t width, uint64_t quota);

/* Splits off another lane of the same floor, with so much of the quota; the first lane keeps all else. Other lanes may
   walk meanwhile, and the first lane may have clients inside. On every network the new lane takes less than 1,000
   bytes. Once a client comes in by renamer_enter, or renamer_reserve makes room, it takes a list for each wire too.
   RENAMER_NONE, _QUOTA_TOO_SMALL, _MEMORY. One thread at a time. */
RENAMER_CALL uint32_t renamer_split(renamer_lane *lane, uint64_t quota, renamer_lane *other);

/* Makes room for so many clients more, at most 1048576. They come in, and get their names, without further memory.

   It is for a lane that must not be refused for memory or call malloc later, and for one that lets clients in by
   renamer_enter. A lane that names clients only by renamer_name needs no room: it names them faster without.
   RENAMER_NONE, _MEMORY (also if it is more than that). One thread at a time. */
RENAMER_CALL uint32_t renamer_reserve(renamer_lane *lane, uint64_t clients);

/* Names a client: lets it in by an entry and walks it out. It takes memory only if the lane has no room, and then only
   for the client's grant. Identities are any numbers, and are not compared: a client that is named twice gets two
   names.

   Any entry will do. If threads name clients at once on a bitonic network of width w, it is best that each lets its
   clients in by entries of its own, one after another: thread t of n, which is at most w, by those from t * w / n up
   to, not including, (t + 1) * w / n. That network is two of half the width, on the lower and the upper half of the
   entries, and a merger. So threads with halves or quarters of the entries meet only in mergers.
   RENAMER_NONE, _STILL_WALKING, _NO_SUCH_ENTRY, _QUOTA_SPENT, _MEMORY. One thread at a time. */
RENAMER_CALL uint32_t renamer_name(renamer_lane *lane, uint64_t client, uint64_t entry, uint64_t *name);

/* Names clients by one call. Clients who follow one another in the list by one entry, up to 64 of them, come in by one
   atomic add, and go on by one more add at each balancer as long as they stay together. A balancer sends half of them
   either way, and those who part walk on their own from then on, even if they come to one wire again. A client whose
   neighbours in the list come by other entries walks as by renamer_name. So a list by entries in turn costs as many
   adds as single calls, and lists of 64 clients by one entry are the fastest. Of these each client costs 2 adds in
   place of 8 on tree 64, 17 in place of 23 on bitonic 64, and 32 in place of 38 on bitonic 256 and on periodic 64.

   The call copies their grants, in the order in which they left, which need not be that of the clients. These are the
   lane's last grants too. It takes memory only if the lane has less room. Of long lists calls of some 2,048 clients are
   the fastest, since their grants stay in the processor's cache.
   RENAMER_NONE, _SIZE (there are not as many grants as clients), _STILL_WALKING, _NO_SUCH_ENTRY, _QUOTA_SPENT, _MEMORY.
   One thread at a time. */
RENAMER_LIST_CALL uint32_t renamer_name_many(renamer_lane *lane, const renamer_client *clients, size_t client_count,
                                             renamer_grant *grants, size_t grant_count);

/* Names the clients of a list, who all come in by one entry, and writes their names in the order of the list: names[i]
   is that of clients[i]. They walk as by renamer_name_many, 64 of them together. The lane's last grants are theirs, and
   say the same, in the order in which they left. A client that stands in the list twice gets two names.

   It is the call for numbers in a row, as in arrays: it takes and writes 8 bytes a client. Lists of 64 to some 2,048
   clients are the fastest: of a longer one the lane gets room for all before the first comes in. It takes memory only if
   the lane has less room.
   RENAMER_NONE, _SIZE (there are not as many names as clients), _STILL_WALKING, _NO_SUCH_ENTRY, _QUOTA_SPENT, _MEMORY.
   One thread at a time. */
RENAMER_LIST_CALL uint32_t renamer_name_list(renamer_lane *lane, const uint64_t *clients, size_t client_count,
                                             uint64_t entry, uint64_t *names, size_t name_count);

/* Lets a client in by an entry: it stands last on the wire with the entry's number. It takes memory only if the lane
   has no room.

   Single steps are for a program that is to say in which order clients walk. The clients of a lane stand on the
   network's wires, in the order in which they came there. Wires have numbers: wire i begins at entry i. Each other wire
   begins at a balancer, and has a greater number than the wires that end there. So sweeping the lowest wire again and
   again lets all out.
   RENAMER_NONE, _NO_SUCH_ENTRY, _QUOTA_SPENT, _MEMORY. One thread at a time. */
RENAMER_CALL uint32_t renamer_enter(renamer_lane *lane, uint64_t client, uint64_t entry);

/* Lets the lane's first client on a wire pass the wire's end, through a balancer or out with its name, by one atomic
   add.
   RENAMER_NONE, _NOBODY_THERE. One thread at a time. */
RENAMER_CALL uint32_t renamer_step(renamer_lane *lane, uint64_t wire, renamer_moved *moved);

/* Lets all of the lane's clients on a wire pass the wire's end, by one atomic add. If they left, the lane's last grants
   are theirs, in their order.
   RENAMER_NONE, _NOBODY_THERE. One thread at a time. */
RENAMER_CALL uint32_t renamer_sweep(renamer_lane *lane, uint64_t wire, renamer_swept *swept);

/* Returns the least wire on which a client of the lane stands.
   RENAMER_NONE, _NOBODY_THERE (nobody of the lane is inside). */
RENAMER_CALL uint32_t renamer_lowest(const renamer_lane *lane, uint64_t *wire);

/* Returns how many clients came in by all lanes, as far as this one can know: more than each name that it was given, no
   less than its earlier answers, and never more than came in.
   RENAMER_NONE. */
RENAMER_CALL uint32_t renamer_entered(const renamer_lane *lane, uint64_t *entered);

/* Returns how many clients more the lane may let in. RENAMER_NONE. */
RENAMER_CALL uint32_t renamer_quota(const renamer_lane *lane, uint64_t *quota);

/* Returns how many clients of the lane are inside. RENAMER_NONE. */
RENAMER_CALL uint32_t renamer_inside(const renamer_lane *lane, uint64_t *inside);

/* Return how many entries the network of the lane's floor has, and how many exits. RENAMER_NONE. */
RENAMER_CALL uint32_t renamer_entries(const renamer_lane *lane, uint64_t *entries);
RENAMER_CALL uint32_t renamer_exits(const renamer_lane *lane, uint64_t *exits);

/* Returns how many grants the lane has. RENAMER_NONE. */
RENAMER_CALL uint32_t renamer_grant_count(const renamer_lane *lane, uint64_t *count);

/* Copies as many grants of the lane as size says, in the order in which they were given, from the grant with the index
   first on.
   RENAMER_NONE, _SIZE (there are fewer than first + size). */
RENAMER_LIST_CALL uint32_t renamer_grants(const renamer_lane *lane, uint64_t first, renamer_grant *grants, size_t size);

/* Hands the lane back to its floor, from any thread: its quota, its grants and all that it did. The lane is none then,
   and another lane of the floor may take it in by renamer_join, or renamer_take_back gives it whole. Any number of
   lanes may be back.

   A hand-back takes no memory and frees none: it is at most a dozen atomic steps, whatever other threads do and
   wherever they are stopped. The memory of the lane and its handle is freed by the call that takes the lane in, or with
   the floor. If the lane was the only one, the floor is freed.
   RENAMER_NONE, _STILL_WALKING. One thread at a time. */
RENAMER_CALL uint32_t renamer_hand_back(renamer_lane *lane);

/* Takes in one lane of the same floor that was handed back: its quota is added, and its grants come after the lane's
   own. It is not said which of several lanes that is. Any lane may take in any other. The call takes no memory if the
   lane has room for these grants, and the lane has that much less room then. What a thread wrote before it handed the
   lane back is seen by the thread that takes it in.

   RENAMER_NOTHING_BACK says that at one moment of the call no lane was back: each whose hand-back had returned was
   taken by another join. A thread that is stopped in a call keeps from others no lane but the one that it hands back or
   takes in. A join that finds none looks again only if a lane was handed back meanwhile. It looks at counts, and not at
   each lane of the floor, so its time, as that of a split, hardly grows with the lanes that are alive. For each thread
   that is stopped in a hand-back, a split or a join it may look at some 200 words more.
   RENAMER_NONE, _NOTHING_BACK, _MEMORY. One thread at a time. */
RENAMER_CALL uint32_t renamer_join(renamer_lane *lane);

/* Gives a lane that was handed back to the floor of `of` to `back`, whole: with its quota, its grants and its room, and
   nobody inside. It is not said which of several lanes comes. It has quota or grants: a lane that has neither, and is
   found, is freed, and the search goes on. `of` may be any lane of the floor. It is only asked, so threads may share
   it. The call takes no memory, since the lane's handle was handed back with it, and frees none but that of lanes with
   nothing. What a thread wrote before it handed the lane back is seen by the thread that takes it.

   So a floor whose quota is spent may keep free slots: lanes with one grant each, whose name is the number of a slot.
   Who takes one back has the slot, renamer_grants says which, and who hands it back frees it.

   RENAMER_NOTHING_BACK says that at one moment of the call no lane with quota or grants was back. `back` should be none:
   if it has a lane, that is handed back once another has come.
   RENAMER_NONE (`of` is none), _NOTHING_BACK. One thread at a time with one `back`. */
RENAMER_CALL uint32_t renamer_take_back(const renamer_lane *of, renamer_lane *back);

/* Takes in, one after another, all lanes of the same floor that were back when it was called, but for those that other
   joins take. Of lanes that are handed back meanwhile it may take some: it goes once through the places for lanes, and
   returns, whatever other threads do. The places stay as long as the floor, 16 or more: up to about twice as many as
   lanes were ever alive at once. So after millions of lanes a call may take long. If it returns another status, some
   lanes may have been taken in, and the call may be made again.
   RENAMER_NONE, _MEMORY. One thread at a time. */
RENAMER_CALL uint32_t renamer_join_all(renamer_lane *lane);

/* Closes the floor. The lane must have all of it, and no other lane may be there: each that was split off was handed
   back or freed, and those that had quota or grants were joined. So after the threads have ended

       if (renamer_join_all(&lane) != RENAMER_DONE || renamer_close(&lane, &quiet) != RENAMER_DONE)
           return 1;

   closes it. The lane is none then.
   RENAMER_NONE, _STILL_WALKING, _LANES_MISSING, _MEMORY, _LANES_THERE. One thread at a time. */
RENAMER_CALL uint32_t renamer_close(renamer_lane *lane, renamer_quiet *quiet);

/* How many clients left by each exit is a list of as many numbers as there are exits. Who has which name is a list of
   as many clients as came in. These two calls return the sizes of the lists. RENAMER_NONE. */
RENAMER_CALL uint32_t renamer_quiet_exits(const renamer_quiet *quiet, uint64_t *exits);
RENAMER_CALL uint32_t renamer_quiet_clients(const renamer_quiet *quiet, uint64_t *clients);

/* Copies how many clients left by each exit: counts[i] is the number of exit i.
   RENAMER_NONE, _SIZE (counts has not that size). */
RENAMER_LIST_CALL uint32_t renamer_counts(const renamer_quiet *quiet, uint64_t *counts, size_t size);

/* Copies who has which name: holders[n] is the client with name n.
   RENAMER_NONE, _SIZE (holders has not that size). */
RENAMER_LIST_CALL uint32_t renamer_holders(const renamer_quiet *quiet, uint64_t *holders, size_t size);

/* Opens a floor that goes on from the counters of a closed one, over the same network. Its names begin at 0 again. The
   closed floor stays as it is.
   RENAMER_NONE, _CARRIED, _QUOTA, _MEMORY. One thread at a time. */
RENAMER_CALL uint32_t renamer_open_after(renamer_lane *lane, const renamer_quiet *quiet, uint64_t quota);

/* Opens a floor whose names are only taken, and gives its first taker. Such a floor knows no clients and keeps no list:
   nobody can ask who has which name, and it has no end, since it has 2^62 names. A taker takes names, each by a walk of
   one client, and takes no memory for that.

   The words of the floor lie side by side in memory if apart is 0, and else 128 bytes apart: renamer_open_apart says
   when that is of use.
   RENAMER_KIND, _WIDTH, _MEMORY. One thread at a time. */
RENAMER_CALL uint32_t renamer_open_takes(renamer_taker *taker, uint32_t kind, uint32_t width, uint32_t apart);

/* Splits off another taker of the same floor, as for another thread. As long as more than three quarters of the floor's
   2^62 names are left to the first, the other gets 1,099,511,627,776 (2^40) of them, and else 1,048,576 (2^20), or half
   of what is left if that is less. So the first taker of a floor can be split a million times with 2^40 names each, and
   then a thousand times a second for a hundred years. A taker that was split off itself gives 2^20 names.

   Names do not come back when a taker is freed, so a taker that is kept for the next thread is the cheapest. One that
   has spent its names is refused with RENAMER_QUOTA_SPENT; put a new one into its place by this call.
   RENAMER_NONE, _QUOTA_TOO_SMALL (no two names are left to the first), _MEMORY. One thread at a time. */
RENAMER_CALL uint32_t renamer_split_taker(renamer_taker *taker, renamer_taker *other);

/* Takes a name, by an entry. No two takes by takers of one floor get the same name, and each name is below the number
   of takes that have begun. The names of k takes are 0 to k-1 once all have returned. A take that comes later may get a
   lower name, and a thread that is stopped within a take keeps one name from all others. Names are never given back.

   The call takes no memory, and waits for nobody. Any entry will do; renamer_name says which are best.
   RENAMER_NONE, _NO_SUCH_ENTRY, _QUOTA_SPENT. One thread at a time. */
RENAMER_CALL uint32_t renamer_take(renamer_taker *taker, uint64_t entry, uint64_t *name);

/* Takes as many names as count says, by one entry, and writes them in no order that is said. All takes come in by one
   atomic add, and go on by one more at each balancer as long as they stay together, as by renamer_name_many. So a name
   costs the fewer adds the longer the list is.
   RENAMER_NONE, _NO_SUCH_ENTRY, _QUOTA_SPENT. One thread at a time. */
RENAMER_LIST_CALL uint32_t renamer_take_many(renamer_taker *taker, uint64_t entry, uint64_t *names, size_t count);

/* Returns how many takes were begun by all takers of the floor, as far as this one can know: more than each name that
   it took, no less than its earlier answers, and never more than were begun.
   RENAMER_NONE. */
RENAMER_CALL uint32_t renamer_takes_entered(const renamer_taker *taker, uint64_t *entered);

/* Frees what the handle has, if it has something; for NULL it does nothing. A lane is handed back, unless clients are
   inside. Then its quota and names are lost with it, and its floor cannot be closed any more; the names of other lanes
   stay as good as they were. The names that a taker has not taken are nobody's then. One thread at a time. */
void renamer_free(renamer_lane *lane);
void renamer_free_quiet(renamer_quiet *quiet);
void renamer_free_taker(renamer_taker *taker);

#ifdef __GNUC__
#pragma GCC visibility pop
#endif

#ifdef __cplusplus
}
#endif

#endif
