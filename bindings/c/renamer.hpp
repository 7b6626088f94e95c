/*
 * renamer for C++11: lanes, closed floors, slots and takers as objects that free themselves. Header only, over
 * renamer.h, which says what each call does; link the same archive.
 *
 *     renamer::lane lane;
 *     std::uint64_t name;
 *     if (lane.open(renamer::kind::tree, 64, 1000) == renamer::status::done
 *         && lane.name(17, 0, name) == renamer::status::done)
 *         std::cout << "client 17 has name " << name << "\n";
 *
 * Calls that are `const` only ask: any number of threads may make them at once on one object. An object that was only
 * made, or was moved from, handed back or closed, has nothing, and its calls return status::none. Objects can be moved,
 * also to another thread, and not copied. A lane that goes out of scope is handed back to its floor.
 *
 * A call that writes a list takes a pointer and a count, and writes into the array that is there; the pointer may be
 * null if the count is 0. Or it takes a std::vector, of which it makes a new one at each call. Only such calls throw, if
 * a vector gets no memory.
 */
#ifndef RENAMER_HPP
#define RENAMER_HPP

#include "renamer.h"

#include <cstddef>
#include <cstdint>
#include <memory>
#include <new>
#include <utility>
#include <vector>

namespace renamer {

/* The networks. */
enum class kind : std::uint32_t {
    bitonic = RENAMER_BITONIC,
    periodic = RENAMER_PERIODIC,
    tree = RENAMER_TREE
};

/* What calls return. From C++17 on a compiler warns if it is not looked at. */
#if __cplusplus >= 201703L
enum class [[nodiscard]] status : std::uint32_t {
#else
enum class status : std::uint32_t {
#endif
    done = RENAMER_DONE,
    none = RENAMER_NONE,
    memory = RENAMER_MEMORY,
    kind = RENAMER_KIND,
    width = RENAMER_WIDTH,
    quota = RENAMER_QUOTA,
    no_such_entry = RENAMER_NO_SUCH_ENTRY,
    quota_spent = RENAMER_QUOTA_SPENT,
    quota_too_small = RENAMER_QUOTA_TOO_SMALL,
    still_walking = RENAMER_STILL_WALKING,
    nobody_there = RENAMER_NOBODY_THERE,
    lanes_missing = RENAMER_LANES_MISSING,
    nothing_back = RENAMER_NOTHING_BACK,
    size = RENAMER_SIZE,
    carried = RENAMER_CARRIED,
    lanes_there = RENAMER_LANES_THERE
};

/* Returns a sentence that says what a status means, and what is allowed. */
inline const char *explain(status status) noexcept { return renamer_explain(static_cast<std::uint32_t>(status)); }

using client = renamer_client;
using grant = renamer_grant;
using moved = renamer_moved;
using swept = renamer_swept;

/* What has a handle: it can be moved, and frees the handle at its end. */
template <typename Handle, void (*Free)(Handle *)> class owner {
  public:
    owner() noexcept = default;
    owner(const owner &) = delete;
    owner &operator=(const owner &) = delete;
    owner(owner &&other) noexcept : handle(other.handle) { other.handle = Handle(); }
    owner &operator=(owner &&other) noexcept {
        if (this != &other) {
            Free(&handle);
            handle = other.handle;
            other.handle = Handle();
        }
        return *this;
    }
    ~owner() { Free(&handle); }

  protected:
    Handle handle = {};
};

/* A floor that is closed: how many left by each exit, and who has which name. */
class quiet : public owner<renamer_quiet, renamer_free_quiet> {
  public:
    status exits(std::uint64_t &exits) const noexcept { return status(renamer_quiet_exits(&handle, &exits)); }
    status clients(std::uint64_t &clients) const noexcept { return status(renamer_quiet_clients(&handle, &clients)); }

    /* counts[i] left by exit i. The count is that of exits. */
    status counts(std::uint64_t *counts, std::size_t count) const noexcept {
        return status(renamer_counts(&handle, counts, count));
    }
    status counts(std::vector<std::uint64_t> &counts) const {
        return list(renamer_quiet_exits, renamer_counts, counts);
    }

    /* holders[n] is the client with name n. The count is that of clients. */
    status holders(std::uint64_t *holders, std::size_t count) const noexcept {
        return status(renamer_holders(&handle, holders, count));
    }
    status holders(std::vector<std::uint64_t> &holders) const {
        return list(renamer_quiet_clients, renamer_holders, holders);
    }

  private:
    friend class lane;

    status list(std::uint32_t (*size)(const renamer_quiet *, std::uint64_t *),
                std::uint32_t (*copy)(const renamer_quiet *, std::uint64_t *, std::size_t),
                std::vector<std::uint64_t> &to) const {
        std::uint64_t length = 0;
        const status asked = status(size(&handle, &length));
        if (asked != status::done) return asked;
        std::vector<std::uint64_t> list(static_cast<std::size_t>(length));
        const status copied = status(copy(&handle, list.data(), list.size()));
        if (copied == status::done) to.swap(list);
        return copied;
    }
};

/* A lane of a floor: a thread's own part of it, by which it lets clients in. */
class lane : public owner<renamer_lane, renamer_free> {
  public:
    status open(kind kind, std::uint32_t width, std::uint64_t quota) noexcept {
        return status(renamer_open(&handle, static_cast<std::uint32_t>(kind), width, quota));
    }
    status open_apart(kind kind, std::uint32_t width, std::uint64_t quota) noexcept {
        return status(renamer_open_apart(&handle, static_cast<std::uint32_t>(kind), width, quota));
    }
    status open_after(const quiet &closed, std::uint64_t quota) noexcept {
        return status(renamer_open_after(&handle, &closed.handle, quota));
    }
    status split(std::uint64_t quota, lane &other) noexcept {
        return status(renamer_split(&handle, quota, &other.handle));
    }
    status reserve(std::uint64_t clients) noexcept { return status(renamer_reserve(&handle, clients)); }

    status name(std::uint64_t client, std::uint64_t entry, std::uint64_t &name) noexcept {
        return status(renamer_name(&handle, client, entry, &name));
    }

    /* Names the clients of a list, and writes as many grants. */
    status name_many(const client *clients, std::size_t count, grant *grants) noexcept {
        return status(renamer_name_many(&handle, clients, count, grants, count));
    }
    /* The same; the grants take the place of what the second list had. */
    status name_many(const std::vector<client> &clients, std::vector<grant> &grants) {
        std::vector<grant> list(clients.size());
        const status named = name_many(clients.data(), clients.size(), list.data());
        if (named == status::done) grants.swap(list);
        return named;
    }

    /* Names the clients of a list, who come in by one entry, and writes as many names, in the order of the clients. */
    status name_list(const std::uint64_t *clients, std::size_t count, std::uint64_t entry,
                     std::uint64_t *names) noexcept {
        return status(renamer_name_list(&handle, clients, count, entry, names, count));
    }
    /* The same; the names take the place of what the second list had. */
    status name_list(const std::vector<std::uint64_t> &clients, std::uint64_t entry,
                     std::vector<std::uint64_t> &names) {
        std::vector<std::uint64_t> list(clients.size());
        const status named = name_list(clients.data(), clients.size(), entry, list.data());
        if (named == status::done) names.swap(list);
        return named;
    }

    status enter(std::uint64_t client, std::uint64_t entry) noexcept {
        return status(renamer_enter(&handle, client, entry));
    }
    status step(std::uint64_t wire, moved &moved) noexcept { return status(renamer_step(&handle, wire, &moved)); }
    status sweep(std::uint64_t wire, swept &swept) noexcept { return status(renamer_sweep(&handle, wire, &swept)); }

    status lowest(std::uint64_t &wire) const noexcept { return status(renamer_lowest(&handle, &wire)); }
    status entered(std::uint64_t &entered) const noexcept { return status(renamer_entered(&handle, &entered)); }
    status quota(std::uint64_t &quota) const noexcept { return status(renamer_quota(&handle, &quota)); }
    status inside(std::uint64_t &inside) const noexcept { return status(renamer_inside(&handle, &inside)); }
    status entries(std::uint64_t &entries) const noexcept { return status(renamer_entries(&handle, &entries)); }
    status exits(std::uint64_t &exits) const noexcept { return status(renamer_exits(&handle, &exits)); }
    status grant_count(std::uint64_t &count) const noexcept { return status(renamer_grant_count(&handle, &count)); }

    /* Some of the lane's grants, in the order in which they were given, from the first-th on; or all. */
    status grants(std::uint64_t first, grant *grants, std::size_t count) const noexcept {
        return status(renamer_grants(&handle, first, grants, count));
    }
    status grants(std::vector<grant> &grants) const {
        std::uint64_t count = 0;
        const status asked = grant_count(count);
        if (asked != status::done) return asked;
        std::vector<grant> list(static_cast<std::size_t>(count));
        const status copied = this->grants(0, list.data(), list.size());
        if (copied == status::done) grants.swap(list);
        return copied;
    }

    status hand_back() noexcept { return status(renamer_hand_back(&handle)); }
    status join() noexcept { return status(renamer_join(&handle)); }

    /* Takes a lane that was handed back to this one's floor, whole. Threads may share this one, which is only asked. */
    status take_back(lane &back) const noexcept { return status(renamer_take_back(&handle, &back.handle)); }

    /* Gives `own` a lane of this floor with quota left, without a lock: the one that it has, or else one that was
       handed back; it takes in others as long as its quota is spent. If none with quota is back: status::nothing_back.
       So split off as many lanes as threads may run at once, and hand them back before the threads begin. Let `own` be
       thread_local, and its lane is handed back as its thread ends. */
    status for_this_thread(lane &own) const noexcept {
        std::uint64_t left = 0;
        status last = own.quota(left);
        if (last == status::none && (last = take_back(own)) == status::done) last = own.quota(left);
        while (last == status::done && left == 0)
            if ((last = own.join()) == status::done) last = own.quota(left);
        return last;
    }

    status join_all() noexcept { return status(renamer_join_all(&handle)); }

    status close(quiet &closed) noexcept { return status(renamer_close(&handle, &closed.handle)); }
};

/* A slot that is taken, or none. At the object's end it is free again. */
class slot {
  public:
    /* Its number, which is below that of the slots. If it is none: status::none. */
    status number(std::uint64_t &number) const noexcept {
        grant own = grant();
        const status asked = has.grants(0, &own, 1);
        if (asked == status::done) number = own.name;
        return asked;
    }
    void free() noexcept { has = lane(); }

  private:
    friend class slot_pool;
    lane has;
};

/* Slots that come back, each with one owner at most. A slot may outlive its pool. */
class slot_pool {
  public:
    /* Makes so many slots, at most RENAMER_MOST_CLIENTS, which are free. */
    status open(std::uint64_t count) noexcept {
        lane all;
        std::uint64_t name = 0;
        status last = all.open(kind::tree, 2, count);
        for (std::uint64_t at = 0; last == status::done && at < count; at++) {
            lane each;
            if ((last = all.split(1, each)) == status::done) last = each.name(at, 0, name);
        }
        if (last == status::done) first = std::move(all);
        return last;
    }

    /* Takes a slot, from any thread. One that the object had is freed then. If all are taken: status::nothing_back. */
    status take(slot &taken) const noexcept { return first.take_back(taken.has); }

  private:
    lane first;
};

/* A taker of a floor whose names are only taken: a thread's own part of it. */
class taker : public owner<renamer_taker, renamer_free_taker> {
  public:
    status open(kind kind, std::uint32_t width, bool apart = false) noexcept {
        return status(renamer_open_takes(&handle, static_cast<std::uint32_t>(kind), width, apart));
    }
    status split(taker &other) noexcept { return status(renamer_split_taker(&handle, &other.handle)); }
    status take(std::uint64_t entry, std::uint64_t &name) noexcept {
        return status(renamer_take(&handle, entry, &name));
    }

    /* Takes a name for each place of an array, or of a list. */
    status take_many(std::uint64_t entry, std::uint64_t *names, std::size_t count) noexcept {
        return status(renamer_take_many(&handle, entry, names, count));
    }
    status take_many(std::uint64_t entry, std::vector<std::uint64_t> &names) noexcept {
        return take_many(entry, names.data(), names.size());
    }

    status entered(std::uint64_t &entered) const noexcept { return status(renamer_takes_entered(&handle, &entered)); }
};

/* A taker of a pool, or none, which this object has until its end. It stays where it is. */
class own_taker {
  public:
    own_taker() noexcept = default;
    own_taker(const own_taker &) = delete;
    own_taker &operator=(const own_taker &) = delete;

    /* The taker, as long as its pool is there, or null. */
    taker *operator->() const noexcept { return has; }

  private:
    friend class taker_pool;
    slot place;
    taker *has = nullptr;
};

/* Takers of one floor for whichever thread asks: who has slot i uses taker i. */
class taker_pool {
  public:
    /* Opens a floor with so many takers, at most RENAMER_MOST_CLIENTS: as many as threads may run at once. Takers that
       the pool had before are let go, so no thread may have one of them. */
    status open(kind kind, std::uint32_t width, std::uint64_t count, bool apart = false) noexcept {
        slot_pool slots;
        taker first;
        status last = slots.open(count);
        if (last == status::done) last = first.open(kind, width, apart);
        if (last != status::done) return last;
        std::unique_ptr<taker[]> list(new (std::nothrow) taker[static_cast<std::size_t>(count)]);
        if (!list) return status::memory;
        for (std::size_t at = 0; last == status::done && at < count; at++)
            last = first.split(list[at]);
        if (last == status::done) takers = std::move(list), places = std::move(slots);
        return last;
    }

    /* Gives `own` a taker, without a lock: the one that it has, or else one that is free; if none is, it returns
       status::nothing_back. Let `own` be thread_local, and the taker is free again as its thread ends. */
    status for_this_thread(own_taker &own) const noexcept {
        std::uint64_t number = 0;
        if (own.has) return status::done;
        status last = places.take(own.place);
        if (last == status::done && (last = own.place.number(number)) == status::done)
            own.has = &takers[static_cast<std::size_t>(number)];
        return last;
    }

  private:
    slot_pool places;
    std::unique_ptr<taker[]> takers;
};

} // namespace renamer

#endif
