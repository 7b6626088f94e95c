// The objects of renamer.hpp: each call once, moves, statuses, and lanes and takers that are freed where their scope ends.
#include "renamer.hpp"
#include <algorithm>
#include <cstdint>
#include <cstdio>
#include <cstdlib>
#include <cstring>
#include <thread>
#include <type_traits>
#include <utility>
#include <vector>

using renamer::kind;
using renamer::status;

#define CHECK(what)                                                                                                    \
    do {                                                                                                               \
        if (!(what)) {                                                                                                 \
            std::fprintf(stderr, "%s:%d: %s\n", __FILE__, __LINE__, #what);                                            \
            std::exit(1);                                                                                              \
        }                                                                                                              \
    } while (0)

static_assert(!std::is_copy_constructible<renamer::lane>::value && !std::is_copy_assignable<renamer::lane>::value,
              "a lane is not copied");
static_assert(!std::is_copy_constructible<renamer::quiet>::value && !std::is_copy_assignable<renamer::quiet>::value,
              "a closed floor is not copied");
static_assert(std::is_nothrow_move_constructible<renamer::lane>::value, "a vector of lanes moves them");
static_assert(!std::is_copy_constructible<renamer::taker>::value && !std::is_copy_assignable<renamer::taker>::value,
              "a taker is not copied");

// What a lane that only reads says.
template <typename Ask> static std::uint64_t number(Ask ask, const renamer::lane &lane) {
    std::uint64_t answer = 99;
    CHECK((lane.*ask)(answer) == status::done);
    return answer;
}

// A lane that has nothing, and what is refused.
static void refused() {
    renamer::lane lane;
    renamer::quiet quiet;
    std::uint64_t name = 0;
    std::vector<std::uint64_t> list(3, 5);
    renamer_free(nullptr), renamer_free_quiet(nullptr);
    CHECK(lane.name(17, 0, name) == status::none);
    CHECK(quiet.holders(list) == status::none && list.size() == 3);
    CHECK(lane.open(kind::tree, 3, 4) == status::width);
    CHECK(lane.open(kind::tree, 2, 262145) == status::quota);
    CHECK(lane.open_apart(kind::tree, 3, 4) == status::width);
    CHECK(lane.open_apart(kind::bitonic, 4, 4) == status::done);
    CHECK(lane.name(17, 4, name) == status::no_such_entry);
    CHECK(lane.close(quiet) == status::done);
    CHECK(quiet.clients(name) == status::done && name == 0);
    for (std::uint32_t number = 0; number <= RENAMER_LANES_THERE; number++)
        CHECK(std::strlen(renamer::explain(status(number))) > 10);
}

// Lists, single steps and a list of none.
static void walk(renamer::lane &lane) {
    const std::vector<renamer::client> clients = {{17, 0}, {5, 0}, {99, 1}};
    std::vector<renamer::grant> grants(1);
    CHECK(lane.name_many({}, grants) == status::done && grants.empty());
    CHECK(lane.name_many(nullptr, 0, nullptr) == status::done && lane.grants(0, nullptr, 0) == status::done);
    std::vector<std::uint64_t> names(1);
    CHECK(lane.name_list({}, 1, names) == status::done && names.empty());
    CHECK(lane.name_list(nullptr, 0, 1, nullptr) == status::done);
    CHECK(lane.name_list({1}, 4, names) == status::no_such_entry);
    CHECK(lane.reserve(5) == status::done);
    CHECK(lane.name_many(clients, grants) == status::done && grants.size() == 3);
    renamer::moved moved;
    renamer::swept swept;
    std::uint64_t wire = 99;
    CHECK(lane.lowest(wire) == status::nobody_there);
    CHECK(lane.enter(23, 1) == status::done && lane.enter(42, 1) == status::done);
    CHECK(lane.lowest(wire) == status::done && wire == 1);
    CHECK(lane.step(1, moved) == status::done && moved.client == 23);
    CHECK(lane.hand_back() == status::still_walking);
    while (lane.lowest(wire) == status::done)
        CHECK(lane.sweep(wire, swept) == status::done);
    CHECK(number(&renamer::lane::inside, lane) == 0);
    CHECK(number(&renamer::lane::grant_count, lane) == 5);
    CHECK(lane.grants(grants) == status::done && grants.size() == 5);
    renamer::grant last[2];
    CHECK(lane.grants(3, last, 2) == status::done && last[1].client == grants[4].client);
    CHECK(lane.grants(4, last, 2) == status::size);
    CHECK(lane.name_many(clients.data(), 3, grants.data()) == status::quota_spent);
}

// Lanes that move, are freed and joined; the floor is closed, and another goes on from it.
static void close_and_go_on() {
    renamer::lane lane;
    CHECK(lane.open(kind::bitonic, 4, 9) == status::done);
    CHECK(number(&renamer::lane::entries, lane) == 4 && number(&renamer::lane::exits, lane) == 4);
    {
        std::vector<renamer::lane> lanes(2);
        CHECK(lane.split(6, lanes[0]) == status::done && lane.split(1, lanes[1]) == status::done);
        lanes.emplace_back(std::move(lanes[0])); // the vector grows, and moves its lanes
        CHECK(lanes[0].join() == status::none);
        lanes[0] = std::move(lanes[2]);
        walk(lanes[0]);
    }
    CHECK(number(&renamer::lane::quota, lane) == 2);
    CHECK(lane.join_all() == status::done);
    CHECK(number(&renamer::lane::quota, lane) == 4);
    std::uint64_t number_of = 99;
    CHECK(lane.entered(number_of) == status::done && number_of == 5);
    renamer::quiet quiet, moved_to;
    CHECK(lane.close(quiet) == status::done && lane.join() == status::none);
    moved_to = std::move(quiet);
    std::vector<std::uint64_t> counts, holders;
    CHECK(moved_to.exits(number_of) == status::done && number_of == 4);
    CHECK(moved_to.counts(counts) == status::done && counts == std::vector<std::uint64_t>({2, 1, 1, 1}));
    CHECK(moved_to.holders(holders) == status::done && holders.size() == 5);
    std::uint64_t to[5];
    CHECK(moved_to.counts(to, 4) == status::done && to[0] == 2 && moved_to.counts(to, 5) == status::size);
    CHECK(moved_to.holders(to, 5) == status::done && std::vector<std::uint64_t>(to, to + 5) == holders);
    const renamer::quiet &asked = moved_to;
    CHECK(asked.counts(counts) == status::done && asked.clients(number_of) == status::done && number_of == 5);
    renamer::lane next;
    CHECK(next.open_after(asked, 1) == status::done);
    CHECK(next.name(7, 0, number_of) == status::done && number_of == 0);
}

// Takers that move, and what they take.
static void take() {
    renamer::taker first, moved_to;
    std::uint64_t name = 99, some[2] = {99, 99};
    std::vector<std::uint64_t> names(5), nobody;
    CHECK(first.take(0, name) == status::none && first.split(moved_to) == status::none);
    CHECK(first.open(kind::tree, 3) == status::width && first.open(kind::bitonic, 4, true) == status::done);
    CHECK(first.split(moved_to) == status::done);
    first = std::move(moved_to);
    CHECK(moved_to.entered(name) == status::none && moved_to.take_many(0, nobody) == status::none);
    CHECK(first.take(4, name) == status::no_such_entry && name == 99);
    CHECK(first.take(3, name) == status::done && name == 0);
    CHECK(first.take_many(1, some, 2) == status::done && some[0] + some[1] == 3);
    CHECK(first.take_many(1, names) == status::done && first.take_many(1, nobody) == status::done);
    std::sort(names.begin(), names.end());
    CHECK(names == std::vector<std::uint64_t>({3, 4, 5, 6, 7}));
    const renamer::taker &asked = first;
    CHECK(asked.entered(name) == status::done && name == 8);
}

// Slots that move, that are freed at their end, and that outlive their pool.
static void take_slots() {
    renamer::slot_pool pool;
    renamer::slot first, second;
    std::uint64_t number = 99;
    CHECK(pool.take(first) == status::none && first.number(number) == status::none && number == 99);
    CHECK(pool.open(RENAMER_MOST_CLIENTS + 1) == status::quota && pool.open(2) == status::done);
    CHECK(pool.take(first) == status::done && pool.take(second) == status::done);
    bool seen[2] = {false, false};
    for (const renamer::slot *slot : {&first, &second})
        CHECK(slot->number(number) == status::done && number < 2 && !seen[number] && (seen[number] = true));
    renamer::slot third;
    CHECK(pool.take(third) == status::nothing_back && third.number(number) == status::none);
    third = std::move(second);
    CHECK(second.number(number) == status::none && pool.take(second) == status::nothing_back);
    { const renamer::slot ended = std::move(third); }
    CHECK(pool.take(second) == status::done && pool.take(third) == status::nothing_back);
    first.free();
    CHECK(first.number(number) == status::none && pool.take(second) == status::done);
    CHECK(pool.take(first) == status::done && pool.open(1) == status::done && pool.take(third) == status::done);
    CHECK(third.number(number) == status::done && number == 0 && first.number(number) == status::done);
}

// Threads that come and go get lanes by one that they share, and name clients as long as a lane has quota.
static void share() {
    renamer::lane first, own;
    renamer::quiet quiet;
    std::uint64_t number = 99;
    CHECK(first.for_this_thread(own) == status::none && first.open(kind::tree, 4, 10) == status::done);
    CHECK(first.for_this_thread(own) == status::nothing_back);
    for (int made = 0; made < 2; made++) {
        renamer::lane lane;
        CHECK(first.split(5, lane) == status::done);
    }
    const renamer::lane &asked = first;
    for (std::uint64_t thread = 0; thread < 3; thread++)
        std::thread([&asked, thread] {
            static thread_local renamer::lane lane;
            std::uint64_t name = 99;
            for (std::uint64_t turn = 0; turn < 3; turn++)
                CHECK(asked.for_this_thread(lane) == status::done && lane.name(thread, 0, name) == status::done
                      && name == 3 * thread + turn);
        }).join();
    CHECK(asked.for_this_thread(own) == status::done && own.name(3, 0, number) == status::done && number == 9);
    CHECK(asked.for_this_thread(own) == status::nothing_back && own.hand_back() == status::done);
    CHECK(first.join_all() == status::done && first.close(quiet) == status::done);
}

// Threads that come and go get takers by a pool that they share: one for each thread, and a status if none is free.
static void share_takers() {
    renamer::taker_pool pool;
    const renamer::taker_pool &asked = pool;
    renamer::own_taker own, more;
    std::uint64_t name = 99;
    CHECK(asked.for_this_thread(own) == status::none && !own.operator->());
    CHECK(pool.open(kind::tree, 3, 2) == status::width && pool.open(kind::tree, 2, 2) == status::done);
    CHECK(asked.for_this_thread(own) == status::done && own->take(0, name) == status::done && name == 0);
    for (std::uint64_t thread = 0; thread < 3; thread++)
        std::thread([&asked, thread] {
            static thread_local renamer::own_taker taker;
            renamer::own_taker none;
            std::uint64_t next = 99;
            for (std::uint64_t turn = 1; turn < 4; turn++)
                CHECK(asked.for_this_thread(taker) == status::done && taker->take(0, next) == status::done
                      && next == 3 * thread + turn);
            CHECK(asked.for_this_thread(none) == status::nothing_back && !none.operator->());
        }).join();
    CHECK(asked.for_this_thread(more) == status::done && more.operator->() != own.operator->());
    CHECK(asked.for_this_thread(own) == status::done && own->take(0, name) == status::done && name == 10);
}

int main() {
    refused();
    close_and_go_on();
    share();
    take_slots();
    take();
    share_takers();
}
