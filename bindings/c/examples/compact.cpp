// Keeps the numbers of a list that pass a filter, without gaps and in any order: threads put what they keep at the places
// that takers give them. Threads come and go, and get their takers of a pool, without a lock.
#include "renamer.hpp"
#include <algorithm>
#include <array>
#include <cstdint>
#include <functional>
#include <iostream>
#include <iterator>
#include <stdexcept>
#include <thread>
#include <vector>

static const std::size_t numbers = 100000, part = 1000, at_once = 4;

using list = std::vector<std::uint64_t>;

static void must(renamer::status status) {
    if (status != renamer::status::done) throw std::runtime_error(renamer::explain(status));
}

static bool is_kept(std::uint64_t number) { return number % 7 == 0; }

// What threads share.
struct shared {
    list from, to;
    renamer::taker_pool takers;
};

// Copies what is kept of one part.
static void keep_part(shared &all, std::size_t first) {
    renamer::own_taker taker; // is free again at the end of this call
    must(all.takers.for_this_thread(taker));
    for (std::size_t at = first; at < first + part; at++) {
        std::uint64_t place = 0;
        if (!is_kept(all.from[at])) continue;
        must(taker->take(0, place));
        all.to[static_cast<std::size_t>(place)] = all.from[at];
    }
}

int main() {
    shared all;
    for (std::uint64_t number = 0; number < numbers; number++)
        all.from.push_back(number * number);
    all.to.resize(numbers);
    must(all.takers.open(renamer::kind::tree, 2, at_once));
    std::array<std::thread, at_once> threads;
    for (std::size_t first = 0; first < numbers; first += part) {
        std::thread &next = threads[first / part % at_once];
        if (next.joinable()) next.join();
        next = std::thread(keep_part, std::ref(all), first);
    }
    for (std::thread &thread : threads)
        thread.join();
    list kept;
    std::copy_if(all.from.begin(), all.from.end(), std::back_inserter(kept), is_kept);
    all.to.resize(kept.size());
    std::sort(all.to.begin(), all.to.end());
    if (all.to != kept) return 1;
    std::cout << kept.size() << " of " << numbers << " numbers are kept, without gaps\n";
}
