// Threads that name clients, each by a lane of its own, and a floor that is closed: by renamer.hpp, whose objects free
// themselves. Lanes move into the threads, and are handed back to their floor when these end.
#include "renamer.hpp"
#include <algorithm>
#include <cstdint>
#include <iostream>
#include <stdexcept>
#include <thread>
#include <utility>
#include <vector>

static void must(renamer::status status) {
    if (status != renamer::status::done) throw std::runtime_error(renamer::explain(status));
}

static void name_all(renamer::lane lane, std::uint64_t first, std::uint64_t count, std::uint64_t entry) {
    std::uint64_t name;
    for (std::uint64_t client = first; client < first + count; client++)
        must(lane.name(client, entry + client % 2, name)); // by two entries of its own
}

int main() {
    const std::uint64_t threads = 3, each = 1000;
    renamer::lane rest;
    must(rest.open(renamer::kind::periodic, 8, threads * each));
    std::vector<std::thread> running;
    for (std::uint64_t t = 0; t < threads; t++) {
        renamer::lane lane;
        must(rest.split(each, lane));
        running.emplace_back(name_all, std::move(lane), t * each, each, 2 * t);
    }
    for (auto &thread : running)
        thread.join();
    renamer::quiet quiet;
    must(rest.join_all());
    must(rest.close(quiet));
    std::vector<std::uint64_t> holders;
    must(quiet.holders(holders));
    std::sort(holders.begin(), holders.end());
    for (std::uint64_t client = 0; client < holders.size(); client++)
        if (holders[client] != client) return 1;
    std::cout << holders.size() << " clients have the names 0 to " << holders.size() - 1 << "\n";
}
