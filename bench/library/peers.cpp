// What peers in C++ take, in so many threads: to put a client into a tbb::concurrent_vector, whose index is its name; or
// to take one of 1,000 slots and give it back, by a free list behind a mutex, a bitmap of words that are exchanged, or a
// stack or a queue without a lock. Nanoseconds a name or a slot by the clock and of a processor, the median of so many
// rounds after a first.
//
//     peers vector|list|bitmap|stack|queue|moodycamel THREADS ROUNDS
#include <boost/lockfree/queue.hpp>
#include <boost/lockfree/stack.hpp>
#include <concurrentqueue/concurrentqueue.h>
#include <tbb/concurrent_vector.h>

#include <algorithm>
#include <array>
#include <atomic>
#include <cstdint>
#include <cstdio>
#include <cstdlib>
#include <cstring>
#include <ctime>
#include <functional>
#include <malloc.h>
#include <memory>
#include <mutex>
#include <thread>
#include <vector>

constexpr std::uint64_t CLIENTS = 262144, SLOTS = 1000, NONE = ~std::uint64_t{0};

// Nanoseconds.
struct Spent {
    double began, ended, processor;
};

static double nanoseconds(clockid_t clock) {
    timespec time;
    clock_gettime(clock, &time);
    return 1e9 * static_cast<double>(time.tv_sec) + static_cast<double>(time.tv_nsec);
}

// Runs a part in each thread, at once, each with its number. A part returns the sum of its names.
static Spent in_threads(std::uint64_t threads, const std::function<std::uint64_t(std::uint64_t)> &part,
                        std::atomic<std::uint64_t> &sum) {
    std::atomic<std::uint64_t> there{0};
    std::vector<Spent> spent(threads);
    std::vector<std::thread> running;
    for (std::uint64_t thread = 0; thread < threads; thread++)
        running.emplace_back([&, thread] {
            for (there++; there < threads;)
                std::this_thread::yield();
            double began = nanoseconds(CLOCK_MONOTONIC), from = nanoseconds(CLOCK_THREAD_CPUTIME_ID);
            sum += part(thread);
            double to = nanoseconds(CLOCK_THREAD_CPUTIME_ID);
            spent[thread] = {began, nanoseconds(CLOCK_MONOTONIC), to - from};
        });
    for (std::thread &thread : running)
        thread.join();
    Spent all = spent[0];
    for (std::uint64_t thread = 1; thread < threads; thread++) {
        all.began = std::min(all.began, spent[thread].began);
        all.ended = std::max(all.ended, spent[thread].ended);
        all.processor += spent[thread].processor;
    }
    return all;
}

static Spent vector(std::uint64_t threads) {
    tbb::concurrent_vector<std::uint64_t> holders;
    holders.reserve(CLIENTS);
    std::atomic<std::uint64_t> sum{0};
    auto put = [&](std::uint64_t thread) {
        std::uint64_t own = 0;
        for (std::uint64_t client = 0; client < CLIENTS / threads; client++)
            own += static_cast<std::uint64_t>(holders.push_back((thread << 40) + client) - holders.begin());
        return own;
    };
    Spent spent = in_threads(threads, put, sum);
    if (sum != CLIENTS * (CLIENTS - 1) / 2)
        std::abort();
    return spent;
}

struct List {
    std::mutex lock;
    std::vector<std::uint64_t> free;

    List() { free.reserve(SLOTS); }
    std::uint64_t take() {
        const std::lock_guard<std::mutex> held(lock);
        if (free.empty()) return NONE;
        const std::uint64_t slot = free.back();
        free.pop_back();
        return slot;
    }
    void give(std::uint64_t slot) {
        const std::lock_guard<std::mutex> held(lock);
        free.push_back(slot);
    }
};

struct Bitmap {
    std::array<std::atomic<std::uint64_t>, (SLOTS + 63) / 64> words{};

    std::uint64_t take() {
        for (std::uint64_t at = 0; at < words.size(); at++)
            for (std::uint64_t word = words[at]; word != 0;)
                if (words[at].compare_exchange_weak(word, word & (word - 1)))
                    return 64 * at + static_cast<std::uint64_t>(__builtin_ctzll(word));
        return NONE;
    }
    void give(std::uint64_t slot) { words[slot / 64].fetch_or(std::uint64_t{1} << slot % 64); }
};

template <typename Free> struct WithoutLock {
    Free free{SLOTS};

    std::uint64_t take() {
        std::uint64_t slot = NONE;
        return free.pop(slot) ? slot : NONE;
    }
    void give(std::uint64_t slot) { free.push(slot); }
};

struct Moodycamel {
    moodycamel::ConcurrentQueue<std::uint64_t> free{SLOTS};

    std::uint64_t take() {
        std::uint64_t slot = NONE;
        return free.try_dequeue(slot) ? slot : NONE;
    }
    void give(std::uint64_t slot) { free.enqueue(slot); }
};

template <typename Pool> static Spent pool(std::uint64_t threads) {
    auto slots = std::make_unique<Pool>();
    for (std::uint64_t slot = 0; slot < SLOTS; slot++)
        slots->give(slot);
    std::atomic<std::uint64_t> taken{0};
    auto cycles = [&](std::uint64_t) {
        std::uint64_t own = 0;
        for (std::uint64_t cycle = 0; cycle < CLIENTS / threads; cycle++) {
            const std::uint64_t slot = slots->take();
            own += slot < SLOTS;
            slots->give(slot);
        }
        return own;
    };
    Spent spent = in_threads(threads, cycles, taken);
    if (taken != CLIENTS / threads * threads)
        std::abort();
    return spent;
}

static Spent round_of(const char *way, std::uint64_t threads) {
    if (std::strcmp(way, "vector") == 0) return vector(threads);
    if (std::strcmp(way, "list") == 0) return pool<List>(threads);
    if (std::strcmp(way, "bitmap") == 0) return pool<Bitmap>(threads);
    if (std::strcmp(way, "stack") == 0) return pool<WithoutLock<boost::lockfree::stack<std::uint64_t>>>(threads);
    if (std::strcmp(way, "queue") == 0) return pool<WithoutLock<boost::lockfree::queue<std::uint64_t>>>(threads);
    if (std::strcmp(way, "moodycamel") == 0) return pool<Moodycamel>(threads);
    std::exit(2);
}

static double median(std::vector<double> times) {
    std::sort(times.begin(), times.end());
    return times[times.size() / 2] / CLIENTS;
}

int main(int count, char **words) {
    if (count != 4)
        return 2;
    // What is freed is kept, so that no round after the first asks the system for memory.
    mallopt(M_TRIM_THRESHOLD, 1 << 30), mallopt(M_MMAP_THRESHOLD, 1 << 25);
    const std::uint64_t threads = std::strtoull(words[2], nullptr, 10);
    std::vector<double> clock, processor;
    round_of(words[1], threads);
    for (int round = std::atoi(words[3]); round > 0; round--) {
        Spent spent = round_of(words[1], threads);
        clock.push_back(spent.ended - spent.began), processor.push_back(spent.processor);
    }
    std::printf("%f %f\n", median(clock), median(processor));
}
