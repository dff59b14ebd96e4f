// The steps of spl_turn_bench under a std::mutex: turn TURNS WORK.
// clang++ -O2 -std=c++17 -pthread bench/turn.cc -o turn
#include <chrono>
#include <cstdint>
#include <cstdio>
#include <cstdlib>
#include <mutex>
#include <thread>
#include <vector>

static std::mutex lock;
static uint64_t state = 1;

static void work(uint32_t turns, uint32_t rounds) {
    for (uint32_t i = 0; i < turns; i++) {
        std::lock_guard<std::mutex> held(lock);
        uint64_t s = state;
        for (uint32_t k = 0; k < rounds; k++) s = (s ^ (s >> 7)) * 6364136223846793005ull;
        state = s;
    }
}

int main(int argc, char **argv) {
    if (argc < 3) return 2;
    const uint32_t turns = std::strtoul(argv[1], nullptr, 10);
    const uint32_t rounds = std::strtoul(argv[2], nullptr, 10);
    for (uint32_t threads : {1u, 4u, 8u, 16u}) {
        const auto start = std::chrono::steady_clock::now();
        std::vector<std::thread> all;
        for (uint32_t i = 0; i < threads; i++) all.emplace_back(work, turns / threads, rounds);
        for (auto &t : all) t.join();
        const auto took = std::chrono::steady_clock::now() - start;
        const double ns = std::chrono::duration<double, std::nano>(took).count();
        std::printf("%u threads: %.0f ns a turn (%llu)\n", threads, ns / turns, (unsigned long long)state);
    }
}
