// Times rank and selection of sdsl-lite over a random content of 2^LOG2 bits, and loading a stored index; of more than 2^30
// bits the loading alone: sdsl LOG2 ROUNDS. Rows as those of `tool_bench`, by the same clock, the thread's processor time.
// Its other structures are timed by structures.cpp.
#include "clock.h"

#include <cstdint>
#include <cstdio>
#include <cstdlib>
#include <fstream>
#include <random>
#include <sdsl/bit_vectors.hpp>
#include <string>
#include <vector>

// 0, which the compiler does not know: each call of a chained row waits for the answer before.
uint64_t nothing = 0;

// The least time of the rounds for a call.
template <bool CHAINED, class F>
void row(const char* name, int log2, int rounds, const std::vector<uint64_t>& asked, F call) {
    double least = 1e18;
    uint64_t check = 0;
    for (int k = 0; k < rounds; k++) {
        double start = used();
        uint64_t sum = 0;
        uint64_t last = 0;
        for (uint64_t at : asked) {
            last = call(CHAINED ? at ^ (last & nothing) : at);
            sum += last;
        }
        double nanos = used() - start;
        check = sum;
        if (nanos < least) least = nanos;
    }
    std::printf("%s,sdsl,%d,even,%.2f,ns,%llu\n", name, log2, least / asked.size(), (unsigned long long)check);
}

// Bits of `bytes` for each word of a content of 2^LOG2 bits.
void space(const char* name, int log2, double bytes) {
    std::printf("%s,sdsl,%d,even,%.2f,bits,%.0f\n", name, log2, bytes * 8 / (uint64_t(1) << (log2 - 6)), bytes);
}

// The row of loading a stored content with its table and asking it once.
template <class Rank>
void load(int log2, int rounds, const sdsl::bit_vector& bits, const Rank& rank) {
    std::string path = std::string(std::getenv("TMPDIR") ? std::getenv("TMPDIR") : "/tmp") + "/sdsl.stored";
    {
        std::ofstream out(path, std::ios::binary);
        bits.serialize(out);
        rank.serialize(out);
    }
    double least = 1e18;
    uint64_t check = 0;
    for (int k = 0; k < rounds; k++) {
        double start = used();
        std::ifstream in(path, std::ios::binary);
        sdsl::bit_vector loaded;
        Rank of;
        loaded.load(in);
        of.load(in, &loaded);
        check = of(loaded.size() / 2);
        double nanos = used() - start;
        if (nanos < least) least = nanos;
    }
    std::remove(path.c_str());
    std::printf("open_stored,sdsl,%d,even,%.2f,us,%llu\n", log2, least / 1000, (unsigned long long)check);
}

int main(int argc, char** argv) {
    if (argc != 3) return 2;
    int log2 = std::atoi(argv[1]), rounds = std::atoi(argv[2]);
    nothing = rounds < 0;
    std::mt19937_64 draw(88172645463325252);
    sdsl::bit_vector bits(uint64_t(1) << log2);
    for (uint64_t k = 0; k < bits.size() / 64; k++) bits.data()[k] = draw();
    sdsl::rank_support_v5<> rank(&bits);
    if (log2 > 30) {
        load(log2, rounds, bits, rank);
        return 0;
    }
    sdsl::select_support_mcl<> select(&bits);
    sdsl::select_support_mcl<0> select0(&bits);
    uint64_t ones = rank(bits.size());
    std::vector<uint64_t> positions(1 << 17), ranks(1 << 17), ranks0(1 << 17);
    for (auto& at : positions) at = draw() % bits.size();
    for (auto& at : ranks) at = 1 + draw() % ones;
    for (auto& at : ranks0) at = 1 + draw() % (bits.size() - ones);
    auto rank_of = [&](uint64_t at) { return rank(at); };
    auto select_of = [&](uint64_t at) { return select(at); };
    auto select0_of = [&](uint64_t at) { return select0(at); };
    row<false>("rank", log2, rounds, positions, rank_of);
    row<true>("rank_chained", log2, rounds, positions, rank_of);
    row<false>("select", log2, rounds, ranks, select_of);
    row<true>("select_chained", log2, rounds, ranks, select_of);
    row<false>("select0", log2, rounds, ranks0, select0_of);
    row<true>("select0_chained", log2, rounds, ranks0, select0_of);
    space("space_tables", log2, sdsl::size_in_bytes(rank));
    space("space_ones", log2, sdsl::size_in_bytes(select));
    space("space_zeros", log2, sdsl::size_in_bytes(select0));
    load(log2, rounds < 5 ? rounds : 5, bits, rank);
}
