// What the programs share that time structures beside those of sdsl-lite, beside the clock and numbers that are drawn:
// memory, and rounds in which the forms of a call take turns.
#ifndef TURNS_HPP
#define TURNS_HPP

#define BITM_MUST_USE // every status is looked at before the clock starts, or is one of a sum that is compared
#include "../include/bitm.h"
#include "clock.h"

#include <algorithm>
#include <cstdint>
#include <cstdio>
#include <cstdlib>
#include <functional>
#include <string>
#include <vector>

[[noreturn]] void fail(const std::string &why)
{
    std::fprintf(stderr, "%s\n", why.c_str());
    std::exit(1);
}

void have(uint32_t status, const char *call)
{
    if (status != BITM_OK) fail(std::string(call) + ": " + bitm_status_text(status));
}

// Words that begin at a line of the cache.
struct Block {
    uint64_t *words;
    uint64_t len;
    explicit Block(uint64_t len) : words(static_cast<uint64_t *>(aligned_alloc(64, (len + 7) / 8 * 64))), len(len)
    {
        if (!words) fail("there is no memory");
    }
    ~Block() { std::free(words); }
    Block(const Block &) = delete;
    Block &operator=(const Block &) = delete;
};

// A way to answer all queries, or to build: the name of its row, who does it, and what is done, which gives the sum of
// the answers or how much was built.
struct Form {
    std::string row;
    const char *by;
    std::function<uint64_t()> sum;
};

// Rows about `what`, of 2^log2 items.
struct Turns {
    std::string what;
    int log2, rounds;

    void print(const std::string &row, const char *by, double value, const char *unit, uint64_t check) const
    {
        std::printf("%s_%s,%s,%d,even,%.2f,%s,%llu\n", what.c_str(), row.c_str(), by, log2, value, unit,
                    (unsigned long long)check);
        std::fflush(stdout);
    }

    // Lets the forms take turns, as often as is said, and prints the least time of each over the number of calls. Of
    // queries each form first brings into the caches what the form before it has driven out.
    void take(int times, uint64_t calls, bool queries, const std::vector<Form> &forms) const
    {
        std::vector<double> least(forms.size(), 1e18);
        std::vector<uint64_t> sums(forms.size());
        for (int round = 0; round < times; round++) {
            for (size_t k = 0; k < forms.size(); k++) {
                if (queries) forms[k].sum();
                const double start = used();
                sums[k] = forms[k].sum();
                least[k] = std::min(least[k], used() - start);
            }
        }
        for (size_t k = 0; k < forms.size(); k++) {
            if (sums[k] != sums[0])
                fail(forms[k].row + " by " + forms[k].by + " has other answers than by " + forms[0].by);
            print(forms[k].row, forms[k].by, least[k] / calls, "ns", sums[k]);
        }
    }

    // Bits of `bytes` for each of `items` items.
    void space(const char *row, const char *by, double bytes, uint64_t items) const
    {
        print(row, by, bytes * 8 / items, "bits", bytes);
    }
};

#endif
