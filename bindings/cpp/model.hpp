// What check.cpp draws and compares with: std::vector<bool> and plain loops, and tests that count what fails.
#ifndef MODEL_HPP
#define MODEL_HPP

#include <bitm/bitm.hpp>

#include <algorithm>
#include <cstdio>
#include <fstream>
#include <map>
#include <numeric>
#include <random>
#include <set>
#include <sstream>
#include <string>
#include <unordered_set>
#include <vector>
#if __cplusplus >= 202002L
#include <ranges>
#include <span>
#endif

using u64 = std::uint64_t;
static unsigned long long checks, failures;
#define CHECK(...)                                                                                                     \
    do {                                                                                                               \
        checks++;                                                                                                      \
        if (!(__VA_ARGS__) && failures++ < 20) std::printf("line %d: %s\n", __LINE__, #__VA_ARGS__);                   \
    } while (0)
#if defined __cpp_exceptions
#define THROWS(Type, ...)                                                                                              \
    do {                                                                                                               \
        bool thrown_ = false;                                                                                          \
        try {                                                                                                          \
            (void)(__VA_ARGS__);                                                                                       \
        } catch (const Type &) {                                                                                       \
            thrown_ = true;                                                                                            \
        }                                                                                                              \
        CHECK(thrown_);                                                                                                \
    } while (0)
#else
#define THROWS(Type, ...) (void)0
#endif

static std::mt19937_64 random_numbers(7);
static u64 below(u64 n) { return n ? random_numbers() % n : 0; }

static std::vector<u64> positions(const std::vector<bool> &of, bool value)
{
    std::vector<u64> found;
    for (u64 i = 0; i < of.size(); i++)
        if (of[i] == value) found.push_back(i);
    return found;
}
static bitm::maybe_position at_least(const std::vector<u64> &in, u64 value)
{
    const auto it = std::lower_bound(in.begin(), in.end(), value);
    return it == in.end() ? bitm::maybe_position() : *it;
}
static bitm::maybe_position at_most(const std::vector<u64> &in, u64 value)
{
    const auto it = std::upper_bound(in.begin(), in.end(), value);
    return it == in.begin() ? bitm::maybe_position() : it[-1];
}

// All that an owner or a view of bits answers, against a model.
template <class Bits> static void same(const Bits &b, const std::vector<bool> &model)
{
    const u64 n = model.size();
    CHECK(b.size() == n && b.empty() == (n == 0));
    const std::vector<u64> ones = positions(model, true), zeros = positions(model, false);
    CHECK(b.count() == ones.size() && b.any() == !ones.empty() && b.none() == ones.empty() && b.all() == zeros.empty());
    CHECK(std::equal(b.begin(), b.end(), model.begin(), model.end()));
    CHECK(std::equal(b.rbegin(), b.rend(), model.rbegin(), model.rend()));
    const auto ones_of = b.ones();
    const auto zeros_of = b.zeros();
    CHECK(std::equal(ones_of.begin(), ones_of.end(), ones.begin(), ones.end()));
    CHECK(std::equal(ones_of.rbegin(), ones_of.rend(), ones.rbegin(), ones.rend()));
    CHECK(std::equal(zeros_of.begin(), zeros_of.end(), zeros.begin(), zeros.end()));
    CHECK(std::equal(zeros_of.rbegin(), zeros_of.rend(), zeros.rbegin(), zeros.rend()));
    const std::uint32_t width = 1 + static_cast<std::uint32_t>(below(64));
    const auto fragments = b.fragments(width);
    CHECK(fragments.size() == n / width &&
          fragments.end() - fragments.begin() == static_cast<std::ptrdiff_t>(n / width));
    u64 first = 0;
    for (const u64 number : fragments) {
        CHECK(number == b.get_bits(first, width));
        first += width;
    }
    std::vector<u64> some(5);
    const u64 start = below(n + 3);
    for (int one = 0; one < 2; one++) {
        const std::vector<u64> &all = one ? ones : zeros;
        const auto from = std::lower_bound(all.begin(), all.end(), start);
        const std::size_t got = one ? b.ones(start, some) : b.zeros(start, some);
        CHECK(got == std::min<std::size_t>(5, static_cast<std::size_t>(all.end() - from)));
        CHECK(std::equal(some.begin(), some.begin() + static_cast<std::ptrdiff_t>(got), from));
    }
    std::vector<u64> walked;
    b.for_each_one([&](u64 at) { walked.push_back(at); });
    CHECK(walked == ones);
    for (int turn = 0; turn < 6; turn++) {
        const u64 at = below(n + 3), other = below(n + 1), from = std::min(at, other), to = std::max(at, other);
        CHECK(b.next_one(at) == at_least(ones, at) && b.next_zero(at) == at_least(zeros, at));
        CHECK(b.previous_one(at) == at_most(ones, at) && b.previous_zero(at) == at_most(zeros, at));
        const auto later = b.ones(at);
        CHECK(std::equal(later.begin(), later.end(), std::lower_bound(ones.begin(), ones.end(), at), ones.end()));
        if (to <= n)
            CHECK(b.count(from, to) ==
                  static_cast<u64>(std::count(model.begin() + static_cast<std::ptrdiff_t>(from),
                                              model.begin() + static_cast<std::ptrdiff_t>(to), true)));
        else THROWS(std::out_of_range, b.count(from, to));
        if (at < n) CHECK(b[at] == model[at] && b.at(at) == model[at] && b.test(at) == model[at]);
        else THROWS(std::out_of_range, b.at(at));
        const std::uint32_t len = static_cast<std::uint32_t>(below(65));
        if (at + len <= n) {
            u64 number = 0;
            for (std::uint32_t i = 0; i < len; i++) number |= u64{model[at + i]} << i;
            CHECK(b.get_bits(at, len) == number);
            if (len && at % len == 0) CHECK(b.fragment(at / len, len) == number);
            if (len) THROWS(std::out_of_range, b.fragment(n / len, len));
        } else {
            THROWS(std::out_of_range, b.get_bits(at, len));
        }
    }
}

static std::vector<bool> random_model(u64 n)
{
    std::vector<bool> model(n);
    const u64 kind = below(5);
    bool run = false;
    for (u64 i = 0; i < n; i++) {
        if (below(kind == 4 ? 100 : 2) == 0) run = !run;
        model[i] = kind == 0 ? false : kind == 1 ? true : kind == 2 ? below(2) : kind == 3 ? below(40) == 0 : run;
    }
    return model;
}
static u64 random_size() { return below(4) == 0 ? below(5000) : below(3) == 0 ? 64 * below(8) : below(300); }

#endif
