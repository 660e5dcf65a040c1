// Sparse bits in C++ beside plain lists of positions: owners, views, lists, files, threads; positions that are refused,
// blocks that are spoilt or cut, and what is left of an owner that was moved.
#include "blocks.hpp"

using Sparse = bitm::sparse_bits;
using View = bitm::sparse_bits_view;

// The positions of the 1 bits of the given number of bits.
struct Plain {
    Words positions;
    u64 size = 0;

    bool bit(u64 at) const { return std::binary_search(positions.begin(), positions.end(), at); }
    u64 rank(u64 at) const
    {
        return static_cast<u64>(std::lower_bound(positions.begin(), positions.end(), at) - positions.begin());
    }
    maybe_position select(u64 rank) const
    {
        return rank < positions.size() ? maybe_position(positions[rank]) : std::nullopt;
    }
    maybe_position select0(u64 rank) const
    {
        if (rank >= size - positions.size()) return std::nullopt;
        for (const u64 it : positions) rank += it <= rank;
        return rank;
    }
    // By steps of one position.
    maybe_position next(bool one, u64 from) const
    {
        if (one) return select(rank(from));
        while (from < size && bit(from)) from++;
        return from < size ? maybe_position(from) : std::nullopt;
    }
    maybe_position previous(bool one, u64 from) const
    {
        if (size == 0) return std::nullopt;
        from = std::min(from, size - 1);
        if (one) return rank(from + 1) > 0 ? select(rank(from + 1) - 1) : std::nullopt;
        while (bit(from))
            if (from-- == 0) return std::nullopt;
        return from;
    }
};

static Plain drawn(u64 count, u64 most, u64 more)
{
    Plain plain;
    u64 next = draw() % most;
    for (u64 i = 0; i < count; i++, next += 1 + draw() % most) plain.positions.push_back(next);
    plain.size = (count ? plain.positions.back() + 1 : 0) + more;
    return plain;
}

template <class S> static void of_one(const S &s, const Plain &plain, u64 at)
{
    if (at < plain.size) MUST(s[at] == plain.bit(at) && s.at(at) == plain.bit(at) && s.try_at(at).value() == s[at]);
    if (at <= plain.size) MUST(s.rank(at) == plain.rank(at) && s.rank0(at) == at - plain.rank(at));
    if (at >= plain.size) {
        MUST(throws<std::out_of_range>([&] { (void)s[at]; }) && throws<std::out_of_range>([&] { (void)s.at(at); }));
        MUST(s.try_at(at).error() == bitm::failure{bitm::errc::outside, at, plain.size, nullptr});
    }
    if (at > plain.size) {
        MUST(throws<std::out_of_range>([&] { (void)s.rank(at); }));
        MUST(s.try_rank0(at).error() == bitm::failure{bitm::errc::outside, at, plain.size, nullptr});
    }
    MUST(s.select(at) == plain.select(at) && s.try_select(at).value() == s.select(at));
    MUST(s.select0(at) == plain.select0(at) && s.try_select0(at).value() == s.select0(at));
    MUST(s.next_one(at) == plain.next(true, at) && s.try_next_one(at).value() == s.next_one(at));
    MUST(s.next_zero(at) == plain.next(false, at) && s.try_next_zero(at).value() == s.next_zero(at));
    MUST(s.previous_one(at) == plain.previous(true, at) && s.try_previous_one(at).value() == s.previous_one(at));
    MUST(s.previous_zero(at) == plain.previous(false, at) && s.try_previous_zero(at).value() == s.previous_zero(at));
}

template <class S> static void lists(const S &s, const Plain &plain, const Words &asked)
{
    Words out(asked.size()), less(asked.size() - 1);
    const auto is = [&](std::size_t i, const maybe_position &wanted) {
        return out[i] == wanted.value_or(bitm::no_answer);
    };
    const auto inside = [&](u64 at, u64 end, u64 answer) { return at < end ? maybe_position(answer) : std::nullopt; };
    s.at(asked, out);
    for (std::size_t i = 0; i < asked.size(); i++) MUST(is(i, inside(asked[i], plain.size, plain.bit(asked[i]))));
    s.rank(asked, out);
    for (std::size_t i = 0; i < asked.size(); i++)
        MUST(is(i, asked[i] <= plain.size ? maybe_position(plain.rank(asked[i])) : std::nullopt));
    s.rank0(asked, out);
    for (std::size_t i = 0; i < asked.size(); i++)
        MUST(is(i, asked[i] <= plain.size ? maybe_position(asked[i] - plain.rank(asked[i])) : std::nullopt));
    s.select(asked, out);
    for (std::size_t i = 0; i < asked.size(); i++) MUST(is(i, plain.select(asked[i])));
    s.select0(asked, out);
    for (std::size_t i = 0; i < asked.size(); i++) MUST(is(i, plain.select0(asked[i])));
    MUST(throws<std::invalid_argument>([&] { s.at(asked, less); }));
    MUST(throws<std::invalid_argument>([&] { s.rank(asked, less); }));
    MUST(throws<std::invalid_argument>([&] { s.select0(out, out); }));
    s.rank(bitm::words_in(), bitm::words_out());
}

template <class S> static void same(const S &s, const Plain &plain)
{
    const u64 ones = plain.positions.size();
    MUST(s.size() == plain.size && s.empty() == (plain.size == 0) && s.check());
    MUST(s.count() == ones && s.count0() == plain.size - ones);
    const auto positions = s.positions();
    MUST(std::equal(positions.begin(), positions.end(), plain.positions.begin(), plain.positions.end()));
    Words asked{0, 1, 2, ones, ones + 1, plain.size, plain.size + 1, plain.size - ones, ~u64{}, ~u64{} - 1};
    for (u64 i = 0; i < std::min<u64>(ones, 12); i++)
        asked.push_back(plain.positions[draw() % ones]), asked.push_back(asked.back() + 1);
    for (u64 i = 0; i < 12; i++) asked.push_back(draw() % (plain.size + 1));
    for (const u64 at : asked) of_one(s, plain, at);
    lists(s, plain, asked);
}

static void refused()
{
    const Words twice{3, 3}, falls{4, 3}, some{3, 9};
    const auto why = [](const Words &positions, u64 size) { return Sparse::try_of(positions, size).error(); };
    const auto rises = bitm::item_fault::not_above;
    MUST(why(twice, 100) == bitm::failure{bitm::errc::unsorted, 1, 2, "position", 3, 3, rises});
    MUST(why(falls, 100) == bitm::failure{bitm::errc::unsorted, 1, 2, "position", 3, 4, rises});
    MUST(why(some, 9) == bitm::failure{bitm::errc::outside, 1, 2, "position", 9, 9, bitm::item_fault::not_below});
    MUST(bitm::message(why({1, 2, 17, 17}, 99)) == "bitm: position 3 (17) is not above position 2 (17)");
    MUST(bitm::message(why({1, 2, 17, 200}, 100)) == "bitm: position 3 (200) is not below 100");
    MUST(bitm::message(why({1, 2, 17, 200}, 0)) == "bitm: position 0 (1) is not below 0");
    MUST(bitm::message(why({5, 2}, 1)) == "bitm: position 1 (2) is not above position 0 (5)"); // sorted comes first
    MUST(throws<std::out_of_range>([&] { Sparse s(some, 9); }) &&
         throws<std::invalid_argument>([&] { Sparse s(twice, 100); }));
    MUST(Sparse(some, 10).size() == 10 && Sparse({}, 7).size() == 7 && Sparse({}, 0).empty());
}

static void owners(const Plain &plain)
{
    const Sparse a(plain.positions, plain.size);
    MUST(a == Sparse(plain.positions, plain.size) && a != Sparse(plain.positions, plain.size + 1));
    copies_and_moves(
        a, [&](const auto &it) { same(it, plain); }, [](const auto &it) { same(it, {}); });
}

// Answers of a block that may hold anything: inside, or an error.
static void any(const View &s)
{
    const u64 n = s.size();
    for (u64 i = 0; i <= n; i += 1 + n / 40) {
        const auto bit = s.try_at(i);
        MUST(!bit || i < n);
        for (const auto &it : {s.try_rank(i), s.try_rank0(i)}) MUST(!it || *it <= i);
        for (const auto &it : {s.try_select(i), s.try_select0(i)}) MUST(!it || !*it || **it < n);
        for (const auto &it : {s.try_next_one(i), s.try_next_zero(i)}) MUST(!it || !*it || (i <= **it && **it < n));
        for (const auto &it : {s.try_previous_one(i), s.try_previous_zero(i)}) MUST(!it || !*it || **it <= i);
    }
}

static void spoilt()
{
    const Plain plain = drawn(50, 90, 4);
    const Sparse s(plain.positions, plain.size);
    MUST(s.raw().positions.words == s.block().data() + 40);
    spoilt_blocks(s, 40, 1, any);
}

static void threads()
{
    const Plain plain = drawn(2000, 9, 0);
    const Sparse s(plain.positions, plain.size);
    const View view = s.view();
    std::vector<std::thread> all;
    for (int i = 0; i < 6; i++)
        all.emplace_back([&] {
            for (u64 at = 0; at < 2000; at++)
                MUST(s.select(at) == plain.select(at) && view.rank(plain.positions[at]) == at);
        });
    for (std::thread &it : all) it.join();
}

int main(int, char **argv)
{
    const std::string path = argv[0] + std::string(".sparse");
    refused(), spoilt(), threads();
    std::vector<Plain> all{{}, {{}, 9}, {{0}, 1}, {{3, 100, 101, 4000}, 5000}, {{5}, ~u64{} - 2}};
    for (u64 count = 1; count < 30; count++) all.push_back(drawn(count * count, u64{1} << count, count % 3 * 70));
    for (const Plain &plain : all) {
        const Sparse s(plain.positions, plain.size);
        same(s, plain), files_of(s, path, [&](const auto &it) { same(it, plain); });
    }
    owners(all[3]), owners(all.back());
    std::puts("sparse: ok");
    return 0;
}
