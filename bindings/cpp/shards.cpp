// Shards in C++: as one index of the joined bits; which shard holds what; counts that do not fit.
#include <bitm.hpp>

#include <algorithm>
#include <cstdio>
#include <cstdlib>
#include <vector>

#define MUST(condition)                                                                                                \
    do {                                                                                                               \
        if (!(condition)) std::fprintf(stderr, "%s:%d: not so: %s\n", __FILE__, __LINE__, #condition), std::exit(1);   \
    } while (0)

// The nearest bits on either side of each position, by going over the joined bits.
static void near(const bitm::sharded_index &all, const std::vector<bool> &joined)
{
    const std::size_t len = joined.size();
    for (std::size_t from = 0; from < len + 2; from++)
        for (const bool bit : {false, true}) {
            std::size_t next = from, before = std::min(from + 1, len);
            while (next < len && joined[next] != bit) next++;
            while (before > 0 && joined[before - 1] != bit) before--;
            const auto after = bit ? all.next_one(from) : all.next_zero(from);
            const auto ahead = bit ? all.previous_one(from) : all.previous_zero(from);
            MUST(after.has_value() == (next < len) && (!after || *after == next));
            MUST(ahead.has_value() == (before > 0) && (!ahead || *ahead == before - 1));
        }
}

// Lists of more than one part, with some past the end, beside counting.
static void lists(const bitm::sharded_index &all, const std::vector<bool> &joined)
{
    std::vector<std::uint64_t> before[2], positions[2], queries((std::size_t{1} << 17) + 5), out(queries.size());
    for (std::size_t i = 0; i <= joined.size(); i++) {
        for (const bool bit : {false, true}) before[bit].push_back(positions[bit].size());
        if (i < joined.size()) positions[joined[i]].push_back(i);
    }
    for (std::size_t i = 0; i < queries.size(); i++) queries[i] = i * 7919 % (joined.size() + 3);
    for (const bool bit : {false, true}) {
        const auto wanted = [&](const std::vector<std::uint64_t> &of) {
            for (std::size_t i = 0; i < queries.size(); i++)
                if (out[i] != (queries[i] < of.size() ? of[queries[i]] : bitm::no_answer)) return false;
            return true;
        };
        bit ? all.rank(queries, out) : all.rank0(queries, out);
        MUST(wanted(before[bit]));
        bit ? all.select(queries, out) : all.select0(queries, out);
        MUST(wanted(positions[bit]));
    }
}

// Nothing in them, and nothing to find.
static void empty(const bitm::sharded_index &all)
{
    std::vector<std::uint64_t> queries{0, 1}, out(2);
    MUST(all.size() == 0 && all.count() == 0 && all.counts().shards() == 0 && all.rank(0) == 0 && all.rank0(0) == 0);
    MUST(!all.select(0) && !all.select0(0) && !all.next_one(0) && !all.next_zero(0) && !all.previous_one(7));
    all.rank(queries, out);
    MUST(out[0] == 0 && out[1] == bitm::no_answer);
}
static void empty(const bitm::prefix_counts &of)
{
    MUST(of.shards() == 0 && of.size() == 0 && of.count() == 0 && !of.find(0) && !of.find_one(0) && !of.find_zero(0));
    MUST(of.bits_before().size() == 1 && of.bits_before()[0] == 0 && of.ones_before().size() == 1);
    MUST(of.raw().bits_len == 1 && of.raw().ones_len == 1);
}

// What was moved from has no shards, and takes others.
template <class Of, class Full> static void moves(Of given, Full full)
{
    Of moved = std::move(given), assigned;
    empty(given), full(moved), empty(assigned), empty(Of(assigned));
    assigned = std::move(moved), empty(moved), full(assigned);
    moved = assigned, full(moved), full(assigned);
    swap(given, moved), empty(moved), full(given);
    Of &same = given;
    given = same, full(given);
    assigned = Of(), empty(assigned);
}

// The indexes are its own: of local ones, and in copies, which share them.
static bitm::sharded_index of_locals()
{
    const bitm::rank_index a(bitm::bits("0101")), b(bitm::bits("11"));
    return bitm::sharded_index({a, b});
}
static void owned()
{
    const auto full = [](const bitm::sharded_index &all) {
        MUST(all.size() == 6 && all.count() == 4 && all.rank(5) == 3 && all.select(3).value() == 5);
    };
    full(of_locals()), moves(of_locals(), full);
    moves(bitm::prefix_counts({4, 2}, {2, 2}), [](const bitm::prefix_counts &of) {
        MUST(of.shards() == 2 && of.size() == 6 && of.count() == 4 && of.find_one(2)->shard == 1);
        MUST(of.bits_before()[1] == 4 && of.bits_before()[2] == 6 && of.ones_before()[1] == 2);
    });
    std::vector<bitm::sharded_index> copies(3, of_locals());
    copies.erase(copies.begin()), full(copies[0]), full(copies[1]);
    std::vector<bitm::rank_index> shards(2, bitm::rank_index(bitm::bits("011")));
    const std::uint64_t *const words = shards[1].raw().words;
    const bitm::sharded_index all(std::move(shards)); // without a copy
    MUST(all.count() == 4 && words[0] == 6);
    empty(bitm::sharded_index()), empty(bitm::prefix_counts()), empty(bitm::prefix_counts({}, {}));
    empty(bitm::sharded_index(std::vector<bitm::rank_index>()));
}

int main()
{
    owned();
    std::uint64_t seed = 0x9E3779B97F4A7C15u;
    const auto draw = [&seed] { return seed ^= seed << 13, seed ^= seed >> 7, seed ^= seed << 17; };
    for (std::size_t count = 0; count < 8; count++) {
        std::vector<bitm::rank_index> owners;
        std::vector<bitm::rank_index_view> views;
        std::vector<bool> joined;
        std::vector<std::uint64_t> starts;
        for (std::size_t k = 0; k < count; k++) {
            bitm::bits bits(draw() % 3 ? draw() % 900 : 0);
            starts.push_back(joined.size());
            for (std::uint64_t i = 0; i < bits.size(); i++) {
                const bool bit = draw() % (k + 2) == 0;
                bits.set(i, bit);
                joined.push_back(bit);
            }
            owners.emplace_back(bits);
        }
        for (const auto &it : owners) views.push_back(it.view());
        const bitm::sharded_index all(views);
        MUST(all.size() == joined.size());
        std::uint64_t ranks[2] = {0, 0};
        for (std::uint64_t i = 0; i <= joined.size(); i++) {
            MUST(all.rank(i) == ranks[1] && all.rank0(i) == ranks[0]);
            const auto at = all.counts().find(i);
            if (i == joined.size()) {
                MUST(!at);
                break;
            }
            MUST(at && at->within < owners[at->shard].size() && starts[at->shard] + at->within == i);
            const auto of = joined[i] ? all.counts().find_one(ranks[1]) : all.counts().find_zero(ranks[0]);
            MUST(of && of->shard == at->shard);
            MUST((joined[i] ? all.select(ranks[1]) : all.select0(ranks[0])) == i);
            ranks[joined[i]]++;
        }
        MUST(!all.select(ranks[1]) && !all.select0(ranks[0]) && all.count() == ranks[1]);
        near(all, joined);
        lists(all, joined);
#if defined __cpp_exceptions
        try {
            all.rank(joined.size() + 1);
            MUST(false);
        } catch (const std::out_of_range &) {
        }
#endif
    }
#if defined __cpp_exceptions
    for (const auto &ones : {std::vector<std::uint64_t>{1}, std::vector<std::uint64_t>{UINT64_MAX, 1}}) try {
            bitm::prefix_counts({UINT64_MAX, 0}, ones);
            MUST(false);
        } catch (const std::invalid_argument &) {
        }
#endif
    std::puts("C++: shards answer as plain counting over the joined bits");
}
