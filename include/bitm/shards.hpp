// Bits in shards: which shard holds a position or a rank, and the shards of one process queried as one.
//
//     bitm::bits first(100), second(200);
//     first.set(7);
//     second.set(30);
//     bitm::prefix_counts counts({100, 200}, {1, 1});            // the bits and the 1 bits of each shard
//     std::cout << counts.find_one(1)->shard << '\n';             // 1
//     bitm::rank_index a(first), b(second);
//     bitm::sharded_index joined({a.view(), b.view()});          // counts them; the indexes stay the caller's
//     std::cout << joined.rank(110) << ' ' << *joined.select(1) << ' ' << *joined.next_one(8) << '\n'; // 1 130 130
//     std::vector<bitm::rank_index> shards;
//     shards.push_back(std::move(a)), shards.push_back(std::move(b));
//     const bitm::sharded_index owner(std::move(shards));        // the indexes are its own
//     std::cout << owner.count() << '\n';                        // 2
//
// Where the counts match the shards, and each shard's tables match its words, the answers are those of counting in the
// joined bits.
#ifndef BITM_SHARDS_HPP
#define BITM_SHARDS_HPP

#include <bitm/index.hpp>

#include <algorithm>
#include <memory>
#include <vector>

BITM_NAMESPACE_BEGIN

// A shard, and a position in it or the rank of a bit there.
using shard_location = bitm_shard_location;

// How many bits, and how many 1 bits, there are before each shard, and in all. A moved-from value has no shards.
class BITM_OWNER prefix_counts {
public:
    // Of no shards.
    prefix_counts() noexcept = default;

    // Of the bits and the 1 bits of each shard: fails where these lists differ in length, or a sum is 2^64 or more.
    prefix_counts(const std::vector<std::uint64_t> &bits_of_each, const std::vector<std::uint64_t> &ones_of_each)
        : bits_(sums(bits_of_each)), ones_(sums(ones_of_each))
    {
        if (bits_.size() != ones_.size()) fail({errc::bad_size});
    }
    prefix_counts(const prefix_counts &) = default;
    prefix_counts(prefix_counts &&other) noexcept { swap(other); }
    prefix_counts &operator=(const prefix_counts &other) { return *this = prefix_counts(other); }
    prefix_counts &operator=(prefix_counts &&other) noexcept
    {
        prefix_counts moved(std::move(other));
        swap(moved);
        return *this;
    }
    ~prefix_counts() = default;
    void swap(prefix_counts &other) noexcept { bits_.swap(other.bits_), ones_.swap(other.ones_); }
    friend void swap(prefix_counts &a, prefix_counts &b) noexcept { a.swap(b); }

    // How many shards there are, and how many bits and 1 bits in all.
    std::size_t shards() const noexcept { return all(bits_).size() - 1; }
    std::uint64_t size() const noexcept { return all(bits_).end()[-1]; }
    std::uint64_t count() const noexcept { return all(ones_).end()[-1]; }

    // How many bits, or 1 bits, there are before each shard, and last in all. Deleted for temporaries.
    words_in bits_before() const &noexcept BITM_LIFETIMEBOUND { return all(bits_); }
    words_in ones_before() const &noexcept BITM_LIFETIMEBOUND { return all(ones_); }
    void bits_before() const && = delete;
    void ones_before() const && = delete;

    // The shard that holds a position, or the 1 bit, or 0 bit, with a rank; none where there is none.
    std::optional<shard_location> find(std::uint64_t position) const { return located(BITM_POSITIONS, position); }
    std::optional<shard_location> find_one(std::uint64_t rank) const { return located(BITM_ONES, rank); }
    std::optional<shard_location> find_zero(std::uint64_t rank) const { return located(BITM_ZEROS, rank); }

    // All of it as C takes it. Deleted for temporaries.
    bitm_prefixes raw() const &noexcept BITM_LIFETIMEBOUND
    {
        const words_in bits = all(bits_), ones = all(ones_);
        return {bits.data(), bits.size(), ones.data(), ones.size()};
    }
    void raw() const && = delete;

private:
    // The sums; of no shards a single 0.
    static words_in all(const std::vector<std::uint64_t> &sums) noexcept
    {
        static constexpr std::uint64_t nothing[1] = {0};
        return sums.empty() ? words_in(nothing, 1) : words_in(sums);
    }
    static std::vector<std::uint64_t> sums(const std::vector<std::uint64_t> &numbers)
    {
        std::vector<std::uint64_t> made(numbers.size() + 1);
        if (bitm_prefix_sums(numbers.data(), numbers.size(), made.data(), made.size()) != BITM_OK)
            fail({errc::bad_size});
        return made;
    }
    std::optional<shard_location> located(std::uint32_t kind, std::uint64_t number) const
    {
        shard_location out{};
        const bitm_prefixes counts = raw();
        switch (bitm_shards_find(&counts, kind, number, &out)) {
        case BITM_OK:
            return out;
        case BITM_NONE:
            return std::nullopt;
        default:
            fail({errc::wrong});
        }
    }

    std::vector<std::uint64_t> bits_, ones_;
};

// Indexes of one process, one after the other: views of indexes, which have to stay, or indexes that it owns. Copies
// share these, and a moved-from value has no shards.
class sharded_index {
public:
    // Of no shards. Of views, and of indexes: counts the 1 bits of each, and fails where the shards have 2^64 bits or
    // more together.
    sharded_index() noexcept = default;
    explicit sharded_index(const std::vector<rank_index_view> &shards)
        : shards_(raw_of(shards)), counts_(measured(shards))
    {
    }
    explicit sharded_index(std::vector<rank_index> shards)
        : own_(std::make_shared<const std::vector<rank_index>>(std::move(shards))), shards_(raw_of(*own_)),
          counts_(measured(*own_))
    {
    }
    sharded_index(const sharded_index &) = default;
    sharded_index(sharded_index &&other) noexcept { swap(other); }
    sharded_index &operator=(const sharded_index &other) { return *this = sharded_index(other); }
    sharded_index &operator=(sharded_index &&other) noexcept
    {
        sharded_index moved(std::move(other));
        swap(moved);
        return *this;
    }
    ~sharded_index() = default;
    void swap(sharded_index &other) noexcept
    {
        own_.swap(other.own_), shards_.swap(other.shards_), counts_.swap(other.counts_);
    }
    friend void swap(sharded_index &a, sharded_index &b) noexcept { a.swap(b); }

    // How many bits and 1 bits there are in all, and before each shard.
    std::uint64_t size() const noexcept { return counts_.size(); }
    std::uint64_t count() const noexcept { return counts_.count(); }
    const prefix_counts &counts() const &noexcept BITM_LIFETIMEBOUND { return counts_; }
    void counts() const && = delete;

    // How many 1 bits, or 0 bits, there are before a position of the joined bits: fails where that is past size().
    std::uint64_t rank(std::uint64_t position) const { return counted(true, position); }
    std::uint64_t rank0(std::uint64_t position) const { return counted(false, position); }

    // As text: `sharded_index(bits=300, ones=2, shards=2)`.
    template <class Char, class Traits>
    friend std::basic_ostream<Char, Traits> &operator<<(std::basic_ostream<Char, Traits> &to, const sharded_index &of)
    {
        const std::array<detail::field, 3> fields{
            {{"bits", of.size()}, {"ones", of.count()}, {"shards", of.counts_.shards()}}};
        return detail::shown(to, "sharded_index", fields);
    }

    // The position, in the joined bits, of the 1 bit, or 0 bit, with a rank; none where there is none.
    maybe_position select(std::uint64_t rank) const { return located(bitm_shards_select, true, rank); }
    maybe_position select0(std::uint64_t rank) const { return located(bitm_shards_select, false, rank); }

    // The position of the first 1 bit, or 0 bit, of the joined bits at or after a position; of the last one at or
    // before it, which may be past the end. None where there is none.
    maybe_position next_one(std::uint64_t from) const { return located(bitm_shards_next, true, from); }
    maybe_position next_zero(std::uint64_t from) const { return located(bitm_shards_next, false, from); }
    maybe_position previous_one(std::uint64_t from) const { return located(bitm_shards_previous, true, from); }
    maybe_position previous_zero(std::uint64_t from) const { return located(bitm_shards_previous, false, from); }

    // Lists, into memory of the caller's as long as the queries: out[i] answers queries[i], or is bitm::no_answer (also
    // for the rank of a position past the end). Queries are grouped by shard. Where tables are noticed to be wrong,
    // the call fails once all is answered, and those answers are bitm::wrong_answer. Takes memory for three
    // numbers a query, with at most 2^17 queries at a time, and one a shard.
    void rank(words_in positions, words_out out) const { list(bitm_shards_rank_list, true, positions, out); }
    void rank0(words_in positions, words_out out) const { list(bitm_shards_rank_list, false, positions, out); }
    void select(words_in ranks, words_out out) const { list(bitm_shards_select_list, true, ranks, out); }
    void select0(words_in ranks, words_out out) const { list(bitm_shards_select_list, false, ranks, out); }

private:
    template <class Index> static std::vector<bitm_index> raw_of(const std::vector<Index> &shards)
    {
        std::vector<bitm_index> made;
        for (const Index &it : shards) made.push_back(it.raw());
        return made;
    }
    template <class Index> static prefix_counts measured(const std::vector<Index> &shards)
    {
        std::vector<std::uint64_t> bits, ones;
        for (const Index &it : shards) {
            bits.push_back(it.size());
            ones.push_back(it.count());
        }
        return prefix_counts(bits, ones);
    }
    bitm_shards raw() const noexcept
    {
        bitm_shards made{};
        made.counts = counts_.raw();
        made.shards = shards_.data();
        made.shards_len = shards_.size();
        return made;
    }
    std::uint64_t counted(bool one, std::uint64_t position) const
    {
        std::uint64_t out = 0;
        const bitm_shards shards = raw();
        switch (bitm_shards_rank(&shards, one, position, &out)) {
        case BITM_OK:
            return out;
        case BITM_NONE:
            fail({errc::outside, position, size()});
        default:
            fail({errc::wrong});
        }
    }
    template <class Call> maybe_position located(Call call, bool one, std::uint64_t number) const
    {
        std::uint64_t out = 0;
        const bitm_shards shards = raw();
        switch (call(&shards, one, number, &out)) {
        case BITM_OK:
            return out;
        case BITM_NONE:
            return std::nullopt;
        default:
            fail({errc::wrong});
        }
    }
    // The number of queries in a part: the order of a part stays in a processor's caches.
    static constexpr std::size_t part = std::size_t{1} << 17;

    template <class Call> void list(Call call, bool one, words_in queries, words_out out) const
    {
        detail::need_apart(queries, out);
        if (queries.size() != out.size()) fail({errc::bad_size});
        const bitm_shards shards = raw();
        std::vector<std::uint64_t> room(3 * std::min(queries.size(), part) + shards_.size() + 1);
        bitm_list_counts all{};
        for (std::size_t at = 0; at < queries.size(); at += part) {
            const std::size_t len = std::min(part, queries.size() - at);
            bitm_list_counts counts{};
            if (call(&shards, one, queries.data() + at, len, out.data() + at, len, room.data(), room.size(), &counts) !=
                BITM_OK)
                fail({errc::bad_size});
            all.missing += counts.missing;
            all.wrong += counts.wrong;
        }
        detail::need_list(BITM_OK, all);
    }

    std::shared_ptr<const std::vector<rank_index>> own_;
    std::vector<bitm_index> shards_;
    prefix_counts counts_;
};

BITM_NAMESPACE_END

#endif
