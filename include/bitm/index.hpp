// Rank and selection: an owner of bits with their tables, and a view of both in memory of the caller's.
//
//     const bitm::rank_index x(bitm::bits("0101101"), {12, 12}); // or of words; without samples where they are left out
//     std::cout << x.rank(4) << ' ' << x.select(2).value() << ' ' << x.next_one(5).value() << '\n'; // 2 4 6
//     const std::vector<std::uint64_t> queries{0, 4, 7};
//     std::vector<std::uint64_t> answers(3);
//     x.rank(queries, answers);                                  // lists, into memory of the caller's
//     x.save("a.bitm");
//     const auto mapped = bitm::rank_index::map("a.bitm");       // the file is read where it lies
//     const bitm::rank_index_view v = mapped.view();             // of a temporary it does not compile
//     std::cout << v.select0(1).value() << ' ' << answers[2] << '\n'; // 2 4
//
// Answers over tables that do not match the words (of a wrong file) are safe: bitm.h says how. Where wrong tables
// are noticed, the call fails by bitm::wrong_tables; the `try_` calls return a bitm::result instead.
#ifndef BITM_INDEX_HPP
#define BITM_INDEX_HPP

#include <bitm/bits.hpp>
#include <bitm/index_block.hpp>

BITM_NAMESPACE_BEGIN

class rank_index;
class rank_index_view;

BITM_NAMESPACE_END

#if __cplusplus >= 202002L
template <> inline constexpr bool std::ranges::enable_borrowed_range<bitm::rank_index_view> = true;
template <> inline constexpr bool std::ranges::enable_view<bitm::rank_index_view> = true;
#endif

BITM_NAMESPACE_BEGIN

namespace detail {

template <class Self> class index_calls {
public:
    // How many bits there are, and whether there are none.
    std::uint64_t size() const noexcept { return raw().bits_len; }
    bool empty() const noexcept { return size() == 0; }
    // All of it as C takes it: a copy of that struct points at what the index does, and keeps it no longer. The block,
    // or a file of version 2 where it was found in one; of a view of a struct of C, no words.
    const bitm_index &raw() const &noexcept BITM_LIFETIMEBOUND { return self().own_.raw(); }
    bitm_index raw() const &&noexcept { return self().own_.raw(); }
    words_in block() const noexcept { return self().own_.words(); }
    bool operator[](std::uint64_t at) const { return bit_of(parts(), at); }
    bool at(std::uint64_t at) const { return bit_of(parts(), at); }

    // How many 1 bits, or 0 bits, there are before a position: fails where that is past size().
    std::uint64_t rank(std::uint64_t position) const { return counted(true, position); }
    std::uint64_t rank0(std::uint64_t position) const { return counted(false, position); }
    result<std::uint64_t> try_rank(std::uint64_t position) const noexcept { return try_counted(true, position); }
    result<std::uint64_t> try_rank0(std::uint64_t position) const noexcept { return try_counted(false, position); }

    // The position of the 1 bit, or 0 bit, with a rank; none where there is none.
    maybe_position select(std::uint64_t rank) const { return near(bitm_index_select, true, rank); }
    maybe_position select0(std::uint64_t rank) const { return near(bitm_index_select, false, rank); }
    result<maybe_position> try_select(std::uint64_t rank) const noexcept
    {
        return try_near(bitm_index_select, true, rank);
    }
    result<maybe_position> try_select0(std::uint64_t rank) const noexcept
    {
        return try_near(bitm_index_select, false, rank);
    }

    // How many 1 bits, or 0 bits, there are in all, by the tables.
    std::uint64_t count() const { return rank(size()); }
    std::uint64_t count0() const { return rank0(size()); }

    // The position of the first 1 bit, or 0 bit, at or after a position; of the last one at or before it. By the
    // tables: a long run costs no more. (`bits_view::next_one` reads the words, and is faster where the next one is
    // near.)
    maybe_position next_one(std::uint64_t from) const { return near(bitm_index_next, true, from); }
    maybe_position next_zero(std::uint64_t from) const { return near(bitm_index_next, false, from); }
    maybe_position previous_one(std::uint64_t from) const { return near(bitm_index_previous, true, from); }
    maybe_position previous_zero(std::uint64_t from) const { return near(bitm_index_previous, false, from); }
    result<maybe_position> try_next_one(std::uint64_t from) const noexcept
    {
        return try_near(bitm_index_next, true, from);
    }
    result<maybe_position> try_next_zero(std::uint64_t from) const noexcept
    {
        return try_near(bitm_index_next, false, from);
    }
    result<maybe_position> try_previous_one(std::uint64_t from) const noexcept
    {
        return try_near(bitm_index_previous, true, from);
    }
    result<maybe_position> try_previous_zero(std::uint64_t from) const noexcept
    {
        return try_near(bitm_index_previous, false, from);
    }

    // Lists, into memory of the caller's as long as the queries: out[i] answers queries[i], or is bitm::no_answer (also
    // for the rank of a position past the end). Where tables are noticed to be wrong, the call fails once all is
    // answered, and those answers are bitm::wrong_answer.
    void rank(words_in positions, words_out out) const { list(bitm_index_rank_list, true, positions, out); }
    void rank0(words_in positions, words_out out) const { list(bitm_index_rank_list, false, positions, out); }
    void select(words_in ranks, words_out out) const { list(bitm_index_select_list, true, ranks, out); }
    void select0(words_in ranks, words_out out) const { list(bitm_index_select_list, false, ranks, out); }

    // Whether the block is as it was written, and its tables match the words; of an index that is not in a block
    // (a view of a struct of C, a file of version 2), whether tables and samples match the words.
    bool check() const noexcept { return index_kind::check(self().own_.found()); }

    // Equal bits; tables and samples are not compared.
    template <class Other> friend bool operator==(const index_calls &a, const index_calls<Other> &b)
    {
        return a.self().as_bits() == static_cast<const Other &>(b).as_bits();
    }
    template <class Other> friend bool operator!=(const index_calls &a, const index_calls<Other> &b)
    {
        return !(a == b);
    }

    template <class Char, class Traits>
    friend std::basic_ostream<Char, Traits> &operator<<(std::basic_ostream<Char, Traits> &to, const index_calls &of)
    {
        return to << of.self().as_bits();
    }

protected:
    index_calls() noexcept = default;
    ~index_calls() = default;
    index_calls(const index_calls &) noexcept = default;
    index_calls &operator=(const index_calls &) noexcept = default;

    bits_parts parts() const noexcept { return {raw().words, bitm_bits_words_len(size()), size()}; }
    bits_view plain() const { return bits_view(kept<const std::uint64_t>(raw().words, raw().words_len), size()); }

private:
    template <class> friend class index_calls;
    const Self &self() const noexcept { return static_cast<const Self &>(*this); }

    std::uint64_t counted(bool one, std::uint64_t position) const
    {
        std::uint64_t out = 0;
        const std::uint32_t status = bitm_index_rank(&raw(), one, position, &out);
        if (BITM_RARELY(status != BITM_OK)) fail_status(status, position, size());
        return out;
    }
    result<std::uint64_t> try_counted(bool one, std::uint64_t position) const noexcept
    {
        std::uint64_t out = 0;
        const std::uint32_t status = bitm_index_rank(&raw(), one, position, &out);
        if (status != BITM_OK) return error_of(status, position, size());
        return out;
    }
    template <class Call> maybe_position near(Call call, bool one, std::uint64_t at) const
    {
        std::uint64_t out = 0;
        const std::uint32_t status = call(&raw(), one, at, &out);
        return found(status, out);
    }
    template <class Call> result<maybe_position> try_near(Call call, bool one, std::uint64_t at) const noexcept
    {
        std::uint64_t out = 0;
        const std::uint32_t status = call(&raw(), one, at, &out);
        return tried(status, out);
    }
    template <class Call> void list(Call call, bool one, words_in queries, words_out out) const
    {
        answer_list(call, queries, out, &raw(), one);
    }
};

} // namespace detail

// An index in memory of the caller's, who keeps it: it owns nothing.
class BITM_POINTER rank_index_view : public detail::index_calls<rank_index_view> {
public:
    // Of no bits.
    rank_index_view() noexcept = default;
    // Fails where the lengths do not fit together.
    explicit rank_index_view(const bitm_index &raw) : own_(raw, {})
    {
        if (const char *const fault = bitm_index_fault(&raw)) fail(detail::bad_size(fault));
    }
    // The index in the words of a block, or of a file of version 2, that was mapped or read. For an index of yours,
    // call `view()`, not `in(x.block())`: only then compilers warn if the view outlives its owner.
    static result<rank_index_view> try_in(detail::kept<const std::uint64_t> file BITM_LIFETIMEBOUND) noexcept
    {
        const auto found = detail::index_kind::in(file.data(), file.size());
        if (!found) return found.error();
        return rank_index_view(*found);
    }
    static rank_index_view in(detail::kept<const std::uint64_t> file BITM_LIFETIMEBOUND)
    {
        return try_in(file).value();
    }

    // The bits without their tables; the positions of the 1 bits, and of the 0 bits, from one on; the bits in order.
    bits_view as_bits() const { return plain(); }
    ones_range ones(std::uint64_t from = 0) const { return plain().ones(from); }
    zeros_range zeros(std::uint64_t from = 0) const { return plain().zeros(from); }
    bits_iterator begin() const { return plain().begin(); }
    bits_iterator end() const { return plain().end(); }

private:
    friend class rank_index;
    friend class detail::index_calls<rank_index_view>;
    explicit rank_index_view(const detail::in_block<detail::index_kind> &found) noexcept : own_(found) {}

    detail::in_block<detail::index_kind> own_;
};

// An index that owns its bits and tables: one block of memory, which is the file. Moves are cheap and leave an empty
// one. With samples building takes room for two such blocks.
class BITM_OWNER rank_index : public detail::index_calls<rank_index>,
                              public detail::stored_calls<rank_index, detail::index_kind> {
public:
    // Of no bits; of a copy of bits, of words (all, or the first `size` bits), or of an iterator's bools.
    rank_index() noexcept = default;
    explicit rank_index(bits_view of, sampling how = {})
        : rank_index(of_block(detail::index_block({of.words_data(), of.words_len()}, of.size(), how)))
    {
    }
    explicit rank_index(const bits &of, sampling how = {}) : rank_index(of.view(), how) {}
    explicit rank_index(words_in words, maybe_position size = {}, sampling how = {})
        : rank_index(bits_view(detail::kept<const std::uint64_t>(words.data(), words.size()), size), how)
    {
    }
    template <class It, class = typename std::iterator_traits<It>::iterator_category>
    rank_index(It first, It last, sampling how = {}) : rank_index(bits(first, last), how)
    {
    }
    // An index of `size` bits, which `fill` writes into words of zeros.
    template <class Fill> static rank_index build(std::uint64_t size, sampling how, Fill &&fill)
    {
        const detail::block words(bitm_bits_words_len(size));
        fill(words_out(words.data(), words.size()));
        return of_block(detail::index_block({words.data(), words.size()}, size, how));
    }

    // Views and ranges, which the owner has to outlive; the block, and all of it as C takes it. Deleted for
    // temporaries.
    rank_index_view view() const &noexcept BITM_LIFETIMEBOUND { return rank_index_view(own_.found()); }
    words_in block() const &noexcept BITM_LIFETIMEBOUND { return own_.words(); }
    const bitm_index &raw() const &noexcept BITM_LIFETIMEBOUND { return own_.raw(); }
    bits_view as_bits() const &BITM_LIFETIMEBOUND { return plain(); }
    ones_range ones(std::uint64_t from = 0) const &BITM_LIFETIMEBOUND { return plain().ones(from); }
    zeros_range zeros(std::uint64_t from = 0) const &BITM_LIFETIMEBOUND { return plain().zeros(from); }
    bits_iterator begin() const &BITM_LIFETIMEBOUND { return plain().begin(); }
    bits_iterator end() const &BITM_LIFETIMEBOUND { return plain().end(); }
    void view() const && = delete;
    void block() const && = delete;
    void raw() const && = delete;
    void as_bits() const && = delete;
    void ones(std::uint64_t = 0) const && = delete;
    void zeros(std::uint64_t = 0) const && = delete;
    void begin() const && = delete;
    void end() const && = delete;

private:
    friend class detail::index_calls<rank_index>;
    static rank_index of_block(result<detail::block> all) { return opened(std::move(all).value(), verify::no).value(); }
};

BITM_NAMESPACE_END

// Equal bits have equal hashes.
template <> struct std::hash<bitm::rank_index> {
    std::size_t operator()(const bitm::rank_index &of) const { return bitm::detail::hash_of(of.as_bits()); }
};

#endif
