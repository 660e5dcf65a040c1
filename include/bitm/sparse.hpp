// Sparse bits, in one block of memory: an owner, and a view of a block in memory of the caller's.
//
//     const bitm::sparse_bits b({3, 100, 101, 4000}, 5000);                         // the 1 bits of 5000 bits
//     std::cout << b.rank(101) << ' ' << b.select(3).value() << ' ' << b[100] << '\n'; // 2 4000 1
//     for (const std::uint64_t position : b.positions()) std::cout << position << ' '; // 3 100 101 4000
//
// The positions of the 1 bits are kept as a monotone sequence: about 2.6 + log2(n / m) bits for each of m 1 bits among
// n bits. It answers the queries of a rank_index. The file of sparse bits is their block, the same bytes from each
// language.
#ifndef BITM_SPARSE_HPP
#define BITM_SPARSE_HPP

#include <bitm/file.hpp>
#include <bitm/sequence_view.hpp>

BITM_NAMESPACE_BEGIN

namespace detail {

struct sparse_kind : block_kind<sparse_kind, bitm_sparse, bitm_sparse_open> {
    static constexpr kind number = kind::sparse_bits;
    static constexpr const char *name = "sparse_bits";
    static std::array<field, 2> fields(const bitm_sparse &raw) noexcept
    {
        return {{{"bits", raw.bits_len}, {"ones", raw.positions.len}}};
    }
    static constexpr std::size_t nothing_len = 72;
    static std::uint32_t build_nothing(std::uint64_t *to) noexcept
    {
        return bitm_sparse_build(nullptr, 0, 0, to, nothing_len);
    }
};

template <class Self> class sparse_calls : public block_calls<Self, sparse_kind> {
public:
    // How many bits there are, and whether there are none; all of it as C takes it, and the block.
    std::uint64_t size() const noexcept { return raw().bits_len; }
    bool empty() const noexcept { return size() == 0; }
    const bitm_sparse &raw() const &noexcept BITM_LIFETIMEBOUND { return this->self().own_.raw(); }
    bitm_sparse raw() const &&noexcept { return this->self().own_.raw(); }
    words_in block() const noexcept { return this->self().own_.words(); }

    // The bit at a position: fails past the end.
    bool operator[](std::uint64_t position) const { return try_at(position).value(); }
    bool at(std::uint64_t position) const { return try_at(position).value(); }
    result<bool> try_at(std::uint64_t position) const noexcept
    {
        std::uint64_t out = 0;
        const std::uint32_t status = bitm_sparse_get(&raw(), position, &out);
        if (status != BITM_OK) return error_of(status, position, size());
        return out != 0;
    }

    // How many 1 bits, or 0 bits, there are before a position: fails where that is past size().
    std::uint64_t rank(std::uint64_t position) const { return try_rank(position).value(); }
    std::uint64_t rank0(std::uint64_t position) const { return try_rank0(position).value(); }
    result<std::uint64_t> try_rank(std::uint64_t position) const noexcept { return counted(true, position); }
    result<std::uint64_t> try_rank0(std::uint64_t position) const noexcept { return counted(false, position); }

    // The position of the 1 bit, or 0 bit, with a rank; none where there is none.
    maybe_position select(std::uint64_t rank) const { return try_select(rank).value(); }
    maybe_position select0(std::uint64_t rank) const { return try_select0(rank).value(); }
    result<maybe_position> try_select(std::uint64_t rank) const noexcept { return ask(bitm_sparse_select, true, rank); }
    result<maybe_position> try_select0(std::uint64_t rank) const noexcept
    {
        return ask(bitm_sparse_select, false, rank);
    }

    // How many 1 bits, or 0 bits, there are in all.
    std::uint64_t count() const { return rank(size()); }
    std::uint64_t count0() const { return rank0(size()); }

    // The position of the first 1 bit, or 0 bit, at or after a position; of the last one at or before it.
    maybe_position next_one(std::uint64_t from) const { return try_next_one(from).value(); }
    maybe_position next_zero(std::uint64_t from) const { return try_next_zero(from).value(); }
    maybe_position previous_one(std::uint64_t from) const { return try_previous_one(from).value(); }
    maybe_position previous_zero(std::uint64_t from) const { return try_previous_zero(from).value(); }
    result<maybe_position> try_next_one(std::uint64_t from) const noexcept { return ask(bitm_sparse_next, true, from); }
    result<maybe_position> try_next_zero(std::uint64_t from) const noexcept
    {
        return ask(bitm_sparse_next, false, from);
    }
    result<maybe_position> try_previous_one(std::uint64_t from) const noexcept
    {
        return ask(bitm_sparse_previous, true, from);
    }
    result<maybe_position> try_previous_zero(std::uint64_t from) const noexcept
    {
        return ask(bitm_sparse_previous, false, from);
    }

    // Lists, into memory of the caller's as long as the queries: out[i] answers queries[i] (a bit as 0 or 1), or is
    // bitm::no_answer (also for a position past the end). Where the block is noticed to be wrong, the call fails once
    // all is answered.
    void at(words_in positions, words_out out) const { answer_list(bitm_sparse_get_list, positions, out, &raw()); }
    void rank(words_in positions, words_out out) const { list(bitm_sparse_rank_list, true, positions, out); }
    void rank0(words_in positions, words_out out) const { list(bitm_sparse_rank_list, false, positions, out); }
    void select(words_in ranks, words_out out) const { list(bitm_sparse_select_list, true, ranks, out); }
    void select0(words_in ranks, words_out out) const { list(bitm_sparse_select_list, false, ranks, out); }

    // Whether the block is as it was written and holds sparse bits: looks at all of it.
    bool check() const noexcept { return checked(bitm_sparse_check, block()); }

private:
    using query_call = std::uint32_t (*)(const bitm_sparse *, bool, std::uint64_t, std::uint64_t *);
    result<std::uint64_t> counted(bool one, std::uint64_t position) const noexcept
    {
        std::uint64_t out = 0;
        const std::uint32_t status = bitm_sparse_rank(&raw(), one, position, &out);
        if (status != BITM_OK) return error_of(status, position, size());
        return out;
    }
    result<maybe_position> ask(query_call call, bool one, std::uint64_t asked) const noexcept
    {
        std::uint64_t out = 0;
        const std::uint32_t status = call(&raw(), one, asked, &out);
        return tried(status, out);
    }
    template <class Call> void list(Call call, bool one, words_in queries, words_out out) const
    {
        answer_list(call, queries, out, &raw(), one);
    }
};

} // namespace detail

// Sparse bits whose block is in memory of the caller's, who keeps it: a mapped file, say.
class BITM_POINTER sparse_bits_view : public detail::sparse_calls<sparse_bits_view> {
public:
    // Of no bits; of the block that begins the words: fails where they begin with no whole block of sparse bits.
    // For an owner, call `view()`, not `in(x.block())`: only then compilers warn if the view outlives its owner.
    sparse_bits_view() noexcept = default;
    static result<sparse_bits_view> try_in(detail::kept<const std::uint64_t> file BITM_LIFETIMEBOUND) noexcept
    {
        const auto found = detail::sparse_kind::in(file.data(), file.size());
        if (!found) return found.error();
        return sparse_bits_view(*found);
    }
    static sparse_bits_view in(detail::kept<const std::uint64_t> file BITM_LIFETIMEBOUND)
    {
        return try_in(file).value();
    }

    // The positions of the 1 bits.
    sequence_view positions() const { return sequence_view(raw().positions); }

private:
    friend class sparse_bits;
    friend class detail::sparse_calls<sparse_bits_view>;
    explicit sparse_bits_view(const detail::in_block<detail::sparse_kind> &found) noexcept : own_(found) {}

    detail::in_block<detail::sparse_kind> own_;
};

// Sparse bits that own their block, made from the positions of the 1 bits.
class BITM_OWNER sparse_bits : public detail::sparse_calls<sparse_bits>,
                               public detail::stored_calls<sparse_bits, detail::sparse_kind> {
public:
    // No bits; `size` bits with 1 bits at these positions, given as words or a list: fails where a position is not
    // above the one before it (errc::unsorted), or not below `size` (errc::outside), with its index.
    sparse_bits() noexcept = default;
    sparse_bits(words_in positions, std::uint64_t size) : sparse_bits(try_of(positions, size).value()) {}
    sparse_bits(std::initializer_list<std::uint64_t> positions, std::uint64_t size)
        : sparse_bits(words_in(positions.begin(), positions.size()), size)
    {
    }
    static result<sparse_bits> try_of(words_in positions, std::uint64_t size)
    {
        const std::size_t count = positions.size();
        std::uint64_t len = 0;
        if (bitm_sparse_size(count, count > 0 ? positions.data()[count - 1] : 0, &len) != BITM_OK)
            return detail::bad_size("2^56 positions or more");
        detail::block all(len);
        const std::uint32_t status = bitm_sparse_build(positions.data(), count, size, all.data(), all.size());
        if (status == BITM_UNSORTED) return detail::unsorted(positions, true, "position");
        if (status == BITM_WRONG) return detail::not_below(positions, size, errc::outside, "position");
        if (status != BITM_OK) return detail::error_of(status);
        return opened(std::move(all), verify::no);
    }

    // Views, which the owner has to outlive, of the bits and of the positions of the 1 bits; the block, and all of it
    // as C takes it. Deleted for temporaries.
    sparse_bits_view view() const &noexcept BITM_LIFETIMEBOUND { return sparse_bits_view(own_.found()); }
    sequence_view positions() const &BITM_LIFETIMEBOUND { return sequence_view(raw().positions); }
    words_in block() const &noexcept BITM_LIFETIMEBOUND { return own_.words(); }
    const bitm_sparse &raw() const &noexcept BITM_LIFETIMEBOUND { return own_.raw(); }
    void view() const && = delete;
    void positions() const && = delete;
    void block() const && = delete;
    void raw() const && = delete;

private:
    friend class detail::sparse_calls<sparse_bits>;
};

BITM_NAMESPACE_END

#endif
