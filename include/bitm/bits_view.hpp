// Bits in memory of the caller's: a view, the ranges of its positions and numbers, and the queries that it shares with
// the owner of bitm/bits.hpp.
//
//     const std::vector<std::uint64_t> words{0x5a};                    // bits 1, 3, 4 and 6
//     const bitm::bits_view b(words, 7);                               // the first seven; the words stay the caller's
//     std::cout << b.count() << ' ' << b.next_zero(3).value() << ' ' << b.get_bits(3, 4) << '\n'; // 4 5 11
//     for (const std::uint64_t position : b.ones()) std::cout << position << ' ';     // 1 3 4 6
//     for (const std::uint64_t number : b.fragments(3)) std::cout << number << ' ';   // 2 3
#ifndef BITM_BITS_VIEW_HPP
#define BITM_BITS_VIEW_HPP

#include <bitm/memory.hpp>

#include <iosfwd>
#include <string_view>

BITM_NAMESPACE_BEGIN

class bits;
class bits_view;
class fragments_range;
template <bool One> class positions_range;

BITM_NAMESPACE_END

#if __cplusplus >= 202002L
template <> inline constexpr bool std::ranges::enable_borrowed_range<bitm::bits_view> = true;
template <> inline constexpr bool std::ranges::enable_view<bitm::bits_view> = true;
template <> inline constexpr bool std::ranges::enable_borrowed_range<bitm::fragments_range> = true;
template <> inline constexpr bool std::ranges::enable_view<bitm::fragments_range> = true;
template <bool One> inline constexpr bool std::ranges::enable_borrowed_range<bitm::positions_range<One>> = true;
template <bool One> inline constexpr bool std::ranges::enable_view<bitm::positions_range<One>> = true;
#endif

BITM_NAMESPACE_BEGIN

namespace detail {

// Words and the number of their bits: exactly as many words as these bits need.
struct BITM_POINTER bits_parts {
    const std::uint64_t *words = nullptr;
    std::size_t len = 0;
    std::uint64_t size = 0;
};

inline bool bit_of(const bits_parts &of, std::uint64_t at)
{
    if (BITM_RARELY(at >= of.size)) outside(at, of.size);
    return bitm_bit_at(of.words, at);
}

} // namespace detail

// The bits one after another, by position.
class bits_iterator : public detail::at_position<bits_iterator, bool> {
public:
    // At a position of bits; `read` is the bit at another: fails past the end.
    bits_iterator() noexcept = default;
    bits_iterator(const detail::bits_parts &of, std::uint64_t at) noexcept : at_position(at), of_(of) {}
    bool read(std::uint64_t at) const { return detail::bit_of(of_, at); }

private:
    detail::bits_parts of_;
};

// The positions of the 1 bits, or 0 bits: a range in both directions, whose iterators outlive it. Each step reads the
// bits, so changes made meanwhile are seen.
template <bool One> class positions_range {
public:
    class iterator {
    public:
        // The types of an iterator over positions.
        using iterator_category = std::input_iterator_tag;
#if __cplusplus >= 202002L
        using iterator_concept = std::bidirectional_iterator_tag;
#endif
        using value_type = std::uint64_t;
        using difference_type = std::ptrdiff_t;
        using pointer = void;
        using reference = std::uint64_t;

        // The position; moved to the next or the one before: fails past either end.
        iterator() noexcept = default;
        std::uint64_t operator*() const noexcept { return at_; }
        iterator &operator++()
        {
            if (BITM_RARELY(at_ >= of_.size)) detail::outside(at_, of_.size);
            at_ = next(of_, at_ + 1);
            return *this;
        }
        iterator &operator--()
        {
            std::uint64_t out = 0;
            if (BITM_RARELY(at_ == 0)) detail::outside(at_, of_.size);
            const std::uint32_t status = bitm_bits_previous(of_.words, of_.len, of_.size, One, at_ - 1, &out);
            if (BITM_RARELY(status != BITM_OK)) detail::fail_status(status, at_, of_.size);
            at_ = out;
            return *this;
        }
        iterator operator++(int)
        {
            iterator before = *this;
            ++*this;
            return before;
        }
        iterator operator--(int)
        {
            iterator before = *this;
            --*this;
            return before;
        }
        friend bool operator==(const iterator &a, const iterator &b) noexcept { return a.at_ == b.at_; }
        friend bool operator!=(const iterator &a, const iterator &b) noexcept { return a.at_ != b.at_; }

    private:
        friend class positions_range;
        iterator(const detail::bits_parts &of, std::uint64_t at) noexcept : of_(of), at_(at) {}

        detail::bits_parts of_;
        std::uint64_t at_ = 0;
    };

    // No positions; or those from one on, in increasing order from begin() to end().
    positions_range() noexcept = default;
    positions_range(const detail::bits_parts &of, std::uint64_t from) : of_(of), first_(next(of, from)) {}
    iterator begin() const noexcept { return {of_, first_}; }
    iterator end() const noexcept { return {of_, of_.size}; }
    // Backwards: `*rbegin()` is the greatest position.
    std::reverse_iterator<iterator> rbegin() const noexcept { return std::reverse_iterator<iterator>(end()); }
    std::reverse_iterator<iterator> rend() const noexcept { return std::reverse_iterator<iterator>(begin()); }
    bool empty() const noexcept { return first_ >= of_.size; }
    // Those that are at a position or after it.
    positions_range from(std::uint64_t position) const { return {of_, detail::greater(position, first_)}; }

private:
    static std::uint64_t next(const detail::bits_parts &of, std::uint64_t from)
    {
        std::uint64_t out = 0;
        return detail::there(bitm_bits_next(of.words, of.len, of.size, One, from, &out)) ? out : of.size;
    }

    detail::bits_parts of_;
    std::uint64_t first_ = 0;
};

// Bits as an array of numbers of `width` bits each: by index, and as a range.
class fragments_range {
public:
    class iterator : public detail::at_position<iterator, std::uint64_t> {
    public:
        // At an index; `read` is the number at another: fails past the end.
        iterator() noexcept = default;
        std::uint64_t read(std::uint64_t at) const { return number(of_, width_, at); }

    private:
        friend class fragments_range;
        iterator(const detail::bits_parts &of, std::uint32_t width, std::uint64_t at) noexcept
            : at_position(at), of_(of), width_(width)
        {
        }
        detail::bits_parts of_;
        std::uint32_t width_ = 0;
    };

    // No numbers; or the whole ones that the bits have, each of `width` bits (1 to 64). An index past them fails.
    fragments_range() noexcept = default;
    fragments_range(const detail::bits_parts &of, std::uint32_t width) : of_(of), width_(width)
    {
        if (width == 0 || width > 64) detail::outside(width, 64, "the width of a fragment");
    }
    std::uint64_t size() const noexcept { return width_ ? of_.size / width_ : 0; }
    bool empty() const noexcept { return size() == 0; }
    std::uint32_t width() const noexcept { return width_; }
    std::uint64_t operator[](std::uint64_t at) const { return number(of_, width_, at); }
    iterator begin() const noexcept { return {of_, width_, 0}; }
    iterator end() const noexcept { return {of_, width_, size()}; }

private:
    static std::uint64_t number(const detail::bits_parts &of, std::uint32_t width, std::uint64_t at)
    {
        std::uint64_t out = 0;
        const std::uint32_t status = bitm_bits_get_fragment(of.words, of.len, of.size, at, width, &out);
        if (BITM_RARELY(status != BITM_OK || width == 0)) detail::outside_fragment(at, width, of.size);
        return out;
    }
    detail::bits_parts of_;
    std::uint32_t width_ = 0;
};

// The positions of the 1 bits, and of the 0 bits.
using ones_range = positions_range<true>;
using zeros_range = positions_range<false>;

namespace detail {

// The queries of bits, of an owner and of a view alike; `Self` has parts().
template <class Self> class bits_calls {
public:
    // How many bits there are, and whether there are none.
    std::uint64_t size() const noexcept { return parts().size; }
    bool empty() const noexcept { return size() == 0; }
    // The words: bits of the last one past size() are 0 bits in an owner, anything in a view.
    const std::uint64_t *words_data() const noexcept { return parts().words; }
    std::size_t words_len() const noexcept { return parts().len; }

    // The bit at a position; the first, and the last: fails where there is none.
    bool operator[](std::uint64_t at) const { return bit_of(parts(), at); }
    bool at(std::uint64_t at) const { return bit_of(parts(), at); }
    bool test(std::uint64_t at) const { return bit_of(parts(), at); }
    bool front() const { return bit_of(parts(), 0); }
    bool back() const { return bit_of(parts(), size() - 1); }

    // The number in the `len` bits from position `begin` on, lowest bit first; 0 to 64 bits.
    std::uint64_t get_bits(std::uint64_t begin, std::uint32_t len) const
    {
        std::uint64_t out = 0;
        const bits_parts of = parts();
        const std::uint32_t status = bitm_bits_get_number(of.words, of.len, of.size, begin, len, &out);
        if (BITM_RARELY(status != BITM_OK)) outside_number(begin, len, of.size);
        return out;
    }
    // Number `index` of an array of numbers of `width` bits.
    std::uint64_t fragment(std::uint64_t index, std::uint32_t width) const
    {
        std::uint64_t out = 0;
        const bits_parts of = parts();
        const std::uint32_t status = bitm_bits_get_fragment(of.words, of.len, of.size, index, width, &out);
        if (BITM_RARELY(status != BITM_OK)) outside_fragment(index, width, of.size);
        return out;
    }

    // How many 1 bits there are: of all, or of those from one position on and before another.
    std::uint64_t count() const { return count(0, size()); }
    std::uint64_t count(std::uint64_t from, std::uint64_t to) const
    {
        std::uint64_t out = 0;
        const bits_parts of = parts();
        const std::uint32_t status = bitm_bits_count_range(of.words, of.len, of.size, true, from, to, &out);
        if (BITM_RARELY(status != BITM_OK)) {
            if (status == BITM_NONE) outside_range(from, to, of.size);
            fail(error_of(status, 0, 0, "2^58 words or more"));
        }
        return out;
    }
    bool any() const { return next_one(0).has_value(); }
    bool none() const { return !any(); }
    bool all() const { return !next_zero(0); }

    // The position of the first 1 bit, or 0 bit, at or after a position; of the last one at or before it.
    maybe_position next_one(std::uint64_t from) const { return near(bitm_bits_next, true, from); }
    maybe_position next_zero(std::uint64_t from) const { return near(bitm_bits_next, false, from); }
    maybe_position previous_one(std::uint64_t from) const { return near(bitm_bits_previous, true, from); }
    maybe_position previous_zero(std::uint64_t from) const { return near(bitm_bits_previous, false, from); }

    // Writes the positions of the 1 bits, or 0 bits, from a position on until `out` is full; returns how many it wrote.
    std::size_t ones(std::uint64_t from, words_out out) const { return written(true, from, out); }
    std::size_t zeros(std::uint64_t from, words_out out) const { return written(false, from, out); }
    // Calls `each` with the position of each 1 bit, from a position on, in order: the fastest walk.
    template <class Each> void for_each_one(Each &&each, std::uint64_t from = 0) const
    {
        std::uint64_t room[256];
        for (std::size_t got = 256; got == 256;) {
            got = ones(from, {room, 256});
            for (std::size_t i = 0; i < got; i++) each(room[i]);
            if (got > 0) from = room[got - 1] + 1;
        }
    }

    // Whether each 1 bit is a 1 bit of the other; whether some position has a 1 bit in both. Both have the same size.
    template <class Other> bool is_subset_of(const bits_calls<Other> &other) const
    {
        return asked(bitm_bits_is_subset, other);
    }
    template <class Other> bool is_proper_subset_of(const bits_calls<Other> &other) const
    {
        return is_subset_of(other) && count() < other.count();
    }
    template <class Other> bool intersects(const bits_calls<Other> &other) const
    {
        return asked(bitm_bits_intersects, other);
    }

    template <class Other> friend bool operator==(const bits_calls &a, const bits_calls<Other> &b) { return a.same(b); }
    template <class Other> friend bool operator!=(const bits_calls &a, const bits_calls<Other> &b) { return !(a == b); }

    // As text of zeros and ones, position 0 first.
    template <class Char, class Traits>
    friend std::basic_ostream<Char, Traits> &operator<<(std::basic_ostream<Char, Traits> &to, const bits_calls &of)
    {
        for (std::uint64_t i = 0; i < of.size(); i++) to.put(to.widen(of[i] ? '1' : '0'));
        return to;
    }

protected:
    bits_calls() noexcept = default;
    ~bits_calls() = default;
    bits_calls(const bits_calls &) noexcept = default;
    bits_calls &operator=(const bits_calls &) noexcept = default;

private:
    template <class> friend class bits_calls;
    bits_parts parts() const noexcept { return static_cast<const Self &>(*this).parts(); }

    template <class Call> maybe_position near(Call call, bool one, std::uint64_t from) const
    {
        std::uint64_t out = 0;
        const bits_parts of = parts();
        const std::uint32_t status = call(of.words, of.len, of.size, one, from, &out);
        return found(status, out);
    }
    std::size_t written(bool one, std::uint64_t from, words_out out) const
    {
        std::uint64_t count = 0;
        const bits_parts of = parts();
        need_apart({of.words, of.len}, out);
        need(bitm_bits_positions(of.words, of.len, of.size, one, from, out.data(), out.size(), &count));
        return static_cast<std::size_t>(count);
    }
    template <class Other> bool same(const bits_calls<Other> &other) const
    {
        std::uint64_t equal = 0;
        const bits_parts a = parts(), b = other.parts();
        if (a.size != b.size) return false;
        need(bitm_bits_equal_range(a.words, a.len, 0, b.words, b.len, 0, a.size, &equal));
        return equal != 0;
    }
    // What a call says of these bits and others of the same size.
    template <class Call, class Other> bool asked(Call call, const bits_calls<Other> &other) const
    {
        std::uint64_t answer = 0;
        const bits_parts a = parts(), b = other.parts();
        if (BITM_RARELY(a.size != b.size)) fail(bad_size("the other bits have another size"));
        need(call(a.words, a.len, b.words, b.len, a.size, &answer));
        return answer != 0;
    }
};

} // namespace detail

// Bits in memory of the caller's: words and the number of their bits. It owns nothing.
class BITM_POINTER bits_view : public detail::bits_calls<bits_view> {
public:
    // The types of a range.
    using value_type = bool;
    using const_iterator = bits_iterator;
    using iterator = bits_iterator;

    // No bits.
    bits_view() noexcept = default;
    // All bits of the words, or the first `size` of them. Temporary containers do not convert.
    explicit bits_view(detail::kept<const std::uint64_t> words BITM_LIFETIMEBOUND, maybe_position size = {})
        : parts_{words.data(), words.size(), size ? *size : detail::bits_in(words.size())}
    {
        const std::size_t len = bitm_bits_words_len(parts_.size);
        if (len > parts_.len) fail(detail::bad_size("the words have fewer than size bits"));
        parts_.len = len;
    }
    using bits_calls::ones, bits_calls::zeros;
    ones_range ones(std::uint64_t from = 0) const { return {parts_, from}; }
    zeros_range zeros(std::uint64_t from = 0) const { return {parts_, from}; }
    fragments_range fragments(std::uint32_t width) const { return {parts_, width}; }
    bits_iterator begin() const noexcept { return {parts_, 0}; }
    bits_iterator end() const noexcept { return {parts_, parts_.size}; }
    std::reverse_iterator<bits_iterator> rbegin() const { return std::reverse_iterator<bits_iterator>(end()); }
    std::reverse_iterator<bits_iterator> rend() const { return std::reverse_iterator<bits_iterator>(begin()); }
    // The words and the size, as the ranges and the calls of C take them.
    detail::bits_parts parts() const noexcept { return parts_; }

private:
    friend class bits;
    explicit bits_view(const detail::bits_parts &of) noexcept : parts_(of) {}
    detail::bits_parts parts_;
};

namespace detail {

// The hash of the whole words as text, and of the bits of the last one as a number.
inline std::size_t hash_of(const bits_view &of)
{
    const std::uint32_t rest = of.size() % 64;
    const std::size_t whole = static_cast<std::size_t>(of.size() / 64);
    return std::hash<std::string_view>()({reinterpret_cast<const char *>(of.words_data()), 8 * whole}) ^
           std::hash<std::uint64_t>()(rest ? of.get_bits(of.size() - rest, rest) : 0) ^ of.size();
}

} // namespace detail

BITM_NAMESPACE_END

// Equal bits have equal hashes.
template <> struct std::hash<bitm::bits_view> {
    std::size_t operator()(const bitm::bits_view &of) const { return bitm::detail::hash_of(of); }
};

#endif
