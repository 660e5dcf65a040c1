// Bits: an owner that grows, and a view of bits in memory of the caller's.
//
//     bitm::bits b(1000), other("0011");
//     b.set(17), b[18] = true, b.append(other), b.push_back(true), b &= b << 1;
//     for (const std::uint64_t position : b.ones()) std::cout << position << ' '; // 18 1003 1004
//     std::cout << b.count() << ' ' << b.next_one(5).value() << ' ' << b.get_bits(16, 13) << '\n'; // 3 18 4
//
// Bit i is bit i % 64, lowest first, of word i / 64. Positions past the end fail everywhere, also in `[]`.
#ifndef BITM_BITS_HPP
#define BITM_BITS_HPP

#include <bitm/bits_memory.hpp>

BITM_NAMESPACE_BEGIN

namespace detail {

// What is no size of bits: a bool, a fraction, a null pointer. And what is text.
template <class T> struct no_size
    : std::bool_constant<std::is_same_v<T, bool> || std::is_floating_point_v<T> || std::is_null_pointer_v<T>> {
};
template <class T> struct is_text
    : std::bool_constant<std::is_convertible_v<const T &, std::string_view> && !std::is_null_pointer_v<T>> {
};

} // namespace detail

// Bits that it owns, in words aligned to 64 bytes. Moves are cheap and leave an empty one. Views, ranges and iterators
// are valid until the size or the capacity changes, as in a std::vector.
class BITM_OWNER bits : public detail::bits_calls<bits> {
public:
    // The types of a container.
    using value_type = bool;
    using size_type = std::uint64_t;
    using difference_type = std::ptrdiff_t;
    using const_iterator = bits_iterator;
    using iterator = bits_iterator;

    // One bit, as `b[i]` of bits that may change.
    class reference {
    public:
        // Reads the bit; an assignment or a flip changes it.
        operator bool() const { return detail::bit_of(of_->parts(), at_); }
        reference &operator=(bool value) { return of_->set(at_, value), *this; }
        reference &operator=(const reference &other) { return *this = static_cast<bool>(other); }
        reference &operator|=(bool value) { return value ? *this = true : *this; }
        reference &operator&=(bool value) { return value ? *this : *this = false; }
        reference &operator^=(bool value) { return value ? flip() : *this; }
        reference &operator-=(bool value) { return value ? *this = false : *this; }
        reference &flip() { return *this = !*this; }
        bool operator~() const { return !*this; }
        reference(const reference &) = default;

    private:
        friend class bits;
        reference(bits &of, std::uint64_t at) : of_(&of), at_(at) {}
        bits *of_;
        std::uint64_t at_;
    };

    // No bits; `size` equal bits, where a size is neither a bool nor a fraction; the bits of a list or of iterators; a
    // copy of a view, or of all bits of words.
    bits() noexcept = default;
    explicit bits(std::uint64_t size, bool value = false) { resize(size, value); }
    template <class Other, std::enable_if_t<detail::no_size<Other>::value, int> = 0>
    explicit bits(Other, bool = false) = delete;
    bits(std::initializer_list<bool> values) : bits(values.begin(), values.end()) {}
    template <class It, class = typename std::iterator_traits<It>::iterator_category> bits(It first, It last)
    {
        for (; first != last; ++first) push_back(static_cast<bool>(*first));
    }
    explicit bits(bits_view of) { append(of); }
    explicit bits(words_in words) { append(bits_view(words)); }
    // From text of zeros and ones, position 0 first: fails where there is another letter. (A literal, a string, what
    // converts to std::string_view: a template, so that 0 is a size and no null pointer.)
    template <class Text, std::enable_if_t<detail::is_text<Text>::value, int> = 0> explicit bits(const Text &text)
    {
        if constexpr (std::is_pointer_v<Text>)
            if (!text) fail(detail::bad_size("the text is a null pointer"));
        const std::string_view letters = text;
        reserve(letters.size());
        for (const char letter : letters) {
            if (letter != '0' && letter != '1') fail(detail::bad_size("a letter is neither 0 nor 1"));
            push_back(letter == '1');
        }
    }
    // `size` bits with 1 bits at the positions, in any order.
    template <class It> static bits of_positions(It first, It last, std::uint64_t size)
    {
        bits made(size);
        std::uint64_t room[256];
        while (first != last) {
            std::size_t len = 0;
            for (; len < 256 && first != last; ++first) room[len++] = static_cast<std::uint64_t>(*first);
            made.set_list({room, len});
        }
        return made;
    }
    template <class Positions, class = decltype(std::begin(std::declval<const Positions &>()))>
    static bits of_positions(const Positions &positions, std::uint64_t size)
    {
        return of_positions(std::begin(positions), std::end(positions), size);
    }
    static bits of_positions(std::initializer_list<std::uint64_t> positions, std::uint64_t size)
    {
        return of_positions(positions.begin(), positions.end(), size);
    }

    // A copy has words of its own, and a moved-from value is empty. An exchange. Nothing is assigned to a temporary.
    bits(const bits &) = default;
    bits(bits &&) noexcept = default;
    bits &operator=(const bits &) & = default;
    bits &operator=(bits &&) &noexcept = default;
    ~bits() = default;
    void swap(bits &other) noexcept { own_.swap(other.own_); }
    friend void swap(bits &a, bits &b) noexcept { a.swap(b); }

    // ---- size
    static constexpr std::uint64_t max_size() noexcept { return 64 * ((std::uint64_t{1} << 58) - 1); }
    std::uint64_t capacity() const noexcept { return 64 * own_.room(); }
    void reserve(std::uint64_t size)
    {
        const std::size_t words = bitm_bits_words_len(size);
        if (words > own_.room()) own_.hold(words);
    }
    void resize(std::uint64_t size, bool value = false)
    {
        const std::uint64_t old = own_.size();
        if (size <= old) return own_.cut(size);
        own_.grow(size);
        if (value) fill(old, size, true);
    }
    void clear() noexcept { resize(0); }
    void shrink_to_fit()
    {
        if (own_.len() < own_.room()) own_.hold(own_.len());
    }

    // ---- changes: each gives the bits themselves, and of a temporary their value, so bits(100).set(3).flip() is one
    reference operator[](std::uint64_t at) & BITM_LIFETIMEBOUND
    {
        if (BITM_RARELY(at >= size())) detail::outside(at, size());
        return {*this, at};
    }
    bool operator[](std::uint64_t at) const & { return test(at); }
    bits &set(std::uint64_t at, bool value = true) &
    {
        if (BITM_RARELY(at >= size())) detail::outside(at, size());
        return bitm_set_bit_at(own_.data(), at, value), *this;
    }
    bits &reset(std::uint64_t at) & { return set(at, false); }
    // Sets a bit, and returns its old value.
    bool test_set(std::uint64_t at, bool value = true)
    {
        const bool before = test(at);
        return set(at, value), before;
    }
    bits &flip(std::uint64_t at) &
    {
        if (BITM_RARELY(at >= size())) detail::outside(at, size());
        return flip(at, at + 1);
    }
    bits &set() & { return fill(0, size(), true); }
    bits &reset() & { return fill(0, size(), false); }
    bits &flip() & { return flip(0, size()); }
    // The bits from one position on and before another: makes them equal to a value, or flips them.
    bits &fill(std::uint64_t from, std::uint64_t to, bool value) &
    {
        const std::uint32_t status = bitm_bits_fill_range(own_.data(), own_.len(), size(), from, to, value);
        if (BITM_RARELY(status != BITM_OK)) detail::outside_range(from, to, size());
        return *this;
    }
    bits &flip(std::uint64_t from, std::uint64_t to) &
    {
        const std::uint32_t status = bitm_bits_flip_range(own_.data(), own_.len(), size(), from, to);
        if (BITM_RARELY(status != BITM_OK)) detail::outside_range(from, to, size());
        return *this;
    }
    // Replaces the number in the `len` bits from position `begin` on; or combines it with a value by exclusive or.
    bits &set_bits(std::uint64_t begin, std::uint32_t len, std::uint64_t value) &
    {
        const std::uint32_t status = bitm_bits_set_number(own_.data(), own_.len(), size(), begin, len, value);
        if (BITM_RARELY(status != BITM_OK)) detail::outside_number(begin, len, size());
        return *this;
    }
    bits &xor_bits(std::uint64_t begin, std::uint32_t len, std::uint64_t value) &
    {
        const std::uint32_t status = bitm_bits_xor_number(own_.data(), own_.len(), size(), begin, len, value);
        if (BITM_RARELY(status != BITM_OK)) detail::outside_number(begin, len, size());
        return *this;
    }
    // The bits as an array of numbers of `width` bits: replaces one, exchanges two, or makes the first `count` a value.
    bits &set_fragment(std::uint64_t index, std::uint32_t width, std::uint64_t value) &
    {
        const std::uint32_t status = bitm_bits_set_fragment(own_.data(), own_.len(), size(), index, width, value);
        if (BITM_RARELY(status != BITM_OK)) detail::outside_fragment(index, width, size());
        return *this;
    }
    bits &swap_fragments(std::uint64_t first, std::uint64_t second, std::uint32_t width) &
    {
        const std::uint32_t status = bitm_bits_swap_fragments(own_.data(), own_.len(), size(), first, second, width);
        if (BITM_RARELY(status != BITM_OK)) detail::outside_fragment(detail::greater(first, second), width, size());
        return *this;
    }
    bits &fill_fragments(std::uint32_t width, std::uint64_t value, std::size_t count) &
    {
        const std::uint32_t status = bitm_bits_fill_fragments(own_.data(), own_.len(), size(), width, value, count);
        if (BITM_RARELY(status != BITM_OK)) detail::outside_fragment(count, width, size());
        return *this;
    }
    bits set(std::uint64_t at, bool value = true) && { return std::move(set(at, value)); }
    bits reset(std::uint64_t at) && { return std::move(reset(at)); }
    bits flip(std::uint64_t at) && { return std::move(flip(at)); }
    bits set() && { return std::move(set()); }
    bits reset() && { return std::move(reset()); }
    bits flip() && { return std::move(flip()); }
    bits fill(std::uint64_t from, std::uint64_t to, bool value) && { return std::move(fill(from, to, value)); }
    bits flip(std::uint64_t from, std::uint64_t to) && { return std::move(flip(from, to)); }
    bits set_bits(std::uint64_t begin, std::uint32_t len, std::uint64_t value) &&
    {
        return std::move(set_bits(begin, len, value));
    }
    bits xor_bits(std::uint64_t begin, std::uint32_t len, std::uint64_t value) &&
    {
        return std::move(xor_bits(begin, len, value));
    }
    bits set_fragment(std::uint64_t index, std::uint32_t width, std::uint64_t value) &&
    {
        return std::move(set_fragment(index, width, value));
    }
    bits swap_fragments(std::uint64_t first, std::uint64_t second, std::uint32_t width) &&
    {
        return std::move(swap_fragments(first, second, width));
    }
    bits fill_fragments(std::uint32_t width, std::uint64_t value, std::size_t count) &&
    {
        return std::move(fill_fragments(width, value, count));
    }
    void push_back(bool value)
    {
        own_.grow(size() + 1);
        if (value) set(size() - 1);
    }
    void pop_back()
    {
        if (empty()) detail::outside(0, 0);
        resize(size() - 1);
    }
    // Appends the `len` lowest bits of a number, or other bits.
    void append(std::uint64_t value, std::uint32_t len)
    {
        if (BITM_RARELY(len > 64)) detail::outside(len, 64, "the number of bits");
        own_.grow(size() + len);
        set_bits(size() - len, len, value);
    }
    void append(bits_view other)
    {
        if (BITM_RARELY(mine(other))) { // memory that C writes overlaps no other argument, and growing may move it
            const bits copy(other);
            return append(copy.view());
        }
        const std::uint64_t old = size();
        own_.grow(old + other.size());
        detail::need(
            bitm_bits_copy_range(own_.data(), own_.len(), old, other.words_data(), other.words_len(), 0, other.size()));
    }
    void append(const bits &other) { append(other.view()); }

    // Combines each bit with the bit of the other at the same position; the sizes have to be equal.
    bits &operator&=(bits_view other) & { return with(bitm_bits_and, other); }
    bits &operator|=(bits_view other) & { return with(bitm_bits_or, other); }
    bits &operator^=(bits_view other) & { return with(bitm_bits_xor, other); }
    bits &operator-=(bits_view other) & { return with(bitm_bits_and_not, other); }
    bits &operator&=(const bits &other) & { return *this &= other.view(); }
    bits &operator|=(const bits &other) & { return *this |= other.view(); }
    bits &operator^=(const bits &other) & { return *this ^= other.view(); }
    bits &operator-=(const bits &other) & { return *this -= other.view(); }
    friend bits operator&(bits a, const bits &b) { return std::move(a &= b); }
    friend bits operator|(bits a, const bits &b) { return std::move(a |= b); }
    friend bits operator^(bits a, const bits &b) { return std::move(a ^= b); }
    friend bits operator-(bits a, const bits &b) { return std::move(a -= b); }
    friend bits operator~(bits a) { return std::move(a.flip()); }
    // Moves each bit to a higher, or lower, position; 0 bits come in and the size stays.
    friend bits operator<<(const bits &a, std::uint64_t by) { return moved(a, 0, by); }
    friend bits operator>>(const bits &a, std::uint64_t by) { return moved(a, by, 0); }
    bits &operator<<=(std::uint64_t by) & { return *this = *this << by; }
    bits &operator>>=(std::uint64_t by) & { return *this = *this >> by; }
    // A copy of the bits from one position on and before another.
    bits slice(std::uint64_t from, std::uint64_t to) const
    {
        if (BITM_RARELY(from > to || to > size())) detail::outside_range(from, to, size());
        bits made(to - from);
        made.take(*this, from, 0);
        return made;
    }

    // From text of zeros and ones, position 0 first, up to another letter: fails where there is no zero or one.
    template <class Char, class Traits>
    friend std::basic_istream<Char, Traits> &operator>>(std::basic_istream<Char, Traits> &from, bits &to)
    {
        using stream = std::basic_istream<Char, Traits>;
        const typename stream::sentry ready(from);
        if (!ready) return from;
        bits read;
        const auto is = [&](typename Traits::int_type letter, char wanted) {
            return Traits::eq_int_type(letter, Traits::to_int_type(from.widen(wanted)));
        };
        for (auto letter = from.peek(); is(letter, '0') || is(letter, '1'); letter = from.peek()) {
            read.push_back(is(letter, '1'));
            from.ignore();
        }
        if (read.empty())
            from.setstate(stream::failbit);
        else
            to.swap(read);
        return from;
    }

    // ---- views and walks: deleted for temporaries
    bits_view view() const &noexcept BITM_LIFETIMEBOUND { return bits_view(parts()); }
    using bits_calls::ones, bits_calls::zeros;
    ones_range ones(std::uint64_t from = 0) const &BITM_LIFETIMEBOUND { return {parts(), from}; }
    zeros_range zeros(std::uint64_t from = 0) const &BITM_LIFETIMEBOUND { return {parts(), from}; }
    fragments_range fragments(std::uint32_t width) const &BITM_LIFETIMEBOUND { return {parts(), width}; }
    bits_iterator begin() const &noexcept BITM_LIFETIMEBOUND { return {parts(), 0}; }
    bits_iterator end() const &noexcept BITM_LIFETIMEBOUND { return {parts(), size()}; }
    std::reverse_iterator<bits_iterator> rbegin() const &BITM_LIFETIMEBOUND
    {
        return std::reverse_iterator<bits_iterator>(end());
    }
    std::reverse_iterator<bits_iterator> rend() const &BITM_LIFETIMEBOUND
    {
        return std::reverse_iterator<bits_iterator>(begin());
    }
    words_in words() const &noexcept BITM_LIFETIMEBOUND { return {own_.data(), own_.len()}; }
    const std::uint64_t *words_data() const &noexcept BITM_LIFETIMEBOUND { return own_.data(); }
    void view() const && = delete;
    void ones(std::uint64_t = 0) const && = delete;
    void zeros(std::uint64_t = 0) const && = delete;
    void fragments(std::uint32_t) const && = delete;
    void begin() const && = delete;
    void end() const && = delete;
    void rbegin() const && = delete;
    void rend() const && = delete;
    void words() const && = delete;
    void words_data() const && = delete;

    // The words and the size, as the ranges and the calls of C take them. Deleted for temporaries.
    detail::bits_parts parts() const &noexcept BITM_LIFETIMEBOUND { return own_.parts(); }
    void parts() const && = delete;

private:
    void set_list(words_in positions)
    {
        std::uint64_t past = 0;
        detail::need(
            bitm_bits_set_list(own_.data(), own_.len(), size(), positions.data(), positions.size(), true, &past));
        if (BITM_RARELY(past > 0))
            for (const std::uint64_t at : positions) test(at); // fails at the first that is past the end
    }
    // Whether a view lies in the memory of this owner.
    bool mine(const bits_view &other) const noexcept
    {
        return detail::overlap({other.words_data(), other.words_len()}, {own_.data(), own_.room()});
    }
    template <class Call> bits &with(Call call, bits_view other)
    {
        if (BITM_RARELY(other.size() != size())) fail(detail::bad_size("the other bits have another size"));
        if (BITM_RARELY(mine(other))) {
            const bits copy(other);
            return with(call, copy.view());
        }
        detail::need(call(own_.data(), own_.len(), other.words_data(), other.words_len()));
        return own_.cut(size()), *this; // a view may have 1 bits past its end
    }
    // Copies the bits from position `from` on to positions from `to` on, until either ends.
    void take(const bits &other, std::uint64_t from, std::uint64_t to)
    {
        if (from >= other.size() || to >= size()) return;
        const std::uint64_t all = detail::lesser(other.size() - from, size() - to);
        detail::need(bitm_bits_copy_range(own_.data(), own_.len(), to, other.own_.data(), other.own_.len(), from, all));
    }
    static bits moved(const bits &of, std::uint64_t from, std::uint64_t to)
    {
        bits made(of.size());
        made.take(of, from, to);
        return made;
    }

    detail::bits_memory own_;
};

BITM_NAMESPACE_END
// Equal bits have equal hashes, in a view too.
template <> struct std::hash<bitm::bits> {
    std::size_t operator()(const bitm::bits &of) const { return bitm::detail::hash_of(of.view()); }
};

#endif
