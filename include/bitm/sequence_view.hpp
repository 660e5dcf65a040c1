// Monotone sequences (Elias-Fano) in memory of the caller's: a view, iterators and walks, and the queries that it
// shares with the owner of bitm/sequence.hpp.
//
//     const bitm::sequence primes{2, 3, 5, 7, 11};
//     const bitm::sequence_view v = primes.view();                     // of a temporary it does not compile
//     std::cout << v[3] << ' ' << v.last_at_most(6).value() << ' ' << v.rank(6) << '\n'; // 7 2 3
//     std::uint64_t some[3];
//     std::cout << v.read(1, {some, 3}) << ' ' << some[0] << ' ' << some[2] << '\n';     // 3 3 7
//     for (auto walk = v.walk(2); walk; ++walk) std::cout << walk.position() << ' ' << *walk << ' '; // 2 5 3 7 4 11
#ifndef BITM_SEQUENCE_VIEW_HPP
#define BITM_SEQUENCE_VIEW_HPP

#include <bitm/file.hpp>

#include <string_view>

BITM_NAMESPACE_BEGIN

class sequence;
class sequence_view;
class sequence_walk;

BITM_NAMESPACE_END

#if __cplusplus >= 202002L
template <> inline constexpr bool std::ranges::enable_borrowed_range<bitm::sequence_view> = true;
template <> inline constexpr bool std::ranges::enable_view<bitm::sequence_view> = true;
#endif

BITM_NAMESPACE_BEGIN

namespace detail {

inline std::uint64_t number_of(const bitm_sequence &of, std::uint64_t at)
{
    std::uint64_t out = 0;
    const std::uint32_t status = bitm_sequence_get(&of, at, &out);
    if (BITM_RARELY(status != BITM_OK)) fail_status(status, at, of.len);
    return out;
}

// The end of a walk or a cursor, and where it stands before that: to go through it once.
struct end_mark {};
template <class Of> class once_iterator {
public:
    // The types of an input iterator.
    using iterator_category = std::input_iterator_tag;
    using value_type = std::uint64_t;
    using difference_type = std::ptrdiff_t;
    using pointer = const std::uint64_t *;
    using reference = std::uint64_t;

    // The number where the walk stands; moves the walk on by one.
    once_iterator() noexcept = default;
    std::uint64_t operator*() const { return of_->here(); }
    once_iterator &operator++()
    {
        of_->next();
        return *this;
    }
    void operator++(int) { of_->next(); }
    friend bool operator==(const once_iterator &it, end_mark) noexcept { return it.of_->done(); }
    friend bool operator!=(const once_iterator &it, end_mark) noexcept { return !it.of_->done(); }
    friend bool operator==(end_mark, const once_iterator &it) noexcept { return it.of_->done(); }
    friend bool operator!=(end_mark, const once_iterator &it) noexcept { return !it.of_->done(); }

private:
    friend Of;
    explicit once_iterator(Of *of) noexcept : of_(of) {}
    Of *of_ = nullptr;
};

} // namespace detail

// The numbers by index: each is one selection. It holds the parts, so it outlives a view (not an owner).
class sequence_iterator : public detail::at_position<sequence_iterator, std::uint64_t> {
public:
    // At an index of a sequence; `read` is the number at another: fails past the end.
    sequence_iterator() noexcept = default;
    sequence_iterator(const bitm_sequence &of, std::uint64_t at) noexcept : at_position(at), of_(of) {}
    std::uint64_t read(std::uint64_t at) const { return detail::number_of(of_, at); }

private:
    bitm_sequence of_{};
};

// A walk through the numbers from an index on, which reads them in blocks: a range to go through once, which may be
// advanced to a value.
class sequence_walk {
public:
    // The types of a range that is gone through once.
    using end_mark = detail::end_mark;
    using iterator = detail::once_iterator<sequence_walk>;

    // At the end of no numbers; or at an index. Whether it is at the end; true where it is not.
    sequence_walk() noexcept = default;
    sequence_walk(const bitm_sequence &of, std::uint64_t from)
    {
        std::uint64_t out = 0;
        walk_.sequence = of;
        stands(bitm_sequence_walk_from(&walk_, from, &out));
    }
    bool done() const noexcept { return walk_.len == 0; }
    explicit operator bool() const noexcept { return !done(); }
    // The number where it stands, and its index.
    std::uint64_t value() const
    {
        if (BITM_RARELY(done())) detail::outside(position(), walk_.sequence.len);
        return here();
    }
    std::uint64_t operator*() const { return value(); }
    std::uint64_t position() const noexcept { return bitm_sequence_walk_index(&walk_); }
    sequence_walk &next()
    {
        std::uint64_t out = 0;
        if (BITM_RARELY(done())) detail::outside(position(), walk_.sequence.len);
        stands(bitm_sequence_walk_next(&walk_, &out));
        return *this;
    }
    sequence_walk &operator++() { return next(); }
    // To the first number from here on that is at least a value: whether there is one. It never goes back.
    bool advance_to(std::uint64_t value)
    {
        std::uint64_t out = 0;
        return stands(bitm_sequence_walk_to(&walk_, value, &out));
    }
    iterator begin() noexcept BITM_LIFETIMEBOUND { return iterator(this); }
    end_mark end() const noexcept { return {}; }

private:
    friend class detail::once_iterator<sequence_walk>;
    std::uint64_t here() const noexcept { return walk_.numbers[walk_.at]; }
    // Whether a move ends at a number.
    static bool stands(std::uint32_t status)
    {
        if (BITM_RARELY(status != BITM_OK && status != BITM_NONE)) detail::fail_status(status);
        return status == BITM_OK;
    }

    bitm_sequence_walk walk_{};
};

namespace detail {

// The block of numbers that never fall.
inline result<block> sequence_block(words_in numbers)
{
    std::uint64_t len = 0;
    if (bitm_sequence_block_size(numbers.size(), numbers.empty() ? 0 : numbers.end()[-1], &len) != BITM_OK)
        return bad_size("2^56 numbers or more");
    block all(len);
    const std::uint32_t status = bitm_sequence_block_build(numbers.data(), numbers.size(), all.data(), all.size());
    if (status == BITM_UNSORTED) return unsorted(numbers, false, "number");
    if (status != BITM_OK) return error_of(status);
    return all;
}

// The block of a sequence, or its file of version 2.
struct sequence_kind : stored_kind<sequence_kind, bitm_sequence, bitm_sequence_block_open> {
    static constexpr kind number = kind::sequence;
    static constexpr std::size_t nothing_len = 72;
    static std::uint32_t build_nothing(std::uint64_t *to) noexcept
    {
        return bitm_sequence_block_build(nullptr, 0, to, nothing_len);
    }
    static bitm_sequence of(const std::uint64_t *file, const bitm_stored &header) noexcept
    {
        return bitm_stored_sequence_of(file, &header);
    }
    static result<block> renewed(const in_block<sequence_kind> &old)
    {
        const bitm_sequence &raw = old.raw();
        const block numbers(raw.len);
        std::uint64_t written = 0;
        const std::uint32_t status = bitm_sequence_items(&raw, 0, numbers.data(), numbers.size(), &written);
        if (status != BITM_OK) return failure{errc::wrong};
        result<block> all = sequence_block({numbers.data(), numbers.size()});
        if (!all) return failure{errc::wrong}; // its numbers fall
        return all;
    }
};

template <class Self> class sequence_calls {
public:
    // How many numbers there are, and whether there are none; all of it as C takes it: a copy of that struct points at
    // what the sequence does, and keeps it no longer. The block, or a file of version 2 where it was found in one; of a
    // view of a struct of C, no words.
    std::uint64_t size() const noexcept { return raw().len; }
    bool empty() const noexcept { return size() == 0; }
    const bitm_sequence &raw() const &noexcept BITM_LIFETIMEBOUND { return self().own_.raw(); }
    bitm_sequence raw() const &&noexcept { return self().own_.raw(); }
    words_in block() const noexcept { return self().own_.words(); }

    // The number at an index: fails past the end.
    std::uint64_t operator[](std::uint64_t at) const { return number_of(raw(), at); }
    std::uint64_t at(std::uint64_t at) const { return number_of(raw(), at); }
    std::uint64_t front() const { return number_of(raw(), 0); }
    std::uint64_t back() const { return number_of(raw(), size() - 1); }
    result<std::uint64_t> try_at(std::uint64_t at) const noexcept
    {
        std::uint64_t out = 0;
        const std::uint32_t status = bitm_sequence_get(&raw(), at, &out);
        if (status != BITM_OK) return error_of(status, at, size());
        return out;
    }

    // Successor, the least index whose number is at least a value; predecessor, the greatest whose number is at most
    // it; and how many numbers are less.
    maybe_position first_at_least(std::uint64_t value) const
    {
        std::uint64_t out = 0;
        const std::uint32_t status = bitm_sequence_first_at_least(&raw(), value, &out);
        return found(status, out);
    }
    maybe_position last_at_most(std::uint64_t value) const
    {
        std::uint64_t out = 0;
        const std::uint32_t status = bitm_sequence_last_at_most(&raw(), value, &out);
        return found(status, out);
    }
    result<maybe_position> try_first_at_least(std::uint64_t value) const noexcept
    {
        std::uint64_t out = 0;
        const std::uint32_t status = bitm_sequence_first_at_least(&raw(), value, &out);
        return tried(status, out);
    }
    result<maybe_position> try_last_at_most(std::uint64_t value) const noexcept
    {
        std::uint64_t out = 0;
        const std::uint32_t status = bitm_sequence_last_at_most(&raw(), value, &out);
        return tried(status, out);
    }
    std::uint64_t rank(std::uint64_t value) const { return first_at_least(value).value_or(size()); }
    bool contains(std::uint64_t value) const
    {
        std::uint64_t out = 0;
        need(bitm_sequence_contains(&raw(), value, &out));
        return out != 0;
    }

    // Lists, into memory of the caller's as long as the queries: bitm::no_answer where there is no such index. Where
    // the parts are noticed to be wrong, the call fails once all is answered. Whether values are there is 0 or 1.
    void first_at_least(words_in values, words_out out) const { list(bitm_sequence_first_at_least_list, values, out); }
    void last_at_most(words_in values, words_out out) const { list(bitm_sequence_last_at_most_list, values, out); }
    void contains(words_in values, words_out out) const { list(bitm_sequence_contains_list, values, out); }
    // The numbers at a list of indexes: fails where one is past the end.
    void at(words_in indexes, words_out out) const
    {
        std::uint64_t written = 0;
        need_apart(indexes, out);
        const std::uint32_t status =
            bitm_sequence_get_list(&raw(), indexes.data(), indexes.size(), out.data(), out.size(), &written);
        need_items(status, indexes, written, size());
    }
    // Writes the numbers from an index on until `out` is full or there are no more: how many. Fails where the parts are
    // noticed to be wrong.
    std::size_t read(std::uint64_t from, words_out out) const
    {
        std::uint64_t written = 0;
        need(bitm_sequence_items(&raw(), from, out.data(), out.size(), &written));
        return static_cast<std::size_t>(written);
    }

    // Whether the block is as it was written and holds a sequence: looks at all of it, three times. Of a sequence that
    // is not in a block (a view of a struct of C, a file of version 2), whether its parts form some sequence.
    bool check() const noexcept
    {
        return is_block(block()) ? checked(bitm_sequence_block_check, block()) : bitm_sequence_check(&raw()) == BITM_OK;
    }

    template <class Other> friend bool operator==(const sequence_calls &a, const sequence_calls<Other> &b)
    {
        if (a.size() != b.size()) return false;
        for (sequence_walk x(a.raw(), 0), y(b.raw(), 0); x; ++x, ++y)
            if (*x != *y) return false;
        return true;
    }
    template <class Other> friend bool operator!=(const sequence_calls &a, const sequence_calls<Other> &b)
    {
        return !(a == b);
    }
    template <class Char, class Traits>
    friend std::basic_ostream<Char, Traits> &operator<<(std::basic_ostream<Char, Traits> &to, const sequence_calls &of)
    {
        to.put(to.widen('['));
        for (sequence_walk it(of.raw(), 0); it; ++it) {
            if (it.position()) to.put(to.widen(',')).put(to.widen(' '));
            to << *it;
        }
        return to.put(to.widen(']'));
    }

protected:
    sequence_calls() noexcept = default;
    ~sequence_calls() = default;
    sequence_calls(const sequence_calls &) noexcept = default;
    sequence_calls &operator=(const sequence_calls &) noexcept = default;

private:
    const Self &self() const noexcept { return static_cast<const Self &>(*this); }
    template <class Call> void list(Call call, words_in queries, words_out out) const
    {
        answer_list(call, queries, out, &raw());
    }
};

} // namespace detail

// A sequence whose parts are in memory of the caller's, who keeps them.
class BITM_POINTER sequence_view : public detail::sequence_calls<sequence_view> {
public:
    // The types of a range.
    using value_type = std::uint64_t;
    using const_iterator = sequence_iterator;
    using iterator = sequence_iterator;

    // Of no numbers; of parts: fails where their lengths do not fit together; in the words of a block, or of a file of
    // version 2, that was mapped or read. For a sequence of yours, call `view()`,
    // not `in(x.block())`: only then compilers warn if the view outlives its owner.
    sequence_view() noexcept = default;
    explicit sequence_view(const bitm_sequence &raw) : own_(raw, {})
    {
        if (const char *const fault = bitm_sequence_fault(&raw)) fail(detail::bad_size(fault));
    }
    static result<sequence_view> try_in(detail::kept<const std::uint64_t> file BITM_LIFETIMEBOUND) noexcept
    {
        const auto found = detail::sequence_kind::in(file.data(), file.size());
        if (!found) return found.error();
        return sequence_view(*found);
    }
    static sequence_view in(detail::kept<const std::uint64_t> file BITM_LIFETIMEBOUND) { return try_in(file).value(); }

    // The numbers in order, and backwards: each is one selection.
    sequence_iterator begin() const noexcept { return {raw(), 0}; }
    sequence_iterator end() const noexcept { return {raw(), raw().len}; }
    std::reverse_iterator<sequence_iterator> rbegin() const { return std::reverse_iterator<sequence_iterator>(end()); }
    std::reverse_iterator<sequence_iterator> rend() const { return std::reverse_iterator<sequence_iterator>(begin()); }
    // The first number that is at least a value, by one search; end() where there is none.
    sequence_iterator lower_bound(std::uint64_t value) const { return {raw(), rank(value)}; }
    sequence_walk walk(std::uint64_t from = 0) const { return {raw(), from}; }

private:
    friend class sequence;
    friend class detail::sequence_calls<sequence_view>;
    explicit sequence_view(const detail::in_block<detail::sequence_kind> &found) noexcept : own_(found) {}

    detail::in_block<detail::sequence_kind> own_;
};

BITM_NAMESPACE_END

#endif
