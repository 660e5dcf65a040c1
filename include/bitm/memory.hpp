// What the headers of bitm share beside bitm/core.hpp: spans, memory, and the base of iterators.
//
//     const bitm::rank_index x(bitm::bits("0101"));
//     const std::vector<std::uint64_t> queries{0, 2, 4};
//     std::uint64_t answers[3];
//     x.rank(queries, {answers, 3});                                   // a container, or an address and a length
//     const bitm::words_in last(answers + 1, 2);
//     std::cout << last.size() << ' ' << last[0] << ' ' << last[1] << '\n'; // 2 1 2
#ifndef BITM_MEMORY_HPP
#define BITM_MEMORY_HPP

#include <bitm/core.hpp>

#if defined __linux__
#include <sys/mman.h>
#include <unistd.h>
#endif

BITM_NAMESPACE_BEGIN

// ---- spans of items of the caller's

// Items one after another: std::vector, std::array and std::span convert to it, and it to std::span. As an argument it
// is used during the call and not kept.
template <class T> class BITM_POINTER span {
public:
    // The types of a range.
    using element_type = T;
    using value_type = std::remove_cv_t<T>;

    // No items; the items from an address on; the items of a container, which has to outlive the span.
    constexpr span() noexcept = default;
    constexpr span(T *data, std::size_t size) noexcept : data_(data), size_(size) {}
    template <class Held,
              std::enable_if_t<detail::holds<Held, T>::value && !detail::borrows<detail::bare<Held>>::value, int> = 0>
    constexpr span(Held &&held BITM_LIFETIMEBOUND) noexcept : data_(held.data()), size_(held.size())
    {
    }
    template <class Held,
              std::enable_if_t<detail::holds<const Held, T>::value && detail::borrows<Held>::value, int> = 0>
    constexpr span(const Held &held) noexcept : data_(held.data()), size_(held.size())
    {
    }
    // Where the items begin, how many there are, and one of them: fails past the end.
    constexpr T *data() const noexcept { return data_; }
    constexpr std::size_t size() const noexcept { return size_; }
    constexpr bool empty() const noexcept { return size_ == 0; }
    constexpr T *begin() const noexcept { return data_; }
    constexpr T *end() const noexcept { return data_ + size_; }
    constexpr T &operator[](std::size_t at) const
    {
        if (BITM_RARELY(at >= size_)) detail::outside(at, size_);
        return data_[at];
    }

private:
    T *data_ = nullptr;
    std::size_t size_ = 0;
};

template <class T> struct detail::borrows<span<T>> : std::true_type {
};

// Words that a call reads, and words that it writes.
using words_in = span<const std::uint64_t>;
using words_out = span<std::uint64_t>;

namespace detail {

// Whether two spans have memory in common.
inline bool overlap(words_in a, words_in b) noexcept
{
    const auto x = reinterpret_cast<std::uintptr_t>(a.data()), y = reinterpret_cast<std::uintptr_t>(b.data());
    return a.size() > 0 && b.size() > 0 && x < y + 8 * b.size() && y < x + 8 * a.size();
}
// C writes no memory that it reads in the same call.
inline void need_apart(words_in read, words_out written)
{
    if (BITM_RARELY(overlap(read, {written.data(), written.size()}))) fail({errc::overlap});
}

// A list of answers by a call of C, which takes the structure and more before the queries: fails where the lengths do
// not fit together, and, once all is answered, where an answer says that the tables are wrong.
template <class Call, class... Before> void answer_list(Call call, words_in queries, words_out out, Before... before)
{
    need_apart(queries, out);
    bitm_list_counts counts{};
    const std::uint32_t status = call(before..., queries.data(), queries.size(), out.data(), out.size(), &counts);
    need_list(status, counts);
}

// The status of a list of indices among `of` items, after the items of the first `written` were written: fails at the
// next index as a call of that index alone does.
inline void need_items(std::uint32_t status, words_in indices, std::uint64_t written, std::uint64_t of)
{
    if (BITM_RARELY(status == BITM_NONE)) fail_status(status, indices.data()[written], of);
    need(status, wrong_room);
}

// An argument that is kept: a temporary container does not convert.
template <class T> class BITM_POINTER kept {
public:
    constexpr kept() noexcept = default;
    constexpr kept(T *data, std::size_t size) noexcept : over_(data, size) {}
    template <class Held, std::enable_if_t<holds<Held, T>::value && !borrows<bare<Held>>::value, int> = 0>
    constexpr kept(Held &held BITM_LIFETIMEBOUND) noexcept : over_(held.data(), held.size())
    {
    }
    template <class Held, std::enable_if_t<holds<Held, T>::value && !borrows<bare<Held>>::value, int> = 0>
    kept(const Held &&held) = delete;
    template <class Held, std::enable_if_t<holds<const Held, T>::value && borrows<Held>::value, int> = 0>
    constexpr kept(const Held &held) noexcept : over_(held.data(), held.size())
    {
    }
    constexpr T *data() const noexcept { return over_.data(); }
    constexpr std::size_t size() const noexcept { return over_.size(); }

private:
    span<T> over_;
};

// ---- memory

// How many bits the words have.
inline std::uint64_t bits_in(std::size_t words)
{
    if (BITM_RARELY(words >= (std::size_t{1} << 58))) fail(bad_size("2^58 words or more"));
    return 64 * static_cast<std::uint64_t>(words);
}

// Requests huge pages for the whole pages of an array of 4 MiB or more: a query then waits less for the
// tables of the pages. The system may refuse, or have none: then the pages stay small.
inline void request_huge_pages(std::uint64_t *data, std::size_t bytes) noexcept
{
#if defined __linux__ && defined MADV_HUGEPAGE
    constexpr std::size_t least = std::size_t{4} << 20;
    const long found = bytes < least ? 0 : ::sysconf(_SC_PAGESIZE);
    const auto page = static_cast<std::size_t>(found);
    if (found <= 0 || page >= least) return;
    const std::size_t skipped = (page - reinterpret_cast<std::uintptr_t>(data) % page) % page;
    (void)::madvise(reinterpret_cast<char *>(data) + skipped, (bytes - skipped) / page * page, MADV_HUGEPAGE);
#else
    (void)data, (void)bytes;
#endif
}

// A block of words aligned to 64 bytes, on the heap or mapped, which it owns. A large one lies in huge pages where the
// system has these.
class block {
public:
    block() noexcept = default;
    explicit block(std::size_t words)
    {
        if (words == 0) return;
        if (BITM_RARELY(words >= (std::size_t{1} << 58))) fail(bad_size("2^58 words or more"));
        data_ = static_cast<std::uint64_t *>(::operator new(8 * words, std::align_val_t(64)));
        len_ = words, drop_ = free_heap;
        request_huge_pages(data_, 8 * words);
        std::memset(data_, 0, 8 * words);
    }
    block(std::uint64_t *data, std::size_t words, void (*drop)(std::uint64_t *, std::size_t) noexcept) noexcept
        : data_(data), len_(words), drop_(drop)
    {
    }
    block(block &&other) noexcept { swap(other); }
    block &operator=(block &&other) noexcept
    {
        block moved(std::move(other));
        swap(moved);
        return *this;
    }
    block(const block &) = delete;
    block &operator=(const block &) = delete;
    ~block()
    {
        if (data_) drop_(data_, len_);
    }
    void swap(block &other) noexcept
    {
        std::swap(data_, other.data_), std::swap(len_, other.len_), std::swap(drop_, other.drop_);
    }
    std::uint64_t *data() const noexcept { return data_; }
    std::size_t size() const noexcept { return len_; }

private:
    static void free_heap(std::uint64_t *data, std::size_t) noexcept { ::operator delete(data, std::align_val_t(64)); }

    std::uint64_t *data_ = nullptr;
    std::size_t len_ = 0;
    void (*drop_)(std::uint64_t *, std::size_t) noexcept = nullptr;
};

// Numbers gathered one by one in a block that grows.
class gathered {
public:
    template <class It> static gathered of(It first, It last)
    {
        gathered all;
        for (; first != last; ++first) all.push(*first);
        return all;
    }
    void push(std::uint64_t number)
    {
        if (len_ == all_.size()) {
            block more(len_ < 32 ? 32 : 2 * len_);
            if (len_) std::memcpy(more.data(), all_.data(), 8 * len_);
            all_.swap(more);
        }
        all_.data()[len_++] = number;
    }
    std::uint64_t *data() const noexcept { return all_.data(); }
    std::size_t size() const noexcept { return len_; }
    operator words_in() const noexcept { return {all_.data(), len_}; }

private:
    block all_;
    std::size_t len_ = 0;
};

// ---- items at fault, looked for once a call of C has refused a list

// The number that is less than the one before it or, if `strictly`, not above it.
inline failure unsorted(words_in numbers, bool strictly, const char *which) noexcept
{
    std::uint64_t at = 0;
    if (bitm_numbers_unsorted(numbers.data(), numbers.size(), strictly, &at) != BITM_OK) return {errc::unsorted};
    return {errc::unsorted,
            at,
            numbers.size(),
            which,
            numbers.data()[at],
            numbers.data()[at - 1],
            strictly ? item_fault::not_above : item_fault::less};
}
// The number that is above `most`: what is wrong is given, and stays without an item where there is none.
inline failure above(words_in numbers, std::uint64_t most, failure why) noexcept
{
    std::uint64_t at = 0;
    if (bitm_numbers_above(numbers.data(), numbers.size(), most, &at) != BITM_OK) return {why.code};
    why.at = at, why.of = numbers.size(), why.value = numbers.data()[at];
    return why;
}
inline failure too_wide(words_in numbers, std::uint32_t width, errc code, const char *which) noexcept
{
    const std::uint64_t most = width < 64 ? (std::uint64_t{1} << width) - 1 : ~std::uint64_t{0};
    return above(numbers, most, {code, 0, 0, which, 0, width, item_fault::too_wide});
}
// The number that is not below a bound.
inline failure not_below(words_in numbers, std::uint64_t bound, errc code, const char *which) noexcept
{
    const failure why{code, 0, numbers.size(), which, 0, bound, item_fault::not_below};
    if (bound > 0 || numbers.empty()) return above(numbers, bound - 1, why);
    failure first = why;
    return first.value = numbers.data()[0], first;
}

constexpr std::uint64_t lesser(std::uint64_t a, std::uint64_t b) noexcept { return b < a ? b : a; }
constexpr std::uint64_t greater(std::uint64_t a, std::uint64_t b) noexcept { return a < b ? b : a; }

// The base of random access iterators that hold some parts and a position: `It` has `read(at)`.
template <class It, class Value> class at_position {
public:
    // The types of a random access iterator.
    using iterator_category = std::input_iterator_tag; // C++17: * gives a value, no reference
#if __cplusplus >= 202002L
    using iterator_concept = std::random_access_iterator_tag;
#endif
    using value_type = Value;
    using difference_type = std::ptrdiff_t;
    using pointer = void;
    using reference = Value;

    // The value here, or `by` positions on; moves by one position, or by more. Moving tests no end, reading does.
    Value operator*() const { return self().read(at_); }
    Value operator[](difference_type by) const { return self().read(at_ + static_cast<std::uint64_t>(by)); }
    It &operator++() noexcept { return ++at_, self(); }
    It &operator--() noexcept { return --at_, self(); }
    It operator++(int) noexcept
    {
        It before = self();
        return ++at_, before;
    }
    It operator--(int) noexcept
    {
        It before = self();
        return --at_, before;
    }
    It &operator+=(difference_type by) noexcept { return at_ += static_cast<std::uint64_t>(by), self(); }
    It &operator-=(difference_type by) noexcept { return at_ -= static_cast<std::uint64_t>(by), self(); }
    friend It operator+(It it, difference_type by) noexcept { return it += by; }
    friend It operator+(difference_type by, It it) noexcept { return it += by; }
    friend It operator-(It it, difference_type by) noexcept { return it -= by; }
    friend difference_type operator-(const It &a, const It &b) noexcept
    {
        return static_cast<difference_type>(a.at_ - b.at_);
    }
    friend bool operator==(const It &a, const It &b) noexcept { return a.at_ == b.at_; }
    friend bool operator!=(const It &a, const It &b) noexcept { return a.at_ != b.at_; }
    friend bool operator<(const It &a, const It &b) noexcept { return a.at_ < b.at_; }
    friend bool operator>(const It &a, const It &b) noexcept { return a.at_ > b.at_; }
    friend bool operator<=(const It &a, const It &b) noexcept { return a.at_ <= b.at_; }
    friend bool operator>=(const It &a, const It &b) noexcept { return a.at_ >= b.at_; }
    // Its position in the range.
    std::uint64_t position() const noexcept { return at_; }

protected:
    at_position() noexcept = default;
    explicit at_position(std::uint64_t at) noexcept : at_(at) {}
    std::uint64_t at_ = 0;

private:
    It &self() noexcept { return static_cast<It &>(*this); }
    const It &self() const noexcept { return static_cast<const It &>(*this); }
};

} // namespace detail

BITM_NAMESPACE_END

#if __cplusplus >= 202002L
template <class T> inline constexpr bool std::ranges::enable_borrowed_range<bitm::span<T>> = true;
template <class T> inline constexpr bool std::ranges::enable_view<bitm::span<T>> = true;
#endif

#endif
