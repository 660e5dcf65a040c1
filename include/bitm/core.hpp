// What all of the headers of bitm share: errors, results, and which types outlive a call. C++17, more in C++20.
//
// Each type is the same in every language mode, so that units compiled as C++17, 20 and 23 link together: where the
// standard library of the mode has a type of the same use (std::span, std::expected), values convert. Units without
// exceptions differ, and so have an inline namespace of another name.
//
//     const bitm::rank_index x(bitm::bits("0101"));
//     try {
//         x.rank(5);
//     } catch (const std::out_of_range &why) {
//         std::cerr << why.what() << '\n';                             // the position, and how many bits there are
//     }
//     const auto none = bitm::rank_index::try_load("missing.bitm");    // a result: a value, or why there is none
//     std::cout << none.has_value() << ' ' << (none.error().code == bitm::errc::no_file) << '\n'; // 0 1
//     std::cout << x.try_rank(4).value_or(0) << '\n';                  // 2
#ifndef BITM_CORE_HPP
#define BITM_CORE_HPP

#include <bitm/failure.hpp>

BITM_NAMESPACE_BEGIN

// A position, or none.
using maybe_position = std::optional<std::uint64_t>;

// In lists of answers: there is no such position.
inline constexpr std::uint64_t no_answer = BITM_NO_ANSWER;
// In lists of answers: the tables do not match the words.
inline constexpr std::uint64_t wrong_answer = BITM_WRONG_TABLES;

// Whether the library that is linked is one for programs that were compiled with these headers.
inline bool version_fits() noexcept { return bitm_version_fits(); }

// A value, or the error that prevented it. Converts to std::expected where there is one.
template <class T> class [[nodiscard]] result {
public:
    // A value; or an error.
    result(T value) noexcept(std::is_nothrow_move_constructible_v<T>) : value_(std::move(value)) {}
    result(failure why) noexcept : error_(why) {}

    // Whether there is a value.
    bool has_value() const noexcept { return error_.code == errc::none; }
    explicit operator bool() const noexcept { return has_value(); }
    // The value: fails where there is none.
    T &value() & BITM_LIFETIMEBOUND { return checked(), value_; }
    const T &value() const &BITM_LIFETIMEBOUND { return checked(), value_; }
    T value() && { return checked(), std::move(value_); }
    T &operator*() & BITM_LIFETIMEBOUND { return value(); }
    const T &operator*() const &BITM_LIFETIMEBOUND { return value(); }
    T operator*() && { return std::move(*this).value(); }
    T *operator->() & BITM_LIFETIMEBOUND { return &value(); }
    const T *operator->() const &BITM_LIFETIMEBOUND { return &value(); }
    void operator->() const && = delete; // a view of its value would end with the line: write (*try_load(..)).rank(5)
    T value_or(T other) const & { return has_value() ? value_ : std::move(other); }
    T value_or(T other) && { return has_value() ? std::move(value_) : std::move(other); }
    const failure &error() const &noexcept BITM_LIFETIMEBOUND { return error_; }
    failure error() &&noexcept { return error_; }
#if defined __cpp_lib_expected
    operator std::expected<T, failure>() const &
    {
        if (has_value()) return value_;
        return std::unexpected(error_);
    }
    operator std::expected<T, failure>() &&
    {
        if (has_value()) return std::move(value_);
        return std::unexpected(error_);
    }
#endif

private:
    void checked() const
    {
        if (BITM_RARELY(!has_value())) fail(error_);
    }
    T value_{};
    failure error_{};
};

namespace detail {

[[noreturn]] BITM_COLD inline void outside(std::uint64_t at, std::uint64_t of, const char *which = nullptr)
{
    fail({errc::outside, at, of, which});
}
// The number of `len` bits from `begin` on, a fragment, or the bits from one position on and before another, where an
// argument is past the end.
[[noreturn]] BITM_COLD inline void outside_number(std::uint64_t begin, std::uint32_t len, std::uint64_t size)
{
    if (len > 64) outside(len, 64, "the number of bits");
    outside(begin, size - (len < size ? len : size), "the first bit of a number");
}
[[noreturn]] BITM_COLD inline void outside_fragment(std::uint64_t index, std::uint32_t width, std::uint64_t size)
{
    if (width > 64) outside(width, 64, "the width of a fragment");
    outside(index, width ? size / width : 0, "the index of a fragment");
}
[[noreturn]] BITM_COLD inline void outside_range(std::uint64_t from, std::uint64_t to, std::uint64_t size)
{
    if (from > to) outside(from, to, "the start of a range");
    outside(to, size, "the end of a range");
}
constexpr failure bad_size(const char *which) noexcept { return {errc::bad_size, 0, 0, which}; }

// The error of a status that is not BITM_OK, where BITM_NONE means that a position is past the end, and `which` says
// which length BITM_BAD_SIZE is about.
inline failure error_of(std::uint32_t status, std::uint64_t at = 0, std::uint64_t of = 0,
                        const char *which = nullptr) noexcept
{
    if (status == BITM_NONE) return {errc::outside, at, of, nullptr};
    return {static_cast<errc>(status), 0, 0, status == BITM_BAD_SIZE ? which : nullptr};
}
[[noreturn]] BITM_COLD inline void fail_status(std::uint32_t status, std::uint64_t at = 0, std::uint64_t of = 0)
{
    fail(error_of(status, at, of));
}
inline void need(std::uint32_t status)
{
    if (BITM_RARELY(status != BITM_OK)) fail_status(status);
}
inline void need(std::uint32_t status, const char *which)
{
    if (BITM_RARELY(status != BITM_OK)) fail(error_of(status, 0, 0, which));
}
// Where BITM_NONE means that there is none: returns whether the answer was written.
inline bool there(std::uint32_t status)
{
    if (BITM_RARELY(status > BITM_NONE)) fail_status(status);
    return status == BITM_OK;
}
// The number of an answer, or none: fails where the status is neither BITM_OK nor BITM_NONE.
inline maybe_position found(std::uint32_t status, std::uint64_t out)
{
    if (status == BITM_OK) return out;
    if (BITM_RARELY(status != BITM_NONE)) fail_status(status);
    return std::nullopt;
}
inline result<maybe_position> tried(std::uint32_t status, std::uint64_t out) noexcept
{
    if (status == BITM_OK) return maybe_position(out);
    if (status == BITM_NONE) return maybe_position();
    return error_of(status);
}
inline constexpr const char *wrong_room = "there is not room for one answer a query";
// The status of a list, whose answers are written: fails where one of them says that the tables are wrong.
inline void need_list(std::uint32_t status, const bitm_list_counts &counts, const char *which = wrong_room)
{
    need(status, which);
    if (BITM_RARELY(counts.wrong != 0)) fail_status(BITM_WRONG);
}

template <class T> using bare = std::remove_cv_t<std::remove_reference_t<T>>;
template <class Held> using data_of = decltype(std::declval<Held &>().data());
// Containers of numbers one after another: data() points at the items that begin() reads and size() counts. (The size
// of bits counts bits, so they are none.)
template <class Held, class T, class = void> struct holds : std::false_type {
};
template <class Held, class T> struct holds<
    Held, T,
    std::void_t<data_of<Held>, decltype(std::declval<Held &>().size()), decltype(*std::declval<Held &>().begin())>>
    : std::bool_constant<
          std::is_convertible_v<data_of<Held>, T *> &&
          std::is_same_v<decltype(*std::declval<Held &>().begin()), decltype(*std::declval<Held &>().data())> &&
          std::is_same_v<std::remove_cv_t<std::remove_pointer_t<data_of<Held>>>, std::remove_cv_t<T>>> {
};

// What a build calls with how far it is: a function of two numbers, of what is done and of all there is to do.
template <class Progress> using if_progress =
    std::enable_if_t<std::is_invocable_v<Progress &, std::uint64_t, std::uint64_t>, int>;

// Types whose data outlive them: a view may keep what a temporary of such a type points at.
template <class T> struct borrows
#if __cplusplus >= 202002L
    : std::bool_constant<std::ranges::borrowed_range<T>> {
};
#else
    : std::false_type {
};
#endif

} // namespace detail

BITM_NAMESPACE_END

#endif
