// Cursors over monotone sequences: positions that move forward only, and what several sequences share, or what any of
// them has, from the cursors on (posting lists).
//
//     const bitm::sequence primes{2, 3, 5, 7, 11}, odd{1, 3, 5, 7, 9, 11};
//     bitm::cursor at(primes);
//     std::cout << at.next_geq(4).value() << ' ' << at.position() << ' ' << *++at << '\n'; // 5 2 7
//     std::vector<bitm::cursor> lists{bitm::cursor(primes), bitm::cursor(odd)};
//     std::uint64_t found[8];
//     std::cout << bitm::intersect(lists, 4, {found, 8}) << ' ' << found[0] << ' ' << found[2] << '\n'; // 3 5 11
//     lists = {bitm::cursor(primes), bitm::cursor(odd)};
//     bitm::unite(lists, [](std::uint64_t it) { std::cout << it << ' '; }); // 1 2 3 5 7 9 11
#ifndef BITM_CURSOR_HPP
#define BITM_CURSOR_HPP

#include <bitm/sequence.hpp>

BITM_NAMESPACE_BEGIN

// A position in a sequence: at a number, or at the end. It holds the parts, so it outlives a view (not an owner), and
// is a range to go through once, each number once however often it is there.
class BITM_POINTER cursor {
public:
    // The types of a range that is gone through once.
    using end_mark = detail::end_mark;
    using iterator = detail::once_iterator<cursor>;

    // At the end of no numbers; at the first number of a sequence, which costs three selections: fails where the parts
    // are noticed to be wrong.
    cursor() noexcept = default;
    explicit cursor(const sequence &of BITM_LIFETIMEBOUND) : cursor(of.view()) {}
    explicit cursor(const sequence &&of) = delete;
    explicit cursor(const sequence_view &of) : cursor(try_of(of).value()) {}
    static result<cursor> try_of(const sequence_view &of) noexcept
    {
        cursor made;
        made.raw_.sequence = of.raw();
        if (const std::uint32_t status = bitm_cursor_start(&made.raw_)) return detail::error_of(status);
        return made;
    }

    // Whether it is at the end; true where it is not.
    bool done() const noexcept { return raw_.index >= raw_.sequence.len; }
    explicit operator bool() const noexcept { return !done(); }
    // The number where it stands: fails at the end. The index of that number, which is how many there are at the end.
    std::uint64_t value() const
    {
        if (BITM_RARELY(done())) detail::outside(position(), raw_.sequence.len);
        return here();
    }
    std::uint64_t operator*() const { return value(); }
    std::uint64_t position() const noexcept { return raw_.index; }
    // Where it stands: `cursor(index=0, number=2)`, at the end `number=none`.
    template <class Char, class Traits>
    friend std::basic_ostream<Char, Traits> &operator<<(std::basic_ostream<Char, Traits> &to, const cursor &of)
    {
        to << "cursor(index=" << of.position() << ", number=";
        return (of.done() ? to << "none" : to << of.here()) << ')';
    }

    // Moves to the first number from here on that is at least a value, or stays where the number here is: that number,
    // or none, and then it is at the end. It never goes back. Reads 26 words where the number is near, else what three
    // selections read too.
    maybe_position next_geq(std::uint64_t value) { return try_next_geq(value).value(); }
    result<maybe_position> try_next_geq(std::uint64_t value) noexcept
    {
        std::uint64_t out = 0;
        const std::uint32_t status = bitm_cursor_next(&raw_, value, &out);
        return detail::tried(status, out);
    }
    // Moves to the next greater number, or to the end: fails at the end.
    cursor &next()
    {
        const std::uint64_t past = value();
        if (past == std::numeric_limits<std::uint64_t>::max())
            raw_.index = raw_.sequence.len;
        else
            next_geq(past + 1);
        return *this;
    }
    cursor &operator++() { return next(); }
    // From the number where it stands on; going through it moves the cursor.
    iterator begin() noexcept BITM_LIFETIMEBOUND { return iterator(this); }
    end_mark end() const noexcept { return {}; }
    // All of it as C takes it.
    const bitm_cursor &raw() const &noexcept BITM_LIFETIMEBOUND { return raw_; }
    bitm_cursor raw() const &&noexcept { return raw_; }

private:
    friend class detail::once_iterator<cursor>;
    std::uint64_t here() const noexcept { return raw_.number; }

    bitm_cursor raw_{};
};

namespace detail {

// Whether memory that is written overlaps no part of a sequence.
inline bool is_apart(const bitm_sequence &of, words_in out) noexcept
{
    return !overlap({of.low, of.low_len}, out) && !overlap({of.words, of.words_len}, out) &&
           !overlap({of.upper, of.upper_len}, out) && !overlap({of.lower, of.lower_len}, out);
}

// How many numbers a call of C writes, which takes the cursors as structs.
template <class Call>
result<std::size_t> merged(Call call, span<cursor> lists, std::uint64_t from, words_out out) noexcept
{
    static_assert(std::is_standard_layout_v<cursor> && sizeof(cursor) == sizeof(bitm_cursor));
    bitm_cursor *const all = reinterpret_cast<bitm_cursor *>(lists.data());
    const words_in written(out.data(), out.size());
    if (overlap({reinterpret_cast<const std::uint64_t *>(all), lists.size() * (sizeof(cursor) / 8)}, written))
        return failure{errc::overlap};
    for (const cursor &it : lists)
        if (!is_apart(it.raw().sequence, written)) return failure{errc::overlap};
    std::uint64_t count = 0;
    const std::uint32_t status = call(all, lists.size(), from, out.data(), out.size(), &count);
    if (status != BITM_OK) return error_of(status, 0, 0, "there is no cursor");
    return static_cast<std::size_t>(count);
}

// Calls `each` with the numbers of a merge, which are read in blocks.
template <class Call, class Each> void each_merged(Call call, span<cursor> lists, Each &each)
{
    std::uint64_t block[64];
    constexpr std::size_t room = sizeof block / sizeof *block;
    std::size_t count = room;
    for (std::uint64_t from = 0; count == room; from = block[room - 1] + 1) {
        count = merged(call, lists, from, {block, room}).value();
        for (std::size_t i = 0; i < count; i++) each(block[i]);
        if (count == room && block[room - 1] == std::numeric_limits<std::uint64_t>::max()) return;
    }
}

} // namespace detail

// Writes the numbers from a value on that stand in the sequence of each cursor, from the cursors on: ascending, each
// once, until `out` is full or there are no more: how many. If it is full, a call with one more than its last number
// goes on. Each cursor moves at most once for each number of the first sequence, and once more, so the shortest is best
// first. Fails where there is no cursor, where `out` overlaps cursors or parts, and where parts are noticed to be
// wrong.
inline result<std::size_t> try_intersect(span<cursor> lists, std::uint64_t from, words_out out) noexcept
{
    return detail::merged(bitm_cursors_intersect, lists, from, out);
}
inline std::size_t intersect(span<cursor> lists, std::uint64_t from, words_out out)
{
    return try_intersect(lists, from, out).value();
}
// The same of the numbers that stand in the sequence of any cursor; of no cursors these are none. Each cursor moves at
// most once for each number that is written, and once more.
inline result<std::size_t> try_unite(span<cursor> lists, std::uint64_t from, words_out out) noexcept
{
    return detail::merged(bitm_cursors_union, lists, from, out);
}
inline std::size_t unite(span<cursor> lists, std::uint64_t from, words_out out)
{
    return try_unite(lists, from, out).value();
}

// Call `each` with each number from the cursors on that stands in the sequence of each, or of any: in blocks of 64.
template <class Each> void intersect(span<cursor> lists, Each &&each)
{
    detail::each_merged(bitm_cursors_intersect, lists, each);
}
template <class Each> void unite(span<cursor> lists, Each &&each)
{
    detail::each_merged(bitm_cursors_union, lists, each);
}

BITM_NAMESPACE_END

#endif
