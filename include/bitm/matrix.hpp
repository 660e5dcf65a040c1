// Lists of numbers in any order (wavelet matrices), each in one block of memory: an owner, and a view of a block in
// memory of the caller's.
//
//     const bitm::wavelet_matrix m{3, 1, 4, 1, 5, 1};  // or of a vector, a span, iterators; with a width or without
//     std::cout << m[4] << ' ' << m.rank(1, 4) << ' ' << m.select(1, 2).value() << '\n';                 // 5 2 5
//     std::cout << m.quantile(1, 5, 2).value() << ' ' << m.count_less(1, 5, 4) << '\n';                  // 4 2
//
// A number of `width` bits takes about 1.03 times as many, with quarters about 1.16 times, and with hints a quarter of
// them more. The file of a matrix is its block, the same bytes from each language.
#ifndef BITM_MATRIX_HPP
#define BITM_MATRIX_HPP

#include <bitm/file.hpp>

BITM_NAMESPACE_BEGIN

// Whether a matrix has quarters: counts of 1 bits for every eight words of its block, by which most queries read fewer
// words.
enum class quarters : bool { no, yes };

// Whether a matrix has hints: positions of bits, by which `select` of a number mostly reads no table.
enum class hints : bool { no, yes };

// The numbers of a matrix, read one at a time.
class matrix_iterator : public detail::at_position<matrix_iterator, std::uint64_t> {
public:
    // Of no matrix.
    matrix_iterator() noexcept = default;
    // At an index.
    matrix_iterator(const bitm_matrix &of, std::uint64_t at) noexcept : at_position(at), of_(of) {}

private:
    friend class detail::at_position<matrix_iterator, std::uint64_t>;
    std::uint64_t read(std::uint64_t at) const
    {
        std::uint64_t out = 0;
        const std::uint32_t status = bitm_matrix_get(&of_, at, &out);
        if (BITM_RARELY(status != BITM_OK)) detail::fail_status(status, at, of_.len);
        return out;
    }
    bitm_matrix of_{};
};

namespace detail {

// Of no numbers: of one bit each.
struct matrix_kind : block_kind<matrix_kind, bitm_matrix, bitm_matrix_open> {
    static constexpr kind number = kind::wavelet_matrix;
    static constexpr const char *name = "wavelet_matrix";
    static std::array<field, 2> fields(const bitm_matrix &raw) noexcept
    {
        return {{{"numbers", raw.len}, {"width", raw.width}}};
    }
    static constexpr std::size_t nothing_len = 56;
    static std::uint32_t build_nothing(std::uint64_t *to) noexcept
    {
        return bitm_matrix_build(nullptr, 0, 1, false, false, nullptr, 0, to, nothing_len);
    }
};

template <class Self> class matrix_calls : public block_calls<Self, matrix_kind> {
public:
    // How many numbers there are, and whether there are none; how many bits each has at most; all of it as C takes it,
    // and the block.
    std::uint64_t size() const noexcept { return raw().len; }
    bool empty() const noexcept { return size() == 0; }
    std::uint32_t width() const noexcept { return static_cast<std::uint32_t>(raw().width); }
    const bitm_matrix &raw() const &noexcept BITM_LIFETIMEBOUND { return this->self().own_.raw(); }
    bitm_matrix raw() const &&noexcept { return this->self().own_.raw(); }
    words_in block() const noexcept { return this->self().own_.words(); }

    // The number at an index: fails past the end.
    std::uint64_t operator[](std::uint64_t index) const { return try_at(index).value(); }
    std::uint64_t at(std::uint64_t index) const { return try_at(index).value(); }
    result<std::uint64_t> try_at(std::uint64_t index) const noexcept
    {
        std::uint64_t out = 0;
        const std::uint32_t status = bitm_matrix_get(&raw(), index, &out);
        if (status != BITM_OK) return error_of(status, index, size());
        return out;
    }
    // How many of the numbers before an index are this one: fails where the index is past the end.
    std::uint64_t rank(std::uint64_t number, std::uint64_t index) const { return try_rank(number, index).value(); }
    result<std::uint64_t> try_rank(std::uint64_t number, std::uint64_t index) const noexcept
    {
        std::uint64_t out = 0;
        const std::uint32_t status = bitm_matrix_rank(&raw(), number, index, &out);
        if (status != BITM_OK) return error_of(status, index, size());
        return out;
    }
    // How often a number is there, and whether it is.
    std::uint64_t count(std::uint64_t number) const { return rank(number, size()); }
    bool contains(std::uint64_t number) const { return count(number) > 0; }
    // The index of this number with exactly `rank` such numbers before it; none where there are no more than rank.
    maybe_position select(std::uint64_t number, std::uint64_t rank) const { return try_select(number, rank).value(); }
    result<maybe_position> try_select(std::uint64_t number, std::uint64_t rank) const noexcept
    {
        std::uint64_t out = 0;
        const std::uint32_t status = bitm_matrix_select(&raw(), number, rank, &out);
        return tried(status, out);
    }

    // Of the numbers from one index on and before another: how many are less than a bound; the one that would stand at
    // index k if they were sorted; the least that is at least a bound, and the greatest that is less; none where there
    // is none. Each fails where the range is not inside.
    std::uint64_t count_less(std::uint64_t from, std::uint64_t to, std::uint64_t bound) const
    {
        return try_count_less(from, to, bound).value();
    }
    maybe_position quantile(std::uint64_t from, std::uint64_t to, std::uint64_t k) const
    {
        return try_quantile(from, to, k).value();
    }
    maybe_position next_value(std::uint64_t from, std::uint64_t to, std::uint64_t bound) const
    {
        return try_next_value(from, to, bound).value();
    }
    maybe_position previous_value(std::uint64_t from, std::uint64_t to, std::uint64_t bound) const
    {
        return try_previous_value(from, to, bound).value();
    }
    result<std::uint64_t> try_count_less(std::uint64_t from, std::uint64_t to, std::uint64_t bound) const noexcept
    {
        const result<maybe_position> found = of_range(bitm_matrix_count_less, from, to, bound);
        if (!found) return found.error();
        return (*found).value_or(0);
    }
    result<maybe_position> try_quantile(std::uint64_t from, std::uint64_t to, std::uint64_t k) const noexcept
    {
        return of_range(bitm_matrix_quantile, from, to, k);
    }
    result<maybe_position> try_next_value(std::uint64_t from, std::uint64_t to, std::uint64_t bound) const noexcept
    {
        return of_range(bitm_matrix_next_value, from, to, bound);
    }
    result<maybe_position> try_previous_value(std::uint64_t from, std::uint64_t to, std::uint64_t bound) const noexcept
    {
        return of_range(bitm_matrix_previous_value, from, to, bound);
    }

    // Lists, into memory of the caller's as long as the queries. The numbers at indices: fails where one is past the
    // end.
    void at(words_in indices, words_out out) const
    {
        std::uint64_t written = 0;
        need_apart(indices, out);
        const std::uint32_t status =
            bitm_matrix_get_list(&raw(), indices.data(), indices.size(), out.data(), out.size(), &written);
        need_items(status, indices, written, size());
    }
    // rank and select of numbers[i] with another number of its own: bitm::no_answer where there is none. Where the
    // block is noticed to be wrong, the call fails once all is answered.
    void rank(words_in numbers, words_in indices, words_out out) const
    {
        pairs(bitm_matrix_rank_list, numbers, indices, out);
    }
    void select(words_in numbers, words_in ranks, words_out out) const
    {
        pairs(bitm_matrix_select_list, numbers, ranks, out);
    }

    // Lists of ranges, into memory of the caller's, apart from the block: each writes as many numbers as there is room
    // for, returns how many these are, and fails where a range is not inside. The distinct numbers that are at least
    // `least`, ascending, each with how often it is there: so go on at the last one plus 1.
    std::size_t distinct(std::uint64_t from, std::uint64_t to, std::uint64_t least, words_out numbers,
                         words_out counts) const
    {
        need_range(from, to), need_apart(block(), numbers), need_apart(block(), counts), need_apart(numbers, counts);
        std::uint64_t written = 0;
        need(bitm_matrix_distinct(&raw(), from, to, least, numbers.data(), numbers.size(), counts.data(), counts.size(),
                                  &written),
             "there is not room for one count a number");
        return written;
    }
    // The most frequent numbers, the most frequent first, and of equally frequent ones the least.
    std::size_t top(std::uint64_t from, std::uint64_t to, words_out numbers, words_out counts) const
    {
        need_range(from, to), need_apart(block(), numbers), need_apart(block(), counts), need_apart(numbers, counts);
        std::uint64_t written = 0;
        need(bitm_matrix_top(&raw(), from, to, numbers.data(), numbers.size(), counts.data(), counts.size(), &written),
             "there is not room for one count a number");
        return written;
    }
    // The numbers of both ranges that are at least `least`, each once, ascending. Takes at most as many turns as the
    // first range has numbers, so pass the shorter one first.
    std::size_t intersect(std::uint64_t from, std::uint64_t to, std::uint64_t other_from, std::uint64_t other_to,
                          std::uint64_t least, words_out numbers) const
    {
        need_range(from, to), need_range(other_from, other_to), need_apart(block(), numbers);
        std::uint64_t written = 0;
        need(bitm_matrix_intersect(&raw(), from, to, other_from, other_to, least, numbers.data(), numbers.size(),
                                   &written));
        return written;
    }

    // Whether the block is as it was written and holds a matrix: looks at all of it, twice.
    bool check() const noexcept { return checked(bitm_matrix_check, block()); }

private:
    using range_call = std::uint32_t (*)(const bitm_matrix *, std::size_t, std::size_t, std::uint64_t, std::uint64_t *);
    using pairs_call = std::uint32_t (*)(const bitm_matrix *, const std::uint64_t *, std::size_t, const std::uint64_t *,
                                         std::size_t, std::uint64_t *, std::size_t, bitm_list_counts *);
    result<maybe_position> of_range(range_call call, std::uint64_t from, std::uint64_t to,
                                    std::uint64_t asked) const noexcept
    {
        if (BITM_RARELY(from > to)) return failure{errc::outside, from, to, "the start of a range"};
        if (BITM_RARELY(to > size())) return failure{errc::outside, to, size(), "the end of a range"};
        std::uint64_t out = 0;
        const std::uint32_t status = call(&raw(), from, to, asked, &out);
        return tried(status, out);
    }
    void need_range(std::uint64_t from, std::uint64_t to) const
    {
        if (BITM_RARELY(from > to)) fail({errc::outside, from, to, "the start of a range"});
        if (BITM_RARELY(to > size())) fail({errc::outside, to, size(), "the end of a range"});
    }
    void pairs(pairs_call call, words_in numbers, words_in others, words_out out) const
    {
        need_apart(numbers, out), need_apart(others, out);
        if (BITM_RARELY(others.size() != numbers.size()))
            fail(bad_size("there is not one index or rank for each number"));
        bitm_list_counts counts{};
        const std::uint32_t status =
            call(&raw(), numbers.data(), numbers.size(), others.data(), others.size(), out.data(), out.size(), &counts);
        need_list(status, counts);
    }
};

// The width of a matrix, whether it has quarters and hints, and how many words its block has.
struct matrix_shape {
    std::uint32_t width;
    bool quarters, hints;
    std::uint64_t len;
};

} // namespace detail

// A list of numbers whose block is in memory of the caller's, who keeps it: a mapped file, say.
class BITM_POINTER wavelet_matrix_view : public detail::matrix_calls<wavelet_matrix_view> {
public:
    // The types of a range.
    using value_type = std::uint64_t;
    using const_iterator = matrix_iterator;
    using iterator = matrix_iterator;

    // Of no numbers; of the block that begins the words: fails where they begin with no whole block of a matrix.
    // For an owner, call `view()`, not `in(x.block())`: only then compilers warn if the view outlives its owner.
    wavelet_matrix_view() noexcept = default;
    static result<wavelet_matrix_view> try_in(detail::kept<const std::uint64_t> file BITM_LIFETIMEBOUND) noexcept
    {
        const auto found = detail::matrix_kind::in(file.data(), file.size());
        if (!found) return found.error();
        return wavelet_matrix_view(*found);
    }
    static wavelet_matrix_view in(detail::kept<const std::uint64_t> file BITM_LIFETIMEBOUND)
    {
        return try_in(file).value();
    }

    // The numbers in their order, and backwards.
    matrix_iterator begin() const noexcept { return {raw(), 0}; }
    matrix_iterator end() const noexcept { return {raw(), raw().len}; }

private:
    friend class wavelet_matrix;
    friend class detail::matrix_calls<wavelet_matrix_view>;
    explicit wavelet_matrix_view(const detail::in_block<detail::matrix_kind> &found) noexcept : own_(found) {}

    detail::in_block<detail::matrix_kind> own_;
};

// A list of numbers that owns its block.
class BITM_OWNER wavelet_matrix : public detail::matrix_calls<wavelet_matrix>,
                                  public detail::stored_calls<wavelet_matrix, detail::matrix_kind> {
public:
    // The types of a container.
    using value_type = std::uint64_t;
    using const_iterator = matrix_iterator;
    using iterator = matrix_iterator;

    // No numbers; the numbers of words, a list or iterators, of `width` bits at most, or 0 for the width of the largest
    // one: fails where one has more, with errc::bad_size, its index and item_fault::too_wide. With quarters the block
    // takes an eighth more, and most queries read fewer words; with hints it takes a quarter of the numbers' bits more,
    // and `select` reads fewer words (evident from the code).
    wavelet_matrix() noexcept = default;
    explicit wavelet_matrix(words_in numbers, std::uint32_t width = 0, quarters kept = quarters::no,
                            hints led = hints::no)
        : wavelet_matrix(try_of(numbers, width, kept, led).value())
    {
    }
    wavelet_matrix(std::initializer_list<std::uint64_t> numbers)
        : wavelet_matrix(words_in(numbers.begin(), numbers.size()))
    {
    }
    template <class It, class = typename std::iterator_traits<It>::iterator_category>
    wavelet_matrix(It first, It last, std::uint32_t width = 0, quarters kept = quarters::no, hints led = hints::no)
        : wavelet_matrix(detail::gathered::of(first, last), width, kept, led)
    {
        static_assert(std::is_unsigned_v<typename std::iterator_traits<It>::value_type>, "numbers without a sign");
    }
    static result<wavelet_matrix> try_of(words_in numbers, std::uint32_t width = 0, quarters kept = quarters::no,
                                         hints led = hints::no)
    {
        const result<detail::matrix_shape> wanted = shape_of(numbers, width, kept, led);
        if (!wanted) return wanted.error();
        detail::block all(wanted->len), scratch(2 * numbers.size());
        const std::uint32_t status =
            bitm_matrix_build(numbers.data(), numbers.size(), wanted->width, wanted->quarters, wanted->hints,
                              scratch.data(), scratch.size(), all.data(), all.size());
        if (status == BITM_WRONG) return detail::too_wide(numbers, wanted->width, errc::bad_size, "number");
        if (status != BITM_OK) return detail::error_of(status);
        return opened(std::move(all), verify::no);
    }

    // The same matrix, built level by level: `progress` is called after each of its `width` levels with how many are
    // done, and how many there are. An exception from it ends the build.
    template <class Progress, detail::if_progress<Progress> = 0>
    wavelet_matrix(words_in numbers, std::uint32_t width, quarters kept, hints led, Progress &&progress)
        : wavelet_matrix(try_of(numbers, width, kept, led, progress).value())
    {
    }
    template <class Progress, detail::if_progress<Progress> = 0>
    static result<wavelet_matrix> try_of(words_in numbers, std::uint32_t width, quarters kept, hints led,
                                         Progress &&progress)
    {
        const result<detail::matrix_shape> wanted = shape_of(numbers, width, kept, led);
        if (!wanted) return wanted.error();
        const failure wide = detail::too_wide(numbers, wanted->width, errc::bad_size, "number");
        if (wide.item != item_fault::none) return wide;
        detail::block all(wanted->len), scratch(numbers.size()), sorted(numbers.size());
        if (!numbers.empty()) std::memcpy(sorted.data(), numbers.data(), 8 * numbers.size());
        for (std::uint32_t depth = 0; depth < wanted->width; depth++) {
            std::uint32_t status =
                bitm_matrix_write_level(sorted.data(), sorted.size(), wanted->width, wanted->quarters, wanted->hints,
                                        depth, scratch.data(), scratch.size(), all.data(), all.size());
            if (status == BITM_OK && depth + 1 == wanted->width)
                status = bitm_matrix_seal(numbers.size(), wanted->width, wanted->quarters, wanted->hints, all.data(),
                                          all.size());
            if (status != BITM_OK) return detail::error_of(status);
            progress(std::uint64_t{depth} + 1, std::uint64_t{wanted->width});
        }
        return opened(std::move(all), verify::no);
    }

    // Views and iterators, which the owner has to outlive; the block, and all of it as C takes it. Deleted for
    // temporaries.
    wavelet_matrix_view view() const &noexcept BITM_LIFETIMEBOUND { return wavelet_matrix_view(own_.found()); }
    words_in block() const &noexcept BITM_LIFETIMEBOUND { return own_.words(); }
    const bitm_matrix &raw() const &noexcept BITM_LIFETIMEBOUND { return own_.raw(); }
    matrix_iterator begin() const &noexcept BITM_LIFETIMEBOUND { return {raw(), 0}; }
    matrix_iterator end() const &noexcept BITM_LIFETIMEBOUND { return {raw(), raw().len}; }
    void view() const && = delete;
    void block() const && = delete;
    void raw() const && = delete;
    void begin() const && = delete;
    void end() const && = delete;

private:
    friend class detail::matrix_calls<wavelet_matrix>;

    static result<detail::matrix_shape> shape_of(words_in numbers, std::uint32_t width, quarters kept,
                                                 hints led) noexcept
    {
        detail::matrix_shape wanted{width == 0 ? width_of(numbers) : width, kept == quarters::yes, led == hints::yes,
                                    0};
        if (bitm_matrix_size(numbers.size(), wanted.width, wanted.quarters, wanted.hints, &wanted.len) == BITM_OK)
            return wanted;
        return detail::bad_size("the width is above 64, or the numbers have 2^63 bits or more");
    }
    // How many bits the largest number has, and at least 1.
    static std::uint32_t width_of(words_in numbers) noexcept
    {
        std::uint64_t all = 1;
        std::uint32_t width = 0;
        for (const std::uint64_t number : numbers) all |= number;
        for (; all > 0; all >>= 1) width++;
        return width;
    }
};

BITM_NAMESPACE_END

#if __cplusplus >= 202002L
template <> inline constexpr bool std::ranges::enable_borrowed_range<bitm::wavelet_matrix_view> = true;
template <> inline constexpr bool std::ranges::enable_view<bitm::wavelet_matrix_view> = true;
#endif

#endif
