// Where a pattern stands in a text, by the index of the text in one block of memory: an owner, and a view of a block in
// memory of the caller's.
//
//     const bitm::text_index banana("banana");        // or map("book.block"), which save() or `bitm text build` wrote
//     std::vector<std::uint64_t> where(4);
//     std::cout << banana.count("ana") << ' ' << banana.locate("ana", where) << ' ' << where[0] << '\n'; // 2 2 3
//     std::cout << banana.size() << ' ' << (banana.text(1, 3) == "ana") << '\n';                         // 6 1
//
// The time to count a pattern does not depend on how long the text is; occurrences may overlap, and an empty pattern
// stands at each position, the end too. The text itself is not needed. Letters are bytes or numbers. Calls that end in
// _letters take patterns of numbers: in an index of bytes a letter is the number of a byte among the bytes that occur.
#ifndef BITM_TEXT_HPP
#define BITM_TEXT_HPP

#include <bitm/file.hpp>

#include <string>
#include <string_view>

BITM_NAMESPACE_BEGIN

namespace detail {

// Of no letters, which are numbers: the index of an empty text.
struct text_kind : block_kind<text_kind, bitm_text, bitm_text_open> {
    static constexpr kind number = kind::text_index;
    static constexpr const char *name = "text_index";
    static std::array<field, 2> fields(const bitm_text &raw) noexcept
    {
        return {{{"letters", raw.letters.len}, {"width", raw.letters.width}}};
    }
    static constexpr std::size_t nothing_len = 136;
    static std::uint32_t build_nothing(std::uint64_t *to) noexcept
    {
        std::uint32_t scratch[2];
        return bitm_text_build(nullptr, 0, 0, 32, scratch, 2, to, nothing_len);
    }
};

inline const std::uint8_t *bytes_of(std::string_view pattern) noexcept
{
    return reinterpret_cast<const std::uint8_t *>(pattern.data());
}

// A text of bytes, and one of numbers below `letters`: how their indexes are built, by the calls of C.
using halves = span<std::uint32_t>;
struct bytes_in {
    std::string_view text;

    std::uint32_t sizes(std::uint32_t step, std::uint64_t *len, std::uint64_t *needed) const noexcept
    {
        return bitm_text_size_bytes(bytes_of(text), text.size(), step, len, needed);
    }
    std::uint32_t build(std::uint32_t step, halves room, words_out to) const noexcept
    {
        return bitm_text_build_bytes(bytes_of(text), text.size(), step, room.data(), room.size(), to.data(), to.size());
    }
    std::uint32_t order(halves room) const noexcept
    {
        return bitm_text_order_bytes(bytes_of(text), text.size(), room.data(), room.size());
    }
    std::uint32_t build_ordered(std::uint32_t step, halves room, words_out to) const noexcept
    {
        return bitm_text_build_ordered_bytes(bytes_of(text), text.size(), step, room.data(), room.size(), to.data(),
                                             to.size());
    }
    static failure unfit() noexcept { return {errc::wrong}; }
};
struct letters_in {
    words_in text;
    std::uint32_t letters;

    std::uint32_t sizes(std::uint32_t step, std::uint64_t *len, std::uint64_t *needed) const noexcept
    {
        return bitm_text_size_letters(text.size(), letters, step, len, needed);
    }
    std::uint32_t build(std::uint32_t step, halves room, words_out to) const noexcept
    {
        return bitm_text_build(text.data(), text.size(), letters, step, room.data(), room.size(), to.data(), to.size());
    }
    std::uint32_t order(halves room) const noexcept
    {
        return bitm_text_order(text.data(), text.size(), letters, room.data(), room.size());
    }
    std::uint32_t build_ordered(std::uint32_t step, halves room, words_out to) const noexcept
    {
        return bitm_text_build_ordered(text.data(), text.size(), letters, step, room.data(), room.size(), to.data(),
                                       to.size());
    }
    // The first letter that is not below the size of the alphabet.
    failure unfit() const noexcept { return not_below(text, letters, errc::bad_size, "letter"); }
};

// The ways to build an index: at once, or in two steps, each followed by a call of `progress`.
struct at_once {
    template <class Text>
    std::uint32_t operator()(const Text &text, std::uint32_t step, halves room, words_out to) const noexcept
    {
        return text.build(step, room, to);
    }
};
template <class Progress> struct in_two_steps {
    Progress &progress;

    template <class Text>
    std::uint32_t operator()(const Text &text, std::uint32_t step, halves room, words_out to) const
    {
        std::uint32_t status = text.order(room);
        if (status != BITM_OK) return status;
        progress(std::uint64_t{1}, std::uint64_t{2});
        status = text.build_ordered(step, room, to);
        if (status == BITM_OK) progress(std::uint64_t{2}, std::uint64_t{2});
        return status;
    }
};

template <class Self> class text_calls : public block_calls<Self, text_kind> {
public:
    // How many letters the text has, and whether it has none; how many bits a letter takes; all of it as C takes it,
    // and the block.
    std::uint64_t size() const noexcept { return raw().letters.len; }
    bool empty() const noexcept { return size() == 0; }
    std::uint64_t width() const noexcept { return raw().letters.width; }
    const bitm_text &raw() const &noexcept BITM_LIFETIMEBOUND { return this->self().own_.raw(); }
    bitm_text raw() const &&noexcept { return this->self().own_.raw(); }
    words_in block() const noexcept { return this->self().own_.words(); }

    // At how many positions a pattern stands.
    std::uint64_t count(std::string_view pattern) const { return try_count(pattern).value(); }
    std::uint64_t count_letters(words_in pattern) const { return try_count_letters(pattern).value(); }
    result<std::uint64_t> try_count(std::string_view pattern) const noexcept
    {
        std::uint64_t out = 0;
        const std::uint32_t status = bitm_text_count_bytes(&raw(), bytes_of(pattern), pattern.size(), &out);
        if (status != BITM_OK) return error_of(status);
        return out;
    }
    result<std::uint64_t> try_count_letters(words_in pattern) const noexcept
    {
        std::uint64_t out = 0;
        const std::uint32_t status = bitm_text_count(&raw(), pattern.data(), pattern.size(), &out);
        if (status != BITM_OK) return error_of(status);
        return out;
    }

    // Writes positions at which a pattern stands, in the order of the rest of the text from there on, without the first
    // `from` of them, into memory of the caller's; returns how many were written.
    std::size_t locate(std::string_view pattern, words_out out, std::uint64_t from = 0) const
    {
        need_apart({reinterpret_cast<const std::uint64_t *>(pattern.data()), (pattern.size() + 7) / 8}, out);
        std::uint64_t written = 0;
        need(bitm_text_locate_bytes(&raw(), bytes_of(pattern), pattern.size(), from, out.data(), out.size(), &written));
        return written;
    }
    std::size_t locate_letters(words_in pattern, words_out out, std::uint64_t from = 0) const
    {
        need_apart(pattern, out);
        std::uint64_t written = 0;
        need(bitm_text_locate(&raw(), pattern.data(), pattern.size(), from, out.data(), out.size(), &written));
        return written;
    }

    // `count` letters from a position on, as a string where they are bytes; or as many as fit into the caller's memory.
    // Fails where the text has fewer, and for a string where letters may have more than 8 bits.
    std::string text(std::uint64_t from, std::size_t count) const { return try_text(from, count).value(); }
    result<std::string> try_text(std::uint64_t from, std::size_t count) const
    {
        if (count > size()) return error_of(BITM_NONE, count, size());
        std::string out(count, '\0');
        auto *const room = reinterpret_cast<std::uint8_t *>(out.data());
        const std::uint32_t status = bitm_text_extract_bytes(&raw(), from, room, count);
        if (status != BITM_OK)
            return error_of(status, from, size(), "the width of a letter, which is more than 8 bits");
        return out;
    }
    void letters(std::uint64_t from, words_out out) const
    {
        const std::uint32_t status = bitm_text_extract(&raw(), from, out.data(), out.size());
        if (status != BITM_OK) fail_status(status, from, size());
    }

    // The letter at a position, of the index of bytes the byte: fails past the end.
    std::uint64_t operator[](std::uint64_t position) const { return try_at(position).value(); }
    std::uint64_t at(std::uint64_t position) const { return try_at(position).value(); }
    result<std::uint64_t> try_at(std::uint64_t position) const noexcept
    {
        std::uint64_t out = 0;
        std::uint8_t byte = 0;
        const bool is_byte = raw().used_len > 0;
        const std::uint32_t status = is_byte ? bitm_text_extract_bytes(&raw(), position, &byte, 1)
                                             : bitm_text_extract(&raw(), position, &out, 1);
        if (status != BITM_OK) return error_of(status, position, size());
        return is_byte ? byte : out;
    }

    // Whether the block is as it was written and holds the index of a text: looks at all of it, and walks through it.
    bool check() const noexcept { return checked(bitm_text_check, block()); }
};

} // namespace detail

// The index of a text whose block is in memory of the caller's, who keeps it: a mapped file, say.
class BITM_POINTER text_index_view : public detail::text_calls<text_index_view> {
public:
    // Of no letters; of the block that begins the words: fails where they begin with no whole block of a text.
    // For an owner, call `view()`, not `in(x.block())`: only then compilers warn if the view outlives its owner.
    text_index_view() noexcept = default;
    static result<text_index_view> try_in(detail::kept<const std::uint64_t> file BITM_LIFETIMEBOUND) noexcept
    {
        const auto found = detail::text_kind::in(file.data(), file.size());
        if (!found) return found.error();
        return text_index_view(*found);
    }
    static text_index_view in(detail::kept<const std::uint64_t> file BITM_LIFETIMEBOUND)
    {
        return try_in(file).value();
    }

private:
    friend class text_index;
    friend class detail::text_calls<text_index_view>;
    explicit text_index_view(const detail::in_block<detail::text_kind> &found) noexcept : own_(found) {}

    detail::in_block<detail::text_kind> own_;
};

// The index of a text that owns its block: of a text, or loaded or mapped from a file that save() or `bitm text build`
// wrote.
class BITM_OWNER text_index : public detail::text_calls<text_index>,
                              public detail::stored_calls<text_index, detail::text_kind> {
public:
    // Of no letters; of bytes; of numbers below `letters`, the size of the alphabet: a word is kept for each letter. A
    // position is kept each `step` letters: a larger step takes less memory, and more time to find a position or a
    // part. Takes linear time, and eight bytes for each letter while it works. Fails where the step is 0, the text has
    // 2^32 - 1 letters or more, or a number is not below `letters`: with its index and item_fault::not_below.
    text_index() noexcept = default;
    explicit text_index(std::string_view text, std::uint32_t step = 32) : text_index(try_of(text, step).value()) {}
    static result<text_index> try_of(std::string_view text, std::uint32_t step = 32)
    {
        return built(detail::bytes_in{text}, step, detail::at_once{});
    }
    static text_index of_letters(words_in numbers, std::uint32_t letters, std::uint32_t step = 32)
    {
        return try_of_letters(numbers, letters, step).value();
    }
    static result<text_index> try_of_letters(words_in numbers, std::uint32_t letters, std::uint32_t step = 32)
    {
        return built(detail::letters_in{numbers, letters}, step, detail::at_once{});
    }

    // The same index, built in two steps: `progress` is called with 1 and 2 once the text's suffixes are sorted, and
    // with 2 and 2 at the end. An exception from it ends the build. The text must not change meanwhile.
    template <class Progress, detail::if_progress<Progress> = 0>
    text_index(std::string_view text, std::uint32_t step, Progress &&progress)
        : text_index(try_of(text, step, progress).value())
    {
    }
    template <class Progress, detail::if_progress<Progress> = 0>
    static result<text_index> try_of(std::string_view text, std::uint32_t step, Progress &&progress)
    {
        return built(detail::bytes_in{text}, step, detail::in_two_steps<Progress>{progress});
    }
    template <class Progress, detail::if_progress<Progress> = 0>
    static text_index of_letters(words_in numbers, std::uint32_t letters, std::uint32_t step, Progress &&progress)
    {
        return try_of_letters(numbers, letters, step, progress).value();
    }
    template <class Progress, detail::if_progress<Progress> = 0> static result<text_index>
    try_of_letters(words_in numbers, std::uint32_t letters, std::uint32_t step, Progress &&progress)
    {
        return built(detail::letters_in{numbers, letters}, step, detail::in_two_steps<Progress>{progress});
    }

    // A view, which the owner has to outlive; the block, and all of it as C takes it. Deleted for temporaries.
    text_index_view view() const &noexcept BITM_LIFETIMEBOUND { return text_index_view(own_.found()); }
    words_in block() const &noexcept BITM_LIFETIMEBOUND { return own_.words(); }
    const bitm_text &raw() const &noexcept BITM_LIFETIMEBOUND { return own_.raw(); }
    void view() const && = delete;
    void block() const && = delete;
    void raw() const && = delete;

private:
    friend class detail::text_calls<text_index>;

    template <class Text, class Way> static result<text_index> built(const Text &text, std::uint32_t step, Way &&way)
    {
        std::uint64_t len = 0, needed = 0;
        if (text.sizes(step, &len, &needed) != BITM_OK)
            return detail::bad_size("the step is 0, or the text has 2^32 - 1 letters or more");
        const detail::block scratch(needed / 2 + 1);
        detail::block all(len);
        const detail::halves room(reinterpret_cast<std::uint32_t *>(scratch.data()), needed);
        const std::uint32_t status = way(text, step, room, words_out(all.data(), all.size()));
        if (status == BITM_WRONG) return text.unfit();
        if (status != BITM_OK) return detail::error_of(status);
        return opened(std::move(all), verify::no);
    }
};

BITM_NAMESPACE_END

#endif
