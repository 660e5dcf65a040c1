// Sections of one's own in a block of any kind, after the sections of its kind: notes, samples and the like.
//
//     const bitm::tree of_four{2, 0, 1, 0};
//     const std::uint64_t note[1] = {0x7365646f6e2034};                        // "4 nodes", seven bytes
//     std::vector<std::uint64_t> noted(bitm::extended_size(of_four.block(), bitm::own_role, 7));
//     bitm::extend(of_four.block(), bitm::own_role, 7, {note, 1}, noted);
//     const bitm::tree_view still = bitm::tree_view::in(noted);                // the tree of before
//     const bitm::section its = bitm::section_at(noted, 4).value();
//     std::cout << still.size() << ' ' << its.count << ' ' << (its.words[0] == note[0]) << '\n'; // 4 7 1
//     noted.back() = 1;                                                        // no longer as it was written
//     std::cout << bitm::is_written(of_four.block()) << ' ' << bitm::is_written(noted) << '\n';  // 1 0
//
// docs/FORMAT.md says which roles the kinds have. Those from own_role on are yours, and their items are bytes.
#ifndef BITM_SECTIONS_HPP
#define BITM_SECTIONS_HPP

#include <bitm/memory.hpp>

BITM_NAMESPACE_BEGIN

// The first role that no kind has.
inline constexpr std::uint64_t own_role = 65536;

// A section of a block.
struct section {
    // What its items are.
    std::uint64_t role = 0;
    // How many items it has.
    std::uint64_t count = 0;
    // The words that hold them, in the block.
    words_in words;
};

namespace detail {

// Words that are no block, or not as they were written.
inline failure section_error(std::uint32_t status, const char *which) noexcept
{
    return status == BITM_WRONG ? failure{errc::wrong_file} : error_of(status, 0, 0, which);
}

// A block with one section more.
inline result<block> with_section(const block &of, std::uint64_t role, std::uint64_t count, words_in words)
{
    std::uint64_t len = 0;
    std::uint32_t status = bitm_block_extended_size(of.data(), of.size(), role, count, &len);
    if (status != BITM_OK) return error_of(status);
    block all(len);
    status = bitm_block_extend(of.data(), of.size(), role, count, words.data(), words.size(), all.data(), all.size());
    if (status != BITM_OK) return error_of(status);
    return all;
}

} // namespace detail

// How many words a block takes with one section more, of `count` items of a role. Fails where the words are no block,
// or the new one would be too large.
inline result<std::size_t> try_extended_size(words_in block, std::uint64_t role, std::uint64_t count) noexcept
{
    std::uint64_t words = 0;
    const std::uint32_t status = bitm_block_extended_size(block.data(), block.size(), role, count, &words);
    if (status != BITM_OK) return detail::section_error(status, "there are 16 sections, or too many items");
    return static_cast<std::size_t>(words);
}
inline std::size_t extended_size(words_in block, std::uint64_t role, std::uint64_t count)
{
    return try_extended_size(block, role, count).value();
}

// Writes to `to` a copy of the block with one section more, which has these words. Fails where a section of the block
// is not as it was written, there are more or fewer words than the items take, or `to` is not of extended_size words.
inline void extend(words_in block, std::uint64_t role, std::uint64_t count, words_in words, words_out to)
{
    detail::need_apart(block, to), detail::need_apart(words, to);
    const std::uint32_t status =
        bitm_block_extend(block.data(), block.size(), role, count, words.data(), words.size(), to.data(), to.size());
    if (BITM_RARELY(status != BITM_OK)) fail(detail::section_error(status, "of the words, or of the block"));
}

// Section i of a block, counted from 0; none where it has no more. Fails where the words are no block. What the words
// of the section hold is not looked at. A temporary container does not convert: its words would end with the line.
inline result<std::optional<section>> try_section_at(detail::kept<const std::uint64_t> block BITM_LIFETIMEBOUND,
                                                     std::size_t i) noexcept
{
    bitm_section raw{};
    const std::uint32_t status = bitm_block_section(block.data(), block.size(), i, &raw);
    if (status == BITM_NONE) return std::optional<section>();
    if (status != BITM_OK) return detail::section_error(status, nullptr);
    return std::optional<section>(section{raw.role, raw.count, {raw.words, raw.words_len}});
}
inline std::optional<section> section_at(detail::kept<const std::uint64_t> block BITM_LIFETIMEBOUND, std::size_t i)
{
    return try_section_at(block, i).value();
}

// Whether a block of any kind is as it was written: one pass over its words.
inline bool is_written(words_in block) noexcept { return bitm_block_check(block.data(), block.size()) == BITM_OK; }

BITM_NAMESPACE_END

#endif
