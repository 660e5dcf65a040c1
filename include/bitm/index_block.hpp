// The block of an index, and the samples that may stand in it: how both are written and found. Part of bitm/index.hpp.
//
//     const bitm::rank_index x(bitm::bits("0101101"), {12, 0});        // samples of 1 bits: one for each 2^12 of them
//     const bitm::section samples = bitm::section_at(x.block(), 3).value();
//     std::cout << samples.role << ' ' << samples.count << '\n';       // 7 1
#ifndef BITM_INDEX_BLOCK_HPP
#define BITM_INDEX_BLOCK_HPP

#include <bitm/file.hpp>
#include <bitm/sections.hpp>

BITM_NAMESPACE_BEGIN

// The log2 of the samples of 1 bits and of 0 bits, 7 to 31, by which selection is faster; 0 for none.
struct sampling {
    // Of the samples of 1 bits.
    std::uint32_t ones = 0;
    // Of the samples of 0 bits.
    std::uint32_t zeros = 0;
};

namespace detail {

// The samples of a kind are a section of the block after its own three, and the next section has their log2, and how
// many of them there are before each upper block, as words; its count is in bytes.
struct samples_roles {
    std::uint64_t samples, starts;
};
constexpr samples_roles ones_roles{7, 0x316174736D746962}, zeros_roles{8, 0x306174736D746962}; // "bitmsta1", "bitmsta0"
constexpr std::size_t index_sections = 3;

constexpr bool is_log2(std::uint64_t log2) noexcept { return log2 >= 7 && log2 <= 31; }

// The samples of a kind that a block has for an index, or none.
inline bitm_samples samples_in(words_in block, const bitm_index &of, samples_roles roles) noexcept
{
    bitm_section samples{}, starts{};
    const auto at = [&](std::size_t i, bitm_section &it) {
        return bitm_block_section(block.data(), block.size(), i, &it) == BITM_OK;
    };
    for (std::size_t i = index_sections; at(i, samples) && at(i + 1, starts); i++) {
        if (samples.role != roles.samples || starts.role != roles.starts) continue;
        if (starts.count != 8 * (1 + static_cast<std::uint64_t>(of.upper_len)) || !is_log2(starts.words[0])) continue;
        return {reinterpret_cast<const std::uint32_t *>(samples.words),
                static_cast<std::size_t>(samples.count),
                starts.words + 1,
                of.upper_len,
                static_cast<std::uint32_t>(starts.words[0]),
                0};
    }
    return {};
}

// A block of an index with samples of a kind.
inline result<block> with_samples(const block &of, bool one, std::uint32_t log2)
{
    bitm_index index{};
    std::uint32_t status = bitm_index_block_open(of.data(), of.size(), &index);
    if (status != BITM_OK) return error_of(status);
    const std::size_t most = bitm_index_samples_len(index.words_len, log2);
    const block samples(most / 2 + most % 2), starts(1 + index.upper_len);
    starts.data()[0] = log2;
    std::uint64_t used = 0;
    status = bitm_index_build_samples(&index, one, log2, reinterpret_cast<std::uint32_t *>(samples.data()), most,
                                      starts.data() + 1, index.upper_len, &used);
    if (status != BITM_OK) return error_of(status);
    const samples_roles roles = one ? ones_roles : zeros_roles;
    const words_in of_samples(samples.data(), static_cast<std::size_t>(used / 2 + used % 2));
    const result<block> first = with_section(of, roles.samples, used, of_samples);
    if (!first) return first.error();
    return with_section(*first, roles.starts, 8 * starts.size(), {starts.data(), starts.size()});
}

// The block of the first `size` bits of words, with samples. Each kind of samples copies the block twice.
inline result<block> index_block(words_in words, std::uint64_t size, sampling how)
{
    if (how.ones != 0 && !is_log2(how.ones)) return bad_size("sampling::ones is neither 0 nor 7 to 31");
    if (how.zeros != 0 && !is_log2(how.zeros)) return bad_size("sampling::zeros is neither 0 nor 7 to 31");
    std::uint64_t len = 0;
    if (bitm_index_block_size(size, &len) != BITM_OK) return bad_size("size is above 2^64 - 64");
    block all(len);
    const std::uint32_t status = bitm_index_block_build(words.data(), words.size(), size, all.data(), all.size());
    if (status != BITM_OK) return error_of(status, 0, 0, "the words have fewer than size bits");
    for (const bool one : {true, false}) {
        const std::uint32_t log2 = one ? how.ones : how.zeros;
        if (log2 == 0) continue;
        result<block> sampled = with_samples(all, one, log2);
        if (!sampled) return sampled.error();
        all.swap(*sampled);
    }
    return all;
}

// The block of an index, or its file of version 2.
struct index_kind : stored_kind<index_kind, bitm_index, bitm_index_block_open> {
    static constexpr kind number = kind::index;
    static constexpr std::size_t nothing_len = 32;
    static std::uint32_t build_nothing(std::uint64_t *to) noexcept
    {
        return bitm_index_block_build(nullptr, 0, 0, to, nothing_len);
    }
    static bitm_index of(const std::uint64_t *file, const bitm_stored &header) noexcept
    {
        return bitm_stored_index_of(file, &header);
    }
    static result<in_block<index_kind>> in(const std::uint64_t *file, std::size_t words) noexcept
    {
        const result<in_block<index_kind>> found = stored_kind::in(file, words);
        if (!found || !is_block(found->words())) return found;
        bitm_index raw = found->raw();
        raw.ones = samples_in(found->words(), raw, ones_roles);
        raw.zeros = samples_in(found->words(), raw, zeros_roles);
        return in_block<index_kind>(raw, found->words());
    }
    static result<block> renewed(const in_block<index_kind> &old)
    {
        const bitm_index &raw = old.raw();
        return index_block({raw.words, raw.words_len}, raw.bits_len, {raw.ones.log2, raw.zeros.log2});
    }
    // Whether a block is as it was written; of an index that is in none, whether tables and samples match the
    // words.
    static bool check(const in_block<index_kind> &of) noexcept
    {
        if (is_block(of.words())) return checked(bitm_index_block_check, of.words());
        const bitm_index &raw = of.raw();
        return bitm_index_check(&raw) == BITM_OK &&
               (!raw.ones.log2 || bitm_index_check_samples(&raw, true) == BITM_OK) &&
               (!raw.zeros.log2 || bitm_index_check_samples(&raw, false) == BITM_OK);
    }
};

} // namespace detail

BITM_NAMESPACE_END

#endif
