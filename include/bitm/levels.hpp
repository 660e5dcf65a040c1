// The levels of perfect hashes: how they are built, all at once or one by one, and which hashes are equal where they
// cannot be. Part of the other headers.
//
//     const std::vector<std::uint64_t> hashes{0x243f6a8885a308d3, 0x13198a2e03707344, 0xa4093822299f31d0};
//     std::uint64_t done = 0, total = 0;                               // how many keys have a number, of how many
//     const auto progress = [&](std::uint64_t have, std::uint64_t all) { done = have, total = all; };
//     const bitm::perfect_hash numbers(hashes, 100, progress);         // calls it after each level
//     std::cout << done << ' ' << total << ' ' << numbers.size() << '\n'; // 3 3 3
//     const std::vector<std::uint64_t> twice{7, 9, 7};
//     const bitm::failure why = bitm::perfect_hash::try_of(twice).error();
//     std::cout << why.at << ' ' << why.of << '\n';                    // 0 2
#ifndef BITM_LEVELS_HPP
#define BITM_LEVELS_HPP

#include <bitm/memory.hpp>

#include <algorithm>

BITM_NAMESPACE_BEGIN

namespace detail {

constexpr std::size_t hash_levels = 256;

// How levels are built: `percent` bits for 100 hashes, and where words have seeds, of how many the best is taken.
struct level_way {
    unsigned percent;
    bool has_seeds;
    std::uint16_t tries;
};

// The words, the seeds of the words, or none, and the sizes of some levels.
struct levels_in {
    words_in words;
    span<const std::uint8_t> seeds;
    words_in sizes;
};

// The block of some levels, with seeds where these have some.
inline result<block> hash_block(const levels_in &of, std::uint64_t seed)
{
    const bool has_seeds = of.seeds.data() != nullptr;
    std::uint64_t len = 0;
    const std::uint32_t sized = has_seeds ? bitm_hash_block_size_seeded(of.words.size(), of.sizes.size(), &len)
                                          : bitm_hash_block_size(of.words.size(), of.sizes.size(), &len);
    if (sized != BITM_OK) return bad_size("2^58 words or more");
    block all(len);
    const std::uint32_t status =
        has_seeds ? bitm_hash_block_build_seeded(of.words.data(), of.words.size(), of.seeds.data(), of.seeds.size(),
                                                 of.sizes.data(), of.sizes.size(), seed, all.data(), all.size())
                  : bitm_hash_block_build(of.words.data(), of.words.size(), of.sizes.data(), of.sizes.size(), seed,
                                          all.data(), all.size());
    if (status != BITM_OK) return error_of(status);
    return all;
}

// Memory for the levels of some hashes, how many levels and words of it are used, and how many hashes have no number.
class level_room {
public:
    level_room(words_in hashes, const level_way &how, std::size_t room)
        : how_(how), own_(hashes.size()), words_(room), again_(first_of(hashes, how)),
          sorted_(how.has_seeds ? hashes.size() : 0), seeds_(how.has_seeds ? room / 8 + 1 : 0), sizes_(hash_levels),
          left_(hashes.size())
    {
        if (hashes.size()) std::memcpy(own_.data(), hashes.data(), 8 * hashes.size());
    }
    // The words of the first level: no other level has more.
    static std::size_t first_of(words_in hashes, const level_way &how) noexcept
    {
        return bitm_hash_level_len(hashes.size(), how.percent);
    }

    // All levels, as far as there is room.
    std::uint32_t build() noexcept
    {
        if (!how_.has_seeds)
            return bitm_hash_build(own_.data(), own_.size(), how_.percent, words_.data(), words_.size(), again_.data(),
                                   again_.size(), sizes_.data(), sizes_.size(), &levels_, &used_, &left_);
        return bitm_hash_build_seeded(own_.data(), own_.size(), how_.percent, how_.tries, words_.data(), words_.size(),
                                      seeds_of(seeds_), words_.size(), again_.data(), again_.size(), sorted_.data(),
                                      sorted_.size(), sizes_.data(), sizes_.size(), &levels_, &used_, &left_);
    }
    // One level more, for which room is made.
    std::uint32_t add()
    {
        const std::size_t len = bitm_hash_level_len(left_, how_.percent), used = static_cast<std::size_t>(used_);
        if (len > words_.size() - used) grow(2 * words_.size() + len);
        const auto level = static_cast<std::uint32_t>(levels_);
        std::uint64_t *const words = words_.data() + used;
        const std::uint32_t status =
            how_.has_seeds
                ? bitm_hash_level_seeded(own_.data(), left_, level, how_.tries, words, len, seeds_of(seeds_) + used,
                                         len, again_.data(), len, sorted_.data(), sorted_.size(), &left_)
                : bitm_hash_level(own_.data(), left_, level, words, len, again_.data(), len, &left_);
        sizes_.data()[levels_++] = len, used_ += len;
        return status;
    }

    std::uint64_t left() const noexcept { return left_; }
    bool is_full() const noexcept { return levels_ == hash_levels; }
    levels_in built() const noexcept
    {
        return {{words_.data(), static_cast<std::size_t>(used_)},
                {seeds_of(seeds_), seeds_.size() ? static_cast<std::size_t>(used_) : 0},
                {sizes_.data(), static_cast<std::size_t>(levels_)}};
    }
    // The first two equal ones of these hashes: equal hashes have no number.
    failure equal_of(words_in hashes) noexcept
    {
        std::uint64_t *const first = own_.data(), *const last = first + left_;
        std::sort(first, last);
        for (std::size_t i = 0; i < hashes.size(); i++) {
            const auto same = std::equal_range(first, last, hashes.data()[i]);
            if (same.second - same.first < 2) continue;
            for (std::size_t j = i + 1; j < hashes.size(); j++)
                if (hashes.data()[j] == hashes.data()[i])
                    return {errc::equal_keys, i, j, "hashes", 0, 0, item_fault::equal};
        }
        return {errc::equal_keys, left_, hashes.size()};
    }

private:
    static std::uint8_t *seeds_of(const block &all) noexcept { return reinterpret_cast<std::uint8_t *>(all.data()); }
    void grow(std::size_t room)
    {
        block words(room), seeds(how_.has_seeds ? room / 8 + 1 : 0);
        std::memcpy(words.data(), words_.data(), 8 * words_.size());
        if (how_.has_seeds) std::memcpy(seeds.data(), seeds_.data(), 8 * seeds_.size());
        words_.swap(words), seeds_.swap(seeds);
    }

    level_way how_;
    block own_, words_, again_, sorted_, seeds_, sizes_;
    std::uint64_t levels_ = 0, used_ = 0, left_;
};

// What is made of the levels of some hashes: fails where two of these are equal. The levels have about
// e^(100 / percent) * percent / 100 bits for each key: more room where that is not enough.
template <class Made, class Make> result<Made> by_levels(words_in hashes, const level_way &how, Make &&make)
{
    const std::size_t first = level_room::first_of(hashes, how);
    for (std::size_t room = 4 * first + hash_levels;; room = 2 * room) {
        level_room levels(hashes, how, room);
        const std::uint32_t status = levels.build();
        if (status == BITM_OK && levels.left() == 0) return make(levels.built());
        if (levels.is_full() || room > 64 * first + 64 * hash_levels)
            return status == BITM_OK ? levels.equal_of(hashes) : error_of(status);
    }
}

// The same, level by level: after each one `progress` gets how many hashes have a number, and how many there are.
template <class Made, class Make, class Progress>
result<Made> by_levels(words_in hashes, const level_way &how, Make &&make, Progress &&progress)
{
    level_room levels(hashes, how, 4 * level_room::first_of(hashes, how) + hash_levels);
    for (;;) {
        const std::uint32_t status = levels.left() > 0 ? levels.add() : std::uint32_t{BITM_OK};
        if (status != BITM_OK) return error_of(status);
        progress(hashes.size() - levels.left(), std::uint64_t{hashes.size()});
        if (levels.left() == 0) return make(levels.built());
        if (levels.is_full()) return levels.equal_of(hashes);
    }
}

// What is wrong with items whose hashes are equal: the items are not, where `same` says so of two of them.
template <class Same> failure of_items(failure why, const char *called, Same &&same)
{
    if (why.item != item_fault::equal) return why;
    why.which = called;
    if (!same(why.at, why.of)) why.item = item_fault::one_hash;
    return why;
}

} // namespace detail

BITM_NAMESPACE_END

#endif
