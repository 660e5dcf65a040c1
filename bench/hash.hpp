// A perfect hash in memory of its own, with seeds or without, for the programs that time what stands on one.
#ifndef HASH_HPP
#define HASH_HPP

#include "turns.hpp"

using Numbers = std::vector<uint64_t>;

// A perfect hash of hashes of keys, with its index. With `tries` above 0 each word of its levels has a seed, the best of
// that number.
struct Hash {
    Numbers words, sizes, upper, lower;
    std::vector<uint8_t> seeds;
    bitm_hash hash{};

    explicit Hash(Numbers hashes, uint16_t tries = 0) : words(hashes.size() / 8 + 4096), sizes(256)
    {
        uint64_t levels = 0, used_words = 0, ones = 0;
        const uint64_t left =
            tries ? built_with_seeds(hashes, tries, levels, used_words) : built(hashes, levels, used_words);
        if (left > 0) fail("two keys have one hash");
        upper.resize(bitm_index_upper_len(used_words));
        lower.resize(bitm_index_lower_len(used_words));
        have(bitm_index_build(words.data(), used_words, upper.data(), upper.size(), lower.data(), lower.size(), &ones),
             "bitm_index_build");
        hash.index.words = words.data(), hash.index.words_len = used_words, hash.index.bits_len = 64 * used_words;
        hash.index.upper = upper.data(), hash.index.upper_len = upper.size();
        hash.index.lower = lower.data(), hash.index.lower_len = lower.size();
        hash.sizes = sizes.data(), hash.sizes_len = levels, hash.keys = hashes.size();
    }
    Hash(const Hash &) = delete;
    Hash &operator=(const Hash &) = delete;

    bitm_seeded_hash seeded() const { return {hash, seeds.data(), seeds.size()}; }

private:
    // Each builds the levels, and returns how many hashes are left over.
    uint64_t built(Numbers &hashes, uint64_t &levels, uint64_t &used_words)
    {
        Numbers again(words.size());
        uint64_t left = 0;
        have(bitm_hash_build(hashes.data(), hashes.size(), 100, words.data(), words.size(), again.data(), again.size(),
                             sizes.data(), sizes.size(), &levels, &used_words, &left),
             "bitm_hash_build");
        return left;
    }

    uint64_t built_with_seeds(Numbers &hashes, uint16_t tries, uint64_t &levels, uint64_t &used_words)
    {
        Numbers again(words.size()), sorted(hashes.size());
        uint64_t left = 0;
        seeds.resize(words.size());
        have(bitm_hash_build_seeded(hashes.data(), hashes.size(), 100, tries, words.data(), words.size(), seeds.data(),
                                    seeds.size(), again.data(), again.size(), sorted.data(), sorted.size(), sizes.data(),
                                    sizes.size(), &levels, &used_words, &left),
             "bitm_hash_build_seeded");
        seeds.resize(used_words);
        return left;
    }
};

#endif
