// Times minimal perfect hashes of the C library beside those of cmph, over 2^LOG2 keys of 64 bits: cmph LOG2 ROUNDS.
//
// Each hash has to number the keys from 0, no two alike; then all take turns over the same queries. cmph hashes the bytes
// of a key, while here a key, a random number, is its own hash.
#include "hash.hpp"

#include <cmph.h>
#include <memory>

constexpr size_t QUERIES = 1 << 16, LIST = 4096;
constexpr uint16_t TRIES = 64;
uint64_t state = 88172645463325252;
volatile uint64_t sink; // so that no query is left out

// A hash of cmph, in the packed form that it stores.
struct Packed {
    std::vector<char> bytes;

    uint64_t build(Numbers &keys, CMPH_ALGO algorithm)
    {
        cmph_io_adapter_t *source =
            cmph_io_struct_vector_adapter(keys.data(), sizeof keys[0], 0, sizeof keys[0], uint32_t(keys.size()));
        cmph_config_t *config = cmph_config_new(source);
        cmph_config_set_algo(config, algorithm);
        cmph_t *hash = cmph_new(config);
        cmph_config_destroy(config);
        cmph_io_struct_vector_adapter_destroy(source);
        if (!hash) fail("cmph refuses the keys");
        bytes.resize(cmph_packed_size(hash));
        cmph_pack(hash, bytes.data());
        cmph_destroy(hash);
        return keys.size();
    }

    uint64_t operator()(uint64_t key)
    {
        return cmph_search_packed(bytes.data(), reinterpret_cast<const char *>(&key), sizeof key);
    }
};

// Fails unless a hash numbers the keys from 0, no two alike.
template <class Get> void has_numbered(const Numbers &keys, Get &get)
{
    std::vector<bool> seen(keys.size());
    for (uint64_t it : keys) {
        const uint64_t at = get(it);
        if (at >= seen.size() || seen[at]) fail("a hash has no number for a key, or that of another");
        seen[at] = true;
    }
}

// The queries one by one, once the hash was seen to be right.
template <class Get> Form one_by_one(const char *by, const Numbers &keys, const Numbers &asked, Get &get)
{
    has_numbered(keys, get);
    return {"get", by, [&] {
                uint64_t sum = 0;
                for (uint64_t it : asked) sum += get(it);
                sink = sum;
                return uint64_t(asked.size());
            }};
}

// The queries in lists, by a call that fills such a list.
template <class Fill> Form in_lists(const char *by, const Numbers &asked, Numbers &answers, Fill &fill)
{
    return {"get", by, [&] {
                bitm_list_counts counts{};
                for (size_t from = 0; from < QUERIES; from += LIST) {
                    have(fill(&asked[from], answers.data(), &counts), "a list of queries");
                    if (counts.missing || counts.wrong) fail("a list has no number for a key");
                }
                return uint64_t(asked.size());
            }};
}

// Bits a key of the block of a hash.
void space(const Turns &turns, const char *by, const Hash &of, uint32_t (*size)(size_t, size_t, uint64_t *))
{
    uint64_t words = 0;
    have(size(of.hash.index.words_len, of.hash.sizes_len, &words), "the size of a block");
    turns.space("space_a_key", by, words * 8.0, of.hash.keys);
}

// What is compared.
struct Hashes {
    std::unique_ptr<Hash> plain, tried;
    Packed chd, bdz;
};

void build(const Turns &turns, Numbers &keys, Hashes &of)
{
    const size_t count = keys.size();
    turns.take(1, count, false,
               {{"build_a_key", "C", [&] { return of.plain.reset(new Hash(keys)), count; }},
                {"build_a_key", "C with seeds", [&] { return of.tried.reset(new Hash(keys, TRIES)), count; }},
                {"build_a_key", "cmph CHD", [&] { return of.chd.build(keys, CMPH_CHD); }},
                {"build_a_key", "cmph BDZ", [&] { return of.bdz.build(keys, CMPH_BDZ); }}});
    space(turns, "C", *of.plain, bitm_hash_block_size);
    space(turns, "C with seeds", *of.tried, bitm_hash_block_size_seeded);
    turns.space("space_a_key", "cmph CHD", of.chd.bytes.size(), count);
    turns.space("space_a_key", "cmph BDZ", of.bdz.bytes.size(), count);
}

void query(const Turns &turns, const Numbers &keys, const Numbers &asked, Hashes &of)
{
    const bitm_hash &plain = of.plain->hash;
    const bitm_seeded_hash seeded = of.tried->seeded();
    Numbers answers(LIST);
    uint64_t at = 0;
    auto get = [&](uint64_t it) { return bitm_hash_get(&plain, it, &at) ? UINT64_MAX : at; };
    auto get_seeded = [&](uint64_t it) { return bitm_hash_get_seeded(&seeded, it, &at) ? UINT64_MAX : at; };
    auto list = [&](const uint64_t *from, uint64_t *to, bitm_list_counts *counts) {
        return bitm_hash_get_list(&plain, from, LIST, to, LIST, counts);
    };
    auto list_seeded = [&](const uint64_t *from, uint64_t *to, bitm_list_counts *counts) {
        return bitm_hash_get_list_seeded(&seeded, from, LIST, to, LIST, counts);
    };
    turns.take(turns.rounds, QUERIES, true,
               {one_by_one("C", keys, asked, get), one_by_one("C with seeds", keys, asked, get_seeded),
                in_lists("C list", asked, answers, list), in_lists("C with seeds list", asked, answers, list_seeded),
                one_by_one("cmph CHD", keys, asked, of.chd), one_by_one("cmph BDZ", keys, asked, of.bdz)});
}

int main(int argc, char **argv)
{
    const Turns turns{"hash", argc == 3 ? std::atoi(argv[1]) : 0, argc == 3 ? std::atoi(argv[2]) : 0};
    if (turns.log2 < 10 || turns.log2 > 25 || turns.rounds < 1) {
        std::fprintf(stderr, "cmph LOG2 ROUNDS, LOG2 from 10 to 25\n");
        return 2;
    }
    Numbers keys(uint64_t(1) << turns.log2), asked(QUERIES);
    for (auto &it : keys) it = draw(&state);
    for (auto &it : asked) it = keys[draw(&state) % keys.size()];
    Hashes of;
    build(turns, keys, of);
    query(turns, keys, asked, of);
}
