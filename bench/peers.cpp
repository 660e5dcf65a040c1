// Times structures of the C library beside what a program would take in their place: peers WHAT ARGUMENT ROUNDS.
//
//     words FILE   a trie and strings of the lines of a file, beside marisa-trie and std::unordered_map
//     keys LOG2    a dictionary of 2^LOG2 numbers of 64 bits, beside std::unordered_map
//     lists LOG2   the union and the intersection of two sequences of 2^LOG2 numbers, of 2^LOG2 and of 16 times fewer,
//                  beside the same of two arrays by std:: and beside CRoaring
//
// The forms of a call take turns, as those of structures.cpp, and the program fails where they differ in their answers.
// A row of lists is the time for each number of both lists. Rows of words have the greatest LOG2 of which a file has
// lines.
#include "hash.hpp"

#include <fstream>
#include <iterator>
#include <marisa.h>
#include <roaring/roaring.h>
#include <unordered_map>

constexpr size_t QUERIES = 1 << 16, LIST = 4096;
uint64_t state = 88172645463325252;

// Words one after another, and where each ends.
struct Joined {
    std::string bytes;
    Numbers ends;
    explicit Joined(const std::vector<std::string> &words)
    {
        for (auto &it : words) {
            bytes += it;
            ends.push_back(bytes.size());
        }
    }
    const uint8_t *data() const { return reinterpret_cast<const uint8_t *>(bytes.data()); }
};

// The different lines of a file, sorted.
std::vector<std::string> lines_of(const char *path)
{
    std::ifstream file(path);
    std::vector<std::string> lines;
    for (std::string line; std::getline(file, line);) lines.push_back(line);
    std::sort(lines.begin(), lines.end());
    lines.erase(std::unique(lines.begin(), lines.end()), lines.end());
    return lines;
}

// The block of the trie of sorted words.
uint64_t built_trie(const Joined &joined, Block &block, uint64_t nodes, bitm_trie *trie)
{
    Numbers starts(joined.ends), scratch(3 * nodes - 2 + (nodes + 63) / 64);
    starts.insert(starts.begin(), 0);
    have(bitm_trie_build_words(joined.data(), joined.bytes.size(), starts.data(), starts.size(), scratch.data(),
                               scratch.size(), block.words, block.len),
         "bitm_trie_build_words");
    have(bitm_trie_open(block.words, block.len, trie), "bitm_trie_open");
    return starts.size() - 1;
}

uint64_t nodes_of(const Joined &joined)
{
    Numbers starts(joined.ends);
    uint64_t nodes = 0;
    starts.insert(starts.begin(), 0);
    have(bitm_trie_nodes_of_words(joined.data(), joined.bytes.size(), starts.data(), starts.size(), &nodes),
         "bitm_trie_nodes_of_words");
    return nodes;
}

uint64_t words_of_trie(uint64_t nodes)
{
    uint64_t words = 0;
    have(bitm_trie_size(nodes, 8, true, &words), "bitm_trie_size");
    return words;
}

constexpr uint64_t SEED = 7;

// The block of strings in any order.
struct Strings {
    Numbers block;
    bitm_strings strings{};
    uint64_t build(const Joined &joined)
    {
        const size_t count = joined.ends.size(), bytes = joined.bytes.size();
        Numbers hashes(count);
        have(bitm_strings_hashes(joined.data(), bytes, joined.ends.data(), count, SEED, hashes.data(), count),
             "bitm_strings_hashes");
        const Hash hash(hashes);
        uint64_t words = 0;
        have(bitm_strings_size(hash.hash.index.words_len, hash.hash.sizes_len, count, bytes, &words),
             "bitm_strings_size");
        block.assign(words, 0);
        have(bitm_strings_build(&hash.hash, SEED, joined.data(), bytes, joined.ends.data(), count, block.data(), words),
             "bitm_strings_build");
        have(bitm_strings_open(block.data(), words, &strings), "bitm_strings_open");
        return count;
    }
};

// Rows of a trie and of strings of words.
void words(const Turns &turns, const char *path)
{
    const std::vector<std::string> all = lines_of(path);
    if (all.empty()) fail("there are no words");
    const Joined joined(all);
    const uint64_t count = all.size(), nodes = nodes_of(joined);
    Block block(words_of_trie(nodes));
    bitm_trie trie{};
    Strings strings;
    marisa::Trie peer;
    std::unordered_map<std::string, uint64_t> map;
    turns.take(1, count, false,
               {
                   {"build", "C trie", [&] { return built_trie(joined, block, nodes, &trie); }},
                   {"build", "C strings", [&] { return strings.build(joined); }},
                   {"build", "marisa",
                    [&] {
                        marisa::Keyset keys;
                        for (auto &it : all) keys.push_back(it.data(), it.size());
                        peer.build(keys);
                        return uint64_t(peer.size());
                    }},
                   {"build", "unordered_map",
                    [&] {
                        map.reserve(count);
                        for (auto &it : all) map.emplace(it, map.size());
                        return uint64_t(map.size());
                    }},
               });
    turns.space("space", "C trie", block.len * 8.0, count);
    turns.space("space", "C strings", strings.block.size() * 8.0, count);
    turns.space("space", "marisa", peer.io_size(), count);

    std::vector<std::string> asked(QUERIES), missing(QUERIES);
    for (size_t i = 0; i < QUERIES; i++) {
        missing[i] = asked[i] = all[draw(&state) % count];
        missing[i][missing[i].size() / 2] ^= 1;
    }
    marisa::Agent agent;
    uint64_t node = 0, end = 0, number = 0;
    auto bytes = [](const std::string &it) { return reinterpret_cast<const uint8_t *>(it.data()); };
    auto counted = [](const std::vector<std::string> &queries, std::function<uint64_t(const std::string &)> has) {
        uint64_t sum = 0;
        for (auto &it : queries) sum += has(it);
        return sum;
    };
    auto in_trie = [&](const std::string &it) -> uint64_t {
        return bitm_trie_find_bytes(&trie, bytes(it), it.size(), &node) == BITM_OK &&
               bitm_trie_is_end(&trie, node, &end) == BITM_OK && end;
    };
    auto in_strings = [&](const std::string &it) -> uint64_t {
        return bitm_strings_find(&strings.strings, bytes(it), it.size(), &number) == BITM_OK;
    };
    auto in_peer = [&](const std::string &it) -> uint64_t {
        agent.set_query(it.data(), it.size());
        return peer.lookup(agent);
    };
    auto in_map = [&](const std::string &it) -> uint64_t { return map.count(it); };
    for (auto &row : {std::make_pair("find", &asked), std::make_pair("find_none", &missing)}) {
        const auto &queries = *row.second;
        turns.take(turns.rounds, QUERIES, true,
                   {
                       {row.first, "C trie", [&] { return counted(queries, in_trie); }},
                       {row.first, "C strings", [&] { return counted(queries, in_strings); }},
                       {row.first, "marisa", [&] { return counted(queries, in_peer); }},
                       {row.first, "unordered_map", [&] { return counted(queries, in_map); }},
                   });
    }
}

// Rows of a dictionary of numbers.
void keys(const Turns &turns)
{
    const uint64_t count = uint64_t(1) << turns.log2;
    Numbers all(count), block;
    for (auto &it : all) it = draw(&state);
    bitm_dictionary dictionary{};
    std::unordered_map<uint64_t, uint64_t> map;
    turns.take(1, count, false,
               {
                   {"build", "C",
                    [&] {
                        Numbers hashes(all), placed(count);
                        for (auto &it : hashes) it += SEED;
                        const Hash hash(hashes);
                        uint64_t at = 0, words = 0;
                        for (uint64_t it : all) {
                            have(bitm_hash_get(&hash.hash, it + SEED, &at), "bitm_hash_get");
                            placed[at] = it;
                        }
                        bitm_dictionary own{};
                        own.hash = hash.hash, own.keys = placed.data(), own.keys_len = count, own.seed = SEED;
                        have(bitm_dictionary_size(hash.hash.index.words_len, hash.hash.sizes_len, count, &words),
                             "bitm_dictionary_size");
                        block.assign(words, 0);
                        have(bitm_dictionary_build(&own, block.data(), words), "bitm_dictionary_build");
                        have(bitm_dictionary_open(block.data(), words, &dictionary), "bitm_dictionary_open");
                        return count;
                    }},
                   {"build", "unordered_map",
                    [&] {
                        map.reserve(count);
                        for (uint64_t it : all) map.emplace(it, map.size());
                        return uint64_t(map.size());
                    }},
               });
    turns.space("space", "C", block.size() * 8.0, count);
    Numbers asked(QUERIES), answers(LIST);
    for (auto &it : asked) it = all[draw(&state) % count];
    uint64_t number = 0;
    bitm_list_counts counts{};
    turns.take(turns.rounds, QUERIES, true,
               {
                   {"find", "C",
                    [&] {
                        uint64_t sum = 0;
                        for (uint64_t it : asked) sum += bitm_dictionary_find(&dictionary, it, &number) == BITM_OK;
                        return sum;
                    }},
                   {"find", "C list",
                    [&] {
                        uint64_t sum = QUERIES;
                        for (size_t from = 0; from < QUERIES; from += LIST) {
                            bitm_dictionary_find_list(&dictionary, &asked[from], LIST, answers.data(), LIST, &counts);
                            sum -= counts.missing;
                        }
                        return sum;
                    }},
                   {"find", "unordered_map",
                    [&] {
                        uint64_t sum = 0;
                        for (uint64_t it : asked) sum += map.count(it);
                        return sum;
                    }},
               });
}

// A sequence in a block of its own, and the same numbers for the peers.
struct List {
    std::vector<uint32_t> numbers;
    std::vector<uint64_t> block;
    bitm_sequence sequence{};
    roaring_bitmap_t *bitmap;

    List(uint64_t count, uint64_t limit) : numbers(count)
    {
        for (auto &it : numbers) it = uint32_t(draw(&state) % limit);
        std::sort(numbers.begin(), numbers.end());
        numbers.erase(std::unique(numbers.begin(), numbers.end()), numbers.end());
        const Numbers wide(numbers.begin(), numbers.end());
        uint64_t words = 0;
        have(bitm_sequence_block_size(wide.size(), wide.back(), &words), "bitm_sequence_block_size");
        block.assign(words, 0);
        have(bitm_sequence_block_build(wide.data(), wide.size(), block.data(), words), "bitm_sequence_block_build");
        have(bitm_sequence_block_open(block.data(), words, &sequence), "bitm_sequence_block_open");
        bitmap = roaring_bitmap_of_ptr(numbers.size(), numbers.data());
    }
    ~List() { roaring_bitmap_free(bitmap); }
    List(const List &) = delete;
    List &operator=(const List &) = delete;
};

using Merge = uint32_t (*)(struct bitm_cursor *, size_t, uint64_t, uint64_t *, size_t, uint64_t *);

// How many numbers a merge of C writes, of two sequences from their beginnings.
uint64_t merged(Merge merge, const List &one, const List &other, Numbers &out)
{
    bitm_cursor cursors[2] = {};
    uint64_t written = 0;
    cursors[0].sequence = one.sequence, cursors[1].sequence = other.sequence;
    for (auto &it : cursors) have(bitm_cursor_start(&it), "bitm_cursor_start");
    have(merge(cursors, 2, 0, out.data(), out.size(), &written), "a merge of cursors");
    return written;
}

uint64_t drained(roaring_bitmap_t *bitmap, std::vector<uint32_t> &out)
{
    const uint64_t count = roaring_bitmap_get_cardinality(bitmap);
    roaring_bitmap_to_uint32_array(bitmap, out.data());
    roaring_bitmap_free(bitmap);
    return count;
}

// Rows of the merges of a list of 2^LOG2 numbers below 2^(LOG2 + 6) with a list of 2^lesser.
void lists(const Turns &turns, int lesser)
{
    const uint64_t limit = uint64_t(64) << turns.log2;
    const List one(uint64_t(1) << lesser, limit), other(uint64_t(1) << turns.log2, limit);
    const std::vector<uint32_t> &a = one.numbers, &b = other.numbers;
    const uint64_t both = a.size() + b.size();
    Numbers out(both);
    std::vector<uint32_t> narrow(both);
    const std::string with = lesser == turns.log2 ? "" : "_of_few";
    turns.take(
        turns.rounds, both, true,
        {
            {"union" + with, "C", [&] { return merged(bitm_cursors_union, one, other, out); }},
            {"union" + with, "std",
             [&] {
                 return uint64_t(std::set_union(a.begin(), a.end(), b.begin(), b.end(), narrow.begin()) -
                                 narrow.begin());
             }},
            {"union" + with, "CRoaring", [&] { return drained(roaring_bitmap_or(one.bitmap, other.bitmap), narrow); }},
        });
    turns.take(turns.rounds, both, true,
               {
                   {"intersection" + with, "C", [&] { return merged(bitm_cursors_intersect, one, other, out); }},
                   {"intersection" + with, "std",
                    [&] {
                        return uint64_t(std::set_intersection(a.begin(), a.end(), b.begin(), b.end(), narrow.begin()) -
                                        narrow.begin());
                    }},
                   {"intersection" + with, "CRoaring",
                    [&] { return drained(roaring_bitmap_and(one.bitmap, other.bitmap), narrow); }},
               });
    if (with.empty()) {
        turns.space("space", "C", other.block.size() * 8.0, b.size());
        turns.space("space", "CRoaring", double(roaring_bitmap_portable_size_in_bytes(other.bitmap)), b.size());
    }
}

int main(int argc, char **argv)
{
    const std::string what = argc == 4 ? argv[1] : "";
    const int rounds = argc == 4 ? std::atoi(argv[3]) : 0;
    if (what == "words" && rounds > 0) {
        int log2 = 0;
        for (size_t lines = lines_of(argv[2]).size(); lines > 1; lines /= 2) log2++;
        words({what, log2, rounds}, argv[2]);
        return 0;
    }
    const Turns turns{what, argc == 4 ? std::atoi(argv[2]) : 0, rounds};
    if ((what != "keys" && what != "lists") || turns.log2 < 10 || turns.log2 > 25 || rounds < 1) {
        std::fprintf(stderr, "peers words FILE ROUNDS, or keys|lists LOG2 ROUNDS, LOG2 from 10 to 25\n");
        return 2;
    }
    if (what == "keys") return keys(turns), 0;
    lists(turns, turns.log2);
    lists(turns, turns.log2 - 4);
}
