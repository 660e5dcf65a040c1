// Perfect hashes in C++, without seeds and with them: numbers, lists and fingerprints; of those with seeds also owners,
// views, files and threads; levels one by one; what is refused, blocks that are spoilt or cut, and what is left of an
// owner that was moved.
#include "blocks.hpp"

#include <set>

using Hash = bitm::seeded_hash;
using View = bitm::seeded_hash_view;

static Words drawn(u64 count)
{
    std::set<u64> all;
    while (all.size() < count) all.insert(draw());
    Words list(all.begin(), all.end());
    std::shuffle(list.begin(), list.end(), draw);
    return list;
}

// Each hash has a number of its own, one by one and as a list; a hash of no key has none, or one that is inside.
template <class H> static void same(const H &h, const Words &hashes)
{
    MUST(h.size() == hashes.size() && h.empty() == hashes.empty() && h.check());
    Words out(hashes.size()), less(hashes.size() + 1);
    std::vector<bool> used(hashes.size());
    h(hashes, out);
    for (std::size_t i = 0; i < hashes.size(); i++) {
        const u64 number = h(hashes[i]).value();
        MUST(number < h.size() && !used[number] && out[i] == number && h.try_number(hashes[i]).value() == number);
        used[number] = true;
    }
    for (int i = 0; i < 50; i++) MUST(h(draw()).value_or(0) < std::max<u64>(h.size(), 1));
    const Words others = drawn(40);
    Words found(40);
    h(others, found);
    for (std::size_t i = 0; i < 40; i++) MUST(found[i] == h(others[i]).value_or(bitm::no_answer));
    MUST(throws<std::invalid_argument>([&] { h(hashes, less); }));
    if (!hashes.empty()) MUST(throws<std::invalid_argument>([&] { h(out, out); }));
    h(bitm::words_in(), bitm::words_out());
}

static u64 bits_at(const Words &words, u64 begin, unsigned width)
{
    u64 number = 0;
    for (unsigned i = 0; i < width; i++) number |= (words[(begin + i) / 64] >> ((begin + i) % 64) & 1) << i;
    return number;
}

// The fingerprint of each key stands at its number, all other bits stay, and only a key with its fingerprint is found.
template <class H> static void printed(const H &h, const Words &hashes, unsigned width)
{
    Words own(hashes.size()), words((hashes.size() * width + 63) / 64 + 1, ~u64{});
    for (u64 &it : own) it = draw();
    const u64 mask = width == 64 ? ~u64{} : (u64{1} << width) - 1;
    MUST(h.set_prints(hashes, own, words, width));
    Words numbers(hashes.size()), others = own, out(hashes.size());
    h(hashes, numbers);
    for (u64 &it : others) it ^= u64{1} << (width == 0 ? 0 : draw() % width);
    for (std::size_t i = 0; i < hashes.size(); i++) {
        MUST(bits_at(words, numbers[i] * width, width) == (own[i] & mask));
        MUST(h.find(words, width, hashes[i], own[i]) == numbers[i] &&
             h.find(words, width, hashes[i], own[i] & mask) == numbers[i]);
        MUST(h.try_find(words, width, hashes[i], others[i]).value().has_value() == (width == 0));
    }
    for (u64 at = hashes.size() * width; at < 64 * words.size(); at++) MUST(bits_at(words, at, 1) == 1);
    h.find(words, width, hashes, own, out);
    MUST(out == numbers);
    h.find(words, width, hashes, others, out);
    MUST(width == 0 ? out == numbers : out == Words(hashes.size(), bitm::no_answer));
}

// What is no key is found once in 2^8.
template <class H> static void strangers(const H &h, const Words &hashes)
{
    Words own(hashes.size()), words(hashes.size() / 8 + 1);
    for (u64 &it : own) it = draw();
    MUST(h.set_prints(hashes, own, words, 8));
    int found = 0;
    for (int i = 0; i < 20000; i++) found += h.find(words, 8, draw(), draw()).has_value();
    MUST(found < 200);
}

// Lengths and widths that are refused change nothing; a fingerprint that is not there is an error, and no number.
template <class H> static void refused_prints(const H &h, const Words &hashes)
{
    const std::size_t n = hashes.size();
    const Words own(n, 5), more(n + 1);
    Words words(n, 9), out(n, 7), longer(n + 1);
    MUST(throws<std::invalid_argument>([&] { (void)h.set_prints(hashes, more, words, 8); }));
    MUST(throws<std::invalid_argument>([&] { (void)h.set_prints(hashes, own, words, 65); }));
    MUST(throws<std::invalid_argument>([&] { (void)h.set_prints(hashes, words, words, 8); }));
    MUST(throws<std::invalid_argument>([&] { (void)h.set_prints(words, own, {words.data() + n - 1, 1}, 8); }));
    MUST(throws<std::invalid_argument>([&] { (void)h.find(words, 65, hashes[0], 5); }));
    MUST(h.try_find(words, ~0u, hashes[0], 5).error().code == bitm::errc::bad_size);
    MUST(throws<std::invalid_argument>([&] { h.find(words, 8, hashes, more, out); }));
    MUST(throws<std::invalid_argument>([&] { h.find(words, 8, hashes, own, longer); }));
    MUST(throws<std::invalid_argument>([&] { h.find(words, 65, hashes, own, out); }));
    MUST(throws<std::invalid_argument>([&] { h.find(out, 8, hashes, own, out); }));
    MUST(throws<std::invalid_argument>([&] { h.find(words, 8, out, own, out); }));
    MUST(throws<std::invalid_argument>([&] { h.find(words, 8, hashes, out, out); }));
    MUST(words == Words(n, 9) && out == Words(n, 7) && longer == Words(n + 1));
    // There is no room for the fingerprint of the last number: the others are written.
    MUST(h.set_prints(hashes, own, words, 64) && words == own);
    MUST(!h.set_prints(hashes, Words(n, 6), {words.data(), n - 1}, 64) && words.back() == 5 && words[n - 2] == 6);
    std::size_t missing = 0;
    for (const u64 hash : hashes) {
        const auto number = h.try_find({words.data(), n - 1}, 64, hash, 6);
        MUST(number ? **number < n - 1 : number.error().code == bitm::errc::wrong);
        missing += !number;
    }
    MUST(missing == 1 && throws<bitm::wrong_tables>([&] { h.find({words.data(), n - 1}, 64, hashes, own, out); }));
    MUST(std::count(out.begin(), out.end(), bitm::wrong_answer) == 1);
}

static void fingerprints()
{
    for (const unsigned n : {0u, 1u, 2u, 9u, 300u}) {
        const Words hashes = drawn(n);
        const Hash h(hashes);
        const bitm::perfect_hash plain{bitm::words_in(hashes)};
        same(plain, hashes);
        for (const unsigned width : {0u, 1u, 7u, 8u, 33u, 63u, 64u})
            printed(h, hashes, width), printed(h.view(), hashes, width), printed(plain, hashes, width);
        if (n > 1) refused_prints(h, hashes), refused_prints(h.view(), hashes), refused_prints(plain, hashes);
    }
    const Words hashes = drawn(20000);
    const Hash h(hashes);
    strangers(h, hashes), strangers(bitm::perfect_hash(bitm::words_in(hashes)), hashes);
    Words none(1), own(1);
    MUST(!Hash().set_prints({own.data(), 1}, own, none, 8) && !Hash().find(none, 8, 7, 7) && none[0] == 0);
}

// Of many keys: 2.26 bits a key, and 2.8 without seeds.
static void sizes()
{
    const Words hashes = drawn(200000);
    const Hash h(hashes);
    const bitm::perfect_hash plain{bitm::words_in(hashes)};
    MUST(640 * h.block().size() < 23 * hashes.size() && 80 * plain.bytes().size() > 28 * hashes.size());
    const Hash tried(hashes, 100, 256), untried(hashes, 100, 0);
    MUST(tried.block().size() < h.block().size() && h.block().size() < untried.block().size());
}

static void refused()
{
    const Words twice{3, 9, 3};
    const auto why = Hash::try_of(twice);
    const bitm::failure equal{bitm::errc::equal_keys, 0, 2, "hashes", 0, 0, bitm::item_fault::equal};
    MUST(why.error() == equal && bitm::message(equal) == "bitm: hashes 0 and 2 are equal");
    MUST(bitm::perfect_hash::try_of(twice).error() == equal);
    MUST(bitm::perfect_hash::try_of(twice, 100, [](u64, u64) {}).error() == equal);
    MUST(throws<std::invalid_argument>([&] { Hash h(twice); }));
    Words some_twice = drawn(3000);
    for (const std::size_t at : {7u, 7u, 2000u, 9u, 7u}) some_twice.push_back(some_twice[at]);
    const bitm::failure first = Hash::try_of(some_twice).error();
    MUST(first.at == 7 && first.of == 3000 && bitm::perfect_hash::try_of(some_twice).error() == first);
    MUST(Hash(Words{7}).size() == 1 && Hash(bitm::words_in()).empty() && !Hash()(7) && !View()(7));
    const Words some = drawn(500);
    const Hash most(some, 100, ~0u), all(some, 100, 256), fewer(some, 100, 255);
    MUST(most == all && all.size() == fewer.size() && Hash(some, 0, 3) == Hash(some, 50, 3));
}

// Level by level: the same blocks, with how many keys have a number so far.
static void levels(const Words &hashes)
{
    const auto whole = [](u64 it) { return it; };
    for (const unsigned percent : {0u, 100u, 250u}) {
        told(bitm::perfect_hash(bitm::words_in(hashes), percent), hashes.size(),
             [&](auto step) { return bitm::perfect_hash(hashes, percent, step); });
        told(bitm::perfect_hash(bitm::words_in(hashes), percent), hashes.size(),
             [&](auto step) { return bitm::perfect_hash(hashes.begin(), hashes.end(), whole, percent, step); });
        for (const unsigned tries : {0u, 1u, 20u, 300u})
            told(Hash(hashes, percent, tries, 5), hashes.size(),
                 [&](auto step) { return Hash(hashes, percent, tries, 5, step); });
    }
    told(Hash(hashes), hashes.size(),
         [&](auto step) { return Hash(hashes.begin(), hashes.end(), whole, 100, 64, 0, step); });
}

static void owners(const Words &hashes)
{
    const Hash a(hashes, 120, 9, 5);
    MUST(a == Hash(hashes, 120, 9, 5) && a != Hash(hashes, 120, 9, 6) && a.seed() == 5 && a.view().seed() == 5);
    MUST(a == Hash(
                  hashes.begin(), hashes.end(), [](u64 it) { return it; }, 120, 9, 5));
    copies_and_moves(
        a, [&](const auto &it) { same(it, hashes); }, [](const auto &it) { same(it, {}); });
}

// The block of the same levels without seeds is none of a hash with seeds.
static void other_blocks()
{
    const Words hashes = drawn(80);
    const bitm::perfect_hash plain{bitm::words_in(hashes)};
    const bitm_hash &raw = plain.raw();
    u64 len = 0, seed = 0;
    MUST(bitm_hash_block_size(raw.index.words_len, raw.sizes_len, &len) == BITM_OK);
    Words block(len);
    MUST(bitm_hash_block_build(raw.index.words, raw.index.words_len, raw.sizes, raw.sizes_len, 7, block.data(), len) ==
         BITM_OK);
    MUST(View::try_in(block).error().code == bitm::errc::other_kind);
    const Hash h(hashes);
    bitm_hash opened{};
    MUST(bitm_hash_block_open(h.block().data(), h.block().size(), &opened, &seed) == BITM_WRONG);
    const bitm::dictionary keys(hashes);
    MUST(!bitm::dictionary_view::try_in(h.block()) && !View::try_in(keys.block()));
}

static void spoilt()
{
    const Words hashes = drawn(40);
    const Hash h(hashes);
    MUST(h.raw().hash.index.words == h.block().data() + 40);
    spoilt_blocks(h, 40, 1, [&](const View &it) {
        for (const u64 hash : hashes) {
            const auto number = it.try_number(hash);
            MUST(number ? number->value_or(0) < it.size() : number.error().code == bitm::errc::wrong);
        }
    });
}

static void threads()
{
    const Words hashes = drawn(2000);
    const Hash h(hashes);
    const View view = h.view();
    std::vector<std::thread> all;
    for (int i = 0; i < 6; i++)
        all.emplace_back([&] {
            for (const u64 hash : hashes) MUST(h(hash) == view(hash) && h(hash).has_value());
        });
    for (std::thread &it : all) it.join();
}

int main(int, char **argv)
{
    const std::string path = argv[0] + std::string(".hash");
    refused(), sizes(), fingerprints(), other_blocks(), spoilt(), threads();
    for (u64 count = 0; count < 25; count++) {
        const Words hashes = drawn(count * count);
        same(Hash(hashes), hashes), same(Hash(hashes, 200, 0, 99), hashes);
        files_of(Hash(hashes), path, [&](const auto &it) { same(it, hashes); });
    }
    owners(drawn(3)), owners(drawn(900));
    for (const u64 count : {0u, 1u, 2u, 70u, 3000u}) levels(drawn(count));
    std::puts("hashes: ok");
    return 0;
}
