// Hashes of keys in C++: keys of each kind, numbers, lists, owners, views, files and threads; blocks that the package
// for Python wrote, which are read and written alike; what is refused, and blocks that are spoilt or cut. The argument
// is the file of these blocks, bindings/tests/key_hashes.blocks.
#include "blocks.hpp"

#include <array>
#include <fstream>
#include <iterator>
#include <list>
#include <set>
#if __cplusplus >= 202002L
#include <ranges>
#include <span>
#endif

using Hash = bitm::key_hash;
using View = bitm::key_hash_view;
using Texts = std::vector<std::string>;
using Bytes = std::vector<std::byte>;

static Texts drawn(u64 count)
{
    std::set<std::string> all;
    while (all.size() < count) all.insert(std::to_string(draw() >> (draw() % 60)));
    Texts list(all.begin(), all.end());
    std::shuffle(list.begin(), list.end(), draw);
    return list;
}

// Each key has a number of its own, one by one and as a list.
template <class H, class Keys> static void same(const H &h, const Keys &keys)
{
    const std::size_t n = keys.size();
    MUST(h.size() == n && h.empty() == (n == 0) && h.check());
    Words out(n), less(n + 1);
    std::vector<bool> used(n);
    h(keys, out);
    std::size_t i = 0;
    for (const auto &key : keys) {
        const u64 number = h(key).value();
        MUST(number < n && !used[number] && out[i++] == number && h.try_number(key).value() == number);
        used[number] = true;
    }
    MUST(throws<std::invalid_argument>([&] { h(keys, less); }));
}

// What is no key is found once in 2^bits, one by one and as a list alike.
static void strangers()
{
    const Texts keys = drawn(5000);
    for (const unsigned bits : {0u, 1u, 8u, 16u, 32u}) {
        const Hash h(keys, {bits});
        Words others(20000), out(20000);
        for (u64 &it : others) it = draw();
        h(others, out);
        u64 found = 0;
        for (std::size_t i = 0; i < others.size(); i++) {
            MUST(h(others[i]).value_or(bitm::no_answer) == out[i]);
            found += out[i] != bitm::no_answer;
        }
        MUST(h.bits() == bits && found <= (u64{40000} >> bits) + 20 && (bits > 8 || found > (u64{5000} >> bits)));
    }
}

// Text, bytes and numbers are different keys, in whatever they are given.
static void kinds_of_keys()
{
    const Hash texts{"a", "b", ""};
    const std::array<std::byte, 1> a{std::byte{'a'}};
    const std::vector<unsigned char> same_a{'a'};
    const std::string text = "a";
    MUST(texts("a") == texts(text) && texts(std::string_view(text)) == texts(text.c_str()) && texts("a"));
    MUST(!texts(a) && !texts(same_a) && !texts(97) && texts(std::string()).has_value() && !texts(Bytes()));
    const std::list<Bytes> some{{}, {a[0]}, {a[0], a[0]}};
    const Hash bytes(some, {32});
    MUST(bytes(a) == bytes(same_a) && bytes(a).has_value() && !bytes(text) && bytes(Bytes()) && !bytes(""));
    MUST(bytes(bitm::span<const unsigned char>(same_a)) == bytes(a));
#if __cplusplus >= 202002L
    MUST(bytes(std::as_bytes(std::span(same_a))) == bytes(a));
#endif
    const std::vector<int> few{7, -7, 97};
    const Hash numbers(few, {32});
    MUST(numbers(7) == numbers(7u) && numbers(short{-7}) == numbers(std::int64_t{-7}) && numbers(-7).has_value());
    MUST(!numbers("7") && !numbers(~u64{6}) && !numbers(u64{1} << 63) && numbers(std::int8_t{97}) == numbers(97ull));
    same(texts, Texts{"a", "b", ""}), same(bytes, some), same(numbers, few);
    const Words large{u64{1} << 63, ~u64{}, ~u64{} >> 1, 5};
    same(Hash(large), large);
    MUST(Hash(large)(~u64{}).has_value() && !Hash(large, {32})(-1)); // 2^64 - 1 is not -1
}

template <class Result> static bitm::failure why_of(const Result &made)
{
    return made ? bitm::failure() : made.error();
}

static void refused()
{
    const Texts twice{"a", "b", "c", "b", "a"};
    const bitm::failure equal = why_of(Hash::try_of(twice));
    MUST(equal == bitm::failure{bitm::errc::equal_keys, 0, 4, "keys", 0, 0, bitm::item_fault::equal});
    MUST(bitm::message(equal) == "bitm: keys 0 and 4 are equal");
    MUST(why_of(Hash::try_of(twice, {16, 100, 9, 5})) == equal &&
         why_of(Hash::try_of(twice.begin(), twice.end())) == equal);
    MUST(why_of(Hash::try_of(twice, {}, [](u64, u64) {})) == equal);
    MUST(throws<std::invalid_argument>([&] { Hash h(twice); }));
    const std::vector<const char *> none{"a", nullptr};
    for (const auto &why : {why_of(Hash::try_of(none)), why_of(Hash::try_of(twice, {33})),
                            why_of(Hash::try_of(twice, {16, 100, 257})), why_of(Hash().try_number(none[1]))})
        MUST(why.code == bitm::errc::bad_size && why.which);
    Words out(2, 5);
    MUST(throws<std::invalid_argument>([&] { Hash()(none, out); }) &&
         throws<std::invalid_argument>([&] { Hash()(none[1]); }));
    MUST(out == Words(2, 5) && !Hash()(7) && !View()("a") && Hash(Texts()).empty() && Hash(Texts()) == Hash());
    const Hash one{"a"};
    Words block(one.block().begin(), one.block().end());
    MUST(throws<std::invalid_argument>([&] { View::in(block)(Texts{"a"}, {block.data() + block.size() - 1, 1}); }));
}

// Two different keys with one hash are named as such, where no other seed is tried. None are known: so indices stand
// for them here.
static void one_hash()
{
    const bitm::failure equal{bitm::errc::equal_keys, 3, 5, "hashes", 0, 0, bitm::item_fault::equal};
    const bitm::failure one = bitm::detail::of_items(equal, "keys", [](u64 i, u64 j) { return i == j; });
    MUST(one.item == bitm::item_fault::one_hash && one.at == 3 && one.of == 5);
    MUST(bitm::message(one) == "bitm: keys 3 and 5 have one hash: take another seed");
    MUST(bitm::detail::of_items({bitm::errc::wrong}, "keys", [](u64, u64) { return true; }).code == bitm::errc::wrong);
}

// Blocks of hashes without the fingerprints of keys, or with others, are none; those with them hold a hash all the
// same.
static void other_blocks()
{
    const Words hashes{5, 7, 9};
    const auto why = [](const auto &owner) { return View::try_in(owner.block()).error(); };
    const bitm::perfect_hash plain{bitm::words_in(hashes)};
    MUST(bitm::message(why(plain)) == "bitm: the file holds a perfect hash, not a perfect hash of keys");
    MUST(why(bitm::seeded_hash(hashes)).code == bitm::errc::other_kind);
    MUST(why(bitm::dictionary{5, 7}).code == bitm::errc::other_kind &&
         why(bitm::tree{1, 0}).code == bitm::errc::other_kind);
    const auto with = [&](u64 role, u64 count, const Words &words) {
        Words made(bitm::extended_size(plain.block(), role, count));
        bitm::extend(plain.block(), role, count, words, made);
        const auto view = View::try_in(made);
        bitm::errc code = bitm::errc::none;
        if (!view) code = view.error().code;
        return code;
    };
    const u64 keys_role = 0x327361686d746962, of_javascript = 0x31736a686d746962;
    MUST(with(keys_role, 8, {0}) == bitm::errc::none && with(keys_role, 16, {16, 5}) == bitm::errc::none);
    MUST(with(of_javascript, 8, {0}) == bitm::errc::other_kind);
    for (const bitm::errc none :
         {with(keys_role, 0, {}), with(keys_role, 8, {16}), with(keys_role, 24, {16, 5, 5}), with(keys_role, 7, {0}),
          with(keys_role, 32, {65, 5, 5, 5}), with(keys_role, 8, {~u64{}})})
        MUST(none == bitm::errc::wrong_file);
    const Texts keys = drawn(50);
    const Hash without(keys), seeded(keys, {16, 100, 20});
    MUST(!without.has_seeds() && bitm::perfect_hash::of_bytes(without.bytes()).size() == 50);
    MUST(seeded.has_seeds() && bitm::seeded_hash_view::in(seeded.block()).size() == 50);
    MUST(bitm::perfect_hash::try_of_bytes(seeded.bytes()).error().code == bitm::errc::other_kind);
}

// Opening looks at the width of the fingerprints, which is the first word of their section.
static void spoilt(const bitm::key_options &how)
{
    const Texts keys = drawn(30);
    const Hash h(keys, how);
    const auto any = [&](const View &it) {
        for (const std::string &key : keys) {
            const auto number = it.try_number(key);
            MUST(number ? number->value_or(0) < std::max<u64>(it.size(), 1) : number.error().code == bitm::errc::wrong);
        }
    };
    const bitm::section prints = bitm::section_at(h.block(), h.has_seeds() ? 5 : 4).value();
    spoilt_blocks(h, 40, 5, any, static_cast<std::size_t>(prints.words.data() - h.block().data()));
}

// The blocks of bindings/tests/key_hashes.blocks: what Python made of these keys, C++ makes too, and reads.
static void of_python(const char *path)
{
    std::ifstream file(path, std::ios::binary);
    const std::string bytes{std::istreambuf_iterator<char>(file), std::istreambuf_iterator<char>()};
    Words all(bytes.size() / 8);
    std::memcpy(all.data(), bytes.data(), 8 * all.size());
    std::size_t at = 0;
    const auto next = [&](const Hash &made, const auto &keys) {
        const Words block(all.begin() + static_cast<std::ptrdiff_t>(at),
                          all.begin() + static_cast<std::ptrdiff_t>(at + made.block().size()));
        MUST(block == Words(made.block().begin(), made.block().end()));
        same(View::in(block), keys), at += block.size();
    };
    // PerfectHash(words), PerfectHash(words as bytes, bits=0), PerfectHash(numbers, bits=32, percent=150), PerfectHash(
    // words, bits=8, tries=64, seed=7), PerfectHash(range(1000), bits=5, tries=9), PerfectHash([]), PerfectHash([],
    // tries=3)
    const Texts words{"zero", "one", "two", "", "\xc3\xa9", "\xed\xa0\x80", "a longer key than eight bytes"};
    std::vector<Bytes> as_bytes;
    for (const std::string &it : words) {
        const auto *const from = reinterpret_cast<const std::byte *>(it.data());
        as_bytes.emplace_back(from, from + it.size());
    }
    next(Hash(words), words), next(Hash(as_bytes, {0}), as_bytes);
    const Words large{0, 1, ~u64{} >> 1, u64{1} << 63, ~u64{}}, thousand = [] {
        Words numbers(1000);
        for (u64 i = 0; i < 1000; i++) numbers[i] = i;
        return numbers;
    }();
    next(Hash(large, {32, 150}), large), next(Hash(words, {8, 100, 64, 7}), words);
    next(Hash(thousand, {5, 100, 9}), thousand), next(Hash(), Texts()), next(Hash(Texts(), {16, 100, 3}), Texts());
    const std::vector<std::int64_t> signs{-1, 0, 255, std::numeric_limits<std::int64_t>::min()};
    next(Hash(signs, {16, 100, 0, 3}), signs);
    MUST(at == all.size());
}

static void threads()
{
    const Texts keys = drawn(2000);
    const Hash h(keys);
    const View view = h.view();
    std::vector<std::thread> all;
    for (int i = 0; i < 6; i++)
        all.emplace_back([&] {
            for (const std::string &key : keys) MUST(h(key) == view(key) && h(key).has_value());
        });
    for (std::thread &it : all) it.join();
}

int main(int argc, char **argv)
{
    MUST(argc == 2);
    const std::string path = argv[0] + std::string(".keys");
    of_python(argv[1]), kinds_of_keys(), strangers(), refused(), one_hash(), other_blocks(), threads();
    spoilt({}), spoilt({32, 100, 5}), spoilt({0});
    for (const u64 count : {0u, 1u, 2u, 9u, 300u}) {
        const Texts keys = drawn(count);
        for (const auto &how : std::vector<bitm::key_options>{{}, {0, 200}, {32, 100, 3, 9}}) {
            const Hash h(keys, how);
            same(h, keys), same(h.view(), keys);
            MUST(h.bits() == how.bits && h.seed() == how.seed.value_or(0) && h.has_seeds() == (how.tries > 0));
            told(h, keys.size(), [&](auto step) { return Hash(keys, how, step); });
            files_of(h, path, [&](const auto &it) { same(it, keys); });
        }
    }
    const Texts keys = drawn(200);
    copies_and_moves(
        Hash(keys), [&](const auto &it) { same(it, keys); }, [](const auto &it) { same(it, Texts()); });
    std::puts("keys: ok");
    return 0;
}
