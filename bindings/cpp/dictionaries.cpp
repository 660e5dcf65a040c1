// Dictionaries in C++ beside plain lists of keys: owners, views, lists, files, threads; keys that are refused, blocks
// that are spoilt or cut, and what is left of an owner that was moved.
#include "blocks.hpp"

#include <set>

using Dictionary = bitm::dictionary;
using View = bitm::dictionary_view;

static Words drawn(u64 count, unsigned bits)
{
    std::set<u64> keys;
    while (keys.size() < count) keys.insert(draw() >> (64 - bits));
    Words all(keys.begin(), keys.end());
    std::shuffle(all.begin(), all.end(), draw);
    return all;
}

// Each key has a number of its own, at which it stands, and what is no key has none: one by one, and as a list.
template <class D> static void same(const D &d, const Words &keys)
{
    MUST(d.size() == keys.size() && d.empty() == keys.empty() && d.check() && d.keys().size() == keys.size());
    Words sorted = keys, asked = keys, kept(d.keys().begin(), d.keys().end());
    std::sort(sorted.begin(), sorted.end()), std::sort(kept.begin(), kept.end());
    MUST(sorted == kept);
    for (std::size_t i = 0; i < std::min<std::size_t>(keys.size(), 50); i++)
        asked.push_back(keys[i] + 1), asked.push_back(keys[i] - 1);
    for (const u64 end : {u64{0}, u64{1}, ~u64{}, ~u64{} - 1, draw(), draw()}) asked.push_back(end);
    Words out(asked.size()), less(asked.size() - 1);
    d.find(asked, out);
    for (std::size_t i = 0; i < asked.size(); i++) {
        const bool is_key = std::binary_search(sorted.begin(), sorted.end(), asked[i]);
        const maybe_position number = d.find(asked[i]);
        MUST(d.contains(asked[i]) == is_key && number.has_value() == is_key && d.try_find(asked[i]).value() == number);
        MUST(!is_key || (*number < d.size() && d.keys()[*number] == asked[i]));
        MUST(out[i] == number.value_or(bitm::no_answer));
    }
    MUST(throws<std::invalid_argument>([&] { d.find(asked, less); }));
    MUST(throws<std::invalid_argument>([&] { d.find(out, out); }));
    d.find(bitm::words_in(), bitm::words_out());
}

static void refused()
{
    const Words twice{3, 9, 3};
    const bitm::failure why = Dictionary::try_of(twice).error();
    MUST(why == bitm::failure{bitm::errc::equal_keys, 0, 2, "keys", 0, 0, bitm::item_fault::equal});
    MUST(bitm::message(why) == "bitm: keys 0 and 2 are equal" && Dictionary::try_of(twice, 100, 7).error() == why);
    MUST(throws<std::invalid_argument>([&] { Dictionary d(twice); }));
    MUST(Dictionary({7}).size() == 1 && Dictionary(bitm::words_in()).empty());
}

static void owners(const Words &keys)
{
    const Dictionary a(keys, 120, 5);
    MUST(a == Dictionary(keys, 120, 5) && a != Dictionary(keys, 120, 6) && a.seed() == 5);
    copies_and_moves(
        a, [&](const auto &it) { same(it, keys); }, [](const auto &it) { same(it, {}); });
}

// Answers of a block that may hold anything: a key stands at the number that is found, or there is an error.
static void any(const View &d, const Words &keys)
{
    for (const u64 key : keys) {
        const auto number = d.try_find(key);
        MUST(!number || !*number || (**number < d.size() && d.keys()[**number] == key));
    }
}

static void spoilt()
{
    const Words keys = drawn(40, 60);
    const Dictionary d(keys);
    MUST(d.raw().hash.index.words == d.block().data() + 40);
    spoilt_blocks(d, 40, 1, [&](const View &it) { any(it, keys); });
}

static void threads()
{
    const Words keys = drawn(2000, 64);
    const Dictionary d(keys);
    const View view = d.view();
    std::vector<std::thread> all;
    for (int i = 0; i < 6; i++)
        all.emplace_back([&] {
            for (const u64 key : keys) MUST(d.find(key) == view.find(key) && d.keys()[*d.find(key)] == key);
        });
    for (std::thread &it : all) it.join();
}

int main(int, char **argv)
{
    const std::string path = argv[0] + std::string(".dictionary");
    refused(), spoilt(), threads();
    std::vector<Words> all{{}, {0}, {~u64{}}, {0, 1, ~u64{}, ~u64{} - 1}, {4, 9, 49}};
    for (u64 count = 1; count < 30; count++) all.push_back(drawn(count * count, 12 + static_cast<unsigned>(count)));
    for (const Words &keys : all) {
        same(Dictionary(keys), keys), same(Dictionary(keys, 200, 99), keys);
        files_of(Dictionary(keys), path, [&](const auto &it) { same(it, keys); });
    }
    owners(all[3]), owners(all.back());
    std::puts("dictionaries: ok");
    return 0;
}
