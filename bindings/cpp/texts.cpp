// The index of a text in C++ beside a plain search in the text: owners, views, files, threads; blocks that are spoilt
// or cut, and what is left of an owner that was moved. The argument is the file of a block,
// bindings/tests/sea_shells.block.
#include "blocks.hpp"

#include <set>

using Text = bitm::text_index;
using View = bitm::text_index_view;

static const std::string verse = "she sells sea shells on the sea shore";

// The positions at which a pattern stands in a text, in the order of the rest of the text from there on.
static Words positions(const std::string &text, const std::string &pattern)
{
    Words found;
    for (std::size_t at = 0; at <= text.size(); at++)
        if (text.compare(at, pattern.size(), pattern) == 0 && pattern.size() <= text.size() - at) found.push_back(at);
    std::sort(found.begin(), found.end(), [&](u64 a, u64 b) { return text.compare(a, text.npos, text, b) < 0; });
    return found;
}

// The letters of a pattern in the index of a text: of bytes their indexes among those that the text uses.
template <class T> static Words letters_of(const T &t, const std::string &text, const std::string &pattern)
{
    const std::set<unsigned char> used(text.begin(), text.end());
    Words letters;
    for (const char it : pattern) {
        const auto byte = static_cast<unsigned char>(it);
        const auto index = static_cast<u64>(std::distance(used.begin(), used.find(byte)));
        letters.push_back(t.raw().used_len == 0 ? byte : used.count(byte) ? index : 256);
    }
    return letters;
}

template <class T> static void one_pattern(const T &t, const std::string &text, const std::string &pattern)
{
    const Words wanted = positions(text, pattern), letters = letters_of(t, text, pattern);
    MUST(t.count(pattern) == wanted.size() && t.try_count(pattern).value() == wanted.size());
    MUST(t.count_letters(letters) == wanted.size() && t.try_count_letters(letters).value() == wanted.size());
    for (const u64 from : {u64{0}, u64{1}, u64{wanted.size()}, ~u64{}}) {
        const std::size_t left = from < wanted.size() ? wanted.size() - static_cast<std::size_t>(from) : 0;
        for (const std::size_t room : {std::size_t{0}, std::size_t{1}, wanted.size() + 3}) {
            Words out(room, 77), same(room, 77);
            const std::size_t written = t.locate(pattern, out, from);
            MUST(written == std::min(room, left) && t.locate_letters(letters, same, from) == written && same == out);
            MUST(std::equal(out.begin(), out.begin() + static_cast<std::ptrdiff_t>(written),
                            wanted.end() - static_cast<std::ptrdiff_t>(left)));
            MUST(std::all_of(out.begin() + static_cast<std::ptrdiff_t>(written), out.end(),
                             [](u64 it) { return it == 77; }));
        }
    }
}

template <class T> static void same(const T &t, const std::string &text)
{
    MUST(t.size() == text.size() && t.empty() == text.empty() && t.check() && t.text(0, text.size()) == text);
    for (const char *pattern : {"", "s", "se", "sea sh", "she", "shop", "ll", "\xff"}) one_pattern(t, text, pattern);
    one_pattern(t, text, text), one_pattern(t, text, text + "e");
    for (std::size_t from = 0; from <= text.size(); from++)
        for (std::size_t count = 0; count <= text.size() - from; count += 1 + count / 3) {
            const std::string part = text.substr(from, count);
            Words letters(count);
            t.letters(from, letters);
            MUST(t.text(from, count) == part && letters == letters_of(t, text, part));
        }
    for (std::size_t at = 0; at < text.size(); at++)
        MUST(t[at] == static_cast<unsigned char>(text[at]) && t.at(at) == t[at] && t.try_at(at).value() == t[at]);
    for (const u64 at : {u64{text.size()}, ~u64{}}) {
        MUST(throws<std::out_of_range>([&] { (void)t[at]; }) && t.try_at(at).error().code == bitm::errc::outside);
        MUST(throws<std::out_of_range>([&] { (void)t.text(at, 1); }));
        MUST(t.try_text(0, text.size() + 1).error().code == bitm::errc::outside && !t.try_text(0, ~std::size_t{}));
    }
    Words out(3);
    MUST(throws<std::invalid_argument>([&] { (void)t.locate_letters(out, out); }));
    MUST(throws<std::out_of_range>([&] { t.letters(text.size(), out); }));
}

static void owners(const Text &given)
{
    MUST(Text(given) == given && given.view() == given && given.width() == 4 && Text().width() == 1);
    copies_and_moves(
        given, [](const auto &it) { same(it, verse); }, [](const auto &it) { same(it, ""); });
}

// What is built of bytes and of numbers, beside plain searches, and what is refused.
static void built(const Text &given)
{
    MUST(Text(verse) == given && Text::try_of(verse, 32).value() == given && Text(verse, 5) != given);
    for (const u64 kinds : {u64{1}, u64{2}, u64{3}, u64{5}, u64{256}})
        for (const std::uint32_t step : {1u, 3u, 32u, ~0u}) {
            std::string text;
            for (u64 left = draw() % 60; left > 0; left--) text.push_back(static_cast<char>(draw() % kinds + 97));
            const Text made(text, step);
            same(made, text), same(made.view(), text);
        }
    Words numbers, all(256, 1);
    for (int i = 0; i < 200; i++) numbers.push_back(draw() % 3 * 400);
    const Text wide = Text::of_letters(numbers, 801, 4),
               of_bytes = Text::of_letters(letters_of(Text(), "", verse), 256);
    wide.letters(0, all = Words(200)),
        MUST(wide.check() && wide.width() == 10 && all == numbers && wide[7] == numbers[7]);
    const auto some = numbers.begin() + 20;
    const Words part(some, some + 4), none{5}, outside{801, ~u64{}};
    MUST(wide.count_letters(part) >= 1 && wide.count_letters(none) == 0 && wide.count_letters(outside) == 0);
    MUST(wide.try_text(0, 1).error().code == bitm::errc::bad_size && wide.count("\x01") == 0);
    same(of_bytes, verse), MUST(of_bytes.width() == 8 && of_bytes != given);
    MUST(Text::of_letters({}, 0).count_letters({}) == 1 && Text("").count("") == 1 && Text("").check());
    for (const auto &made :
         {Text::try_of(verse, 0), Text::try_of_letters(numbers, 801, 0), Text::try_of_letters(numbers, 800),
          Text::try_of_letters(numbers, 0), Text::try_of_letters(outside, 801)})
        MUST(!made && made.error().code == bitm::errc::bad_size);
    MUST(throws<std::invalid_argument>([] { Text(verse, 0); }));
    MUST(throws<std::invalid_argument>([&] { (void)Text::of_letters(numbers, 1); }));
}

// In two steps: the same blocks; a letter that is not below the size of the alphabet is named, at once and in two
// steps.
static void steps()
{
    for (const std::string &text :
         {std::string(), std::string("a"), std::string("banana"), std::string(300, 'x'), verse})
        for (const std::uint32_t step : {1u, 4u, 32u}) {
            told(Text(text, step), 2, [&](auto told_of) { return Text(text, step, told_of); });
            const Words letters = letters_of(Text(), "", text);
            told(Text::of_letters(letters, 256, step), 2,
                 [&](auto told_of) { return Text::of_letters(letters, 256, step, told_of); });
        }
    const Words numbers{0, 3, 4, 9};
    const auto none = [](u64, u64) {};
    const bitm::failure why = Text::try_of_letters(numbers, 4).error();
    MUST(why == bitm::failure{bitm::errc::bad_size, 2, 4, "letter", 4, 4, bitm::item_fault::not_below});
    MUST(bitm::message(why) == "bitm: letter 2 (4) is not below 4" && Text::try_of_letters(numbers, 0).error().at == 0);
    MUST(Text::try_of_letters(numbers, 4, 32, none).error() == why && !Text::try_of("a", 0, none));
    Words changed{1, 0, 1};
    const auto change = [&](u64, u64) { changed[0] = 0; };
    MUST(!Text::try_of_letters(changed, 2, 32, change)); // no longer the text that was sorted
}

// Answers of a block that may hold anything: inside, or an error.
static void any(const View &t)
{
    const u64 n = t.size();
    Words out(9);
    for (const char *pattern : {"", "s", "he", "\x01\x02"}) {
        const auto count = t.try_count(pattern);
        MUST(!count || *count <= n + 1);
        try {
            const std::size_t written = t.locate(pattern, out);
            MUST(std::all_of(out.begin(), out.begin() + static_cast<std::ptrdiff_t>(written),
                             [&](u64 at) { return at <= n; }));
        } catch (const bitm::wrong_tables &) {
        }
    }
    const auto part = t.try_text(n / 2, 3);
    MUST(!part || part->size() == 3);
}

static void threads(const Text &given)
{
    const View view = given.view();
    std::vector<std::thread> all;
    for (int i = 0; i < 6; i++)
        all.emplace_back([&] {
            for (int turn = 0; turn < 300; turn++) MUST(given.count("sea") == 2 && view.text(10, 3) == "sea");
        });
    for (std::thread &it : all) it.join();
}

int main(int, char **argv)
{
    const Text given = Text::load(argv[1], bitm::verify::yes);
    same(given, verse), owners(given), built(given), steps(), threads(given);
    files_of(given, argv[0] + std::string(".text"), [](const auto &it) { same(it, verse); });
    MUST(given.raw().letters.words == given.block().data() + 72);
    spoilt_blocks(given, 72, 5, any);
    std::puts("texts: ok");
    return 0;
}
