// Strings in C++ beside plain lists: owners, views, files, threads; strings that are refused, blocks that are spoilt or
// cut, and what is left of an owner that was moved.
#include "blocks.hpp"

#include <iterator>
#include <set>
#include <sstream>

using Strings = bitm::strings;
using View = bitm::strings_view;
using Texts = std::vector<std::string>;

static Texts drawn(u64 count, unsigned longest)
{
    std::set<std::string> all;
    while (all.size() < count) {
        std::string one;
        for (u64 len = draw() % (longest + 1); len > 0; len--)
            one += static_cast<char>(draw() % 4 ? 'a' + draw() % 26 : draw());
        all.insert(one);
    }
    Texts list(all.begin(), all.end());
    std::shuffle(list.begin(), list.end(), draw);
    return list;
}

static Strings of(const Texts &all, unsigned percent = 100, u64 seed = 0)
{
    return Strings(all.begin(), all.end(), percent, seed);
}

// Each string has a number of its own, whose string it is, and what is none of them has none.
template <class S> static void same(const S &s, const Texts &all)
{
    MUST(s.size() == all.size() && s.empty() == all.empty() && s.check());
    const std::set<std::string> plain(all.begin(), all.end());
    std::set<std::string> kept;
    for (u64 i = 0; i < s.size(); i++) kept.insert(std::string(s[i]));
    MUST(plain == kept);
    Texts asked = all;
    for (const std::string &it : all) asked.push_back(it + '\0'), asked.push_back(it.substr(0, it.size() / 2));
    for (const std::string &it : asked) {
        const maybe_position number = s.find(it);
        MUST(s.contains(it) == (plain.count(it) > 0) && number.has_value() == s.contains(it));
        MUST(s.try_find(it).value() == number && (!number || (*number < s.size() && s[*number] == it)));
    }
    MUST(throws<std::out_of_range>([&] { (void)s[s.size()]; }) && throws<std::out_of_range>([&] { (void)s[~u64{}]; }));
}

static void refused()
{
    const Texts twice{"ada", "bob", "ada"};
    const bitm::failure why = Strings::try_of(twice.begin(), twice.end()).error();
    MUST(why.code == bitm::errc::equal_keys && why.item == bitm::item_fault::equal);
    MUST(bitm::message(why) ==
         "bitm: strings " + std::to_string(why.at) + " and " + std::to_string(why.of) + " are equal");
    MUST(why.at < why.of && twice[why.at] == twice[why.of]);
    MUST(throws<std::invalid_argument>([&] { of(twice); }));
    MUST(Strings({"ada"}).size() == 1 && Strings().empty() && of({}).empty() && !Strings().contains(""));
}

static void owners(const Texts &all)
{
    const Strings a = of(all, 120, 5);
    MUST(a == of(all, 120, 5) && a != of(all, 120, 6) && a.seed() == 5);
    copies_and_moves(
        a, [&](const auto &it) { same(it, all); }, [](const auto &it) { same(it, {}); });
}

// Answers of a block that may hold anything: the string stands at the number that is found, or there is an error.
static void any(const View &s, const Texts &all)
{
    for (const std::string &it : all) {
        const auto number = s.try_find(it);
        MUST(!number || !*number || (**number < s.size() && s[**number] == it));
    }
}

static void spoilt()
{
    const Texts all = drawn(12, 6);
    const Strings s = of(all);
    MUST(s.raw().hash.index.words == s.block().data() + 64);
    spoilt_blocks(s, 64, 1, [&](const View &it) { any(it, all); });
}

static void threads()
{
    const Texts all = drawn(2000, 12);
    const Strings s = of(all);
    const View view = s.view();
    std::vector<std::thread> running;
    for (int i = 0; i < 6; i++)
        running.emplace_back([&] {
            for (const std::string &it : all) MUST(s.find(it) == view.find(it) && s[*s.find(it)] == it);
        });
    for (std::thread &it : running) it.join();
}

// Words that are read from a stream, and so gone through once.
static void once()
{
    std::istringstream words("ada bob eve"), twice("ada bob ada"), none;
    using reader = std::istream_iterator<std::string>;
    const bitm::strings names(reader(words), reader{});
    MUST(names == bitm::strings{"ada", "bob", "eve"} && names.size() == 3 && names.contains("eve"));
    MUST(bitm::strings::try_of(reader(twice), reader{}).error().code == bitm::errc::equal_keys);
    MUST(bitm::strings(reader(none), reader{}).empty());
}

int main(int, char **argv)
{
    const std::string path = argv[0] + std::string(".strings");
    refused(), spoilt(), threads(), once();
    std::vector<Texts> lists{{}, {""}, {"ada"}, {"ada", "bob", "", "adabob"}};
    for (u64 count = 1; count < 25; count++) lists.push_back(drawn(count * count, 3 + static_cast<unsigned>(count)));
    for (const Texts &all : lists) {
        same(of(all), all), same(of(all, 200, 99), all);
        files_of(of(all), path, [&](const auto &it) { same(it, all); });
    }
    owners(lists[3]), owners(lists.back());
    std::puts("strings: ok");
    return 0;
}
