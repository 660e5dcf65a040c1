// Tries in C++ beside a map of words: owners, made of words or of parts, views, files, threads; words that do not rise,
// parts that are those of no trie, blocks that are spoilt or cut, and what is left of an owner that was moved.
#include "blocks.hpp"

#include <map>
#include <set>

using Word = std::vector<u64>;

// A trie as a map of the beginnings of its words, in the order of the nodes: shorter ones first.
struct Shorter {
    bool operator()(const Word &a, const Word &b) const { return a.size() != b.size() ? a.size() < b.size() : a < b; }
};
struct Plain {
    std::map<Word, u64, Shorter> nodes;
    std::vector<Word> words;
    Words degrees, labels, ends;
    std::uint32_t width = 0;
    bool has_ends = true;
};

static Plain plain_of(const std::vector<Word> &words, std::uint32_t width, bool has_ends)
{
    Plain p;
    p.width = width, p.has_ends = has_ends, p.nodes[{}] = 0;
    for (const Word &word : words)
        for (std::size_t len = 1; len <= word.size(); len++)
            p.nodes[Word(word.begin(), word.begin() + static_cast<long>(len))];
    for (auto &[word, node] : p.nodes) node = p.words.size(), p.words.push_back(word);
    p.degrees.resize(p.words.size());
    for (const Word &word : p.words)
        if (!word.empty()) p.labels.push_back(word.back()), p.degrees[p.nodes[Word(word.begin(), word.end() - 1)]]++;
    if (has_ends) p.ends.resize((p.words.size() + 63) / 64);
    for (const Word &word : words)
        if (has_ends) p.ends[p.nodes[word] / 64] |= u64{1} << p.nodes[word] % 64;
    return p;
}

// Words of few different labels, so that they share beginnings.
static Plain drawn(std::size_t count, std::uint32_t width, bool has_ends)
{
    std::vector<Word> words(count);
    const u64 kinds = std::min<u64>(4, u64{1} << width), most = (u64{1} << width) - 1;
    for (Word &word : words) {
        word.resize(draw() % 6);
        for (u64 &label : word) label = draw() % 16 ? draw() % kinds : draw() & most;
    }
    return plain_of(words, width, has_ends);
}

static bitm::trie made(const Plain &p) { return {p.degrees, p.labels, p.width, p.ends}; }

// The node of a word by the map, and of its longest beginning that has one.
static maybe_position node_of(const Plain &p, const Word &word)
{
    const auto at = p.nodes.find(word);
    return at == p.nodes.end() ? std::nullopt : maybe_position(at->second);
}
static bitm::trie_match longest_of(const Plain &p, Word word)
{
    for (;; word.pop_back())
        if (const auto node = node_of(p, word)) return {*node, word.size()};
}

template <class Trie> static void word_as(const Trie &t, const Plain &p, const Word &word)
{
    const maybe_position node = node_of(p, word);
    MUST(t.find_labels(word) == node && t.longest_labels(word) == longest_of(p, word));
    MUST(t.contains_labels(word) == (node && p.has_ends && p.ends[*node / 64] >> *node % 64 & 1));
    MUST(t.try_contains_labels(word).value() == t.contains_labels(word));
    MUST(t.try_find_labels(word).value() == t.find_labels(word));
    MUST(t.try_longest_labels(word).value() == t.longest_labels(word));
    std::string bytes;
    for (const u64 label : word)
        if (label > 255)
            return;
        else
            bytes.push_back(static_cast<char>(label));
    MUST(t.find(bytes) == node_of(p, word) && t.longest(bytes) == longest_of(p, word));
    MUST(t.contains(bytes) == t.contains_labels(word) && t.try_contains(bytes).value() == t.contains(bytes));
    MUST(t.try_find(bytes).value() == t.find(bytes) && t.try_longest(bytes).value() == t.longest(bytes));
}

template <class Trie> static void nowhere(const Trie &t, u64 node)
{
    Words out(3, 7);
    MUST(!t.label(node) && !t.is_end(node) && !t.child_by_label(node, 0) && !t.word(node, out) && out == Words(3, 7));
    MUST(!t.parent(node) && !t.degree(node) && t.children(node).empty());
}

template <class Trie> static void same(const Trie &t, const Plain &p)
{
    MUST(t.size() == p.words.size() && !t.empty() && t.check() && t.width() == p.width && t.has_ends() == p.has_ends);
    for (u64 node = 0; node < t.size(); node++) {
        const Word &word = p.words[node];
        MUST(t.label(node) == (node ? maybe_position(word.back()) : std::nullopt));
        MUST(t.try_label(node).value() == t.label(node) && t.try_is_end(node).value() == t.is_end(node));
        MUST(t.is_end(node) == (p.has_ends ? std::optional<bool>(p.ends[node / 64] >> node % 64 & 1) : std::nullopt));
        MUST(t.degree(node) == p.degrees[node] && t.word(node) == word.size());
        for (const u64 child : t.children(node)) {
            MUST(t.parent(child) == node && t.child_by_label(node, p.words[child].back()) == child);
            MUST(t.try_child_by_label(node, p.words[child].back()).value() == child);
        }
        Words out(word.size() + draw() % 3, 9), wanted(out);
        std::copy(word.begin(), word.end(), wanted.end() - static_cast<long>(word.size()));
        MUST(t.word(node, out) == word.size() && out == wanted);
        Word other = word;
        word_as(t, p, word), other.push_back(draw() % 3), word_as(t, p, other), other.push_back(draw());
        word_as(t, p, other), other.front() ^= 1, word_as(t, p, other);
    }
    for (const u64 node : {u64{t.size()}, u64{1} << 63, ~u64{}}) nowhere(t, node);
}

// ---- of words

// Words of bytes: those of each of a few lengths, or of any byte.
static std::set<std::string> drawn_words(std::size_t count, unsigned longest, bool is_any_byte)
{
    std::set<std::string> all;
    for (std::size_t i = 0; i < count; i++) {
        std::string word;
        for (u64 len = draw() % (longest + 1); len > 0; len--)
            word += static_cast<char>(is_any_byte ? draw() : 'a' + draw() % 3);
        all.insert(word);
    }
    return all;
}

static Plain plain_of_bytes(const std::set<std::string> &words)
{
    std::vector<Word> all;
    for (const std::string &word : words) {
        all.emplace_back();
        for (const char letter : word) all.back().push_back(static_cast<unsigned char>(letter));
    }
    return plain_of(all, 8, true);
}

// The trie of words has those of its words that it should, and is the one of the same parts.
static void of_words(const std::set<std::string> &words)
{
    const Plain p = plain_of_bytes(words);
    const bitm::trie t = bitm::trie::of_words(words);
    const std::vector<std::string_view> views(words.begin(), words.end());
    MUST(t == made(p) && t == bitm::trie::of_words(views) && t == bitm::trie::of_words(words.begin(), words.end()));
    MUST(t == bitm::trie::try_of_words(views).value() && t.view().check());
    same(t, p);
    for (const std::string &word : words) MUST(t.contains(word) && t.contains(word + '\0') == words.count(word + '\0'));
}

// Words that are made as they are read, and an array.
static void words_of_any_kind()
{
    std::istringstream text("a b be");
    const char *const list[] = {"a", "b", "be"};
    const bitm::trie t =
        bitm::trie::of_words(std::istream_iterator<std::string>(text), std::istream_iterator<std::string>());
    MUST(t == bitm::trie::of_words(list) && t == bitm::trie::of_words(std::begin(list), std::end(list)));
    MUST(t.contains("be") && t.view().contains("b") && !t.view().contains("e") && !bitm::trie_view().contains(""));
}

static void many_words()
{
    std::set<std::string> words;
    while (words.size() < 100000) words.insert(std::to_string(draw() % 1000000));
    const bitm::trie t = bitm::trie::of_words(words);
    u64 ends = 0;
    for (u64 node = 0; node < t.size(); node++) ends += t.is_end(node).value();
    MUST(t.check() && t.size() < 1111111 && ends == words.size());
    for (u64 number = 0; number < 1000000; number += 1 + draw() % 9)
        MUST(t.contains(std::to_string(number)) == (words.count(std::to_string(number)) > 0));
}

static void words_that_do_not_rise()
{
    const auto at = [](const std::vector<std::string> &words) {
        const auto none = bitm::trie::try_of_words(words);
        MUST(!none && none.error().code == bitm::errc::unsorted && none.error().of == words.size());
        MUST(none.error().item == bitm::item_fault::not_after);
        MUST(throws<std::invalid_argument>([&] { (void)bitm::trie::of_words(words); }));
        return none.error().at;
    };
    MUST(at({"b", "a"}) == 1 && at({"a", "a"}) == 1 && at({"", ""}) == 1 && at({"a", "b", "c", "bc"}) == 3);
    const std::vector<std::string> swapped{"a", "c", "b"};
    MUST(bitm::message(bitm::trie::try_of_words(swapped).error()) == "bitm: word 2 does not stand after word 1");
    MUST(at({"ab", "a"}) == 1 && at({"a", "", "b"}) == 1 && at({"a", "\xc3\xa4", "z"}) == 2); // bytes have no sign
    MUST(bitm::trie::of_words({"z", "\xc3\xa4", "\xff"}).contains("\xc3\xa4"));
    const bitm::trie none = bitm::trie::of_words({}), empty = bitm::trie::of_words({""}),
                     zero = bitm::trie::of_words({"a", {"a\0", 2}});
    MUST(none.size() == 1 && none.has_ends() && !none.contains("") && none.find("") == 0 && none.check());
    MUST(empty.size() == 1 && empty.contains("") && !empty.contains("a") && empty != none);
    MUST(zero.size() == 3 && zero.contains({"a\0", 2}) && !zero.contains({"a\0\0", 3}) && !zero.contains({"\0", 1}));
}

static void refused()
{
    const Words degrees{2, 0, 1, 0}, labels{97, 98, 101}, ends{14};
    const auto why = [](const auto &none) { return none ? bitm::errc::none : none.error().code; };
    MUST(why(bitm::trie::try_of(degrees, labels, 8, ends)) == bitm::errc::none);
    MUST(why(bitm::trie::try_of(degrees, labels, 0, ends)) == bitm::errc::bad_size);
    MUST(why(bitm::trie::try_of(degrees, labels, 64, ends)) == bitm::errc::bad_size);
    MUST(why(bitm::trie::try_of(degrees, labels, 8, Words{1, 2})) == bitm::errc::bad_size);
    MUST(why(bitm::trie::try_of(degrees, Words{97, 98}, 8, ends)) == bitm::errc::bad_size);
    MUST(why(bitm::trie::try_of(degrees, labels, 6, ends)) == bitm::errc::no_tree);
    MUST(why(bitm::trie::try_of(degrees, Words{98, 98, 101}, 8, ends)) == bitm::errc::no_tree);
    MUST(why(bitm::trie::try_of(Words{0, 1}, Words{1}, 8)) == bitm::errc::no_tree);
    MUST(why(bitm::trie::try_of(Words{}, Words{}, 8)) == bitm::errc::no_tree);
    MUST(throws<std::invalid_argument>([&] { bitm::trie t(degrees, labels, 6, ends); }));
    const auto text = [](const Words &children, const Words &letters) {
        return bitm::message(bitm::trie::try_of(children, letters, 8).error());
    };
    MUST(text(degrees, {97, 98, 300}) == "bitm: label 2 (300) has more than 8 bits");
    MUST(text(degrees, {98, 97, 101}) == "bitm: label 1 (97) is not above label 0 (98)");
    MUST(text({1, 2, 0, 0}, {9, 5, 5}) == "bitm: label 2 (5) is not above label 1 (5)");
    MUST(text({0, 1}, {300}).find("bitm: node 1 is a child of no node") == 0);
    MUST(text({}, {}) == "bitm: the degrees are those of no tree");
    MUST(!bitm::trie(degrees, labels, 8).contains("be") && bitm::trie(degrees, labels, 8, ends).contains("be"));
    MUST(!bitm::trie(degrees, labels, 8).has_ends() && bitm::trie(degrees, labels, 8, ends).find("be") == 3);
    MUST(bitm::trie::try_map("/dev/null").error().code == bitm::errc::wrong_file);
}

// An owner that was moved, or made of nothing, has no nodes, and a view of it neither.
template <class Trie> static void of_none(const Trie &t)
{
    MUST(t.size() == 0 && t.empty() && t.check() && t.block().empty() && t == bitm::trie_view() && !t.has_ends());
    for (const u64 node : {u64{0}, u64{1}, ~u64{}}) nowhere(t, node);
    MUST(!t.find("") && !t.find("a") && !t.contains("") && t.longest("ab") == bitm::trie_match());
}

// Answers of a block that may hold anything: inside, or an error.
static void any(const bitm::trie_view &t)
{
    const u64 n = t.size();
    const auto inside = [&](const auto &found, u64 limit) {
        if (!found)
            MUST(found.error().code == bitm::errc::wrong);
        else
            MUST(!*found || **found < limit);
    };
    for (u64 node = 0; node <= n; node++) {
        Words out(draw() % 4);
        inside(t.try_label(node), u64{1} << t.width()), inside(t.try_is_end(node), 2);
        inside(t.try_child_by_label(node, draw() % 4), n), inside(t.try_word(node, out), node + 1);
        inside(t.try_parent(node), node + !node), inside(t.try_degree(node), n);
        const Word word{draw() % 4, draw() % 4};
        inside(t.try_find_labels(word), n), inside(t.try_find("ab"), n);
        const auto contains = t.try_contains_labels(word);
        MUST(contains || contains.error().code == bitm::errc::wrong);
        const auto longest = t.try_longest_labels(word);
        MUST(!longest || (longest->node < n && longest->count <= 2));
    }
}

static void threads()
{
    const Plain p = drawn(400, 8, true);
    const bitm::trie t = made(p);
    const bitm::trie_view view = t.view();
    std::vector<std::thread> all;
    for (int i = 0; i < 4; i++)
        all.emplace_back([&, i] {
            for (const auto &[word, node] : p.nodes)
                MUST(i % 2 ? t.find_labels(word) == node : view.find_labels(word) == node);
        });
    for (std::thread &it : all) it.join();
}

int main(int, char **argv)
{
    const std::string path = argv[0] + std::string(".trie");
    for (unsigned i = 0; i < 40; i++) of_words(drawn_words(i * i, 1 + i % 7, i % 2));
    words_of_any_kind(), words_that_do_not_rise(), many_words();
    refused(), threads(), spoilt_blocks(made(drawn(12, 8, true)), 40, 3, any);
    std::vector<Plain> all{plain_of({{}}, 1, true), plain_of({{0}, {1, 1, 0}}, 1, false)};
    for (std::size_t i = 0; i < 24; i++)
        all.push_back(drawn(1 + draw() % 90, std::vector<std::uint32_t>{1, 2, 8, 13, 63}[i % 5], i % 3));
    for (const Plain &p : all) {
        const bitm::trie t = made(p);
        same(t, p), files_of(t, path, [&](const auto &it) { same(it, p); });
        copies_and_moves(
            t, [&](const auto &it) { same(it, p); }, [](const auto &it) { of_none(it); });
    }
    std::puts("tries: ok");
    return 0;
}
