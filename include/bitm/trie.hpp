// Tries, sets of words, each in one block of memory: an owner, and a view of a block in memory of the caller's.
//
//     const bitm::trie words = bitm::trie::of_words({"a", "b", "be"}); // sorted, each once
//     std::cout << words.contains("be") << ' ' << words.contains("bee") << '\n';                     // 1 0
//     std::cout << words.find("be").value() << ' ' << words.is_end(3).value() << '\n';               // 3 1
//     std::cout << words.longest("bee").count << ' ' << words.parent(3).value() << '\n';             // 2 2
//     // the same, of its parts: a tree, the letters of the nodes 1 to 3, of 8 bits each, and which nodes end a word
//     const std::vector<std::uint64_t> children{2, 0, 1, 0}, letters{'a', 'b', 'e'}, ends{14};
//     std::cout << (bitm::trie(children, letters, 8, ends) == words) << '\n';                       // 1
//
// A trie is a tree in which each node but the root has a label, and the labels of the children of a node ascend; so a
// word leads from the root to at most one node. Labels are bytes, or numbers of at most 63 bits; calls that end in
// _labels take words of numbers. A trie has the queries of a tree. Its file is its block, the same bytes from each
// language.
#ifndef BITM_TRIE_HPP
#define BITM_TRIE_HPP

#include <bitm/tree.hpp>

#include <string>
#include <string_view>

BITM_NAMESPACE_BEGIN

// The node to which the first `count` labels of a word lead.
struct trie_match {
    // The node.
    std::uint64_t node = 0;
    // How many labels lead there.
    std::uint64_t count = 0;
    friend bool operator==(const trie_match &a, const trie_match &b) noexcept
    {
        return a.node == b.node && a.count == b.count;
    }
    friend bool operator!=(const trie_match &a, const trie_match &b) noexcept { return !(a == b); }
};

namespace detail {

// What an owner or a view that was default constructed queries: a trie of no nodes, which has no block.
struct trie_kind : block_kind<trie_kind, bitm_trie, bitm_trie_open> {
    static constexpr kind number = kind::trie;
    static constexpr const char *name = "trie";
    static std::array<field, 2> fields(const bitm_trie &raw) noexcept
    {
        return {{{"nodes", raw.tree.len}, {"width", raw.width}}};
    }
    static in_block<trie_kind> nothing() noexcept
    {
        bitm_trie raw{};
        raw.tree = tree_of_nothing();
        raw.width = 1;
        return {raw, {}};
    }
    static const bitm_tree &nodes(const bitm_trie &raw) noexcept { return raw.tree; }
};

inline const std::uint8_t *labels_of(std::string_view word) noexcept
{
    return reinterpret_cast<const std::uint8_t *>(word.data());
}

// Containers whose items convert to std::string_view.
template <class Words> using item_as_word = decltype(std::string_view(*std::begin(std::declval<const Words &>())));

template <class Self> class trie_calls : public node_calls<Self, trie_kind> {
public:
    // How many bits a label has, and whether there is a bit for each node that says whether a word ends there.
    std::uint64_t width() const noexcept { return trie().width; }
    bool has_ends() const noexcept { return trie().ends_len > 0; }

    // The label of a node; none at the root and where there is no such node.
    maybe_position label(std::uint64_t node) const { return try_label(node).value(); }
    result<maybe_position> try_label(std::uint64_t node) const noexcept
    {
        std::uint64_t out = 0;
        const std::uint32_t status = bitm_trie_label(&trie(), node, &out);
        return tried(status, out);
    }
    // Whether a word ends at a node; none where there is no such node, or no ends.
    std::optional<bool> is_end(std::uint64_t node) const { return try_is_end(node).value(); }
    result<std::optional<bool>> try_is_end(std::uint64_t node) const noexcept
    {
        std::uint64_t out = 0;
        const std::uint32_t status = bitm_trie_is_end(&trie(), node, &out);
        if (status > BITM_NONE) return error_of(status);
        return status == BITM_OK ? std::optional<bool>(out != 0) : std::optional<bool>();
    }
    // The child of a node with a label; none where no child has it, or there is no such node.
    maybe_position child_by_label(std::uint64_t node, std::uint64_t label) const
    {
        std::uint64_t out = 0;
        const std::uint32_t status = bitm_trie_child(&trie(), node, label, &out);
        return found(status, out);
    }
    result<maybe_position> try_child_by_label(std::uint64_t node, std::uint64_t label) const noexcept
    {
        std::uint64_t out = 0;
        const std::uint32_t status = bitm_trie_child(&trie(), node, label, &out);
        return tried(status, out);
    }
    // The node to which a word leads from the root; none where it leads to none.
    maybe_position find(std::string_view word) const { return try_find(word).value(); }
    maybe_position find_labels(words_in word) const { return try_find_labels(word).value(); }
    result<maybe_position> try_find(std::string_view word) const noexcept
    {
        std::uint64_t out = 0;
        const std::uint32_t status = bitm_trie_find_bytes(&trie(), labels_of(word), word.size(), &out);
        return tried(status, out);
    }
    result<maybe_position> try_find_labels(words_in word) const noexcept
    {
        std::uint64_t out = 0;
        const std::uint32_t status = bitm_trie_find(&trie(), word.data(), word.size(), &out);
        return tried(status, out);
    }
    // Whether it is one of the words: it leads to a node, and a word ends there. A trie without ends has no words.
    bool contains(std::string_view word) const { return try_contains(word).value(); }
    bool contains_labels(words_in word) const { return try_contains_labels(word).value(); }
    result<bool> try_contains(std::string_view word) const noexcept { return try_ends_at(try_find(word)); }
    result<bool> try_contains_labels(words_in word) const noexcept { return try_ends_at(try_find_labels(word)); }
    // The deepest node to which a beginning of a word leads from the root, and how many labels lead there: all of them
    // where the word leads to a node. Of no nodes it is node 0, with no labels.
    trie_match longest(std::string_view word) const { return try_longest(word).value(); }
    trie_match longest_labels(words_in word) const { return try_longest_labels(word).value(); }
    result<trie_match> try_longest(std::string_view word) const noexcept
    {
        trie_match out;
        const auto *const bytes = labels_of(word);
        const std::uint32_t status = bitm_trie_longest_bytes(&trie(), bytes, word.size(), &out.node, &out.count);
        if (status > BITM_NONE) return error_of(status);
        return out;
    }
    result<trie_match> try_longest_labels(words_in word) const noexcept
    {
        trie_match out;
        const std::uint32_t status = bitm_trie_longest(&trie(), word.data(), word.size(), &out.node, &out.count);
        if (status > BITM_NONE) return error_of(status);
        return out;
    }
    // How many labels lead from the root to a node; none where there is no such node. They are the last of memory of
    // the caller's, where there is room for them.
    maybe_position word(std::uint64_t node, words_out out = {}) const { return try_word(node, out).value(); }
    result<maybe_position> try_word(std::uint64_t node, words_out out = {}) const noexcept
    {
        std::uint64_t len = 0;
        const std::uint32_t status = bitm_trie_word(&trie(), node, out.data(), out.size(), &len);
        return tried(status, len);
    }

    // Whether the block is as it was written and holds a trie: looks at all of it, four times.
    bool check() const noexcept { return checked(bitm_trie_check, this->block()); }

private:
    const bitm_trie &trie() const noexcept { return this->raw(); }
    result<bool> try_ends_at(const result<maybe_position> &node) const noexcept
    {
        if (!node) return node.error();
        if (!*node) return false;
        const result<std::optional<bool>> end = try_is_end(**node);
        if (!end) return end.error();
        return end->value_or(false);
    }
};

} // namespace detail

// A trie whose block is in memory of the caller's, who keeps it: a mapped file, say.
class BITM_POINTER trie_view : public detail::trie_calls<trie_view> {
public:
    // Of no nodes; of the block that begins the words: fails where they begin with no whole block of a trie.
    // For an owner, call `view()`, not `in(x.block())`: only then compilers warn if the view outlives its owner.
    trie_view() noexcept = default;
    static result<trie_view> try_in(detail::kept<const std::uint64_t> file BITM_LIFETIMEBOUND) noexcept
    {
        const auto found = detail::trie_kind::in(file.data(), file.size());
        if (!found) return found.error();
        return trie_view(*found);
    }
    static trie_view in(detail::kept<const std::uint64_t> file BITM_LIFETIMEBOUND) { return try_in(file).value(); }

private:
    friend class trie;
    friend class detail::node_calls<trie_view, detail::trie_kind>;
    explicit trie_view(const detail::in_block<detail::trie_kind> &found) noexcept : own_(found) {}

    detail::in_block<detail::trie_kind> own_;
};

// A trie that owns its block, made of words; or from how many children each node has, and the labels of the nodes from
// 1 on.
class BITM_OWNER trie : public detail::trie_calls<trie>, public detail::stored_calls<trie, detail::trie_kind> {
public:
    // Of no nodes; of the degrees of the nodes, the labels of nodes 1 and up, of `width` bits each, 1 to 63, and,
    // lowest first, a bit for each node that says whether a word ends there, or no such bits. Fails where the degrees
    // form no tree, or the labels of the children of a node do not ascend.
    trie() noexcept = default;
    trie(words_in degrees, words_in labels, std::uint32_t width, words_in ends = {})
        : trie(try_of(degrees, labels, width, ends).value())
    {
    }
    static result<trie> try_of(words_in degrees, words_in labels, std::uint32_t width, words_in ends = {})
    {
        std::uint64_t len = 0;
        if (bitm_trie_size(degrees.size(), width, !ends.empty(), &len) != BITM_OK)
            return detail::bad_size("2^57 nodes or more, or a width that is not 1 to 63");
        detail::block all(len);
        const std::uint32_t status = bitm_trie_build(degrees.data(), degrees.size(), labels.data(), labels.size(),
                                                     width, ends.data(), ends.size(), all.data(), all.size());
        if (status == BITM_WRONG) return no_trie(degrees, labels, width);
        if (status != BITM_OK)
            return detail::bad_size("the labels are not one for each node but the root, or the ends not a bit for "
                                    "each node");
        return opened(std::move(all), verify::no);
    }

    // Of words, with labels of 8 bits and ends: iterators, a container or a list of what converts to std::string_view,
    // each read once. They have to ascend by their bytes, each once, as in a std::set<std::string>; the empty word
    // may be among them. Fails with errc::unsorted, `at` the first word that does not stand after the one before it,
    // and item_fault::not_after. Needs memory for a copy of the words, and three numbers a node and one a word besides.
    template <class It> static trie of_words(It first, It last) { return try_of_words(first, last).value(); }
    template <class Words, class = detail::item_as_word<Words>> static trie of_words(const Words &words)
    {
        return try_of_words(words).value();
    }
    static trie of_words(std::initializer_list<std::string_view> words) { return try_of_words(words).value(); }
    template <class It> static result<trie> try_of_words(It first, It last)
    {
        std::string bytes;
        detail::gathered starts;
        for (starts.push(0); first != last; ++first) {
            bytes += std::string_view(*first);
            starts.push(bytes.size());
        }
        return grown(bytes, words_in(starts.data(), starts.size()));
    }
    template <class Words, class = detail::item_as_word<Words>> static result<trie> try_of_words(const Words &words)
    {
        return try_of_words(std::begin(words), std::end(words));
    }
    static result<trie> try_of_words(std::initializer_list<std::string_view> words)
    {
        return try_of_words(words.begin(), words.end());
    }

    // A view, which the owner has to outlive; the block, and all of it as C takes it. Deleted for temporaries.
    trie_view view() const &noexcept BITM_LIFETIMEBOUND { return trie_view(own_.found()); }
    words_in block() const &noexcept BITM_LIFETIMEBOUND { return own_.words(); }
    const bitm_trie &raw() const &noexcept BITM_LIFETIMEBOUND { return own_.raw(); }
    void view() const && = delete;
    void block() const && = delete;
    void raw() const && = delete;

private:
    friend class detail::node_calls<trie, detail::trie_kind>;

    // The trie of words that stand one after another: where each begins, and where the last one ends.
    static result<trie> grown(const std::string &bytes, words_in starts)
    {
        const std::uint8_t *const from = detail::labels_of(bytes);
        std::uint64_t nodes = 0, len = 0;
        std::uint32_t status = bitm_trie_nodes_of_words(from, bytes.size(), starts.data(), starts.size(), &nodes);
        if (status == BITM_UNSORTED) return unsorted(bytes, starts);
        if (status == BITM_OK) status = bitm_trie_size(nodes, 8, true, &len);
        if (status != BITM_OK) return detail::bad_size("2^57 nodes or more");
        const detail::block scratch(3 * nodes - 2 + (nodes + 63) / 64);
        detail::block all(len);
        status = bitm_trie_build_words(from, bytes.size(), starts.data(), starts.size(), scratch.data(), scratch.size(),
                                       all.data(), all.size());
        if (status != BITM_OK) return detail::error_of(status);
        return opened(std::move(all), verify::no);
    }
    // The first word that does not stand after the one before it.
    static failure unsorted(std::string_view bytes, words_in starts) noexcept
    {
        std::uint64_t at = 0;
        const std::uint32_t status =
            bitm_trie_unsorted_word(detail::labels_of(bytes), bytes.size(), starts.data(), starts.size(), &at);
        if (status != BITM_OK) return {errc::unsorted};
        return {errc::unsorted, at, starts.size() - 1, "word", 0, 0, item_fault::not_after};
    }
    // Why parts of right lengths form no trie: the first node, or the first label, that does not fit.
    static failure no_trie(words_in degrees, words_in labels, std::uint32_t width) noexcept
    {
        const failure node = detail::misfit(degrees);
        if (node.item != item_fault::none || degrees.empty()) return node;
        const failure wide = detail::too_wide(labels, width, errc::no_tree, "label");
        return wide.item != item_fault::none ? wide : falling_label(degrees, labels);
    }
    // The first label that is not above the label of the child before it; the degrees form a tree.
    static failure falling_label(words_in degrees, words_in labels) noexcept
    {
        const std::uint64_t *child = labels.data();
        for (const std::uint64_t degree : degrees) {
            for (std::uint64_t k = 1; k < degree; k++) {
                const std::uint64_t at = static_cast<std::uint64_t>(child - labels.data()) + k;
                if (child[k] <= child[k - 1])
                    return {errc::no_tree, at, labels.size(), "label", child[k], child[k - 1], item_fault::not_above};
            }
            child += degree;
        }
        return {errc::no_tree};
    }
};

BITM_NAMESPACE_END

#endif
