// Trees (LOUDS), each in one block of memory: an owner, and a view of a block in memory of the caller's.
//
//     const bitm::tree t{2, 0, 1, 0};                  // how many children each node has: 0 has 1 and 2, and 2 has 3
//     std::cout << t.parent(3).value() << ' ' << t.degree(0).value() << ' ' << t.child(2, 0).value() << '\n'; // 2 2 3
//     for (const std::uint64_t child : t.children(0)) std::cout << child << ' ';                              // 1 2
//
// Nodes are numbered level by level: the root is node 0, and the children of a node follow one another, after the
// children of the node before it. A tree takes about 2.6 bits a node. The file of a tree is its block, the same bytes
// from each language.
#ifndef BITM_TREE_HPP
#define BITM_TREE_HPP

#include <bitm/file.hpp>

BITM_NAMESPACE_BEGIN

// Nodes that follow one another: the children of one. A range of their numbers.
class node_range {
public:
    class iterator : public detail::at_position<iterator, std::uint64_t> {
    public:
        // Of no range.
        iterator() noexcept = default;

    private:
        friend class node_range;
        friend class detail::at_position<iterator, std::uint64_t>;
        using detail::at_position<iterator, std::uint64_t>::at_position;
        static std::uint64_t read(std::uint64_t at) noexcept { return at; }
    };
    // The types of a range.
    using value_type = std::uint64_t;
    using const_iterator = iterator;

    // No nodes; a number of nodes from one on.
    node_range() noexcept = default;
    node_range(std::uint64_t first, std::uint64_t count) noexcept : first_(first), count_(count) {}
    // How many nodes, whether there are none, and the numbers.
    std::uint64_t size() const noexcept { return count_; }
    bool empty() const noexcept { return count_ == 0; }
    iterator begin() const noexcept { return iterator(first_); }
    iterator end() const noexcept { return iterator(first_ + count_); }

private:
    std::uint64_t first_ = 0, count_ = 0;
};

namespace detail {

// The words of a tree of no nodes: what an owner or a view that was default constructed queries. It has no block.
inline constexpr std::uint64_t no_nodes[1] = {0};
inline bitm_tree tree_of_nothing() noexcept
{
    bitm_tree raw{};
    raw.words = raw.upper = raw.lower = no_nodes;
    raw.words_len = raw.upper_len = raw.lower_len = 1;
    return raw;
}
struct tree_kind : block_kind<tree_kind, bitm_tree, bitm_tree_open> {
    static constexpr kind number = kind::tree;
    static constexpr const char *name = "tree";
    static std::array<field, 1> fields(const bitm_tree &raw) noexcept { return {{{"nodes", raw.len}}}; }
    static in_block<tree_kind> nothing() noexcept { return {tree_of_nothing(), {}}; }
    static const bitm_tree &nodes(const bitm_tree &raw) noexcept { return raw; }
};

// The first node at which degrees form no tree; of none there is no node.
inline failure misfit(words_in degrees) noexcept
{
    std::uint64_t at = 0;
    if (bitm_tree_misfit(degrees.data(), degrees.size(), &at) != BITM_OK) return {errc::no_tree};
    return {errc::no_tree, at, degrees.size(), "node", degrees.data()[at], 0, item_fault::no_child};
}

// The queries of nodes, of each kind of block that has a tree in it.
template <class Self, class Kind> class node_calls : public block_calls<Self, Kind> {
public:
    // How many nodes there are, and whether there are none; all of it as C takes it, and the block.
    std::uint64_t size() const noexcept { return nodes_().len; }
    bool empty() const noexcept { return size() == 0; }
    const typename Kind::raw_type &raw() const &noexcept BITM_LIFETIMEBOUND { return this->self().own_.raw(); }
    typename Kind::raw_type raw() const &&noexcept { return this->self().own_.raw(); }
    words_in block() const noexcept { return this->self().own_.words(); }

    // The parent of a node; none at the root and where there is no such node.
    maybe_position parent(std::uint64_t node) const { return ask(bitm_tree_parent, node); }
    result<maybe_position> try_parent(std::uint64_t node) const noexcept { return try_ask(bitm_tree_parent, node); }
    // Child k of a node, counted from 0; none where it has no more than k children, or there is no such node.
    maybe_position child(std::uint64_t node, std::uint64_t k) const
    {
        std::uint64_t out = 0;
        const std::uint32_t status = bitm_tree_child(&nodes_(), node, k, &out);
        return found(status, out);
    }
    result<maybe_position> try_child(std::uint64_t node, std::uint64_t k) const noexcept
    {
        std::uint64_t out = 0;
        const std::uint32_t status = bitm_tree_child(&nodes_(), node, k, &out);
        return tried(status, out);
    }
    // How many children a node has; none where there is no such node.
    maybe_position degree(std::uint64_t node) const { return ask(bitm_tree_degree, node); }
    result<maybe_position> try_degree(std::uint64_t node) const noexcept { return try_ask(bitm_tree_degree, node); }
    // The children of a node, which follow one another: no nodes where it has none, or there is no such node.
    node_range children(std::uint64_t node) const { return try_children(node).value(); }
    result<node_range> try_children(std::uint64_t node) const noexcept
    {
        std::uint64_t first = 0, count = 0;
        std::uint32_t status = bitm_tree_degree(&nodes_(), node, &count);
        if (status == BITM_OK && count > 0) status = bitm_tree_child(&nodes_(), node, 0, &first);
        if (status > BITM_NONE) return error_of(status);
        return status == BITM_OK ? node_range(first, count) : node_range();
    }
    // Whether a node has no children; none where there is no such node.
    std::optional<bool> is_leaf(std::uint64_t node) const { return try_is_leaf(node).value(); }
    result<std::optional<bool>> try_is_leaf(std::uint64_t node) const noexcept
    {
        std::uint64_t out = 0;
        const std::uint32_t status = bitm_tree_is_leaf(&nodes_(), node, &out);
        if (status > BITM_NONE) return error_of(status);
        return status == BITM_OK ? std::optional<bool>(out != 0) : std::optional<bool>();
    }
    // The child of a node's parent after it, or before it; none where there is none, and at the root.
    maybe_position next_sibling(std::uint64_t node) const { return ask(bitm_tree_next_sibling, node); }
    maybe_position previous_sibling(std::uint64_t node) const { return ask(bitm_tree_previous_sibling, node); }
    result<maybe_position> try_next_sibling(std::uint64_t node) const noexcept
    {
        return try_ask(bitm_tree_next_sibling, node);
    }
    result<maybe_position> try_previous_sibling(std::uint64_t node) const noexcept
    {
        return try_ask(bitm_tree_previous_sibling, node);
    }
    // Which child of its parent a node is, counted from 0; none at the root and where there is no such node.
    maybe_position child_rank(std::uint64_t node) const { return ask(bitm_tree_child_rank, node); }
    result<maybe_position> try_child_rank(std::uint64_t node) const noexcept
    {
        return try_ask(bitm_tree_child_rank, node);
    }

    // Lists, into memory of the caller's as long as the nodes: bitm::no_answer where there is none. Where the block is
    // noticed to be wrong, the call fails once all is answered. Of children, ks[i] is which child of nodes[i].
    void parent(words_in nodes, words_out out) const { list(bitm_tree_parent_list, nodes, out); }
    void degree(words_in nodes, words_out out) const { list(bitm_tree_degree_list, nodes, out); }
    void child(words_in nodes, words_in ks, words_out out) const
    {
        need_apart(nodes, out), need_apart(ks, out);
        if (BITM_RARELY(ks.size() != nodes.size())) fail(bad_size("there is not one k for each node"));
        bitm_list_counts counts{};
        const std::uint32_t status = bitm_tree_child_list(&nodes_(), nodes.data(), nodes.size(), ks.data(), ks.size(),
                                                          out.data(), out.size(), &counts);
        need_list(status, counts);
    }

private:
    const bitm_tree &nodes_() const noexcept { return Kind::nodes(raw()); }
    using node_call = std::uint32_t (*)(const bitm_tree *, std::size_t, std::uint64_t *);
    maybe_position ask(node_call call, std::uint64_t node) const
    {
        std::uint64_t out = 0;
        const std::uint32_t status = call(&nodes_(), node, &out);
        return found(status, out);
    }
    result<maybe_position> try_ask(node_call call, std::uint64_t node) const noexcept
    {
        std::uint64_t out = 0;
        const std::uint32_t status = call(&nodes_(), node, &out);
        return tried(status, out);
    }
    template <class Call> void list(Call call, words_in queries, words_out out) const
    {
        answer_list(call, queries, out, &nodes_());
    }
};

template <class Self> class tree_calls : public node_calls<Self, tree_kind> {
public:
    // Whether the block is as it was written and holds a tree: looks at all of it, three times.
    bool check() const noexcept { return checked(bitm_tree_check, this->block()); }
};

} // namespace detail

// A tree whose block is in memory of the caller's, who keeps it: a mapped file, say.
class BITM_POINTER tree_view : public detail::tree_calls<tree_view> {
public:
    // Of no nodes; of the block that begins the words: fails where they begin with no whole block of a tree.
    // For an owner, call `view()`, not `in(x.block())`: only then compilers warn if the view outlives its owner.
    tree_view() noexcept = default;
    static result<tree_view> try_in(detail::kept<const std::uint64_t> file BITM_LIFETIMEBOUND) noexcept
    {
        const auto found = detail::tree_kind::in(file.data(), file.size());
        if (!found) return found.error();
        return tree_view(*found);
    }
    static tree_view in(detail::kept<const std::uint64_t> file BITM_LIFETIMEBOUND) { return try_in(file).value(); }

private:
    friend class tree;
    friend class detail::node_calls<tree_view, detail::tree_kind>;
    explicit tree_view(const detail::in_block<detail::tree_kind> &found) noexcept : own_(found) {}

    detail::in_block<detail::tree_kind> own_;
};

// A tree that owns its block, made from how many children each node has.
class BITM_OWNER tree : public detail::tree_calls<tree>, public detail::stored_calls<tree, detail::tree_kind> {
public:
    // Of no nodes; of the degrees of the nodes, as words, a list or iterators: fails where they form no tree.
    tree() noexcept = default;
    explicit tree(words_in degrees) : tree(try_of(degrees).value()) {}
    tree(std::initializer_list<std::uint64_t> degrees) : tree(words_in(degrees.begin(), degrees.size())) {}
    template <class It, class = typename std::iterator_traits<It>::iterator_category> tree(It first, It last)
        : tree(detail::gathered::of(first, last))
    {
        static_assert(std::is_unsigned_v<typename std::iterator_traits<It>::value_type>, "numbers without a sign");
    }
    static result<tree> try_of(words_in degrees)
    {
        std::uint64_t len = 0;
        if (bitm_tree_size(degrees.size(), &len) != BITM_OK) return detail::bad_size("2^60 nodes or more");
        detail::block all(len);
        const std::uint32_t status = bitm_tree_build(degrees.data(), degrees.size(), all.data(), all.size());
        if (status == BITM_WRONG) return detail::misfit(degrees);
        if (status != BITM_OK) return detail::error_of(status);
        return opened(std::move(all), verify::no);
    }

    // A view, which the owner has to outlive; the block, and all of it as C takes it. Deleted for temporaries.
    tree_view view() const &noexcept BITM_LIFETIMEBOUND { return tree_view(own_.found()); }
    words_in block() const &noexcept BITM_LIFETIMEBOUND { return own_.words(); }
    const bitm_tree &raw() const &noexcept BITM_LIFETIMEBOUND { return own_.raw(); }
    void view() const && = delete;
    void block() const && = delete;
    void raw() const && = delete;

private:
    friend class detail::node_calls<tree, detail::tree_kind>;
    explicit tree(const detail::gathered &degrees) : tree(words_in(degrees.data(), degrees.size())) {}
};

BITM_NAMESPACE_END

#if __cplusplus >= 202002L
template <> inline constexpr bool std::ranges::enable_borrowed_range<bitm::node_range> = true;
template <> inline constexpr bool std::ranges::enable_view<bitm::node_range> = true;
#endif

#endif
