// Trees in C++ beside plain lists of parents and children: owners, views, files, lists, threads; degrees of no tree,
// blocks that are spoilt or cut, and what is left of an owner that was moved.
#include "blocks.hpp"

#include <list>

// The degrees of a drawn tree: a node has up to `most` children, as long as there are nodes left.
static Words drawn(u64 count, u64 most)
{
    Words degrees;
    for (u64 known = 1; degrees.size() < count;) {
        u64 degree = draw() % (most + 1);
        if (degree == 0 && known == degrees.size() + 1) degree = 1;
        degrees.push_back(std::min(degree, count - known));
        known += degrees.back();
    }
    return degrees;
}

// A tree as plain lists: of the children of each node, and of each node's parent and rank among its siblings.
struct Plain {
    std::vector<Words> children;
    Words parents, ranks;
    explicit Plain(const Words &degrees) : children(degrees.size()), parents{bitm::no_answer}, ranks{bitm::no_answer}
    {
        for (u64 node = 0, next = 1; node < degrees.size(); node++)
            for (u64 k = 0; k < degrees[node]; k++, next++)
                children[node].push_back(next), parents.push_back(node), ranks.push_back(k);
    }
};
static maybe_position at(const Words &list, u64 index)
{
    return index < list.size() ? maybe_position(list[index]) : std::nullopt;
}

// Each answer that does not throw is that of the call that does.
template <class Tree> static void without_throwing(const Tree &t, u64 node)
{
    MUST(t.try_parent(node).value() == t.parent(node) && t.try_degree(node).value() == t.degree(node));
    MUST(t.try_next_sibling(node).value() == t.next_sibling(node) &&
         t.try_child_rank(node).value() == t.child_rank(node));
    MUST(t.try_previous_sibling(node).value() == t.previous_sibling(node) &&
         t.try_is_leaf(node).value() == t.is_leaf(node));
    MUST(t.try_child(node, 0).value() == t.child(node, 0) &&
         t.try_children(node).value().size() == t.children(node).size());
}

template <class Tree> static void nowhere(const Tree &t, u64 node)
{
    MUST(!t.parent(node) && !t.degree(node) && !t.is_leaf(node) && !t.next_sibling(node) && !t.previous_sibling(node));
    MUST(!t.child_rank(node) && !t.child(node, 0) && t.children(node).empty() && !t.child(0, node));
}

template <class Tree> static void lists(const Tree &t, const Words &degrees, const Plain &plain)
{
    Words nodes, ks, parents, wanted, children, out;
    for (u64 node = 0; node < degrees.size() + 2; node++) {
        const u64 k = draw() % 3;
        nodes.push_back(node), ks.push_back(k);
        parents.push_back(at(plain.parents, node).value_or(bitm::no_answer));
        wanted.push_back(at(degrees, node).value_or(bitm::no_answer));
        children.push_back(node < degrees.size() ? at(plain.children[node], k).value_or(bitm::no_answer)
                                                 : bitm::no_answer);
    }
    out.resize(nodes.size());
    t.parent(nodes, out), MUST(out == parents);
    t.degree(nodes, out), MUST(out == wanted);
    t.child(nodes, ks, out), MUST(out == children);
    t.parent(bitm::words_in(), bitm::words_out());
    Words less(nodes.size() - 1);
    MUST(throws<std::invalid_argument>([&] { t.parent(nodes, less); }) &&
         throws<std::invalid_argument>([&] { t.degree(nodes, less); }));
    MUST(throws<std::invalid_argument>([&] { t.child(nodes, ks, less); }) &&
         throws<std::invalid_argument>([&] { t.child(nodes, less, out); }));
    MUST(throws<std::invalid_argument>([&] { t.parent(nodes, nodes); }) &&
         throws<std::invalid_argument>([&] { t.child(nodes, ks, ks); }));
}

template <class Tree> static void same(const Tree &t, const Words &degrees)
{
    const Plain plain(degrees);
    MUST(t.size() == degrees.size() && !t.empty() && t.check());
    for (u64 node = 0; node < degrees.size(); node++) {
        const Words &children = plain.children[node];
        const auto siblings = node ? plain.children[plain.parents[node]] : Words();
        const u64 rank = node ? plain.ranks[node] : 0;
        MUST(t.parent(node) == (node ? maybe_position(plain.parents[node]) : std::nullopt));
        MUST(t.degree(node) == degrees[node] && t.is_leaf(node) == children.empty());
        MUST(node ? t.child_rank(node).value() == rank : !t.child_rank(node));
        const bitm::node_range found = t.children(node);
        MUST(found.size() == children.size() &&
             std::equal(found.begin(), found.end(), children.begin(), children.end()));
        for (u64 k = 0; k < children.size() + 2; k++) MUST(t.child(node, k) == at(children, k));
        MUST(t.next_sibling(node) == (node ? at(siblings, rank + 1) : std::nullopt));
        MUST(t.previous_sibling(node) == (rank ? at(siblings, rank - 1) : std::nullopt));
        without_throwing(t, node);
    }
    for (const u64 node : {u64{degrees.size()}, u64{1} << 63, ~u64{}}) nowhere(t, node), without_throwing(t, node);
    lists(t, degrees, plain);
}

static void refused()
{
    const std::vector<Words> of_none{{}, {0, 0}, {1, 1}, {0, 1}, {2, 0}, {1, 0, 1}, {~u64{}, 1}, {~u64{}, 2}};
    for (const Words &degrees : of_none) {
        const auto none = bitm::tree::try_of(degrees);
        MUST(!none && none.error().code == bitm::errc::no_tree && none.error().of == degrees.size());
        MUST(throws<std::invalid_argument>([&] { bitm::tree t(degrees); }));
    }
    const auto why = [](const Words &degrees) { return bitm::tree::try_of(degrees).error(); };
    MUST(why({0, 1}) == bitm::failure{bitm::errc::no_tree, 1, 2, "node", 1, 0, bitm::item_fault::no_child});
    MUST(why({2, 1, 0, 1}).at == 3 && why({1, 0, 1}).at == 2 && why({~u64{}, 1}).at == 0 && why({3, 0}).value == 3);
    MUST(bitm::message(why({2, 1, 0, 1})) ==
         "bitm: node 3 is a child of no node before it, or has more children than there are nodes left");
    MUST(bitm::message(why({})) == "bitm: the degrees are those of no tree");
    MUST(bitm::tree::try_map("/dev/null").error().code == bitm::errc::wrong_file);
}

// An owner that was moved, or made of nothing, has no nodes, and a view of it neither.
template <class Tree> static void of_none(const Tree &t)
{
    MUST(t.size() == 0 && t.empty() && t.check() && t.block().empty() && t == bitm::tree_view());
    for (const u64 node : {u64{0}, u64{1}, ~u64{}}) nowhere(t, node), without_throwing(t, node);
    Words out(2);
    t.parent(Words{0, 1}, out), MUST(out == Words(2, bitm::no_answer));
}

static void owners(const Words &degrees)
{
    const bitm::tree a(degrees), b(degrees.begin(), degrees.end());
    const std::list<u64> listed(degrees.begin(), degrees.end());
    MUST(a == b && a == bitm::tree(listed.begin(), listed.end()));
    copies_and_moves(
        a, [&](const auto &it) { same(it, degrees); }, [](const auto &it) { of_none(it); });
    // Changed after the call: the tree is the owner's.
    Words mine = degrees;
    const bitm::tree kept(mine);
    std::fill(mine.begin(), mine.end(), 9);
    same(kept, degrees);
}

// Answers of a block that may hold anything: inside, or an error.
static void any(const bitm::tree_view &t)
{
    const u64 n = t.size();
    const auto inside = [&](const bitm::result<maybe_position> &found) {
        if (!found)
            MUST(found.error().code == bitm::errc::wrong);
        else
            MUST(!*found || **found < n);
    };
    for (u64 node = 0; node <= n; node++) {
        inside(t.try_parent(node)), inside(t.try_degree(node)), inside(t.try_child(node, 0));
        inside(t.try_next_sibling(node)), inside(t.try_previous_sibling(node)), inside(t.try_child_rank(node));
        const auto up = t.try_parent(node);
        MUST(!up || !*up || **up < node);
        (void)t.try_is_leaf(node).has_value(), (void)t.try_children(node).has_value();
    }
    Words nodes(n + 1), out(n + 1);
    for (u64 node = 0; node <= n; node++) nodes[node] = node;
    try {
        t.degree(nodes, out);
    } catch (const bitm::wrong_tables &) {
        MUST(std::count(out.begin(), out.end(), bitm::wrong_answer) > 0);
    }
}

static void spoilt() { spoilt_blocks(bitm::tree(drawn(90, 4)), 32, 1, any); }

static void threads()
{
    const Words degrees = drawn(3000, 3);
    const bitm::tree t(degrees);
    const bitm::tree_view view = t.view();
    std::vector<std::thread> all;
    for (int i = 0; i < 4; i++) all.emplace_back([&] { same(t, degrees); });
    for (int i = 0; i < 4; i++) all.emplace_back([view, &degrees] { same(view, degrees); });
    for (std::thread &it : all) it.join();
}

int main(int, char **argv)
{
    const std::string path = argv[0] + std::string(".tree");
    refused(), spoilt(), threads();
    std::vector<Words> all{Words{0}, Words(500)};
    all[1][0] = 499; // a root with all others
    for (u64 count = 1; count < 40; count++) all.push_back(drawn(count, 1 + count % 4));
    for (const u64 most : {u64{1}, u64{3}, u64{60}}) all.push_back(drawn(2200, most));
    for (const Words &degrees : all) {
        const bitm::tree t(degrees);
        same(t, degrees), owners(degrees), files_of(t, path, [&](const auto &it) { same(it, degrees); });
    }
    std::puts("trees: ok");
    return 0;
}
