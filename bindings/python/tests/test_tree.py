"""Tree beside plain lists of parents and children; files and buffers of blocks, of which bytes were changed or cut off."""
import array
import random

import pytest
from block_values import answer_of, over_each_change, refuses_once_closed, stored_and_copied

from bitm import Tree


def drawn(count, most, seed):
    """The degrees of a drawn tree: a node has up to `most` children, as long as there are nodes left."""
    draw, degrees, known = random.Random(seed), [], 1
    for node in range(count):
        degree = draw.randint(0, most)
        if degree == 0 and known == node + 1:
            degree = 1
        degrees.append(min(degree, count - known))
        known += degrees[-1]
    return degrees


def parents_of(degrees):
    return [None] + [node for node, degree in enumerate(degrees) for _ in range(degree)]


TREES = [drawn(count, 1 + count % 4, count) for count in range(1, 30)] + [drawn(900, most, most) for most in (1, 3, 60)] + [[499] + [0] * 499]


@pytest.mark.parametrize("degrees", TREES, ids=len)
def test_answers_are_those_of_plain_lists(degrees):
    tree, parents = Tree(degrees), parents_of(degrees)
    assert len(tree) == len(degrees) and tree.check()
    for node, degree in enumerate(degrees):
        children = [child for child, parent in enumerate(parents) if parent == node]
        siblings = [it for it, parent in enumerate(parents) if parent == parents[node]]
        at = siblings.index(node)
        assert tree.parent(node) == parents[node] and tree.degree(node) == degree and tree.is_leaf(node) is (degree == 0)
        assert list(tree.children(node)) == children and [tree.child(node, k) for k in range(degree + 1)] == children + [None]
        assert tree.child_rank(node) == (at if node else None)
        assert tree.next_sibling(node) == (siblings[at + 1] if node and at + 1 < len(siblings) else None)
        assert tree.previous_sibling(node) == (siblings[at - 1] if at else None)
    nodes = list(range(len(degrees) + 1))
    assert tree.parent_list(nodes) == parents + [None]
    assert tree.degree_list(nodes) == degrees + [None]
    assert tree.degree_list(nodes, missing=7) == degrees + [7]
    ks = [node % 3 for node in nodes]
    wanted = [tree.child(node, k) for node, k in zip(nodes, ks)]
    assert tree.child_list(nodes, ks) == wanted and tree.child_list(nodes=nodes, ks=iter(ks)) == wanted


def test_no_such_node_has_no_answer():
    tree = Tree([1, 0])
    for node in (2, 2**63, 2**64 - 1):
        for ask in (tree.parent, tree.degree, tree.is_leaf, tree.next_sibling, tree.previous_sibling, tree.child_rank):
            assert ask(node) is None
        assert tree.child(node, 0) is None and tree.child(0, node) is None and list(tree.children(node)) == []
    for wrong, error in ((-1, OverflowError), (2**64, OverflowError), ("1", TypeError), (1.0, TypeError), (None, TypeError)):
        for ask in (tree.parent, tree.degree, tree.is_leaf, tree.children):
            with pytest.raises(error):
                ask(wrong)
    with pytest.raises(TypeError):
        tree.child(0)


def test_pairs_of_a_list_are_as_many_and_numbers():
    tree = Tree([2, 0, 1, 0])
    assert tree.child_list([], []) == [] and tree.child_list([0, 9, 2**64 - 1], [2**64 - 1, 0, 0]) == [None] * 3
    assert tree.child_list((0, 0), b"\x00\x01") == [1, 2]
    with pytest.raises(ValueError, match="2 nodes and 1 ks"):
        tree.child_list([0, 0], [1])
    with pytest.raises(IndexError):
        tree.child_list([0, 0], [1, 2], missing="error")
    for nodes, ks, error in (([-1], [0], OverflowError), ([0], [-1], OverflowError), (["0"], [0], TypeError), ([0], [0.5], TypeError), ([0], 3, TypeError)):
        with pytest.raises(error):
            tree.child_list(nodes, ks)
    with pytest.raises(TypeError):
        tree.child_list([0])
    many = [0, 2] * 5000
    assert tree.child_list(many, [0] * len(many)) == [1, 3] * 5000
    below = array.array("q", [0] * 9999 + [-1])
    for nodes, ks, which in ((many, below, "k"), (below, many, "a node")):
        with pytest.raises(OverflowError, match=f"^{which} has to be at least 0"):
            tree.child_list(nodes, ks)


@pytest.mark.parametrize("degrees", [[], [0, 0], [1, 1], [0, 1], [2, 0], [1, 0, 1], [2**64 - 1, 1], [2**64 - 1, 2]])
def test_degrees_of_no_tree_are_refused(degrees):
    known, misfit = 1, None
    for node, degree in enumerate(degrees):
        if known <= node or known + degree > len(degrees):
            misfit = node
            break
        known += degree
    said = "the degrees are those of no tree" if misfit is None else f"node {misfit} is a child of no node before it, or has more children than there are nodes left"
    assert (misfit is None) is (degrees == [])
    with pytest.raises(ValueError, match=f"^{said}$"):
        Tree(degrees)


def test_a_degree_is_a_number():
    for wrong, error in (([1, -1], OverflowError), (["1", 0], TypeError), (3, TypeError), ([0.5], TypeError)):
        with pytest.raises(error):
            Tree(wrong)


def test_files_and_copies(tmp_path):
    tree = Tree(drawn(300, 4, 1))
    everything = [tree.parent(node) for node in range(len(tree))]
    for other in stored_and_copied(tree, tmp_path / "tree"):
        assert [other.parent(node) for node in range(len(other))] == everything
        refuses_once_closed(other, lambda it: it.parent(1))


def test_each_changed_byte_and_each_prefix_is_seen():
    for tree in over_each_change(Tree, bytes(Tree(drawn(9, 3, 5)).block)):
        for node in range(10):
            for ask in (tree.parent, tree.degree, tree.child_rank, tree.next_sibling, tree.previous_sibling):
                answer = answer_of(ask, node)
                assert answer is None or 0 <= answer < 9
