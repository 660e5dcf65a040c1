/* bitm.Tree: a tree in one block of memory. */
#include "nodes.h"

int tree_opened(Memory *it)
{
    return block_opened(it, tree_opened, bitm_tree_open(it->block, it->block_len, &it->tree) == BITM_OK);
}

/* Writes the block of the tree of these degrees into memory of its own. -1 and an error. */
static int built(Memory *it, const uint64_t *degrees, size_t count)
{
    uint64_t len, *block;
    uint32_t status = BITM_BAD_SIZE;
    if (bitm_tree_size(count, &len) == BITM_OK && (block = block_room(it, len)) != NULL) {
        Py_BEGIN_ALLOW_THREADS
        status = bitm_tree_build(degrees, count, block, (size_t)len);
        Py_END_ALLOW_THREADS
    }
    if (PyErr_Occurred())
        return -1;
    if (status == BITM_OK)
        return tree_opened(it);
    (void)say_misfit(degrees, count);
    return refuse("the degrees are those of no tree");
}

static int tree_init(PyObject *self, PyObject *args, PyObject *keywords)
{
    static char *names[] = {"degrees", NULL};
    PyObject *from;
    if (!PyArg_ParseTupleAndKeywords(args, keywords, "O:Tree", names, &from))
        return -1;
    return value_of_numbers(self, from, "a degree", built);
}

/* ---- queries of one node */

NODES(tree, tree)
REPR(tree, "nodes=%zu", it->tree.len)
NODE(tree, next_sibling, bitm_tree_next_sibling, tree)
NODE(tree, previous_sibling, bitm_tree_previous_sibling, tree)
NODE(tree, child_rank, bitm_tree_child_rank, tree)
NODE_BIT(tree, is_leaf, bitm_tree_is_leaf, tree)
NODE_AND(tree, child, "k", "k", bitm_tree_child, tree)

PyObject *children_of(const struct bitm_tree *tree, uint64_t node)
{
    uint64_t degree = 0, first = 0;
    uint32_t status = bitm_tree_degree(tree, (size_t)node, &degree);
    if (status == BITM_OK && degree > 0)
        status = bitm_tree_child(tree, (size_t)node, 0, &first);
    if (status == BITM_NONE)
        degree = 0;
    else if (status != BITM_OK)
        return wrong();
    return PyObject_CallFunction((PyObject *)&PyRange_Type, "KK", (unsigned long long)first,
                                 (unsigned long long)(first + degree));
}

/* ---- lists */

LIST_OF(parents, bitm_tree_parent_list, tree)
LIST_OF(degrees, bitm_tree_degree_list, tree)
LIST(tree, parent_list, parents, true, SOME, "a node")
LIST(tree, degree_list, degrees, true, SOME, "a node")

static uint32_t childs(const Memory *it, const uint64_t *nodes, const uint64_t *ks, uint64_t *out, size_t count,
                       struct bitm_list_counts *counts)
{
    return bitm_tree_child_list(&it->tree, nodes, count, ks, count, out, count, counts);
}

static PyObject *tree_child_list(PyObject *self, PyObject *const *args, Py_ssize_t count, PyObject *keywords)
{
    static const char *const names[] = {"nodes", "ks", "*missing"}, *const whats[] = {"a node", "k"};
    return ask_pairs(self, childs, "child_list", names, whats, args, count, keywords);
}

/* ---- the rest */

BLOCK_CHECK(tree)

#define PLAIN(name, text) METHOD(#name, tree_##name, METH_O, "($self, node, /)", text)
#define NAMED(name, arguments, text) KEYWORDS(#name, tree_##name, arguments, text)
static PyMethodDef methods[] = {
    PLAIN(parent, "The parent of a node; None at the root and where there is no such node." EXAMPLE(
                      "Tree([2, 0, 1, 0]).parent(3)") PRINTS("2")),
    NAMED(child, "($self, node, k)",
          "Child k of a node, counted from 0; None where there is none." EXAMPLE("Tree([2, 0, 1, 0]).child(0, 1)")
              PRINTS("2")),
    PLAIN(children,
          "The children of a node, as a range, for they follow one another; empty where there is no such node." EXAMPLE(
              "Tree([2, 0, 1, 0]).children(0)") PRINTS("range(1, 3)")),
    PLAIN(degree, "How many children a node has; None where there is no such node." EXAMPLE(
                      "Tree([2, 0, 1, 0]).degree(0)") PRINTS("2")),
    PLAIN(is_leaf, "Whether a node has no children; None where there is no such node." EXAMPLE(
                       "Tree([2, 0, 1, 0]).is_leaf(1)") PRINTS("True")),
    PLAIN(next_sibling, "The child of a node's parent after it; None where there is none." EXAMPLE(
                            "Tree([2, 0, 1, 0]).next_sibling(1)") PRINTS("2")),
    PLAIN(previous_sibling, "The child of a node's parent before it; None where there is none." EXAMPLE(
                                "Tree([2, 0, 1, 0]).previous_sibling(2)") PRINTS("1")),
    PLAIN(child_rank, "Which child of its parent a node is, counted from 0; None at the root and where there is no "
                      "such node." EXAMPLE("Tree([2, 0, 1, 0]).child_rank(2)") PRINTS("1")),
    NAMED(parent_list, "($self, queries, *, missing=None)",
          "The parent of each node of a list, in its manner." EXAMPLE("Tree([2, 0, 1, 0]).parent_list([0, 1, 3])")
              PRINTS("[None, 0, 2]")),
    NAMED(degree_list, "($self, queries, *, missing=None)",
          "How many children each node of a list has, in its manner." EXAMPLE(
              "Tree([2, 0, 1, 0]).degree_list([0, 1, 3])") PRINTS("[2, 0, 0]")),
    NAMED(child_list, "($self, nodes, ks, *, missing=None)",
          "Child ks[i] of each node nodes[i] of a list, in the manner of the nodes." EXAMPLE(
              "Tree([2, 0, 1, 0]).child_list([0, 0, 2], [1, 2, 0])") PRINTS("[2, None, 3]")),
    METHOD("check", tree_check, METH_NOARGS, "($self, /)",
           "Whether the block is as it was written and holds a tree: looks at all of it." EXAMPLE(
               "Tree([2, 0, 1, 0]).check()") PRINTS("True")),
    VALUE_METHODS("Tree([2, 0, 1, 0])"),
    {NULL, NULL, 0, NULL}};

static PyGetSetDef attributes[] = {VALUE_CLOSED("Tree([2, 0, 1, 0])"), {NULL, NULL, NULL, NULL, NULL}};

#define TREE_DOC                                                                                                       \
    "Tree(degrees)\n--\n\n"                                                                                            \
    "A tree in one block of memory, from the degree of each node, which is how many children it has.\n\n"              \
    "Nodes are numbered level by level: the root is 0, and the children of a node follow one another.\n"               \
    "ValueError where the degrees form no tree: it says at which node." EXAMPLE("tree = Tree([2, 0, 1, 0])")           \
        THEN("tree.parent(3), list(tree.children(0))") PRINTS("(2, [1, 2])")

static PyType_Slot slots[] = {
    VALUE_SLOTS(TREE_DOC, tree_init, methods, attributes, tree_repr), {Py_sq_length, tree_len}, {0, NULL}};
PyType_Spec tree_spec = {"bitm.Tree", sizeof(Value), 0, VALUE_FLAGS, slots};
