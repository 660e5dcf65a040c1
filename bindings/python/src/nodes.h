/* Queries of one node, which bitm.Tree and bitm.Trie share. */
#ifndef BITM_NODES_H
#define BITM_NODES_H

#include "values.h"

/* The children of a node, which follow one another: a range of them. In tree.c. */
PyObject *children_of(const struct bitm_tree *tree, uint64_t node);

/* What a call says of a node by 0 and 1. */
static inline PyObject *ask_bit(PyObject *self, PyObject *value, query_call call)
{
    uint64_t node, out = 0;
    if (number(value, "a node", &node))
        return NULL;
    Memory *it = memory_of(self);
    if (it == NULL)
        return NULL;
    uint32_t status = call(it, true, node, &out);
    return status == BITM_OK ? boxed_bit(out) : answer_or_none(status, &out);
}

/* What a call says of a node and another number, which the method `name` takes by that name, and errors call `what`. */
typedef uint32_t (*node_call)(const Memory *it, uint64_t node, uint64_t other, uint64_t *out);
static inline PyObject *ask_node_and(PyObject *self, node_call call, const char *name, const char *other,
                                     const char *what, PyObject *const *args, Py_ssize_t count, PyObject *keywords)
{
    const char *const names[] = {"node", other};
    PyObject *given[2];
    uint64_t node, second, out = 0;
    if (pick(name, names, 2, 2, args, count, keywords, given) || number(given[0], "a node", &node) ||
        number(given[1], what, &second))
        return NULL;
    Memory *it = memory_of(self);
    if (it == NULL)
        return NULL;
    uint32_t status = call(it, node, second, &out);
    return answer_or_none(status, &out);
}

/* Methods of a class: a number that a call says of a node, by a member of Memory; the same by 0 and 1; and of a node
 * and another number. */
#define NODE(class, name, call, member)                                                                                \
    QUERY_OF(name##_of, call, member)                                                                                  \
    static PyObject *class##_##name(PyObject *self, PyObject *node)                                                    \
    {                                                                                                                  \
        return ask(self, node, name##_of, true, "a node");                                                             \
    }
#define NODE_BIT(class, name, call, member)                                                                            \
    QUERY_OF(name##_of, call, member)                                                                                  \
    static PyObject *class##_##name(PyObject *self, PyObject *node) { return ask_bit(self, node, name##_of); }
#define NODE_AND(class, name, other, what, call, member)                                                               \
    static uint32_t name##_of(const Memory *it, uint64_t node, uint64_t second, uint64_t *out)                         \
    {                                                                                                                  \
        return call(&it->member, node, second, out);                                                                   \
    }                                                                                                                  \
    static PyObject *class##_##name(PyObject *self, PyObject *const *args, Py_ssize_t count, PyObject *keywords)       \
    {                                                                                                                  \
        return ask_node_and(self, name##_of, #name, other, what, args, count, keywords);                               \
    }

/* What both classes have: parents, degrees, children, and how many nodes there are. */
#define NODES(class, nodes)                                                                                            \
    NODE(class, parent, bitm_tree_parent, nodes)                                                                       \
    NODE(class, degree, bitm_tree_degree, nodes)                                                                       \
    static PyObject *class##_children(PyObject *self, PyObject *value)                                                 \
    {                                                                                                                  \
        uint64_t node;                                                                                                 \
        if (number(value, "a node", &node))                                                                            \
            return NULL;                                                                                               \
        Memory *it = memory_of(self);                                                                                  \
        return it == NULL ? NULL : children_of(&it->nodes, node);                                                      \
    }                                                                                                                  \
    static uint64_t length(const Memory *it) { return it->nodes.len; } /* below 2^60 */                                \
    static Py_ssize_t class##_len(PyObject *self) { return value_len(self, length); }

#endif
