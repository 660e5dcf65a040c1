/* A tree as arrays, of NODES nodes at most: what blocks of trees and of tries are compared with. */
#ifndef PLAIN_TREE_H
#define PLAIN_TREE_H

#include "places.h"

/* The children of a node stand side by side, from `first` on. */
struct plain_tree {
    size_t len;
    uint64_t degrees[NODES], parents[NODES], first[NODES];
};

/* A drawn tree: each node has from 0 to `most` children, as long as there are nodes left; a path where most is 1. */
static void draw_tree(struct plain_tree *tree, size_t len, uint64_t most)
{
    size_t known = 1;
    tree->len = len;
    for (size_t node = 0; node < len; node++) {
        uint64_t degree = draw() % (most + 1);
        if (degree == 0 && known == node + 1) degree = 1; /* else the next node would have no parent */
        if (degree > len - known) degree = len - known;
        tree->degrees[node] = degree;
        tree->first[node] = known;
        for (uint64_t k = 0; k < degree; k++) tree->parents[known++] = node;
    }
    MUST(known == len);
}

static inline void parent_as(const struct plain_tree *plain, const struct bitm_tree *tree, size_t node)
{
    uint64_t *out;
    uint32_t status;
    ANSWER(bitm_tree_parent(tree, node, out));
    MUST(node == 0 ? status == BITM_NONE : status == BITM_OK && *out == plain->parents[node]);
}

#endif
