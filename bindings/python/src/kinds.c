/* The kinds of blocks: how each is called, and the class whose values are over it. */
#include "values.h"

PyObject *OtherKind;

/* By the second word of a block (docs/FORMAT.md). A dictionary has the number of a perfect hash. */
enum { OF_HASHES = 5 };
static const struct {
    uint64_t number;
    const char *name;
    PyTypeObject **type;
    opener opened;
} KINDS[] = {{2, "an index", &Index_Type, index_opened},
             {3, "a sequence", &Sequence_Type, sequence_opened},
             {4, "sparse bits", &Sparse_Type, sparse_opened},
             {OF_HASHES, "a perfect hash", &Hash_Type, hash_opened},
             {OF_HASHES, "a dictionary", &Dictionary_Type, dictionary_opened},
             {6, "a wavelet matrix", &Matrix_Type, matrix_opened},
             {7, "a tree", &Tree_Type, tree_opened},
             {8, "the index of a text", &Text_Type, text_opened},
             {9, "a trie", &Trie_Type, trie_opened},
             {10, "strings", &Strings_Type, strings_opened},
             {12, "strings", &Strings_Type, strings_opened}};
enum { KINDS_LEN = sizeof KINDS / sizeof *KINDS };

/* The row of the structure in a block; KINDS_LEN where header or directory are not right. */
static size_t kind_in(const Memory *it)
{
    struct bitm_section first;
    struct bitm_dictionary dictionary = {.keys = NULL};
    size_t row = 0;
    if (bitm_block_section(it->block, it->block_len, 0, &first) != BITM_OK)
        return KINDS_LEN;
    while (row < KINDS_LEN && KINDS[row].number != it->block[1])
        row++;
    int is_dictionary = row < KINDS_LEN && KINDS[row].number == OF_HASHES &&
                        bitm_dictionary_open(it->block, it->block_len, &dictionary) == BITM_OK;
    return row + (is_dictionary ? 1 : 0);
}

PyObject *value_in(Memory *it)
{
    size_t row = kind_in(it);
    return row < KINDS_LEN ? value_over(BORROWED(*KINDS[row].type), it, KINDS[row].opened) : not_whole(it);
}

opener opener_of(PyObject *type)
{
    size_t row = 0;
    while (row < KINDS_LEN && !PyType_IsSubtype((PyTypeObject *)type, *KINDS[row].type))
        row++;
    return row < KINDS_LEN ? KINDS[row].opened : NULL;
}

static const char *name_of(opener by)
{
    size_t row = 0;
    while (KINDS[row].opened != by)
        row++;
    return KINDS[row].name;
}

int is_of_other_kind(const Memory *it, opener by)
{
    size_t row = kind_in(it);
    if (row == KINDS_LEN || KINDS[row].opened == by)
        return 0;
    PyErr_Format(OtherKind, "it holds %s, not %s", KINDS[row].name, name_of(by));
    return 1;
}

int block_opened(const Memory *it, opener by, int is_open)
{
    if (!is_open && !is_of_other_kind(it, by))
        PyErr_Format(PyExc_ValueError, "it is not the block of %s, or not all of it", name_of(by));
    return is_open ? 0 : -1;
}
