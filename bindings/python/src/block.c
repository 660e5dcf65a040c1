/* The block of a value, which is what is saved. An index over words of others, a file of an older version and values
 * over parts are in none: of these one is built. */
#include "values.h"

/* Memory with the block of a value of a type: as a new reference; NULL and an error. */
static Memory *in_block(PyTypeObject *type, Memory *it)
{
    if (it->block != NULL) {
        KEEP(it);
        return it;
    }
    return PyType_IsSubtype(type, Index_Type)      ? index_in_block(it)
           : PyType_IsSubtype(type, Sequence_Type) ? sequence_in_block(it)
                                                   : hash_in_block(it);
}

/* block(value): a window of the words of its block. */
PyObject *block_of_value(PyObject *module, PyObject *self)
{
    (void)module;
    Memory *it = is_value(BORROWED(Py_TYPE(self))) ? memory_kept(self) : NULL;
    Memory *held = it == NULL ? NULL : in_block(Py_TYPE(self), it);
    PyObject *window = held == NULL ? NULL : window_of(held, held->block, held->block_len, 8);
    DROP(held);
    DROP(it);
    return window;
}
