/* Put before each file of the extension (gcc -include), this counts what it requests of malloc, and refuses one request:
 * the one whose number is bitm_refused_at. tests/test_refused.py sets both. */
#include <stdlib.h>

__attribute__((weak, visibility("default"))) long bitm_requests, bitm_refused_at;

static inline int is_refused(void) { return ++bitm_requests == bitm_refused_at; }
static inline void *refusing_malloc(size_t size) { return is_refused() ? NULL : malloc(size); }
static inline void *refusing_calloc(size_t count, size_t size) { return is_refused() ? NULL : calloc(count, size); }
static inline void *refusing_realloc(void *at, size_t size) { return is_refused() ? NULL : realloc(at, size); }

#define malloc refusing_malloc
#define calloc refusing_calloc
#define realloc refusing_realloc
