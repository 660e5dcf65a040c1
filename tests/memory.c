// Loaded before a program (LD_PRELOAD): counts what it takes of memory, and refuses what the environment says.
//
//     REFUSE=N      request N for memory is refused, the first being 1
//     FAIL_READ=N   read N fails
//     FAIL_WRITE=N  write N fails
//     COUNTS=FILE   at the end of the program FILE is made, with a line 'REQUESTS BLOCKS READS WRITES SHRINKS': how many
//                   requests, reads and writes there were, how many blocks of memory were not given back, and how
//                   many of the refused requests were for less than the block had
//
// It is built without headers and libraries, so that the toolchain's own compiler suffices. `rt try --fail-alloc N` would
// build the program anew for each N and count no blocks.
typedef unsigned long size;

extern void *__libc_malloc(size);
extern void *__libc_calloc(size, size);
extern void *__libc_realloc(void *, size);
extern void __libc_free(void *);
extern long syscall(long, ...);
extern char *getenv(const char *);
extern int atoi(const char *);
extern size malloc_usable_size(void *);
extern int dprintf(int, const char *, ...);
extern int *__errno_location(void);

enum { READ = 0, WRITE = 1, OPEN = 2, WRITE_ANEW = 01101, ANYONE = 0666, IO_ERROR = 5, NO_MEMORY = 12 };

static long requests, blocks, reads, writes, shrinks, refuse, fail_read, fail_write;

static long number(const char *name) {
    const char *text = getenv(name);
    return text ? atoi(text) : 0;
}

__attribute__((constructor)) static void begin(void) {
    refuse = number("REFUSE");
    fail_read = number("FAIL_READ");
    fail_write = number("FAIL_WRITE");
    // what was taken before the program began is not its own
    requests = blocks = reads = writes = 0;
}

__attribute__((destructor)) static void end(void) {
    const char *file = getenv("COUNTS");
    long all_requests = requests, all_blocks = blocks, all_reads = reads, all_writes = writes;
    if (!file) return;
    fail_write = 0;
    int to = syscall(OPEN, file, WRITE_ANEW, ANYONE);
    dprintf(to, "%ld %ld %ld %ld %ld\n", all_requests, all_blocks, all_reads, all_writes, shrinks);
}

static int is_refused(void) {
    requests++;
    if (requests != refuse) return 0;
    *__errno_location() = NO_MEMORY;
    return 1;
}

void *malloc(size bytes) {
    if (is_refused()) return 0;
    void *block = __libc_malloc(bytes);
    if (block) blocks++;
    return block;
}

void *calloc(size items, size bytes) {
    if (is_refused()) return 0;
    void *block = __libc_calloc(items, bytes);
    if (block) blocks++;
    return block;
}

void *realloc(void *old, size bytes) {
    if (is_refused()) {
        shrinks += old && bytes <= malloc_usable_size(old);
        return 0;
    }
    void *block = __libc_realloc(old, bytes);
    if (block && !old) blocks++;
    if (!block && old && !bytes) blocks--;
    return block;
}

void free(void *block) {
    if (block) blocks--;
    __libc_free(block);
}

static int fails(long *count, long which) {
    ++*count;
    if (*count != which) return 0;
    *__errno_location() = IO_ERROR;
    return 1;
}

long read(int from, void *into, size bytes) {
    return fails(&reads, fail_read) ? -1 : syscall(READ, from, into, bytes);
}

long write(int to, const void *from, size bytes) {
    return fails(&writes, fail_write) ? -1 : syscall(WRITE, to, from, bytes);
}

long __write(int to, const void *from, size bytes) { return write(to, from, bytes); }
