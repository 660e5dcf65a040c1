/* The index of a text, built here, beside one scan of the text. Patterns of several lengths are drawn, half of them
 * from the text and half with another letter at one position. One scan for each length counts all patterns of that
 * length, as `grep -o` would if matches could overlap; the index has to count the same. Of a few patterns it has to
 * answer all positions: each has the pattern, and none comes twice.
 *
 *     scanned PATTERNS file TEXT [BLOCK]   of a file; its block is that in the other file, of `bitm text build`
 *     scanned PATTERNS four N              of 2^N drawn letters a, c, g and t, with long repetitions
 *     scanned PATTERNS words LIST N        of 2^N letters: words drawn from the lines of a file */
#define _GNU_SOURCE
#include "common.h"

#include <fcntl.h>
#include <string.h>
#include <sys/mman.h>
#include <sys/stat.h>
#include <unistd.h>

enum { LOCATED = 2000, MOST_POSITIONS = 4096, FACTOR = 0x2F0B4C47, STEP = 32, MOST_CHECKED = 1 << 28 };

struct mapped {
    const unsigned char *bytes;
    size_t len;
};

/* A pattern where it stands in `letters`, its hash, and how often the scan met it. */
struct pattern {
    size_t start;
    uint64_t hash, count;
};

static struct mapped map(const char *path)
{
    struct stat about;
    const int file = open(path, O_RDONLY);
    MUST(file >= 0 && fstat(file, &about) == 0 && about.st_size > 0);
    const size_t len = (size_t)about.st_size;
    void *at = mmap(NULL, len, PROT_READ, MAP_PRIVATE, file, 0);
    MUST(at != MAP_FAILED && close(file) == 0);
    return (struct mapped){at, len};
}

/* A hash of the letters: that of the first is multiplied most often. */
static uint64_t hashed(const unsigned char *letters, size_t len)
{
    uint64_t hash = 0;
    for (size_t i = 0; i < len; i++) hash = hash * FACTOR + letters[i] + 1;
    return hash;
}

static size_t slot_of(uint64_t hash, unsigned log2) { return (size_t)(hash * 0x9E3779B97F4A7C15u >> (64 - log2)); }

/* The patterns of one length: their letters one after another, and a table of 2^log2 slots, each of one or none. */
struct patterns {
    size_t len, count;
    unsigned char *letters;
    struct pattern *all;
    uint32_t *slots;
    unsigned log2;
};

/* The slot of the pattern with these letters, or an empty one where no pattern has them. */
static size_t seek(const struct patterns *of, const unsigned char *letters, uint64_t hash)
{
    const size_t mask = ((size_t)1 << of->log2) - 1;
    size_t at = slot_of(hash, of->log2);
    for (; of->slots[at]; at = (at + 1) & mask) {
        const struct pattern *it = &of->all[of->slots[at] - 1];
        if (it->hash == hash && memcmp(of->letters + it->start, letters, of->len) == 0) break;
    }
    return at;
}

static struct patterns drawn(struct mapped text, size_t len, size_t count)
{
    struct patterns made = {len, 0, malloc(len * count), malloc(count * sizeof(struct pattern)), NULL, 1};
    while ((size_t)1 << made.log2 < 2 * count) made.log2++;
    made.slots = calloc((size_t)1 << made.log2, sizeof *made.slots);
    MUST(made.letters && made.all && made.slots);
    for (size_t k = 0; k < count; k++) {
        unsigned char *const letters = made.letters + len * made.count;
        memcpy(letters, text.bytes + draw() % (text.len - len + 1), len);
        if (k % 2) letters[draw() % len] = text.bytes[draw() % text.len];
        const uint64_t hash = hashed(letters, len);
        const size_t at = seek(&made, letters, hash);
        if (made.slots[at]) continue;
        made.all[made.count] = (struct pattern){len * made.count, hash, 0};
        made.slots[at] = (uint32_t)++made.count;
    }
    return made;
}

/* Counts all patterns by one scan. */
static void scan(struct mapped text, struct patterns *of)
{
    uint64_t last = 1, hash = hashed(text.bytes, of->len);
    for (size_t i = 1; i < of->len; i++) last *= FACTOR;
    for (size_t at = 0;; at++) {
        const uint32_t found = of->slots[seek(of, text.bytes + at, hash)];
        if (found) of->all[found - 1].count++;
        if (at + of->len == text.len) return;
        hash = (hash - (text.bytes[at] + (uint64_t)1) * last) * FACTOR + text.bytes[at + of->len] + 1;
    }
}

static int compare(const void *one, const void *other)
{
    const uint64_t a = *(const uint64_t *)one, b = *(const uint64_t *)other;
    return (a > b) - (a < b);
}

/* All positions of a pattern, in lists of 1000: each has it, and no two are the same, so they are those of a scan. */
static void locate(struct mapped text, const struct bitm_text *index, const unsigned char *letters, size_t len,
                   uint64_t count)
{
    static uint64_t positions[MOST_POSITIONS];
    uint64_t done = 0, written = 0;
    do {
        const uint64_t room = count - done < 1000 ? count - done : 1000;
        MUST(bitm_text_locate_bytes(index, letters, len, done, positions + done, room, &written) == BITM_OK &&
             written == room);
        done += written;
    } while (done < count);
    MUST(bitm_text_locate_bytes(index, letters, len, done, positions, 0, &written) == BITM_OK && written == 0);
    qsort(positions, count, sizeof *positions, compare);
    for (uint64_t i = 0; i < count; i++) {
        MUST(positions[i] <= text.len - len && memcmp(text.bytes + positions[i], letters, len) == 0);
        MUST(i == 0 || positions[i - 1] < positions[i]);
    }
}

/* Memory that starts a page; much of it lies in huge pages. */
static void *room_for(size_t size)
{
    void *at = mmap(NULL, size + 1, PROT_READ | PROT_WRITE, MAP_PRIVATE | MAP_ANONYMOUS, -1, 0);
    MUST(at != MAP_FAILED);
    (void)madvise(at, size + 1, MADV_HUGEPAGE);
    return at;
}

/* Letters, of which a part now and then repeats what stands before, but for a letter in 64. */
static struct mapped four_letters(unsigned log2)
{
    const size_t len = (size_t)1 << log2;
    unsigned char *const text = room_for(len);
    for (size_t at = 0; at < len;) {
        size_t left = 1 + draw() % 20000, from = at > 0 && draw() % 4 == 0 ? draw() % at : len;
        for (; left > 0 && at < len; left--, at++, from++)
            text[at] = from < at && draw() % 64 > 0 ? text[from] : (unsigned char)"acgt"[draw() % 4];
    }
    return (struct mapped){text, len};
}

/* Words from the lines of a list, each as likely as any other, with a space after each. */
static struct mapped drawn_words(const char *path, unsigned log2)
{
    const struct mapped list = map(path);
    const size_t len = (size_t)1 << log2;
    unsigned char *const text = room_for(len);
    for (size_t at = 0; at < len;) {
        size_t from = draw() % list.len;
        while (from > 0 && list.bytes[from - 1] != '\n') from--;
        for (; from < list.len && list.bytes[from] != '\n' && at < len; from++) text[at++] = list.bytes[from];
        if (at < len) text[at++] = ' ';
    }
    return (struct mapped){text, len};
}

/* The block of the text, of words; what building needed is given back. */
static struct mapped built(struct mapped text)
{
    uint64_t words, room;
    MUST(bitm_text_size_bytes(text.bytes, text.len, STEP, &words, &room) == BITM_OK);
    uint64_t *const block = room_for(8 * words);
    uint32_t *const scratch = room_for(4 * room);
    MUST(bitm_text_build_bytes(text.bytes, text.len, STEP, scratch, room, block, words) == BITM_OK);
    MUST(munmap(scratch, 4 * room + 1) == 0);
    return (struct mapped){(const unsigned char *)block, 8 * words};
}

static struct mapped text_of(int argc, char **argv)
{
    if (argc == 4 && strcmp(argv[2], "four") == 0) return four_letters((unsigned)atoi(argv[3]));
    if (argc == 5 && strcmp(argv[2], "words") == 0) return drawn_words(argv[3], (unsigned)atoi(argv[4]));
    MUST(argc >= 4 && strcmp(argv[2], "file") == 0);
    return map(argv[3]);
}

/* A walk through all letters, which takes long. */
static bool is_checked(const struct mapped block, size_t len)
{
    return len > MOST_CHECKED || bitm_text_check((const uint64_t *)(const void *)block.bytes, block.len / 8) == BITM_OK;
}

int main(int argc, char **argv)
{
    static const size_t lens[] = {1, 2, 3, 4, 6, 8, 12, 20, 32, 100};
    enum { LENS = sizeof lens / sizeof *lens };
    const struct mapped text = text_of(argc, argv), block = built(text);
    const size_t count = strtoull(argv[1], NULL, 10) / LENS;
    struct bitm_text index = {0};
    uint64_t out, asked = 0, found = 0, located = 0;
    if (argc == 5 && strcmp(argv[2], "file") == 0) {
        const struct mapped other = map(argv[4]);
        MUST(other.len == block.len && memcmp(other.bytes, block.bytes, block.len) == 0);
    }
    MUST(bitm_text_open((const uint64_t *)(const void *)block.bytes, block.len / 8, &index) == BITM_OK);
    MUST(is_checked(block, text.len) && bitm_text_len(&index, &out) == BITM_OK && out == text.len);
    for (size_t k = 0; k < LENS && lens[k] <= text.len; k++) {
        struct patterns of = drawn(text, lens[k], count);
        scan(text, &of);
        for (size_t i = 0; i < of.count; i++) {
            const unsigned char *letters = of.letters + of.all[i].start;
            MUST(bitm_text_count_bytes(&index, letters, of.len, &out) == BITM_OK && out == of.all[i].count);
            asked++, found += out > 0;
            if (out > 0 && out <= MOST_POSITIONS && i % (1 + of.count / (LOCATED / LENS)) == 0)
                locate(text, &index, letters, of.len, out), located++;
        }
        free(of.letters), free(of.all), free(of.slots);
    }
    printf("scanned: %llu patterns, of which %llu stand in the text, are counted as by a scan, and %llu are located\n",
           (unsigned long long)asked, (unsigned long long)found, (unsigned long long)located);
    return 0;
}
