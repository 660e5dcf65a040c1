/* Reads a block of strings from standard input, checks it and opens it, and writes each string on a line of its own, in
 * the order of their numbers, as each is found at its number. bindings/tests/test_formats.py writes such blocks by
 * docs/FORMAT.md. */
#include "common.h"

static uint64_t block[100000];

int main(void)
{
    struct bitm_strings strings = {0};
    uint64_t begin, len, number;
    const size_t words = fread(block, 8, sizeof block / 8, stdin);
    MUST(feof(stdin) && !ferror(stdin));
    MUST(bitm_strings_check(block, words) == BITM_OK && bitm_strings_open(block, words, &strings) == BITM_OK);
    MUST(strings.kind == block[1] && bitm_strings_fault(&strings) == NULL);
    for (uint64_t i = 0; i < strings.hash.keys; i++) {
        MUST(bitm_strings_get(&strings, i, &begin, &len) == BITM_OK);
        const uint8_t *const string = (const uint8_t *)strings.bytes + begin;
        MUST(bitm_strings_find(&strings, string, len, &number) == BITM_OK && number == i);
        MUST(fwrite(string, 1, len, stdout) == len && putchar('\n') == '\n');
    }
    MUST(bitm_strings_find(&strings, (const uint8_t *)"none of them", 12, &number) == BITM_NONE);
    MUST(bitm_strings_get(&strings, strings.hash.keys, &begin, &len) == BITM_NONE);
    return 0;
}
