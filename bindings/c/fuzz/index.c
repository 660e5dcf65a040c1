/* Queries of an index whose words, tables, lengths and samples are of the input, or built and then spoilt. */
#include "queries.h"

enum { WORDS = 300 };

/* Words of the input, with all that is past it 0 bits or 1 bits. */
static uint64_t *words_of(struct input *from, size_t len)
{
    uint64_t *const words = numbers_of(0, len);
    const uint64_t kind = take(from, 1), given = take_below(from, len + 1);
    for (size_t i = 0; i < len; i++) words[i] = i < given ? take(from, 8) : kind % 3 ? kind % 3 == 2 : UINT64_MAX;
    return words;
}

int LLVMFuzzerTestOneInput(const uint8_t *data, size_t size)
{
    struct input from = {data, size};
    const size_t words = take_below(&from, WORDS), uppers = bitm_index_upper_len(words);
    const size_t lowers = bitm_index_lower_len(words), wrong = take(&from, 1);
    uint64_t *const at = words_of(&from, words), *const upper = numbers_of(1, uppers), *const lower = numbers_of(2, lowers);
    uint64_t ones;
    if (take(&from, 1) % 4) MUST(bitm_index_build(at, words, upper, uppers, lower, lowers, &ones) == BITM_OK);
    spoil(&from, upper, uppers), spoil(&from, lower, lowers);
    struct bitm_index x = {.words = at, .words_len = words, .upper = upper, .upper_len = uppers, .lower = lower,
                           .lower_len = lowers, .bits_len = 64 * words - take_below(&from, 64 * words + 1) % 200};
    if (64 * words < 200) x.bits_len = 64 * words;
    if (take(&from, 1) % 2) x.ones = samples_of(&from, &x, true, 3), x.zeros = samples_of(&from, &x, false, 5);
    if (wrong == 7) x.lower_len++;
    if (wrong == 8) x.upper_len++;
    if (wrong == 9) x.bits_len = take_number(&from, 64 * words);
    query_index(&x, &from);
    return 0;
}
