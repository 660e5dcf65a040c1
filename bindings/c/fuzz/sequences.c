/* Queries of a sequence whose parts are built of numbers of the input and then spoilt, or are anything; with hints or
 * without. */
#include "queries.h"

#include "../hinted.h"

enum { WORDS = 100 };

/* Built of numbers that never fall: steps of the input. Whether there is one. */
static bool build(struct input *from, struct bitm_sequence *to)
{
    static uint64_t numbers[NUMBERS];
    const size_t len = take_below(from, 400);
    const uint64_t bytes = take(from, 1) % 6;
    uint64_t number = 0;
    for (size_t i = 0; i < len; i++) numbers[i] = number += take(from, bytes);
    struct bitm_sequence_lens of;
    MUST(bitm_sequence_sizes(len, number, &of) == BITM_OK);
    uint64_t *const low = numbers_of(0, of.low_len), *const words = numbers_of(1, of.words_len);
    uint64_t *const upper = numbers_of(2, of.upper_len), *const lower = numbers_of(3, of.lower_len), width;
    MUST(bitm_sequence_build(numbers, len, low, of.low_len, words, of.words_len, upper, of.upper_len, lower, of.lower_len,
                             &width) == BITM_OK && width == of.width);
    *to = (struct bitm_sequence){len, width, low, of.low_len, words, of.words_len, upper, of.upper_len, lower,
                                 of.lower_len, NULL, 0};
    static uint64_t back[NUMBERS];
    MUST(bitm_sequence_check(to) == BITM_OK && decoded(to, back) == len && memcmp(back, numbers, 8 * len) == 0);
    if (len > 1 && numbers[0] < numbers[1]) { /* the first after the second is refused */
        const uint64_t first = numbers[0];
        numbers[0] = numbers[1], numbers[1] = first;
        MUST(bitm_sequence_build(numbers, len, low, of.low_len, words, of.words_len, upper, of.upper_len, lower,
                                 of.lower_len, &width) != BITM_OK && bitm_sequence_check(to) == BITM_OK);
    }
    spoil(from, low, of.low_len), spoil(from, words, of.words_len), spoil(from, upper, of.upper_len);
    spoil(from, lower, of.lower_len);
    return true;
}

/* Any parts, whose lengths fit but for one. */
static void anything(struct input *from, struct bitm_sequence *to)
{
    const size_t words = take_below(from, WORDS), uppers = bitm_index_upper_len(words);
    const size_t lowers = bitm_index_lower_len(words);
    const uint64_t width = take(from, 1) % 65, wrong = take(from, 1);
    const size_t len = wrong % 8 == 7 ? take_number(from, (uint64_t)1 << 56) : take_below(from, 500);
    const size_t lows = width ? bitm_bits_words_len(len % 500 * width) : 0;
    uint64_t *const low = numbers_of(0, lows), *const at = numbers_of(1, words);
    uint64_t *const upper = numbers_of(2, uppers), *const lower = numbers_of(3, lowers), ones;
    take_bytes(from, low, 8 * lows), take_bytes(from, at, 8 * words);
    MUST(bitm_index_build(at, words, upper, uppers, lower, lowers, &ones) == BITM_OK);
    spoil(from, upper, uppers), spoil(from, lower, lowers);
    *to = (struct bitm_sequence){wrong % 4 == 3 && ones < len ? ones : len, width, low, lows, at, words, upper, uppers + (wrong == 8),
                                 lower, lowers + (wrong == 16), NULL, 0};
}

/* Hints of a right sequence, which are then spoilt; of other parts those of the input; now and then one too many. */
static void hint(struct input *from, struct bitm_sequence *to)
{
    const size_t len = bitm_hints_len(to->len, to->words_len), more = take(from, 1) % 32 == 31;
    uint64_t *const hints = numbers_of(4, len + more);
    if (bitm_sequence_check(to) == BITM_OK) plain_hints(to->words, to->words_len, to->len, hints);
    else take_bytes(from, hints, 8 * (len + more));
    spoil(from, hints, len);
    to->hints = hints, to->hints_len = len + more;
}

int LLVMFuzzerTestOneInput(const uint8_t *data, size_t size)
{
    struct input from = {data, size};
    struct bitm_sequence sequence;
    if (take(&from, 1) % 4 == 0) anything(&from, &sequence);
    else build(&from, &sequence);
    if (take(&from, 1) % 2 && !bitm_sequence_fault(&sequence)) hint(&from, &sequence);
    query_sequence(&sequence, &from);
    return 0;
}
