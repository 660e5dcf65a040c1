/* The statuses, call by call: which one each call returns where it cannot answer, and that all which it could have
 * written is then as it was. And reads and writes of bits (writes.h). */
#include "leaves.h"
#include "writes.h"

/* Every call that takes an index, one by one. */
static void refused_by_all(const struct bitm_index *view)
{
    const struct bitm_samples by = {NULL, 0, written.starts, 1, 7, 0};
    const struct bitm_hash hash = {*view, zeros, 0, 1};
    for (int one = 0; one < 2; one++) {
        LEAVES(BITM_BAD_SIZE, bitm_index_check(view));
        LEAVES(BITM_BAD_SIZE, bitm_index_check_samples(view, one));
        LEAVES(BITM_BAD_SIZE, check_samples(view, one, &by));
        LEAVES(BITM_BAD_SIZE, bitm_index_rank(view, one, 0, &written.one));
        LEAVES(BITM_BAD_SIZE, bitm_index_rank(view, one, SIZE_MAX, &written.one));
        LEAVES(BITM_BAD_SIZE, bitm_index_select(view, one, 0, &written.one));
        LEAVES(BITM_BAD_SIZE, bitm_index_select(view, one, SIZE_MAX, &written.one));
        LEAVES(BITM_BAD_SIZE, bitm_index_next(view, one, 0, &written.one));
        LEAVES(BITM_BAD_SIZE, bitm_index_next(view, one, SIZE_MAX, &written.one));
        LEAVES(BITM_BAD_SIZE, bitm_index_previous(view, one, 0, &written.one));
        LEAVES(BITM_BAD_SIZE, bitm_index_previous(view, one, SIZE_MAX, &written.one));
        LEAVES(BITM_BAD_SIZE, bitm_index_count(view, one, &written.one));
        LEAVES(BITM_BAD_SIZE, bitm_index_positions(view, one, 0, written.list, LIST, &written.one));
        LEAVES(BITM_BAD_SIZE, bitm_index_rank_list(view, one, queries, LIST, written.list, LIST, &written.counts));
        LEAVES(BITM_BAD_SIZE, bitm_index_rank_list(view, one, NULL, 0, NULL, 0, &written.counts));
        LEAVES(BITM_BAD_SIZE, bitm_index_select_list(view, one, queries, LIST, written.list, LIST, &written.counts));
        LEAVES(BITM_BAD_SIZE, bitm_index_select_list(view, one, NULL, 0, NULL, 0, &written.counts));
        LEAVES(BITM_BAD_SIZE,
               bitm_index_build_samples(view, one, 7, written.samples, ROOM, written.starts, 1, &written.one));
        LEAVES(BITM_BAD_SIZE, sampled_select(view, one, &by, 0, &written.one));
        LEAVES(BITM_BAD_SIZE, sampled_select_list(view, one, &by, queries, LIST, written.list, LIST));
    }
    if (view->bits_len > 64 * (uint64_t)view->words_len) return; /* a hash does not read bits_len */
    LEAVES(BITM_BAD_SIZE, bitm_hash_get(&hash, 7, &written.one));
    LEAVES(BITM_BAD_SIZE, bitm_hash_get_list(&hash, queries, LIST, written.list, LIST, &written.counts));
}

/* Every call of words without tables, where these have fewer than bits_len bits. */
static void fewer_bits_than(uint64_t bits_len)
{
    uint64_t *const some = written.list;
    for (int one = 0; one < 2; one++) {
        LEAVES(BITM_BAD_SIZE, bitm_bits_count(words, WORDS, bits_len, one, &written.one));
        LEAVES(BITM_BAD_SIZE, bitm_bits_count_range(words, WORDS, bits_len, one, 0, 1, &written.one));
        LEAVES(BITM_BAD_SIZE, bitm_bits_next(words, WORDS, bits_len, one, 0, &written.one));
        LEAVES(BITM_BAD_SIZE, bitm_bits_previous(words, WORDS, bits_len, one, 0, &written.one));
        LEAVES(BITM_BAD_SIZE, bitm_bits_positions(words, WORDS, bits_len, one, 0, some, LIST, &written.one));
        LEAVES(BITM_BAD_SIZE, bitm_bits_set(some, LIST, bits_len, 0, one));
        LEAVES(BITM_BAD_SIZE, bitm_bits_fill_range(some, LIST, bits_len, 0, 1, one));
    }
    LEAVES(BITM_BAD_SIZE, bitm_bits_get(words, WORDS, bits_len, 0, &written.one));
    LEAVES(BITM_BAD_SIZE, bitm_bits_get_number(words, WORDS, bits_len, 0, 1, &written.one));
    LEAVES(BITM_BAD_SIZE, bitm_bits_set_number(some, LIST, bits_len, 0, 1, 1));
    LEAVES(BITM_BAD_SIZE, bitm_bits_xor_number(some, LIST, bits_len, 0, 1, 1));
    LEAVES(BITM_BAD_SIZE, bitm_bits_get_fragment(words, WORDS, bits_len, 0, 1, &written.one));
    LEAVES(BITM_BAD_SIZE, bitm_bits_set_fragment(some, LIST, bits_len, 0, 1, 1));
    LEAVES(BITM_BAD_SIZE, bitm_bits_swap_fragments(some, LIST, bits_len, 0, 1, 1));
    LEAVES(BITM_BAD_SIZE, bitm_bits_fill_fragments(some, LIST, bits_len, 1, 1, 1));
    LEAVES(BITM_BAD_SIZE, bitm_bits_flip_range(some, LIST, bits_len, 0, 1));
    LEAVES(BITM_BAD_SIZE, bitm_bits_set_list(some, LIST, bits_len, queries, LIST, true, &written.one));
    LEAVES(BITM_BAD_SIZE, bitm_bits_intersects(words, WORDS, words, WORDS, bits_len, &written.one));
    LEAVES(BITM_BAD_SIZE, bitm_bits_is_subset(words, WORDS, words, WORDS, bits_len, &written.one));
}

/* Lengths that differ by one either way, too many words, and tables of no words. */
static void wrong_lengths(void)
{
    const size_t many = (size_t)1 << 58;
    const struct bitm_index bad[] = {
        index_over(words, WORDS, upper, 0, lower, LOWERS), index_over(words, WORDS, upper, 2, lower, LOWERS),
        index_over(words, WORDS, upper, UPPERS, lower, 2), index_over(words, WORDS, upper, UPPERS, lower, 4),
        index_over(words, 64, upper, UPPERS, lower, LOWERS), index_over(words, 97, upper, UPPERS, lower, LOWERS),
        index_over(words, 0, upper, UPPERS, lower, LOWERS), index_over(NULL, 0, NULL, 0, lower, 1),
        index_over(words, many, upper, bitm_index_upper_len(many), lower, bitm_index_lower_len(many)),
        index_over(words, SIZE_MAX, upper, bitm_index_upper_len(SIZE_MAX), lower, bitm_index_lower_len(SIZE_MAX)),
        cut_at(index_over(words, WORDS, upper, UPPERS, lower, LOWERS), 64 * WORDS + 1),
        cut_at(index_over(words, WORDS, upper, UPPERS, lower, LOWERS), UINT64_MAX),
        cut_at(index_over(NULL, 0, NULL, 0, NULL, 0), 1),
    };
    for (size_t i = 0; i < sizeof bad / sizeof *bad; i++)
        refused_by_all(&bad[i]);
    fewer_bits_than(64 * WORDS + 1);
    fewer_bits_than(UINT64_MAX);
    LEAVES(BITM_BAD_SIZE, bitm_index_build(words, WORDS, written.list, 2, written.starts, LOWERS, &written.one));
    LEAVES(BITM_BAD_SIZE, bitm_index_build(words, WORDS, written.list, 1, written.starts, 2, &written.one));
    LEAVES(BITM_BAD_SIZE, bitm_index_build(words, many, written.list, bitm_index_upper_len(many), written.starts,
                                           bitm_index_lower_len(many), &written.one));
    LEAVES(BITM_BAD_SIZE, bitm_bits_count(words, many, 64, true, &written.one));
    LEAVES(BITM_BAD_SIZE, bitm_bits_positions(words, many, 64, true, 0, written.list, LIST, &written.one));
    LEAVES(BITM_BAD_SIZE, bitm_bits_count_range(words, many, 64, true, 0, 1, &written.one));
    LEAVES(BITM_BAD_SIZE, bitm_bits_next(words, many, 64, true, 0, &written.one));
    LEAVES(BITM_BAD_SIZE, bitm_bits_next(words, SIZE_MAX, 64, false, 0, &written.one));
    LEAVES(BITM_BAD_SIZE, bitm_bits_previous(words, many, 64, true, 0, &written.one));
    LEAVES(BITM_BAD_SIZE, bitm_bits_previous(words, SIZE_MAX, 64, false, 0, &written.one));
    LEAVES(BITM_BAD_SIZE, bitm_bits_and(written.list, LIST, queries, LIST - 1));
    LEAVES(BITM_BAD_SIZE, bitm_bits_or(written.list, LIST - 1, queries, LIST));
    LEAVES(BITM_BAD_SIZE, bitm_bits_xor(written.list, LIST, NULL, 0));
    LEAVES(BITM_BAD_SIZE, bitm_bits_and_not(NULL, 0, queries, 1));
}

/* One past the end, far past it, and lists without room: of a view that is right. */
static void none_of_right_tables(const struct bitm_index *view, uint64_t ones)
{
    const size_t bits = 64 * WORDS;
    uint64_t got;
    MUST(bitm_index_rank(view, true, bits, &got) == BITM_OK && got == ones);
    MUST(bitm_index_rank(view, false, bits, &got) == BITM_OK && got == bits - ones);
    for (int far = 0; far < 2; far++) {
        LEAVES(BITM_NONE, bitm_index_rank(view, true, far ? SIZE_MAX : bits + 1, &written.one));
        LEAVES(BITM_NONE, bitm_index_rank(view, false, far ? SIZE_MAX : bits + 1, &written.one));
        LEAVES(BITM_NONE, bitm_index_select(view, true, far ? SIZE_MAX : ones, &written.one));
        LEAVES(BITM_NONE, bitm_index_select(view, false, far ? SIZE_MAX : bits - ones, &written.one));
        LEAVES(BITM_NONE, bitm_index_next(view, true, far ? SIZE_MAX : bits, &written.one));
        LEAVES(BITM_NONE, bitm_index_next(view, false, far ? SIZE_MAX : bits, &written.one));
        LEAVES(BITM_NONE, bitm_bits_get(words, WORDS, bits, far ? SIZE_MAX : bits, &written.one));
        LEAVES(BITM_NONE, bitm_bits_get(words, WORDS, bits - 3, far ? bits - 1 : bits - 3, &written.one));
        LEAVES(BITM_NONE, bitm_bits_set(written.list, LIST, 64 * LIST - 3, 64 * LIST - (far ? 1 : 3), true));
        LEAVES(BITM_NONE, bitm_bits_get_number(words, WORDS, bits, far ? SIZE_MAX : bits - 3, 4, &written.one));
        LEAVES(BITM_NONE, bitm_bits_get_number(words, WORDS, bits, 0, far ? UINT32_MAX : 65, &written.one));
        LEAVES(BITM_NONE, bitm_bits_get_number(words, WORDS, bits, far ? SIZE_MAX : bits + 1, 0, &written.one));
        LEAVES(BITM_NONE,
               bitm_bits_set_number(written.list, LIST, 64 * LIST - 1, far ? SIZE_MAX : 64 * LIST - 4, 4, 9));
        LEAVES(BITM_NONE, bitm_bits_set_number(written.list, LIST, 64 * LIST, 0, far ? UINT32_MAX : 65, 9));
        LEAVES(BITM_NONE,
               bitm_bits_xor_number(written.list, LIST, 64 * LIST - 1, far ? SIZE_MAX : 64 * LIST - 4, 4, 9));
        LEAVES(BITM_NONE, bitm_bits_xor_number(written.list, LIST, 64 * LIST, 0, far ? UINT32_MAX : 65, 9));
        LEAVES(BITM_NONE, bitm_bits_get_fragment(words, WORDS, bits, far ? SIZE_MAX : bits / 7, 7, &written.one));
        LEAVES(BITM_NONE, bitm_bits_get_fragment(words, WORDS, bits, 0, far ? UINT32_MAX : 65, &written.one));
        LEAVES(BITM_NONE, bitm_bits_set_fragment(written.list, LIST, 69, far ? SIZE_MAX : 9, 7, 5));
        LEAVES(BITM_NONE, bitm_bits_swap_fragments(written.list, LIST, 69, 0, far ? SIZE_MAX : 9, 7));
        LEAVES(BITM_NONE, bitm_bits_swap_fragments(written.list, LIST, 69, far ? SIZE_MAX : 9, 0, 7));
        LEAVES(BITM_NONE, bitm_bits_swap_fragments(written.list, LIST, 69, 0, 0, far ? UINT32_MAX : 65));
        LEAVES(BITM_NONE, bitm_bits_fill_fragments(written.list, LIST, 69, 7, 5, far ? SIZE_MAX : 10));
        LEAVES(BITM_NONE, bitm_bits_fill_fragments(written.list, LIST, 69, far ? UINT32_MAX : 65, 5, 0));
        LEAVES(BITM_NONE, bitm_bits_count_range(words, WORDS, bits, true, 0, far ? SIZE_MAX : bits + 1, &written.one));
        LEAVES(BITM_NONE, bitm_bits_count_range(words, WORDS, bits, false, far ? SIZE_MAX : 5, 4, &written.one));
        LEAVES(BITM_NONE, bitm_bits_count_range(words, WORDS, 9, true, 0, far ? bits : 10, &written.one));
        LEAVES(BITM_NONE, bitm_bits_fill_range(written.list, LIST, 64 * LIST, 0, far ? SIZE_MAX : 64 * LIST + 1, far));
        LEAVES(BITM_NONE, bitm_bits_fill_range(written.list, LIST, 64 * LIST, far ? SIZE_MAX : 5, 4, far));
        LEAVES(BITM_NONE, bitm_bits_flip_range(written.list, LIST, 64 * LIST, 0, far ? SIZE_MAX : 64 * LIST + 1));
        LEAVES(BITM_NONE, bitm_bits_flip_range(written.list, LIST, 9, far ? SIZE_MAX : 5, far ? SIZE_MAX : 10));
        LEAVES(BITM_NONE, bitm_bits_next(words, WORDS, bits, true, far ? SIZE_MAX : bits, &written.one));
        LEAVES(BITM_NONE, bitm_bits_next(words, WORDS, bits, false, far ? SIZE_MAX : bits, &written.one));
        LEAVES(BITM_NONE, bitm_bits_next(zeros, LIST, 64 * LIST, true, far ? 64 : 0, &written.one));
        LEAVES(BITM_NONE, bitm_bits_previous(zeros, LIST, 64 * LIST, true, far ? SIZE_MAX : 0, &written.one));
        LEAVES(BITM_NONE, bitm_bits_previous(words, WORDS, 0, far, 0, &written.one));
        LEAVES(BITM_NONE, bitm_bits_copy_range(written.list, LIST, far ? SIZE_MAX : 64 * LIST - 4, words, WORDS, 0, 5));
        LEAVES(BITM_NONE, bitm_bits_copy_range(written.list, LIST, 0, words, WORDS, far ? SIZE_MAX : bits - 4, 5));
        LEAVES(BITM_NONE,
               bitm_bits_equal_range(words, WORDS, far ? SIZE_MAX : bits - 4, zeros, LIST, 0, 5, &written.one));
        LEAVES(BITM_NONE,
               bitm_bits_equal_range(words, WORDS, 0, zeros, LIST, 5, far ? SIZE_MAX : 64 * LIST, &written.one));
        LEAVES(BITM_NONE, bitm_bits_select_in_word(far ? 0 : 5, far ? 0 : 2, &written.one));
        LEAVES(BITM_NONE, bitm_bits_select_in_word(UINT64_MAX, far ? UINT32_MAX : 64, &written.one));
        /* from past the end: the last one */
        MUST(bitm_bits_previous(words, WORDS, bits, true, far ? SIZE_MAX : bits, &got) == BITM_OK && got == bits - 1);
        MUST(bitm_index_previous(view, true, far ? SIZE_MAX : bits, &got) == BITM_OK && got == bits - 1);
    }
    LEAVES(BITM_BAD_SIZE, bitm_index_rank_list(view, true, queries, LIST, written.list, LIST - 1, &written.counts));
    LEAVES(BITM_BAD_SIZE, bitm_index_rank_list(view, false, queries, LIST - 1, written.list, LIST, &written.counts));
    LEAVES(BITM_BAD_SIZE, bitm_index_select_list(view, true, queries, LIST, written.list, 0, &written.counts));
    LEAVES(BITM_BAD_SIZE, bitm_index_select_list(view, false, queries, 0, written.list, 1, &written.counts));
    const size_t most = bitm_index_samples_len(WORDS, 7);
    MUST(most == 35 && most <= ROOM);
    for (int one = 0; one < 2; one++) {
        LEAVES(BITM_BAD_SIZE,
               bitm_index_build_samples(view, one, 7, written.samples, most - 1, written.starts, 1, &written.one));
        LEAVES(BITM_BAD_SIZE,
               bitm_index_build_samples(view, one, 7, written.samples, most, written.starts, 2, &written.one));
        LEAVES(BITM_BAD_SIZE,
               bitm_index_build_samples(view, one, 7, written.samples, most, written.starts, 0, &written.one));
        /* one sample, by which the first bits of the kind would be in the last entry: no answer is another */
        const uint32_t stale[] = {2};
        const uint64_t start[] = {0};
        const struct bitm_samples by = {stale, 1, start, 1, 7, 0};
        const struct bitm_index sampled = with_samples(*view, one, &by);
        uint64_t want;
        MUST(bitm_index_select(&sampled, one, 0, &got) == BITM_OK && bitm_index_select(view, one, 0, &want) == BITM_OK);
        MUST(got == want);
        LEAVES(BITM_BAD_SIZE,
               bitm_index_select_list(&sampled, one, queries, LIST, written.list, LIST + 1, &written.counts));
        LEAVES(BITM_BAD_SIZE,
               bitm_index_select_list(&sampled, one, queries, LIST, written.list, LIST - 1, &written.counts));
    }
    /* the bytes of the original's calls */
    const uint8_t bytes[9] = {1, 2, 3, 4, 5, 6, 7, 8, 9};
    uint8_t *const some = (uint8_t *)written.list;
    uint32_t few;
    MUST(bitm_bytes_get57(bytes, 9, 8, &got) == BITM_OK && got == 0x0908070605040302);
    MUST(bitm_bytes_get57(bytes, 9, 15, &got) == BITM_OK && got == 0x0908070605040302 >> 7);
    MUST(bitm_bytes_get25(bytes, 9, 47, &few) == BITM_OK && few == 0x09080706 >> 7);
    LEAVES(BITM_NONE, bitm_bytes_get57(bytes, 9, 16, &written.one));
    LEAVES(BITM_NONE, bitm_bytes_get57(bytes, 9, UINT64_MAX, &written.one));
    LEAVES(BITM_NONE, bitm_bytes_get25(bytes, 9, 48, written.samples));
    LEAVES(BITM_NONE, bitm_bytes_init57(some, 9, 16, UINT64_MAX));
    LEAVES(BITM_NONE, bitm_bytes_set57(some, 9, 16, 1, UINT64_MAX));
    LEAVES(BITM_NONE, bitm_bytes_init25(some, 9, 48, UINT32_MAX));
    LEAVES(BITM_NONE, bitm_bytes_set25(some, 9, UINT64_MAX, 1, UINT32_MAX));
    LEAVES(BITM_NONE, bitm_bytes_init25(some, 0, 0, 1));
}

/* The first bits of right tables: one past the end, and samples that are not those of the words. */
static void bits_of_right_tables(const struct bitm_index *view)
{
    const struct bitm_index bits = cut_at(*view, 64 * WORDS - 5);
    uint64_t ones, zeros_of, got;
    MUST(bitm_index_rank(&bits, true, bits.bits_len, &ones) == BITM_OK);
    MUST(bitm_index_rank(&bits, false, bits.bits_len, &zeros_of) == BITM_OK && ones + zeros_of == bits.bits_len);
    MUST(bitm_index_count(&bits, true, &got) == BITM_OK && got == ones);
    MUST(bitm_index_count(&bits, false, &got) == BITM_OK && got == zeros_of);
    for (int far = 0; far < 2; far++) {
        LEAVES(BITM_NONE, bitm_index_rank(&bits, true, far ? SIZE_MAX : bits.bits_len + 1, &written.one));
        LEAVES(BITM_NONE, bitm_index_rank(&bits, false, far ? SIZE_MAX : bits.bits_len + 1, &written.one));
        LEAVES(BITM_NONE, bitm_index_select(&bits, true, far ? SIZE_MAX : ones, &written.one));
        LEAVES(BITM_NONE, bitm_index_select(&bits, false, far ? SIZE_MAX : zeros_of, &written.one));
    }
    MUST(bitm_index_select(view, true, ones, &got) == BITM_OK && got >= bits.bits_len);
    const uint32_t none[] = {0};
    const struct bitm_samples by = {none, 1, zeros, 1, 7, 0};
    LEAVES(BITM_WRONG, check_samples(view, true, &by));
    LEAVES(BITM_WRONG, check_samples(view, false, &by));
}

/* Headers of files: lengths that none has, and words that are none. */
static void files(void)
{
    const struct bitm_sequence_lens right = {0, 0, 1, 1, 1}, wrong = {64, 0, 1, 1, 1}, low = {1, 0, 1, 1, 1};
    const uint64_t large = (uint64_t)1 << 56;
    struct bitm_stored read;
    LEAVES(BITM_BAD_SIZE, bitm_stored_index(UINT64_MAX - 62, 0, 0, 0, 0, &written.stored));
    LEAVES(BITM_BAD_SIZE, bitm_stored_index(640, 6, 0, 0, 0, &written.stored));
    LEAVES(BITM_BAD_SIZE, bitm_stored_index(640, 0, 0, 32, 0, &written.stored));
    LEAVES(BITM_BAD_SIZE, bitm_stored_index(640, 0, 1, 0, 0, &written.stored));
    LEAVES(BITM_BAD_SIZE, bitm_stored_index(640, 7, 6, 0, 0, &written.stored));
    LEAVES(BITM_BAD_SIZE, bitm_stored_index(640, 7, 5, 7, 6, &written.stored));
    LEAVES(BITM_BAD_SIZE, bitm_stored_sequence(large, &right, &written.stored));
    LEAVES(BITM_BAD_SIZE, bitm_stored_sequence(3, &wrong, &written.stored));
    LEAVES(BITM_BAD_SIZE, bitm_stored_sequence(3, &low, &written.stored));
    LEAVES(BITM_WRONG, bitm_stored_read(words, WORDS, &written.stored));
    LEAVES(BITM_WRONG, bitm_stored_read(NULL, 0, &written.stored));
    /* computed by hand: 10 words from byte 192 on, then each part from a multiple of 64 on */
    MUST(bitm_stored_index(640, 7, 5, 8, 3, &read) == BITM_OK && read.kind == 1 && read.len == 640 && read.width == 0);
    MUST(read.ones_log2 == 7 && read.zeros_log2 == 8 && read.words.at == 192 && read.words.len == 10);
    MUST(read.upper.at == 320 && read.upper.len == 1 && read.lower.at == 384 && read.lower.len == 1);
    MUST(read.low.len == 0 && read.starts.at == 448 && read.starts.len == 1 && read.starts0.at == 512);
    MUST(read.starts0.len == 1 && read.samples.at == 576 && read.samples.len == 5 && read.samples0.at == 640);
    MUST(read.samples0.len == 3 && read.size == 704);
    uint64_t file[88] = {0};
    memcpy(file, &read, sizeof read);
    LEAVES(BITM_WRONG, bitm_stored_read(file, 87, &written.stored));
    struct bitm_stored again;
    MUST(bitm_stored_read(file, 88, &again) == BITM_OK && memcmp(&again, &read, sizeof read) == 0);
    MUST(bitm_stored_sequence(3, &right, &read) == BITM_OK && read.kind == 2 && read.len == 3 && read.width == 0);
    MUST(read.words.at == 192 && read.upper.at == 256 && read.lower.at == 320 && read.size == 384);
    MUST(read.ones_log2 == 0 && read.zeros_log2 == 0 && read.words.len == 1 && read.upper.len == 1);
    MUST(read.lower.len == 1 && read.low.len + read.starts.len + read.starts0.len == 0);
    MUST(read.samples.len + read.samples0.len == 0 && read.low.at == 384 && read.starts.at == 384);
    MUST(read.starts0.at == 384 && read.samples.at == 384 && read.samples0.at == 384);
}

/* A list of zeros: the same query again and again, for ranks and for selections. */
static void lists_of_zeros(const struct bitm_index *view)
{
    uint64_t out[LIST], first_one, first_zero;
    MUST(bitm_index_select(view, true, 0, &first_one) == BITM_OK &&
         bitm_index_select(view, false, 0, &first_zero) == BITM_OK);
    MUST(rank_list(view, true, zeros, LIST, out, LIST) == BITM_OK);
    for (int i = 0; i < LIST; i++) MUST(out[i] == 0);
    MUST(rank_list(view, false, zeros, LIST, out, LIST) == BITM_OK);
    for (int i = 0; i < LIST; i++) MUST(out[i] == 0);
    MUST(select_list(view, true, zeros, LIST, out, LIST) == BITM_OK);
    for (int i = 0; i < LIST; i++) MUST(out[i] == first_one);
    MUST(select_list(view, false, zeros, LIST, out, LIST) == BITM_OK);
    for (int i = 0; i < LIST; i++) MUST(out[i] == first_zero);
}

/* 64 zeros, of which the tables say that two ones stand before them: a rank is at most its index, or they are wrong. */
static void ranks_of_wrong_tables(void)
{
    const uint64_t zero = 0, none = 0, two = 2, most = UINT64_MAX, some[] = {0, 1, 2, 64, 65};
    uint64_t got, out[5];
    struct bitm_index view = index_over(&zero, 1, &none, 1, &two, 1);
    MUST(bitm_index_check(&view) == BITM_WRONG && bitm_index_rank(&view, true, 0, &got) == BITM_OK && got == 0);
    LEAVES(BITM_WRONG, bitm_index_rank(&view, true, 1, &written.one));
    LEAVES(BITM_WRONG, bitm_index_rank(&view, false, 1, &written.one));
    MUST(bitm_index_rank(&view, true, 2, &got) == BITM_OK && got == 2 &&
         bitm_index_rank(&view, false, 2, &got) == BITM_OK && got == 0);
    MUST(rank_list(&view, true, some, 5, out, 5) == BITM_OK && out[0] == 0 && out[1] == BITM_WRONG_TABLES);
    MUST(out[2] == 2 && out[3] == 2 && out[4] == BITM_NO_ANSWER);
    MUST(rank_list(&view, false, some, 5, out, 5) == BITM_OK && out[0] == 0 && out[1] == BITM_WRONG_TABLES);
    MUST(out[2] == 0 && out[3] == 62 && out[4] == BITM_NO_ANSWER);
    view.lower = &most;
    LEAVES(BITM_WRONG, bitm_index_rank(&view, true, 64, &written.one));
    LEAVES(BITM_WRONG, bitm_index_rank(&view, false, 64, &written.one));
    LEAVES(BITM_NONE, bitm_index_rank(&view, false, 65, &written.one));
    const uint64_t all[LOWERS] = {UINT64_MAX, UINT64_MAX, UINT64_MAX};
    view = index_over(words, WORDS, upper, UPPERS, all, LOWERS);
    LEAVES(BITM_WRONG, bitm_index_select(&view, true, 0, &written.one));
    LEAVES(BITM_WRONG, bitm_index_select(&view, false, 0, &written.one));
    LEAVES(BITM_WRONG, bitm_index_check(&view));
    const struct bitm_index bits = cut_at(view, 64 * WORDS - 5);
    const struct bitm_index one_word = cut_at(index_over(&zero, 1, &none, 1, &two, 1), 60);
    LEAVES(BITM_WRONG, bitm_index_rank(&one_word, true, 1, &written.one));
    LEAVES(BITM_WRONG, bitm_index_rank(&one_word, false, 1, &written.one));
    LEAVES(BITM_WRONG, bitm_index_select(&bits, true, 0, &written.one));
    LEAVES(BITM_WRONG, bitm_index_select(&bits, false, 0, &written.one));
    for (int one = 0; one < 2; one++) {
        LEAVES(BITM_WRONG, bitm_index_next(&one_word, one, 1, &written.one));
        LEAVES(BITM_WRONG, bitm_index_previous(&one_word, one, 0, &written.one));
    }
    const uint64_t ranks[] = {0, 1, UINT64_MAX};
    struct bitm_list_counts counts;
    MUST(bitm_index_select_list(&bits, true, ranks, 3, out, 3, &counts) == BITM_OK);
    MUST(out[0] == BITM_WRONG_TABLES && counts.wrong + counts.missing == 3);
    const uint64_t sizes[] = {1};
    const struct bitm_hash hash = {one_word, sizes, 1, 5}, wrong_sizes = {one_word, &two, 1, 5};
    LEAVES(BITM_NONE, bitm_hash_get(&hash, 7, &written.one));
    LEAVES(BITM_WRONG, bitm_hash_get(&wrong_sizes, 7, &written.one));
    MUST(bitm_hash_get_list(&wrong_sizes, some, 5, out, 5, &counts) == BITM_OK && counts.wrong == 5 &&
         counts.missing == 0);
    MUST(bitm_hash_get_list(&hash, some, 5, out, 5, &counts) == BITM_OK && counts.wrong == 0 && counts.missing == 5);
    LEAVES(BITM_BAD_SIZE, bitm_hash_get_list(&hash, some, 5, written.list, LIST - 1, &written.counts));
}

/* Sequences: lengths, numbers that fall, indexes past the end, and parts of no sequence. */
static void sequences(void)
{
    const uint64_t rising[] = {2, 3, 5, 7, 11, 13, 24}, falling[] = {2, 3, 5, 7, 13, 11, 24}, far[] = {7, 0, 1, 2, 3};
    uint64_t low, upper_vector, part, lower_part, width;
    value_list_call *const lists[] = {bitm_sequence_first_at_least_list, bitm_sequence_last_at_most_list,
                                      bitm_sequence_contains_list};
    LEAVES(BITM_BAD_SIZE, bitm_sequence_sizes((size_t)1 << 56, 9, &written.lens));
    LEAVES(BITM_BAD_SIZE, bitm_sequence_sizes(0, 1, &written.lens));
#define BUILD(items, n)                                                                                              \
    bitm_sequence_build(items, 7, written.list, n, written.list + 1, 1, written.list + 2, 1, written.list + 3, 1, \
                        &written.one)
    LEAVES(BITM_UNSORTED, BUILD(falling, 1));
    LEAVES(BITM_BAD_SIZE, BUILD(falling, 0));
    LEAVES(BITM_BAD_SIZE, BUILD(rising, 0));
    LEAVES(BITM_BAD_SIZE, BUILD(rising, 2));
    MUST(bitm_sequence_build(rising, 7, &low, 1, &upper_vector, 1, &part, 1, &lower_part, 1, &width) == BITM_OK);
    struct bitm_sequence view = {7, width, &low, 1, &upper_vector, 1, &part, 1, &lower_part, 1, NULL, 0};
    MUST(bitm_sequence_check(&view) == BITM_OK);
    LEAVES(BITM_NONE, bitm_sequence_get(&view, 7, &written.one));
    LEAVES(BITM_NONE, bitm_sequence_get(&view, SIZE_MAX, &written.one));
    LEAVES(BITM_NONE, bitm_sequence_first_at_least(&view, 25, &written.one));
    LEAVES(BITM_NONE, bitm_sequence_last_at_most(&view, 1, &written.one));
    MUST(bitm_sequence_items(&view, 7, written.list, LIST, &width) == BITM_OK && width == 0);
    MUST(bitm_sequence_items(&view, SIZE_MAX, written.list, LIST, &width) == BITM_OK && width == 0);
    LEAVES(BITM_BAD_SIZE, bitm_sequence_get_list(&view, far, LIST, written.list, LIST - 1, &written.one));
    for (size_t i = 0; i < sizeof lists / sizeof *lists; i++)
        LEAVES(BITM_BAD_SIZE, lists[i](&view, far, LIST, written.list, LIST - 1, &written.counts));
    MUST(bitm_sequence_get_list(&view, far, LIST, written.list, LIST, &width) == BITM_NONE && width == 0);
    for (int turn = 0; turn < 3; turn++) {
        view.width = turn ? 1 : 64, view.hints_len = turn == 1 ? 1 : turn == 2 ? 3 : 0; /* its hints take two words */
        LEAVES(BITM_BAD_SIZE, bitm_sequence_check(&view));
        LEAVES(BITM_BAD_SIZE, bitm_sequence_get(&view, 0, &written.one));
        LEAVES(BITM_BAD_SIZE, bitm_sequence_first_at_least(&view, 0, &written.one));
        LEAVES(BITM_BAD_SIZE, bitm_sequence_last_at_most(&view, UINT64_MAX, &written.one));
        LEAVES(BITM_BAD_SIZE, bitm_sequence_contains(&view, 2, &written.one));
        LEAVES(BITM_BAD_SIZE, bitm_sequence_items(&view, 0, written.list, LIST, &written.one));
        LEAVES(BITM_BAD_SIZE, bitm_sequence_get_list(&view, far, LIST, written.list, LIST, &written.one));
        for (size_t i = 0; i < sizeof lists / sizeof *lists; i++)
            LEAVES(BITM_BAD_SIZE, lists[i](&view, far, LIST, written.list, LIST, &written.counts));
    }
    const uint64_t no_hints[2] = {0, 0};
    view.hints = no_hints, view.hints_len = 2;
    LEAVES(BITM_WRONG, bitm_sequence_check(&view));
    view.hints_len = 0, upper_vector = 0;
    LEAVES(BITM_WRONG, bitm_sequence_check(&view));
    LEAVES(BITM_WRONG, bitm_sequence_get(&view, 3, &written.one));
    uint64_t is_there = UNTOUCHED; /* no number has the high bits of 0 */
    MUST(bitm_sequence_contains(&view, 0, &is_there) == BITM_WRONG ? is_there == UNTOUCHED : is_there == 0);
    const uint64_t one_inside = 3;
    MUST(bitm_sequence_get_list(&view, &one_inside, 1, written.list, 1, &width) == BITM_WRONG && width == 0);
    MUST(bitm_sequence_items(&view, 6, written.list, 1, &width) == BITM_WRONG && width == 0);
    upper_vector = 0xFFFF; /* more ones than numbers */
    LEAVES(BITM_WRONG, bitm_sequence_first_at_least(&view, 0, &written.one));
    LEAVES(BITM_WRONG, bitm_sequence_last_at_most(&view, 1, &written.one));
    LEAVES(BITM_WRONG, bitm_sequence_contains(&view, 2, &written.one));
}

int main(int argc, char **argv)
{
    take_seed(argc, argv);
    memset(&untouched, UNTOUCHED, sizeof untouched);
    MUST(bitm_version() == BITM_VERSION_NUMBER);
    uint64_t ones;
    for (size_t i = 0; i < WORDS; i++) words[i] = draw() | (uint64_t)1 << 63;
    MUST(bitm_index_build(words, WORDS, upper, UPPERS, lower, LOWERS, &ones) == BITM_OK);
    const struct bitm_index view = index_over(words, WORDS, upper, UPPERS, lower, LOWERS);
    wrong_lengths();
    numbers_by_hand();
    bytes_by_hand();
    none_of_right_tables(&view, ones);
    bits_of_right_tables(&view);
    files();
    lists_of_zeros(&view);
    ranks_of_wrong_tables();
    sequences();
    bits_and_nothing_else();
    puts("C host: each status is the header's, and leaves what it does not answer as it was");
    return 0;
}
