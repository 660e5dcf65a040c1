/* The declarations of version 0.3.0, which stay within its series. */
#include <stdbool.h>
#include <stddef.h>
#include <stdint.h>
#define BITM_NO_ANSWER UINT64_MAX
#define BITM_WRONG_TABLES (UINT64_MAX - 1)
#define BITM_STORED_INDEX 1
#define BITM_STORED_SEQUENCE 2
#define BITM_ZEROS 0
#define BITM_ONES 1
#define BITM_POSITIONS 2
enum bitm_status { BITM_OK = 0, BITM_NONE = 1, BITM_BAD_SIZE = 2, BITM_WRONG = 3, BITM_UNSORTED = 4 };
struct bitm_list_counts { uint64_t missing; uint64_t wrong; };
struct bitm_samples { const uint32_t *samples; size_t samples_len; const uint64_t *starts; size_t starts_len; uint32_t log2; uint32_t reserved; };
struct bitm_index { const uint64_t *words; size_t words_len; const uint64_t *upper; size_t upper_len; const uint64_t *lower; size_t lower_len; uint64_t bits_len; struct bitm_samples ones; struct bitm_samples zeros; uint64_t reserved[2]; };
struct bitm_sequence { size_t len; uint64_t width; const uint64_t *low; size_t low_len; const uint64_t *words; size_t words_len; const uint64_t *upper; size_t upper_len; const uint64_t *lower; size_t lower_len; uint64_t reserved[2]; };
struct bitm_sequence_lens { uint64_t width; uint64_t low_len; uint64_t words_len; uint64_t upper_len; uint64_t lower_len; };
struct bitm_hash { struct bitm_index index; const uint64_t *sizes; size_t sizes_len; size_t keys; };
struct bitm_span { uint64_t at; uint64_t len; };
struct bitm_stored { uint64_t mark; uint64_t kind; uint64_t len; uint64_t width; uint64_t size; uint64_t ones_log2; uint64_t zeros_log2; struct bitm_span words; struct bitm_span upper; struct bitm_span lower; struct bitm_span low; struct bitm_span starts; struct bitm_span starts0; struct bitm_span samples; struct bitm_span samples0; uint64_t checksum; };
struct bitm_prefixes { const uint64_t *bits; size_t bits_len; const uint64_t *ones; size_t ones_len; };
struct bitm_shard_location { size_t shard; uint64_t within; };
struct bitm_shards { struct bitm_prefixes counts; const struct bitm_index *shards; size_t shards_len; uint64_t reserved[2]; };
uint32_t bitm_version(void);
size_t bitm_bits_words_len(uint64_t bits_len);
uint32_t bitm_bits_get(const uint64_t *words, size_t words_len, uint64_t bits_len, uint64_t position, uint64_t *out);
uint32_t bitm_bits_set(uint64_t *words, size_t words_len, uint64_t bits_len, uint64_t position, bool value);
uint32_t bitm_bits_set_list(uint64_t *words, size_t words_len, uint64_t bits_len, const uint64_t *positions, size_t positions_len, bool value, uint64_t *outside);
uint32_t bitm_bits_get_number(const uint64_t *words, size_t words_len, uint64_t bits_len, uint64_t begin, uint32_t width, uint64_t *out);
uint32_t bitm_bits_set_number(uint64_t *words, size_t words_len, uint64_t bits_len, uint64_t begin, uint32_t width, uint64_t value);
uint32_t bitm_bits_xor_number(uint64_t *words, size_t words_len, uint64_t bits_len, uint64_t begin, uint32_t width, uint64_t value);
uint32_t bitm_bits_get_fragment(const uint64_t *words, size_t words_len, uint64_t bits_len, uint64_t index, uint32_t width, uint64_t *out);
uint32_t bitm_bits_set_fragment(uint64_t *words, size_t words_len, uint64_t bits_len, uint64_t index, uint32_t width, uint64_t value);
uint32_t bitm_bits_swap_fragments(uint64_t *words, size_t words_len, uint64_t bits_len, uint64_t first, uint64_t second, uint32_t width);
uint32_t bitm_bits_fill_fragments(uint64_t *words, size_t words_len, uint64_t bits_len, uint32_t width, uint64_t value, size_t count);
uint32_t bitm_bits_count(const uint64_t *words, size_t words_len, uint64_t bits_len, bool one, uint64_t *out);
uint32_t bitm_bits_count_range(const uint64_t *words, size_t words_len, uint64_t bits_len, bool one, uint64_t from, uint64_t to, uint64_t *out);
uint32_t bitm_bits_next(const uint64_t *words, size_t words_len, uint64_t bits_len, bool one, uint64_t from, uint64_t *out);
uint32_t bitm_bits_previous(const uint64_t *words, size_t words_len, uint64_t bits_len, bool one, uint64_t from, uint64_t *out);
uint32_t bitm_bits_positions(const uint64_t *words, size_t words_len, uint64_t bits_len, bool one, uint64_t from, uint64_t *out, size_t out_len, uint64_t *written);
uint32_t bitm_bits_clear_from(uint64_t *words, size_t words_len, uint64_t bits_len);
uint32_t bitm_bits_fill_range(uint64_t *words, size_t words_len, uint64_t bits_len, uint64_t from, uint64_t to, bool value);
uint32_t bitm_bits_flip_range(uint64_t *words, size_t words_len, uint64_t bits_len, uint64_t from, uint64_t to);
uint32_t bitm_bits_copy_range(uint64_t *to, size_t to_len, uint64_t to_begin, const uint64_t *from, size_t from_len, uint64_t from_begin, uint64_t count);
uint32_t bitm_bits_equal_range(const uint64_t *a, size_t a_len, uint64_t a_begin, const uint64_t *b, size_t b_len, uint64_t b_begin, uint64_t count, uint64_t *out);
uint32_t bitm_bits_and(uint64_t *words, size_t words_len, const uint64_t *other, size_t other_len);
uint32_t bitm_bits_or(uint64_t *words, size_t words_len, const uint64_t *other, size_t other_len);
uint32_t bitm_bits_xor(uint64_t *words, size_t words_len, const uint64_t *other, size_t other_len);
uint32_t bitm_bits_and_not(uint64_t *words, size_t words_len, const uint64_t *other, size_t other_len);
uint32_t bitm_bits_intersects(const uint64_t *words, size_t words_len, const uint64_t *other, size_t other_len, uint64_t bits_len, uint64_t *out);
uint32_t bitm_bits_is_subset(const uint64_t *words, size_t words_len, const uint64_t *other, size_t other_len, uint64_t bits_len, uint64_t *out);
uint32_t bitm_bits_select_in_word(uint64_t word, uint32_t rank, uint64_t *out);
uint32_t bitm_bits_to_store(uint64_t value);
uint32_t bitm_bytes_get57(const uint8_t *bytes, size_t bytes_len, uint64_t first_bit, uint64_t *out);
uint32_t bitm_bytes_init57(uint8_t *bytes, size_t bytes_len, uint64_t first_bit, uint64_t value);
uint32_t bitm_bytes_set57(uint8_t *bytes, size_t bytes_len, uint64_t first_bit, uint64_t value, uint64_t len_mask);
uint32_t bitm_bytes_get25(const uint8_t *bytes, size_t bytes_len, uint64_t first_bit, uint32_t *out);
uint32_t bitm_bytes_init25(uint8_t *bytes, size_t bytes_len, uint64_t first_bit, uint32_t value);
uint32_t bitm_bytes_set25(uint8_t *bytes, size_t bytes_len, uint64_t first_bit, uint32_t value, uint32_t len_mask);
size_t bitm_index_upper_len(size_t words_len);
size_t bitm_index_lower_len(size_t words_len);
size_t bitm_index_samples_len(size_t words_len, uint32_t log2);
uint32_t bitm_optimal_log2(uint64_t items, uint64_t bits_len, uint32_t most);
uint32_t bitm_index_build(const uint64_t *words, size_t words_len, uint64_t *upper, size_t upper_len, uint64_t *lower, size_t lower_len, uint64_t *ones);
uint32_t bitm_index_check(const struct bitm_index *index);
uint32_t bitm_index_build_samples(const struct bitm_index *index, bool one, uint32_t log2, uint32_t *samples, size_t samples_len, uint64_t *starts, size_t starts_len, uint64_t *used);
uint32_t bitm_index_check_samples(const struct bitm_index *index, bool one);
uint32_t bitm_index_rank(const struct bitm_index *index, bool one, uint64_t position, uint64_t *out);
uint32_t bitm_index_select(const struct bitm_index *index, bool one, uint64_t rank, uint64_t *out);
uint32_t bitm_index_rank_list(const struct bitm_index *index, bool one, const uint64_t *positions, size_t positions_len, uint64_t *out, size_t out_len, struct bitm_list_counts *counts);
uint32_t bitm_index_select_list(const struct bitm_index *index, bool one, const uint64_t *ranks, size_t ranks_len, uint64_t *out, size_t out_len, struct bitm_list_counts *counts);
uint32_t bitm_index_count(const struct bitm_index *index, bool one, uint64_t *out);
uint32_t bitm_index_positions(const struct bitm_index *index, bool one, uint64_t from, uint64_t *out, size_t out_len, uint64_t *written);
uint32_t bitm_index_next(const struct bitm_index *index, bool one, uint64_t from, uint64_t *out);
uint32_t bitm_index_previous(const struct bitm_index *index, bool one, uint64_t from, uint64_t *out);
uint32_t bitm_sequence_sizes(size_t len, uint64_t largest, struct bitm_sequence_lens *out);
uint32_t bitm_sequence_build(const uint64_t *items, size_t items_len, uint64_t *low, size_t low_len, uint64_t *words, size_t words_len, uint64_t *upper, size_t upper_len, uint64_t *lower, size_t lower_len, uint64_t *width);
uint32_t bitm_sequence_check(const struct bitm_sequence *sequence);
uint32_t bitm_sequence_get(const struct bitm_sequence *sequence, uint64_t index, uint64_t *out);
uint32_t bitm_sequence_first_at_least(const struct bitm_sequence *sequence, uint64_t value, uint64_t *out);
uint32_t bitm_sequence_last_at_most(const struct bitm_sequence *sequence, uint64_t value, uint64_t *out);
uint32_t bitm_sequence_contains(const struct bitm_sequence *sequence, uint64_t value, uint64_t *out);
uint32_t bitm_sequence_items(const struct bitm_sequence *sequence, uint64_t from, uint64_t *out, size_t out_len, uint64_t *written);
uint32_t bitm_sequence_get_list(const struct bitm_sequence *sequence, const uint64_t *indices, size_t indices_len, uint64_t *out, size_t out_len, uint64_t *written);
uint32_t bitm_sequence_first_at_least_list(const struct bitm_sequence *sequence, const uint64_t *values, size_t values_len, uint64_t *out, size_t out_len, struct bitm_list_counts *counts);
uint32_t bitm_sequence_last_at_most_list(const struct bitm_sequence *sequence, const uint64_t *values, size_t values_len, uint64_t *out, size_t out_len, struct bitm_list_counts *counts);
uint32_t bitm_sequence_contains_list(const struct bitm_sequence *sequence, const uint64_t *values, size_t values_len, uint64_t *out, size_t out_len, struct bitm_list_counts *counts);
size_t bitm_hash_level_len(size_t left, uint32_t percent);
uint32_t bitm_hash_level(uint64_t *hashes, size_t hashes_len, uint32_t level, uint64_t *ones, size_t ones_len, uint64_t *again, size_t again_len, uint64_t *left);
uint32_t bitm_hash_build(uint64_t *hashes, size_t hashes_len, uint32_t percent, uint64_t *words, size_t words_len, uint64_t *again, size_t again_len, uint64_t *sizes, size_t sizes_len, uint64_t *levels, uint64_t *used_words, uint64_t *left);
uint32_t bitm_hash_get(const struct bitm_hash *hash, uint64_t key_hash, uint64_t *out);
uint32_t bitm_hash_get_list(const struct bitm_hash *hash, const uint64_t *key_hashes, size_t key_hashes_len, uint64_t *out, size_t out_len, struct bitm_list_counts *counts);
uint32_t bitm_stored_index(uint64_t bits_len, uint32_t ones_log2, uint64_t ones_len, uint32_t zeros_log2, uint64_t zeros_len, struct bitm_stored *out);
uint32_t bitm_stored_index_room(uint64_t bits_len, uint32_t ones_log2, uint32_t zeros_log2, struct bitm_stored *out);
uint32_t bitm_stored_build(const uint64_t *words, size_t words_len, uint64_t bits_len, uint32_t ones_log2, uint32_t zeros_log2, uint64_t *to, size_t to_len, uint64_t *upper, size_t upper_len, uint64_t *lower, size_t lower_len, uint64_t *starts, size_t starts_len, uint64_t *starts0, size_t starts0_len, uint32_t *samples, size_t samples_len, struct bitm_stored *out);
uint32_t bitm_stored_sequence(uint64_t len, const struct bitm_sequence_lens *lens, struct bitm_stored *out);
uint32_t bitm_stored_read(const uint64_t *file, size_t file_len, struct bitm_stored *out);
uint32_t bitm_prefix_sums(const uint64_t *numbers, size_t numbers_len, uint64_t *out, size_t out_len);
uint32_t bitm_prefix_sums_check(const uint64_t *numbers, size_t numbers_len, const uint64_t *sums, size_t sums_len);
uint32_t bitm_shards_find(const struct bitm_prefixes *counts, uint32_t kind, uint64_t number, struct bitm_shard_location *out);
uint32_t bitm_shards_rank(const struct bitm_shards *shards, bool one, uint64_t position, uint64_t *out);
uint32_t bitm_shards_select(const struct bitm_shards *shards, bool one, uint64_t rank, uint64_t *out);
uint32_t bitm_shards_next(const struct bitm_shards *shards, bool one, uint64_t from, uint64_t *out);
uint32_t bitm_shards_previous(const struct bitm_shards *shards, bool one, uint64_t from, uint64_t *out);
uint32_t bitm_shards_rank_list(const struct bitm_shards *shards, bool one, const uint64_t *positions, size_t positions_len, uint64_t *out, size_t out_len, uint64_t *room, size_t room_len, struct bitm_list_counts *counts);
uint32_t bitm_shards_select_list(const struct bitm_shards *shards, bool one, const uint64_t *ranks, size_t ranks_len, uint64_t *out, size_t out_len, uint64_t *room, size_t room_len, struct bitm_list_counts *counts);
