/* What help() says of a PerfectHash, and of what can be closed. Each text has an example, which a test runs. */
#ifndef BITM_VALUE_DOCS_H
#define BITM_VALUE_DOCS_H

#define VALUE_CLOSE(made)                                                                                              \
    "Gives the memory back, once the calls that run have ended. Later calls raise ValueError, but for close.\n"        \
    "The end of a block `with` closes too." EXAMPLE("value = " made) THEN("value.close()") THEN("value.closed")        \
    PRINTS("True") EXAMPLE("with " made " as value: value.closed") PRINTS("False") THEN("value.closed") PRINTS("True")

#define HASH_DOC                                                                                                       \
    "PerfectHash(keys, *, bits=16, percent=100, seed=None, hash='siphash', tries=None,\n"                              \
    "            progress=None)\n--\n\n"                                                                               \
    "A number of its own, below their count, for each key of a set (str, bytes, ints, or an array of\n"                \
    "ints). No key is kept, but a fingerprint of `bits` bits (0 to 64) for each: of others, one in\n"                  \
    "2**bits is taken for a key.\n\n"                                                                                  \
    "percent bits are tried for each 100 keys at each level: 100 takes least memory, 200 less time. The\n"             \
    "same keys and seed give the same numbers; without a seed it is 0, or 1 where the hashes of two keys\n"            \
    "are equal by 0. ValueError where keys are equal: it says which. hash='blake2b' is the hash of files of\n"         \
    "version 0.2.0.\n\n"                                                                                               \
    "With tries, 1 to 256, each word has the best of that many seeds: with 64 a key takes 2.3 bits beside\n"           \
    "its fingerprint, for 2.8 without. All is in one block of memory then, which is also its file.\n\n"                \
    "progress(done, total) is called after each level: so many of all keys have a number then. An error\n"             \
    "that it raises ends the build."                                                                                   \
    EXAMPLE("numbers = PerfectHash(['zero', 'one', 'two'])")                                                           \
    THEN("sorted(numbers[key] for key in ('zero', 'one', 'two'))") PRINTS("[0, 1, 2]")                                 \
    THEN("sorted(PerfectHash(range(3), tries=64).get_list(range(3)))") PRINTS("[0, 1, 2]")
#define HASH_GET                                                                                                       \
    "The number of a key, or the default where its fingerprint shows that it is not one." EXAMPLE(                     \
        "PerfectHash(['zero', 'one', 'two'], bits=64).get('ten', 3)") PRINTS("3")
#define HASH_GET_LIST                                                                                                  \
    "The numbers of many keys; missing as in Index.select_list." EXAMPLE(                                              \
        "PerfectHash(['one'], bits=64).get_list(['one', 'ten'])") PRINTS("[0, None]")
#define HASH_CHECK                                                                                                     \
    "Whether the block is as it was written and holds a hash: looks at all of it. Of a file of format version 2 it "   \
    "finds only what does not fit." EXAMPLE("PerfectHash(['one']).check()") PRINTS("True")
#define HASH_SEED "The seed by which keys are hashed." EXAMPLE("PerfectHash(['one'], seed=5).seed") PRINTS("5")
#define HASH_BITS "How many bits a fingerprint has." EXAMPLE("PerfectHash(['one'], bits=9).bits") PRINTS("9")
#define HASH_HAS_SEEDS                                                                                                 \
    "Whether the words of the hash have seeds." EXAMPLE("PerfectHash(['one'], tries=64).has_seeds") PRINTS("True")
#define HASH_HASH                                                                                                      \
    "By which function keys are hashed: 'siphash' or 'blake2b'." EXAMPLE("PerfectHash(['one']).hash")                  \
        PRINTS("'siphash'")

#endif
