// Minimal perfect hashes of keys that are text, bytes or whole numbers, with a fingerprint of each key, in one block of
// memory: an owner, and a view of a block in memory of the caller's.
//
//     const std::vector<std::string> keys{"zero", "one", "two"};
//     const bitm::key_hash numbers(keys);                              // each key has a number below 3
//     std::cout << (numbers("two").value() < numbers.size()) << ' ' << numbers.bits() << '\n'; // 1 16
//     const std::vector<std::int64_t> years{-44, 1066, 1492};
//     const bitm::key_hash smaller(years, {8, 100, 64});               // fingerprints of 8 bits, and seeds of words
//     std::vector<std::uint64_t> found(3);
//     smaller(years, found);
//     std::cout << (smaller(1066) == found[1]) << '\n';                // 1
//
// No key is kept: by its fingerprint of b bits a value that is no key has no number, but for one in 2^b. The file is
// the block, the same bytes from C++ and from the packages for Rust, Python and JavaScript: each opens the files of the
// others, and finds the same numbers. Text is UTF-8, and taken as its bytes are; text, bytes and numbers are different
// keys, "7" and 7, say. bitm::perfect_hash and bitm::seeded_hash open these blocks too, and query hashes.
#ifndef BITM_KEY_HASH_HPP
#define BITM_KEY_HASH_HPP

#include <bitm/key_bytes.hpp>
#include <bitm/perfect_hash.hpp>
#include <bitm/sections.hpp>

BITM_NAMESPACE_BEGIN

// How a hash of keys is made.
struct key_options {
    // The bits of a fingerprint, 0 to 32.
    unsigned bits = 16;
    // The bits of a level for 100 keys: 100 takes least memory, 200 less time.
    unsigned percent = 100;
    // Of how many seeds each word gets the best, up to 256: more take less memory, and more time to build. 0: no seeds.
    unsigned tries = 0;
    // By what the keys are hashed. If none is given, it is 0 or, where two keys have one hash by that, 1.
    std::optional<std::uint64_t> seed = std::nullopt;
};

namespace detail {

// The block of a hash of keys: the hash as C takes it, the seed of the keys, and their fingerprints.
struct key_parts {
    bitm_seeded_hash hash;
    std::uint64_t seed;
    words_in prints;
    std::uint64_t width;
    bool has_seeds;
};
inline std::uint32_t open_keys(const std::uint64_t *block, std::size_t words, key_parts *parts) noexcept
{
    bitm_hash &plain = parts->hash.hash;
    bitm_section prints{};
    const bool has_seeds = bitm_hash_block_open_seeded(block, words, &parts->hash, &parts->seed) == BITM_OK;
    if (!has_seeds) parts->hash = {};
    if (!has_seeds && bitm_hash_block_open(block, words, &plain, &parts->seed) != BITM_OK) return BITM_WRONG;
    if (!keys_in(block, words, has_seeds, &prints) || prints.words_len == 0) return BITM_WRONG;
    parts->width = prints.words[0];
    parts->prints = {prints.words + 1, prints.words_len - 1};
    parts->has_seeds = has_seeds;
    if (prints.count != 8 * std::uint64_t{prints.words_len} || parts->width > 64) return BITM_WRONG;
    // no more keys than bits, so the bits of all fingerprints are far fewer than 2^64
    if (plain.index.words_len > std::size_t{1} << 50 || plain.keys > 64 * plain.index.words_len) return BITM_WRONG;
    return parts->prints.size() == bitm_bits_words_len(plain.keys * parts->width) ? BITM_OK : BITM_WRONG;
}

// The block of a hash with the fingerprints of its keys, given the block without.
inline result<block> with_prints(const block &plain, words_in hashes, words_in prints, unsigned width)
{
    bitm_seeded_hash hash{};
    std::uint64_t seed = 0;
    if (bitm_hash_block_open_seeded(plain.data(), plain.size(), &hash, &seed) != BITM_OK) {
        hash = {};
        const std::uint32_t opened = bitm_hash_block_open(plain.data(), plain.size(), &hash.hash, &seed);
        if (opened != BITM_OK) return error_of(opened);
    }
    const block own(1 + bitm_bits_words_len(std::uint64_t{hashes.size()} * width));
    own.data()[0] = width;
    const std::uint32_t status = bitm_hash_set_prints_seeded(&hash, hashes.data(), hashes.size(), prints.data(),
                                                             prints.size(), own.data() + 1, own.size() - 1, width);
    if (status != BITM_OK) return error_of(status);
    return with_section(plain, keys_role, 8 * std::uint64_t{own.size()}, {own.data(), own.size()});
}

struct key_kind : block_kind<key_kind, key_parts, open_keys> {
    static constexpr kind number = kind::key_hash;
    static constexpr const char *name = "key_hash";
    static std::array<field, 1> fields(const bitm_seeded_hash &raw) noexcept { return {{{"keys", raw.hash.keys}}}; }
    static constexpr std::size_t nothing_len = 48;
    static std::uint32_t build_nothing(std::uint64_t *to) noexcept
    {
        alignas(64) std::uint64_t plain[hash_kind::nothing_len];
        const std::uint64_t width[1] = {key_options().bits};
        const std::uint32_t status = hash_kind::build_nothing(plain);
        if (status != BITM_OK) return status;
        return bitm_block_extend(plain, hash_kind::nothing_len, keys_role, 8, width, 1, to, nothing_len);
    }
};

template <class Self> class key_calls : public block_calls<Self, key_kind> {
public:
    // How many keys there are, and whether there are none; the seed by which they are hashed; how many bits a
    // fingerprint has; whether words have seeds; the hash as C takes it, and the block.
    std::uint64_t size() const noexcept { return raw().hash.keys; }
    bool empty() const noexcept { return size() == 0; }
    std::uint64_t seed() const noexcept { return parts().seed; }
    std::uint64_t bits() const noexcept { return parts().width; }
    bool has_seeds() const noexcept { return parts().has_seeds; }
    const bitm_seeded_hash &raw() const &noexcept BITM_LIFETIMEBOUND { return parts().hash; }
    bitm_seeded_hash raw() const &&noexcept { return parts().hash; }
    words_in block() const noexcept { return this->self().own_.words(); }

    // The number of a key, below size(); none for what is no key, but for one in 2^bits() of these.
    template <class Key> maybe_position operator()(const Key &key) const { return try_number(key).value(); }
    template <class Key> result<maybe_position> try_number(const Key &key) const
    {
        static_assert(is_key<Key>, "a key is text, bytes or a whole number");
        key_marks marks{};
        if (mark(key, seed(), &marks) != BITM_OK) return bad_size(no_key);
        std::uint64_t out = 0;
        const std::uint32_t status =
            bitm_hash_find_seeded(&raw(), parts().prints.data(), parts().prints.size(),
                                  static_cast<std::uint32_t>(bits()), marks.hash, marks.print, &out);
        return tried(status, out);
    }
    // Of a list, into memory of the caller's as long as it: out[i] is the number of key i, or bitm::no_answer. Where
    // the block is noticed to be wrong, the call fails once all is answered.
    template <class Keys, class = item_of<Keys>> void operator()(const Keys &keys, words_out out) const
    {
        const key_list all(std::begin(keys), std::end(keys), seed());
        if (BITM_RARELY(!all.is_whole())) fail(bad_size(no_key));
        need_apart(block(), out);
        bitm_list_counts counts{};
        const std::uint32_t status =
            bitm_hash_find_list_seeded(&raw(), parts().prints.data(), parts().prints.size(),
                                       static_cast<std::uint32_t>(bits()), all.hashes().data(), all.hashes().size(),
                                       all.prints().data(), all.prints().size(), out.data(), out.size(), &counts);
        need_list(status, counts);
    }

    // Whether the block is as it was written and holds a hash of keys: looks at all of it.
    bool check() const noexcept
    {
        return checked(has_seeds() ? bitm_hash_block_check_seeded : bitm_hash_block_check, block());
    }

private:
    const key_parts &parts() const noexcept { return this->self().own_.raw(); }
};

} // namespace detail

// A hash of keys whose block is in memory of the caller's, who keeps it: a mapped file, say.
class BITM_POINTER key_hash_view : public detail::key_calls<key_hash_view> {
public:
    // Of no keys; of the block that begins the words: fails where they begin with no whole block of a hash of keys. The
    // block of a hash without the fingerprints of its keys is one of another kind (errc::other_kind).
    // For an owner, call `view()`, not `in(x.block())`: only then compilers warn if the view outlives its owner.
    key_hash_view() noexcept = default;
    static result<key_hash_view> try_in(detail::kept<const std::uint64_t> file BITM_LIFETIMEBOUND) noexcept
    {
        const auto found = detail::key_kind::in(file.data(), file.size());
        if (!found) return found.error();
        return key_hash_view(*found);
    }
    static key_hash_view in(detail::kept<const std::uint64_t> file BITM_LIFETIMEBOUND) { return try_in(file).value(); }

private:
    friend class key_hash;
    friend class detail::key_calls<key_hash_view>;
    explicit key_hash_view(const detail::in_block<detail::key_kind> &found) noexcept : own_(found) {}

    detail::in_block<detail::key_kind> own_;
};

// A hash of keys that owns its block, made of its keys.
class BITM_OWNER key_hash : public detail::key_calls<key_hash>,
                            public detail::stored_calls<key_hash, detail::key_kind> {
public:
    // No keys; the keys of a container, of iterators that can be gone through again, or of a list. A key is text (what
    // converts to std::string_view), bytes (a container of std::byte or unsigned char one after another) or a whole
    // number of at most 64 bits. Fails where two keys are equal or have one hash, with errc::equal_keys and the indices
    // of the first two, and where an option is invalid. Takes linear time. `progress` is called after each level (there
    // are some ten) with how many keys have a number so far, and how many there are, the last time with all; with
    // another seed it begins anew. An exception from it ends the build. The keys must not change meanwhile.
    key_hash() noexcept = default;
    template <class Keys, class = detail::item_of<Keys>> explicit key_hash(const Keys &keys, key_options how = {})
        : key_hash(try_of(keys, how).value())
    {
    }
    template <class It, class = typename std::iterator_traits<It>::iterator_category>
    key_hash(It first, It last, key_options how = {}) : key_hash(try_of(first, last, how).value())
    {
    }
    key_hash(std::initializer_list<std::string_view> keys, key_options how = {})
        : key_hash(keys.begin(), keys.end(), how)
    {
    }
    template <class Keys, class Progress, class = detail::item_of<Keys>, detail::if_progress<Progress> = 0>
    key_hash(const Keys &keys, key_options how, Progress &&progress) : key_hash(try_of(keys, how, progress).value())
    {
    }
    template <class Keys, class = detail::item_of<Keys>>
    static result<key_hash> try_of(const Keys &keys, key_options how = {})
    {
        return try_of(std::begin(keys), std::end(keys), how);
    }
    template <class It, class = typename std::iterator_traits<It>::iterator_category>
    static result<key_hash> try_of(It first, It last, key_options how = {})
    {
        return by_seeds(first, last, how, [&](words_in hashes, const auto &make) {
            return detail::by_levels<key_hash>(hashes, way_of(how), make);
        });
    }
    template <class Keys, class Progress, class = detail::item_of<Keys>, detail::if_progress<Progress> = 0>
    static result<key_hash> try_of(const Keys &keys, key_options how, Progress &&progress)
    {
        return by_seeds(std::begin(keys), std::end(keys), how, [&](words_in hashes, const auto &make) {
            return detail::by_levels<key_hash>(hashes, way_of(how), make, progress);
        });
    }

    // A view, which the owner has to outlive; the block, and the hash as C takes it. Deleted for temporaries.
    key_hash_view view() const &noexcept BITM_LIFETIMEBOUND { return key_hash_view(own_.found()); }
    words_in block() const &noexcept BITM_LIFETIMEBOUND { return own_.words(); }
    const bitm_seeded_hash &raw() const &noexcept BITM_LIFETIMEBOUND { return own_.raw().hash; }
    void view() const && = delete;
    void block() const && = delete;
    void raw() const && = delete;

private:
    friend class detail::key_calls<key_hash>;

    static detail::level_way way_of(const key_options &how) noexcept
    {
        return {how.percent, how.tries > 0, static_cast<std::uint16_t>(how.tries)};
    }
    // The hash of keys by the first seed that keeps them apart.
    template <class It, class Build>
    static result<key_hash> by_seeds(It first, It last, const key_options &how, Build &&build)
    {
        static_assert(detail::is_multipass<It>, "the keys are gone through again: put them into a container");
        if (how.bits > 32) return detail::bad_size("a fingerprint has at most 32 bits");
        if (how.tries > 256) return detail::bad_size("at most 256 seeds are tried");
        std::uint64_t seed = how.seed.value_or(0);
        for (;;) {
            result<key_hash> made = by_seed(first, last, how.bits, seed, build);
            const bool is_last = how.seed || seed == 1;
            if (made || is_last || made.error().item != item_fault::one_hash) return made;
            seed = 1;
        }
    }
    template <class It, class Build>
    static result<key_hash> by_seed(It first, It last, unsigned bits, std::uint64_t seed, Build &build)
    {
        const detail::key_list keys(first, last, seed);
        if (!keys.is_whole()) return detail::bad_size(detail::no_key);
        result<key_hash> made = build(keys.hashes(), [&](const detail::levels_in &levels) -> result<key_hash> {
            const result<detail::block> plain = detail::hash_block(levels, seed);
            if (!plain) return plain.error();
            result<detail::block> all = detail::with_prints(*plain, keys.hashes(), keys.prints(), bits);
            if (!all) return all.error();
            return opened(std::move(*all), verify::no);
        });
        if (made) return made;
        return detail::of_items(made.error(), "keys", [&](std::uint64_t i, std::uint64_t j) {
            return detail::are_equal(*detail::item_at(first, i), *detail::item_at(first, j));
        });
    }
};

BITM_NAMESPACE_END

#endif
