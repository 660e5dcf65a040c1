// Minimal perfect hashes: a number of its own below n for each of n keys, in about three bits a key. No key is kept.
//
//     const std::vector<std::string> keys{"zero", "one", "two"};
//     const std::hash<std::string> hash;
//     const bitm::perfect_hash numbers(keys.begin(), keys.end(), hash); // or of hashes: bitm::perfect_hash(hashes)
//     const bitm::maybe_position number = numbers(hash("two")); // below 3; none, or any number, for what is no key
//     std::cout << (number.value() < numbers.size()) << '\n';   // 1
//
// The file of a hash is its block. A hash with a seed for each word is another kind: bitm::seeded_hash.
#ifndef BITM_PERFECT_HASH_HPP
#define BITM_PERFECT_HASH_HPP

#include <bitm/file.hpp>
#include <bitm/levels.hpp>

BITM_NAMESPACE_BEGIN

namespace detail {

// The block of a hash: the hash as C takes it, and the seed of whoever wrote it.
struct hash_parts {
    bitm_hash hash;
    std::uint64_t seed;
};
inline std::uint32_t open_hash(const std::uint64_t *block, std::size_t words, hash_parts *parts) noexcept
{
    return bitm_hash_block_open(block, words, &parts->hash, &parts->seed);
}

// What follows the index in the file of version 2 of a hash: mark, keys, bits of fingerprints, seed, levels, words of
// fingerprints, and the sizes of the levels. Its words in all, 0 where it is not one that is read here.
constexpr std::size_t hash_head = 6;
constexpr std::uint64_t hash_mark = 0x687361686D746962; // "bitmhash"
inline std::size_t hash_tail_len(const std::uint64_t *tail, std::size_t tail_len, std::uint64_t words) noexcept
{
    if (tail_len < hash_head || tail[0] != hash_mark || tail[1] > 64 * words || tail[2] != 0 || tail[5] != 0) return 0;
    if (tail[4] > hash_levels || tail_len - hash_head < tail[4]) return 0;
    return hash_head + static_cast<std::size_t>(tail[4]);
}

// The block of a hash, or its file of version 2.
struct hash_kind : block_kind<hash_kind, hash_parts, open_hash> {
    static constexpr kind number = kind::perfect_hash;
    static constexpr std::size_t nothing_len = 32;
    static std::uint32_t build_nothing(std::uint64_t *to) noexcept
    {
        return bitm_hash_block_build(nullptr, 0, nullptr, 0, 0, to, nothing_len);
    }
    static std::size_t needed(const std::uint64_t *file, std::size_t have) noexcept
    {
        const std::size_t begin = needed_of(file, have);
        if (is_block({file, have})) return begin;
        if (have < begin + hash_head) return begin + hash_head;
        return begin + hash_head + static_cast<std::size_t>(file[begin + 4] <= hash_levels ? file[begin + 4] : 0);
    }
    static result<in_block<hash_kind>> in(const std::uint64_t *file, std::size_t words) noexcept
    {
        if (is_block({file, words})) return block_kind::in(file, words);
        const result<bitm_stored> header = header_of(file, words, kind::index);
        if (!header) return block_kind::in(file, words);
        const std::size_t begin = header->size / 8;
        const std::uint64_t *const tail = file + begin;
        const std::size_t tail_len = hash_tail_len(tail, words - begin, header->words.len);
        if (tail_len == 0) return not_of(number, words == begin ? kind::index : kind::unknown);
        hash_parts raw{};
        raw.hash.index = bitm_stored_index_of(file, &*header);
        raw.hash.keys = tail[1], raw.hash.sizes = tail + hash_head, raw.hash.sizes_len = tail[4], raw.seed = tail[3];
        return in_block<hash_kind>(raw, {file, begin + tail_len});
    }
    static result<block> renewed(const in_block<hash_kind> &old)
    {
        const hash_parts &raw = old.raw();
        const bitm_index &index = raw.hash.index;
        if (!is_counted(raw.hash)) return failure{errc::wrong};
        const levels_in levels{{index.words, index.words_len}, {}, {raw.hash.sizes, raw.hash.sizes_len}};
        result<block> all = hash_block(levels, raw.seed);
        if (!all) return failure{errc::wrong};
        return all;
    }
    // Whether a block is as it was written and holds a hash; of a file of version 2, whether the tables match
    // the words, and there is a 1 bit for each key.
    static bool check(const in_block<hash_kind> &of) noexcept
    {
        if (is_block(of.words())) return checked(bitm_hash_block_check, of.words());
        return bitm_index_check(&of.raw().hash.index) == BITM_OK && is_counted(of.raw().hash);
    }

private:
    static bool is_counted(const bitm_hash &hash) noexcept
    {
        std::uint64_t ones = 0;
        return bitm_index_count(&hash.index, true, &ones) == BITM_OK && ones == hash.keys;
    }
};

// The hashes of a range, by a function.
template <class It, class Hash> gathered hashed(It first, It last, Hash &&hash)
{
    gathered hashes;
    for (; first != last; ++first) hashes.push(hash(*first));
    return hashes;
}

// The calls of C that a hash without seeds has.
struct plain_calls {
    static constexpr auto get = bitm_hash_get;
    static constexpr auto get_list = bitm_hash_get_list;
    static constexpr auto set_prints = bitm_hash_set_prints;
    static constexpr auto find = bitm_hash_find;
    static constexpr auto find_list = bitm_hash_find_list;
};

// The queries of a hash: `Self` has `raw()`, which is as the `Calls` of C take it.
template <class Self, class Calls> class hash_queries {
public:
    // The number of a hash, below size(); none for some hashes of no key (most of these get some number).
    maybe_position operator()(std::uint64_t hash) const
    {
        std::uint64_t out = 0;
        const std::uint32_t status = Calls::get(hash_(), hash, &out);
        return found(status, out);
    }
    result<maybe_position> try_number(std::uint64_t hash) const noexcept
    {
        std::uint64_t out = 0;
        const std::uint32_t status = Calls::get(hash_(), hash, &out);
        return tried(status, out);
    }
    // Of a list: out[i] is the number of hashes[i], or bitm::no_answer.
    void operator()(words_in hashes, words_out out) const { answer_list(Calls::get_list, hashes, out, hash_()); }

    // Writes the `width` lowest bits of the fingerprint of each key at its number, as an array in words of the
    // caller's. By them `find` answers none for almost all that are no keys. A fingerprint is any number that you
    // compute from a key beside its hash. Returns whether each hash has a number, and its fingerprint room; the other
    // fingerprints are written all the same. Fails where there is not one fingerprint for each hash, or `width` is
    // above 64.
    bool set_prints(words_in hashes, words_in key_prints, words_out prints, unsigned width) const
    {
        need_apart(hashes, prints), need_apart(key_prints, prints);
        const std::uint32_t status = Calls::set_prints(hash_(), hashes.data(), hashes.size(), key_prints.data(),
                                                       key_prints.size(), prints.data(), prints.size(), width);
        if (status != BITM_WRONG) need(status, wrong_prints);
        return status == BITM_OK;
    }
    // The number of a key, by its hash and its fingerprint; none where the fingerprint at that number is another, so
    // one in 2^width of the values that are no keys has a number. Fails where there is no fingerprint at that number.
    maybe_position find(words_in prints, unsigned width, std::uint64_t hash, std::uint64_t key_print) const
    {
        return try_find(prints, width, hash, key_print).value();
    }
    result<maybe_position> try_find(words_in prints, unsigned width, std::uint64_t hash,
                                    std::uint64_t key_print) const noexcept
    {
        std::uint64_t out = 0;
        const std::uint32_t status = Calls::find(hash_(), prints.data(), prints.size(), width, hash, key_print, &out);
        if (status == BITM_BAD_SIZE) return bad_size(wrong_prints);
        return tried(status, out);
    }
    // Of a list: out[i] is the number of the key with hashes[i] and key_prints[i], or bitm::no_answer.
    void find(words_in prints, unsigned width, words_in hashes, words_in key_prints, words_out out) const
    {
        need_apart(prints, out), need_apart(hashes, out), need_apart(key_prints, out);
        bitm_list_counts counts{};
        const std::uint32_t status =
            Calls::find_list(hash_(), prints.data(), prints.size(), width, hashes.data(), hashes.size(),
                             key_prints.data(), key_prints.size(), out.data(), out.size(), &counts);
        need_list(status, counts, hashes.size() == out.size() ? wrong_prints : wrong_room);
    }

protected:
    hash_queries() noexcept = default;
    ~hash_queries() = default;
    hash_queries(const hash_queries &) noexcept = default;
    hash_queries &operator=(const hash_queries &) noexcept = default;

private:
    static constexpr const char *wrong_prints =
        "a fingerprint has more than 64 bits, or there is not one for each hash";

    auto hash_() const noexcept { return &static_cast<const Self &>(*this).raw(); }
};

} // namespace detail

class BITM_OWNER perfect_hash : public detail::hash_queries<perfect_hash, detail::plain_calls>,
                                public detail::stored_calls<perfect_hash, detail::hash_kind> {
public:
    // Of no keys.
    perfect_hash() noexcept = default;
    // `percent` bits of a level for 100 keys: 100 takes least memory, 200 less time. Fails where two hashes are equal,
    // with errc::equal_keys and the indices of the first two. `progress` is called after each level (there are some
    // ten) with how many keys have a number so far, and how many there are, the last time with all; an exception
    // from it ends the build. The hashes must not change meanwhile.
    explicit perfect_hash(words_in hashes, unsigned percent = 100) : perfect_hash(try_of(hashes, percent).value()) {}
    template <class Progress, detail::if_progress<Progress> = 0>
    perfect_hash(words_in hashes, unsigned percent, Progress &&progress)
        : perfect_hash(try_of(hashes, percent, progress).value())
    {
    }
    template <class It, class Hash> perfect_hash(It first, It last, Hash &&hash, unsigned percent = 100)
        : perfect_hash(detail::hashed(first, last, hash), percent)
    {
    }
    template <class It, class Hash, class Progress, detail::if_progress<Progress> = 0>
    perfect_hash(It first, It last, Hash &&hash, unsigned percent, Progress &&progress)
        : perfect_hash(detail::hashed(first, last, hash), percent, progress)
    {
    }
    static result<perfect_hash> try_of(words_in hashes, unsigned percent = 100)
    {
        return detail::by_levels<perfect_hash>(hashes, {percent, false, 0}, of_levels);
    }
    template <class Progress, detail::if_progress<Progress> = 0>
    static result<perfect_hash> try_of(words_in hashes, unsigned percent, Progress &&progress)
    {
        return detail::by_levels<perfect_hash>(hashes, {percent, false, 0}, of_levels, progress);
    }

    // How many keys.
    std::uint64_t size() const noexcept { return raw().keys; }
    bool empty() const noexcept { return size() == 0; }
    // Whether the block is as it was written and holds a hash; of a file of version 2 that was mapped, whether its
    // tables match its words.
    bool check() const noexcept { return detail::hash_kind::check(own_.found()); }
    // The sizes of the levels; the block, or the file of version 2 that was mapped; and the hash as C takes it: a copy
    // of that struct points at what the hash does, and keeps it no longer. Deleted for temporaries.
    words_in sizes() const &noexcept BITM_LIFETIMEBOUND { return {raw().sizes, raw().sizes_len}; }
    words_in block() const &noexcept BITM_LIFETIMEBOUND { return own_.words(); }
    const bitm_hash &raw() const &noexcept BITM_LIFETIMEBOUND { return own_.raw().hash; }
    void sizes() const && = delete;
    void block() const && = delete;
    void raw() const && = delete;

    // The same hash: the same bytes, of the same version of the format.
    friend bool operator==(const perfect_hash &a, const perfect_hash &b) noexcept
    {
        return detail::same_words(a.own_.words(), b.own_.words());
    }
    friend bool operator!=(const perfect_hash &a, const perfect_hash &b) noexcept { return !(a == b); }
    // As text: `perfect_hash(keys=3)`.
    template <class Char, class Traits>
    friend std::basic_ostream<Char, Traits> &operator<<(std::basic_ostream<Char, Traits> &to, const perfect_hash &of)
    {
        return detail::shown(to, "perfect_hash", std::array<detail::field, 1>{{{"keys", of.size()}}});
    }

private:
    static result<perfect_hash> of_levels(const detail::levels_in &levels)
    {
        result<detail::block> all = detail::hash_block(levels, 0);
        if (!all) return all.error();
        return opened(std::move(*all), verify::no);
    }
};

BITM_NAMESPACE_END

#endif
