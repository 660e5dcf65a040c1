// Minimal perfect hashes with a seed for each word of their levels, in one block of memory: of many keys 2.26 bits a
// key, where bitm::perfect_hash takes 2.8; building takes more time. An owner, and a view of a block in memory of the
// caller's.
//
//     const std::vector<std::string> keys{"zero", "one", "two"};
//     const std::hash<std::string> hash;
//     const bitm::seeded_hash numbers(keys.begin(), keys.end(), hash); // or of hashes: bitm::seeded_hash(hashes)
//     std::cout << (numbers(hash("two")).value() < numbers.size()) << '\n'; // 1
//     const bitm::seeded_hash_view same = bitm::seeded_hash_view::in(numbers.block());
//     std::cout << (same(hash("one")) == numbers(hash("one"))) << '\n'; // 1
//
// No key is kept, so a value that is no key may get the number of some key. The file of such a hash is its
// block, the same bytes from C, C++ and Rust. A block of a hash without seeds is refused.
#ifndef BITM_SEEDED_HASH_HPP
#define BITM_SEEDED_HASH_HPP

#include <bitm/perfect_hash.hpp>

BITM_NAMESPACE_BEGIN

namespace detail {

// The block of a hash with seeds: the hash as C takes it, and the seed of the caller's.
struct seeded_parts {
    bitm_seeded_hash hash;
    std::uint64_t seed;
};
inline std::uint32_t open_seeded(const std::uint64_t *block, std::size_t words, seeded_parts *parts) noexcept
{
    return bitm_hash_block_open_seeded(block, words, &parts->hash, &parts->seed);
}
struct seeded_kind : block_kind<seeded_kind, seeded_parts, open_seeded> {
    static constexpr kind number = kind::seeded_hash;
    static constexpr const char *name = "seeded_hash";
    static std::array<field, 1> fields(const bitm_seeded_hash &raw) noexcept { return {{{"keys", raw.hash.keys}}}; }
    static constexpr std::size_t nothing_len = 40;
    static std::uint32_t build_nothing(std::uint64_t *to) noexcept
    {
        return bitm_hash_block_build_seeded(nullptr, 0, nullptr, 0, nullptr, 0, 0, to, nothing_len);
    }
};

// The calls of C that a hash with seeds has.
struct seeded_calls_of_c {
    static constexpr auto get = bitm_hash_get_seeded;
    static constexpr auto get_list = bitm_hash_get_list_seeded;
    static constexpr auto set_prints = bitm_hash_set_prints_seeded;
    static constexpr auto find = bitm_hash_find_seeded;
    static constexpr auto find_list = bitm_hash_find_list_seeded;
};

template <class Self> class seeded_calls : public block_calls<Self, seeded_kind>,
                                           public hash_queries<Self, seeded_calls_of_c> {
public:
    // How many keys there are, and whether there are none; the seed of the caller's, by which the keys were hashed,
    // say; the hash as C takes it, and the block.
    std::uint64_t size() const noexcept { return raw().hash.keys; }
    bool empty() const noexcept { return size() == 0; }
    std::uint64_t seed() const noexcept { return this->self().own_.raw().seed; }
    const bitm_seeded_hash &raw() const &noexcept BITM_LIFETIMEBOUND { return this->self().own_.raw().hash; }
    bitm_seeded_hash raw() const &&noexcept { return this->self().own_.raw().hash; }
    words_in block() const noexcept { return this->self().own_.words(); }

    // Whether the block is as it was written and holds a hash with seeds: looks at all of it.
    bool check() const noexcept { return checked(bitm_hash_block_check_seeded, block()); }
};

} // namespace detail

// A hash with seeds whose block is in memory of the caller's, who keeps it: a mapped file, say.
class BITM_POINTER seeded_hash_view : public detail::seeded_calls<seeded_hash_view> {
public:
    // Of no keys; of the block that begins the words: fails where they begin with no whole block of a hash with seeds.
    // For an owner, call `view()`, not `in(x.block())`: only then compilers warn if the view outlives its owner.
    seeded_hash_view() noexcept = default;
    static result<seeded_hash_view> try_in(detail::kept<const std::uint64_t> file BITM_LIFETIMEBOUND) noexcept
    {
        const auto found = detail::seeded_kind::in(file.data(), file.size());
        if (!found) return found.error();
        return seeded_hash_view(*found);
    }
    static seeded_hash_view in(detail::kept<const std::uint64_t> file BITM_LIFETIMEBOUND)
    {
        return try_in(file).value();
    }

private:
    friend class seeded_hash;
    friend class detail::seeded_calls<seeded_hash_view>;
    explicit seeded_hash_view(const detail::in_block<detail::seeded_kind> &found) noexcept : own_(found) {}

    detail::in_block<detail::seeded_kind> own_;
};

// A hash with seeds that owns its block, made of the hashes of its keys.
class BITM_OWNER seeded_hash : public detail::seeded_calls<seeded_hash>,
                               public detail::stored_calls<seeded_hash, detail::seeded_kind> {
public:
    // No keys; of the hashes of keys, or of keys and a function that hashes them: fails where two hashes are equal,
    // with errc::equal_keys and the indices of the first two. `percent` bits of a level for 100 keys: 100 takes least
    // memory, 200 less time. Of the first `tries` seeds, at most 256, each word gets the one by which most of its
    // hashes fall on a bit alone: more take less memory, and more time to build. The block keeps `seed`, which is
    // yours. `progress` is called as for a perfect_hash.
    seeded_hash() noexcept = default;
    explicit seeded_hash(words_in hashes, unsigned percent = 100, unsigned tries = 64, std::uint64_t seed = 0)
        : seeded_hash(try_of(hashes, percent, tries, seed).value())
    {
    }
    template <class Progress, detail::if_progress<Progress> = 0>
    seeded_hash(words_in hashes, unsigned percent, unsigned tries, std::uint64_t seed, Progress &&progress)
        : seeded_hash(try_of(hashes, percent, tries, seed, progress).value())
    {
    }
    template <class It, class Hash>
    seeded_hash(It first, It last, Hash &&hash, unsigned percent = 100, unsigned tries = 64, std::uint64_t seed = 0)
        : seeded_hash(detail::hashed(first, last, hash), percent, tries, seed)
    {
    }
    template <class It, class Hash, class Progress, detail::if_progress<Progress> = 0>
    seeded_hash(It first, It last, Hash &&hash, unsigned percent, unsigned tries, std::uint64_t seed,
                Progress &&progress)
        : seeded_hash(detail::hashed(first, last, hash), percent, tries, seed, progress)
    {
    }
    static result<seeded_hash> try_of(words_in hashes, unsigned percent = 100, unsigned tries = 64,
                                      std::uint64_t seed = 0)
    {
        return detail::by_levels<seeded_hash>(hashes, {percent, true, tries_of(tries)},
                                              [&](const detail::levels_in &it) { return of_levels(it, seed); });
    }
    template <class Progress, detail::if_progress<Progress> = 0> static result<seeded_hash>
    try_of(words_in hashes, unsigned percent, unsigned tries, std::uint64_t seed, Progress &&progress)
    {
        return detail::by_levels<seeded_hash>(
            hashes, {percent, true, tries_of(tries)}, [&](const detail::levels_in &it) { return of_levels(it, seed); },
            progress);
    }

    // A view, which the owner has to outlive; the block, and the hash as C takes it. Deleted for temporaries.
    seeded_hash_view view() const &noexcept BITM_LIFETIMEBOUND { return seeded_hash_view(own_.found()); }
    words_in block() const &noexcept BITM_LIFETIMEBOUND { return own_.words(); }
    const bitm_seeded_hash &raw() const &noexcept BITM_LIFETIMEBOUND { return own_.raw().hash; }
    void view() const && = delete;
    void block() const && = delete;
    void raw() const && = delete;

private:
    friend class detail::seeded_calls<seeded_hash>;

    static constexpr std::uint16_t tries_of(unsigned tries) noexcept
    {
        return static_cast<std::uint16_t>(tries < 256 ? tries : 256);
    }
    static result<seeded_hash> of_levels(const detail::levels_in &levels, std::uint64_t seed)
    {
        result<detail::block> all = detail::hash_block(levels, seed);
        if (!all) return all.error();
        return opened(std::move(*all), verify::no);
    }
};

BITM_NAMESPACE_END

#endif
