// Dictionaries of numbers, in one block of memory: an owner, and a view of a block in memory of the caller's.
//
//     const bitm::dictionary squares{4, 9, 49};                                // each key has a number below 3
//     std::cout << squares.contains(49) << ' ' << squares.contains(50) << '\n'; // 1 0
//     std::cout << squares.keys()[*squares.find(49)] << '\n';                 // 49
//
// A dictionary is a minimal perfect hash of its keys, and the keys: about 67 bits for each. So what is no key has no
// number. The file of a dictionary is its block, the same bytes from each language.
#ifndef BITM_DICTIONARY_HPP
#define BITM_DICTIONARY_HPP

#include <bitm/perfect_hash.hpp>

BITM_NAMESPACE_BEGIN

namespace detail {

// The block of a dictionary.
struct dictionary_kind : block_kind<dictionary_kind, bitm_dictionary, bitm_dictionary_open> {
    static constexpr kind number = kind::dictionary;
    static constexpr const char *name = "dictionary";
    static std::array<field, 1> fields(const bitm_dictionary &raw) noexcept { return {{{"keys", raw.keys_len}}}; }
    static constexpr std::size_t nothing_len = 40;
    static std::uint32_t build_nothing(std::uint64_t *to) noexcept
    {
        const bitm_dictionary none{};
        return bitm_dictionary_build(&none, to, nothing_len);
    }
};

template <class Self> class dictionary_calls : public block_calls<Self, dictionary_kind> {
public:
    // How many keys there are, and whether there are none; the seed that is added to a key to hash it; the keys in the
    // order of their numbers; all of it as C takes it, and the block.
    std::uint64_t size() const noexcept { return raw().keys_len; }
    bool empty() const noexcept { return size() == 0; }
    std::uint64_t seed() const noexcept { return raw().seed; }
    words_in keys() const noexcept { return {raw().keys, raw().keys_len}; }
    const bitm_dictionary &raw() const &noexcept BITM_LIFETIMEBOUND { return this->self().own_.raw(); }
    bitm_dictionary raw() const &&noexcept { return this->self().own_.raw(); }
    words_in block() const noexcept { return this->self().own_.words(); }

    // The number of a key, which is where it stands among the keys; none for what is no key. And whether there is one.
    maybe_position find(std::uint64_t key) const { return try_find(key).value(); }
    result<maybe_position> try_find(std::uint64_t key) const noexcept
    {
        std::uint64_t out = 0;
        const std::uint32_t status = bitm_dictionary_find(&raw(), key, &out);
        return tried(status, out);
    }
    bool contains(std::uint64_t key) const { return find(key).has_value(); }

    // Of a list, into memory of the caller's as long as it: out[i] is the number of keys[i], or bitm::no_answer. Where
    // the block is noticed to be wrong, the call fails once all is answered.
    void find(words_in keys, words_out out) const { answer_list(bitm_dictionary_find_list, keys, out, &raw()); }

    // Whether the block is as it was written and holds a dictionary: looks at all of it.
    bool check() const noexcept { return checked(bitm_dictionary_check, block()); }
};

} // namespace detail

// A dictionary whose block is in memory of the caller's, who keeps it: a mapped file, say.
class BITM_POINTER dictionary_view : public detail::dictionary_calls<dictionary_view> {
public:
    // Of no keys; of the block that begins the words: fails where they begin with no whole block of a dictionary.
    // For an owner, call `view()`, not `in(x.block())`: only then compilers warn if the view outlives its owner.
    dictionary_view() noexcept = default;
    static result<dictionary_view> try_in(detail::kept<const std::uint64_t> file BITM_LIFETIMEBOUND) noexcept
    {
        const auto found = detail::dictionary_kind::in(file.data(), file.size());
        if (!found) return found.error();
        return dictionary_view(*found);
    }
    static dictionary_view in(detail::kept<const std::uint64_t> file BITM_LIFETIMEBOUND)
    {
        return try_in(file).value();
    }

private:
    friend class dictionary;
    friend class detail::dictionary_calls<dictionary_view>;
    explicit dictionary_view(const detail::in_block<detail::dictionary_kind> &found) noexcept : own_(found) {}

    detail::in_block<detail::dictionary_kind> own_;
};

// A dictionary that owns its block, made of its keys.
class BITM_OWNER dictionary : public detail::dictionary_calls<dictionary>,
                              public detail::stored_calls<dictionary, detail::dictionary_kind> {
public:
    // No keys; of keys, words or a list: fails where one comes twice, with errc::equal_keys and the indices of the
    // first two that are equal. `percent` bits of a level for 100 keys: 100 takes least memory, 200 less time.
    dictionary() noexcept = default;
    explicit dictionary(words_in keys, unsigned percent = 100, std::uint64_t seed = 0)
        : dictionary(try_of(keys, percent, seed).value())
    {
    }
    dictionary(std::initializer_list<std::uint64_t> keys) : dictionary(words_in(keys.begin(), keys.size())) {}
    static result<dictionary> try_of(words_in keys, unsigned percent = 100, std::uint64_t seed = 0)
    {
        detail::block hashes(keys.size());
        for (std::size_t i = 0; i < keys.size(); i++) hashes.data()[i] = keys.data()[i] + seed;
        result<dictionary> made = detail::by_levels<dictionary>(
            words_in(hashes.data(), hashes.size()), {percent, false, 0},
            [&](const detail::levels_in &it) { return of_levels(it.words, it.sizes, keys, seed); });
        if (made) return made;
        return detail::of_items(made.error(), "keys", [](auto...) { return true; }); // a hash is the key and the seed
    }

    // Views, which the owner has to outlive, of the dictionary and of its keys; the block, and all of it as C takes it.
    // Deleted for temporaries.
    dictionary_view view() const &noexcept BITM_LIFETIMEBOUND { return dictionary_view(own_.found()); }
    words_in keys() const &noexcept BITM_LIFETIMEBOUND { return {raw().keys, raw().keys_len}; }
    words_in block() const &noexcept BITM_LIFETIMEBOUND { return own_.words(); }
    const bitm_dictionary &raw() const &noexcept BITM_LIFETIMEBOUND { return own_.raw(); }
    void view() const && = delete;
    void keys() const && = delete;
    void block() const && = delete;
    void raw() const && = delete;

private:
    friend class detail::dictionary_calls<dictionary>;

    // The tables of the levels, each key at its number, and the block of these.
    static result<dictionary> of_levels(words_in words, words_in sizes, words_in keys, std::uint64_t seed)
    {
        detail::block upper(bitm_index_upper_len(words.size())), lower(bitm_index_lower_len(words.size()));
        detail::block placed(keys.size());
        bitm_dictionary parts{};
        bitm_index &index = parts.hash.index;
        index.words = words.data(), index.words_len = words.size(), index.bits_len = 64 * words.size();
        index.upper = upper.data(), index.upper_len = upper.size();
        index.lower = lower.data(), index.lower_len = lower.size();
        parts.hash.sizes = sizes.data(), parts.hash.sizes_len = sizes.size(), parts.hash.keys = keys.size();
        parts.keys = placed.data(), parts.keys_len = keys.size(), parts.seed = seed;
        std::uint64_t ones = 0, number = 0, len = 0;
        std::uint32_t status =
            bitm_index_build(words.data(), words.size(), upper.data(), upper.size(), lower.data(), lower.size(), &ones);
        for (std::size_t i = 0; i < keys.size() && status == BITM_OK; i++) {
            status = bitm_hash_get(&parts.hash, keys.data()[i] + seed, &number);
            if (status == BITM_OK) placed.data()[number] = keys.data()[i];
        }
        if (status == BITM_OK) status = bitm_dictionary_size(words.size(), sizes.size(), keys.size(), &len);
        if (status != BITM_OK) return detail::error_of(status);
        detail::block all(len);
        const std::uint32_t built = bitm_dictionary_build(&parts, all.data(), all.size());
        if (built != BITM_OK) return detail::error_of(built);
        return opened(std::move(all), verify::no);
    }
};

BITM_NAMESPACE_END

#endif
