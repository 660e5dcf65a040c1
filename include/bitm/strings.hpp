// Strings of bytes, each with a number, in one block of memory: an owner, and a view of a block in memory of the
// caller's.
//
//     const bitm::strings names{"ada", "bob", "eve"};                        // each string has a number below 3
//     std::cout << names.contains("bob") << ' ' << names.contains("bo") << '\n'; // 1 0
//     std::cout << (names[*names.find("eve")] == "eve") << '\n';             // 1
//
// It is a minimal perfect hash of the hashes of the strings, and the strings one after another: so any other string has
// no number. The file of strings is their block, the same bytes from each language.
#ifndef BITM_STRINGS_HPP
#define BITM_STRINGS_HPP

#include <bitm/perfect_hash.hpp>
#include <bitm/trie.hpp>

#include <initializer_list>
#include <string>
#include <string_view>

BITM_NAMESPACE_BEGIN

namespace detail {

struct strings_kind : block_kind<strings_kind, bitm_strings, bitm_strings_open> {
    static constexpr kind number = kind::strings;
    static constexpr const char *name = "strings";
    static std::array<field, 1> fields(const bitm_strings &raw) noexcept { return {{{"strings", raw.hash.keys}}}; }
    static constexpr std::size_t nothing_len = 72;
    static std::uint32_t build_nothing(std::uint64_t *to) noexcept
    {
        const bitm_hash none{};
        return bitm_strings_build(&none, 0, nullptr, 0, nullptr, 0, to, nothing_len);
    }
};

template <class Self> class strings_calls : public block_calls<Self, strings_kind> {
public:
    // How many strings there are, and whether there are none; the seed of their hashes; all of it as C takes it, and
    // the block.
    std::uint64_t size() const noexcept { return raw().hash.keys; }
    bool empty() const noexcept { return size() == 0; }
    std::uint64_t seed() const noexcept { return raw().seed; }
    const bitm_strings &raw() const &noexcept BITM_LIFETIMEBOUND { return this->self().own_.raw(); }
    bitm_strings raw() const &&noexcept { return this->self().own_.raw(); }
    words_in block() const noexcept { return this->self().own_.words(); }

    // The number of a string; none for any other string. And whether there is one.
    maybe_position find(std::string_view string) const { return try_find(string).value(); }
    result<maybe_position> try_find(std::string_view string) const noexcept
    {
        std::uint64_t out = 0;
        const std::uint32_t status = bitm_strings_find(&raw(), labels_of(string), string.size(), &out);
        return tried(status, out);
    }
    bool contains(std::string_view string) const { return find(string).has_value(); }

    // The string of a number, in the block: fails where there is no such number.
    std::string_view operator[](std::uint64_t number) const
    {
        std::uint64_t begin = 0, len = 0;
        const std::uint32_t status = bitm_strings_get(&raw(), number, &begin, &len);
        if (status == BITM_NONE) outside(number, size());
        if (status != BITM_OK) fail(error_of(status));
        return len ? std::string_view(reinterpret_cast<const char *>(raw().bytes) + begin, len) : std::string_view();
    }

    // Whether the block is as it was written and holds strings: looks at all of it.
    bool check() const noexcept { return checked(bitm_strings_check, block()); }
};

} // namespace detail

// Strings whose block is in memory of the caller's, who keeps it: a mapped file, say.
class BITM_POINTER strings_view : public detail::strings_calls<strings_view> {
public:
    // Of no strings; of the block that begins the words: fails where they begin with no whole block of strings.
    // For an owner, call `view()`, not `in(x.block())`: only then compilers warn if the view outlives its owner.
    strings_view() noexcept = default;
    static result<strings_view> try_in(detail::kept<const std::uint64_t> file BITM_LIFETIMEBOUND) noexcept
    {
        const auto found = detail::strings_kind::in(file.data(), file.size());
        if (!found) return found.error();
        return strings_view(*found);
    }
    static strings_view in(detail::kept<const std::uint64_t> file BITM_LIFETIMEBOUND) { return try_in(file).value(); }

private:
    friend class strings;
    friend class detail::strings_calls<strings_view>;
    explicit strings_view(const detail::in_block<detail::strings_kind> &found) noexcept : own_(found) {}

    detail::in_block<detail::strings_kind> own_;
};

// Strings that own their block, made of the strings.
class BITM_OWNER strings : public detail::strings_calls<strings>,
                           public detail::stored_calls<strings, detail::strings_kind> {
public:
    // No strings; the strings of iterators, which are gone through once, or of a list: fails where one comes twice, or
    // two have one hash (try another seed), with errc::equal_keys and the indices of the first two.
    // `percent` bits of a level for 100 strings: 100 takes least memory, 200 less time.
    strings() noexcept = default;
    template <class It> strings(It first, It last, unsigned percent = 100, std::uint64_t seed = 0)
        : strings(try_of(first, last, percent, seed).value())
    {
    }
    strings(std::initializer_list<std::string_view> all) : strings(all.begin(), all.end()) {}
    template <class It> static result<strings> try_of(It first, It last, unsigned percent = 100, std::uint64_t seed = 0)
    {
        std::string bytes;
        detail::gathered ends;
        for (; first != last; ++first) {
            bytes += std::string_view(*first);
            ends.push(bytes.size());
        }
        const words_in all(ends.data(), ends.size());
        const detail::block hashes(all.size());
        const std::uint32_t status = bitm_strings_hashes(detail::labels_of(bytes), bytes.size(), all.data(), all.size(),
                                                         seed, hashes.data(), hashes.size());
        if (status != BITM_OK) return detail::error_of(status);
        const words_in hashed(hashes.data(), hashes.size());
        result<strings> made =
            detail::by_levels<strings>(hashed, {percent, false, 0}, [&](const detail::levels_in &it) {
                return of_levels(it.words, it.sizes, bytes, all, seed);
            });
        if (made) return made;
        const auto string = [&](std::uint64_t i) {
            const std::uint64_t begin = i ? all[i - 1] : 0;
            return std::string_view(bytes).substr(begin, all[i] - begin);
        };
        return detail::of_items(made.error(), "strings", [&](auto i, auto j) { return string(i) == string(j); });
    }

    // A view, which the owner has to outlive; the string of a number, the block, and all of it as C takes it. Deleted
    // for temporaries.
    strings_view view() const &noexcept BITM_LIFETIMEBOUND { return strings_view(own_.found()); }
    std::string_view operator[](std::uint64_t number) const &BITM_LIFETIMEBOUND
    {
        return detail::strings_calls<strings>::operator[](number);
    }
    words_in block() const &noexcept BITM_LIFETIMEBOUND { return own_.words(); }
    const bitm_strings &raw() const &noexcept BITM_LIFETIMEBOUND { return own_.raw(); }
    void view() const && = delete;
    void operator[](std::uint64_t) const && = delete;
    void block() const && = delete;
    void raw() const && = delete;

private:
    friend class detail::strings_calls<strings>;

    // The tables of the levels, and the block of these and of the strings.
    static result<strings> of_levels(words_in words, words_in sizes, const std::string &bytes, words_in ends,
                                     std::uint64_t seed)
    {
        detail::block upper(bitm_index_upper_len(words.size())), lower(bitm_index_lower_len(words.size()));
        bitm_hash hash{};
        hash.index.words = words.data(), hash.index.words_len = words.size(), hash.index.bits_len = 64 * words.size();
        hash.index.upper = upper.data(), hash.index.upper_len = upper.size();
        hash.index.lower = lower.data(), hash.index.lower_len = lower.size();
        hash.sizes = sizes.data(), hash.sizes_len = sizes.size(), hash.keys = ends.size();
        std::uint64_t ones = 0, len = 0;
        std::uint32_t status =
            bitm_index_build(words.data(), words.size(), upper.data(), upper.size(), lower.data(), lower.size(), &ones);
        if (status == BITM_OK) status = bitm_strings_size(words.size(), sizes.size(), ends.size(), bytes.size(), &len);
        if (status != BITM_OK) return detail::error_of(status);
        detail::block all(len);
        const std::uint32_t built = bitm_strings_build(&hash, seed, detail::labels_of(bytes), bytes.size(), ends.data(),
                                                       ends.size(), all.data(), all.size());
        if (built != BITM_OK) return detail::error_of(built);
        return opened(std::move(all), verify::no);
    }
};

BITM_NAMESPACE_END

#endif
