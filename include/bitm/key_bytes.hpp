// Keys of bitm::key_hash: the bytes of a key, and how they are hashed. Part of bitm/key_hash.hpp.
//
//     const std::vector<std::byte> raw{std::byte{'a'}};
//     const bitm::key_hash some(std::vector<std::string>{"a"}, {32});
//     std::cout << some("a").has_value() << ' ' << some(raw).has_value() << '\n'; // 1 0
#ifndef BITM_KEY_BYTES_HPP
#define BITM_KEY_BYTES_HPP

#include <bitm/memory.hpp>

#include <string_view>

BITM_NAMESPACE_BEGIN

namespace detail {

// What is a key: text, bytes one after another, or a whole number that is no letter and no truth value.
template <class Key> inline constexpr bool is_text_key =
    std::is_convertible_v<const Key &, std::string_view> && !std::is_null_pointer_v<Key>;
template <class Key> inline constexpr bool is_bytes_key =
    !is_text_key<Key> && (holds<const Key, const std::byte>::value || holds<const Key, const unsigned char>::value);
#if defined __cpp_char8_t
using letter_of_utf8 = char8_t;
#else
using letter_of_utf8 = char;
#endif
template <class Key, class... Others> inline constexpr bool is_any_of = (std::is_same_v<Key, Others> || ...);
template <class Key>
inline constexpr bool is_number_key = std::is_integral_v<Key> && sizeof(Key) <= 8 &&
                                      !is_any_of<Key, bool, char, wchar_t, char16_t, char32_t, letter_of_utf8>;
template <class Key> inline constexpr bool is_key = is_text_key<Key> || is_bytes_key<Key> || is_number_key<Key>;

// The items of a container; and item i of a range, from its first.
template <class Keys> using item_of = decltype(*std::begin(std::declval<const Keys &>()));
template <class It> It item_at(It first, std::uint64_t i)
{
    return std::next(first, static_cast<typename std::iterator_traits<It>::difference_type>(i));
}
// Whether a range can be gone through again.
template <class It> inline constexpr bool is_multipass =
#if __cplusplus >= 202002L
    std::forward_iterator<It> ||
#endif
    std::is_base_of_v<std::forward_iterator_tag, typename std::iterator_traits<It>::iterator_category>;

// The bytes of a key, and its kind: keys of different kinds may have the same bytes.
class key_bytes {
public:
    explicit key_bytes(std::string_view text) noexcept
        : at_(reinterpret_cast<const std::uint8_t *>(text.data())), len_(text.size()), kind_(1)
    {
    }
    key_bytes(const void *bytes, std::size_t len) noexcept
        : at_(static_cast<const std::uint8_t *>(bytes)), len_(len), kind_(2)
    {
    }
    // A number of at most 64 bits, the lowest byte first: from 2^63 on it has a ninth, which is its sign.
    key_bytes(std::uint64_t number, bool is_large) noexcept : at_(own_), len_(is_large ? 9 : 8), kind_(is_large ? 4 : 3)
    {
        std::memcpy(own_, &number, 8);
    }
    key_bytes(const key_bytes &) = delete;
    key_bytes &operator=(const key_bytes &) = delete;

    const std::uint8_t *data() const noexcept { return at_; }
    std::size_t size() const noexcept { return len_; }
    std::uint64_t kind() const noexcept { return kind_; }

private:
    std::uint8_t own_[9] = {};
    const std::uint8_t *at_;
    std::size_t len_;
    std::uint64_t kind_;
};

template <class Key> key_bytes bytes_of_key(const Key &key)
{
    if constexpr (is_text_key<Key>) {
        return key_bytes(std::string_view(key));
    } else if constexpr (is_bytes_key<Key>) {
        return key_bytes(key.data(), key.size());
    } else {
        const bool is_large = std::is_unsigned_v<Key> && static_cast<std::uint64_t>(key) >> 63 != 0;
        return key_bytes(static_cast<std::uint64_t>(key), is_large);
    }
}

// Whether two keys are one key.
template <class Key> bool are_equal(const Key &a, const Key &b)
{
    const key_bytes x = bytes_of_key(a), y = bytes_of_key(b);
    return x.kind() == y.kind() && x.size() == y.size() &&
           (x.size() == 0 || std::memcmp(x.data(), y.data(), x.size()) == 0);
}

// The hash of a key, and what its fingerprint is of. A null pointer is no text: BITM_BAD_SIZE.
struct key_marks {
    std::uint64_t hash, print;
};
inline constexpr const char *no_key = "a key is a null pointer";
template <class Key> std::uint32_t mark(const Key &key, std::uint64_t seed, key_marks *out)
{
    if constexpr (std::is_pointer_v<Key>)
        if (!key) return BITM_BAD_SIZE;
    const key_bytes bytes = bytes_of_key(key);
    return bitm_key_hash(bytes.data(), bytes.size(), seed, bytes.kind(), &out->hash, &out->print);
}

// The hashes of the keys of a range, and what their fingerprints are of, up to a null pointer.
class key_list {
public:
    template <class It> key_list(It first, It last, std::uint64_t seed)
    {
        using Key = bare<decltype(*first)>;
        static_assert(is_key<Key>, "a key is text, bytes or a whole number");
        for (; first != last && status_ == BITM_OK; ++first) {
            key_marks marks{};
            status_ = mark<Key>(*first, seed, &marks);
            hashes_.push(marks.hash), prints_.push(marks.print);
        }
    }
    bool is_whole() const noexcept { return status_ == BITM_OK; }
    words_in hashes() const noexcept { return hashes_; }
    words_in prints() const noexcept { return prints_; }

private:
    std::uint32_t status_ = BITM_OK;
    gathered hashes_, prints_;
};

} // namespace detail

BITM_NAMESPACE_END

#endif
