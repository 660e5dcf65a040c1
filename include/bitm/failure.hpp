// What went wrong: the kinds of errors, which item of a list is at fault, and the words for it. Part of bitm/core.hpp,
// with the macros of all headers.
//
//     const std::vector<std::uint64_t> falling{2, 5, 5, 3};
//     const bitm::failure why = bitm::sequence::try_of(falling).error();
//     std::cout << why.at << ' ' << why.value << ' ' << why.bound << '\n'; // 3 3 5
//     std::cerr << bitm::message(why) << '\n';                         // bitm: number 3 (3) is less than number 2 (5)
#ifndef BITM_FAILURE_HPP
#define BITM_FAILURE_HPP

#if defined __GNUC__
#pragma GCC diagnostic push
#pragma GCC diagnostic ignored "-Wold-style-cast" // of C
#endif
#include <bitm.h>
#if defined __GNUC__
#pragma GCC diagnostic pop
#endif

#include <cstddef>
#include <cstdint>
#include <cstdio>
#include <cstdlib>
#include <cstring>
#include <initializer_list>
#include <iterator>
#include <limits>
#include <new>
#include <optional>
#include <type_traits>
#include <utility>

#if defined __cpp_exceptions
#include <stdexcept>
#include <string>
#endif
#if __cplusplus >= 202002L
#include <ranges>
#include <version>
#endif
#if defined __cpp_lib_expected
#include <expected>
#endif

// The result, or the object, points into what the argument, or *this, holds: clang warns where that ends first. Each
// compiler refuses views and walks of temporaries. None sees a view that outlives its owner in a container or a class of
// yours, a copy of what raw() gives, a view by `in(x.block())` in place of `x.view()`, or a view of an owner that is
// assigned to or grows.
#if defined __has_cpp_attribute
#if __has_cpp_attribute(clang::lifetimebound)
#define BITM_LIFETIMEBOUND [[clang::lifetimebound]]
#elif __has_cpp_attribute(msvc::lifetimebound)
#define BITM_LIFETIMEBOUND [[msvc::lifetimebound]]
#endif
#if __has_cpp_attribute(gsl::Pointer)
#define BITM_POINTER [[gsl::Pointer]]
#define BITM_OWNER [[gsl::Owner]]
#endif
#endif
#ifndef BITM_LIFETIMEBOUND
#define BITM_LIFETIMEBOUND
#endif
#ifndef BITM_POINTER
#define BITM_POINTER
#define BITM_OWNER
#endif

#if defined __GNUC__
#define BITM_RARELY(condition) __builtin_expect(static_cast<bool>(condition), 0)
#define BITM_COLD __attribute__((cold, noinline))
#else
#define BITM_RARELY(condition) (condition)
#define BITM_COLD
#endif

#if defined __cpp_exceptions
#define BITM_NAMESPACE_BEGIN namespace bitm { inline namespace v1 {
#else
#define BITM_NAMESPACE_BEGIN namespace bitm { inline namespace v1_no_exceptions {
#endif
#define BITM_NAMESPACE_END } }

BITM_NAMESPACE_BEGIN

// What went wrong.
enum class errc : std::uint8_t {
    none = 0,
    bad_size = BITM_BAD_SIZE, // a size or a length is wrong
    wrong = BITM_WRONG,       // the tables do not match the words, or the parts form no sequence
    unsorted = BITM_UNSORTED, // a number is less than the one before it, or a position or a word does not ascend
    outside = 16,             // a position past the end
    wrong_file,               // not a file of this format, or not a whole one
    no_file,                  // the system does not open, read, map or write it
    equal_keys,               // two keys of a perfect hash have one hash
    overlap,                  // memory that is written overlaps what is read
    no_tree,                  // the degrees form no tree
    other_kind                // a right file of another kind
};

// What a file holds.
enum class kind : std::uint8_t {
    unknown,
    index,
    sequence,
    sparse_bits,
    perfect_hash,
    seeded_hash,
    dictionary,
    wavelet_matrix,
    tree,
    trie,
    text_index,
    strings,
    key_hash
};

// The kind in words, in memory that stays.
inline const char *name_of(kind of) noexcept
{
    switch (of) {
    case kind::unknown: break;
    case kind::index: return "an index";
    case kind::sequence: return "a sequence";
    case kind::sparse_bits: return "sparse bits";
    case kind::perfect_hash: return "a perfect hash";
    case kind::seeded_hash: return "a perfect hash with seeds";
    case kind::dictionary: return "a dictionary";
    case kind::wavelet_matrix: return "a wavelet matrix";
    case kind::tree: return "a tree";
    case kind::trie: return "a trie";
    case kind::text_index: return "the index of a text";
    case kind::strings: return "strings";
    case kind::key_hash: return "a perfect hash of keys";
    }
    return "another structure";
}

// What is wrong with an item of a list, by its index in failure::at.
enum class item_fault : std::uint8_t {
    none,      // it is not about an item of a list
    less,      // the number is less than the one before it
    not_above, // the position, or the label of a child, is not above the one before it
    not_below, // the position or letter is not below `bound`
    not_after, // the word does not stand after the one before it
    too_wide,  // the number or label has more than `bound` bits
    no_child,  // the node is a child of no node before it, or has more children than there are nodes left
    equal,     // it and item `of` are equal
    one_hash   // it and item `of` are not equal, and have one hash
};

// What went wrong. Where an item of a list is at fault, `item` says what is wrong with it, `at` is its index, counted
// from 0, and `of` how many items there are, or the index of the other of two. Else `at` and `of` are a position and
// how many there are where it is `outside`, errno where it is `no_file`, and the kind of the file and the one that was
// wanted where it is `other_kind`.
struct failure {
    // The kind of failure.
    errc code = errc::none;
    // The item at fault; the position that is outside; errno for a file; the kind of a file.
    std::uint64_t at = 0;
    // How many items there are, or the other item; the size that `at` is past; the kind that was wanted.
    std::uint64_t of = 0;
    // The wrong argument or length, the name of the items, or the name of the file in errors of load, map and save: in
    // memory that stays; nullptr where nothing more is known.
    const char *which = nullptr;
    // The item at fault, where it is a number.
    std::uint64_t value = 0;
    // The number before it, or the one that it has to be below, or how many bits it may have.
    std::uint64_t bound = 0;
    // What is wrong with the item.
    item_fault item = item_fault::none;

    // The kind of failure in words, in memory that stays.
    const char *text() const noexcept
    {
        switch (code) {
        case errc::none: return "bitm: no error";
        case errc::bad_size: return "bitm: a size or a length is wrong";
        case errc::wrong: return "bitm: the tables do not match the words";
        case errc::unsorted: return "bitm: a number is less than the one before it";
        case errc::outside: return "bitm: a position past the end";
        case errc::wrong_file: return "bitm: not a file of this format, or not a whole one";
        case errc::no_file: return "bitm: the file cannot be opened, read or written";
        case errc::equal_keys: return "bitm: two keys are equal, or their hashes are";
        case errc::overlap: return "bitm: memory that is written overlaps what is read";
        case errc::no_tree: return "bitm: the degrees are those of no tree";
        case errc::other_kind: return "bitm: the file holds another structure";
        }
        return "bitm: not an error of this library";
    }
    friend bool operator==(const failure &a, const failure &b) noexcept
    {
        return a.code == b.code && a.at == b.at && a.of == b.of && a.value == b.value && a.bound == b.bound &&
               a.item == b.item;
    }
    friend bool operator!=(const failure &a, const failure &b) noexcept { return !(a == b); }
};

#if defined __cpp_exceptions
namespace detail {

// What is wrong with an item of a list, in words.
inline std::string item_message(const failure &why)
{
    const std::string name = why.which ? why.which : "item", bound = std::to_string(why.bound);
    const std::string item = name + ' ' + std::to_string(why.at), before = name + ' ' + std::to_string(why.at - 1);
    const std::string value = item + " (" + std::to_string(why.value) + ')';
    const std::string both = item + " and " + std::to_string(why.of);
    switch (why.item) {
    case item_fault::none: break;
    case item_fault::less: return value + " is less than " + before + " (" + bound + ')';
    case item_fault::not_above: return value + " is not above " + before + " (" + bound + ')';
    case item_fault::not_below: return value + " is not below " + bound;
    case item_fault::not_after: return item + " does not stand after " + before;
    case item_fault::too_wide: return value + " has more than " + bound + " bits";
    case item_fault::no_child:
        return item + " is a child of no node before it, or has more children than there are nodes left";
    case item_fault::equal: return both + " are equal";
    case item_fault::one_hash: return both + " have one hash: take another seed";
    }
    return item;
}

} // namespace detail

// A failure in words: what went wrong, and which item, argument or length it is.
inline std::string message(const failure &why)
{
    if (why.item != item_fault::none) return "bitm: " + detail::item_message(why);
    const auto called = [](std::uint64_t number) { return std::string(name_of(static_cast<kind>(number))); };
    std::string text = why.text();
    if (why.code == errc::other_kind) text = "bitm: the file holds " + called(why.at) + ", not " + called(why.of);
    if (why.which) text += std::string(": ") + why.which;
    if (why.code == errc::no_file) text += std::string(": ") + std::strerror(static_cast<int>(why.at));
    if (why.code == errc::outside)
        text += (why.which ? " is " : ": ") + std::to_string(why.at) + " of " + std::to_string(why.of);
    return text;
}

struct wrong_tables : std::runtime_error {
    // With the text of `errc::wrong`.
    wrong_tables() : std::runtime_error("bitm: the tables do not match the words") {}
};
struct wrong_file : std::runtime_error {
    using std::runtime_error::runtime_error;
};
// A file that is right, but holds another structure than the class that opens it.
struct other_kind : wrong_file {
    using wrong_file::wrong_file;
};
#endif

// Throws the exception of an error: std::invalid_argument, std::out_of_range, bitm::wrong_tables, bitm::wrong_file or
// bitm::other_kind. Without exceptions it ends the program with a line that says what was wrong: use the `try_` calls
// there.
[[noreturn]] BITM_COLD inline void fail(const failure &why)
{
#if defined __cpp_exceptions
    switch (why.code) {
    case errc::wrong: throw wrong_tables();
    case errc::other_kind: throw other_kind(message(why));
    case errc::wrong_file:
    case errc::no_file: throw wrong_file(message(why));
    case errc::outside: throw std::out_of_range(message(why));
    default: throw std::invalid_argument(message(why));
    }
#else
    std::fprintf(stderr, "%s%s%s: %llu of %llu\n", why.text(), why.which ? ": " : "", why.which ? why.which : "",
                 static_cast<unsigned long long>(why.at), static_cast<unsigned long long>(why.of));
    std::abort();
#endif
}

BITM_NAMESPACE_END

#endif
