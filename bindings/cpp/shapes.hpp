// What the types of the C++ interface are, which of them convert, and single examples with answers by hand.
#ifndef SHAPES_HPP
#define SHAPES_HPP

#include "model.hpp"

#include <strings.h>

template <class T> constexpr bool regular()
{
    return std::is_default_constructible_v<T> && std::is_copy_constructible_v<T> && std::is_copy_assignable_v<T> &&
           std::is_nothrow_move_constructible_v<T> && std::is_nothrow_move_assignable_v<T> &&
           std::is_nothrow_swappable_v<T> && std::is_nothrow_default_constructible_v<T>;
}
static_assert(regular<bitm::bits>() && regular<bitm::bits_view>() && regular<bitm::rank_index>() &&
              regular<bitm::rank_index_view>());
static_assert(regular<bitm::sequence>() && regular<bitm::sequence_view>() && regular<bitm::perfect_hash>());
static_assert(regular<bitm::tree>() && regular<bitm::tree_view>());
static_assert(regular<bitm::trie>() && regular<bitm::trie_view>());
static_assert(regular<bitm::sparse_bits>() && regular<bitm::sparse_bits_view>());
static_assert(regular<bitm::text_index>() && regular<bitm::text_index_view>());
static_assert(regular<bitm::dictionary>() && regular<bitm::dictionary_view>());
static_assert(regular<bitm::seeded_hash>() && regular<bitm::seeded_hash_view>());
static_assert(regular<bitm::key_hash>() && regular<bitm::key_hash_view>());
static_assert(regular<bitm::wavelet_matrix>() && regular<bitm::wavelet_matrix_view>());
static_assert(regular<bitm::strings>() && regular<bitm::strings_view>());
static_assert(regular<bitm::prefix_counts>() && regular<bitm::sharded_index>());
// A view is copied as its bytes.
template <class... Views> constexpr bool plain = (std::is_trivially_copyable_v<Views> && ...);
static_assert(plain<bitm::bits_view, bitm::rank_index_view, bitm::sequence_view, bitm::wavelet_matrix_view, bitm::tree_view,
                    bitm::trie_view, bitm::strings_view, bitm::dictionary_view, bitm::sparse_bits_view,
                    bitm::text_index_view, bitm::seeded_hash_view, bitm::key_hash_view, bitm::words_in,
                    bitm::words_out>);
// Bits are made of a size, and of text, but not of a truth value, a fraction or a null pointer.
template <class From> constexpr bool from = std::is_constructible_v<bitm::bits, From>;
static_assert(from<int> && from<unsigned> && from<long long> && from<std::size_t> && from<const char *> &&
              from<const char (&)[5]> && from<std::string> && from<std::string_view> && from<bitm::bits_view>);
static_assert(!from<bool> && !from<double> && !from<float> && !from<std::nullptr_t> && !from<int *> && !from<void *>);
static_assert(!std::is_convertible_v<int, bitm::bits> && !std::is_convertible_v<const char *, bitm::bits>);
// What a temporary gives of itself is its value; nothing is assigned to one.
static_assert(std::is_same_v<decltype(bitm::bits().set(0)), bitm::bits> && std::is_same_v<decltype(bitm::bits()[0]), bool>);
static_assert(!std::is_assignable_v<bitm::bits, const bitm::bits &> && std::is_assignable_v<bitm::bits &, bitm::bits>);
// No owner is, or converts by itself to, a view.
template <class Owner, class View>
constexpr bool apart = !std::is_convertible_v<Owner, View> && !std::is_convertible_v<Owner &, View> &&
                       !std::is_convertible_v<Owner *, View *> && !std::is_constructible_v<View, Owner>;
static_assert(apart<bitm::bits, bitm::bits_view> && apart<bitm::rank_index, bitm::rank_index_view> &&
              apart<bitm::sequence, bitm::sequence_view> && apart<bitm::tree, bitm::tree_view> &&
              apart<bitm::wavelet_matrix, bitm::wavelet_matrix_view> &&
              apart<bitm::sparse_bits, bitm::sparse_bits_view> && apart<bitm::dictionary, bitm::dictionary_view> &&
              apart<bitm::text_index, bitm::text_index_view> && apart<bitm::trie, bitm::trie_view> &&
              apart<bitm::seeded_hash, bitm::seeded_hash_view> && apart<bitm::key_hash, bitm::key_hash_view>);
// Bits are no container of words: their size counts bits.
static_assert(!std::is_convertible_v<bitm::bits &, bitm::words_in> &&
              !std::is_constructible_v<bitm::words_in, bitm::bits_view &> &&
              !std::is_constructible_v<bitm::bits_view, bitm::bits &> &&
              !std::is_constructible_v<bitm::words_in, bitm::sequence &>);
#if __cplusplus >= 202002L
namespace sr = std::ranges;
static_assert(std::random_access_iterator<bitm::bits_iterator> && std::random_access_iterator<bitm::sequence_iterator>);
static_assert(std::bidirectional_iterator<bitm::ones_range::iterator> &&
              std::bidirectional_iterator<bitm::zeros_range::iterator>);
static_assert(sr::random_access_range<bitm::bits> && sr::random_access_range<bitm::bits_view> &&
              sr::random_access_range<bitm::rank_index> && sr::random_access_range<bitm::sequence> &&
              sr::random_access_range<const bitm::sequence_view>);
static_assert(sr::sized_range<bitm::bits> && sr::sized_range<bitm::sequence> && sr::common_range<bitm::sequence>);
static_assert(sr::view<bitm::bits_view> && sr::view<bitm::sequence_view> && sr::view<bitm::ones_range> &&
              sr::view<bitm::rank_index_view>);
static_assert(sr::borrowed_range<bitm::bits_view> && sr::borrowed_range<bitm::ones_range> &&
              sr::borrowed_range<bitm::sequence_view>);
static_assert(!sr::borrowed_range<bitm::bits> && !sr::borrowed_range<bitm::sequence>);
static_assert(sr::bidirectional_range<bitm::ones_range> && sr::bidirectional_range<bitm::zeros_range>);
static_assert(sr::random_access_range<bitm::fragments_range> && sr::view<bitm::fragments_range> &&
              sr::sized_range<bitm::fragments_range>);
static_assert(sr::input_range<bitm::sequence_walk>);
static_assert(sr::random_access_range<bitm::node_range> && sr::borrowed_range<bitm::node_range> &&
              sr::view<bitm::node_range> && sr::sized_range<bitm::node_range>);
// Each view that is a range says so, and that its iterators outlive it.
template <class View> constexpr bool lasting = sr::view<View> && sr::borrowed_range<View> && sr::common_range<View>;
static_assert(lasting<bitm::bits_view> && lasting<bitm::rank_index_view> && lasting<bitm::sequence_view> &&
              lasting<bitm::wavelet_matrix_view> && lasting<bitm::ones_range> && lasting<bitm::zeros_range> &&
              lasting<bitm::fragments_range> && lasting<bitm::node_range> && lasting<bitm::words_in> &&
              lasting<bitm::words_out>);
template <class Owner> constexpr bool owning = sr::range<Owner> && !sr::view<Owner> && !sr::borrowed_range<Owner>;
static_assert(owning<bitm::bits> && owning<bitm::rank_index> && owning<bitm::sequence> && owning<bitm::wavelet_matrix>);
template <class View> constexpr bool no_range = !sr::range<View> && std::semiregular<View>;
static_assert(no_range<bitm::tree_view> && no_range<bitm::trie_view> && no_range<bitm::strings_view> &&
              no_range<bitm::dictionary_view> && no_range<bitm::sparse_bits_view> && no_range<bitm::text_index_view> &&
              no_range<bitm::seeded_hash_view> && no_range<bitm::key_hash_view>);
static_assert(sr::random_access_range<bitm::wavelet_matrix> && sr::sized_range<bitm::wavelet_matrix> &&
              sr::view<bitm::wavelet_matrix_view> && !sr::borrowed_range<bitm::wavelet_matrix>);
#endif
// The names are not those of <strings.h>, which has a function `index`.
static void by_using()
{
    using namespace bitm;
    const bits b("101");
    const rank_index x(b);
    const rank_index_view v = x.view();
    CHECK(x.count() == 2 && v.select(1) == maybe_position(2));
}

// Which argument is wrong, in the text of the exception.
template <class Call> static void says(Call call, const char *text)
{
#if defined __cpp_exceptions
    std::string said = "nothing";
    try {
        call();
    } catch (const std::exception &why) {
        said = why.what();
    }
    if (said != text) std::printf("it says %s\n", said.c_str());
    CHECK(said == text);
#else
    (void)call, (void)text;
#endif
}
static void faults()
{
    bitm::bits b("0101101");
    const bitm::rank_index x(b);
    const bitm::sequence s{2, 3, 5};
    std::vector<u64> two(2), three(3), words(2);
    bitm_index raw = x.raw();
    bitm_sequence parts = s.raw();
    raw.upper_len = 0, parts.low_len++;
    says([&] { bitm::rank_index_view v(raw); }, "bitm: a size or a length is wrong: upper_len is not bitm_index_upper_len(words_len)");
    says([&] { bitm::sequence_view v(parts); },
         "bitm: a size or a length is wrong: low_len is not bitm_bits_words_len(len * width)");
    says([&] { x.rank(three, two); }, "bitm: a size or a length is wrong: there is not room for one answer a query");
    says([&] { s.at(three, two); }, "bitm: a size or a length is wrong: there is not room for one answer a query");
    says([&] { bitm::rank_index y(b, {12, 32}); }, "bitm: a size or a length is wrong: sampling::zeros is neither 0 nor 7 to 31");
    says([&] { bitm::rank_index y(b, {6, 0}); }, "bitm: a size or a length is wrong: sampling::ones is neither 0 nor 7 to 31");
    says([&] { bitm::bits_view v(words, 129); }, "bitm: a size or a length is wrong: the words have fewer than size bits");
    says([&] { b &= bitm::bits("01"); }, "bitm: a size or a length is wrong: the other bits have another size");
    says([&] { bitm::bits c("012"); }, "bitm: a size or a length is wrong: a letter is neither 0 nor 1");
    says([&] { (void)x.rank(8); }, "bitm: a position past the end: 8 of 7");
    says([&] { (void)b[7]; }, "bitm: a position past the end: 7 of 7");
    says([&] { (void)b.count(5, 8); }, "bitm: a position past the end: the end of a range is 8 of 7");
    says([&] { b.fill(5, 3, true); }, "bitm: a position past the end: the start of a range is 5 of 3");
    says([&] { (void)b.get_bits(0, 65); }, "bitm: a position past the end: the number of bits is 65 of 64");
    says([&] { (void)b.get_bits(5, 3); }, "bitm: a position past the end: the first bit of a number is 5 of 4");
    says([&] { (void)b.fragment(2, 3); }, "bitm: a position past the end: the index of a fragment is 2 of 2");
    CHECK(bitm::rank_index::try_load("no/such/file").error().which == nullptr);
    says([] { (void)bitm::rank_index::map("no/such/file"); },
         "bitm: the file cannot be opened, read or written: no/such/file: No such file or directory");
    says([] { (void)bitm::sequence::load("/dev/null"); },
         "bitm: not a file of this format, or not a whole one: /dev/null");
}

// A whole number is a size, 0 too, and text is text.
static void sizes()
{
    const std::string text = "0110";
    const char *const none = nullptr;
    CHECK(bitm::bits(0).empty() && bitm::bits(1) == bitm::bits("0") && bitm::bits(2, true) == bitm::bits("11"));
    CHECK(bitm::bits(0u).empty() && bitm::bits(0LL).empty() && bitm::bits(std::size_t{3}).size() == 3);
    CHECK(bitm::bits("0110").count() == 2 && bitm::bits(text) == bitm::bits("0110") && bitm::bits("").empty());
    CHECK(bitm::bits(text.c_str()) == bitm::bits(std::string_view(text)));
    THROWS(std::invalid_argument, bitm::bits(~u64{}));
    THROWS(std::invalid_argument, bitm::bits(none));
    // Calls on a temporary give its value.
    const bitm::bits made = bitm::bits(5).set(1).flip().set_bits(3, 2, 0);
    CHECK(made == bitm::bits("10100") && bitm::bits(2).set()[1] && bitm::bits(9).fill(2, 5, true).count() == 3);
    auto &&kept = bitm::bits(3).set(2);
    CHECK(kept.count() == 1);
}

static void once()
{
    by_using(), faults();
    CHECK(bitm::version_fits());
    const bitm::bits b{true, false, true};
    CHECK(b.size() == 3 && b[2] && !b[1] && bitm::bits("101") == b && b.front() && b.back());
    THROWS(std::invalid_argument, bitm::bits("102"));
    bitm::bits e;
    CHECK(e.empty() && !e.next_one(0) && e.all() && e.none() && e.ones().empty());
    bitm::rank_index none;
    CHECK(none.empty() && !none.select(0) && none.rank(0) == 0 && none.check());
    CHECK(bitm::rank_index::of_bytes(none.bytes(), bitm::verify::yes) == none);
    sizes();
    std::unordered_set<bitm::bits> set{b, e, bitm::bits("101")};
    CHECK(set.size() == 2);
    std::ostringstream out;
    out << b << ' ' << bitm::sequence{2, 3, 5} << ' ' << bitm::rank_index(b);
    CHECK(out.str() == "101 [2, 3, 5] 101");
    bitm::rank_index direct =
        bitm::rank_index::build(130, {7, 7}, [](bitm::words_out words) { words[0] = 5, words[2] = ~u64{}; });
    CHECK(direct.count() == 4 && direct.check() && *direct.select(3) == 129 && !direct.select(4));
    // Text, and all that is left of it; an index of iterators; a number from a value on.
    std::istringstream text("  0110 1x0");
    bitm::bits first, second, third("1");
    text >> first >> second;
    CHECK(first == bitm::bits("0110") && second == bitm::bits("1") && text.peek() == 'x' && !(text >> third));
    CHECK(third == bitm::bits("1") && bitm::bits::max_size() == 0xFFFFFFFFFFFFFFC0u);
    first[1] -= true, first[2] -= false;
    CHECK(first == bitm::bits("0010"));
    const std::vector<bool> plain{false, true, true};
    CHECK(bitm::rank_index(plain.begin(), plain.end(), {7, 7}) == bitm::rank_index(bitm::bits("011")));
    const bitm::sequence some{2, 3, 3, 8};
    CHECK(*some.lower_bound(4) == 8 && some.lower_bound(3) == some.begin() + 1 && some.lower_bound(9) == some.end() &&
          some.view().lower_bound(0) == some.begin());
    const std::map<std::string, bitm::rank_index> member{{"a", direct}};
    CHECK(member.at("a").count() == 4);
#if __cplusplus >= 202002L &&                                                                                          \
    (!defined __clang__ || __clang_major__ >= 16) // older ones do not compile libstdc++'s views
    namespace v = std::views;
    u64 sum = 0;
    for (const u64 at :
         direct.ones() | v::filter([](u64 p) { return p % 2 == 0; }) | v::transform([](u64 p) { return p + 1; }))
        sum += at;
    CHECK(sum == 1 + 3 + 129);
    std::vector<u64> last;
    for (const u64 at : direct.ones() | v::reverse | v::take(2)) last.push_back(at);
    CHECK((last == std::vector<u64>{129, 128}));
    const bitm::sequence s{2, 3, 5, 7, 11};
    CHECK(std::ranges::distance(s) == 5 && *std::ranges::lower_bound(s, u64{6}) == 7 &&
          std::ranges::count(s, u64{7}) == 1);
    CHECK(*(s | v::drop(2) | v::take(2)).begin() == 5 && std::ranges::max(s) == 11);
    CHECK(std::ranges::equal(s | v::reverse | v::take(2), std::vector<u64>{11, 7}));
    auto walk = s.walk(1);
    CHECK(std::ranges::equal(walk | v::take(2), std::vector<u64>{3, 5}));
    CHECK(std::ranges::count(b, true) == 2 && std::ranges::equal(b.view() | v::reverse, b));
    const std::vector<u64> words{5, 6};
    const bitm::bits_view of_span{std::span<const u64>(words)};
    CHECK(of_span.count() == 4);
    const std::span<const u64> back(bitm::words_in{words});
    CHECK(back.size() == 2);
#endif
#if defined __cpp_lib_format
    CHECK(std::format("{} {:>5} {}", b, b, s) == "101   101 [2, 3, 5, 7, 11]");
    CHECK(std::format("{}", direct.view()).size() == 130);
    std::puts("std::format tried");
#endif
#if defined __cpp_lib_expected
    const std::expected<u64, bitm::failure> got = direct.try_rank(1000);
    CHECK(!got && got.error().code == bitm::errc::outside);
    const std::expected<bitm::rank_index, bitm::failure> file = bitm::rank_index::try_load("no/such/file");
    CHECK(!file);
    std::puts("std::expected tried");
#endif
}

#endif
