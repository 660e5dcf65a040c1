// Programs that must not compile, one for each CASE; CASE 0 has to compile. Those from 100 on keep the address of an
// object that ends in a way that no C++17 overload sees: clang has to warn. refused.sh compiles them all.
#include <bitm/bitm.hpp>

#include <array>
#include <vector>
#if __cplusplus >= 202002L
#include <span>
#endif

using words = std::vector<std::uint64_t>;
bitm::bits some() { return bitm::bits(1000, true); }
bitm::rank_index made() { return bitm::rank_index(words(1000, 5)); }
bitm::sequence numbers() { return {1, 2, 3}; }
bitm::tree grown() { return {2, 0, 1, 0}; }
bitm::wavelet_matrix listed() { return {3, 1, 4}; }
bitm::seeded_hash hashed() { return bitm::seeded_hash(words(1, 5)); }
bitm::key_hash keyed() { return bitm::key_hash{"a", "b"}; }
bitm::prefix_counts counted() { return bitm::prefix_counts({100, 200}, {1, 1}); }
bitm::sharded_index joined() { return bitm::sharded_index({made(), made()}); }
words file_of_tree()
{
    const bitm::tree t = grown();
    return words(t.block().begin(), t.block().end());
}
struct held {
    words w;
    const std::uint64_t *data() const { return w.data(); }
    std::size_t size() const { return w.size(); }
    const std::uint64_t *begin() const { return data(); }
};
std::uint64_t query(bitm::rank_index_view v) { return v.rank(5); }
bitm::strings_view strings_of(const words &file) { return bitm::strings_view::in(file); }

#if CASE >= 100
bitm::rank_index_view returned()
{
    bitm::rank_index x = made();
    (void)x.rank(5);
#if CASE == 100 // a view of a local index is returned
    return x.view();
#elif CASE == 101 // a view of the local words of a file
    words file(100);
    return bitm::rank_index_view::in(file);
#endif
    return {};
}
#if CASE == 103
bitm::ones_range walk()
{
    const bitm::bits b = some();
    return b.ones();
}
#elif CASE == 104
bitm::bits_view over()
{
    const words w(5);
    return bitm::bits_view(w);
}
#elif CASE == 105
bitm::sequence_iterator first()
{
    const bitm::sequence s = numbers();
    return s.begin();
}
#elif CASE == 106
bitm::words_in kept()
{
    const words w(5);
    return w;
}
#elif CASE == 108
bitm::tree_view local()
{
    const bitm::tree t = grown();
    return t.view();
}
#elif CASE == 109
bitm::cursor left()
{
    const bitm::sequence s = numbers();
    return bitm::cursor(s);
}
#elif CASE == 111
bitm::seeded_hash_view of_local()
{
    const bitm::seeded_hash h = hashed();
    return h.view();
}
#elif CASE == 112
bitm::detail::bits_parts parts()
{
    const bitm::bits b = some();
    return b.parts();
}
#elif CASE == 113 // a string of local strings
std::string_view name()
{
    const bitm::strings s{"ada", "bob"};
    return s[0];
}
#elif CASE == 114 // a bit of local bits
bitm::bits::reference bit()
{
    bitm::bits b = some();
    return b[3];
}
#elif CASE == 115 // the parts of a view that ends
const bitm_index &raw_of(const bitm::rank_index &x)
{
    const bitm::rank_index_view v = x.view();
    return v.raw();
}
#elif CASE == 116 // a section of a local file
std::optional<bitm::section> section()
{
    const words file = file_of_tree();
    return bitm::section_at(file, 0);
}
#elif CASE == 107
void kept() { bitm::words_in w = words(5); (void)w; }
#endif
#endif

int main()
{
    std::vector<bitm::rank_index_view> all;
    bitm::rank_index x = made(), y = made();
    const words file;
    (void)all, (void)x, (void)y, (void)file;
#if CASE == 0 // all of these are right
    const bitm::rank_index_view v = x.view();
    all.push_back(x.view()), all.emplace_back(y.view());
    for (auto p : x.ones()) (void)p;
    for (bool b : made()) (void)b; // the index lives as long as the loop
    (void)query(v), (void)query(made().rank(3) ? x.view() : y.view());
    for (auto child : grown().children(0)) (void)child; // numbers, which need no tree
    auto &&set = some().set(3); // a value, which lives as long as its name
    for (bool b : some().flip().fill(3, 5, true)) (void)b;
    const bool third = some()[3]; // a bit of a temporary is a value
    const bitm::bits none(0), one(1); // sizes, and no text that a null pointer is
    (void)none, (void)one, (void)set, (void)third, (void)joined().rank(5), (void)(made() == made());
    // Spans are kept, also temporary ones: what they point at is not theirs.
    const words in_memory = file_of_tree();
    const bitm::tree_view t = bitm::tree_view::in(bitm::words_in(in_memory));
    (void)t, (void)bitm::bits_view(bitm::words_in(in_memory), 7), (void)bitm::section_at(bitm::words_in(in_memory), 0);
    (void)bitm::try_section_at({in_memory.data(), in_memory.size()}, 0);
#if __cplusplus >= 202002L
    (void)bitm::tree_view::in(std::span<const std::uint64_t>(in_memory));
#endif
    // A view's words outlive the view.
    const auto strings = bitm::strings_view::try_in(in_memory);
    if (strings) {
        const std::string_view name = strings_of(in_memory)[0];
        const bitm::words_in block = strings_of(in_memory).block();
        (void)name, (void)block;
    }
    const bitm_index parts = x.view().raw();
    (void)parts;
#elif CASE == 1 // an owner becomes a view, which would point at what it owns
    bitm::rank_index_view v = made();
#elif CASE == 2
    bitm::sequence_view v = numbers();
#elif CASE == 3
    bitm::rank_index_view &v = x;
    v = y;
#elif CASE == 4
    all.push_back(x);
#elif CASE == 5
    static_cast<bitm::rank_index_view &>(x) = y.view();
#elif CASE == 6
    bitm::rank_index_view v(made());
#elif CASE == 7
    bitm::rank_index_view v{x};
#elif CASE == 8
    all.emplace_back(made());
#elif CASE == 9 // views, walks and iterators of temporaries
    auto v = made().view();
#elif CASE == 10
    for (auto p : made().ones()) (void)p;
#elif CASE == 11
    for (auto p : some().zeros(3)) (void)p;
#elif CASE == 12
    auto it = numbers().begin();
#elif CASE == 13
    auto w = numbers().walk();
#elif CASE == 14
    bitm::words_in w = some().words();
#elif CASE == 15
    auto b = made().bytes();
#elif CASE == 16
    const auto constant = []() -> const bitm::rank_index { return made(); };
    auto v = constant().view();
#elif CASE == 17
    auto v = std::move(x).as_bits();
#elif CASE == 18 // views of files in temporaries
    auto v = bitm::rank_index_view::in(words(100));
#elif CASE == 19
    auto v = bitm::rank_index_view::in(held{words(100)});
#elif CASE == 20
    auto v = bitm::rank_index_view::in(static_cast<const words &&>(file));
#elif CASE == 21
    auto v = bitm::sequence_view::in(words(100));
#elif CASE == 22
    bitm::bits_view v(words(100));
#elif CASE == 23
    bitm::bits_view v(std::array<std::uint64_t, 4>{});
#elif CASE == 25 // changes of constants
    const bitm::bits b = some();
    b[3] = true;
#elif CASE == 26
    x[3] = true;
#elif CASE == 27
    std::vector<int> falling{3, 4};
    bitm::sequence s(falling.begin(), falling.end());
#elif CASE == 28
    bitm::rank_index *owner = nullptr;
    bitm::rank_index_view *v = owner;
#elif CASE == 29
    (void)query(made());
#elif CASE == 30
    auto h = bitm::perfect_hash(file).sizes();
#elif CASE == 31
    auto v = bitm::rank_index::try_load("a")->view();
#elif CASE == 32
    auto &v = made().raw();
#elif CASE == 33
    auto p = some().words_data();
#elif CASE == 34
    bitm::bits b{100, true}; // a list of bits: the size goes into ( )
#elif CASE == 35
    const bool b = x == made().rank(3);
#elif CASE == 36 // bits are not numbers: their size counts bits
    const bitm::bits b = some();
    bitm::words_in w = b;
#elif CASE == 37
    const bitm::bits b = some();
    bitm::bits_view v(b);
#elif CASE == 38
    auto it = numbers().lower_bound(2);
#elif CASE == 39 // of trees
    auto v = grown().view();
#elif CASE == 40
    auto w = grown().block();
#elif CASE == 41
    auto &r = grown().raw();
#elif CASE == 42
    auto v = bitm::tree_view::in(words(100));
#elif CASE == 43
    bitm::tree_view v = grown();
#elif CASE == 44
    std::vector<int> degrees{1, 0};
    bitm::tree t(degrees.begin(), degrees.end());
#elif CASE == 45 // of lists of numbers
    auto v = listed().view();
#elif CASE == 46
    auto w = listed().block();
#elif CASE == 47
    auto it = listed().begin();
#elif CASE == 48
    auto v = bitm::wavelet_matrix_view::in(words(100));
#elif CASE == 49
    bitm::wavelet_matrix_view v = listed();
#elif CASE == 50 // cursors of temporaries
    bitm::cursor c(numbers());
#elif CASE == 51
    std::vector<bitm::cursor> c{bitm::cursor(numbers())};
#elif CASE == 52
    const bitm::sequence s = numbers();
    bitm::cursor c = s; // it starts by a search: c(s)
#elif CASE == 53
    const std::vector<bitm::cursor> fixed;
    bitm::intersect(fixed, 0, bitm::words_out());
#elif CASE == 54 // of hashes with seeds
    auto v = hashed().view();
#elif CASE == 55
    auto w = hashed().block();
#elif CASE == 56
    auto &r = hashed().raw();
#elif CASE == 57
    auto v = bitm::seeded_hash_view::in(words(100));
#elif CASE == 58
    bitm::seeded_hash_view v = hashed();
#elif CASE == 59 // hashes are given where a hash is made
    bitm::seeded_hash h = words(1, 5);
#elif CASE == 60 // what a setter of a temporary gives is a value, and so a temporary too
    auto r = some().set(3).ones();
#elif CASE == 61
    auto v = some().flip().view();
#elif CASE == 62
    bitm::bits &r = some().set(3);
#elif CASE == 63
    bitm::bits &r = some().reset();
#elif CASE == 64
    bitm::bits &r = some().fill(0, 9, true);
#elif CASE == 65
    bitm::bits &r = some().set_bits(0, 9, 5);
#elif CASE == 66
    bitm::bits &r = some().xor_bits(0, 9, 5);
#elif CASE == 67
    bitm::bits &r = some().set_fragment(0, 9, 5);
#elif CASE == 68
    bitm::bits &r = some().swap_fragments(0, 1, 5);
#elif CASE == 69
    bitm::bits &r = some().fill_fragments(9, 5, 2);
#elif CASE == 70
    bitm::bits &r = some().flip(3);
#elif CASE == 71
    bitm::bits &r = some().flip(3, 5);
#elif CASE == 72 // nothing is assigned to a temporary
    const bitm::bits &r = (some() &= some());
#elif CASE == 73
    some() <<= 3;
#elif CASE == 74
    some() = some();
#elif CASE == 75
    some()[3] = true;
#elif CASE == 76 // parts of temporaries
    auto p = some().parts();
#elif CASE == 77
    auto r = counted().raw();
#elif CASE == 78
    auto c = counted().bits_before();
#elif CASE == 79
    for (auto it : counted().ones_before()) (void)it;
#elif CASE == 80
    auto &c = joined().counts();
#elif CASE == 81 // sections of temporaries
    auto s = bitm::section_at(file_of_tree(), 0);
#elif CASE == 82
    auto s = *bitm::try_section_at(file_of_tree(), 0);
#elif CASE == 83 // what is no size of bits, and no text
    bitm::bits b(nullptr);
#elif CASE == 84
    bitm::bits b(true);
#elif CASE == 85
    bitm::bits b(5.5);
#elif CASE == 86
    bitm::bits b = 5;
#elif CASE == 87 // of indexes and of hashes
    auto w = made().block();
#elif CASE == 88
    auto w = numbers().block();
#elif CASE == 89
    auto w = bitm::perfect_hash(file).block();
#elif CASE == 90 // of a struct of C
    const bitm_index &r = bitm::rank_index::try_load("a").value().view().raw();
#elif CASE == 91
    bitm_index &r = x.view().raw();
#elif CASE == 92 // of hashes of keys
    auto v = keyed().view();
#elif CASE == 93
    auto w = keyed().block();
#elif CASE == 94
    auto &r = keyed().raw();
#elif CASE == 95
    auto v = bitm::key_hash_view::in(words(100));
#elif CASE == 96
    bitm::key_hash h = words(1, 5);
#elif CASE == 97 // a letter, a truth value and a fraction are no keys
    (void)keyed()('a');
#elif CASE == 98
    (void)keyed()(true);
#elif CASE == 99
    const bitm::key_hash h(std::vector<double>{0.5});
#elif CASE == 110 // an answer that is not looked at
    bitm::rank_index::try_load("a");
#elif CASE >= 100
#else
#error "no such case"
#endif
}
