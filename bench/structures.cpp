// Times four structures of the C library beside those of sdsl-lite, over 2^LOG2 items: structures WHAT LOG2 ROUNDS.
//
//     numbers8, numbers16  wavelet matrices of numbers of 8 and of 16 bits, beside wm_int, and wt_int up to 2^24
//     sequence             rising numbers, beside sd_vector
//     sparse               bits of which one in 500 is 1, beside sd_vector
//     tree                 trees, beside the bits of louds_tree with select_support_mcl
//
// The forms of a call take turns, round by round, over the same queries: each answers all of them once untimed, and
// then again by the thread's processor time. A row is the least of the rounds, as those of `tool_bench`, whose numbers,
// trees and queries these are, but that the numbers of a sequence rise by 1 more, since a set has each number once. The
// last column is the sum of the answers; the program fails where the forms differ in it. A `list` has 4096 queries. All
// memory is in small pages. The rows of space say what each side keeps.
#include "turns.hpp"

#include <cstring>
#include <sdsl/bit_vectors.hpp>
#include <sdsl/louds_tree.hpp>
#include <sdsl/suffix_trees.hpp>
#include <sdsl/wavelet_trees.hpp>

using Numbers = std::vector<uint64_t>;
using Tree = sdsl::louds_tree<>;

constexpr size_t QUERIES = 1 << 17, LIST = 4096;

struct Bench : Turns {
    explicit Bench(const Turns &turns) : Turns(turns) {}
    uint64_t count() const { return uint64_t(1) << log2; }
    // Building takes long: three rounds of it at most, and of more than 2^20 items one.
    int builds() const { return log2 > 20 ? 1 : std::min(rounds, 3); }
    // It takes as long to build as wm_int, so it is left out of more than 2^24 items.
    bool has_wt_int() const { return log2 <= 24; }

    std::vector<Form> kept(std::vector<Form> forms) const
    {
        const auto is_left_out = [&](const Form &it) { return !has_wt_int() && std::strcmp(it.by, "sdsl wt_int") == 0; };
        forms.erase(std::remove_if(forms.begin(), forms.end(), is_left_out), forms.end());
        return forms;
    }
    void answer(const std::vector<Form> &forms) const { take(rounds, QUERIES, true, kept(forms)); }
    void build(const std::vector<Form> &forms) const { take(builds(), count(), false, kept(forms)); }
    void space(const char *row, const char *by, double bytes) const { Turns::space(row, by, bytes, count()); }
};

// Queries below a limit.
Numbers queries(uint64_t limit)
{
    Numbers asked(QUERIES);
    uint64_t state = 2463534242088117;
    for (auto &it : asked) it = draw(&state) % limit;
    return asked;
}

// The sum of a call for each query.
template <class F> uint64_t each(const Numbers &asked, F call)
{
    uint64_t sum = 0;
    for (uint64_t it : asked) sum += call(it);
    return sum;
}

// The same of two numbers each.
template <class F> uint64_t each(const Numbers &asked, const Numbers &others, F call)
{
    uint64_t sum = 0;
    for (size_t i = 0; i < QUERIES; i++) sum += call(asked[i], others[i]);
    return sum;
}

uint64_t answers[LIST];

// The sum of the answers of a call for each list, which is given where the list begins. What has no answer adds nothing
// to it: it is 2^64 - 1 in the list, and one more in the call's answer, the number of queries that have none.
template <class F> uint64_t lists(F call)
{
    uint64_t sum = 0;
    for (size_t from = 0; from < QUERIES; from += LIST) {
        sum += call(from);
        for (uint64_t it : answers) sum += it;
    }
    return sum;
}

// Building one of sdsl-lite's.
template <class Rival> Form built(const char *by, const sdsl::int_vector<> &numbers, Rival &rival)
{
    return {"build_a_number", by, [&numbers, &rival] {
                rival = Rival();
                sdsl::construct_im(rival, numbers);
                return rival.size();
            }};
}

// A matrix in a block of its own.
struct InBlock {
    InBlock(const Numbers &numbers, int width, bool quarters)
        : width(width), quarters(quarters), words(size(numbers.size(), width, quarters)), block(words)
    {
    }
    static uint64_t size(uint64_t count, int width, bool quarters)
    {
        uint64_t words = 0;
        have(bitm_matrix_size(count, width, quarters, false, &words), "bitm_matrix_size");
        return words;
    }
    const char *by() const { return quarters ? "C with quarters" : "C"; }
    Form built(const Numbers &numbers, Block &scratch)
    {
        return {"build_a_number", by(), [this, &numbers, &scratch] {
                    have(bitm_matrix_build(numbers.data(), numbers.size(), width, quarters, false, scratch.words,
                                           scratch.len, block.words, words),
                         "bitm_matrix_build");
                    have(bitm_matrix_open(block.words, words, &matrix), "bitm_matrix_open");
                    return matrix.len;
                }};
    }
    int width;
    bool quarters;
    uint64_t words;
    Block block;
    bitm_matrix matrix{};
    uint64_t got = 0;
    bitm_list_counts counts{};
};

// One query after the other, and lists of them.
Form getting(InBlock &it, const Numbers &indexes)
{
    return {"get", it.by(), [&] {
                return each(indexes, [&](uint64_t at) { return bitm_matrix_get(&it.matrix, at, &it.got), it.got; });
            }};
}
Form getting_lists(InBlock &it, const Numbers &indexes)
{
    return {"get_list", it.by(), [&] {
                return lists([&](size_t from) {
                    return bitm_matrix_get_list(&it.matrix, &indexes[from], LIST, answers, LIST, &it.got), 0;
                });
            }};
}

using Call = decltype(bitm_matrix_rank);
using ListCall = decltype(bitm_matrix_rank_list);
Form asking(const char *row, InBlock &it, Call *call, const Numbers &numbers, const Numbers &others)
{
    return {row, it.by(), [&, call] {
                return each(numbers, others, [&](uint64_t number, uint64_t other) {
                    return call(&it.matrix, number, other, &it.got), it.got;
                });
            }};
}
Form asking_lists(const char *row, InBlock &it, ListCall *call, const Numbers &numbers, const Numbers &others)
{
    return {row, it.by(), [&, call] {
                return lists([&](size_t from) {
                    call(&it.matrix, &numbers[from], LIST, &others[from], LIST, answers, LIST, &it.counts);
                    return it.counts.missing;
                });
            }};
}

// Rows of numbers of `width` bits.
void matrices(const Bench &bench, int width)
{
    const uint64_t count = bench.count();
    sdsl::int_vector<> numbers(count, 0, width);
    Numbers same(count);
    uint64_t state = 88172645463325252;
    for (uint64_t k = 0; k < count; k++) same[k] = numbers[k] = draw(&state) & ((uint64_t(1) << width) - 1);

    InBlock compact(same, width, false), quick(same, width, true);
    sdsl::wm_int<> wm;
    sdsl::wt_int<sdsl::bit_vector, sdsl::rank_support_v5<>> wt;
    {
        Block scratch(2 * count);
        bench.build({
            built("sdsl wm_int", numbers, wm),
            built("sdsl wt_int", numbers, wt),
            compact.built(same, scratch),
            quick.built(same, scratch),
        });
    }
    bench.space("space_a_number", "sdsl wm_int", sdsl::size_in_bytes(wm));
    if (bench.has_wt_int()) bench.space("space_a_number", "sdsl wt_int", sdsl::size_in_bytes(wt));
    for (const InBlock *it : {&compact, &quick}) bench.space("space_a_number", it->by(), it->words * 8.0);

    const Numbers indexes = queries(count);
    Numbers others(QUERIES), own(QUERIES), ranks(QUERIES);
    for (size_t i = 0; i < QUERIES; i++) {
        others[i] = same[(indexes[i] + 1) % count];
        own[i] = same[indexes[i]];
        ranks[i] = wm.rank(indexes[i], own[i]);
    }
    bench.answer({
        {"get", "sdsl wm_int", [&] { return each(indexes, [&](uint64_t at) { return wm[at]; }); }},
        {"get", "sdsl wt_int", [&] { return each(indexes, [&](uint64_t at) { return wt[at]; }); }},
        getting(compact, indexes),
        getting(quick, indexes),
        getting_lists(compact, indexes),
        getting_lists(quick, indexes),
    });
    bench.answer({
        {"rank", "sdsl wm_int",
         [&] { return each(others, indexes, [&](uint64_t it, uint64_t at) { return wm.rank(at, it); }); }},
        {"rank", "sdsl wt_int",
         [&] { return each(others, indexes, [&](uint64_t it, uint64_t at) { return wt.rank(at, it); }); }},
        asking("rank", compact, bitm_matrix_rank, others, indexes),
        asking("rank", quick, bitm_matrix_rank, others, indexes),
        asking_lists("rank_list", compact, bitm_matrix_rank_list, others, indexes),
        asking_lists("rank_list", quick, bitm_matrix_rank_list, others, indexes),
    });
    bench.answer({
        {"select", "sdsl wm_int",
         [&] { return each(own, ranks, [&](uint64_t it, uint64_t rank) { return wm.select(rank + 1, it); }); }},
        {"select", "sdsl wt_int",
         [&] { return each(own, ranks, [&](uint64_t it, uint64_t rank) { return wt.select(rank + 1, it); }); }},
        asking("select", compact, bitm_matrix_select, own, ranks),
        asking("select", quick, bitm_matrix_select, own, ranks),
        asking_lists("select_list", compact, bitm_matrix_select_list, own, ranks),
        asking_lists("select_list", quick, bitm_matrix_select_list, own, ranks),
    });
}

// Rows of numbers that rise by 1 to 1000.
void sequences(const Bench &bench)
{
    const uint64_t count = bench.count();
    Numbers numbers(count);
    uint64_t state = 88172645463325252, last = 0, words = 0, got = 0;
    for (auto &it : numbers) it = last += draw(&state) % 1000 + 1;

    have(bitm_sequence_block_size(count, last, &words), "bitm_sequence_block_size");
    Block block(words);
    bitm_sequence sequence{};
    sdsl::sd_vector<> set;
    bench.build({
        {"build", "sdsl",
         [&] {
             set = sdsl::sd_vector<>(numbers.begin(), numbers.end());
             return set.size();
         }},
        {"build", "C",
         [&] {
             have(bitm_sequence_block_build(numbers.data(), count, block.words, words), "bitm_sequence_block_build");
             have(bitm_sequence_block_open(block.words, words, &sequence), "bitm_sequence_block_open");
             have(bitm_sequence_get(&sequence, count - 1, &got), "bitm_sequence_get");
             return got + 1;
         }},
    });
    bench.space("space", "sdsl", sdsl::size_in_bytes(set));
    bench.space("space", "C", words * 8.0);

    const sdsl::select_support_sd<> select(&set);
    const sdsl::rank_support_sd<> rank(&set);
    const Numbers indexes = queries(count), values = queries(last);
    bitm_list_counts counts{};
    bench.answer({
        {"get", "sdsl", [&] { return each(indexes, [&](uint64_t at) { return select(at + 1); }); }},
        {"get", "C",
         [&] { return each(indexes, [&](uint64_t at) { return bitm_sequence_get(&sequence, at, &got), got; }); }},
        {"get_list", "C",
         [&] {
             return lists([&](size_t from) {
                 return bitm_sequence_get_list(&sequence, &indexes[from], LIST, answers, LIST, &got), 0;
             });
         }},
    });
    bench.answer({
        {"first_at_least", "sdsl", [&] { return each(values, [&](uint64_t it) { return rank(it); }); }},
        {"first_at_least", "C",
         [&] {
             return each(values, [&](uint64_t it) { return bitm_sequence_first_at_least(&sequence, it, &got), got; });
         }},
        {"first_at_least_list", "C",
         [&] {
             return lists([&](size_t from) {
                 bitm_sequence_first_at_least_list(&sequence, &values[from], LIST, answers, LIST, &counts);
                 return counts.missing;
             });
         }},
    });
}

// Rows of bits of which one in 500 is 1: 2^LOG2 1 bits, at the numbers of `sequences`. Half of the bits that are read are 1.
void sparse(const Bench &bench)
{
    const uint64_t count = bench.count();
    Numbers positions(count);
    uint64_t state = 88172645463325252, last = 0, words = 0, got = 0;
    for (auto &it : positions) it = last += draw(&state) % 1000 + 1;

    have(bitm_sparse_size(count, last, &words), "bitm_sparse_size");
    Block block(words);
    bitm_sparse bits{};
    sdsl::sd_vector<> set;
    bench.build({
        {"build", "sdsl",
         [&] {
             set = sdsl::sd_vector<>(positions.begin(), positions.end());
             return set.size();
         }},
        {"build", "C",
         [&] {
             have(bitm_sparse_build(positions.data(), count, last + 1, block.words, words), "bitm_sparse_build");
             have(bitm_sparse_open(block.words, words, &bits), "bitm_sparse_open");
             return bits.bits_len;
         }},
    });
    bench.space("space", "sdsl", sdsl::size_in_bytes(set));
    bench.space("space", "C", words * 8.0);

    const sdsl::select_support_sd<> select(&set);
    const sdsl::rank_support_sd<> rank(&set);
    const Numbers ranks = queries(count), values = queries(last);
    Numbers read = values;
    for (size_t i = 0; i < QUERIES; i += 2) read[i] = positions[ranks[i]];
    bench.answer({
        {"get", "sdsl", [&] { return each(read, [&](uint64_t at) { return set[at]; }); }},
        {"get", "C", [&] { return each(read, [&](uint64_t at) { return bitm_sparse_get(&bits, at, &got), got; }); }},
    });
    bench.answer({
        {"rank", "sdsl", [&] { return each(values, [&](uint64_t at) { return rank(at); }); }},
        {"rank", "C",
         [&] { return each(values, [&](uint64_t at) { return bitm_sparse_rank(&bits, true, at, &got), got; }); }},
    });
    bench.answer({
        {"select", "sdsl", [&] { return each(ranks, [&](uint64_t it) { return select(it + 1); }); }},
        {"select", "C",
         [&] { return each(ranks, [&](uint64_t it) { return bitm_sparse_select(&bits, true, it, &got), got; }); }},
    });
}

// What the constructor of sdsl-lite queries of a tree whose nodes come level by level: how many wait when one is
// reached.
struct Levels {
    const Numbers *degrees;
    uint64_t at, waiting;
    uint64_t operator*() const { return at; }
    uint64_t size() const { return waiting; }
    Levels &operator++()
    {
        waiting = waiting - 1 + (*degrees)[at];
        at++;
        return *this;
    }
    bool operator!=(const Levels &other) const { return at != other.at; }
};

struct Sized {
    uint64_t count;
    uint64_t size(uint64_t) const { return count; }
};

// The degrees of a tree: each is drawn from 0 to 3, and changed where a node would be left without a parent or there
// would be too many nodes.
Numbers drawn_degrees(uint64_t count)
{
    Numbers degrees(count);
    uint64_t state = 88172645463325252, known = 1;
    for (uint64_t node = 0; node < count; node++) {
        uint64_t degree = draw(&state) >> 62;
        if (known == node + 1 && degree < 1) degree = 1;
        degrees[node] = std::min(degree, count - known);
        known += degrees[node];
    }
    return degrees;
}

// The bits of a tree, level by level: 10, and for each node a 1 bit for each child and a 0 bit.
sdsl::bit_vector level_bits(const Numbers &degrees)
{
    sdsl::bit_vector bits(2 * degrees.size() + 1, 0);
    uint64_t at = 2;
    bits[0] = 1;
    for (uint64_t degree : degrees) {
        for (uint64_t k = 0; k < degree; k++) bits[at++] = 1;
        at++;
    }
    return bits;
}

// Rows of a tree. A node of louds_tree is its number and its position among the bits. In the rows `of_node` both are known
// before the clock starts, and both are answered. In the others, as in C, a node is its number, and sdsl-lite answers by
// select_support_mcl over the bits, with one selection where that is enough.
void trees(const Bench &bench)
{
    const uint64_t count = bench.count();
    const Numbers degrees = drawn_degrees(count);
    uint64_t words = 0, got = 0;
    have(bitm_tree_size(count, &words), "bitm_tree_size");
    Block block(words);
    bitm_tree own{};
    auto made = [&] { return Tree(Sized{count}, Levels{&degrees, 0, 1}, Levels{&degrees, count, 0}); };
    bench.build({
        {"build", "sdsl", [&] { return made().nodes(); }},
        {"build", "C",
         [&] {
             have(bitm_tree_build(degrees.data(), count, block.words, words), "bitm_tree_build");
             have(bitm_tree_open(block.words, words, &own), "bitm_tree_open");
             return own.len;
         }},
    });
    const Tree tree = made();
    const sdsl::bit_vector bits = level_bits(degrees);
    const sdsl::select_support_mcl<1> ones(&bits);
    const sdsl::select_support_mcl<0> zeros(&bits);
    const sdsl::bit_vector::select_1_type of_node(&tree.bv);
    bench.space("space", "sdsl", sdsl::size_in_bytes(bits) + sdsl::size_in_bytes(ones) + sdsl::size_in_bytes(zeros));
    bench.space("space", "C", words * 8.0);

    // A node of sdsl-lite is not copied right, so only its number and its position are kept.
    const Numbers nodes = queries(count), first(QUERIES, 0);
    Numbers at(QUERIES);
    for (size_t i = 0; i < QUERIES; i++) at[i] = of_node(nodes[i] + 1);
    // The positions that were answered: a call whose position nobody reads would be cut short.
    uint64_t positions = 0;
    bitm_list_counts counts{};
    bench.answer({
        {"parent", "sdsl",
         [&] { return each(nodes, [&](uint64_t node) { return node ? ones(node + 1) - node - 1 : 0; }); }},
        {"parent_of_node", "sdsl",
         [&] {
             return each(nodes, at, [&](uint64_t node, uint64_t position) {
                 const Tree::node_type parent = tree.parent(Tree::node_type(node, position));
                 positions += parent.pos;
                 return parent.nr;
             });
         }},
        {"parent", "C",
         [&] { return each(nodes, [&](uint64_t node) { return got = 0, bitm_tree_parent(&own, node, &got), got; }); }},
        {"parent_list", "C",
         [&] {
             return lists([&](size_t from) {
                 bitm_tree_parent_list(&own, &nodes[from], LIST, answers, LIST, &counts);
                 return counts.missing;
             });
         }},
    });
    bench.answer({
        {"child", "sdsl",
         [&] {
             return each(nodes, [&](uint64_t node) -> uint64_t {
                 const uint64_t begin = zeros(node + 1) + 1;
                 return bits[begin] ? begin - node - 1 : 0;
             });
         }},
        {"child_of_node", "sdsl",
         [&] {
             return each(nodes, at, [&](uint64_t node, uint64_t position) -> uint64_t {
                 const Tree::node_type it(node, position);
                 if (tree.is_leaf(it)) return 0;
                 const Tree::node_type child = tree.child(it, 1);
                 positions += child.pos;
                 return child.nr;
             });
         }},
        {"child", "C",
         [&] {
             return each(nodes, [&](uint64_t node) { return got = 0, bitm_tree_child(&own, node, 0, &got), got; });
         }},
        {"child_list", "C",
         [&] {
             return lists([&](size_t from) {
                 bitm_tree_child_list(&own, &nodes[from], LIST, &first[from], LIST, answers, LIST, &counts);
                 return counts.missing;
             });
         }},
    });
    bench.answer({
        {"degree", "sdsl",
         [&] { return each(nodes, [&](uint64_t node) { return zeros(node + 2) - zeros(node + 1) - 1; }); }},
        {"degree_of_node", "sdsl",
         [&] {
             return each(nodes, at, [&](uint64_t node, uint64_t position) {
                 return tree.degree(Tree::node_type(node, position));
             });
         }},
        {"degree", "C",
         [&] { return each(nodes, [&](uint64_t node) { return bitm_tree_degree(&own, node, &got), got; }); }},
        {"degree_list", "C",
         [&] {
             return lists([&](size_t from) {
                 bitm_tree_degree_list(&own, &nodes[from], LIST, answers, LIST, &counts);
                 return counts.missing;
             });
         }},
    });
    if (positions == 1) fail("no tree has these positions");
}

int main(int argc, char **argv)
{
    const bool three = argc == 4;
    const Bench bench({three ? argv[1] : "", three ? std::atoi(argv[2]) : 0, three ? std::atoi(argv[3]) : 0});
    const std::string &what = bench.what;
    const bool known = what == "numbers8" || what == "numbers16" || what == "sequence" || what == "sparse" ||
                       what == "tree";
    if (!known || bench.log2 < 10 || bench.log2 > 30 || bench.rounds < 1) {
        std::fprintf(stderr, "structures numbers8|numbers16|sequence|sparse|tree LOG2 ROUNDS, LOG2 from 10 to 30\n");
        return 2;
    }
    if (what == "numbers8") matrices(bench, 8);
    if (what == "numbers16") matrices(bench, 16);
    if (what == "sequence") sequences(bench);
    if (what == "sparse") sparse(bench);
    if (what == "tree") trees(bench);
}
