// Times the index of a text beside those of sdsl-lite: texts NAME TEXT PROGRAM ROUNDS, where PROGRAM is that of the
// crate `program_bitm`, and writes the block of the text beside it.
//
//     csa_wt      over a wavelet tree with the shape of a Huffman code, as sdsl-lite has it by default
//     csa_wt_int  over a wavelet tree of letters of one width, as here
//     C           the C library over the block that `bitm text build` writes
//
// All have a sample each 32 letters. Building is timed in a process of its own, whose largest memory is printed too;
// that of `bitm text build` reads the text and writes the block. Patterns and parts are drawn from the text; the forms
// of a call take turns, and the program fails where the sums of their answers differ. A row is the least of the rounds,
// for a pattern, a position that is located, or a letter that is extracted.
#include "turns.hpp"

#include <array>
#include <cmath>
#include <fcntl.h>
#include <fstream>
#include <iterator>
#include <sdsl/suffix_arrays.hpp>
#include <sys/resource.h>
#include <sys/wait.h>
#include <unistd.h>

using Huffman = sdsl::csa_wt<sdsl::wt_huff<>, 32, 32>;
using Even =
    sdsl::csa_wt<sdsl::wt_int<>, 32, 32, sdsl::sa_order_sa_sampling<>, sdsl::isa_sampling<>, sdsl::int_alphabet<>>;

constexpr const char *HUFFMAN = "sdsl csa_wt", *EVEN = "sdsl csa_wt_int";
constexpr size_t PATTERNS = 1 << 12, LOCATED = 1 << 10, PART = 64;

std::string contents(const char *path)
{
    std::ifstream file(path, std::ios::binary);
    if (!file) fail(std::string("cannot read ") + path);
    return {std::istreambuf_iterator<char>(file), {}};
}

// Writes the letters of a text; those of sdsl-lite begin at 1, since 0 ends its text.
template <class To> To shifted(const std::string &text, To made)
{
    for (size_t i = 0; i < text.size(); i++) made[i] = static_cast<unsigned char>(text[i]) + 1;
    return made;
}

void construct(Huffman &index, const std::string &text) { sdsl::construct_im(index, text, 1); }

void construct(Even &index, const std::string &text)
{
    sdsl::construct_im(index, shifted(text, sdsl::int_vector<>(text.size(), 0, 9)), 0);
}

// Runs what is given in a process of its own, and prints its time and its largest memory.
template <class Run> void built(const Turns &turns, const char *by, uint64_t len, Run run)
{
    const pid_t child = fork();
    if (child == 0) _exit(run());
    int status = 1;
    rusage used{};
    if (child < 0 || wait4(child, &status, 0, &used) != child || status != 0) fail(std::string("not built: ") + by);
    const double seconds = used.ru_utime.tv_sec + used.ru_stime.tv_sec;
    const double ns = 1e9 * seconds + 1e3 * (used.ru_utime.tv_usec + used.ru_stime.tv_usec);
    turns.print("build_a_letter", by, ns / len, "ns", len);
    turns.print("build_memory_a_letter", by, 1024.0 * used.ru_maxrss / len, "bytes", len);
}

template <class Index> int construct_alone(const char *path)
{
    Index index;
    construct(index, contents(path));
    return index.size() == 0;
}

int build_here(const char *program, const char *text, const char *block)
{
    const int in = open(text, O_RDONLY), out = open(block, O_WRONLY | O_CREAT | O_TRUNC, 0600);
    if (in < 0 || out < 0 || dup2(in, 0) < 0 || dup2(out, 1) < 0) return 1;
    return execl(program, program, "text", "build", nullptr);
}

using Patterns = std::vector<std::string>;
using Shifted = std::vector<std::vector<uint64_t>>;

// Patterns of the text, all of one length.
Patterns patterns(const std::string &text, size_t len, size_t count)
{
    Patterns made(count);
    uint64_t state = 2463534242088117;
    for (auto &it : made) it = text.substr(draw(&state) % (text.size() - len), len);
    return made;
}

// The same with the letters of sdsl-lite.
Shifted all_shifted(const Patterns &asked)
{
    Shifted made;
    for (const auto &it : asked) made.push_back(shifted(it, std::vector<uint64_t>(it.size())));
    return made;
}

// The sum of a query of each.
template <class Asked, class Query> uint64_t each(const Asked &asked, Query query)
{
    uint64_t sum = 0;
    for (const auto &it : asked) sum += query(it);
    return sum;
}

template <class Positions> uint64_t sum_of(const Positions &positions)
{
    uint64_t sum = 0;
    for (uint64_t it : positions) sum += it;
    return sum;
}

// The sum of letters, the least of which is `least`.
template <class Letters> uint64_t sum_of_letters(const Letters &letters, uint64_t least)
{
    uint64_t sum = 0;
    for (auto it : letters) sum += static_cast<uint8_t>(it - least);
    return sum;
}

// A way to count a pattern, to add up its positions, and to add up the letters of a part.
template <class Index, uint64_t least> struct Sdsl {
    const Index &index;
    template <class Pattern> uint64_t count(const Pattern &pattern) const
    {
        return sdsl::count(index, pattern.begin(), pattern.end());
    }
    template <class Pattern> uint64_t locate(const Pattern &pattern) const
    {
        return sum_of(sdsl::locate(index, pattern.begin(), pattern.end()));
    }
    uint64_t extract(uint64_t from) const { return sum_of_letters(sdsl::extract(index, from, from + PART - 1), least); }
};

struct Here {
    const bitm_text &text;
    static const uint8_t *bytes(const std::string &it) { return reinterpret_cast<const uint8_t *>(it.data()); }
    uint64_t count(const std::string &pattern) const
    {
        uint64_t found = 0;
        bitm_text_count_bytes(&text, bytes(pattern), pattern.size(), &found);
        return found;
    }
    uint64_t locate(const std::string &pattern) const
    {
        uint64_t written = 0;
        std::vector<uint64_t> positions(count(pattern));
        bitm_text_locate_bytes(&text, bytes(pattern), pattern.size(), 0, positions.data(), positions.size(), &written);
        return sum_of(positions);
    }
    uint64_t extract(uint64_t from) const
    {
        std::array<uint8_t, PART> part;
        bitm_text_extract_bytes(&text, from, part.data(), PART);
        return sum_of_letters(part, 0);
    }
};

struct Indexes {
    Sdsl<Huffman, 0> huffman;
    Sdsl<Even, 1> even;
    Here here;
};

void count(const Turns &turns, const std::string &text, const Indexes &by, size_t len)
{
    const Patterns asked = patterns(text, len, PATTERNS);
    const Shifted letters = all_shifted(asked);
    const std::string row = "count" + std::to_string(len);
    turns.take(turns.rounds, PATTERNS, true,
               {{row, HUFFMAN, [&] { return each(asked, [&](const auto &it) { return by.huffman.count(it); }); }},
                {row, EVEN, [&] { return each(letters, [&](const auto &it) { return by.even.count(it); }); }},
                {row, "C", [&] { return each(asked, [&](const auto &it) { return by.here.count(it); }); }}});
}

// A row for a position that is located, or for a letter that is extracted.
void find(const Turns &turns, const std::string &text, const Indexes &by)
{
    const Patterns asked = patterns(text, 16, LOCATED);
    const Shifted letters = all_shifted(asked);
    const uint64_t positions = each(asked, [&](const auto &it) { return by.here.count(it); });
    turns.take(turns.rounds, positions, true,
               {{"locate", HUFFMAN, [&] { return each(asked, [&](const auto &it) { return by.huffman.locate(it); }); }},
                {"locate", EVEN, [&] { return each(letters, [&](const auto &it) { return by.even.locate(it); }); }},
                {"locate", "C", [&] { return each(asked, [&](const auto &it) { return by.here.locate(it); }); }}});
    std::vector<uint64_t> starts(LOCATED);
    uint64_t state = 88172645463325252;
    for (auto &it : starts) it = draw(&state) % (text.size() - PART);
    turns.take(turns.rounds, PART * LOCATED, true,
               {{"extract", HUFFMAN, [&] { return each(starts, [&](uint64_t it) { return by.huffman.extract(it); }); }},
                {"extract", EVEN, [&] { return each(starts, [&](uint64_t it) { return by.even.extract(it); }); }},
                {"extract", "C", [&] { return each(starts, [&](uint64_t it) { return by.here.extract(it); }); }}});
}

int main(int argc, char **argv)
{
    if (argc != 5 || std::atoi(argv[4]) < 1) {
        std::fprintf(stderr, "texts NAME TEXT PROGRAM ROUNDS\n");
        return 2;
    }
    const char *const path = argv[2];
    const std::string block_path = std::string(path) + ".block";
    const uint64_t len = contents(path).size();
    const Turns turns{argv[1], static_cast<int>(std::lround(std::log2(len))), std::atoi(argv[4])};
    built(turns, HUFFMAN, len, [&] { return construct_alone<Huffman>(path); });
    built(turns, EVEN, len, [&] { return construct_alone<Even>(path); });
    built(turns, "C", len, [&] { return build_here(argv[3], path, block_path.c_str()); });
    const std::string text = contents(path), block = contents(block_path.c_str());
    if (len < 1024 || text.find('\0') != std::string::npos) fail("a text has 1024 letters at least, and no letter 0");
    Huffman huffman;
    Even even;
    construct(huffman, text);
    construct(even, text);
    Block words(block.size() / 8);
    std::copy(block.begin(), block.end(), reinterpret_cast<char *>(words.words));
    bitm_text here{};
    have(bitm_text_open(words.words, words.len, &here), "bitm_text_open");
    turns.space("space_a_letter", HUFFMAN, sdsl::size_in_bytes(huffman), len);
    turns.space("space_a_letter", EVEN, sdsl::size_in_bytes(even), len);
    turns.space("space_a_letter", "C", block.size(), len);
    const Indexes by{{huffman}, {even}, {here}};
    for (size_t letters : {4, 8, 32}) count(turns, text, by, letters);
    find(turns, text, by);
}
