// Ranges of bits, bits that end inside a word, samples and files, against plain loops. With a folder it leaves the
// files that each binding writes of the same bits and numbers there, and with more folders it reads those of others
// too.
#include <bitm.hpp>

#include <algorithm>
#include <array>
#include <cstdio>
#include <cstdlib>
#include <cstring>
#include <filesystem>
#include <fstream>
#include <iterator>
#include <random>
#include <sstream>
#include <string>
#include <vector>

namespace {

using Words = std::vector<std::uint64_t>;

void must(bool so, const char *what)
{
    if (so) return;
    std::fprintf(stderr, "not so: %s\n", what);
    std::exit(1);
}

template <class Error, class Call> void throws(Call call, const char *what)
{
    try {
        call();
    } catch (const Error &) {
        return;
    }
    must(false, what);
}

std::mt19937_64 draw(11);

Words words_of(const std::vector<bool> &plain)
{
    Words words((plain.size() + 63) / 64);
    for (std::size_t i = 0; i < plain.size(); i++) words[i / 64] |= std::uint64_t(plain[i]) << i % 64;
    return words;
}

// Whether the mapping of an address requests huge pages, as the system tells it.
bool requests_huge_pages(std::uintptr_t address)
{
    std::ifstream maps("/proc/self/smaps");
    bool inside = false;
    for (std::string line; std::getline(maps, line);) {
        unsigned long long begin, end;
        if (std::sscanf(line.c_str(), "%llx-%llx ", &begin, &end) == 2) inside = begin <= address && address < end;
        if (inside && line.compare(0, 8, "VmFlags:") == 0) return line.find(" hg") != std::string::npos;
    }
    return false;
}

void memory()
{
    const bool has_huge = std::ifstream("/sys/kernel/mm/transparent_hugepage/enabled").good();
    for (const std::size_t len : {std::size_t{1}, std::size_t{1} << 24, std::size_t{1} << 26}) {
        const bitm::bits made(len);
        const auto at = reinterpret_cast<std::uintptr_t>(made.words().data());
        must(at % 64 == 0, "words are aligned to 64 bytes");
        if (has_huge && len > 1) must(requests_huge_pages(at + len / 16) == (len >= 1u << 25), "huge pages are requested for 4 MiB");
    }
}

bitm::maybe_position item(const Words &positions, std::size_t at)
{
    if (at < positions.size()) return positions[at];
    return {};
}

bitm::maybe_position first(const std::vector<bool> &plain, std::size_t from, bool bit)
{
    const auto found = from < plain.size() ? std::find(plain.begin() + long(from), plain.end(), bit) : plain.end();
    return found == plain.end() ? bitm::maybe_position() : bitm::maybe_position(found - plain.begin());
}

bitm::maybe_position last(const std::vector<bool> &plain, std::size_t from, bool bit)
{
    for (std::size_t i = std::min(from + 1, plain.size()); i > 0; i--)
        if (plain[i - 1] == bit) return i - 1;
    return {};
}

// 100,000 calls, each with the answer of a vector of bools.
void ranges()
{
    std::vector<bool> plain(64 * 5);
    bitm::bits bits(plain.size());
    for (int turn = 0; turn < 20000; turn++) {
        std::size_t from = draw() % (plain.size() + 1), to = draw() % (plain.size() + 1);
        if (from > to) std::swap(from, to);
        const bool value = draw() % 2;
        if (turn % 2) {
            bits.fill(from, to, value);
            std::fill(plain.begin() + long(from), plain.begin() + long(to), value);
        } else {
            bits.flip(from, to);
            for (std::size_t i = from; i < to; i++) plain[i] = !plain[i];
        }
        const Words words = words_of(plain);
        must(std::equal(words.begin(), words.end(), bits.words().begin()), "a range is written, and nothing else");
        const auto ones = std::count(plain.begin() + long(from), plain.begin() + long(to), true);
        must(bits.count(from, to) == std::uint64_t(ones), "count of a range");
        must(bits.next_one(from) == first(plain, from, true), "next_one of words");
        must(bits.next_zero(from) == first(plain, from, false), "next_zero of words");
        must(bits.previous_one(to) == last(plain, to, true), "previous_one of words");
        must(bits.previous_zero(to) == last(plain, to, false), "previous_zero of words");
    }
    must(bits.count() == std::uint64_t(std::count(plain.begin(), plain.end(), true)), "count of all");
    const bitm::bits before = bits;
    throws<std::out_of_range>([&] { bits.count(0, 321); }, "a range past the end");
    throws<std::out_of_range>([&] { bits.fill(2, 1, true); }, "a reversed range");
    throws<std::out_of_range>([&] { bits.flip(UINT64_MAX, UINT64_MAX); }, "a range far past the end");
    throws<std::invalid_argument>(
        [&] { bitm::bits_view(bitm::words_in(bits.words_data(), std::size_t(1) << 58)).count(); }, "too many words");
    must(bits == before, "what throws writes nothing");
}

// Numbers computed by hand: 12 = 0b1100 and 10 = 0b1010.
void combined()
{
    bitm::bits made("0011"), ten("0101");
    made &= ten;
    must(made == bitm::bits("0001"), "and");
    made |= bitm::bits("1100");
    must(made == bitm::bits("1101"), "or");
    made ^= ten;
    must(made == bitm::bits("1000"), "xor");
    made -= bitm::bits("1000");
    must(made.none(), "and_not");
    throws<std::invalid_argument>([&] { made &= bitm::bits("00001"); }, "lengths that differ");
    made.set(2);
    const bitm::bits &same = made;
    made ^= same;
    must(made.none(), "bits with themselves");
}

void as_a_loop(const bitm::rank_index_view &bits, const std::vector<bool> &plain)
{
    Words positions[2], queries;
    must(bits.size() == plain.size() && bits.check(), "size and check");
    for (std::size_t i = 0; i < plain.size(); i++) {
        must(bits.rank(i) == positions[1].size() && bits.rank0(i) == positions[0].size(), "rank");
        must(bits.at(i) == plain[i], "a bit");
        positions[plain[i]].push_back(i);
    }
    for (std::size_t r = 0; r <= plain.size(); r++) {
        must(bits.select(r) == item(positions[1], r) && bits.select0(r) == item(positions[0], r), "select");
        queries.push_back(r);
    }
    Words ones(queries.size()), zeros(queries.size());
    bits.select(queries, ones), bits.select0(queries, zeros);
    for (std::size_t r = 0; r <= plain.size(); r++) {
        must(ones[r] == item(positions[1], r).value_or(bitm::no_answer), "a list of selections");
        must(zeros[r] == item(positions[0], r).value_or(bitm::no_answer), "a list of selections of 0 bits");
    }
    throws<std::out_of_range>([&] { bits.rank(plain.size() + 1); }, "a rank past the end");
    throws<std::out_of_range>([&] { bits.rank0(plain.size() + 1); }, "a rank of 0 bits past the end");
}

Words file_of(bitm::span<const unsigned char> bytes)
{
    Words file(bytes.size() / 8);
    std::memcpy(file.data(), bytes.data(), bytes.size());
    return file;
}

// Files of each length and kind of samples, with any bits past the end.
void indexes()
{
    for (std::size_t count : {0u, 1u, 63u, 64u, 65u, 2048u, 5000u})
        for (unsigned kinds = 0; kinds < 4; kinds++) {
            std::vector<bool> plain(count);
            for (std::size_t i = 0; i < count; i++) plain[i] = draw() % 3 == 0;
            Words words = words_of(plain);
            for (std::size_t i = count; i < 64 * words.size(); i++) words[i / 64] |= (draw() & 1) << i % 64;
            words.resize(words.size() + kinds, UINT64_MAX);
            const bitm::rank_index made(words, count, {kinds & 1 ? 7u : 0u, kinds & 2 ? 8u : 0u});
            as_a_loop(made.view(), plain);
            const bitm::rank_index copied(made);
            as_a_loop(copied.view(), plain);
            const Words file = file_of(made.bytes());
            const bitm::rank_index_view read = bitm::rank_index_view::in(file);
            must((read.raw().ones.log2 != 0) == bool(kinds & 1) && (read.raw().zeros.log2 != 0) == bool(kinds & 2),
                 "samples");
            as_a_loop(read, plain);
            const bitm::rank_index loaded = bitm::rank_index::of_bytes(made.bytes());
            must(file_of(loaded.bytes()) == file, "a file of what was read");
            throws<bitm::wrong_file>([&] { bitm::sequence_view::in(file); }, "an index is no sequence");
        }
    const Words two{1, 2};
    throws<std::invalid_argument>([&] { bitm::rank_index(two, {}, {6, 0}); }, "a log2 too small");
    throws<std::invalid_argument>([&] { bitm::rank_index(two, {}, {0, 32}); }, "a log2 too large");
    throws<std::invalid_argument>([&] { bitm::rank_index(two, 129); }, "more bits than there are");
    const bitm::rank_index made(two, {}, {7, 0});
    const std::uint32_t many[3] = {};
    const std::uint64_t wrong[] = {UINT64_MAX};
    bitm_index raw = made.raw();
    raw.ones.samples = many, raw.ones.samples_len = 3;
    must(made.check() && !bitm::rank_index_view(raw).check(), "wrong samples");
    must(bitm::rank_index_view(raw).select(1) == made.select(1), "wrong samples change no answer");
    raw.lower_len = 0;
    throws<std::invalid_argument>([&] { bitm::rank_index_view view(raw); }, "a table too short");
    raw = made.raw(), raw.lower = wrong;
    Words out(2);
    throws<std::invalid_argument>([&] { made.rank(out, out); }, "a list that overlaps its answers");
    const bitm::rank_index_view others(raw);
    throws<bitm::wrong_tables>([&] { others.select(1); }, "wrong tables");
    throws<bitm::wrong_tables>([&] { others.rank(1); }, "a rank over wrong tables");
    throws<bitm::wrong_tables>([&] { others.rank(two, out); }, "ranks over wrong tables");
    must(out == Words{bitm::wrong_answer, bitm::wrong_answer}, "each says so");
    must(!others.try_select(1) && others.try_select(1).error().code == bitm::errc::wrong,
         "an error in place of an exception");
}

// A file of which one byte of header or directory is another, or that is cut; sections that are spoilt.
void spoilt(const Words &good)
{
    const std::size_t head = std::size_t(bitm::section_at(good, 0).value().words.data() - good.data());
    for (std::size_t at = 0; at < 8 * head; at++) {
        Words file = good;
        reinterpret_cast<unsigned char *>(file.data())[at] ^= static_cast<unsigned char>(1 + draw() % 255);
        throws<bitm::wrong_file>([&] { bitm::rank_index_view::in(file); }, "a wrong header");
    }
    const unsigned char *const bytes = reinterpret_cast<const unsigned char *>(good.data());
    for (std::size_t size = 0; size < 8 * good.size(); size += 5)
        throws<bitm::wrong_file>([&] { bitm::rank_index::of_bytes({bytes, size}); }, "a file that is cut");
    throws<bitm::wrong_file>([] { bitm::rank_index::of_bytes({}); }, "no bytes");
    std::vector<unsigned char> moved(8 * good.size() + 8);
    for (std::size_t by = 1; by < 8; by++) {
        std::memcpy(moved.data() + by, good.data(), 8 * good.size());
        const bitm::rank_index copy = bitm::rank_index::of_bytes({moved.data() + by, 8 * good.size()});
        must(file_of(copy.bytes()) == good, "bytes from any address on are copied");
    }
    for (std::size_t at = head; at < good.size(); at++) {
        Words file = good;
        file[at] ^= draw() | 1;
        const bitm::rank_index_view bits = bitm::rank_index_view::in(file);
        for (int turn = 0; turn < 20; turn++) {
            const std::uint64_t query = draw() % (bits.size() + 1);
            const auto rank = bits.try_rank(query);
            must(!rank || *rank <= query, "a rank is at most its position");
            const auto one = bits.try_select(query), zero = bits.try_select0(query);
            must(!one || !*one || (**one < bits.size() && bits[**one]), "a 1 bit that is found");
            must(!zero || !*zero || (**zero < bits.size() && !bits[**zero]), "a 0 bit that is found");
        }
    }
}

void sequences()
{
    for (std::size_t n : {0u, 1u, 7u, 1000u}) {
        Words numbers(n);
        for (auto &number : numbers) number = draw() >> 40;
        std::sort(numbers.begin(), numbers.end());
        const bitm::sequence made(numbers);
        const Words file = file_of(made.bytes());
        const bitm::sequence_view read = bitm::sequence_view::in(file);
        must(read.check() && read.size() == n && read == made, "a sequence comes back");
        for (int turn = 0; turn < 6000; turn++) {
            const std::uint64_t value = n && turn % 2 ? numbers[draw() % n] : draw() >> 40, from = draw() % (n + 1);
            const auto least = std::lower_bound(numbers.begin(), numbers.end(), value) - numbers.begin();
            const auto past = std::upper_bound(numbers.begin(), numbers.end(), value) - numbers.begin();
            must(read.rank(value) == std::uint64_t(least), "rank of a value");
            must(read.last_at_most(value) == (past ? bitm::maybe_position(past - 1) : bitm::maybe_position()),
                 "last_at_most");
            must(read.contains(value) == (least != past), "contains");
            Words some(draw() % 9);
            const std::size_t end = std::min(n, from + some.size());
            some.resize(read.read(from, some));
            must(some == Words(numbers.begin() + long(from), numbers.begin() + long(end)), "items");
        }
        Words queries(200), firsts(200), lasts(200), there(200);
        for (auto &value : queries) value = n && draw() % 2 ? numbers[draw() % n] : draw() >> 40;
        read.first_at_least(queries, firsts), read.last_at_most(queries, lasts), read.contains(queries, there);
        for (std::size_t i = 0; i < queries.size(); i++) {
            must(firsts[i] == read.first_at_least(queries[i]).value_or(bitm::no_answer), "a list of successors");
            must(lasts[i] == read.last_at_most(queries[i]).value_or(bitm::no_answer), "a list of predecessors");
            must(there[i] == read.contains(queries[i]), "a list of whether values are there");
        }
        Words all(n + 1);
        must(read.read(0, all) == n && std::equal(numbers.begin(), numbers.end(), all.begin()), "all items");
        must(read.read(n, all) == 0 && read.read(n + 1, all) == 0, "no items past the end");
        throws<bitm::wrong_file>([&] { bitm::rank_index_view::in(file); }, "a sequence is no index");
        Words cut(file.begin(), file.end() - 1);
        throws<bitm::wrong_file>([&] { bitm::sequence_view::in(cut); }, "a sequence that is cut");
    }
    throws<std::invalid_argument>([] { bitm::sequence falling{2, 1}; }, "numbers that fall");
    const bitm::sequence three{1, 2, 3};
    bitm_sequence none = three.raw();
    const std::uint64_t zeros[1] = {};
    none.low = none.words = none.upper = none.lower = zeros;
    Words out(3);
    throws<bitm::wrong_tables>([&] { bitm::sequence_view(none).read(0, out); }, "items of no sequence");
    throws<std::invalid_argument>([&] { three.at(out, out); }, "indexes that overlap their numbers");
    throws<bitm::wrong_tables>([&] { bitm::sequence_view(none).walk(); }, "a walk through no sequence");
    throws<bitm::wrong_tables>(
        [&] {
            bitm::sequence_view(none).at(Words{0}, {out.data(), 1});
        },
        "numbers of no sequence");
    const Words past_the_end{3, 0};
    throws<std::out_of_range>([&] { bitm::sequence_view(none).at(past_the_end, {out.data(), 2}); },
                              "a number past the end of no sequence");
}

// Saving replaces a file whole, or leaves it: no other file stays beside it, and its mode is kept.
void replaced(const std::string &folder)
{
    namespace fs = std::filesystem;
    const fs::path path = fs::path(folder) / "replaced.bitm";
    const bitm::rank_index old(Words{1, 2, 3}), made(Words(1000, 7), {}, {7, 7});
    old.save(path);
    fs::permissions(path, fs::perms::owner_read | fs::perms::owner_write);
    const bitm::rank_index mapped = bitm::rank_index::map(path);
    made.save(path);
    must(mapped == old && bitm::rank_index::map(path, bitm::verify::yes) == made, "who maps the old file keeps it");
    must(fs::status(path).permissions() == (fs::perms::owner_read | fs::perms::owner_write), "the mode is kept");
    const auto refused = made.try_save((fs::path(folder) / "no" / "folder").string());
    must(!refused && refused.error().code == bitm::errc::no_file, "a folder that is not there");
    fs::create_directory(fs::path(folder) / "a folder");
    must(!made.try_save((fs::path(folder) / "a folder").string()), "a folder is no file");
    if (fs::is_character_file("/dev/full")) {
        must(!made.try_save("/dev/full"), "a device without room");
        must(fs::is_character_file("/dev/full"), "a device is not replaced");
    }
    std::size_t files = 0;
    for (const auto &entry : fs::directory_iterator(folder))
        files += entry.path().string().find(".tmp") != std::string::npos;
    must(files == 0, "no other file stays");
    fs::remove(path), fs::remove(fs::path(folder) / "a folder");
}

// The bits and numbers that each binding stores.
std::vector<bool> stored_bits()
{
    std::vector<bool> plain(100001);
    for (std::uint64_t i = 0; i < plain.size(); i++) plain[i] = i * i % 7 < 2 || i % 1000 < 100;
    return plain;
}
Words stored_numbers()
{
    Words numbers(3000);
    for (std::uint64_t i = 0; i < numbers.size(); i++) numbers[i] = 1000 * i + i * i % 1000;
    return numbers;
}

void write_files(const std::string &folder)
{
    bitm::rank_index(words_of(stored_bits()), 100001, {9, 9}).save(folder + "/index");
    bitm::sequence(stored_numbers()).save(folder + "/sequence");
}

void read_files(const std::string &folder)
{
    const bitm::rank_index bits = bitm::rank_index::map(folder + "/index", bitm::verify::yes);
    as_a_loop(bits.view(), stored_bits());
    const bitm::sequence numbers = bitm::sequence::load(folder + "/sequence", bitm::verify::yes);
    must(numbers == bitm::sequence(stored_numbers()), "the numbers of a file");
}

} // namespace

int main(int argc, char **argv)
{
    memory();
    ranges();
    combined();
    indexes();
    const bitm::rank_index bits(words_of(std::vector<bool>(3000, true)), 2990, {7, 7});
    spoilt(file_of(bits.bytes()));
    sequences();
    std::ostringstream closed;
    closed.setstate(std::ios::badbit);
    must(!bits.save(closed), "a stream that fails says so");
    if (argc > 1) write_files(argv[1]), replaced(argv[1]);
    for (int i = 1; i < argc; i++) read_files(argv[i]);
    std::puts("C++ host: ranges and files as the plain loops, each spoilt header refused");
}
