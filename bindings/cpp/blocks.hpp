// What the tests of structures in blocks share: a test that ends the program, numbers that are drawn, and what holds of
// the owners and views of each structure: copies, moves, files, and blocks that are spoilt or cut.
#ifndef BLOCKS_HPP
#define BLOCKS_HPP

#include <bitm.hpp>

#include <algorithm>
#include <cstdio>
#include <cstdlib>
#include <random>
#include <sstream>
#include <string>
#include <thread>
#include <vector>

using u64 = std::uint64_t;
using Words = std::vector<u64>;
using bitm::maybe_position;

[[noreturn]] static void broken(const char *file, int line, const char *what)
{
    std::fprintf(stderr, "%s:%d: not so: %s\n", file, line, what), std::exit(1);
}
#define MUST(...) ((__VA_ARGS__) ? void() : broken(__FILE__, __LINE__, #__VA_ARGS__))

template <class Error, class Call> static bool throws(Call call)
{
    try {
        call();
    } catch (const Error &) {
        return true;
    }
    return false;
}

static std::mt19937_64 draw(29);

// What `build` makes while it tells how far it is: the same as `wanted`, in steps up to `total`. What is thrown at a
// step ends the build, whichever it is.
template <class Owner, class Build> static void told(const Owner &wanted, u64 total, Build build)
{
    std::vector<std::pair<u64, u64>> steps;
    const Owner made = build([&](u64 done, u64 of) { steps.emplace_back(done, of); });
    MUST(made == wanted && !steps.empty() && steps.back() == std::make_pair(total, total));
    MUST(std::is_sorted(steps.begin(), steps.end()));
    for (std::size_t last = 0; last < steps.size(); last++) {
        MUST(steps[last].second == total);
        std::size_t calls = 0;
        const auto stop = [&](u64, u64) {
            if (calls++ == last) throw std::runtime_error("stop");
        };
        MUST(throws<std::runtime_error>([&] { (void)build(stop); }) && calls == last + 1);
    }
}

// Copies and moves of an owner that is not empty. `full` says that an owner or a view has all that the given one has,
// `none` that it has nothing.
template <class Owner, class Full, class None> static void copies_and_moves(Owner a, Full full, None none)
{
    using View = decltype(a.view());
    Owner empty;
    MUST(a != empty);
    Owner copy = a, moved = std::move(a);
    full(copy), full(moved), full(moved.view());
    none(a), none(empty), none(empty.view()), none(View()), none(Owner(empty));
    a = copy, copy = Owner(), none(copy), full(a);
    swap(a, copy), none(a), full(copy);
    copy = *&copy, full(copy);
    a = std::move(copy), full(a), none(copy);
    MUST(a.view() == a && a.view() != empty.view());
}

// Whether a file is of no other structure than this owner's.
template <class Other, class Owner> static bool apart(const std::string &path)
{
    return std::is_same_v<Other, Owner> || (Other::try_load(path).error().code == bitm::errc::other_kind &&
                                            Other::try_map(path).error().code == bitm::errc::other_kind);
}

// The file of an owner: copied, mapped, from a stream, as bytes, and in words of the caller's; none for other
// structures, as theirs are none for it.
template <class Owner, class Full> static void files_of(const Owner &given, const std::string &path, Full full)
{
    using View = decltype(given.view());
    given.save(path);
    std::stringstream stream, cut;
    given.save(stream) << "more";
    cut.write(reinterpret_cast<const char *>(given.bytes().data()),
              static_cast<std::streamsize>(given.bytes().size() - 1));
    const Owner mapped = Owner::map(path, bitm::verify::yes), read = Owner::load(stream, bitm::verify::yes);
    full(Owner::load(path, bitm::verify::yes)), full(mapped), full(read), full(Owner::of_bytes(given.bytes()));
    MUST(stream.get() == 'm' && !Owner::try_load(cut) && mapped == given && Owner(Owner::map(path)) == given);
    MUST(Owner::of_bytes(given.bytes()) == given);
    MUST(apart<bitm::rank_index, Owner>(path) && apart<bitm::sequence, Owner>(path));
    constexpr bool of_keys = std::is_same_v<Owner, bitm::key_hash>; // whose block is that of a hash too
    constexpr bool is_hash = of_keys || std::is_same_v<Owner, bitm::dictionary>;
    MUST((is_hash || apart<bitm::perfect_hash, Owner>(path)) && apart<bitm::tree, Owner>(path));
    MUST(apart<bitm::wavelet_matrix, Owner>(path) && apart<bitm::sparse_bits, Owner>(path));
    MUST(apart<bitm::dictionary, Owner>(path) && apart<bitm::text_index, Owner>(path) &&
         apart<bitm::trie, Owner>(path));
    MUST(apart<bitm::strings, Owner>(path) && (of_keys || apart<bitm::seeded_hash, Owner>(path)));
    MUST(apart<bitm::key_hash, Owner>(path));
    Words file(given.block().begin(), given.block().end());
    file.resize(file.size() + 7, 5); // words after the block are not its own
    const View view = View::in(file);
    full(view), MUST(view == given && view.block().data() == file.data());
    for (const bool is_tree : {false, true}) {
        if (is_tree && std::is_same_v<Owner, bitm::tree>) continue;
        is_tree ? bitm::tree{1, 0}.save(path) : bitm::rank_index(bitm::bits("0101")).save(path);
        MUST(Owner::try_load(path).error().code == bitm::errc::other_kind && !Owner::try_map(path));
    }
    MUST(Owner::try_load("no/such/file").error().code == bitm::errc::no_file);
    std::remove(path.c_str());
}

// Blocks with a changed bit (each, or one in `step`), cut off, or of random words: opening compares the checksums of
// the header and the directory, which `head` words are, and may look at one word more; `any` queries what is opened,
// which may hold anything.
template <class Owner, class Any>
static void spoilt_blocks(const Owner &given, std::size_t head, unsigned step, Any any, std::size_t seen = 0)
{
    using View = decltype(given.view());
    const Words good(given.block().begin(), given.block().end()), few(2);
    for (std::size_t word = 0; word < good.size(); word++)
        for (unsigned bit = 0; bit < 64; bit += step) {
            Words block = good;
            block[word] ^= u64{1} << bit;
            const auto view = View::try_in(block);
            MUST(word == seen || view.has_value() == (word >= head));
            const bitm::span<const unsigned char> bytes(reinterpret_cast<const unsigned char *>(block.data()),
                                                        8 * block.size());
            MUST(!Owner::try_of_bytes(bytes, bitm::verify::yes));
            if (view) MUST(!view->check()), any(*view);
        }
    for (std::size_t len = 0; len < good.size(); len++) MUST(!View::try_in(bitm::words_in(good.data(), len)));
    for (int turn = 0; turn < 300; turn++) {
        Words block = good;
        for (std::size_t word = head; word < block.size(); word++)
            if (word != seen) block[word] = draw() & draw() & (turn % 2 ? ~u64{} : draw());
        any(View::in(block));
    }
    MUST(!Owner::try_of_bytes({}) && !View::try_in(few) && !View::try_in({}));
    MUST(throws<bitm::wrong_file>([&] { (void)View::in(few); }) &&
         throws<bitm::wrong_file>([] { (void)View::in({}); }));
}

#endif
