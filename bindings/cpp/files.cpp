// Files in C++: each flipped bit is seen, with a section of the caller's own too, what is saved is loaded back, also of
// nothing and after a move, files of version 2 are read and become blocks, and saving follows symbolic links. files
// FOLDER: it has the files of version 2.
#include "blocks.hpp"

#include <filesystem>
#include <fstream>
#include <iterator>

namespace fs = std::filesystem;
using Bytes = std::vector<unsigned char>;
using u32 = std::uint32_t;
using bitm::verify;

static Bytes read_file(const fs::path &path)
{
    std::ifstream from(path, std::ios::binary);
    return Bytes(std::istreambuf_iterator<char>(from), {});
}
template <class Owner> static Bytes bytes_of(const Owner &of) { return Bytes(of.bytes().begin(), of.bytes().end()); }

// The bits and numbers of the files of version 2, which were written when the library wrote such files.
static bitm::bits old_bits()
{
    bitm::bits made(1000);
    for (u64 i = 0; i < 1000; i++) made.set(i, i * i % 7 < 2 || i % 100 < 10);
    return made;
}
static Words old_numbers()
{
    Words made(100);
    for (u64 i = 0; i < 100; i++) made[i] = 1000 * i + i * i % 1000;
    return made;
}
static Words old_hashes()
{
    Words made(50);
    for (u64 i = 0; i < 50; i++) made[i] = (i + 1) * 0x9E3779B97F4A7C15u;
    return made;
}

// ---- damage

// Whether the check refuses a file of which any one bit is another.
template <class Owner> static void no_bit_is_taken(Bytes file)
{
    MUST(Owner::try_of_bytes(file, verify::yes));
    for (std::size_t bit = 0; bit < 8 * file.size(); bit++) {
        file[bit / 8] ^= static_cast<unsigned char>(1 << bit % 8);
        MUST(!Owner::try_of_bytes(file, verify::yes));
        file[bit / 8] ^= static_cast<unsigned char>(1 << bit % 8);
    }
}
// Of a file without sections of the caller's own, and with one.
template <class Owner> static void flipped(const Owner &given, const fs::path &path)
{
    given.save(path);
    Bytes file = read_file(path);
    MUST(file == bytes_of(given) && Owner::try_map(path, verify::yes));
    no_bit_is_taken<Owner>(file);
    const Words note{draw(), draw() >> 8};
    Words noted(bitm::extended_size(given.block(), bitm::own_role, 15));
    bitm::extend(given.block(), bitm::own_role, 15, note, noted);
    const auto *const bytes = reinterpret_cast<const unsigned char *>(noted.data());
    no_bit_is_taken<Owner>(Bytes(bytes, bytes + 8 * noted.size()));
    file[file.size() / 2] ^= 1;
    std::ofstream(path, std::ios::binary)
        .write(reinterpret_cast<const char *>(file.data()), static_cast<std::streamsize>(file.size()));
    MUST(!Owner::try_load(path, verify::yes) && !Owner::try_map(path, verify::yes));
}

static void damage(const fs::path &path)
{
    const Words degrees{2, 0, 1, 0}, some{3, 100, 2000};
    flipped(bitm::rank_index(old_bits()), path), flipped(bitm::rank_index(old_bits(), {7, 8}), path);
    flipped(bitm::sequence(old_numbers()), path), flipped(bitm::sparse_bits(some, 5000), path);
    flipped(bitm::perfect_hash(bitm::words_in(old_hashes())), path);
    flipped(bitm::seeded_hash(bitm::words_in(old_hashes())), path);
    flipped(bitm::key_hash(some), path), flipped(bitm::key_hash(some, {8, 100, 5}), path);
    flipped(bitm::dictionary(some), path), flipped(bitm::strings{"ada", "bob", "eve"}, path);
    flipped(bitm::tree(degrees), path), flipped(bitm::trie::of_words({"a", "b", "be"}), path);
    flipped(bitm::wavelet_matrix(some), path);
    flipped(bitm::wavelet_matrix(some, 11, bitm::quarters::yes), path), flipped(bitm::text_index("banana"), path);
    flipped(bitm::wavelet_matrix(some, 11, bitm::quarters::no, bitm::hints::yes), path);
    flipped(bitm::text_index::of_letters(Words{3, 1, 4, 1, 5}, 8), path);
}

// ---- owners of nothing

template <class Owner> static void back_again(const Owner &nothing, const fs::path &path)
{
    nothing.save(path);
    std::stringstream stream;
    nothing.save(stream);
    MUST(Owner::load(path, verify::yes) == nothing && Owner::map(path, verify::yes) == nothing);
    MUST(Owner::load(stream, verify::yes) == nothing && Owner::of_bytes(nothing.bytes()) == nothing);
    MUST(nothing.size() == 0 && nothing.empty() && nothing.check() && bitm::is_written(nothing.block()));
}
template <class Owner> static void of_nothing(Owner given, const fs::path &path)
{
    MUST(given.size() > 0);
    back_again(Owner(), path);
    const Owner moved = std::move(given);
    back_again(given, path), MUST(given == Owner() && moved != given);
    given = moved, MUST(given == moved);
    Owner assigned;
    assigned = std::move(given), MUST(assigned == moved);
    back_again(given, path);
    const Owner copy = given;
    back_again(copy, path);
}
// A tree has a root: of no nodes there is no block, so none is written.
template <class Owner> static void of_no_nodes(Owner given, const fs::path &path)
{
    const Owner moved = std::move(given);
    fs::remove(path);
    std::ostringstream to;
    MUST(given.size() == 0 && given == Owner() && given.check() && given.bytes().empty() && moved != given);
    MUST(given.try_save(path).error().code == bitm::errc::bad_size && !fs::exists(path));
    MUST(throws<std::invalid_argument>([&] { given.save(to); }) && to.str().empty());
}
static void nothing(const fs::path &path)
{
    const Words some{3, 100, 2000};
    of_nothing(bitm::rank_index(old_bits(), {7, 7}), path), of_nothing(bitm::sequence(some), path);
    of_nothing(bitm::sparse_bits(some, 5000), path), of_nothing(bitm::perfect_hash(some), path);
    of_nothing(bitm::seeded_hash(some), path), of_nothing(bitm::dictionary(some), path);
    of_nothing(bitm::strings{"ada"}, path), of_nothing(bitm::wavelet_matrix(some), path);
    of_nothing(bitm::text_index("banana"), path), of_nothing(bitm::key_hash(some), path);
    of_no_nodes(bitm::tree{1, 0}, path), of_no_nodes(bitm::trie::of_words({"a"}), path);
    MUST(bitm::text_index() == bitm::text_index::of_letters({}, 0) &&
         bitm::sequence() == bitm::sequence(bitm::words_in()));
    MUST(bitm::strings() == bitm::strings(std::initializer_list<std::string_view>{}));
}

// ---- files of version 2

// What is read of such a file is what `made` is, and where it is saved it is a block, the same one.
template <class Owner> static void becomes(const Owner &made, const fs::path &old, const fs::path &path)
{
    const Bytes file = read_file(old), block = bytes_of(made);
    MUST(file.size() > 0 && file[7] == 2 && block[7] == 4);
    std::stringstream stream;
    stream.write(reinterpret_cast<const char *>(file.data()), static_cast<std::streamsize>(file.size())) << "more";
    for (const verify how : {verify::no, verify::yes}) {
        MUST(bytes_of(Owner::load(old, how)) == block && bytes_of(Owner::of_bytes(file, how)) == block);
        const Owner mapped = Owner::map(old, how);
        MUST(bytes_of(mapped) == file && mapped.check() && mapped.size() == made.size());
        mapped.save(path), MUST(read_file(path) == block);
        const Owner copy = mapped;
        MUST(bytes_of(copy) == file && copy.check());
        std::stringstream to;
        copy.save(to), MUST(bytes_of(Owner::load(to, verify::yes)) == block);
    }
    MUST(bytes_of(Owner::load(stream, verify::yes)) == block && stream.get() == 'm');
}

static void answers(const bitm::rank_index_view &x)
{
    const bitm::bits b = old_bits();
    MUST(x.as_bits() == b && x.check());
    u64 ranks[2] = {0, 0};
    for (u64 i = 0; i < 1000; i++) {
        MUST(x.rank(i) == ranks[1] && x.rank0(i) == ranks[0] && x[i] == b[i]);
        MUST((b[i] ? x.select(ranks[1]) : x.select0(ranks[0])) == maybe_position(i));
        ranks[b[i]]++;
    }
}

static void version_2(const fs::path &folder, const fs::path &path)
{
    becomes(bitm::rank_index(old_bits()), folder / "index", path);
    becomes(bitm::rank_index(old_bits(), {7, 8}), folder / "sampled", path);
    becomes(bitm::sequence(old_numbers()), folder / "sequence", path);
    becomes(bitm::perfect_hash(bitm::words_in(old_hashes())), folder / "hash", path);
    for (const char *name : {"index", "sampled"}) {
        const bitm::rank_index mapped = bitm::rank_index::map(folder / name),
                               loaded = bitm::rank_index::load(folder / name);
        answers(mapped.view()), answers(loaded.view()), answers(bitm::rank_index_view::in(mapped.block()));
        const u32 log2 = name[0] == 's' ? 7 : 0;
        MUST(mapped.raw().ones.log2 == log2 && loaded.raw().ones.log2 == log2 &&
             (loaded.raw().zeros.log2 == 8) == (log2 > 0));
    }
    const Words numbers = old_numbers(), hashes = old_hashes();
    const bitm::sequence mapped = bitm::sequence::map(folder / "sequence");
    MUST(std::equal(mapped.begin(), mapped.end(), numbers.begin(), numbers.end()) && mapped.rank(7049) == 7);
    MUST(bitm::sequence_view::in(mapped.block()) == mapped && !bitm::rank_index::try_load(folder / "sequence"));
    const bitm::perfect_hash old = bitm::perfect_hash::map(folder / "hash"),
                             loaded = bitm::perfect_hash::load(folder / "hash");
    std::vector<bool> used(50);
    for (const u64 hash : hashes) MUST(old(hash).value() < 50 && old(hash) == loaded(hash)), used[*old(hash)] = true;
    MUST(std::count(used.begin(), used.end(), true) == 50 && !bitm::seeded_hash::try_load(folder / "hash"));
}

// Such files with any bit or byte changed, or cut: they are refused, or read as something whose answers are safe.
template <class Owner, class Any> static void spoilt_old(const fs::path &old, Any any)
{
    const Bytes good = read_file(old);
    for (std::size_t at = 0; at < good.size(); at++)
        for (const unsigned by : {1u, 0x80u, 0xffu}) {
            Bytes file = good;
            file[at] ^= static_cast<unsigned char>(by);
            const auto loaded = Owner::try_of_bytes(file);
            if (at < 192) MUST(loaded.error().code == bitm::errc::wrong_file);
            if (loaded)
                MUST(loaded->check()), any(*loaded);
            else
                MUST(loaded.error().code == bitm::errc::wrong_file || loaded.error().code == bitm::errc::wrong);
            if (const auto checked = Owner::try_of_bytes(file, verify::yes)) any(*checked);
        }
    for (std::size_t len = 0; len < good.size(); len++) MUST(!Owner::try_of_bytes({good.data(), len}));
}
static void old_damage(const fs::path &folder)
{
    const auto index = [](const bitm::rank_index &x) {
        for (u64 i = 0; i < 1000; i += 37) MUST(x.rank(i) <= i && x.select(i).value_or(0) < 1000);
    };
    spoilt_old<bitm::rank_index>(folder / "index", index), spoilt_old<bitm::rank_index>(folder / "sampled", index);
    spoilt_old<bitm::sequence>(folder / "sequence", [](const bitm::sequence &s) {
        MUST(s.size() == 100 && std::is_sorted(s.begin(), s.end()));
    });
    spoilt_old<bitm::perfect_hash>(folder / "hash", [](const bitm::perfect_hash &h) {
        for (const u64 hash : old_hashes()) MUST(h(hash).value_or(0) < h.size());
    });
}

// ---- samples in the block of an index

static Words with(const Words &block, u64 role, u64 count, const Words &words)
{
    Words to(bitm::extended_size(block, role, count));
    bitm::extend(block, role, count, words, to);
    return to;
}
// The log2 with which a block is opened whose last two sections are samples and these words.
static u32 opened_with(const Words &block, u64 role, const Words &samples, u64 starts_role, const Words &starts)
{
    const Words made = with(with(block, role, 2 * samples.size(), samples), starts_role, 8 * starts.size(), starts);
    const bitm_index raw = bitm::rank_index_view::in(made).raw();
    answers(bitm::rank_index_view::in(made));
    return (role == 7 ? raw.ones : raw.zeros).log2;
}
static void samples()
{
    constexpr u64 of_ones = 0x316174736D746962, of_zeros = 0x306174736D746962; // the letters bitmsta1 and bitmsta0
    const bitm::rank_index plain(old_bits()), sampled(old_bits(), {7, 8});
    const Words block(plain.block().begin(), plain.block().end());
    const u64 roles[] = {1, 2, 3, 7, of_ones, 8, of_zeros};
    for (std::size_t i = 0; i < 7; i++) MUST(bitm::section_at(sampled.block(), i).value().role == roles[i]);
    MUST(!bitm::section_at(sampled.block(), 7) && !bitm::section_at(plain.block(), 3));
    for (std::size_t i = 0; i < 3; i++) {
        const bitm::words_in a = bitm::section_at(block, i)->words, b = bitm::section_at(sampled.block(), i)->words;
        MUST(std::equal(a.begin(), a.end(), b.begin(), b.end()));
    }
    const Words any{draw(), draw()}, note = with(block, bitm::own_role, 16, any);
    for (const Words &of : {block, note}) {
        for (u64 log2 = 0; log2 < 40; log2++) {
            const u32 taken = log2 < 7 || log2 > 31 ? 0 : static_cast<u32>(log2);
            MUST(opened_with(of, 7, any, of_ones, {log2, 0}) == taken &&
                 opened_with(of, 8, any, of_zeros, {log2, 0}) == taken);
        }
        MUST(opened_with(of, 7, {}, of_ones, {7, 0}) == 7 && opened_with(of, 7, any, of_ones, {7, ~u64{}}) == 7);
        MUST(opened_with(of, 7, any, of_ones, {7}) == 0 && opened_with(of, 7, any, of_ones, {7, 0, 0}) == 0);
        MUST(opened_with(of, 7, any, of_zeros, {7, 0}) == 0 && opened_with(of, 8, any, of_ones, {7, 0}) == 0);
        MUST(opened_with(of, 7, any, of_ones, {7 + (u64{1} << 32), 0}) == 0);
    }
    // Not directly after them; and the first of two that are right is taken.
    const Words apart = with(with(with(block, 7, 4, any), bitm::own_role, 8, {1}), of_ones, 16, {7, 0});
    answers(bitm::rank_index_view::in(apart)), MUST(bitm::rank_index_view::in(apart).raw().ones.log2 == 0);
    const Words later = with(with(apart, 7, 4, any), of_ones, 16, {9, 0}),
                twice = with(with(later, 7, 4, any), of_ones, 16, {8, 0});
    MUST(bitm::rank_index_view::in(later).raw().ones.log2 == 9 &&
         bitm::rank_index_view::in(twice).raw().ones.log2 == 9);
    // Of no bits there are no upper blocks.
    const bitm::rank_index none(bitm::words_in(), {}, {7, 7});
    MUST(none.check() && none.raw().ones.log2 == 7 && none.raw().ones.starts_len == 0 && none == bitm::rank_index());
}

// ---- symbolic links

static void links(const fs::path &folder)
{
    const bitm::rank_index old(Words{1}), made(Words{2});
    const auto is = [](const fs::path &path) { return bitm::rank_index::load(path, verify::yes); };
    fs::create_directory(folder / "a"), fs::create_directory(folder / "b");
    const fs::path file = folder / "a/file";
    old.save(file), fs::permissions(file, fs::perms::owner_read | fs::perms::owner_write);
    fs::create_symlink("../a/file", folder / "b/relative"), fs::create_symlink(fs::absolute(file), folder / "absolute");
    fs::create_symlink("b/relative", folder / "twice"), fs::create_symlink("a/new", folder / "dangling");
    fs::create_symlink("loop", folder / "loop"), fs::create_symlink("no/folder", folder / "nowhere");
    for (const char *name : {"b/relative", "absolute", "twice"}) {
        old.save(file);
        const bitm::rank_index mapped = bitm::rank_index::map(folder / name);
        made.save(folder / name);
        MUST(fs::is_symlink(folder / name) && !fs::is_symlink(file) && is(file) == made && mapped == old);
        MUST(fs::status(file).permissions() == (fs::perms::owner_read | fs::perms::owner_write));
    }
    const char *const none = nullptr;
    MUST(made.try_save(none).error().code == bitm::errc::no_file && !bitm::rank_index::try_load(none));
    made.save(folder / "dangling");
    MUST(fs::is_symlink(folder / "dangling") && is(folder / "a/new") == made);
    MUST(made.try_save(folder / "loop").error().at == ELOOP && fs::is_symlink(folder / "loop"));
    MUST(made.try_save(folder / "nowhere").error().code == bitm::errc::no_file && fs::is_symlink(folder / "nowhere"));
    std::size_t files = 0;
    for (const auto &entry : fs::recursive_directory_iterator(folder))
        files += !entry.is_symlink() && entry.is_regular_file();
    MUST(files == 2);
}

int main(int argc, char **argv)
{
    MUST(argc == 2);
    const fs::path scratch = std::string(argv[0]) + ".files", path = scratch / "it";
    fs::remove_all(scratch), fs::create_directory(scratch), fs::create_directory(scratch / "links");
    damage(path), nothing(path), version_2(argv[1], path), old_damage(argv[1]), samples(), links(scratch / "links");
    fs::remove_all(scratch);
    std::puts("files: ok");
    return 0;
}
