// Blocks of version 3 of the format, one of each kind: they are read, checked and queried, and extended as blocks of
// version 4. The argument is the file in which they stand one after another, bindings/tests/version_3.blocks.
#include "blocks.hpp"

#include <fstream>
#include <iterator>

static const std::size_t kinds = 12;

static std::vector<Words> blocks_in(const char *path)
{
    std::ifstream file(path, std::ios::binary);
    const std::string bytes{std::istreambuf_iterator<char>(file), std::istreambuf_iterator<char>()};
    Words words(bytes.size() / 8);
    std::memcpy(words.data(), bytes.data(), 8 * words.size());
    std::vector<Words> all;
    for (auto at = words.begin(); at != words.end(); at += static_cast<std::ptrdiff_t>(all.back().size()))
        all.emplace_back(at, at + static_cast<std::ptrdiff_t>(at[2] / 8));
    return all;
}

// Whether a block is as it was written and answers one query of what it holds: bits whose every third is a 1 bit,
// squares, ..
static bool is_right(std::size_t kind, const Words &block)
{
    switch (kind) {
    case 0:
        return bitm::rank_index_view::in(block).check() && bitm::rank_index_view::in(block).select(5) == 15;
    case 1:
        return bitm::sequence_view::in(block).check() && bitm::sequence_view::in(block)[7] == 49;
    case 2:
        return bitm::sparse_bits_view::in(block).check() && bitm::sparse_bits_view::in(block).select(7) == 49;
    case 3:
        return true; // a hash without seeds is found in a file alone, below
    case 4:
        return bitm::seeded_hash_view::in(block).check() && bitm::seeded_hash_view::in(block)(49).value() < 40;
    case 5:
        return bitm::dictionary_view::in(block).check() && bitm::dictionary_view::in(block).find(49).value() < 40;
    case 6:
        return bitm::wavelet_matrix_view::in(block).check() && bitm::wavelet_matrix_view::in(block)[4] == 5;
    case 7:
        return bitm::tree_view::in(block).check() && bitm::tree_view::in(block).parent(3) == 2;
    case 8:
        return bitm::text_index_view::in(block).check() && bitm::text_index_view::in(block).count("ana") == 2;
    case 9:
        return bitm::trie_view::in(block).check() && bitm::trie_view::in(block).find("be") == 3;
    default:
        return bitm::strings_view::in(block).check() && bitm::strings_view::in(block).find("bob").value() < 2;
    }
}

static void hash_of_file(const Words &block)
{
    const std::string path = "version3.block";
    const auto bytes = static_cast<std::streamsize>(8 * block.size());
    std::ofstream(path, std::ios::binary).write(reinterpret_cast<const char *>(block.data()), bytes);
    const bitm::perfect_hash loaded = bitm::perfect_hash::load(path), mapped = bitm::perfect_hash::map(path);
    std::remove(path.c_str());
    for (const bitm::perfect_hash *h : {&loaded, &mapped}) MUST(h->check() && h->size() == 40 && (*h)(49).value() < 40);
}

int main(int argc, char **argv)
{
    MUST(argc == 2);
    std::vector<Words> all = blocks_in(argv[1]);
    MUST(all.size() == kinds);
    for (std::size_t kind = 0; kind < kinds; kind++) {
        Words &block = all[kind], longer(bitm::extended_size(block, bitm::own_role, 4));
        MUST(block[0] >> 56 == 3 && is_right(kind, block));
        bitm::extend(block, bitm::own_role, 4, Words{0x65746f6e}, longer);
        MUST(longer[0] >> 56 == 4 && is_right(kind, longer));
        if (kind == 3) hash_of_file(block), hash_of_file(longer);
        block[0] += u64{1} << 56; // the checksums are those of the other version
        MUST(!bitm::is_written(block));
    }
    std::puts("C++: blocks of version 3 are read, checked and queried, and extended as blocks of version 4");
}
