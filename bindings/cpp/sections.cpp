// Sections of one's own in blocks in C++: what is added is there, what was there stays, and what is refused is named.
#include "blocks.hpp"

static Words with(const Words &block, u64 role, u64 count, const Words &words)
{
    Words to(bitm::extended_size(block, role, count));
    bitm::extend(block, role, count, words, to);
    return to;
}

static Words block_of(const bitm::tree &t) { return Words(t.block().begin(), t.block().end()); }

static void added()
{
    for (u64 count = 0; count < 40; count++) {
        const bitm::tree t{2, 0, 1, 0};
        const Words block = block_of(t);
        Words words((count + 7) / 8);
        for (u64 &it : words) it = draw();
        const Words longer = with(block, bitm::own_role, count, words);
        MUST(bitm::is_written(longer) && bitm::tree_view::in(longer).parent(3) == maybe_position(2));
        const auto section = bitm::section_at(longer, 4).value();
        MUST(section.role == bitm::own_role && section.count == count && section.words.size() == words.size());
        MUST(std::equal(words.begin(), words.end(), section.words.begin()) && !bitm::section_at(longer, 5));
        for (std::size_t i = 0; i < 4; i++) {
            const auto was = bitm::section_at(block, i).value(), is = bitm::section_at(longer, i).value();
            MUST(was.role == is.role && was.count == is.count);
            MUST(std::equal(was.words.begin(), was.words.end(), is.words.begin(), is.words.end()));
        }
    }
}

static void refused()
{
    const Words block = block_of(bitm::tree{2, 0, 1, 0}), two(2), three(3);
    Words to(bitm::extended_size(block, bitm::own_role, 16)), spoiled = block;
    MUST(throws<std::invalid_argument>([&] { bitm::extend(block, bitm::own_role, 16, three, to); }));
    MUST(throws<std::invalid_argument>([&] { bitm::extend(block, bitm::own_role, 16, two, {to.data(), 8}); }));
    MUST(!bitm::try_extended_size(block, 9, u64{1} << 58));
    spoiled[32] ^= 1;
    MUST(!bitm::is_written(spoiled) && bitm::try_extended_size(spoiled, 9, 1));
    MUST(throws<bitm::wrong_file>([&] { bitm::extend(spoiled, bitm::own_role, 16, two, to); }));
    spoiled[1] ^= 1;
    MUST(bitm::try_extended_size(spoiled, 9, 1).error().code == bitm::errc::wrong_file);
    MUST(bitm::try_section_at(spoiled, 0).error().code == bitm::errc::wrong_file);
    MUST(throws<bitm::wrong_file>([&] { (void)bitm::section_at(two, 0); }));
    MUST(std::count(to.begin(), to.end(), u64{0}) == static_cast<std::ptrdiff_t>(to.size()));
    bitm::extend(block, bitm::own_role, 16, two, to);
    MUST(bitm::is_written(to));
}

// What is written overlaps what is read.
static void overlapping()
{
    const Words block = block_of(bitm::tree{2, 0, 1, 0}), two{1, 2};
    Words to(bitm::extended_size(block, bitm::own_role, 16)), all(2 * to.size());
    std::copy(block.begin(), block.end(), all.begin());
    const bitm::words_in own(all.data(), block.size()), last(all.data() + all.size() - 2, 2);
    for (std::size_t at = 0; at <= all.size() - to.size(); at++) {
        const bitm::words_out here(all.data() + at, to.size());
        const bool is_apart = at >= block.size(), has_words = at + to.size() > all.size() - 2;
        if (!is_apart) MUST(throws<std::invalid_argument>([&] { bitm::extend(own, bitm::own_role, 16, two, here); }));
        if (has_words)
            MUST(throws<std::invalid_argument>([&] { bitm::extend(block, bitm::own_role, 16, last, here); }));
    }
    MUST(bitm::is_written(own) && last[0] == 0 && last[1] == 0);
    bitm::extend(own, bitm::own_role, 16, two, {all.data() + to.size(), to.size()});
    MUST(bitm::is_written({all.data() + to.size(), to.size()}));
}

// A block has 16 sections at most; what was moved from has none.
static void sixteen()
{
    Words block = block_of(bitm::tree{2, 0, 1, 0});
    for (u64 i = 4; i < 16; i++) block = with(block, bitm::own_role + i, 3, Words{i});
    MUST(bitm::is_written(block) && bitm::tree_view::in(block).check() && bitm::tree_view::in(block).size() == 4);
    for (u64 i = 4; i < 16; i++)
        MUST(bitm::section_at(block, i)->role == bitm::own_role + i && bitm::section_at(block, i)->words[0] == i);
    MUST(!bitm::section_at(block, 16) && !bitm::section_at(block, ~std::size_t{}));
    MUST(bitm::try_extended_size(block, bitm::own_role, 3).error().code == bitm::errc::bad_size);
    MUST(throws<std::invalid_argument>([&] { (void)with(block, bitm::own_role, 3, Words(1)); }));
    bitm::tree t{2, 0, 1, 0}, moved = std::move(t);
    MUST(bitm::try_extended_size(t.block(), 9, 1).error().code == bitm::errc::wrong_file);
    MUST(bitm::try_section_at(t.block(), 0).error().code == bitm::errc::wrong_file && !bitm::is_written(t.block()));
    MUST(bitm::is_written(moved.block()) &&
         throws<bitm::wrong_file>([&] { (void)bitm::extended_size(t.block(), 9, 1); }));
}

// Each owner of a block is a block that takes sections.
template <class Owner> static void opens(const Owner &owner)
{
    const Words block(owner.block().begin(), owner.block().end()), noted = with(block, bitm::own_role, 8, Words{7});
    MUST(bitm::is_written(block) && bitm::is_written(noted) && noted.size() > block.size());
    MUST(decltype(owner.view())::in(noted).size() == owner.size() && decltype(owner.view())::in(noted).check());
}

int main()
{
    added();
    refused();
    overlapping();
    sixteen();
    opens(bitm::trie::of_words({"a", "b", "be"})), opens(bitm::wavelet_matrix{3, 1, 4}), opens(bitm::tree{1, 0});
    const Words few{3, 100};
    opens(bitm::sparse_bits(few, 5000));
    std::puts("C++: sections are added to a block, and those of before stay");
    return 0;
}
