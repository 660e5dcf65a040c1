// What `<<` writes of each owner and view: its name and its numbers, by the same names and in the same order as in the
// other languages; of bits, indexes and sequences what they hold.
#include "blocks.hpp"

template <class It> static std::string text_of(const It &it)
{
    std::ostringstream to;
    std::wostringstream wide;
    to << it, wide << it;
    const std::wstring same = wide.str();
    MUST(std::string(same.begin(), same.end()) == to.str());
    return to.str();
}

// An owner and a view say the same, and one that was moved from says that it has nothing.
template <class Owner> static void shows(Owner it, const std::string &text, const std::string &nothing)
{
    MUST(text_of(it) == text && text_of(it.view()) == text);
    const Owner moved = std::move(it);
    MUST(text_of(moved) == text && text_of(it) == nothing && text_of(Owner()) == nothing);
}

int main()
{
    const Words hashes{5, 7};
    shows(bitm::sparse_bits({3, 7}, u64{1} << 40), "sparse_bits(bits=1099511627776, ones=2)",
          "sparse_bits(bits=0, ones=0)");
    shows(bitm::seeded_hash(hashes), "seeded_hash(keys=2)", "seeded_hash(keys=0)");
    shows(bitm::key_hash{"ada", "bob"}, "key_hash(keys=2)", "key_hash(keys=0)");
    shows(bitm::dictionary{4}, "dictionary(keys=1)", "dictionary(keys=0)");
    shows(bitm::strings{"ada", "bob"}, "strings(strings=2)", "strings(strings=0)");
    shows(bitm::tree{2, 0, 0}, "tree(nodes=3)", "tree(nodes=0)");
    shows(bitm::trie::of_words({"ab"}), "trie(nodes=3, width=8)", "trie(nodes=0, width=1)");
    shows(bitm::wavelet_matrix{3, 1, 4}, "wavelet_matrix(numbers=3, width=3)", "wavelet_matrix(numbers=0, width=1)");
    shows(bitm::text_index("banana"), "text_index(letters=6, width=2)", "text_index(letters=0, width=1)");
    MUST(text_of(bitm::perfect_hash(bitm::words_in(hashes))) == "perfect_hash(keys=2)");
    MUST(text_of(bitm::bits("0101")) == "0101" && text_of(bitm::rank_index(bitm::bits("0101"))) == "0101");
    const bitm::sequence numbers{2, 3};
    bitm::cursor at(numbers);
    MUST(text_of(numbers) == "[2, 3]" && text_of(at) == "cursor(index=0, number=2)");
    while (at) at.next();
    MUST(text_of(at) == "cursor(index=2, number=none)" && text_of(bitm::cursor()) == "cursor(index=0, number=none)");
    const bitm::rank_index index(bitm::bits("0101"));
    MUST(text_of(bitm::sharded_index({index.view(), index.view()})) == "sharded_index(bits=8, ones=4, shards=2)");
    MUST(text_of(bitm::sharded_index()) == "sharded_index(bits=0, ones=0, shards=0)");
    std::puts("shown: ok");
    return 0;
}
