// Stored and mapped: an index is saved; mapped again, checked and queried where it lies.
#include <bitm.hpp>
#include <iostream>

int main(int argc, char **argv)
{
    if (argc != 2) return 2;
    const bitm::rank_index made = bitm::rank_index::build(100000, {}, [](bitm::words_out words) {
        for (std::uint64_t i = 0; i * i < 100000; i++) bitm_set_bit_at(words.data(), i * i, true); // the square numbers
    });
    made.save(argv[1]);

    const auto squares = bitm::rank_index::try_map(argv[1], bitm::verify::yes);
    if (!squares) return std::cerr << squares.error().text() << '\n', 1;
    std::cout << squares->size() << " bits in " << squares->bytes().size() << " bytes, " << squares->rank(50000)
              << " squares below 50000\n";
}
