// Posting lists: which documents hold both of two words, and the first from a number on.
#include <bitm.hpp>
#include <iostream>

int main()
{
    const bitm::sequence rank{3, 17, 40, 99}, select{1, 3, 8, 40, 41, 57, 80};
    std::cout << "both words:";
    bitm::intersect(rank, select, [](std::uint64_t document) { std::cout << ' ' << document; });
    std::cout << '\n';
}
