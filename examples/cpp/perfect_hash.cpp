// Perfect hash: values by key in an array without gaps, with no key kept.
#include <bitm.hpp>
#include <functional>
#include <iostream>
#include <string>
#include <vector>

int main()
{
    const std::vector<std::string> keys = {"zero", "one", "two", "three", "four"};
    const std::hash<std::string> hash;
    const bitm::perfect_hash numbers(keys.begin(), keys.end(), hash);
    std::vector<std::size_t> values(numbers.size());
    for (std::size_t i = 0; i < keys.size(); i++) values[numbers(hash(keys[i])).value()] = i;
    for (const std::string key : {"three", "one"}) std::cout << key << ": " << values[numbers(hash(key)).value()] << '\n';
}
