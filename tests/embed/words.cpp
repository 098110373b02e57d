// Reads a file whose lines are as those of `c/header.out`, a name, a number and its words, and prints each with the words that the class
// gives it.
#include <cstdint>
#include <fstream>
#include <iostream>
#include <string>

#include "../../examples/embed/cpp/ipxr.hpp"

int main(int count, char **arguments)
{
    std::ifstream lines(count > 1 ? arguments[1] : "");
    std::string name, words;
    std::int32_t number;
    while (lines >> name >> number && std::getline(lines, words))
        std::cout << name << " " << number << " " << ipx::word(number) << "\n";
    return 0;
}
