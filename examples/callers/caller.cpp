// Reads a sheet on standard input and prints what the program prints for it.
#include <iostream>
#include <iterator>
#include <vector>

#include "thunyaworm.h"

int main()
{
    std::vector<uint8_t> sheet(std::istreambuf_iterator<char>(std::cin), {});
    std::vector<uint8_t> room(THUNYAWORM_ROOM);
    size_t printed = thunyaworm_print(sheet.data(), sheet.size(), 1000000, room.data(), room.size());
    std::cout.write(reinterpret_cast<char *>(room.data()), printed);
}
