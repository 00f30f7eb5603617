// In C++17: sets the fields of a copy of the standard format.
#include <lexical.h>

#include <iostream>
#include <string_view>

int main()
{
    lexical_format format = lexical_standard_format;
    format.group_size = 3;
    format.mark = ',';
    char buffer[LEXICAL_BUFFER_SIZE];
    std::size_t count = lexical_write(1234567, format, buffer, sizeof buffer);
    if (count == 0)
        return 1;
    std::cout << std::string_view(buffer, count) << '\n';
    count = lexical_write(-1234, LEXICAL_RADIX(16), buffer, sizeof buffer);
    if (count == 0)
        return 1;
    std::cout << std::string_view(buffer, count) << '\n';
}
