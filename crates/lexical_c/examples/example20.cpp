// In C++20: a function that returns the text of a number, or nothing.
#include <lexical.h>

#include <cstdint>
#include <iostream>
#include <optional>
#include <span>
#include <string_view>

// Writes a number to the start of the buffer and returns its text, or nothing if it is refused.
std::optional<std::string_view> write(std::uint32_t value, const lexical_format &format,
                                      std::span<char> buffer)
{
    std::size_t count = lexical_write_u32(value, &format, buffer.data(), buffer.size());
    if (count == 0)
        return std::nullopt;
    return std::string_view(buffer.data(), count);
}

int main()
{
    char buffer[LEXICAL_BUFFER_SIZE_U32];
    auto text = write(1234567, { .radix = 10, .group_size = 3, .mark = ',' }, buffer);
    if (!text)
        return 1;
    std::cout << *text << '\n';
}
