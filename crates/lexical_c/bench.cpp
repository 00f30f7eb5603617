// Prints how long the library takes beside std::to_chars, snprintf, and {fmt} if it is there, in nanoseconds per
// number: the best of 100 interleaved passes over 10,000 random numbers, which are shifted right so that each length in
// bits is about as frequent. Their order is random, since a processor learns to predict lengths that follow a pattern.
// {fmt} has format strings that are compiled (FMT_COMPILE), and in the first row fmt::format_int, which writes to a
// buffer of its own.
#include <lexical.h>

#include <algorithm>
#include <charconv>
#include <chrono>
#include <cinttypes>
#include <cstdio>
#include <functional>
#include <random>
#include <vector>
#if __has_include(<fmt/compile.h>)
#define FMT_HEADER_ONLY
#include <fmt/compile.h>
#define FMT(type, text) \
    timed([](uint64_t value) { \
        return size_t(fmt::format_to(buffer, FMT_COMPILE(text), static_cast<type>(value)) - buffer); \
    })
#else
#define FMT(type, text) nullptr
#endif
#define PRINTF(type, format) \
    timed([](uint64_t value) { return size_t(std::snprintf(buffer, sizeof buffer, format, static_cast<type>(value))); })
// A template or a function that returns the length of what it writes.
#define TIMED(...) timed([](uint64_t value) { return __VA_ARGS__(value); })

namespace {

char buffer[LEXICAL_BUFFER_SIZE];

// Returns the nanoseconds that each of these numbers takes.
using Pass = std::function<double(const std::vector<uint64_t> &)>;

// Returns a pass of a writer. What a header has is inlined in the loop, as it is in programs. The text is read.
template <typename Writer>
Pass timed(Writer writer)
{
    return [writer](const std::vector<uint64_t> &numbers) {
        using clock = std::chrono::steady_clock;
        auto start = clock::now();
        for (uint64_t number : numbers) {
            size_t count = writer(number);
            asm volatile("" : : "r"(buffer), "r"(count) : "memory");
        }
        std::chrono::duration<double, std::nano> taken = clock::now() - start;
        return taken.count() / static_cast<double>(numbers.size());
    };
}

template <typename T>
size_t decimal(uint64_t value)
{
    return lexical_decimal(static_cast<T>(value), buffer, sizeof buffer);
}

template <unsigned radix, unsigned lowercase, unsigned group_size = 0, size_t size = sizeof buffer>
size_t lexical(uint64_t value)
{
    static const lexical_format format = { radix, 0, group_size, ',', lowercase, { 0, 0 } };
    return lexical_write(value, &format, buffer, size);
}

size_t with_sign(uint64_t value)
{
    static const lexical_format format = { 10, 1, 0, 0, 0, { 0, 0 } };
    return lexical_write(static_cast<int32_t>(value), &format, buffer, sizeof buffer);
}

template <int radix, typename T = uint64_t>
size_t to_chars(uint64_t value)
{
    return size_t(std::to_chars(buffer, buffer + sizeof buffer, static_cast<T>(value), radix).ptr - buffer);
}

// A radix that the compiler does not know.
template <int radix>
int variable()
{
    static volatile int variable = radix;
    return variable;
}

template <int radix>
size_t lexical_in_variable(uint64_t value)
{
    const lexical_format format = { static_cast<uint32_t>(variable<radix>()), 0, 0, 0, 1, { 0, 0 } };
    return lexical_write(value, &format, buffer, sizeof buffer);
}

template <int radix>
size_t to_chars_in_variable(uint64_t value)
{
    return size_t(std::to_chars(buffer, buffer + sizeof buffer, value, variable<radix>()).ptr - buffer);
}

#if __has_include(<fmt/compile.h>)
size_t format_int(uint64_t value)
{
    fmt::format_int text(value);
    asm volatile("" : : "r"(text.data()) : "memory");
    return text.size();
}

size_t group_digits(uint64_t value)
{
    return size_t(fmt::format_to(buffer, FMT_COMPILE("{}"), fmt::group_digits(value)) - buffer);
}
const Pass pass_of_format_int = TIMED(format_int), pass_of_group_digits = TIMED(group_digits);
#else
const Pass pass_of_format_int = nullptr, pass_of_group_digits = nullptr;
#endif

struct Row {
    const char *name;
    const std::vector<uint64_t> &numbers;
    Pass passes[4];
    double best[4];
};

}  // namespace

int main()
{
    // Numbers of 1 to 64 bits, and positive and negative ones of 1 to 31 bits.
    std::vector<uint64_t> u64, i32;
    uint64_t state = 0;
    for (int i = 0; i < 10000; i++) {
        uint64_t mixed = state += 0x9e3779b97f4a7c15u;
        mixed = (mixed ^ (mixed >> 30)) * 0xbf58476d1ce4e5b9u;
        mixed = (mixed ^ (mixed >> 27)) * 0x94d049bb133111ebu;
        mixed ^= mixed >> 31;
        u64.push_back(mixed >> (i % 64));
        uint64_t magnitude = mixed >> (33 + i % 31);
        i32.push_back(mixed % 2 == 0 ? magnitude : -magnitude);
    }
    for (auto numbers : { &u64, &i32 }) std::shuffle(numbers->begin(), numbers->end(), std::mt19937_64());
    Row rows[] = {
        { "`u64`, `lexical_decimal`", u64,
          { TIMED(decimal<uint64_t>), TIMED(to_chars<10>), PRINTF(uint64_t, "%" PRIu64), pass_of_format_int }, {} },
        { "`u64`, radix 10", u64,
          { TIMED(lexical<10, 0>), TIMED(to_chars<10>), PRINTF(uint64_t, "%" PRIu64), FMT(uint64_t, "{}") }, {} },
        { "`u64`, radix 2", u64, { TIMED(lexical<2, 0>), TIMED(to_chars<2>), nullptr, FMT(uint64_t, "{:b}") }, {} },
        { "`u64`, radix 8", u64,
          { TIMED(lexical<8, 0>), TIMED(to_chars<8>), PRINTF(uint64_t, "%" PRIo64), FMT(uint64_t, "{:o}") }, {} },
        { "`u64`, radix 16", u64,
          { TIMED(lexical<16, 0>), nullptr, PRINTF(uint64_t, "%" PRIX64), FMT(uint64_t, "{:X}") }, {} },
        { "`u64`, radix 16, lowercase", u64,
          { TIMED(lexical<16, 1>), TIMED(to_chars<16>), PRINTF(uint64_t, "%" PRIx64), FMT(uint64_t, "{:x}") }, {} },
        { "`u64`, radix 16, buffer of 24 bytes", u64,
          { TIMED(lexical<16, 0, 0, 24>), nullptr, PRINTF(uint64_t, "%" PRIX64), FMT(uint64_t, "{:X}") }, {} },
        { "`u64`, groups of 3", u64, { TIMED(lexical<10, 0, 3>), nullptr, nullptr, pass_of_group_digits }, {} },
        { "`u64`, radix 36", u64, { TIMED(lexical<36, 0>), nullptr, nullptr, nullptr }, {} },
        { "`u64`, radix 36, lowercase", u64, { TIMED(lexical<36, 1>), TIMED(to_chars<36>), nullptr, nullptr }, {} },
        { "`u64`, radix 36, lowercase, in a variable", u64,
          { TIMED(lexical_in_variable<36>), TIMED(to_chars_in_variable<36>), nullptr, nullptr }, {} },
        { "`u64`, radix 16, lowercase, in a variable", u64,
          { TIMED(lexical_in_variable<16>), TIMED(to_chars_in_variable<16>), nullptr, nullptr }, {} },
        { "`u64`, radix 7, in a variable", u64,
          { TIMED(lexical_in_variable<7>), TIMED(to_chars_in_variable<7>), nullptr, nullptr }, {} },
        { "`u64`, radix 4, in a variable", u64,
          { TIMED(lexical_in_variable<4>), TIMED(to_chars_in_variable<4>), nullptr, nullptr }, {} },
        { "`i32`, `lexical_decimal`", i32,
          { TIMED(decimal<int32_t>), TIMED(to_chars<10, int32_t>), PRINTF(int32_t, "%" PRId32), FMT(int32_t, "{}") }, {} },
        { "`i32`, with a `+`", i32,
          { TIMED(with_sign), nullptr, PRINTF(int32_t, "%+" PRId32), FMT(int32_t, "{:+}") }, {} },
    };
    for (int pass = 0; pass < 100; pass++)
        for (Row &row : rows)
            for (int i = 0; i < 4; i++) {
                double taken = row.passes[i] == nullptr ? 0 : row.passes[i](row.numbers);
                if (pass == 0 || taken < row.best[i]) row.best[i] = taken;
            }
    std::puts("| number and format | lexical | `to_chars` | `snprintf` | {fmt} |\n|---|---|---|---|---|");
    for (const Row &row : rows) {
        std::printf("| %s |", row.name);
        for (double best : row.best) best == 0 ? std::printf(" - |") : std::printf(" %.1f |", best);
        std::puts("");
    }
}
