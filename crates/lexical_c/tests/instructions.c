/*
 * Calls the library with numbers of every length, in cells of a type and a format. Each cell is a function, such as
 * cell_u8_16_lowercase, so callgrind counts its instructions. `instruction_limits` has a limit for each cell.
 * tests/library.sh compiles this file with -DNUMBERS=.., which is how many numbers a cell writes.
 */
#include "types.h"

#include <lexical.h>

static const struct lexical_format format_2 = LEXICAL_RADIX(2), format_10 = LEXICAL_RADIX(10),
    format_16 = LEXICAL_RADIX(16), format_16_lowercase = FORMAT(16, 0, 0, 0, 1),
    format_36 = LEXICAL_RADIX(36), format_36_lowercase = FORMAT(36, 0, 0, 0, 1);

#define FOR_EACH_FORMAT(X, name, type)                                         \
    X(name, type, 2) X(name, type, 10) X(name, type, 16) X(name, type, 36)     \
    X(name, type, 16_lowercase) X(name, type, 36_lowercase)
#define FOR_EACH_CELL(X)                                                       \
    FOR_EACH_FORMAT(X, u8, uint8_t)                                            \
    FOR_EACH_FORMAT(X, u32, uint32_t)                                          \
    FOR_EACH_FORMAT(X, u64, uint64_t)                                          \
    FOR_EACH_FORMAT(X, i64, int64_t)

#define DEFINE_CELL(name, type, format)                                        \
    __attribute__((noinline)) static size_t cell_##name##_##format(const uint64_t *numbers) \
    {                                                                          \
        char buffer[128];                                                      \
        size_t written = 0;                                                    \
        for (int i = 0; i < NUMBERS; i++)                                      \
            written += lexical_write_##name((type)numbers[i], &format_##format, buffer, sizeof buffer); \
        return written;                                                        \
    }
FOR_EACH_CELL(DEFINE_CELL)

#define ROW(name, type, format) { cell_##name##_##format, 8 * sizeof(type) },
static const struct cell {
    size_t (*write)(const uint64_t *);
    size_t bits;
} CELLS[] = { FOR_EACH_CELL(ROW) };

int main(void)
{
    static uint64_t numbers[NUMBERS];
    size_t written = 0, count = sizeof CELLS / sizeof CELLS[0];
    for (const struct cell *cell = CELLS; cell < CELLS + count; cell++) {
        uint64_t random = 1;
        for (size_t i = 0; i < NUMBERS; i++) {
            random = random * 6364136223846793005u + 1442695040888963407u;
            numbers[i] = random >> (64 - cell->bits + i % cell->bits);
        }
        written += cell->write(numbers);
    }
    return written < count * NUMBERS;
}
