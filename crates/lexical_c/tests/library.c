/*
 * Calls each function of the library as a C program does, and compares the results with a simple conversion in this
 * file, which is compared with snprintf and with a table. Each buffer is next to a page that may not be accessed, and
 * its bytes differ from call to call, so a result that depends on them is told. The first failure ends the program.
 */
#define _DEFAULT_SOURCE
#include "lexical.h"
#include "types.h"

#include <ctype.h>
#include <inttypes.h>
#include <stdarg.h>
#include <stdbool.h>
#include <stdio.h>
#include <stdlib.h>
#include <string.h>
#include <sys/mman.h>
#include <unistd.h>

/* Ends the program if a check fails, with what the caller says of it. */
static void check(bool is_good, const char *what, ...)
{
    if (is_good)
        return;
    va_list arguments;
    va_start(arguments, what);
    printf("failed: ");
    vprintf(what, arguments);
    exit(EXIT_FAILURE);
}

static uint64_t next_random(void)
{
    static uint64_t random;
    random = random * 6364136223846793005u + 1442695040888963407u;
    return random ^ random >> 32;
}

/* A type: its name, its sizes, and a call of each of its functions, which take the bits of a number. */
enum function { DECIMAL, WRITE, LENGTH, BUFFER_SIZE };
struct type {
    const char *name;
    bool is_signed;
    unsigned bits;
    size_t size, decimal_size;
    size_t (*call)(enum function, uint64_t, const struct lexical_format *, char *, size_t);
};

#define DEFINE_CALL(NAME, CONSTANT, TYPE)                                      \
    static size_t call_##NAME(enum function function, uint64_t bits, const struct lexical_format *format, \
                              char *buffer, size_t length)                     \
    {                                                                          \
        return function == DECIMAL ? lexical_decimal_##NAME((TYPE)bits, buffer, length) \
            : function == WRITE    ? lexical_write_##NAME((TYPE)bits, format, buffer, length) \
            : function == LENGTH   ? lexical_length_##NAME((TYPE)bits, format) \
                                   : lexical_buffer_size_##NAME(format);       \
    }
FOR_EACH_TYPE(DEFINE_CALL)

#define ROW(NAME, CONSTANT, TYPE)                                              \
    { #NAME, (TYPE)-1 < 1, 8 * sizeof(TYPE), LEXICAL_BUFFER_SIZE_##CONSTANT, LEXICAL_BUFFER_SIZE_DECIMAL_##CONSTANT, \
      call_##NAME },
static const struct type TYPES[] = { FOR_EACH_TYPE(ROW) };
#define TYPE_COUNT (sizeof TYPES / sizeof TYPES[0])
enum { U8, U16, U32, U64, SIZE, I8, I16, I32, I64 };

static uint64_t largest_bits(const struct type *type) { return UINT64_MAX >> (64 - type->bits); }

/* Returns the text of a number in a valid format, which it builds from the last digit to the first. */
static const char *plain_text(const struct type *type, uint64_t bits, const struct lexical_format *format)
{
    const char *digit_chars = format->lowercase == 0 ? "0123456789ABCDEFGHIJKLMNOPQRSTUVWXYZ"
                                                     : "0123456789abcdefghijklmnopqrstuvwxyz";
    bool is_negative = type->is_signed && bits >> (type->bits - 1) == 1;
    uint64_t rest = is_negative ? (0 - bits) & largest_bits(type) : bits;
    static char text[160];
    char *start = text + sizeof text - 1;
    size_t digits = 0;
    do {
        if (format->group_size != 0 && digits != 0 && digits % format->group_size == 0)
            *--start = (char)format->mark;
        *--start = digit_chars[rest % format->radix];
        digits++;
        rest /= format->radix;
    } while (rest != 0);
    if (is_negative || format->required_sign != 0)
        *--start = is_negative ? '-' : '+';
    return start;
}

/* Two pages, each between memory that may not be accessed. */
static size_t page_size;
static char *buffers, *formats;

/* Maps memory of this size, of which only the page with this offset may be accessed, and returns the page. */
static char *new_page(size_t size, size_t offset)
{
    char *map = (char *)mmap(NULL, size, PROT_NONE, MAP_PRIVATE | MAP_ANONYMOUS | MAP_NORESERVE, -1, 0);
    if (map == (char *)MAP_FAILED || mprotect(map + offset, page_size, PROT_READ | PROT_WRITE) != 0) {
        perror("failed: memory");
        exit(EXIT_FAILURE);
    }
    return map + offset;
}

/*
 * Checks that a call writes the text to the start of a buffer of `length` bytes and changes no other byte, or returns 0
 * if the text does not fit or is empty. The buffer and the format are each next to a page that may not be accessed,
 * before or after them. This side and the bytes vary from call to call.
 */
static void check_writer(const struct type *type, enum function function, uint64_t bits,
                         const struct lexical_format *format, size_t length, const char *text)
{
    static const int BEFORE[] = { 0x5a, 0xff, 0x00, '7' };
    char bytes[192];
    size_t wanted = strlen(text) <= length ? strlen(text) : 0;
    uint64_t random = next_random();
    bool at_end = random >> 63 == 1;
    char *around = at_end ? buffers + page_size - sizeof bytes : buffers;
    size_t offset = at_end ? sizeof bytes - length : 0;
    char *copy = at_end ? formats : formats + page_size - sizeof *format;
    memset(bytes, BEFORE[random >> 61 & 3], sizeof bytes);
    memcpy(around, bytes, sizeof bytes);
    memcpy(bytes + offset, text, wanted);
    memcpy(copy, format, sizeof *format);
    size_t count = type->call(function, bits, (const struct lexical_format *)copy, around + offset, length);
    bool is_same = memcmp(around, bytes, sizeof bytes) == 0 && memcmp(copy, format, sizeof *format) == 0;
    check(count == wanted && is_same, "%s of %016" PRIx64 " in %zu bytes: %zu, %.*s; format %u, %u, %u, %u, %u\n",
          type->name, bits, length, count, (int)length, around + offset, format->radix, format->required_sign,
          format->group_size, format->mark, format->lowercase);
}

/* Returns what lexical_check_format is to return. */
static uint32_t invalid_field(const struct lexical_format *format)
{
    uint32_t mark = format->mark;
    if (format->radix < 2 || format->radix > 36)
        return LEXICAL_INVALID_RADIX;
    if (format->group_size > 64)
        return LEXICAL_INVALID_GROUP_SIZE;
    if (format->group_size != 0 && (mark < 32 || mark > 126 || mark == '+' || mark == '-' || isalnum((int)mark)))
        return LEXICAL_INVALID_GROUP_MARK;
    return format->reserved[0] != 0 || format->reserved[1] != 0 ? LEXICAL_INVALID_RESERVED : 0;
}

/* Returns the buffer size: in radix 10 the decimal size, separators and a required sign, otherwise a constant. */
static size_t size_of(const struct type *type, const struct lexical_format *format)
{
    size_t digits = type->decimal_size;
    size_t marks = format->group_size == 0 ? 0 : (digits - 1) / format->group_size;
    return format->radix != 10 ? type->size : digits + marks + (format->required_sign != 0);
}

/*
 * Checks each function with a number in a format. It is written to buffers of the length of the text, of the size of
 * the type, from which on the library writes in another way, and of one byte less than each; or of every length.
 */
static void check_number(const struct type *type, uint64_t bits, const struct lexical_format *format, bool every_length)
{
    uint32_t reason = invalid_field(format);
    const char *text = reason == 0 ? plain_text(type, bits, format) : "";
    size_t count = strlen(text), size = reason == 0 ? size_of(type, format) : 0;
    check(lexical_check_format(format) == reason, "lexical_check_format\n");
    check(type->call(LENGTH, bits, format, NULL, 0) == count, "lexical_length_%s\n", type->name);
    check(type->call(BUFFER_SIZE, bits, format, NULL, 0) == size, "lexical_buffer_size_%s\n", type->name);
    for (size_t length = 0; length <= LEXICAL_BUFFER_SIZE; length++) {
        bool is_short = length + 1 == count || length + 1 == size;
        if (!every_length && !is_short && length != count && length != size && length != LEXICAL_BUFFER_SIZE)
            continue;
        check_writer(type, WRITE, bits, format, length, text);
        if (memcmp(format, &lexical_standard_format, sizeof *format) == 0)
            check_writer(type, DECIMAL, bits, format, length, text);
    }
}

/* Checks a number, its neighbours, and the negative ones. */
static void check_around(const struct type *type, uint64_t number, const struct lexical_format *format)
{
    for (uint64_t bits = number - 1; bits != number + 2; bits++) {
        check_number(type, bits & largest_bits(type), format, false);
        check_number(type, (0 - bits) & largest_bits(type), format, false);
    }
}

/* Checks in every radix numbers around 0, the ends of the type and powers of the radix, and all of 8 and 16 bits. */
static void check_radices(void)
{
    static const uint32_t SIZES[] = { 0, 1, 2, 3, 4, 5, 7, 8, 63, 64 };
    for (size_t t = 0; t < TYPE_COUNT; t++)
        for (uint32_t radix = 2; radix <= 36; radix++)
            for (uint32_t kind = 0; kind < 8; kind++) {
                uint32_t group_size = kind < 4 ? 0 : SIZES[(radix + kind) % 10];
                uint32_t mark = kind % 3 == 0 ? ' ' : '_';
                struct lexical_format format = FORMAT(radix, kind % 2, group_size, mark, kind / 2 % 2);
                uint64_t largest = largest_bits(&TYPES[t]), power = 1;
                check_around(&TYPES[t], largest / 2, &format);
                check_around(&TYPES[t], 1, &format);
                while (power <= largest / radix)
                    check_around(&TYPES[t], power *= radix, &format);
                for (unsigned shift = 0; shift < 64; shift += 9)
                    check_number(&TYPES[t], (UINT64_MAX / 3 * 2 >> shift) & largest, &format, false);
                for (uint64_t bits = 0; kind == 0 && TYPES[t].bits <= 16 && bits <= largest; bits++)
                    check_number(&TYPES[t], bits, &format, false);
            }
}

/* Checks that the conversion of this file and the library write this text. */
static void check_text(size_t type, uint64_t bits, struct lexical_format format, const char *text)
{
    check(strcmp(plain_text(&TYPES[type], bits, &format), text) == 0, "%s\n", text);
    check_number(&TYPES[type], bits, &format, false);
}

/* Checks it against snprintf, and against texts that are written here. */
static void check_conversion(void)
{
    static const uint32_t RADICES[] = { 8, 10, 16, 16, 10 };
    static const char *const PATTERNS[] = { "%" PRIo64, "%" PRIu64, "%" PRIX64, "%" PRIx64, "%" PRId64 };
    for (int i = 0; i < 100000; i++) {
        uint64_t bits = next_random() >> (i % 64);
        struct lexical_format format = FORMAT(RADICES[i % 5], 0, 0, 0, i % 5 == 3);
        char text[160];
        snprintf(text, sizeof text, PATTERNS[i % 5], bits);
        check_text(i % 5 == 4 ? I64 : U64, bits, format, text);
    }
#define CHECK_TEXT(type, bits, radix, sign, group_size, mark, lowercase, text) \
    check_text(type, bits, (struct lexical_format)FORMAT(radix, sign, group_size, mark, lowercase), text);
    CHECK_TEXT(I32, (uint32_t)-1234567, 10, 0, 3, ',', 0, "-1,234,567")
    CHECK_TEXT(U64, 999, 10, 1, 3, '.', 0, "+999")
    CHECK_TEXT(I8, 128, 2, 0, 4, '_', 0, "-1000_0000")
    CHECK_TEXT(U32, UINT32_MAX, 3, 0, 0, 0, 0, "102002022201221111210")
    CHECK_TEXT(U64, UINT64_MAX, 36, 0, 0, 0, 0, "3W5E11264SGSF")
    CHECK_TEXT(I64, (uint64_t)INT64_MIN, 36, 1, 0, 0, 1, "-1y2p0ij32e8e8")
    CHECK_TEXT(U16, 0xbeef, 16, 1, 2, '_', 1, "+be_ef")
    check(LEXICAL_BUFFER_SIZE == TYPES[U64].size, "LEXICAL_BUFFER_SIZE\n");
}

/* Checks random formats, and each with a field that has another number: a byte, a single bit, or a larger number. */
static void check_formats(void)
{
    static const uint32_t GREAT[] = {
        256 + 3, 256 + 10, 256 + ',', 65536 + 2, 65536 + ',', 0x7fffffff, 0x80000010, 0xffff0000, UINT32_MAX - 3,
        UINT32_MAX,
    };
    for (int round = 0; round < 12; round++)
        for (size_t t = 0; t < TYPE_COUNT; t++)
            for (int field = 0; field < 7; field++)
                for (uint32_t i = 0; i < 256 + 32 + 10; i++) {
                    uint64_t random = next_random(), bits = next_random() & largest_bits(&TYPES[t]);
                    struct lexical_format format = FORMAT(1 + random % 36, random >> 8 & 1, (random >> 16) % 66,
                                                          (uint32_t)" ,._'+"[(random >> 24) % 6], random >> 32 & 1);
                    check_number(&TYPES[t], bits, &format, i % 64 == 3);
                    uint32_t number = i < 256 ? i : i < 288 ? (uint32_t)1 << (i - 256) : GREAT[i - 288];
                    memcpy((char *)&format + 4 * field, &number, 4);
                    check_number(&TYPES[t], bits, &format, i % 64 == 3);
                }
}

/* Checks buffers of more than 4 KiB and of 4 or 1 GiB, of which only the first page may be accessed, and no buffer. */
static void check_long_buffers(void)
{
    static const size_t LENGTHS[] = { 0, 4097, 65536, SIZE_MAX > UINT32_MAX ? SIZE_MAX / UINT32_MAX - 1 : 1 << 30 };
    const struct lexical_format format = FORMAT(36, 0, 0, 0, 0);
    char *map = new_page(LENGTHS[3], 0);
    for (size_t t = 0; t < TYPE_COUNT; t++)
        for (int i = 0; i < 8; i++) {
            char *buffer = i < 2 ? NULL : map;
            map[0] = map[1] = 0;
            size_t count = TYPES[t].call(i % 2 == 0 ? DECIMAL : WRITE, 7, &format, buffer, LENGTHS[i / 2]);
            check(count == strlen(map) && strcmp(map, i < 2 ? "" : "7") == 0, "%zu bytes\n", LENGTHS[i / 2]);
        }
}

#ifdef BY_rustc
/* Checks that a size above PTRDIFF_MAX counts as 0. Only the library that rustc builds promises that. */
static void check_sizes_that_wrapped_around(void)
{
    static const size_t SIZES[] = { SIZE_MAX, SIZE_MAX - 1, (size_t)PTRDIFF_MAX + 1 };
    const struct lexical_format format = FORMAT(36, 0, 0, 0, 0);
    for (int i = 0; i < 3; i++) {
        char text[] = "12345678";
        for (size_t t = 0; t < TYPE_COUNT; t++)
            check(TYPES[t].call(DECIMAL, 7, &format, text, SIZES[i]) == 0
                  && TYPES[t].call(WRITE, 7, &format, text, SIZES[i]) == 0, "a size of %zu\n", SIZES[i]);
        check(lexical_pad(1, 3, text, SIZES[i]) == 0 && lexical_terminate(1, text, SIZES[i]) == 0,
              "an ending in a size of %zu\n", SIZES[i]);
        check(strcmp(text, "12345678") == 0, "a text in a size of %zu\n", SIZES[i]);
    }
}
#endif

/* Checks zeros up to a width, as snprintf writes them, and strings, with buffers of each length. */
static void check_endings(void)
{
    static const int NUMBERS[] = { 7, -42, 2147483647, -1, 0 };
    for (size_t length = 0; length <= 20; length++)
        for (size_t width = 0; width <= 21; width++)
            for (int i = 0; i < 10; i++) {
                char text[32], padded[64], *buffer = buffers + page_size - length;
                size_t count = (size_t)snprintf(text, sizeof text, i < 5 ? "%d" : "%+d", NUMBERS[i % 5]);
                size_t wanted = count > width ? count : width;
                memset(text + count, '#', sizeof text - count);
                memset(padded, '#', sizeof padded);
                snprintf(padded, sizeof padded, i < 5 ? "%0*d" : "%+0*d", (int)width, NUMBERS[i % 5]);
                padded[wanted] = '#';
                memcpy(buffer, text, length);
                size_t result = lexical_pad(count, width, buffer, length);
                bool is_good = wanted <= length ? result == wanted && memcmp(buffer, padded, length) == 0
                                                : result == 0 && memcmp(buffer, text, length) == 0;
                check(is_good, "lexical_pad of %zu bytes to %zu in %zu\n", count, width, length);
                memcpy(buffer, text, length);
                result = lexical_terminate(count, buffer, length);
                wanted = count < length ? count : 0;
                text[wanted] = '\0';
                is_good = result == wanted && memcmp(buffer, text, length) == 0;
                check(is_good, "lexical_terminate of %zu bytes in %zu\n", count, length);
            }
    memset(buffers, '#', 4);
    check(lexical_pad(0, 3, buffers, 4) == 0 && memcmp(buffers, "####", 4) == 0, "lexical_pad of no text\n");
    check(lexical_terminate(0, buffers, 4) == 0 && memcmp(buffers, "\0###", 4) == 0, "lexical_terminate of no text\n");
    check(lexical_pad(1, 1, NULL, 0) == 0 && lexical_terminate(1, NULL, 0) == 0, "no buffer\n");
}

int main(void)
{
    page_size = (size_t)sysconf(_SC_PAGESIZE);
    buffers = new_page(3 * page_size, page_size);
    formats = new_page(3 * page_size, page_size);
    check_radices();
    check_conversion();
    check_formats();
    check_long_buffers();
#ifdef BY_rustc
    check_sizes_that_wrapped_around();
#endif
    check_endings();
    return EXIT_SUCCESS;
}
