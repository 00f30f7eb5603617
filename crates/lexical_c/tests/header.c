/*
 * Compares the header with the library: the type of each function, the examples, and the function that lexical_decimal,
 * lexical_write and lexical_length choose by the type of a value. It is compiled as C99, C++98 and each later standard.
 */
#ifdef __cplusplus
extern "C" {
#include "lexical.h"
}
#endif
#include "lexical.h"
#include "types.h"

#include <stdio.h>
#include <stdlib.h>
#include <string.h>

static void check(int is_right, const char *what)
{
    if (is_right)
        return;
    printf("failed: %s\n", what);
    exit(EXIT_FAILURE);
}

static char buffer[LEXICAL_BUFFER_SIZE];

/* Checks the length and the bytes of the text in the buffer. */
static void check_text(size_t count, const char *wanted)
{
    check(count == strlen(wanted) && memcmp(buffer, wanted, count) == 0, wanted);
}

#ifndef __cplusplus
/* A C function that is inline and not static may use nothing that is static. */
inline size_t length_of_zero(uint32_t radix);
inline size_t length_of_zero(uint32_t radix)
{
    const struct lexical_format format = LEXICAL_RADIX(radix);
    return lexical_length_u32(0, radix == 10 ? &lexical_standard_format : &format);
}
#endif

/*
 * DECLARE: a second declaration of a function, which compiles only if the header has the same type, and in C++11 and
 * later also noexcept. RADIX: the format of a radix as an argument. IN_CXX: a statement that only C++ has. NOEXCEPT:
 * whether a call does not throw.
 */
#ifndef __cplusplus
#define DECLARE(function) function;
#define RADIX(number) &(const struct lexical_format)LEXICAL_RADIX(number)
#define IN_CXX(statement)
#define NOEXCEPT(call) 1
#elif __cplusplus >= 201103L
#define DECLARE(function) extern "C" function noexcept;
#define RADIX(number) LEXICAL_RADIX(number)
#define IN_CXX(statement) statement
#define NOEXCEPT(call) noexcept(call)
#else
#define DECLARE(function)
#define IN_CXX(statement) statement
#define NOEXCEPT(call) 1
#endif
#define DECLARE_EACH(NAME, CONSTANT, TYPE)                                     \
    DECLARE(size_t lexical_decimal_##NAME(TYPE, char *, size_t))               \
    DECLARE(size_t lexical_write_##NAME(TYPE, const struct lexical_format *, char *, size_t)) \
    DECLARE(size_t lexical_length_##NAME(TYPE, const struct lexical_format *)) \
    DECLARE(size_t lexical_buffer_size_##NAME(const struct lexical_format *))
FOR_EACH_TYPE(DECLARE_EACH)
DECLARE(size_t lexical_pad(size_t, size_t, char *, size_t))
DECLARE(size_t lexical_terminate(size_t, char *, size_t))
DECLARE(uint32_t lexical_version(void))
DECLARE(uint32_t lexical_check_format(const struct lexical_format *))

/* Zeros, as the header explains them, and the version as a number and as a string. */
static void check_examples(void)
{
    memcpy(buffer, "0xBEEF", 6);
    check(lexical_pad(6, 129, buffer, 128) == 0, "a width above the buffer");
    check_text(6, "0xBEEF");
    check_text(lexical_pad(6, 8, buffer, sizeof buffer), "000xBEEF");
    sprintf(buffer, "%d.%d.%d", LEXICAL_VERSION_MAJOR, LEXICAL_VERSION_MINOR, LEXICAL_VERSION_PATCH);
    check_text(strlen(buffer), LEXICAL_VERSION_STRING);
    check(lexical_version() == LEXICAL_VERSION, "lexical_version");
}

/* A call reads the format: a compiler does not take the result of an earlier call with the same pointer. */
static void check_changes(void)
{
    struct lexical_format format = LEXICAL_STANDARD_FORMAT;
    size_t length, size;
#define CHECK_CHANGE(NAME, CONSTANT, TYPE)                                     \
    format.radix = 10;                                                         \
    length = lexical_length_##NAME(100, &format), size = lexical_buffer_size_##NAME(&format); \
    format.radix = 2;                                                          \
    check(length == 3 && lexical_length_##NAME(100, &format) == 7, "lexical_length_" #NAME); \
    check(size < lexical_buffer_size_##NAME(&format), "lexical_buffer_size_" #NAME);
    FOR_EACH_TYPE(CHECK_CHANGE)
    check(sizeof format == 28 && lexical_check_format(&format) == 0, "LEXICAL_STANDARD_FORMAT");
    format.radix = 1;
    check(lexical_check_format(&format) == LEXICAL_INVALID_RADIX, "lexical_check_format");
}

/* A constant radix may be that of a static object. */
enum { BINARY = 2 };
static const struct lexical_format octal = LEXICAL_RADIX(8), binary = LEXICAL_RADIX(BINARY);

/*
 * A radix that is no constant may have any integer type, is evaluated once, and is valid or becomes 0, whatever a
 * compiler knows of it.
 */
static void check_radices(void)
{
    static const int INVALID[] = { -1, 0, 1, 37, 74, 266, 2147483647 };
    unsigned char byte = 36;
    uint64_t great = (uint64_t)1 << 32 | 10;
    int64_t negative = -(int64_t)(great - 20);
    int count = 2;
    struct lexical_format base_36 = LEXICAL_RADIX(byte), base_2 = LEXICAL_RADIX(count++);
    struct lexical_format base_great = LEXICAL_RADIX(great), base_negative = LEXICAL_RADIX(negative);
    check(octal.radix == 8 && binary.radix == 2, "a constant radix");
    check(base_36.radix == 36 && base_2.radix == 2 && count == 3, "a variable radix");
    check(base_great.radix == 0 && base_negative.radix == 0, "a radix of more than 32 bits");
    for (count = 0; count < 7; count++) {
        struct lexical_format format = LEXICAL_RADIX(INVALID[count]);
        check(lexical_check_format(&format) == LEXICAL_INVALID_RADIX, "a variable radix that is invalid");
    }
}

/* Checks a call of a function that a type chooses: it returns the length of the text that is now in the buffer. */
#define CHECK_CALL(call, wanted) check_text(call, wanted), check(NOEXCEPT(call), #call);
#define CHECK_TYPE(type, value, decimal, hexadecimal)                          \
    {                                                                          \
        const type number = (type)(value);                                     \
        CHECK_CALL(lexical_decimal(number, buffer, sizeof buffer), decimal)    \
        CHECK_CALL(lexical_write(number, &HEXADECIMAL, buffer, 128), hexadecimal) \
        CHECK_CALL(lexical_length(number, &HEXADECIMAL), hexadecimal)          \
        /* A format that is no pointer. */                                     \
        IN_CXX(CHECK_CALL(lexical_write(number, HEXADECIMAL, buffer, 128), hexadecimal)) \
        IN_CXX(CHECK_CALL(lexical_length(number, HEXADECIMAL), hexadecimal))   \
    }

static void check_choice(void)
{
    static const struct lexical_format HEXADECIMAL = FORMAT(16, 1, 4, '_', 0);
    CHECK_TYPE(unsigned char, -1, "255", "+FF")
    CHECK_TYPE(unsigned short, -1, "65535", "+FFFF")
    CHECK_TYPE(unsigned int, -1, "4294967295", "+FFFF_FFFF")
    CHECK_TYPE(signed char, -128, "-128", "-80")
    CHECK_TYPE(short, -32768, "-32768", "-8000")
    CHECK_TYPE(int, -2147483647 - 1, "-2147483648", "-8000_0000")
    CHECK_TYPE(long, -2147483647L - 1, "-2147483648", "-8000_0000")
#if SIZE_MAX > UINT32_MAX
    CHECK_TYPE(unsigned long, -1, "18446744073709551615", "+FFFF_FFFF_FFFF_FFFF")
    CHECK_TYPE(long, -4611686018427387904L, "-4611686018427387904", "-4000_0000_0000_0000")
#endif
#if !defined(__cplusplus) || __cplusplus >= 201103L
    CHECK_TYPE(unsigned long long, -1, "18446744073709551615", "+FFFF_FFFF_FFFF_FFFF")
    CHECK_TYPE(long long, -4611686018427387904LL, "-4611686018427387904", "-4000_0000_0000_0000")
#endif
}

/* Formats that are written in a call. */
static void check_unnamed_formats(void)
{
#if !defined(__cplusplus) || __cplusplus >= 201103L
    CHECK_CALL(lexical_write(48879, RADIX(16), buffer, sizeof buffer), "BEEF")
    CHECK_CALL(lexical_length(48879, RADIX(16)), "BEEF")
    CHECK_CALL(lexical_write(-1234567, LEXICAL_FORMAT(10, 0, 3, ',', 0, { 0, 0 }), buffer, sizeof buffer), "-1,234,567")
#endif
#if !defined(__cplusplus) || __cplusplus >= 202002L
    CHECK_CALL(lexical_write(48879, LEXICAL_FORMAT(.radix = 16), buffer, sizeof buffer), "BEEF")
    CHECK_CALL(lexical_write(1234567, LEXICAL_FORMAT(.radix = 10, .group_size = 3, .mark = '.'), buffer, 128),
               "1.234.567")
    CHECK_CALL(lexical_length(1234567, LEXICAL_FORMAT(.radix = 10, .group_size = 3, .mark = '.')), "1.234.567")
    check(lexical_write(1, LEXICAL_FORMAT(.radix = 37), buffer, sizeof buffer) == 0, "LEXICAL_FORMAT of no radix");
#endif
}

#ifndef __cplusplus
static const struct lexical_format *const octal_literal = LEXICAL_FORMAT(.radix = 8);

/* What only C has: pointers to unnamed formats, constants that are no constant expressions, and characters as int. */
static void check_language(void)
{
    const int constant = 37;
    struct lexical_format base_37 = LEXICAL_RADIX(constant);
    check(base_37.radix == 0, "a radix of a constant object");
    check(octal_literal->radix == 8 && octal_literal->group_size == 0, "LEXICAL_FORMAT of a static object");
    check_text(lexical_write_u32(48879, RADIX(36), buffer, sizeof buffer), "11PR");
    check_text(lexical_write_u32(48879, LEXICAL_FORMAT(.radix = 36, .lowercase = 1), buffer, sizeof buffer), "11pr");
    check_text(lexical_write(1234567, &(const struct lexical_format){ .radix = 10, .group_size = 3, .mark = ',' },
                             buffer, sizeof buffer), "1,234,567");
    check(lexical_length(1234567, &(const struct lexical_format){ .radix = 2, .required_sign = 1 }) == 22, "a literal");
    check_text(lexical_decimal(7, (char *[1]){ buffer }[0], 1), "7");
    check_text(lexical_decimal('x', buffer, sizeof buffer), "120");
    check_text(lexical_decimal(buffer[0] > 0, buffer, sizeof buffer), "1");
}
#else
/* What only C++ has: in C++98 constants that are not refused, and from C++14 on default values of fields. */
static void check_language(void)
{
#if __cplusplus < 201103L
    const struct lexical_format base_99 = LEXICAL_RADIX(99);
    check(base_99.radix == 0, "a constant radix that C++98 does not refuse");
#elif __cplusplus >= 201402L
    lexical_format defaults;
    defaults.radix = 16;
    CHECK_CALL(lexical_write(48879, defaults, buffer, sizeof buffer), "BEEF")
#endif
}
#endif

int main(void)
{
    check_examples();
    check_changes();
    check_radices();
    check_choice();
    check_unnamed_formats();
    check_language();
    return EXIT_SUCCESS;
}
