/* SPDX-License-Identifier: MIT OR Apache-2.0 */
/*
 * lexical.h: functions that write integers as text, in every radix from 2 to 36.
 *
 *   lexical_decimal(value, buffer, size)        writes a number in decimal
 *   lexical_write(value, format, buffer, size)  writes a number in a format
 *   lexical_length(value, format)               returns the length of such a text
 *   lexical_buffer_size_T(format)               returns a buffer size for every number of a type
 *   lexical_check_format(format)                returns 0, or a code for an invalid field
 *   lexical_pad(count, width, buffer, size)     inserts zeros after the sign of a text
 *   lexical_terminate(count, buffer, size)      writes a NUL after a text
 *   lexical_version()                           returns the version of the library
 *
 * T stands for a type: u8, u16, u32, u64, size, i8, i16, i32 or i64. lexical_decimal,
 * lexical_write and lexical_length choose a function by the type of the value, in C++, in
 * C11 and later, and in C99 with gcc or clang. In every C you can name the type, as in
 * lexical_decimal_i32(-42, text, sizeof text).
 *
 * These lines store the string "-42", and set count to 3:
 *
 *     char text[LEXICAL_BUFFER_SIZE_DECIMAL_I32 + 1];
 *     size_t count = lexical_decimal(-42, text, sizeof text);
 *     lexical_terminate(count, text, sizeof text);
 *
 * These lines store the string "0x0000beef": a prefix, followed by a number in lowercase,
 * with zeros up to 8 digits. If count is then 0, the number or its zeros did not fit, and
 * the string is "0x". Use a prefix only with unsigned types and without required_sign,
 * because a sign would come after it:
 *
 *     char prefixed[2 + LEXICAL_BUFFER_SIZE + 1] = "0x";
 *     count = lexical_write(48879u, LEXICAL_FORMAT(.radix = 16, .lowercase = 1),
 *                           prefixed + 2, sizeof prefixed - 2);
 *     count = lexical_pad(count, 8, prefixed + 2, sizeof prefixed - 2);
 *     count = lexical_terminate(count, prefixed + 2, sizeof prefixed - 2);
 *
 * Text. A negative number begins with '-'. Any other number begins with '+' if the
 * format requires a sign, and otherwise with its first digit. The digits are '0' to
 * '9' and 'A' to 'Z', or 'a' to 'z' if the format requests lowercase. There are no
 * leading zeros, but lexical_pad can add them. If the format has groups, its mark is
 * written between groups of digits.
 *
 * Format. `format` must not be NULL. It must point to an aligned struct lexical_format with
 * initialized fields. A call only reads it. Invalid values of its fields are safe:
 * lexical_check_format names the first invalid field, and every other function that takes
 * a format returns 0.
 *
 * Buffer. `buffer` points to `size` bytes that the call may write, and may be NULL if the
 * size is 0. The buffer must not overlap the format, and during the call no other thread
 * may use the buffer. It need not be initialized, except for the text that you pass to
 * lexical_pad. The call writes nothing outside the buffer, and keeps no pointer to it.
 * Bytes after the text keep their values, except the one to which lexical_terminate writes
 * the NUL.
 *
 * Size. Compute it as a size_t. A size above PTRDIFF_MAX counts as 0, because no buffer is
 * so large: it is a negative result that was converted to size_t, such as `size - 2` for a
 * size of 1. If an unsigned int wraps around on a 64-bit target, the result is not above
 * PTRDIFF_MAX, and the call may write past the buffer.
 *
 * Size of the buffer. LEXICAL_BUFFER_SIZE bytes are enough for every number of every
 * type in every format. A terminating NUL needs one byte more.
 *
 * Errors. A call that writes returns the length of the text, without a NUL. A text is never
 * empty, so 0 means an error: the format is invalid or the text does not fit. The buffer is
 * then unchanged, except by lexical_terminate, which makes it an empty string, unless
 * `size` is 0 or above PTRDIFF_MAX. To find the cause, call lexical_check_format(format).
 * If it returns 0, the buffer was too short. No call changes errno.
 *
 * Threads and signals. The functions have no state and allocate nothing. So you can call
 * them in any thread and in any signal handler, if during the call nothing else uses the
 * buffer or changes the format.
 *
 * Proof. The sources of the library were proved correct by a prover that is not public.
 * The compiled library and this header are tested, and not proved.
 *
 * Names. All names begin with lexical_ or LEXICAL_. Those that begin with
 * lexical_private_ or LEXICAL_PRIVATE_ may change in any version, so do not use them.
 */
#ifndef LEXICAL_H
#define LEXICAL_H

#include <stddef.h>
#include <stdint.h>

#if SIZE_MAX != UINT64_MAX && SIZE_MAX != UINT32_MAX
#error "lexical_c is built for a size_t of 64 or 32 bits"
#endif

/* Attributes of the functions below, for compilers that have them. */
#if defined(__GNUC__)
#define LEXICAL_HAS(list) __attribute__(list)
#else
#define LEXICAL_HAS(list)
#endif
#if defined(__has_attribute)
#if __has_attribute(access)
#define LEXICAL_ACCESS(list) __attribute__((access list))
#endif
#endif
#ifndef LEXICAL_ACCESS
#define LEXICAL_ACCESS(list)
#endif
#if defined(__cplusplus) && __cplusplus >= 201103L
#define LEXICAL_NOEXCEPT noexcept
#else
#define LEXICAL_NOEXCEPT
#endif
/* For (value, format, buffer, size): the call writes to the buffer. */
#define LEXICAL_WRITES                                                         \
    LEXICAL_HAS((nothrow, nonnull(2), warn_unused_result))                     \
    LEXICAL_ACCESS((read_only, 2)) LEXICAL_ACCESS((write_only, 3, 4))
/* For (value, buffer, size): the call writes to the buffer. */
#define LEXICAL_WRITES_DECIMAL                                                 \
    LEXICAL_HAS((nothrow, warn_unused_result)) LEXICAL_ACCESS((write_only, 2, 3))
/* For (value, format) and (format): the call reads the format and writes nothing. */
#define LEXICAL_READS(n)                                                       \
    LEXICAL_HAS((nothrow, pure, nonnull(n), warn_unused_result))               \
    LEXICAL_ACCESS((read_only, n))

/* Default values of the fields, which silence -Wmissing-field-initializers in g++. */
#if defined(__cplusplus) && __cplusplus >= 201402L
#define LEXICAL_DEFAULT(value) = value
#else
#define LEXICAL_DEFAULT(value)
#endif

#ifdef __cplusplus
extern "C" {
#endif

/* ---- the version --------------------------------------------------------- */

/*
 * The version of this header. LEXICAL_VERSION is 1000000 * major + 1000 * minor + patch.
 * The major number is also in the soname, liblexical_c.so.1.
 */
#define LEXICAL_VERSION_STRING "1.0.0"
#define LEXICAL_VERSION 1000000
#define LEXICAL_VERSION_MAJOR (LEXICAL_VERSION / 1000000)
#define LEXICAL_VERSION_MINOR (LEXICAL_VERSION / 1000 % 1000)
#define LEXICAL_VERSION_PATCH (LEXICAL_VERSION % 1000)

/*
 * lexical_version: returns the version of the library, as a number of the form of
 * LEXICAL_VERSION. A program that was compiled with this header runs with any library
 * for which
 *
 *     lexical_version() / 1000000 == LEXICAL_VERSION_MAJOR
 *         && lexical_version() >= LEXICAL_VERSION
 */
LEXICAL_HAS((nothrow, const)) uint32_t lexical_version(void) LEXICAL_NOEXCEPT;

/* ---- decimal numbers ----------------------------------------------------- */

/*
 * A buffer size that is enough for every result of lexical_decimal_T, not counting a NUL.
 * For a format with groups or a '+' use LEXICAL_BUFFER_SIZE_U32 and so on, or at run time
 * lexical_buffer_size_T.
 */
#define LEXICAL_BUFFER_SIZE_DECIMAL_U8 3
#define LEXICAL_BUFFER_SIZE_DECIMAL_U16 5
#define LEXICAL_BUFFER_SIZE_DECIMAL_U32 10
#define LEXICAL_BUFFER_SIZE_DECIMAL_U64 20
#define LEXICAL_BUFFER_SIZE_DECIMAL_SIZE 20
#define LEXICAL_BUFFER_SIZE_DECIMAL_I8 4
#define LEXICAL_BUFFER_SIZE_DECIMAL_I16 6
#define LEXICAL_BUFFER_SIZE_DECIMAL_I32 11
#define LEXICAL_BUFFER_SIZE_DECIMAL_I64 20

/*
 * lexical_decimal_T: writes a number in decimal.
 *
 *     value   the number
 *     buffer  where the text begins
 *     size    the size of the buffer in bytes
 *
 * Returns the length of the text, or 0 if the text does not fit the buffer. If it
 * returns 0, the buffer is unchanged. lexical_write_T writes the same text with
 * &lexical_standard_format.
 */
LEXICAL_WRITES_DECIMAL
size_t lexical_decimal_u8(uint8_t value, char *buffer, size_t size) LEXICAL_NOEXCEPT;
LEXICAL_WRITES_DECIMAL
size_t lexical_decimal_u16(uint16_t value, char *buffer, size_t size) LEXICAL_NOEXCEPT;
LEXICAL_WRITES_DECIMAL
size_t lexical_decimal_u32(uint32_t value, char *buffer, size_t size) LEXICAL_NOEXCEPT;
LEXICAL_WRITES_DECIMAL
size_t lexical_decimal_u64(uint64_t value, char *buffer, size_t size) LEXICAL_NOEXCEPT;
LEXICAL_WRITES_DECIMAL
size_t lexical_decimal_size(size_t value, char *buffer, size_t size) LEXICAL_NOEXCEPT;
LEXICAL_WRITES_DECIMAL
size_t lexical_decimal_i8(int8_t value, char *buffer, size_t size) LEXICAL_NOEXCEPT;
LEXICAL_WRITES_DECIMAL
size_t lexical_decimal_i16(int16_t value, char *buffer, size_t size) LEXICAL_NOEXCEPT;
LEXICAL_WRITES_DECIMAL
size_t lexical_decimal_i32(int32_t value, char *buffer, size_t size) LEXICAL_NOEXCEPT;
LEXICAL_WRITES_DECIMAL
size_t lexical_decimal_i64(int64_t value, char *buffer, size_t size) LEXICAL_NOEXCEPT;

/* ---- formats ------------------------------------------------------------- */

/*
 * A format: how a number is written.
 *
 * Initialize a format by the names of its fields (C99, C++20). Those that you omit are 0:
 *
 *     const struct lexical_format format = { .radix = 10, .group_size = 3, .mark = ',' };
 *
 * Groups are counted from the right: this format writes 1,234,567. The fields have 32
 * bits, so that a wrong radix such as 266 is refused and not truncated to 10.
 *
 * In C89, and in C++ before C++20, write the fields in their order, { 10, 0, 3, ',' }, or
 * initialize a variable with LEXICAL_RADIX(10), and then set its fields. (In C, C++98 and
 * C++11, -Wextra warns of fields that are left out of such a list.) A local variable
 * without an initializer has indeterminate fields; from C++14 on only its radix is
 * indeterminate.
 *
 * From C++14 on, each field after the radix has the default value 0, so the default
 * constructor is not trivial. To clear a format write `format = {}`, because g++ warns of
 * memset. Declare a union U that has a format as a member by `U u{};`, because `U u;` does
 * not compile.
 */
struct lexical_format {
    /* From 2 to 36. */
    uint32_t radix;
    /* If it is not 0, zero and positive numbers begin with '+'. */
    uint32_t required_sign LEXICAL_DEFAULT(0);
    /* The number of digits in a group, from 1 to 64, or 0 for no groups. */
    uint32_t group_size LEXICAL_DEFAULT(0);
    /* The separator between groups: a byte from 32 to 126 that is not a letter, a digit,
       '+' or '-'. It is unused if group_size is 0. */
    uint32_t mark LEXICAL_DEFAULT(0);
    /* 0 for the digits 'A' to 'Z', and any other number for 'a' to 'z'. */
    uint32_t lowercase LEXICAL_DEFAULT(0);
    /* 0. A later version may use these for new fields. */
    uint32_t reserved[2] LEXICAL_DEFAULT({});
};

/*
 * LEXICAL_FORMAT: a format as an argument. Write its fields as in an initializer:
 *
 *     count = lexical_write(48879, LEXICAL_FORMAT(.radix = 16), buffer, sizeof buffer);
 *
 * In C99 and later it is a pointer to an unnamed const object (a compound literal), which
 * exists until the end of the block in which you write it.
 *
 * In C++ it is a format and not a pointer, because a pointer to a temporary object could
 * outlive the object. So only lexical_write and lexical_length take it. C++20 has the names
 * of fields. In C++11 to C++17 write the fields in their order, as in
 * LEXICAL_FORMAT(10, 0, 3, ','). Cast an int variable to uint32_t: otherwise clang
 * refuses it, and g++ warns of it.
 *
 * C89 and C++98 do not have this macro. Unlike LEXICAL_RADIX, it does not check the radix
 * when you compile.
 */
#if defined(__cplusplus)
#if __cplusplus >= 201103L
#define LEXICAL_FORMAT(...) (lexical_format{ __VA_ARGS__ })
#endif
#elif defined(__STDC_VERSION__) && __STDC_VERSION__ >= 199901L
#define LEXICAL_FORMAT(...) (&(const struct lexical_format){ __VA_ARGS__ })
#endif

/*
 * LEXICAL_RADIX: an initializer for a format with this radix, in uppercase, with no '+' and
 * no groups. In C you cannot pass it as an argument.
 *
 *     const struct lexical_format hexadecimal = LEXICAL_RADIX(16);
 *
 * The radix may have any integer type of at most 64 bits except bool. Do not pass a double:
 * it may be truncated without a warning. If the radix is not from 2 to 36, the radix of the
 * format is 0, which is invalid. An invalid radix that is an integer constant expression is
 * a compile error in C11 and later, and with gcc and clang also in older C and in C++11 and
 * later. The message mentions a negative array size, or a narrowing conversion of -1.
 *
 * The radix is evaluated once, except in C before C11 with compilers other than gcc and
 * clang.
 */
#define LEXICAL_RADIX(radix) { LEXICAL_PRIVATE_RADIX(radix), 0, 0, 0, 0, { 0, 0 } }

/*
 * The standard format, as an initializer and as an object: decimal, with no '+'
 * and no groups. lexical_decimal writes in this format. For the length of its text, call
 * lexical_length with &lexical_standard_format.
 */
#define LEXICAL_STANDARD_FORMAT { 10, 0, 0, 0, 0, { 0, 0 } }
#if defined(__cplusplus) && __cplusplus >= 201703L
LEXICAL_HAS((visibility("hidden")))
inline constexpr lexical_format lexical_standard_format = LEXICAL_STANDARD_FORMAT;
#elif defined(__GNUC__)
/* Each file that includes this header has a copy, of which the linker uses one, and does not
   export it. It is weak, and not static, so that a C inline function may use it. */
extern __attribute__((weak, visibility("hidden"))) const struct lexical_format lexical_standard_format;
const struct lexical_format lexical_standard_format = LEXICAL_STANDARD_FORMAT;
#else
static const struct lexical_format lexical_standard_format = LEXICAL_STANDARD_FORMAT;
#endif

/* The results of lexical_check_format for a format that is not valid. */
#define LEXICAL_INVALID_RADIX 1
#define LEXICAL_INVALID_GROUP_SIZE 2
#define LEXICAL_INVALID_GROUP_MARK 3
#define LEXICAL_INVALID_RESERVED 4

/*
 * lexical_check_format: returns 0 if the format is valid, and otherwise the
 * constant above that names its first invalid field. The radix is checked first,
 * then the group size, then the mark, then the reserved fields.
 */
LEXICAL_READS(1)
uint32_t lexical_check_format(const struct lexical_format *format) LEXICAL_NOEXCEPT;

/* ---- sizes --------------------------------------------------------------- */

/* A buffer size, in bytes, that is enough for every number of every type in
   every format, without a NUL. */
#define LEXICAL_BUFFER_SIZE 128

/* A buffer size that is enough for every number of one type in every format. */
#define LEXICAL_BUFFER_SIZE_U8 16
#define LEXICAL_BUFFER_SIZE_U16 32
#define LEXICAL_BUFFER_SIZE_U32 64
#define LEXICAL_BUFFER_SIZE_U64 128
#define LEXICAL_BUFFER_SIZE_SIZE 128
#define LEXICAL_BUFFER_SIZE_I8 16
#define LEXICAL_BUFFER_SIZE_I16 32
#define LEXICAL_BUFFER_SIZE_I32 64
#define LEXICAL_BUFFER_SIZE_I64 128

/*
 * lexical_buffer_size_T: returns a buffer size that is enough for every number of the
 * type in the format, with its sign and its separators. If the format is valid,
 * lexical_write_T never returns 0 with a buffer of this size. It is a bound: in radix 10 at
 * most 2 bytes more than the longest text, and in other radices the constant for the type,
 * such as LEXICAL_BUFFER_SIZE_U32. The exact length of the longest text is
 * lexical_length_u32(UINT32_MAX, format), and for a signed type
 * lexical_length_i32(INT32_MIN, format).
 *
 * The size is from 1 to LEXICAL_BUFFER_SIZE, or 0 if the format is invalid.
 */
LEXICAL_READS(1)
size_t lexical_buffer_size_u8(const struct lexical_format *format) LEXICAL_NOEXCEPT;
LEXICAL_READS(1)
size_t lexical_buffer_size_u16(const struct lexical_format *format) LEXICAL_NOEXCEPT;
LEXICAL_READS(1)
size_t lexical_buffer_size_u32(const struct lexical_format *format) LEXICAL_NOEXCEPT;
LEXICAL_READS(1)
size_t lexical_buffer_size_u64(const struct lexical_format *format) LEXICAL_NOEXCEPT;
LEXICAL_READS(1)
size_t lexical_buffer_size_size(const struct lexical_format *format) LEXICAL_NOEXCEPT;
LEXICAL_READS(1)
size_t lexical_buffer_size_i8(const struct lexical_format *format) LEXICAL_NOEXCEPT;
LEXICAL_READS(1)
size_t lexical_buffer_size_i16(const struct lexical_format *format) LEXICAL_NOEXCEPT;
LEXICAL_READS(1)
size_t lexical_buffer_size_i32(const struct lexical_format *format) LEXICAL_NOEXCEPT;
LEXICAL_READS(1)
size_t lexical_buffer_size_i64(const struct lexical_format *format) LEXICAL_NOEXCEPT;

/*
 * lexical_length_T: returns the length of the text that lexical_write_T writes for the
 * number in the format, if the buffer is long enough.
 *
 * The length is from 1 to LEXICAL_BUFFER_SIZE, or 0 if the format is invalid.
 */
LEXICAL_READS(2)
size_t lexical_length_u8(uint8_t value,
                         const struct lexical_format *format) LEXICAL_NOEXCEPT;
LEXICAL_READS(2)
size_t lexical_length_u16(uint16_t value,
                          const struct lexical_format *format) LEXICAL_NOEXCEPT;
LEXICAL_READS(2)
size_t lexical_length_u32(uint32_t value,
                          const struct lexical_format *format) LEXICAL_NOEXCEPT;
LEXICAL_READS(2)
size_t lexical_length_u64(uint64_t value,
                          const struct lexical_format *format) LEXICAL_NOEXCEPT;
LEXICAL_READS(2)
size_t lexical_length_size(size_t value,
                           const struct lexical_format *format) LEXICAL_NOEXCEPT;
LEXICAL_READS(2)
size_t lexical_length_i8(int8_t value,
                         const struct lexical_format *format) LEXICAL_NOEXCEPT;
LEXICAL_READS(2)
size_t lexical_length_i16(int16_t value,
                          const struct lexical_format *format) LEXICAL_NOEXCEPT;
LEXICAL_READS(2)
size_t lexical_length_i32(int32_t value,
                          const struct lexical_format *format) LEXICAL_NOEXCEPT;
LEXICAL_READS(2)
size_t lexical_length_i64(int64_t value,
                          const struct lexical_format *format) LEXICAL_NOEXCEPT;

/* ---- writing ------------------------------------------------------------- */

/*
 * lexical_write_T: writes a number in a format.
 *
 *     value   the number
 *     format  how the number is written
 *     buffer  where the text begins
 *     size    the size of the buffer in bytes
 *
 * Returns the length of the text, or 0 if the format is invalid or the text does not
 * fit the buffer. If it returns 0, the buffer is unchanged. For a ptrdiff_t use
 * lexical_write_i64.
 */
LEXICAL_WRITES
size_t lexical_write_u8(uint8_t value, const struct lexical_format *format,
                        char *buffer, size_t size) LEXICAL_NOEXCEPT;
LEXICAL_WRITES
size_t lexical_write_u16(uint16_t value, const struct lexical_format *format,
                         char *buffer, size_t size) LEXICAL_NOEXCEPT;
LEXICAL_WRITES
size_t lexical_write_u32(uint32_t value, const struct lexical_format *format,
                         char *buffer, size_t size) LEXICAL_NOEXCEPT;
LEXICAL_WRITES
size_t lexical_write_u64(uint64_t value, const struct lexical_format *format,
                         char *buffer, size_t size) LEXICAL_NOEXCEPT;
LEXICAL_WRITES
size_t lexical_write_size(size_t value, const struct lexical_format *format,
                          char *buffer, size_t size) LEXICAL_NOEXCEPT;
LEXICAL_WRITES
size_t lexical_write_i8(int8_t value, const struct lexical_format *format,
                        char *buffer, size_t size) LEXICAL_NOEXCEPT;
LEXICAL_WRITES
size_t lexical_write_i16(int16_t value, const struct lexical_format *format,
                         char *buffer, size_t size) LEXICAL_NOEXCEPT;
LEXICAL_WRITES
size_t lexical_write_i32(int32_t value, const struct lexical_format *format,
                         char *buffer, size_t size) LEXICAL_NOEXCEPT;
LEXICAL_WRITES
size_t lexical_write_i64(int64_t value, const struct lexical_format *format,
                         char *buffer, size_t size) LEXICAL_NOEXCEPT;

/* ---- zeros and strings ----------------------------------------------------- */

/*
 * lexical_pad: inserts zeros into a text, after its sign, until it has `width` bytes.
 *
 *     count   the length of the text at `buffer`, or 0 after an error; the text need not come
 *             from this library, and a '-' or a '+' at its start counts as its sign
 *     width   the minimum length of the text; a longer text stays as it is
 *     buffer  where the text begins
 *     size    the size of the buffer in bytes
 *
 * Returns the new length of the text, which is the greater of `count` and `width`.
 * Returns 0 if `count` is 0, or if `size` is less than `count` or `width`. If it returns
 * 0, the buffer is unchanged. So you can pass the result of another call as `count`, even
 * if it is 0.
 *
 * lexical_pad recognizes no prefix: padded to 8 bytes, 0xFF becomes 00000xFF. So pad only
 * the digits: pass `buffer + 2` and `size - 2`, and then add 2 to the count. The zeros are
 * not grouped: 1,234,567 padded to 12 bytes is 0001,234,567.
 *
 * If `width` is greater than `size`, lexical_pad returns 0, although the text without
 * zeros is in the buffer. To keep that text, save its length before you call lexical_pad, and
 * pass that length to lexical_terminate, because a count of 0 erases the text.
 */
LEXICAL_HAS((nothrow, warn_unused_result)) LEXICAL_ACCESS((read_write, 3, 4))
size_t lexical_pad(size_t count, size_t width, char *buffer, size_t size) LEXICAL_NOEXCEPT;

/*
 * lexical_terminate: writes a NUL after a text, which makes it a string.
 *
 *     count   the length of the text at `buffer`, or 0 after an error
 *     buffer  where the text begins
 *     size    the size of the buffer in bytes, with a byte for the NUL
 *
 * Returns `count`. Returns 0 if `count` is 0, or if `size` is not greater than `count`, so
 * that the NUL does not fit. In both cases the buffer becomes an empty string, unless `size`
 * is 0 or above PTRDIFF_MAX, and a text in it is lost. So a buffer of at least one byte is a
 * string after every call, and you may ignore the result if an empty string is acceptable.
 */
LEXICAL_HAS((nothrow)) LEXICAL_ACCESS((write_only, 2, 3))
size_t lexical_terminate(size_t count, char *buffer, size_t size) LEXICAL_NOEXCEPT;

#ifdef __cplusplus
}
#endif

/* ---- the function for a type ------------------------------------------------- */

/* Before C11, _Generic is an extension of gcc and clang. */
#if defined(__GNUC__)
#define LEXICAL_PRIVATE_EXTENSION __extension__
#else
#define LEXICAL_PRIVATE_EXTENSION
#endif

/*
 * lexical_decimal, lexical_write and lexical_length, in C++, in C11 and later, and with gcc
 * and clang in C99. They call the function for the type of the value, for example
 * lexical_write_i32 for an int. In C they are macros, which evaluate each argument once.
 *
 * - A value of the type char or bool is refused, and in C++ also one of wchar_t, char8_t,
 *   char16_t or char32_t: cast it to int if you mean its number.
 * - In C, 'x', a > b and (before C23) true are of the type int, so they compile.
 * - In C, gcc also refuses a bit-field, unless it has 8, 16, 32 or 64 bits: cast it to the
 *   type with which it is declared.
 * - In C++98 cast a long long to int64_t.
 *
 * In C pass a pointer to a format. LEXICAL_FORMAT is such a pointer. In C++ you can also pass
 * the format itself, and in C++11 and later an initializer:
 *
 *     count = lexical_write(48879, LEXICAL_RADIX(16), buffer, sizeof buffer);
 */
#if defined(__cplusplus)
extern "C++" {
#if __cplusplus >= 201103L
#define LEXICAL_REFUSED(type)                                                  \
    size_t lexical_decimal(type, char *, size_t) = delete;                     \
    size_t lexical_write(type, const struct lexical_format *, char *, size_t) = delete; \
    size_t lexical_length(type, const struct lexical_format *) = delete;
/* These refuse {} as the format, which otherwise would be a null pointer. */
#define LEXICAL_REFUSED_NULL(type)                                             \
    size_t lexical_write(type, decltype(nullptr), char *, size_t) = delete;    \
    size_t lexical_length(type, decltype(nullptr)) = delete;
#else
#define LEXICAL_REFUSED_NULL(type)
/* A call whose result has an incomplete type does not compile. */
struct lexical_private_refused;
#define LEXICAL_REFUSED(type)                                                  \
    lexical_private_refused lexical_decimal(type, char *, size_t);                     \
    lexical_private_refused lexical_write(type, const lexical_format *, char *, size_t);\
    lexical_private_refused lexical_length(type, const lexical_format *);
#endif
#define LEXICAL_OVERLOAD(name, type)                                           \
    LEXICAL_REFUSED_NULL(type)                                                 \
    LEXICAL_WRITES_DECIMAL                                                     \
    inline size_t lexical_decimal(type value, char *buffer, size_t size) LEXICAL_NOEXCEPT \
    {                                                                          \
        return lexical_decimal_##name(value, buffer, size);                  \
    }                                                                          \
    LEXICAL_WRITES                                                             \
    inline size_t lexical_write(type value, const struct lexical_format *format, \
                                char *buffer, size_t size) LEXICAL_NOEXCEPT  \
    {                                                                          \
        return lexical_write_##name(value, format, buffer, size);            \
    }                                                                          \
    LEXICAL_READS(2)                                                           \
    inline size_t lexical_length(type value,                                   \
                                 const struct lexical_format *format) LEXICAL_NOEXCEPT \
    {                                                                          \
        return lexical_length_##name(value, format);                           \
    }
LEXICAL_OVERLOAD(u8, unsigned char)
LEXICAL_OVERLOAD(u16, unsigned short)
LEXICAL_OVERLOAD(u32, unsigned int)
LEXICAL_OVERLOAD(u64, unsigned long)
LEXICAL_OVERLOAD(i8, signed char)
LEXICAL_OVERLOAD(i16, short)
LEXICAL_OVERLOAD(i32, int)
LEXICAL_OVERLOAD(i64, long)
#if __cplusplus >= 201103L
LEXICAL_OVERLOAD(u64, unsigned long long)
LEXICAL_OVERLOAD(i64, long long)
#elif SIZE_MAX == UINT32_MAX
/* Here these are not long, and C++98 has no long long. */
LEXICAL_OVERLOAD(u64, uint64_t)
LEXICAL_OVERLOAD(i64, int64_t)
#endif
LEXICAL_REFUSED(char)
LEXICAL_REFUSED(bool)
LEXICAL_REFUSED(wchar_t)
#if defined(__cpp_char8_t)
LEXICAL_REFUSED(char8_t)
#endif
#if __cplusplus >= 201103L
LEXICAL_REFUSED(char16_t)
LEXICAL_REFUSED(char32_t)
#endif
template <typename T>
LEXICAL_HAS((nothrow, warn_unused_result)) LEXICAL_ACCESS((write_only, 3, 4))
inline size_t lexical_write(T value, const lexical_format &format, char *buffer,
                            size_t size) LEXICAL_NOEXCEPT
{
    return lexical_write(value, &format, buffer, size);
}
template <typename T>
LEXICAL_HAS((nothrow, pure, warn_unused_result))
inline size_t lexical_length(T value, const lexical_format &format) LEXICAL_NOEXCEPT
{
    return lexical_length(value, &format);
}
#undef LEXICAL_OVERLOAD
#undef LEXICAL_REFUSED
#undef LEXICAL_REFUSED_NULL
}
#elif defined(__STDC_VERSION__)                                               \
    && (__STDC_VERSION__ >= 201112L || (__STDC_VERSION__ >= 199901L && defined(__GNUC__)))
#define LEXICAL_PRIVATE_FOR_TYPE(function, value)                              \
    (LEXICAL_PRIVATE_EXTENSION _Generic((value),                               \
        unsigned char: function##_u8, unsigned short: function##_u16,          \
        unsigned int: function##_u32, unsigned long: function##_u64,           \
        unsigned long long: function##_u64, signed char: function##_i8,        \
        short: function##_i16, int: function##_i32, long: function##_i64,      \
        long long: function##_i64))
/* What follows the value is passed on as it is: a compound literal has commas of its own. */
#define lexical_decimal(value, ...)                                            \
    LEXICAL_PRIVATE_FOR_TYPE(lexical_decimal, value)(value, __VA_ARGS__)
#define lexical_write(value, ...)                                              \
    LEXICAL_PRIVATE_FOR_TYPE(lexical_write, value)(value, __VA_ARGS__)
#define lexical_length(value, ...)                                             \
    LEXICAL_PRIVATE_FOR_TYPE(lexical_length, value)(value, __VA_ARGS__)
#endif

/* ---- how LEXICAL_RADIX checks a radix ------------------------------------------ */

/* The value of the field radix: the number, or 0 if it is not from 2 to 36. */
#if defined(__cplusplus)
extern "C++" {
#if __cplusplus >= 201103L
constexpr
#endif
inline uint32_t
lexical_private_radix(uint64_t number) LEXICAL_NOEXCEPT
{
    return number < 2 || number > 36 ? 0 : static_cast<uint32_t>(number);
}
}
#define LEXICAL_PRIVATE_CHECKED_RADIX(number) lexical_private_radix(static_cast<uint64_t>(number))
#if defined(__GNUC__) && __cplusplus >= 201103L
/* A constant that is no radix is refused by an array of a negative size. */
#define LEXICAL_PRIVATE_RADIX(number)                                          \
    (__extension__ sizeof(                                                     \
         char[__builtin_constant_p(number) && LEXICAL_PRIVATE_CHECKED_RADIX(number) == 0 ? -1 : 1]) \
         ? LEXICAL_PRIVATE_CHECKED_RADIX(number) : 0)
#else
#define LEXICAL_PRIVATE_RADIX(number) LEXICAL_PRIVATE_CHECKED_RADIX(number)
#endif
#elif defined(__GNUC__) || (defined(__STDC_VERSION__) && __STDC_VERSION__ >= 201112L)
#if defined(__GNUC__)
/* It is always inlined, and not static, so that a C inline function may use it. */
extern __inline__ __attribute__((__gnu_inline__, __always_inline__)) uint32_t
#else
static inline uint32_t
#endif
lexical_private_radix(uint64_t number)
{
    return number < 2 || number > 36 ? 0 : (uint32_t)number;
}
/*
 * Yields the first value if the number is an integer constant expression, and otherwise
 * the second. 0 times such an expression is a null pointer constant, so ?: has the type
 * int *. Otherwise it has the type void *. The result does not depend on what a compiler
 * optimizes, and the number is not evaluated. The other branch is (int *)8 and not
 * (int *)0, because gcc may warn of equal branches.
 */
#define LEXICAL_PRIVATE_IF_CONSTANT(number, value, other)                      \
    _Generic(1 ? (void *)((intptr_t)(number) * 0) : (int *)8, int *: (value), default: (other))
/* A constant that is no radix is refused by an array of a negative size. A variable is
   evaluated once. */
#define LEXICAL_PRIVATE_RADIX(number)                                          \
    (LEXICAL_PRIVATE_EXTENSION LEXICAL_PRIVATE_IF_CONSTANT(                    \
        number,                                                                \
        sizeof(char[LEXICAL_PRIVATE_IF_CONSTANT(number, (number) < 2 || (number) > 36, 0) ? -1 : 1]) \
            ? (uint32_t)(number) : 0,                                          \
        lexical_private_radix((uint64_t)(number))))
#else
#define LEXICAL_PRIVATE_RADIX(number) ((number) < 2 || (number) > 36 ? 0 : (uint32_t)(number))
#endif

#undef LEXICAL_HAS
#undef LEXICAL_DEFAULT
#undef LEXICAL_ACCESS
#undef LEXICAL_NOEXCEPT
#undef LEXICAL_WRITES
#undef LEXICAL_WRITES_DECIMAL
#undef LEXICAL_READS

#endif
