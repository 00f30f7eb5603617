/*
 * One call of the library, for a compiler to report. tests/header.sh compiles it with -DCALL=.., which names one of the
 * calls below. Of valid arguments a compiler says nothing. Then -DVALUE=.., -DFORMAT=.., -DRADIX=.. or -DSIZE=.. makes
 * an argument wrong, or -DUNUSED ignores the result.
 */
#include "lexical.h"

#ifndef VALUE
#define VALUE 1
#endif
#ifndef SIZE
#define SIZE sizeof buffer
#endif
/* A RADIX is that of an unnamed format. */
#if defined(RADIX) && defined(__cplusplus)
#define FORMAT LEXICAL_RADIX(RADIX)
#elif defined(RADIX)
#define FORMAT &(const struct lexical_format)LEXICAL_RADIX(RADIX)
#elif !defined(FORMAT)
#define FORMAT format
#endif

/* Calls of which the type of the value chooses the function. C89 does not have them. */
#define DECIMAL lexical_decimal(VALUE, buffer, SIZE)
#define WRITE lexical_write(VALUE, FORMAT, buffer, SIZE)
#define LENGTH lexical_length(VALUE, FORMAT)
/* In C++ they also take a format that is no pointer. */
#define WRITE_OBJECT lexical_write(VALUE, *format, buffer, SIZE)
#define LENGTH_OBJECT lexical_length(VALUE, *format)
/* Calls that name a type, such as u8. */
#define DECIMAL_OF(type) lexical_decimal_##type(VALUE, buffer, SIZE)
#define WRITE_OF(type) lexical_write_##type(VALUE, FORMAT, buffer, SIZE)
#define LENGTH_OF(type) lexical_length_##type(VALUE, FORMAT)
#define BUFFER_SIZE_OF(type) lexical_buffer_size_##type(FORMAT)
/* Calls that have no type. */
#define CHECK_FORMAT lexical_check_format(FORMAT)
#define PAD lexical_pad(1, 2, buffer, SIZE)

extern const struct lexical_format *format;
extern char buffer[4];
void use(size_t result);
void call(void);

void call(void)
{
#ifdef UNUSED
    CALL;
#else
    use(CALL);
#endif
}
