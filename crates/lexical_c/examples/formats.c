/* Writes numbers in hexadecimal, in groups, and in lowercase with a prefix, zeros and a NUL. */
#include <lexical.h>
#include <stdio.h>

int main(void)
{
    char buffer[LEXICAL_BUFFER_SIZE];

    size_t count = lexical_write(48879u, LEXICAL_FORMAT(.radix = 16), buffer, sizeof buffer);
    printf("%.*s\n", (int)count, buffer);

    count = lexical_write(1234567, LEXICAL_FORMAT(.radix = 10, .group_size = 3, .mark = ','), buffer, sizeof buffer);
    printf("%.*s\n", (int)count, buffer);

    /* A prefix, the digits after it, and a NUL. */
    char prefixed[2 + LEXICAL_BUFFER_SIZE + 1] = "0x";
    count = lexical_write(48879u, LEXICAL_FORMAT(.radix = 16, .lowercase = 1), prefixed + 2, sizeof prefixed - 2);
    count = lexical_pad(count, 8, prefixed + 2, sizeof prefixed - 2);
    count = lexical_terminate(count, prefixed + 2, sizeof prefixed - 2);
    if (count != 0)
        puts(prefixed);
    return count == 0;
}
