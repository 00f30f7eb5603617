/* Writes a line of three numbers into one buffer, or says why it cannot. */
#include <lexical.h>
#include <stdio.h>
#include <string.h>

/* The end of a line, and how many bytes of its buffer are left. */
struct line {
    char *end;
    size_t left;
};

/* Goes past the text that a call has written at the end. Returns 0 if the call has written none. */
static int grow(struct line *line, size_t count)
{
    line->end += count;
    line->left -= count;
    return count != 0;
}

/* Adds words to the line. Returns 0 if they do not fit. */
static int add(struct line *line, const char *words)
{
    size_t count = strlen(words);
    if (count > line->left)
        return 0;
    memcpy(line->end, words, count);
    return count == 0 || grow(line, count);
}

/* Prints the line, with its first number in this radix, or why it does not go into a buffer of this size. */
static void print_line(int radix, size_t size)
{
    const struct lexical_format format = LEXICAL_RADIX(radix);
    const struct lexical_format grouped = { .radix = 10, .group_size = 3, .mark = ',' };
    char buffer[64];
    struct line line = { buffer, size };
    int is_written = add(&line, "id=0x")
        && grow(&line, lexical_write(48879u, &format, line.end, line.left))
        && add(&line, " size=")
        && grow(&line, lexical_write(1234567u, &grouped, line.end, line.left))
        && add(&line, " change=")
        && grow(&line, lexical_decimal(-42, line.end, line.left));
    if (is_written)
        printf("%.*s\n", (int)(line.end - buffer), buffer);
    else if (lexical_check_format(&format) != 0)
        puts("The format is invalid.");
    else
        printf("The line has more than %zu bytes.\n", size);
}

int main(void)
{
    print_line(16, 64);
    print_line(16, 20);
    print_line(37, 64);
}
