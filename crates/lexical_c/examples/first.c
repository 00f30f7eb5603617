#include <lexical.h>
#include <stdio.h>

int main(void)
{
    char buffer[LEXICAL_BUFFER_SIZE];
    size_t count = lexical_decimal(1234567, buffer, sizeof buffer);
    printf("%.*s\n", (int)count, buffer);
    return count == 0;
}
