/* Where a message is wrong: reads a text from standard input, and points at its first wrong byte. */
#include "kritnamon.h"

#include <stdio.h>

static uint8_t text[KRITNAMON_TEXT_MOST + 1]; /* one byte more than a message may have */

/* The byte as it can be printed. */
static int shown(uint8_t byte)
{
    return byte >= ' ' && byte <= '~' ? byte : '?';
}

/* Prints the line that has this place, and an arrow below it. The end of a line, and of the text, count as its last byte. */
static void point_at(size_t place, size_t length)
{
    size_t line = 1, from = 0;

    for (size_t i = 0; i < place; i++) {
        if (text[i] == '\n') {
            line++;
            from = i + 1;
        }
    }
    printf("outcome %u, wrong at %zu, in line %zu:\n", KRITNAMON_BAD_MESSAGE, place, line);
    for (size_t i = from; i < length && text[i] != '\n'; i++) {
        putchar(shown(text[i]));
    }
    printf("\n%*s^\n", (int)(place - from), "");
}

int main(void)
{
    uint32_t numbers[KRITNAMON_MESSAGE_NUMBERS];
    size_t length = fread(text, 1, sizeof text, stdin);
    uint64_t answer = kritnamon_read_message(text, length, numbers, KRITNAMON_MESSAGE_NUMBERS);

    if (KRITNAMON_OUTCOME(answer) == KRITNAMON_DONE) {
        puts("a legal message");
        return 0;
    }
    point_at(KRITNAMON_WRONG_AT(answer), length);
    return 1;
}
