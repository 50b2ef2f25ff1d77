/* An example of a card printer's program: it reads pictures in hexadecimal, one a line, and prints
 * for each the number that the check answers, 0 for a sound one that may go to the printer.
 * Empty lines and lines that begin with # are passed over, and a dash alone stands for no bytes. */
#include <stdio.h>
#include <string.h>

#include "zukhelondo_check.h"

/* No picture is longer than nine bytes and 1,008 key words. */
enum { MOST_BYTES = 9 + 4 * 1008, MOST_LETTERS = 4 * MOST_BYTES };

/* The value of a hexadecimal digit, or -1. */
static int digit(char letter)
{
    if (letter >= '0' && letter <= '9')
        return letter - '0';
    if (letter >= 'A' && letter <= 'F')
        return letter - 'A' + 10;
    if (letter >= 'a' && letter <= 'f')
        return letter - 'a' + 10;
    return -1;
}

/* Writes the bytes of a line to the place and their number to length; answers 0 where the line is
 * no hexadecimal of whole bytes. One byte more than a picture's most is kept, so that what is too
 * long stays too long. */
static int bytes_of(const char *line, uint8_t place[MOST_BYTES + 1], size_t *length)
{
    size_t count = 0;
    if (strcmp(line, "-") == 0)
        line = "";
    while (*line != '\0') {
        if (*line == ' ') {
            line += 1;
            continue;
        }
        int high = digit(line[0]);
        int low = high < 0 ? -1 : digit(line[1]);
        if (low < 0)
            return 0;
        if (count <= MOST_BYTES)
            place[count++] = (uint8_t)(high * 16 + low);
        line += 2;
    }
    *length = count;
    return 1;
}

int main(void)
{
    static char line[MOST_LETTERS + 2];
    static uint8_t picture[MOST_BYTES + 1];
    unsigned long number = 0;
    while (fgets(line, sizeof line, stdin) != NULL) {
        size_t length = strlen(line);
        number += 1;
        if (length == sizeof line - 1 && line[length - 1] != '\n') {
            fprintf(stderr, "line %lu: longer than any picture\n", number);
            return 1;
        }
        line[strcspn(line, "\r\n")] = '\0';
        if (line[0] == '\0' || line[0] == '#')
            continue;
        if (bytes_of(line, picture, &length))
            printf("%u\n", (unsigned)zukhelondo_check(picture, length));
        else
            printf("line %lu: not hexadecimal\n", number);
    }
    return ferror(stdin) || fflush(stdout) != 0;
}
