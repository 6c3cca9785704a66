/* receive FILE: reads the VarUInt at the front of a file, as a receiver would, and not a byte behind it.
 *
 * Holding nothing at first, it asks how many bytes are missing, reads as many, and asks again. Prints a line for each wait, and
 * then the value and how many bytes it takes. The exit status is 0 for a whole value, 1 where the file ends before the value does,
 * and 2 where the file cannot be read or not one file is named. tests/example builds and runs it. */
#include "ajuqvane.h"

#include <errno.h>
#include <inttypes.h>
#include <stdio.h>
#include <string.h>

/* The longest VarUInt: what is held and what is missing are never more. */
#define LONGEST 9

int main(int count, char **words)
{
    uint8_t part[LONGEST] = {0};
    uint64_t answer[3];
    size_t length = 0;
    FILE *file;

    if (count != 2) {
        fprintf(stderr, "usage: receive FILE\n");
        return 2;
    }
    file = fopen(words[1], "rb");
    if (file == NULL) {
        fprintf(stderr, "receive: cannot read %s: %s\n", words[1], strerror(errno));
        return 2;
    }
    /* What is behind the value is left to whoever reads on. */
    setvbuf(file, NULL, _IONBF, 0);
    while (ajuqvane_varuint(part, length, answer, 3) == 1) {
        size_t missing = (size_t)answer[0], got;

        if (feof(file)) {
            fprintf(stderr, "receive: %s ends early, missing: %zu\n", words[1], missing);
            fclose(file);
            return 1;
        }
        printf("waits for %zu\n", missing);
        got = fread(part + length, 1, missing, file);
        if (ferror(file)) {
            fprintf(stderr, "receive: cannot read %s: %s\n", words[1], strerror(errno));
            fclose(file);
            return 2;
        }
        length += got;
    }
    fclose(file);
    printf("%" PRIu64 " (bytes: %" PRIu64 "%s)\n", answer[0], answer[1], answer[2] == 1 ? "" : ", longer than it has to be");
    return 0;
}
