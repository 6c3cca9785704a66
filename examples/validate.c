/* validate FILE: says what is wrong with the payload in a file, checked strictly.
 *
 * Prints `0: strict`, or the mask and a line for each fault in it. The exit status is 0 for mask 0, 1 for another mask, and 2
 * where the file cannot be read or no file is named. tests/example builds and runs it. */
#include "ajuqvane.h"

#include <errno.h>
#include <inttypes.h>
#include <stdio.h>
#include <string.h>

/* All three modes: names, format and padding. */
#define STRICT 7

/* The longest payload has 65536 bytes; one more shows that a file is too long. */
#define LONGEST 65536

static const struct {
    uint32_t value;
    const char *words;
} faults[] = {
    {1, "bytes end early, a size does not fit, an item is missing, or bytes are left in a container"},
    {2, "an unknown kind, or other flags than its place asks"},
    {4, "a field at depth 33"},
    {8, "more than 65536 bytes"},
    {16, "two fields of one object have the same name"},
    {32, "a field name is empty"},
    {64, "a number, a size, a count or a length is longer than it has to be"},
    {128, "an integer is below the least signed 64-bit integer"},
    {256, "a Float64 that Float32 holds exactly"},
    {512, "a string or a name is not UTF-8"},
    {1024, "a container that has to be uniform is not written so"},
    {2048, "a uniform container that cannot be: empty, or an array of nulls or truth values"},
    {4096, "bytes after the top field"},
};

static int refuse(const char *path, const char *reason)
{
    fprintf(stderr, "validate: cannot read %s: %s\n", path, reason);
    return 2;
}

int main(int count, char **words)
{
    static uint8_t payload[LONGEST + 1];
    FILE *file;
    size_t length, i;
    uint32_t mask;

    if (count != 2) {
        fprintf(stderr, "usage: validate FILE\n");
        return 2;
    }
    file = fopen(words[1], "rb");
    if (file == NULL)
        return refuse(words[1], strerror(errno));
    length = fread(payload, 1, sizeof payload, file);
    if (ferror(file)) {
        int reason = errno;
        fclose(file);
        return refuse(words[1], strerror(reason));
    }
    fclose(file);

    mask = ajuqvane_validate(STRICT, payload, length);
    if (mask == 0) {
        printf("0: strict\n");
        return 0;
    }
    printf("%" PRIu32 "\n", mask);
    for (i = 0; i < sizeof faults / sizeof faults[0]; i++)
        if (mask & faults[i].value)
            printf("%s\n", faults[i].words);
    return 1;
}
