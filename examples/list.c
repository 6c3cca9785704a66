/* list FILE: lists the fields of the payload in a file, a line for each: its name, its kind, and its value where that is a
 * number, a time or text. What stands in a container stands below it, two spaces further in.
 *
 * A fault ends the listing where it is met; its number and words go to standard error. The exit status is 0, or 1 for a fault,
 * or 2 where the file cannot be read or no file is named. Nothing is asked of the payload first: what is read is checked on
 * the way. tests/example builds and runs it. */
#include "ajuqvane.h"

#include <errno.h>
#include <inttypes.h>
#include <stdio.h>
#include <string.h>

/* The longest payload has 65536 bytes; one more shows that a file is too long. */
#define LONGEST 65536

/* What the calls answer where they have no answer and meet no fault. */
#define NO_MORE 3
#define WRONG_KIND 6
#define OUT_OF_RANGE 7

static uint8_t payload[LONGEST + 1];
static size_t length;

struct place {
    uint8_t kind;
    size_t start, end;
    uint32_t depth;
};

/* The arguments that every call on a place starts with. */
#define AT(place) payload, length, (place).kind, (place).start, (place).end, (place).depth

static const char *const kinds[] = {
    [0x01] = "null", [0x02] = "object", [0x03] = "uniform object", [0x04] = "array",
    [0x05] = "uniform array", [0x06] = "binary", [0x07] = "string", [0x08] = "integer",
    [0x09] = "integer", [0x0A] = "float32", [0x0B] = "float64", [0x0C] = "false",
    [0x0D] = "true", [0x0E] = "object attachment", [0x0F] = "binary attachment", [0x10] = "hash",
    [0x11] = "uuid", [0x12] = "date", [0x13] = "time span", [0x14] = "object id",
    [0x1E] = "custom by id", [0x1F] = "custom by name",
};

static const struct {
    uint32_t number;
    const char *words;
} faults[] = {
    {1, "bytes end early, or a size does not fit"},
    {2, "an unknown kind, or other flags than its place asks"},
    {4, "a field at depth 33"},
    {8, "more than 65536 bytes"},
    {2048, "a uniform container that cannot be: empty, or an array of nulls or truth values"},
};

/* The first four numbers of an answer. */
static struct place place_of(const uint64_t *answer)
{
    struct place place = {(uint8_t)answer[0], (size_t)answer[1], (size_t)answer[2], (uint32_t)answer[3]};
    return place;
}

/* Text between quotation marks. A maker may have put anything into it: quotation marks, backslashes, the control characters of
 * ASCII and, where the whole is no UTF-8, all past ASCII are written by their numbers. */
static void print_text(size_t from, size_t to)
{
    uint32_t is_text = ajuqvane_is_text(payload + from, to - from);
    size_t i;

    putchar('"');
    for (i = from; i < to; i++) {
        uint8_t byte = payload[i];
        if (byte < 0x20 || byte == 0x7F || byte == '"' || byte == '\\' || (byte >= 0x80 && !is_text))
            printf("\\x%02x", byte);
        else
            putchar(byte);
    }
    putchar('"');
}

/* What a number in two's complement stands for. */
static int64_t signed_of(uint64_t number)
{
    int64_t value;
    memcpy(&value, &number, sizeof value);
    return value;
}

/* The value of a leaf, after its kind: 0, or the number of a fault. */
static uint32_t print_value(struct place place)
{
    uint64_t answer[2];
    uint32_t code;
    double number;

    switch (place.kind) {
    case 0x08:
        code = ajuqvane_unsigned(AT(place), answer, 2);
        if (code == 0)
            printf(" %" PRIu64, answer[0]);
        return code;
    case 0x09:
        code = ajuqvane_signed(AT(place), answer, 2);
        if (code == OUT_OF_RANGE) {
            printf(" below the least of 64 bits");
            return 0;
        }
        if (code == 0)
            printf(" %" PRId64, signed_of(answer[0]));
        return code;
    case 0x0A:
    case 0x0B:
        code = ajuqvane_double(AT(place), answer, 2);
        if (code != 0)
            return code;
        memcpy(&number, answer, sizeof number);
        if (number != number)
            printf(" NaN");
        else
            printf(" %.17g", number);
        return 0;
    case 0x12:
    case 0x13:
        code = ajuqvane_ticks(AT(place), answer, 2);
        if (code == 0)
            printf(" %" PRId64 " ticks", signed_of(answer[0]));
        return code;
    case 0x07:
        code = ajuqvane_view(AT(place), answer, 2);
        if (code == 0) {
            putchar(' ');
            print_text((size_t)answer[0], (size_t)answer[1]);
        }
        return code;
    case 0x06:
    case 0x1E:
    case 0x1F:
        code = ajuqvane_view(AT(place), answer, 2);
        if (code == 0)
            printf(", %" PRIu64 " bytes", answer[1] - answer[0]);
        return code;
    default:
        return 0;
    }
}

/* Lists what stands in a place, whose line has been begun: 0, or the number of a fault. */
static uint32_t list(struct place place)
{
    uint64_t answer[5];
    uint32_t code = print_value(place);
    size_t last = 0;
    uint32_t some = 0;

    putchar('\n');
    if (code != 0)
        return code;
    for (;;) {
        struct place field;
        code = ajuqvane_step(AT(place), some, last, answer, 5);
        if (code == NO_MORE || code == WRONG_KIND)
            return 0;
        if (code != 0)
            return code;
        field = place_of(answer);
        printf("%*s", (int)(2 * (field.depth - 1)), "");
        if (place.kind == 0x02 || place.kind == 0x03) {
            print_text((size_t)answer[4], field.start);
            printf(": ");
        }
        printf("%s", kinds[field.kind]);
        code = list(field);
        if (code != 0)
            return code;
        some = 1;
        last = field.end;
    }
}

static int refuse(const char *path, const char *reason)
{
    fprintf(stderr, "list: cannot read %s: %s\n", path, reason);
    return 2;
}

int main(int count, char **words)
{
    uint64_t answer[4];
    uint32_t code;
    size_t i;
    FILE *file;

    if (count != 2) {
        fprintf(stderr, "usage: list FILE\n");
        return 2;
    }
    file = fopen(words[1], "rb");
    if (file == NULL)
        return refuse(words[1], strerror(errno));
    length = fread(payload, 1, sizeof payload, file);
    if (ferror(file)) {
        int reason = errno;
        fclose(file);
        return refuse(words[1], strerror(reason));
    }
    fclose(file);

    code = ajuqvane_top(payload, length, answer, 4);
    if (code == 0) {
        struct place top = place_of(answer);
        printf("%s", kinds[top.kind]);
        code = list(top);
    }
    if (code == 0)
        return 0;
    fflush(stdout);
    for (i = 0; i < sizeof faults / sizeof faults[0]; i++)
        if (code == faults[i].number)
            fprintf(stderr, "list: fault %" PRIu32 ": %s\n", code, faults[i].words);
    return 1;
}
