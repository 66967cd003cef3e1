#include "bundle.h"

#include <string.h>

/* Splits an input into its calls and the text of its bundle. */
struct input input_split(const uint8_t *data, size_t size)
{
    size_t calls = size < COUNT ? 0 : ((size_t)data[0] << 8 | data[1]) % (MOST_CALLS + 1);
    const uint8_t *rest = size < COUNT ? data : data + COUNT;
    size_t left = size < COUNT ? 0 : size - COUNT;

    if (calls > left)
        calls = left;
    return (struct input){{rest, calls}, {rest + calls, left - calls}};
}

/* The value of a digit, or 16 for any other character. */
static unsigned digit(uint8_t character)
{
    if (character >= '0' && character <= '9')
        return character - '0';
    return character >= 'A' && character <= 'F' ? character - 'A' + 10u : 16u;
}

/* Reads one line leniently: pairs that aren't digits and octets past the most are left out. */
static void line_read(struct line *line, const uint8_t *text, size_t length)
{
    size_t i;

    line->count = 0;
    for (i = 0; i + 1 < length && line->count < MOST_OCTETS; i += 2)
        if (digit(text[i]) < 16 && digit(text[i + 1]) < 16)
            line->octets[line->count++] = (uint8_t)(digit(text[i]) << 4 | digit(text[i + 1]));
}

/* Reads the lines of a text, leaving out those with fewer than three octets. */
void bundle_read(struct bundle *bundle, struct slice text)
{
    const uint8_t *at = text.start, *end = text.start + text.length;

    bundle->count = 0;
    while (at < end && bundle->count < MOST_LINES) {
        const uint8_t *stop = memchr(at, '\n', (size_t)(end - at));
        struct line *line = &bundle->lines[bundle->count];
        stop = stop ? stop : end;
        line_read(line, at, (size_t)(stop - at));
        bundle->count += line->count >= 3;
        at = stop + 1;
    }
}

/* Writes one line if there is room, and returns the bytes it took. */
static size_t line_write(const struct line *line, uint8_t *text, size_t room)
{
    static const char digits[] = "0123456789ABCDEF";
    unsigned i;

    if (room < 2 * (size_t)line->count + 1)
        return 0;
    for (i = 0; i < line->count; i++) {
        text[2 * i] = (uint8_t)digits[line->octets[i] >> 4];
        text[2 * i + 1] = (uint8_t)digits[line->octets[i] & 15];
    }
    text[2 * i] = '\n';
    return 2 * (size_t)line->count + 1;
}

/* Writes an input and returns its size; lines without room are left out. */
size_t input_join(uint8_t *data, size_t room, struct slice calls, const struct bundle *bundle)
{
    size_t size = COUNT + calls.length, i;

    if (room < size)
        return 0;
    data[0] = (uint8_t)(calls.length >> 8), data[1] = (uint8_t)calls.length;
    memcpy(data + COUNT, calls.start, calls.length);
    for (i = 0; i < bundle->count; i++)
        size += line_write(&bundle->lines[i], data + size, room - size);
    return size;
}

/* The kind of a line. */
unsigned kind_of(const struct line *line)
{
    return line->octets[1];
}

/* The number of lines of a kind. */
size_t count_of(const struct bundle *bundle, unsigned kind)
{
    size_t i, count = 0;

    for (i = 0; i < bundle->count; i++)
        count += kind_of(&bundle->lines[i]) == kind;
    return count;
}

/* A line of a kind by its place among them, or none. */
const struct line *line_of(const struct bundle *bundle, unsigned kind, size_t number)
{
    size_t i;

    for (i = 0; i < bundle->count; i++)
        if (kind_of(&bundle->lines[i]) == kind && number-- == 0)
            return &bundle->lines[i];
    return NULL;
}

/* The object count of the head line, at least 1. */
unsigned objects_of(const struct bundle *bundle)
{
    const struct line *head = line_of(bundle, HEAD, 0);

    return head && head->count > 4 && head->octets[3] ? head->octets[3] : 1;
}
