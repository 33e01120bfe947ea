#include "wire.h"

#include "report.h"

#include <string.h>
#include <unistd.h>

/* Lists of at most this many entries come entry by entry. */
enum { PLAIN_LIST = 64 };

static uint8_t buffer[65536];
static size_t at, filled;

static bool refill(void)
{
    ssize_t got = read(0, buffer, sizeof buffer);
    at = 0;
    filled = got > 0 ? (size_t)got : 0;
    return filled > 0;
}

bool wire_ends(void) { return at == filled && !refill(); }

uint8_t take_byte(void)
{
    if (at == filled && !refill())
        broken_wire("it ends before its trailer");
    return buffer[at++];
}

uint64_t take_number(void)
{
    uint64_t number = 0;
    unsigned shift = 0;
    uint8_t byte;
    do {
        if (shift > 63)
            broken_wire("a number without end");
        byte = take_byte();
        number |= (uint64_t)(byte & 0x7F) << shift;
        shift += 7;
    } while (byte >= 0x80);
    return number;
}

uint8_t take_masked(uint32_t *into, unsigned count)
{
    uint8_t mask = take_byte();
    for (unsigned i = 0; i < count; i++)
        into[i] = mask >> i & 1 ? (uint32_t)take_number() : 0;
    return mask;
}

void take_answer(uint32_t *into, unsigned count) { take_masked(into, count); }

struct room take_room(void)
{
    struct room room;
    room.text = take_number();
    room.ends = take_number();
    room.rows = take_number();
    return room;
}

static void put(struct list *into, size_t index, uint64_t entry)
{
    if (into->width == 1)
        ((uint8_t *)list_start(into))[index] = (uint8_t)entry;
    else
        ((uint32_t *)list_start(into))[index] = (uint32_t)entry;
}

/* Many equal bytes at once, since most long runs are that. */
static void put_run(struct list *into, size_t index, uint64_t entry, uint64_t step, uint64_t count)
{
    if (into->width == 1 && step == 0) {
        memset((uint8_t *)list_start(into) + index, (uint8_t)entry, count);
        return;
    }
    for (; count > 0; count--, entry += step)
        put(into, index++, entry);
}

void take_list(struct list *into)
{
    size_t length = take_number();
    list_resize(into, length);
    if (length <= PLAIN_LIST) {
        for (size_t i = 0; i < length; i++)
            put(into, i, take_number());
        return;
    }
    for (size_t i = 0; i < length;) {
        uint64_t entry = take_number();
        uint64_t zigzag = take_number();
        uint64_t step = zigzag >> 1 ^ (0 - (zigzag & 1));
        uint64_t count = take_number();
        if (count == 0 || count > length - i)
            broken_wire("a run is longer than its list");
        put_run(into, i, entry, step, count);
        i += count;
    }
}

/* Puts a part of this length, which stands there once, there as often as makes up the whole. */
static void repeat(uint8_t *bytes, size_t length, size_t whole)
{
    for (size_t done = length, more; done < whole; done += more) {
        more = done < whole - done ? done : whole - done;
        memcpy(bytes + done, bytes, more);
    }
}

/* The file is built in the front of its list's memory, since its length comes out only then. */
void take_parts(struct list *into)
{
    static struct list part;
    if (part.end == NULL)
        list_open(&part, sizeof(uint8_t), MOST);
    list_resize(into, into->capacity);
    uint8_t *front = list_start(into);
    size_t length = 0;
    for (uint64_t parts = take_number(); parts > 0; parts--) {
        take_list(&part);
        uint64_t times = take_number();
        if (part.length == 0 || times == 0)
            continue;
        if (times > (into->capacity - length) / part.length)
            broken_wire("a file is too long");
        memcpy(front + length, list_start(&part), part.length);
        repeat(front + length, part.length, part.length * times);
        length += part.length * times;
    }
    list_resize(into, length);
    memmove(list_start(into), front, length);
}
