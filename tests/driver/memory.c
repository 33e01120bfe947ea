#include "memory.h"

#include "report.h"

#include <stdlib.h>
#include <string.h>
#include <sys/mman.h>

enum { PAGE = 4096, GUARD = 16 };

/* A coin that falls the same way in every run. */
static bool coin(void)
{
    static uint32_t state = 1;
    state = state * 1664525 + 1013904223;
    return state >> 31 != 0;
}

/* Fresh memory of at least `size` bytes; the end of what may be touched goes to `end`. */
static uint8_t *fresh(size_t size, uint8_t **end)
{
    size_t whole = (size + PAGE - 1) / PAGE * PAGE;
    uint8_t *area = mmap(NULL, whole + PAGE, PROT_READ | PROT_WRITE,
                         MAP_PRIVATE | MAP_ANONYMOUS | MAP_NORESERVE, -1, 0);
    if (area == MAP_FAILED || mprotect(area + whole, PAGE, PROT_NONE) != 0)
        exit(3);
    *end = area + whole;
    return area;
}

bool same_bytes(const uint8_t *one, const uint8_t *other, size_t size)
{
    enum { SHORT = 64 };
    if (size > SHORT)
        return memcmp(one, other, size) == 0;
    for (size_t i = 0; i < size; i++)
        if (one[i] != other[i])
            return false;
    return true;
}

void list_open(struct list *list, size_t width, size_t most)
{
    fresh(most * width, &list->end);
    list->capacity = most;
    list->width = width;
    list->length = 0;
}

void list_resize(struct list *list, size_t length)
{
    if (length > list->capacity)
        broken_wire("a list is too long");
    list->length = length;
}

void *list_start(const struct list *list) { return list->end - list->length * list->width; }

const void *or_null(const void *start, size_t length)
{
    return length == 0 && coin() ? NULL : start;
}

void lent_open(struct lent *lent, const char *name, size_t width, size_t most)
{
    fresh(GUARD + most * width + GUARD, &lent->end);
    lent->name = name;
    lent->capacity = most;
    lent->width = width;
}

/* The guard bytes before the room, the room and those behind it. */
static size_t bytes_of(const struct lent *lent)
{
    return GUARD + lent->room * lent->width + lent->behind;
}

static uint8_t *area_of(const struct lent *lent) { return lent->end - bytes_of(lent); }

void *lent_start(const struct lent *lent) { return area_of(lent) + GUARD; }

void *lend(struct lent *lent, size_t room)
{
    if (room > lent->capacity)
        broken_wire("more room than the driver has");
    lent->room = room;
    /* One of two fillings: a byte written in many calls cannot pass for untouched in all. */
    lent->fill = coin() ? 0xC3 : 0x3C;
    lent->behind = coin() ? GUARD : 0;
    memset(area_of(lent), lent->fill, bytes_of(lent));
    return (void *)or_null(lent_start(lent), room);
}

static bool all_filled(const uint8_t *bytes, size_t size, uint8_t fill)
{
    return size == 0 || (bytes[0] == fill && same_bytes(bytes, bytes + 1, size - 1));
}

static void find(const struct lent *lent, const uint8_t *used, size_t size,
                 struct difference *where)
{
    for (size_t i = 0; i < bytes_of(lent); i++) {
        bool is_used = i >= GUARD && i < GUARD + size;
        where->expected = is_used ? used[i - GUARD] : lent->fill;
        where->came = area_of(lent)[i];
        where->entry = ((ptrdiff_t)i - GUARD) / (ptrdiff_t)lent->width;
        if (where->expected != where->came)
            return;
    }
}

bool lent_begins(const struct lent *lent, const void *used, size_t length, struct difference *where)
{
    const uint8_t *area = area_of(lent);
    size_t size = length * lent->width;
    size_t unused = GUARD + size;
    if (all_filled(area, GUARD, lent->fill) && same_bytes(area + GUARD, used, size) &&
        all_filled(area + unused, bytes_of(lent) - unused, lent->fill))
        return true;
    find(lent, used, size, where);
    return false;
}

bool lent_holds(const struct lent *lent, const struct list *used, struct difference *where)
{
    return used == NULL ? lent_begins(lent, NULL, 0, where)
                        : lent_begins(lent, list_start(used), used->length, where);
}
