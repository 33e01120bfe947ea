/* Memory for what the library reads and writes, made so that harm shows. */
#ifndef MEMORY_H
#define MEMORY_H

#include <stdbool.h>
#include <stddef.h>
#include <stdint.h>

/* No list or buffer has more entries than this: a file of the greatest length, and as much again as
   quotes add to a table whose plain form has it (cases/rooms.rs, MOST_ROOM), or a content over its
   limit to the text of such a table (cases/writer_order.rs). */
enum { MOST = 16777216 + 131072 };

/* What the library only reads: a list of bytes or of 32-bit numbers. Its last entry stands before a
   page that nobody may touch, so a read behind it crashes. */
struct list {
    uint8_t *end;
    size_t capacity;
    size_t width;
    size_t length;
};

void list_open(struct list *list, size_t width, size_t most);
void list_resize(struct list *list, size_t length);
void *list_start(const struct list *list);

/* Whether bytes are the same. memcmp is slow right before a page that nobody may touch: there its
   last load passes the end, and the processor has to undo that. */
bool same_bytes(const uint8_t *one, const uint8_t *other, size_t size);

/* The entries that are lent in each buffer of a table. */
struct room {
    size_t text;
    size_t ends;
    size_t rows;
};

/* The pointer to hand over for `length` entries at `start`: NULL in half of the cases of no
   entries. */
const void *or_null(const void *start, size_t length);

/* What the library may write: `room` entries behind guard bytes, and before as many of these or, in
   half of the cases, before a page that nobody may touch. */
struct lent {
    const char *name;
    uint8_t *end;
    size_t capacity;
    size_t width;
    size_t room;
    size_t behind;
    uint8_t fill;
};

void lent_open(struct lent *lent, const char *name, size_t width, size_t most);

void *lent_start(const struct lent *lent);

/* Fills room and guards afresh and answers the pointer to lend, by `or_null`. */
void *lend(struct lent *lent, size_t room);

/* Where a lent buffer is not what it should be. */
struct difference {
    ptrdiff_t entry;
    uint8_t expected;
    uint8_t came;
};

/* Whether the buffer begins with these entries and all else, guards included, has stayed. There are
   no more of them than there is room. */
bool lent_begins(const struct lent *lent, const void *used, size_t length,
                 struct difference *where);

/* The same for a list, or for nothing, if it is NULL. */
bool lent_holds(const struct lent *lent, const struct list *used, struct difference *where);

#endif
