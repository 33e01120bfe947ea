/* The library's calls, counted, with answers as plain numbers. */
#ifndef FACE_H
#define FACE_H

#include "memory.h"
#include "siprovault.h"

struct dialect {
    uint8_t delimiter;
    uint8_t leniencies;
};

/* A table to hand in, or one that is expected. */
struct table {
    struct list text;
    struct list ends;
    struct list rows;
};

/* Buffers to read into. */
struct lent_table {
    struct lent text;
    struct lent ends;
    struct lent rows;
};

void table_open(struct table *table);
void lent_table_open(struct lent_table *lent);

void call_read(const struct list *file, struct dialect dialect, struct lent_table *into,
               struct room room, uint32_t *answer);
void call_read_strict(const struct list *file, struct lent_table *into, struct room room,
                      uint32_t *answer);
sv_check call_start(struct dialect dialect);
sv_check call_feed(sv_check state, const uint8_t *piece, size_t length);
void call_ask(sv_check state, uint32_t *answer);
void call_write(const struct table *table, uint8_t mode, struct lent *out, size_t room,
                uint32_t *answer);
void call_find_column(const struct table *table, const struct list *name, uint32_t *answer);
void call_show(const struct table *table, size_t record, size_t column, uint32_t *answer);
void call_index(const struct list *file, struct dialect dialect, struct lent *into, size_t room,
                uint32_t *answer);
void call_jump(const struct list *file, struct dialect dialect, const struct list *index,
               size_t record, uint32_t *answer);

/* The numbers of a check's state, in the order of the header, without the bytes between them. */
enum { STATE = 25 };
void numbers_of_state(sv_check state, uint32_t *to);
sv_check state_of_numbers(const uint32_t *from);

/* A close has no text, of which no entry is lent then. */
sv_stream call_stream_start(struct dialect dialect);
sv_streamed call_stream_feed(sv_stream state, const uint8_t *piece, size_t length,
                             struct lent_table *into, struct room room);
sv_streamed call_stream_close(sv_stream state, struct lent_table *into, struct room room);

/* The numbers of a stream's state: the check's, how many blanks are out, whether it is closed. */
enum { STREAM = STATE + 2 };
void numbers_of_stream(sv_stream state, uint32_t *to);
sv_stream stream_of_numbers(const uint32_t *from);

/* The numbers that a call gave, and its answer's; what it took and filled is within 32 bits. */
void numbers_of_given(sv_streamed given, uint32_t *to, uint32_t *answer);

/* What the header's inline function hands out for the numbers of a part. */
sv_bytes shown_of(const struct table *table, const uint32_t *part, const uint8_t *stand_in,
                  size_t stand_in_length);

void print_calls(void);

#endif
