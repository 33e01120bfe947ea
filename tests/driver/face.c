#include "face.h"

#include <stdio.h>

enum {
    READ,
    READ_STRICT,
    START,
    FEED,
    ASK,
    STREAM_START,
    STREAM_FEED,
    STREAM_CLOSE,
    WRITE,
    FIND_COLUMN,
    SHOW,
    INDEX,
    JUMP,
    CALLS
};

static uint64_t calls[CALLS];

void table_open(struct table *table)
{
    list_open(&table->text, sizeof(uint8_t), MOST);
    list_open(&table->ends, sizeof(uint32_t), MOST);
    list_open(&table->rows, sizeof(uint32_t), MOST);
}

void lent_table_open(struct lent_table *lent)
{
    lent_open(&lent->text, "text", sizeof(uint8_t), MOST);
    lent_open(&lent->ends, "ends", sizeof(uint32_t), MOST);
    lent_open(&lent->rows, "rows", sizeof(uint32_t), MOST);
}

static void numbers_of(sv_answer from, uint32_t *to)
{
    to[0] = from.refusal;
    to[1] = from.line;
    to[2] = from.column;
    to[3] = from.byte;
    to[4] = from.records;
    to[5] = from.fields;
    to[6] = from.text;
    to[7] = from.report;
}

void call_read(const struct list *file, struct dialect dialect, struct lent_table *into,
               struct room room, uint32_t *answer)
{
    calls[READ]++;
    const uint8_t *bytes = or_null(list_start(file), file->length);
    uint8_t *text = lend(&into->text, room.text);
    uint32_t *ends = lend(&into->ends, room.ends);
    uint32_t *rows = lend(&into->rows, room.rows);
    numbers_of(sv_read(bytes, file->length, dialect.delimiter, dialect.leniencies, text, room.text,
                       ends, room.ends, rows, room.rows),
               answer);
}

void call_read_strict(const struct list *file, struct lent_table *into, struct room room,
                      uint32_t *answer)
{
    calls[READ_STRICT]++;
    const uint8_t *bytes = or_null(list_start(file), file->length);
    uint8_t *text = lend(&into->text, room.text);
    uint32_t *ends = lend(&into->ends, room.ends);
    uint32_t *rows = lend(&into->rows, room.rows);
    numbers_of(
        sv_read_strict(bytes, file->length, text, room.text, ends, room.ends, rows, room.rows),
        answer);
}

sv_check call_start(struct dialect dialect)
{
    calls[START]++;
    return sv_check_start(dialect.delimiter, dialect.leniencies);
}

sv_check call_feed(sv_check state, const uint8_t *piece, size_t length)
{
    calls[FEED]++;
    return sv_check_feed(state, or_null(piece, length), length);
}

void call_ask(sv_check state, uint32_t *answer)
{
    calls[ASK]++;
    numbers_of(sv_check_ask(state), answer);
}

sv_stream call_stream_start(struct dialect dialect)
{
    calls[STREAM_START]++;
    return sv_stream_start(dialect.delimiter, dialect.leniencies);
}

sv_streamed call_stream_feed(sv_stream state, const uint8_t *piece, size_t length,
                             struct lent_table *into, struct room room)
{
    calls[STREAM_FEED]++;
    uint8_t *text = lend(&into->text, room.text);
    uint32_t *ends = lend(&into->ends, room.ends);
    uint32_t *rows = lend(&into->rows, room.rows);
    return sv_stream_feed(state, or_null(piece, length), length, text, room.text, ends, room.ends,
                          rows, room.rows);
}

sv_streamed call_stream_close(sv_stream state, struct lent_table *into, struct room room)
{
    calls[STREAM_CLOSE]++;
    lend(&into->text, 0);
    uint32_t *ends = lend(&into->ends, room.ends);
    uint32_t *rows = lend(&into->rows, room.rows);
    return sv_stream_close(state, ends, room.ends, rows, room.rows);
}

void call_write(const struct table *table, uint8_t mode, struct lent *out, size_t room,
                uint32_t *answer)
{
    calls[WRITE]++;
    const uint8_t *text = or_null(list_start(&table->text), table->text.length);
    const uint32_t *ends = or_null(list_start(&table->ends), table->ends.length);
    const uint32_t *rows = or_null(list_start(&table->rows), table->rows.length);
    sv_written written = sv_write(text, table->text.length, ends, table->ends.length, rows,
                                  table->rows.length, mode, lend(out, room), room);
    answer[0] = written.refusal;
    answer[1] = written.line;
    answer[2] = written.column;
    answer[3] = written.byte;
    answer[4] = written.length;
}

void call_find_column(const struct table *table, const struct list *name, uint32_t *answer)
{
    calls[FIND_COLUMN]++;
    const uint8_t *text = or_null(list_start(&table->text), table->text.length);
    const uint32_t *ends = or_null(list_start(&table->ends), table->ends.length);
    const uint32_t *rows = or_null(list_start(&table->rows), table->rows.length);
    const uint8_t *bytes = or_null(list_start(name), name->length);
    sv_column column = sv_find_column(text, table->text.length, ends, table->ends.length, rows,
                                      table->rows.length, bytes, name->length);
    answer[0] = column.refusal;
    answer[1] = column.column;
}

void call_show(const struct table *table, size_t record, size_t column, uint32_t *answer)
{
    calls[SHOW]++;
    const uint8_t *text = or_null(list_start(&table->text), table->text.length);
    const uint32_t *ends = or_null(list_start(&table->ends), table->ends.length);
    const uint32_t *rows = or_null(list_start(&table->rows), table->rows.length);
    sv_part part = sv_show(text, table->text.length, ends, table->ends.length, rows,
                           table->rows.length, record, column);
    answer[0] = part.found;
    answer[1] = part.start;
    answer[2] = part.length;
}

void call_index(const struct list *file, struct dialect dialect, struct lent *into, size_t room,
                uint32_t *answer)
{
    calls[INDEX]++;
    const uint8_t *bytes = or_null(list_start(file), file->length);
    sv_indexed indexed = sv_index(bytes, file->length, dialect.delimiter, dialect.leniencies,
                                  lend(into, room), room);
    answer[0] = indexed.refusal;
    answer[1] = indexed.line;
    answer[2] = indexed.column;
    answer[3] = indexed.byte;
    answer[4] = indexed.entries;
}

void call_jump(const struct list *file, struct dialect dialect, const struct list *index,
               size_t record, uint32_t *answer)
{
    calls[JUMP]++;
    const uint8_t *bytes = or_null(list_start(file), file->length);
    const uint32_t *entries = or_null(list_start(index), index->length);
    sv_jumped jumped = sv_jump(bytes, file->length, dialect.delimiter, dialect.leniencies, entries,
                               index->length, record);
    answer[0] = jumped.refusal;
    answer[1] = jumped.line;
    answer[2] = jumped.column;
    answer[3] = jumped.byte;
    answer[4] = jumped.start;
    answer[5] = jumped.length;
}

static void put_place(sv_place place, uint32_t *to)
{
    to[0] = place.line;
    to[1] = place.column;
    to[2] = place.byte;
}

void numbers_of_state(sv_check state, uint32_t *to)
{
    const uint8_t bytes[] = {state.delimiter,   state.leniencies,  state.refusal,
                             state.form,        state.begun,       state.used.lf,
                             state.used.blanks, state.used.ragged, state.used.bytes};
    for (size_t i = 0; i < sizeof bytes; i++)
        to[i] = bytes[i];
    put_place(state.here, to + 9);
    put_place(state.mark, to + 12);
    put_place(state.field.start, to + 15);
    to[18] = state.field.content;
    to[19] = state.field.held;
    to[20] = state.field.number;
    to[21] = state.counts.records;
    to[22] = state.counts.fields;
    to[23] = state.counts.text;
    to[24] = state.counts.width;
}

static sv_place place_of(const uint32_t *from)
{
    sv_place place = {from[0], from[1], from[2]};
    return place;
}

sv_check state_of_numbers(const uint32_t *from)
{
    sv_check state;
    state.delimiter = (uint8_t)from[0];
    state.leniencies = (uint8_t)from[1];
    state.refusal = (uint8_t)from[2];
    state.form = (uint8_t)from[3];
    state.begun = (uint8_t)from[4];
    state.used.lf = (uint8_t)from[5];
    state.used.blanks = (uint8_t)from[6];
    state.used.ragged = (uint8_t)from[7];
    state.used.bytes = (uint8_t)from[8];
    state.here = place_of(from + 9);
    state.mark = place_of(from + 12);
    state.field.start = place_of(from + 15);
    state.field.content = from[18];
    state.field.held = from[19];
    state.field.number = from[20];
    state.counts.records = from[21];
    state.counts.fields = from[22];
    state.counts.text = from[23];
    state.counts.width = from[24];
    return state;
}

void numbers_of_stream(sv_stream state, uint32_t *to)
{
    numbers_of_state(state.check, to);
    to[STATE] = state.early;
    to[STATE + 1] = state.closed;
}

sv_stream stream_of_numbers(const uint32_t *from)
{
    sv_stream state;
    state.check = state_of_numbers(from);
    state.early = from[STATE];
    state.closed = (uint8_t)from[STATE + 1];
    return state;
}

void numbers_of_given(sv_streamed given, uint32_t *to, uint32_t *answer)
{
    to[0] = (uint32_t)given.taken;
    to[1] = (uint32_t)given.text;
    to[2] = (uint32_t)given.ends;
    to[3] = (uint32_t)given.rows;
    to[4] = given.short_of;
    to[5] = given.closed;
    numbers_of(given.answer, answer);
}

sv_bytes shown_of(const struct table *table, const uint32_t *part, const uint8_t *stand_in,
                  size_t stand_in_length)
{
    sv_part where = {part[0], part[1], part[2]};
    return sv_shown(list_start(&table->text), where, stand_in, stand_in_length);
}

void print_calls(void)
{
    static const char *const names[CALLS] = {
        "sv_read",         "sv_read_strict", "sv_check_start",  "sv_check_feed", "sv_check_ask",
        "sv_stream_start", "sv_stream_feed", "sv_stream_close", "sv_write",      "sv_find_column",
        "sv_show",         "sv_index",       "sv_jump"};
    for (size_t i = 0; i < CALLS; i++)
        printf("%9lu  calls of %s\n", (unsigned long)calls[i], names[i]);
}
