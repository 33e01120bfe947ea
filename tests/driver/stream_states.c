/* Stream states put together by hand, and sessions that keep no rule: no call may take or fill more
   than it was lent, the same calls must give the same, and a piece with ample room must lead to the
   same state and the same output wherever it is cut. What the answers are is not looked at. */
#include "cases.h"
#include "face.h"
#include "hits.h"
#include "report.h"
#include "wire.h"

#include <stdio.h>
#include <string.h>

enum { MOST_FED = 256, CONTENT_LIMIT = 65535, MOST_LENT = CONTENT_LIMIT + MOST_FED };

static struct list fed_first, fed_then, part;
static sv_stream state;
static struct lent_table lent, lent_again;

/* What came out in all calls, of one buffer: of text no more than a state may hold back and each byte
   may add, and of ends and rows one for each byte. */
struct joined {
    size_t size;
    uint8_t bytes[MOST_LENT];
};

/* A way of feeding, so far. */
struct way {
    sv_stream state;
    size_t taken;
    struct joined text, ends, rows;
};
static struct way at_once, in_parts;

static void open_lent(struct lent_table *table)
{
    lent_open(&table->text, "text", sizeof(uint8_t), MOST_LENT);
    lent_open(&table->ends, "ends", sizeof(uint32_t), MOST_LENT);
    lent_open(&table->rows, "rows", sizeof(uint32_t), MOST_LENT);
}

void stream_states_open(void)
{
    list_open(&fed_first, sizeof(uint8_t), MOST_FED);
    list_open(&fed_then, sizeof(uint8_t), MOST_FED);
    list_open(&part, sizeof(uint8_t), MOST_FED);
    open_lent(&lent);
    open_lent(&lent_again);
}

static void show_state(void)
{
    uint32_t numbers[STREAM];
    numbers_of_stream(state, numbers);
    print_words("state", numbers, STREAM);
    print_bytes("fed then", list_start(&fed_then), fed_then.length);
}

static bool is_within(sv_streamed given, size_t length, struct room room, const char *call)
{
    if (given.taken <= length && given.text <= room.text && given.ends <= room.ends &&
        given.rows <= room.rows)
        return true;
    if (disagree("%s of a piece of %lu, with room for %lu, %lu, %lu, passes them", call,
                 (unsigned long)length, (unsigned long)room.text, (unsigned long)room.ends,
                 (unsigned long)room.rows))
        printf("  taken %lu, filled %lu, %lu, %lu\n", (unsigned long)given.taken,
               (unsigned long)given.text, (unsigned long)given.ends, (unsigned long)given.rows);
    return false;
}

/* What was filled is the same in both buffers, and all behind it has stayed. */
static void compare_filled(const struct lent *one, const struct lent *other, size_t length,
                           const char *call)
{
    struct difference where;
    const void *filled = lent_start(one);
    if (lent_begins(one, filled, length, &where) && lent_begins(other, filled, length, &where))
        return;
    if (disagree("%s with room for %lu in %s, of which %lu are filled", call,
                 (unsigned long)one->room, one->name, (unsigned long)length))
        printf("  entry %ld: expected byte %02x, came %02x\n", (long)where.entry, where.expected,
               where.came);
}

static void compare_stream_states(sv_stream expected, sv_stream came, const char *how)
{
    uint32_t numbers[2][STREAM];
    numbers_of_stream(expected, numbers[0]);
    numbers_of_stream(came, numbers[1]);
    if (memcmp(numbers[0], numbers[1], sizeof numbers[0]) != 0 &&
        disagree("the state of a stream, %s", how)) {
        print_words("at first", numbers[0], STREAM);
        print_words("so", numbers[1], STREAM);
    }
}

/* Two calls that were the same. */
static void compare_calls(sv_streamed one, sv_streamed other, size_t length, struct room room,
                          const char *call)
{
    uint32_t numbers[2][GIVEN], answers[2][ANSWER];
    if (!is_within(one, length, room, call) || !is_within(other, length, room, call))
        return;
    numbers_of_given(one, numbers[0], answers[0]);
    numbers_of_given(other, numbers[1], answers[1]);
    agree(numbers[0], numbers[1], GIVEN, "what %s gave when it was called again", call);
    agree(answers[0], answers[1], ANSWER, "the answer of %s called again", call);
    compare_stream_states(one.state, other.state, "called again");
    compare_filled(&lent.text, &lent_again.text, one.text, call);
    compare_filled(&lent.ends, &lent_again.ends, one.ends, call);
    compare_filled(&lent.rows, &lent_again.rows, one.rows, call);
}

static sv_streamed close_twice(sv_stream from, struct room room)
{
    sv_streamed one = call_stream_close(from, &lent, room);
    sv_streamed other = call_stream_close(from, &lent_again, room);
    room.text = 0;
    compare_calls(one, other, 0, room, "sv_stream_close");
    return one;
}

/* A part of what is fed, from a copy that ends before a page that nobody may touch. */
static void put_part(size_t from, size_t length)
{
    list_resize(&part, length);
    memcpy(list_start(&part), (uint8_t *)list_start(&fed_then) + from, length);
}

static sv_streamed feed_twice(sv_stream to, size_t from, size_t length, struct room room)
{
    put_part(from, length);
    sv_streamed one = call_stream_feed(to, list_start(&part), length, &lent, room);
    sv_streamed other = call_stream_feed(to, list_start(&part), length, &lent_again, room);
    compare_calls(one, other, length, room, "sv_stream_feed");
    if (!same_bytes(list_start(&part), (uint8_t *)list_start(&fed_then) + from, length))
        disagree("sv_stream_feed changed the piece that it reads");
    return one;
}

/* Puts what a call filled behind what the calls before it did. */
static void join(struct joined *joined, const struct lent *buffer, size_t length)
{
    size_t size = length * buffer->width;
    if (size > sizeof joined->bytes - joined->size) {
        disagree("a stream puts out more %s than it was fed and may hold", buffer->name);
        return;
    }
    memcpy(joined->bytes + joined->size, lent_start(buffer), size);
    joined->size += size;
}

static void begin(struct way *way)
{
    way->state = state;
    way->taken = way->text.size = way->ends.size = way->rows.size = 0;
}

/* Feeds with ample room: the blanks that a state holds back may come out, but no more than the content
   limit, and each byte may add itself, an end and a row. */
static void feed_amply(struct way *way, size_t from, size_t length)
{
    uint32_t held = way->state.check.field.held;
    struct room room = {(held < CONTENT_LIMIT ? held : CONTENT_LIMIT) + length, length, length};
    put_part(from, length);
    sv_streamed given = call_stream_feed(way->state, list_start(&part), length, &lent, room);
    if (!is_within(given, length, room, "sv_stream_feed"))
        return;
    if (given.short_of != 0)
        disagree("sv_stream_feed of a piece of %lu is short of ample room", (unsigned long)length);
    join(&way->text, &lent.text, given.text);
    join(&way->ends, &lent.ends, given.ends);
    join(&way->rows, &lent.rows, given.rows);
    way->taken += given.taken;
    way->state = given.state;
}

static bool same_joined(const struct joined *one, const struct joined *other)
{
    return one->size == other->size && memcmp(one->bytes, other->bytes, one->size) == 0;
}

static void compare_ways(const char *how)
{
    compare_stream_states(at_once.state, in_parts.state, how);
    if (at_once.taken == in_parts.taken && same_joined(&at_once.text, &in_parts.text) &&
        same_joined(&at_once.ends, &in_parts.ends) && same_joined(&at_once.rows, &in_parts.rows))
        return;
    if (disagree("the joined output of a stream, %s", how))
        printf("  at once taken %lu, bytes of output %lu, %lu, %lu; so %lu, %lu, %lu, %lu\n",
               (unsigned long)at_once.taken, (unsigned long)at_once.text.size,
               (unsigned long)at_once.ends.size, (unsigned long)at_once.rows.size,
               (unsigned long)in_parts.taken, (unsigned long)in_parts.text.size,
               (unsigned long)in_parts.ends.size, (unsigned long)in_parts.rows.size);
}

/* Feeds the state at once, byte by byte and in two pieces. */
static void feed_alike(size_t cut)
{
    begin(&at_once);
    feed_amply(&at_once, 0, fed_then.length);
    begin(&in_parts);
    for (size_t i = 0; i < fed_then.length; i++)
        feed_amply(&in_parts, i, 1);
    if (fed_then.length > 0)
        compare_ways("fed byte by byte");
    begin(&in_parts);
    feed_amply(&in_parts, 0, cut);
    feed_amply(&in_parts, cut, fed_then.length - cut);
    compare_ways("fed in two pieces");
}

/* Feeds what is left again and again with this room, which may be too little, and closes. */
static void go_on(struct room room)
{
    enum { TIMES = 4 };
    sv_stream now = state;
    size_t from = 0;
    close_twice(now, room);
    for (int time = 0; time < TIMES; time++) {
        sv_streamed given = feed_twice(now, from, fed_then.length - from, room);
        if (given.taken > fed_then.length - from)
            return;
        from += given.taken;
        now = given.state;
    }
    close_twice(close_twice(now, room).state, room);
}

void take_stream_hand_state(void)
{
    static const struct room ample = {MOST_FED, MOST_FED, MOST_FED};
    struct dialect dialect;
    dialect.delimiter = take_byte();
    dialect.leniencies = take_byte();
    take_list(&fed_first);
    uint64_t seed = take_number();
    uint64_t hits = take_number();
    take_list(&fed_then);
    size_t cut = take_number();
    struct room room = take_room();
    if (cut > fed_then.length)
        broken_wire("a cut is behind what is fed");
    case_begins(show_state);
    state = call_stream_start(dialect);
    state = call_stream_feed(state, list_start(&fed_first), fed_first.length, &lent, ample).state;
    hit(&state, sizeof state, seed, hits);
    go_on(room);
    feed_alike(cut);
}

void take_stream_numbered_state(void)
{
    uint32_t numbers[STREAM];
    for (size_t i = 0; i < STREAM; i++)
        numbers[i] = (uint32_t)take_number();
    take_list(&fed_then);
    size_t cut = take_number();
    struct room room = take_room();
    if (cut > fed_then.length)
        broken_wire("a cut is behind what is fed");
    state = stream_of_numbers(numbers);
    case_begins(show_state);
    go_on(room);
    feed_alike(cut);
}

void take_unruly_session(void)
{
    struct dialect dialect;
    dialect.delimiter = take_byte();
    dialect.leniencies = take_byte();
    state = call_stream_start(dialect);
    case_begins(show_state);
    for (uint64_t calls = take_number(); calls > 0; calls--) {
        bool closes = take_byte() != 0;
        struct room room = take_room();
        list_resize(&fed_then, 0);
        if (!closes)
            take_list(&fed_then);
        state = closes ? close_twice(state, room).state
                       : feed_twice(state, 0, fed_then.length, room).state;
    }
}
