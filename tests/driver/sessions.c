/* Files by the stream: sessions of calls, each compared with what is expected of it. */
#include "cases.h"
#include "face.h"
#include "report.h"
#include "wire.h"

#include <stdio.h>
#include <string.h>

/* Of a session's calls the last ones are shown. */
enum { SHOWN_CALLS = 12 };

struct call {
    bool closes;
    size_t offered;
    struct room room;
    uint32_t given[GIVEN];
    uint32_t answer[ANSWER];
};

static struct dialect dialect;
static struct list file;
static struct list piece;
static struct lent_table lent;

/* All that comes out of the file, and how far the session has come in it and in the file. */
static struct table out;
static size_t taken;
static struct room filled;

/* The session's calls so far, the present one included. */
static struct call calls[SHOWN_CALLS];
static uint64_t called;

void sessions_open(void)
{
    list_open(&file, sizeof(uint8_t), MOST);
    list_open(&piece, sizeof(uint8_t), MOST);
    table_open(&out);
    lent_table_open(&lent);
}

static struct call *call_of(uint64_t number) { return &calls[(number - 1) % SHOWN_CALLS]; }

static void show_call(uint64_t number)
{
    const struct call *call = call_of(number);
    printf("  call %lu: ", (unsigned long)number);
    if (call->closes)
        printf("close");
    else
        printf("feed of %lu bytes", (unsigned long)call->offered);
    printf(" with room for %lu, %lu, %lu", (unsigned long)call->room.text,
           (unsigned long)call->room.ends, (unsigned long)call->room.rows);
    if (number < called)
        printf(", gave %u, %u, %u, %u, short_of %u, closed %u, refusal %u", call->given[0],
               call->given[1], call->given[2], call->given[3], call->given[4], call->given[5],
               call->answer[0]);
    printf("\n");
}

static void show_session(void)
{
    print_bytes("file", list_start(&file), file.length);
    printf(
        "  delimiter %02x, leniencies %u; %lu bytes and %lu, %lu, %lu entries before this call\n",
        dialect.delimiter, dialect.leniencies, (unsigned long)taken, (unsigned long)filled.text,
        (unsigned long)filled.ends, (unsigned long)filled.rows);
    uint64_t number = called > SHOWN_CALLS ? called - SHOWN_CALLS : 0;
    while (number < called)
        show_call(++number);
}

/* The bytes of the file that are not taken, and how many of them a call offers at most. */
static const uint8_t *rest(void) { return (uint8_t *)list_start(&file) + taken; }

static size_t own_of(size_t offered)
{
    size_t left = file.length - taken;
    return offered < left ? offered : left;
}

/* The next bytes of the file, and behind its end others. */
static void offer(size_t length)
{
    static const uint8_t others[] = "a,\"\r\n";
    size_t own = own_of(length);
    list_resize(&piece, length);
    uint8_t *bytes = list_start(&piece);
    memcpy(bytes, rest(), own);
    for (size_t i = own; i < length; i++)
        bytes[i] = others[i % (sizeof others - 1)];
}

static sv_streamed make_call(sv_stream state, const struct call *call)
{
    if (call->closes)
        return call_stream_close(state, &lent, call->room);
    return call_stream_feed(state, list_start(&piece), piece.length, &lent, call->room);
}

static bool buffer_agrees(const struct lent *buffer, const struct list *all, size_t from,
                          uint32_t length)
{
    struct difference where;
    const uint8_t *used = (uint8_t *)list_start(all) + from * all->width;
    if (lent_begins(buffer, used, length, &where))
        return true;
    if (disagree("what call %lu filled", (unsigned long)called))
        printf("  %s at entry %ld: expected byte %02x, came %02x\n", buffer->name,
               (long)where.entry, where.expected, where.came);
    return false;
}

/* Whether a call gave what is expected. Numbers that do not fit 32 bits are more than was lent. */
static bool call_agrees(const struct call *call, sv_streamed came)
{
    uint32_t numbers[GIVEN], answer[ANSWER];
    if ((came.taken | came.text | came.ends | came.rows) > UINT32_MAX) {
        disagree("call %lu gave numbers of more than 32 bits", (unsigned long)called);
        return false;
    }
    numbers_of_given(came, numbers, answer);
    bool same = agree(call->given, numbers, GIVEN, "what call %lu gave", (unsigned long)called);
    same &= agree(call->answer, answer, ANSWER, "the answer of call %lu", (unsigned long)called);
    same &= buffer_agrees(&lent.text, &out.text, filled.text, call->given[1]);
    same &= buffer_agrees(&lent.ends, &out.ends, filled.ends, call->given[2]);
    same &= buffer_agrees(&lent.rows, &out.rows, filled.rows, call->given[3]);
    return same;
}

static bool states_agree(sv_stream expected, sv_stream came, const char *how)
{
    uint32_t numbers[2][STREAM];
    numbers_of_stream(expected, numbers[0]);
    numbers_of_stream(came, numbers[1]);
    if (memcmp(numbers[0], numbers[1], sizeof numbers[0]) == 0)
        return true;
    if (disagree("the state after call %lu, %s", (unsigned long)called, how)) {
        print_words("expected", numbers[0], STREAM);
        print_words("came", numbers[1], STREAM);
    }
    return false;
}

/* An empty piece, and a close for lack of room, change nothing while the stream is open. */
static bool changes_nothing(const struct call *call)
{
    bool open = call->answer[0] == 0 && call->given[5] == 0;
    return open && (call->closes || call->offered == 0);
}

/* Makes a call again with the same state, one in so many times. */
static bool agrees_again(sv_stream state, const struct call *call, sv_streamed came)
{
    enum { ONE_IN = 4 };
    static uint64_t turn;
    if (++turn % ONE_IN != 0)
        return true;
    sv_streamed again = make_call(state, call);
    return call_agrees(call, again) && states_agree(came.state, again.state, "made again");
}

/* Makes a call; answers whether all was as expected. */
static bool try_call(sv_stream *state, const struct call *call)
{
    if (!call->closes)
        offer(call->offered);
    sv_streamed came = make_call(*state, call);
    if (!call_agrees(call, came) || !agrees_again(*state, call, came))
        return false;
    if (!call->closes && !same_bytes(list_start(&piece), rest(), own_of(call->offered)))
        disagree("call %lu changed the piece that it reads", (unsigned long)called);
    if (changes_nothing(call) && !states_agree(*state, came.state, "which changes nothing"))
        return false;
    *state = came.state;
    taken += call->given[0];
    filled.text += call->given[1];
    filled.ends += call->given[2];
    filled.rows += call->given[3];
    return true;
}

static void take_call(struct call *call, struct room *room)
{
    enum { CLOSES = 1, CHANGES = 2, ANSWERS = 64 };
    uint8_t kind = take_byte();
    if (kind & CHANGES)
        *room = take_room();
    call->closes = kind & CLOSES;
    call->offered = call->closes ? 0 : take_number();
    call->room = *room;
    memset(call->answer, 0, sizeof call->answer);
    if (take_masked(call->given, GIVEN) & ANSWERS)
        take_answer(call->answer, ANSWER);
}

/* Makes the calls of a session; behind one that disagrees the others would tell nothing. */
static void take_session(void)
{
    static const struct room none;
    struct room room = none;
    bool same = true;
    taken = 0;
    filled = none;
    called = 0;
    sv_stream state = call_stream_start(dialect);
    case_begins(show_session);
    for (uint64_t left = take_number(); left > 0; left--) {
        struct call call;
        take_call(&call, &room);
        if (!same)
            continue;
        *call_of(++called) = call;
        same = try_call(&state, &call);
    }
}

void take_sessions(void)
{
    dialect.delimiter = take_byte();
    dialect.leniencies = take_byte();
    take_parts(&file);
    take_list(&out.text);
    take_list(&out.ends);
    take_list(&out.rows);
    for (uint64_t sessions = take_number(); sessions > 0; sessions--)
        take_session();
}
