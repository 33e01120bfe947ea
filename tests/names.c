/*
 * The header's names against the library: for each refusal a call that is refused so, for each delimiter,
 * leniency and mode one to which it makes a difference, and what the stream's calls, an index and a jump
 * give. C99 and C++.
 */
#include "siprovault.h"

#include <stdio.h>
#include <string.h>

enum { ROOM = 16777217 };

static uint8_t file[ROOM], text[ROOM], out[64];
static uint32_t ends[64], rows[64], entries[64];
static unsigned wrong;

static void is(const char *what, uint32_t came, uint32_t expected)
{
    if (came != expected) {
        printf("%s: %u came, and not %u\n", what, came, expected);
        wrong++;
    }
}

static sv_answer read_in(uint8_t delimiter, uint8_t leniencies, const char *bytes)
{
    return sv_read((const uint8_t *)bytes, strlen(bytes), delimiter, leniencies, text, ROOM, ends, 64,
                   rows, 64);
}

static uint32_t strict(const char *bytes)
{
    return read_in(SV_COMMA, 0, bytes).refusal;
}

static uint32_t run_of_a(size_t length)
{
    memset(file, 'a', length);
    return sv_read_strict(file, length, text, ROOM, ends, 64, rows, 64).refusal;
}

static uint32_t with_room(size_t text_len, size_t ends_len, size_t rows_len)
{
    return sv_read_strict((const uint8_t *)"a", 1, text, text_len, ends, ends_len, rows, rows_len)
        .refusal;
}

/* A strict file, read and written again. */
static sv_written written_in(uint8_t mode, const char *bytes, size_t room)
{
    sv_answer answer = read_in(SV_COMMA, 0, bytes);
    return sv_write(text, answer.text, ends, answer.fields, rows, answer.records, mode, out, room);
}

static uint32_t found(const char *header, const char *name)
{
    sv_answer answer = read_in(SV_COMMA, 0, header);
    return sv_find_column(text, answer.text, ends, answer.fields, rows, answer.records,
                          (const uint8_t *)name, strlen(name))
        .refusal;
}

static sv_indexed indexed(const char *bytes, size_t room)
{
    return sv_index((const uint8_t *)bytes, strlen(bytes), SV_COMMA, 0, entries, room);
}

/* By an index of one entry. */
static sv_jumped jumped(const char *bytes, uint32_t entry, size_t record)
{
    return sv_jump((const uint8_t *)bytes, strlen(bytes), SV_COMMA, 0, &entry, 1, record);
}

static void refusals(void)
{
    is("SV_ACCEPTED", strict("a"), SV_ACCEPTED);
    is("SV_UNKNOWN_DIALECT_OR_MODE", read_in('.', 0, "a").refusal, SV_UNKNOWN_DIALECT_OR_MODE);
    is("SV_UNKNOWN_DIALECT_OR_MODE, mode", written_in(2, "a", 64).refusal,
       SV_UNKNOWN_DIALECT_OR_MODE);
    is("SV_LONG_FILE", run_of_a(ROOM), SV_LONG_FILE);
    is("SV_FORBIDDEN_BYTE", strict("a\x7F"), SV_FORBIDDEN_BYTE);
    is("SV_QUOTE_IN_BARE_FIELD", strict("a\"b"), SV_QUOTE_IN_BARE_FIELD);
    is("SV_BYTE_AFTER_CLOSING_QUOTE", strict("\"a\"b"), SV_BYTE_AFTER_CLOSING_QUOTE);
    is("SV_CR_WITHOUT_LF", strict("a\rb"), SV_CR_WITHOUT_LF);
    is("SV_LF_WITHOUT_CR", strict("a\n"), SV_LF_WITHOUT_CR);
    is("SV_QUOTED_FIELD_OPEN", strict("\"a"), SV_QUOTED_FIELD_OPEN);
    is("SV_LONG_CONTENT", run_of_a(ROOM - 1), SV_LONG_CONTENT);
    is("SV_UNEQUAL_RECORD", strict("a,b\r\nc"), SV_UNEQUAL_RECORD);
    is("SV_NO_ROOM_IN_TEXT", with_room(0, 1, 1), SV_NO_ROOM_IN_TEXT);
    is("SV_NO_ROOM_IN_ENDS", with_room(1, 0, 1), SV_NO_ROOM_IN_ENDS);
    is("SV_NO_ROOM_IN_ROWS", with_room(1, 1, 0), SV_NO_ROOM_IN_ROWS);
    is("SV_MALFORMED_TABLE", sv_write(text, 1, ends, 0, rows, 0, SV_PLAIN, out, 64).refusal,
       SV_MALFORMED_TABLE);
    is("SV_NO_ROOM_IN_OUT", written_in(SV_PLAIN, "a", 2).refusal, SV_NO_ROOM_IN_OUT);
    is("SV_EQUAL_NAMES", found("a,a", "b"), SV_EQUAL_NAMES);
    is("SV_NO_SUCH_NAME", found("a", "b"), SV_NO_SUCH_NAME);
    is("SV_NO_SUCH_RECORD", jumped("a", 0, 1).refusal, SV_NO_SUCH_RECORD);
    is("SV_NO_SUCH_RECORD, no entry", jumped("a", 0, 64).refusal, SV_NO_SUCH_RECORD);
    is("SV_NO_ROOM_IN_INDEX", indexed("a", 0).refusal, SV_NO_ROOM_IN_INDEX);
    is("SV_WRONG_INDEX", jumped("a", 1, 0).refusal, SV_WRONG_INDEX);
}

static void dialects(void)
{
    is("SV_COMMA", read_in(SV_COMMA, 0, "a,b").fields, 2);
    is("SV_SEMICOLON", read_in(SV_SEMICOLON, 0, "a;b").fields, 2);
    is("SV_TAB", read_in(SV_TAB, 0, "a\tb").fields, 2);
    is("SV_BAR", read_in(SV_BAR, 0, "a|b").fields, 2);
    is("SV_LF", read_in(SV_COMMA, SV_LF, "a\n").report, SV_LF);
    is("SV_BLANKS", read_in(SV_COMMA, SV_BLANKS, " a").report, SV_BLANKS);
    is("SV_RAGGED", read_in(SV_COMMA, SV_RAGGED, "a,b\r\nc").report, SV_RAGGED);
    is("SV_BYTES", read_in(SV_COMMA, SV_BYTES, "a\t").report, SV_BYTES);
    uint8_t all = SV_LF | SV_BLANKS | SV_RAGGED | SV_BYTES;
    is("all leniencies", read_in(SV_SEMICOLON, all, "a;b\r\nc\t \n").report, all);
    is("SV_PLAIN", written_in(SV_PLAIN, "a", 64).length, 3);
    is("SV_FULL", written_in(SV_FULL, "a", 64).length, 5);
}

static sv_streamed streamed(uint8_t delimiter, const char *bytes, size_t text_len, size_t ends_len,
                            size_t rows_len)
{
    sv_stream start = sv_stream_start(delimiter, 0);
    return sv_stream_feed(start, (const uint8_t *)bytes, strlen(bytes), text, text_len, ends, ends_len,
                          rows, rows_len);
}

static void streams(void)
{
    is("sv_stream, at most 256 bytes", sizeof(sv_stream) <= 256, 1);
    sv_streamed fed = streamed(SV_COMMA, "a,b", 2, 1, 0);
    is("taken", fed.taken, 3);
    is("text", fed.text, 2);
    is("ends", fed.ends, 1);
    is("rows", fed.rows, 0);
    is("short_of", fed.short_of, 0);
    is("closed, of an open stream", fed.closed, 0);
    is("short_of, at a close", sv_stream_close(fed.state, ends, 0, rows, 1).short_of,
       SV_NO_ROOM_IN_ENDS);
    sv_streamed end = sv_stream_close(fed.state, ends + 1, 1, rows, 1);
    is("closed", end.closed, 1);
    is("ends, at the close", ends[0] + 16 * ends[1], 1 + 16 * 2);
    is("rows, at the close", rows[0], 2);
    is("answer", end.answer.records + 16 * end.answer.fields, 1 + 16 * 2);
    is("short_of, text", streamed(SV_COMMA, "a", 0, 1, 1).short_of, SV_NO_ROOM_IN_TEXT);
    is("short_of, ends", streamed(SV_COMMA, ",", 1, 0, 1).short_of, SV_NO_ROOM_IN_ENDS);
    is("short_of, rows", streamed(SV_COMMA, "\r\n", 1, 1, 0).short_of, SV_NO_ROOM_IN_ROWS);
    is("answer, of a bad dialect", streamed('.', "", 1, 1, 1).answer.refusal,
       SV_UNKNOWN_DIALECT_OR_MODE);
}

static void jumps(void)
{
    const char *unequal = "a\r\nbc,d";
    sv_indexed refused = indexed(unequal, 64);
    is("refusal, of an index", refused.refusal, SV_UNEQUAL_RECORD);
    is("line, column and byte", refused.line + 16 * refused.column + 256 * refused.byte,
       2 + 16 * 5 + 256 * 7);
    is("entries, refused", refused.entries, 0);
    is("entries", indexed("a\r\nb", 64).entries, 1);
    is("the first entry", entries[0], 0);
    sv_jumped part = jumped(unequal, 0, 1);
    is("refusal, of a jump", part.refusal, SV_ACCEPTED);
    is("line, column and byte, of a jump", part.line + part.column + part.byte, 0);
    is("start", part.start, 3);
    is("length", part.length, 4);
}

int main(void)
{
    refusals();
    dialects();
    streams();
    jumps();
    if (wrong == 0)
        printf("the header's names are the library's numbers\n");
    return wrong == 0 ? 0 : 1;
}
