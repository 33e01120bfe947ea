/*
 * siprovault.h: a CSV reader and writer, proved against RFC 4180's grammar and the house rules.
 * Link with libsiprovault.a (tools/staticlib siprovault), which is for x86-64. C99 and C++.
 *
 * No call keeps anything, allocates anything or fails by a crash: any bytes, any dialect, any buffers.
 * Bad input is refused by number. A refused call leaves every buffer as it was, byte for byte; an
 * accepted one leaves alone what stands behind the part that it used. Equal arguments give equal
 * answers. Of a stream alone contents come out before the whole file is judged: keep nothing of them
 * until its close is accepted.
 *
 * What C cannot promise for its caller:
 * - A pointer with a length above 0 points to that many entries, which nobody else changes during the
 *   call. With length 0 it may be NULL.
 * - A length counts entries: bytes of a file, a text, a piece or a name, numbers of ends, rows and an
 *   index.
 * - ends, rows and an index are aligned as uint32_t is, at a multiple of 4 bytes.
 * - A buffer that is written overlaps no other argument of the call.
 */
#ifndef SIPROVAULT_H
#define SIPROVAULT_H

#include <stddef.h>
#include <stdint.h>

#ifdef __cplusplus
extern "C" {
#endif

/*
 * A dialect is a delimiter and a sum of leniencies, as SV_SEMICOLON with SV_LF | SV_BLANKS. With another
 * delimiter than comma, that byte separates and comma is text. Strict is SV_COMMA with sum 0: RFC 4180
 * under the house rules, which are that a line break at the file's end closes the last record and no
 * empty record follows it, that the empty file holds no records, that every record has as many fields as
 * the first, and the two limits.
 */
#define SV_COMMA 0x2C
#define SV_SEMICOLON 0x3B
#define SV_TAB 0x09
#define SV_BAR 0x7C

/*
 * The leniencies, each switched on by its name, and reported when it is used: the report of an answer is
 * the sum of those that were, so that report & SV_BLANKS is not 0 where a blank was dropped.
 */
#define SV_LF 1     /* an LF outside quotes, not after CR, ends a record */
#define SV_BLANKS 2 /* 0x20 at either end of a bare field, before an opening quote or after a closing
                       one, is dropped */
#define SV_RAGGED 4 /* records may have unequal numbers of fields */
#define SV_BYTES 8  /* 0x80 to 0xFF and tab count as text */

/* The writer's modes. */
#define SV_PLAIN 0 /* a field is quoted exactly if it holds a comma, a quote, CR or LF */
#define SV_FULL 1  /* every field is quoted */

/*
 * The refusals, with the place that each names in a file; a place is a line, a column and a byte. Byte
 * counts from 0. Line is 1 plus the LF bytes before it, quoted ones included; column is 1 plus the bytes
 * since the last LF, or since the file's beginning.
 *
 * Forbidden, between quotes too, are 0x7F, and control bytes other than CR, LF and an allowed tab. Tab and
 * 0x80 to 0xFF are allowed under SV_BYTES, tab as the delimiter in any case, and else forbidden.
 */
#define SV_ACCEPTED 0
#define SV_UNKNOWN_DIALECT_OR_MODE 1  /* a delimiter or a mode not named above, or a sum above 15 */
#define SV_LONG_FILE 2                /* over 16,777,216 bytes */
#define SV_FORBIDDEN_BYTE 3           /* that byte */
#define SV_QUOTE_IN_BARE_FIELD 4      /* that quote */
#define SV_BYTE_AFTER_CLOSING_QUOTE 5 /* the byte that may not stand there */
#define SV_CR_WITHOUT_LF 6            /* outside quotes: the CR */
#define SV_LF_WITHOUT_CR 7            /* outside quotes, not allowed: that LF */
#define SV_QUOTED_FIELD_OPEN 8        /* at the end of the file: its opening quote */
#define SV_LONG_CONTENT 9             /* of a field, over 65,535 bytes: the field's first byte, a quote or
                                         a blank included */
#define SV_UNEQUAL_RECORD 10          /* another number of fields than the first has: the first byte of
                                         its line break, or the file's length */
#define SV_NO_ROOM_IN_TEXT 11
#define SV_NO_ROOM_IN_ENDS 12
#define SV_NO_ROOM_IN_ROWS 13
#define SV_MALFORMED_TABLE 14
#define SV_NO_ROOM_IN_OUT 15 /* for the written file */
#define SV_EQUAL_NAMES 16    /* two in the header: the later column */
#define SV_NO_SUCH_NAME 17   /* or no records */
#define SV_NO_SUCH_RECORD 18 /* or the index has no entry for it */
#define SV_NO_ROOM_IN_INDEX 19
#define SV_WRONG_INDEX 20 /* it is not of this file and dialect: see sv_jump */

/*
 * The answer to a file. Accepted: refusal, line, column and byte are 0, and the others say what the file
 * holds, report being the sum of the leniencies that it used. Refused: the number, and the place that it
 * names, line and column from 1, byte from 0, or 0, 0, 0 for 1, 2 and 11 to 13; the others are 0.
 */
typedef struct {
    uint32_t refusal, line, column, byte;
    uint32_t records, fields, text, report;
} sv_answer;

/*
 * A table in memory. text has all contents joined; ends has, for each field, the length of text up to
 * and with it; rows has, for each record, the number of fields up to and with it. It is well formed if
 * rows rise strictly from at least 1, the last row is the number of ends, ends never fall and the last
 * end is the length of text; with no rows, ends and text are empty.
 *
 * So field k of the whole table is text from ends[k - 1], or from 0 for the first, up to ends[k], and
 * column c of record r is field k = c + rows[r - 1], or k = c for the first, if k is less than rows[r].
 * This goes once over all fields of a table that sv_read gave, each with where it starts in text and how
 * long it is:
 *
 *     uint32_t record, field = 0, start = 0;
 *     for (record = 0; record < answer.records; record++)
 *         for (; field < rows[record]; start = ends[field++])
 *             use(record, start, ends[field] - start);
 */

/*
 * Reads a file in a dialect into text, ends and rows. 1, then 2, then the fault found earliest, at one
 * byte the smallest number (3 to 10), then 11, 12, 13 where a buffer is too small. Always enough are
 * text of file_len, ends of file_len + 1 and rows of file_len entries; sv_check_ask says what a file
 * needs: text, fields for ends and records for rows of its answer. What is read is handed on with these
 * lengths of the answer, not with those of the buffers.
 */
sv_answer sv_read(const uint8_t *file, size_t file_len, uint8_t delimiter, uint8_t leniencies,
                  uint8_t *text, size_t text_len, uint32_t *ends, size_t ends_len, uint32_t *rows,
                  size_t rows_len);

/* Reads a strict file: the same as sv_read at SV_COMMA and 0. */
sv_answer sv_read_strict(const uint8_t *file, size_t file_len, uint8_t *text, size_t text_len,
                         uint32_t *ends, size_t ends_len, uint32_t *rows, size_t rows_len);

typedef struct {
    uint32_t line, column, byte;
} sv_place;

/*
 * A check's state: numbers alone, without pointers, to be kept and copied as the caller likes. One that
 * sv_check_start began and sv_check_feed went on with stands for the bytes fed. Any other bit pattern is
 * safe to feed and to ask too, and gives one answer, whatever that may be. The fields are no promise, and
 * nor are the bytes between them.
 */
typedef struct {
    uint8_t delimiter, leniencies, refusal, form, begun;
    struct {
        uint8_t lf, blanks, ragged, bytes;
    } used;
    sv_place here, mark;
    struct {
        sv_place start;
        uint32_t content, held, number;
    } field;
    struct {
        uint32_t records, fields, text, width;
    } counts;
} sv_check;

/* Starts a check with a dialect. */
sv_check sv_check_start(uint8_t delimiter, uint8_t leniencies);

/* The state after a piece of any length, 0 included. */
sv_check sv_check_feed(sv_check state, const uint8_t *piece, size_t piece_len);

/*
 * The answer for all bytes so far as one whole file, wherever the cuts fell: that of sv_read, 11 to 13
 * apart. 1 for good in a bad dialect, 2 for good once the bytes pass the limit. It may be asked at any
 * time, and changes nothing. More bytes may change the answer: what ends within a quoted field is 8 so
 * far, and half a record 10.
 */
sv_answer sv_check_ask(sv_check state);

/*
 * A stream's state: a check's, how many of the blanks that it holds are out already, and whether a close
 * has ended it. As a check's, it is numbers alone, any bit pattern is a state, and the fields are no promise.
 */
typedef struct {
    sv_check check;
    uint32_t early;
    uint8_t closed;
} sv_stream;

/*
 * What a call on a stream gives: the state for the next call; how much of the piece it took and of each
 * buffer it filled, from the front; in short_of the buffer that was too small, 11 for text, 12 for ends
 * and 13 for rows, the lowest number first, or 0; closed, 1 from an accepted close on. The answer is 0
 * throughout while the stream is open; from the call on that refused it has the refusal; once closed, the
 * totals.
 */
typedef struct {
    sv_stream state;
    size_t taken, text, ends, rows;
    uint32_t short_of, closed;
    sv_answer answer;
} sv_streamed;

/* Starts a stream with a dialect. */
sv_stream sv_stream_start(uint8_t delimiter, uint8_t leniencies);

/*
 * Takes a piece and puts out what is known: contents to text, and to ends and rows what sv_read would
 * write there, counted through the whole file. It stops early only at a refusal, or before a byte whose
 * output does not all fit; of that output only held blanks come out, as many as fit. What it did not
 * take opens the next piece. A field before a CR is closed by the LF behind it. A refusal comes on taking
 * the byte that shows it, and is the check's for the bytes taken; a bad dialect is refused at once. After
 * a refusal or an accepted close, calls take nothing, write nothing and repeat the answer. With room for
 * one entry in each buffer, every call on a piece that is not empty takes a byte or puts out a blank.
 */
sv_streamed sv_stream_feed(sv_stream state, const uint8_t *piece, size_t piece_len, uint8_t *text,
                           size_t text_len, uint32_t *ends, size_t ends_len, uint32_t *rows,
                           size_t rows_len);

/*
 * Ends the file: the last end and row end at once, if its last record has no line break; else no room is
 * needed. Short of room it writes nothing, and may be repeated. A refusal, of the bytes taken as one whole
 * file, comes before lack of room.
 */
sv_streamed sv_stream_close(sv_stream state, uint32_t *ends, size_t ends_len, uint32_t *rows,
                            size_t rows_len);

/*
 * The answer of a write. Accepted: length is the written length, and the others are 0. Refused: refusal is
 * the number, and line, column and length are 0; byte is the index of the text byte for 3, of the field
 * in the whole table for 9 and of the record for 10, each from 0, and 0 for the others.
 */
typedef struct {
    uint32_t refusal, line, column, byte;
    uint32_t length;
} sv_written;

/*
 * Writes a table as a strict file in a mode, each record with CRLF, the last too. Quotes inside are
 * doubled. The checks come in this order: 1, 14, 3 (a byte outside 0x20 to 0x7E, CR and LF), 9, 10, 2,
 * 15, each with the lowest index. Always enough for out are 2 * text_len + 3 * ends_len + rows_len bytes;
 * so are 16,777,216, whatever the table. What is written reads back as the table.
 */
sv_written sv_write(const uint8_t *text, size_t text_len, const uint32_t *ends, size_t ends_len,
                    const uint32_t *rows, size_t rows_len, uint8_t mode, uint8_t *out, size_t out_len);

/* The answer of a search: the column from 0; for 16 the later of the two equal ones; for 14 and 17, 0. */
typedef struct {
    uint32_t refusal, column;
} sv_column;

/*
 * Finds a column by its whole name, byte for byte, in the header, which is the first record. 14, then 17
 * with no records, then 16 whatever the name, then the column or 17. It walks the whole table first, to
 * see that it is well formed, and compares each two names of the header, so that its time grows with the
 * square of the columns too: call it once for a column, and not for each record.
 */
sv_column sv_find_column(const uint8_t *text, size_t text_len, const uint32_t *ends, size_t ends_len,
                         const uint32_t *rows, size_t rows_len, const uint8_t *name, size_t name_len);

/* Where a field lies in text: found is 1; or 0, with start and length 0, for the caller's stand-in. */
typedef struct {
    uint32_t found, start, length;
} sv_part;

/*
 * The field of a record and a column, both from 0. found is 0 in a malformed table too: each call walks
 * the whole table first, to see that it is well formed. It is for a field or two. A call for every field
 * would take time by the square of the table: go by ends and rows instead, as above.
 */
sv_part sv_show(const uint8_t *text, size_t text_len, const uint32_t *ends, size_t ends_len,
                const uint32_t *rows, size_t rows_len, size_t record, size_t column);

/* A run of bytes that lies elsewhere. */
typedef struct {
    const uint8_t *bytes;
    size_t length;
} sv_bytes;

/*
 * The part of text that sv_show found, or the caller's stand-in. Nothing is copied. It takes part at its
 * word: hand it the text and the part of one and the same sv_show.
 */
static inline sv_bytes sv_shown(const uint8_t *text, sv_part part, const uint8_t *stand_in,
                                size_t stand_in_len)
{
    sv_bytes shown;
    if (part.found) {
        shown.bytes = part.start ? text + part.start : text;
        shown.length = part.length;
    } else {
        shown.bytes = stand_in;
        shown.length = stand_in_len;
    }
    return shown;
}

/*
 * The answer to an index. Accepted: entries is how many the file has, one for each 64 records or what is
 * left of them, and the others are 0. Refused: entries is 0, refusal, line, column and byte are those of
 * the file, or 19 and 0, 0, 0.
 */
typedef struct {
    uint32_t refusal, line, column, byte;
    uint32_t entries;
} sv_indexed;

/*
 * Builds the index of a file in a dialect: where in the file records 0, 64, 128 and so on begin, as byte
 * offsets from 0; nothing for the empty file. A file that is not accepted gives the refusal of sv_read and
 * its place; then 19 where index has too few entries. Always enough are (file_len + 63) / 64 entries.
 * Entries behind the used ones are left alone.
 */
sv_indexed sv_index(const uint8_t *file, size_t file_len, uint8_t delimiter, uint8_t leniencies,
                    uint32_t *index, size_t index_len);

/*
 * Where a record lies in a file: from start, length bytes. line, column and byte are always 0. Refused,
 * start and length are 0: the first record may lie there and be empty too, so look at refusal.
 */
typedef struct {
    uint32_t refusal, line, column, byte;
    uint32_t start, length;
} sv_jumped;

/*
 * The record of a number, counted from 0, by an index: the part of the file that it is, without its line
 * break. Hand it the index that sv_index built of this very file and dialect; then the part is the record
 * that sv_read reads under that number, and 18 comes exactly from the number of records on. index_len is
 * entries of sv_index's answer, not the room of the buffer: what stands behind them would be taken for
 * entries too, and a number past the last record might find a record. With any other index only this is
 * promised: entry record / 64 is where a walk begins, record % 64 records are passed, and the next one is
 * the answer.
 *
 * 1, then 2, then 18 without that entry, then 20 if it is above file_len, or above 0 and not straight
 * behind an LF, or if the walk meets a fault of 3 to 8 before the record has ended, then 18 where the
 * walk finds no such record. 9 and 10 are not looked for. At most 64 records of the file are walked over.
 */
sv_jumped sv_jump(const uint8_t *file, size_t file_len, uint8_t delimiter, uint8_t leniencies,
                  const uint32_t *index, size_t index_len, size_t record);

#ifdef __cplusplus
}
#endif

#endif
