/*
 * Prints one column of a file from standard input, as `column 4 <samples/buoys.csv`, the first being 0. The
 * file goes through small buffers and is never held whole. The office wants every file taken, so it is read
 * at commas with every leniency on; if it used any, their sum is told at the end.
 *
 * Each content gets a line, with line breaks inside it as they are, and a record that is too short "none".
 * They are printed as they come, and the fault of a file may come behind them: what was printed is of use
 * only if the exit status is 0.
 */
#include "siprovault.h"

#include <stdio.h>

enum { PIECE = 512, TEXT = 256, ENTRIES = 16 };

static uint8_t piece[PIECE], text[TEXT];
static uint32_t ends[ENTRIES], rows[ENTRIES];

/* The column to print, that of the open field, and the fields and the text that have come in all. */
static struct {
    uint32_t wanted, column, fields, text;
} at;

/* The open field goes on to an end; first is what the first byte of text is in the text of all calls. */
static void print_up_to(uint32_t end, uint32_t first)
{
    if (at.column == at.wanted)
        fwrite(text + (at.text - first), 1, end - at.text, stdout);
    at.text = end;
}

/* What a call gave. A field may come by several; its end comes once, and a row end with it. */
static void print_wanted(sv_streamed given)
{
    uint32_t first = at.text;
    size_t row = 0;
    for (size_t i = 0; i < given.ends; i++) {
        print_up_to(ends[i], first);
        if (at.column++ == at.wanted)
            fputs("\n", stdout);
        at.fields++;
        if (row < given.rows && rows[row] == at.fields) {
            if (at.column <= at.wanted)
                fputs("none\n", stdout);
            at.column = 0;
            row++;
        }
    }
    print_up_to(first + (uint32_t)given.text, first);
}

static sv_answer print_input(void)
{
    sv_streamed given;
    sv_stream stream = sv_stream_start(SV_COMMA, SV_LF | SV_BLANKS | SV_RAGGED | SV_BYTES);
    size_t got;
    while ((got = fread(piece, 1, PIECE, stdin)) > 0) {
        /* what is not taken opens the next piece, which here is the rest of this one */
        for (size_t taken = 0; taken < got; taken += given.taken) {
            given = sv_stream_feed(stream, piece + taken, got - taken, text, TEXT, ends, ENTRIES, rows,
                                   ENTRIES);
            print_wanted(given);
            if (given.answer.refusal != SV_ACCEPTED)
                return given.answer;
            stream = given.state;
        }
    }
    /* with room for an end and a row it is never short */
    given = sv_stream_close(stream, ends, ENTRIES, rows, ENTRIES);
    print_wanted(given);
    return given.answer;
}

/* A number of at most eight digits, which is enough for any column. */
static int number(const char *word, uint32_t *to)
{
    size_t digits = 0;
    for (*to = 0; word[digits] >= '0' && word[digits] <= '9' && digits < 8; digits++)
        *to = 10 * *to + (uint32_t)(word[digits] - '0');
    return digits > 0 && word[digits] == 0;
}

int main(int count, char **words)
{
    if (count != 2 || !number(words[1], &at.wanted)) {
        fputs("column: say which column, by a number from 0: column NUMBER <FILE\n", stderr);
        return 2;
    }
    sv_answer answer = print_input();
    if (ferror(stdin) || fflush(stdout) != 0 || ferror(stdout)) {
        fputs("column: the file cannot be read, or the column cannot be written\n", stderr);
        return 2;
    }
    if (answer.refusal != SV_ACCEPTED) {
        fprintf(stderr, "column: refused by %u at line %u, column %u, byte %u\n", answer.refusal,
                answer.line, answer.column, answer.byte);
        return 1;
    }
    if (answer.report)
        fprintf(stderr, "column: accepted with leniencies of sum %u\n", answer.report);
    return 0;
}
