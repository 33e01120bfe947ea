/*
 * Prints records of a strict file from standard input by their numbers, as `record 5 0 2 <samples/buoys.csv`,
 * the first being 0. Each is printed as it stands in the file, quotes and line breaks inside it included, in
 * the order asked for. The file is checked once, when its index is built; each record is then found by reading
 * at most 64 records of it.
 */
#include "siprovault.h"

#include <stdio.h>

/* As many bytes as a file may have, of which an index has an entry for each 64 at most. The file gets a byte
   more, so that a longer one is refused too. */
enum { MOST = 16777216, ENTRIES = MOST / 64 };

static uint8_t file[MOST + 1];
static uint32_t entries[ENTRIES];

/* A number of at most nine digits, which is enough for any record. */
static int number(const char *word, size_t *to)
{
    size_t digits = 0;
    for (*to = 0; word[digits] >= '0' && word[digits] <= '9' && digits < 9; digits++)
        *to = 10 * *to + (size_t)(word[digits] - '0');
    return digits > 0 && word[digits] == 0;
}

static int are_numbers(int count, char **words)
{
    size_t any;
    for (int i = 1; i < count; i++)
        if (!number(words[i], &any))
            return 0;
    return count > 1;
}

/* Prints a record, and gives the exit status. */
static int print_record(size_t length, sv_indexed indexed, size_t record)
{
    sv_jumped at = sv_jump(file, length, SV_COMMA, 0, entries, indexed.entries, record);
    if (at.refusal != SV_ACCEPTED) {
        fprintf(stderr, "record: there is no record %zu\n", record);
        return 1;
    }
    fwrite(file + at.start, 1, at.length, stdout);
    fputs("\n", stdout);
    return 0;
}

static int unable(void)
{
    fputs("record: the file cannot be read, or the records cannot be written\n", stderr);
    return 2;
}

int main(int count, char **words)
{
    if (!are_numbers(count, words)) {
        fputs("record: say which records, by numbers from 0: record NUMBER ... <FILE\n", stderr);
        return 2;
    }
    size_t length = fread(file, 1, sizeof file, stdin);
    if (ferror(stdin))
        return unable();
    sv_indexed indexed = sv_index(file, length, SV_COMMA, 0, entries, ENTRIES);
    if (indexed.refusal != SV_ACCEPTED) {
        fprintf(stderr, "record: refused by %u at line %u, column %u, byte %u\n", indexed.refusal,
                indexed.line, indexed.column, indexed.byte);
        return 1;
    }
    int status = 0;
    for (int i = 1; i < count; i++) {
        size_t record;
        number(words[i], &record);
        status |= print_record(length, indexed, record);
    }
    return fflush(stdout) != 0 || ferror(stdout) ? unable() : status;
}
