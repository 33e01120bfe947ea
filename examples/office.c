/*
 * Reads an office's list from standard input: semicolons, and every leniency switched on by its name. Says
 * which of them the file used, and shows two columns for each buoy.
 */
#include "siprovault.h"

#include <stdio.h>
#include <string.h>

/* The longest list that is taken here; the other buffers are always enough for it. */
enum { MOST = 65536 };

static uint8_t file[MOST + 1], text[MOST];
static uint32_t ends[MOST + 1], rows[MOST];

static void print_used(uint32_t report)
{
    static const struct {
        uint32_t leniency;
        const char *name;
    } all[] = {{SV_LF, "lf"}, {SV_BLANKS, "blanks"}, {SV_RAGGED, "ragged"}, {SV_BYTES, "bytes"}};
    printf("leniencies used:");
    for (size_t i = 0; i < sizeof all / sizeof all[0]; i++)
        if (report & all[i].leniency)
            printf(" %s", all[i].name);
    printf(report ? "\n" : " none\n");
}

/* The field of a record and a column, by rows and ends; "none" where a record is too short for it. */
static sv_bytes field(uint32_t record, uint32_t column)
{
    sv_bytes found = {(const uint8_t *)"none", 4};
    uint32_t k = (record ? rows[record - 1] : 0) + column;
    if (k < rows[record]) {
        uint32_t start = k ? ends[k - 1] : 0;
        found.bytes = text + start;
        found.length = ends[k] - start;
    }
    return found;
}

/* The column of a name, or -1, with a line that says why there is none. */
static int64_t find(sv_answer answer, const char *name)
{
    sv_column found = sv_find_column(text, answer.text, ends, answer.fields, rows, answer.records,
                                     (const uint8_t *)name, strlen(name));
    if (found.refusal == SV_ACCEPTED)
        return found.column;
    printf("no column %s: refused by %u at column %u\n", name, found.refusal, found.column);
    return -1;
}

int main(void)
{
    size_t length = fread(file, 1, sizeof file, stdin);
    if (ferror(stdin) || length > MOST) {
        fputs("office: the list cannot be read, or is longer than 65,536 bytes\n", stderr);
        return 2;
    }
    sv_answer answer =
        sv_read(file, length, SV_SEMICOLON, SV_LF | SV_BLANKS | SV_RAGGED | SV_BYTES, text, MOST,
                ends, MOST + 1, rows, MOST);
    if (answer.refusal != SV_ACCEPTED) {
        printf("refused by %u at line %u, column %u\n", answer.refusal, answer.line, answer.column);
        return 1;
    }
    print_used(answer.report);
    int64_t buoy = find(answer, "buoy"), remark = find(answer, "remark");
    if (buoy < 0 || remark < 0)
        return 1;
    for (uint32_t record = 1; record < answer.records; record++) {
        sv_bytes name = field(record, (uint32_t)buoy), words = field(record, (uint32_t)remark);
        printf("%.*s: %.*s\n", (int)name.length, (const char *)name.bytes, (int)words.length,
               (const char *)words.bytes);
    }
    return 0;
}
