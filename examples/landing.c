/* Writes a landing list as a strict file to standard output. The caller builds the table; the library quotes. */
#include "siprovault.h"

#include <stdio.h>
#include <string.h>

enum { RECORDS = 3, COLUMNS = 3, FIELDS = RECORDS * COLUMNS };

static const char *const landed[RECORDS][COLUMNS] = {
    {"buoy", "landed", "remark"},
    {"N01", "2026-11-02", "pole repaired, flag new"},
    {"S02", "2026-11-02", "marked \"lost\"\r\nin spring"},
};

/* The table, and room that is always enough for its file. */
static uint8_t text[1024], out[2 * sizeof text + 3 * FIELDS + RECORDS];
static uint32_t ends[FIELDS], rows[RECORDS];

int main(void)
{
    size_t used = 0, fields = 0;
    for (size_t record = 0; record < RECORDS; record++) {
        for (size_t column = 0; column < COLUMNS; column++) {
            size_t length = strlen(landed[record][column]);
            if (length > sizeof text - used)
                return 1;
            memcpy(text + used, landed[record][column], length);
            used += length;
            ends[fields++] = (uint32_t)used;
        }
        rows[record] = (uint32_t)fields;
    }
    sv_written written =
        sv_write(text, used, ends, FIELDS, rows, RECORDS, SV_PLAIN, out, sizeof out);
    if (written.refusal != SV_ACCEPTED) {
        fprintf(stderr, "refused by %u at %u\n", written.refusal, written.byte);
        return 1;
    }
    /* only a flush shows that nothing was left unwritten */
    return fwrite(out, 1, written.length, stdout) == written.length && fflush(stdout) == 0 ? 0 : 2;
}
