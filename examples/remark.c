/* Reads a strict buoy list, finds the column "remark" by its name and shows it for the first buoy. */
#include "siprovault.h"

#include <stdio.h>

static const char list[] = "buoy,remark\r\nN01,\"pole repaired, flag new\"\r\n";

int main(void)
{
    const uint8_t *file = (const uint8_t *)list;
    uint8_t text[256];
    uint32_t ends[16], rows[4];
    sv_answer answer = sv_read_strict(file, sizeof list - 1, text, sizeof text, ends, 16, rows, 4);
    if (answer.refusal != SV_ACCEPTED) {
        printf("refused by %u at line %u, column %u\n", answer.refusal, answer.line, answer.column);
        return 1;
    }
    sv_column remark = sv_find_column(text, answer.text, ends, answer.fields, rows, answer.records,
                                      (const uint8_t *)"remark", 6);
    if (remark.refusal != SV_ACCEPTED)
        return 1;
    sv_part part =
        sv_show(text, answer.text, ends, answer.fields, rows, answer.records, 1, remark.column);
    sv_bytes shown = sv_shown(text, part, (const uint8_t *)"none", 4);
    printf("%.*s\n", (int)shown.length, (const char *)shown.bytes);
    return 0;
}
