/*
 * Writes tables by the library. Each comes on standard input as four numbers of 32 bits, the lowest
 * byte first (how long text, ends and rows are, and the mode), and the three lists; out go the
 * refusal, the length and the file. It ends with the input.
 */
#include "siprovault.h"

#include <unistd.h>

enum { MOST = 65536, ROOM = 4 * MOST };

static uint8_t text[MOST], out[ROOM];
static uint32_t ends[MOST], rows[MOST];

/* Takes all the bytes asked for; answers whether they came. */
static int take(void *into, size_t size)
{
    uint8_t *to = into;
    while (size > 0) {
        ssize_t got = read(0, to, size);
        if (got <= 0)
            return 0;
        to += got;
        size -= (size_t)got;
    }
    return 1;
}

static void give(const void *from, size_t size)
{
    const uint8_t *at = from;
    while (size > 0) {
        ssize_t put = write(1, at, size);
        if (put <= 0)
            _exit(2);
        at += put;
        size -= (size_t)put;
    }
}

int main(void)
{
    uint32_t numbers[4];
    while (take(numbers, sizeof numbers)) {
        uint32_t text_len = numbers[0], ends_len = numbers[1], rows_len = numbers[2];
        if (text_len > MOST || ends_len > MOST || rows_len > MOST)
            return 2;
        if (!take(text, text_len) || !take(ends, ends_len * sizeof *ends) ||
            !take(rows, rows_len * sizeof *rows))
            return 2;
        sv_written written = sv_write(text, text_len, ends, ends_len, rows, rows_len,
                                      (uint8_t)numbers[3], out, sizeof out);
        uint32_t answer[2] = {written.refusal, written.length};
        give(answer, sizeof answer);
        give(out, written.length);
    }
    return 0;
}
