/*
 * Checks a strict file from standard input in pieces of 64 bytes, with no other memory than the check's
 * state, and asks after each. What is asked before the end is the answer for the bytes so far as a whole
 * file, and more bytes may change it: only the last one is the file's.
 */
#include "siprovault.h"

#include <stdio.h>

static void print_answer(sv_answer answer)
{
    if (answer.refusal == SV_ACCEPTED)
        printf("accepted, %u records of %u fields in all\n", answer.records, answer.fields);
    else
        printf("refused by %u at line %u, column %u, byte %u\n", answer.refusal, answer.line,
               answer.column, answer.byte);
}

int main(void)
{
    uint8_t piece[64];
    size_t got, so_far = 0;
    sv_check check = sv_check_start(SV_COMMA, 0);
    while ((got = fread(piece, 1, sizeof piece, stdin)) > 0) {
        check = sv_check_feed(check, piece, got);
        so_far += got;
        printf("%zu bytes so far: ", so_far);
        print_answer(sv_check_ask(check));
    }
    if (ferror(stdin)) {
        fputs("pieces: the file cannot be read\n", stderr);
        return 2;
    }
    sv_answer answer = sv_check_ask(check);
    printf("the file: ");
    print_answer(answer);
    return answer.refusal == SV_ACCEPTED ? 0 : 1;
}
