/* Files: read with every room that the wire names, and checked in pieces. */
#include "cases.h"
#include "face.h"
#include "report.h"
#include "wire.h"

#include <stdio.h>
#include <string.h>

enum { MOST_WALKED = 1024 };

static struct dialect dialect;
static struct list file;
static struct list piece;
static struct table expected;
static struct lent_table lent;

/* The walked file, and what is known of each of its prefixes: the answer expected, and the state
   fed one byte at a time and fed in one piece. */
static uint8_t walked[MOST_WALKED];
static size_t walked_length;
static uint32_t answers[MOST_WALKED + 1][ANSWER];
static sv_check fed_by_byte[MOST_WALKED + 1];
static sv_check fed_at_once[MOST_WALKED + 1];

void files_open(void)
{
    list_open(&file, sizeof(uint8_t), MOST);
    list_open(&piece, sizeof(uint8_t), MOST);
    table_open(&expected);
    lent_table_open(&lent);
}

static void show_file(void)
{
    print_bytes("file", list_start(&file), file.length);
    printf("  delimiter %02x, leniencies %u\n", dialect.delimiter, dialect.leniencies);
}

static void show_walked(void)
{
    print_bytes("file", walked, walked_length);
    printf("  delimiter %02x, leniencies %u\n", dialect.delimiter, dialect.leniencies);
}

static bool is_strict(void) { return dialect.delimiter == ',' && dialect.leniencies == 0; }

static void compare_buffer(const char *call, const struct lent *buffer, const struct list *used,
                           struct room room)
{
    struct difference where;
    if (lent_holds(buffer, used, &where))
        return;
    if (disagree("%s with room for %lu, %lu, %lu", call, (unsigned long)room.text,
                 (unsigned long)room.ends, (unsigned long)room.rows))
        printf("  %s at entry %ld: expected byte %02x, came %02x\n", buffer->name,
               (long)where.entry, where.expected, where.came);
}

static void compare_read(const char *call, const uint32_t *answer, const uint32_t *came,
                         struct room room)
{
    bool accepted = answer[0] == 0;
    agree(answer, came, ANSWER, "%s with room for %lu, %lu, %lu", call, (unsigned long)room.text,
          (unsigned long)room.ends, (unsigned long)room.rows);
    compare_buffer(call, &lent.text, accepted ? &expected.text : NULL, room);
    compare_buffer(call, &lent.ends, accepted ? &expected.ends : NULL, room);
    compare_buffer(call, &lent.rows, accepted ? &expected.rows : NULL, room);
}

/* The table, if the whole file is accepted, and reads with the rooms that follow. */
static void take_outcome(const uint32_t *answer_for_whole)
{
    if (answer_for_whole[0] == 0) {
        take_list(&expected.text);
        take_list(&expected.ends);
        take_list(&expected.rows);
    }
    for (uint64_t trials = take_number(); trials > 0; trials--) {
        uint32_t answer[ANSWER], came[ANSWER];
        struct room room = take_room();
        take_answer(answer, ANSWER);
        call_read(&file, dialect, &lent, room, came);
        compare_read("sv_read", answer, came, room);
        if (is_strict()) {
            call_read_strict(&file, &lent, room, came);
            compare_read("sv_read_strict", answer, came, room);
        }
    }
}

/* Feeds a copy of the bytes that ends before a page that nobody may touch. */
static sv_check feed(sv_check state, const uint8_t *bytes, size_t length)
{
    list_resize(&piece, length);
    memcpy(list_start(&piece), bytes, length);
    sv_check fed = call_feed(state, list_start(&piece), length);
    if (!same_bytes(list_start(&piece), bytes, length))
        disagree("sv_check_feed changed the piece that it reads");
    return fed;
}

/* Asks twice: what was asked first must not change what is asked then. */
static void ask_twice(sv_check state, const uint32_t *answer, const char *how, size_t fed,
                      size_t last_piece)
{
    uint32_t came[ANSWER];
    for (int time = 1; time <= 2; time++) {
        call_ask(state, came);
        agree(answer, came, ANSWER,
              "sv_check_ask after %lu bytes, %s, the last piece of %lu, asked %s",
              (unsigned long)fed, how, (unsigned long)last_piece, time == 1 ? "once" : "twice");
    }
}

void take_dialect(void)
{
    dialect.delimiter = take_byte();
    dialect.leniencies = take_byte();
    walked_length = 0;
    take_answer(answers[0], ANSWER);
    fed_by_byte[0] = call_start(dialect);
    fed_at_once[0] = fed_by_byte[0];
}

/* Feeds the byte that comes to what was fed byte by byte, every second time behind an empty piece,
   and feeds the file so far at once. */
static void take_next_byte(void)
{
    if (walked_length == MOST_WALKED)
        broken_wire("a walked file is too long");
    size_t before = walked_length++;
    walked[before] = take_byte();
    take_answer(answers[walked_length], ANSWER);
    sv_check state = fed_by_byte[before];
    if (walked_length % 2 == 0) {
        state = feed(state, walked, 0);
        ask_twice(state, answers[before], "fed one by one", before, 0);
    }
    fed_by_byte[walked_length] = feed(state, &walked[before], 1);
    ask_twice(fed_by_byte[walked_length], answers[walked_length], "fed one by one", walked_length,
              1);
    fed_at_once[walked_length] = feed(fed_at_once[0], walked, walked_length);
    ask_twice(fed_at_once[walked_length], answers[walked_length], "fed at once", walked_length,
              walked_length);
}

/* Feeds the file in two pieces for every cut; the last of them leaves an empty piece. What comes
   before the cut was fed, and asked, when its last byte came. */
static void check_every_cut(void)
{
    for (size_t cut = 1; cut <= walked_length; cut++) {
        sv_check state = feed(fed_at_once[cut], walked + cut, walked_length - cut);
        ask_twice(state, answers[walked_length], "fed in two pieces", walked_length,
                  walked_length - cut);
    }
}

/* Feeds the file in pieces of 0 to 7 bytes and asks after each. */
static void check_small_pieces(void)
{
    static uint32_t random = 1;
    sv_check state = call_start(dialect);
    for (size_t fed = 0; fed < walked_length;) {
        random = random * 1664525 + 1013904223;
        size_t length = random >> 29;
        if (length > walked_length - fed)
            length = walked_length - fed;
        state = feed(state, walked + fed, length);
        fed += length;
        ask_twice(state, answers[fed], "fed in small pieces", fed, length);
    }
}

/* Feeds the file in pieces of one length, the last perhaps shorter, and asks after each. */
static void check_equal_pieces(size_t length)
{
    sv_check state = call_start(dialect);
    for (size_t fed = 0; fed < walked_length;) {
        size_t left = walked_length - fed;
        size_t coming = length < left ? length : left;
        state = feed(state, walked + fed, coming);
        fed += coming;
        ask_twice(state, answers[fed], "fed in equal pieces", fed, coming);
    }
}

static void check_all_equal_pieces(void)
{
    static const size_t lengths[] = {7, 8, 63, 64, 65};
    for (size_t i = 0; i < sizeof lengths / sizeof lengths[0]; i++)
        check_equal_pieces(lengths[i]);
}

void take_walked_file(void)
{
    size_t kept = take_number();
    size_t coming = take_number();
    case_begins(show_walked);
    if (kept > walked_length)
        broken_wire("more of a walked file stays than there is");
    walked_length = kept;
    if (kept == 0)
        ask_twice(fed_by_byte[0], answers[0], "nothing fed", 0, 0);
    while (coming-- > 0)
        take_next_byte();
    list_resize(&file, walked_length);
    memcpy(list_start(&file), walked, walked_length);
    check_every_cut();
    if (walked_length > 6)
        check_small_pieces();
    if (walked_length > 64)
        check_all_equal_pieces();
    take_outcome(answers[walked_length]);
    if (memcmp(list_start(&file), walked, walked_length) != 0)
        disagree("a call changed the file that it reads");
}

/* Feeds the pieces, with the answer so far after each; the last answer is the whole file's. */
static void take_pieces(uint32_t *answer)
{
    const uint8_t *bytes = list_start(&file);
    size_t fed = 0;
    sv_check state = call_start(dialect);
    for (uint64_t pieces = take_number(); pieces > 0; pieces--) {
        size_t length = take_number();
        if (length > file.length - fed)
            broken_wire("the pieces are longer than the file");
        state = feed(state, bytes + fed, length);
        fed += length;
        take_answer(answer, ANSWER);
        ask_twice(state, answer, "fed in pieces", fed, length);
    }
}

void take_long_file(void)
{
    uint32_t answer[ANSWER] = {0};
    dialect.delimiter = take_byte();
    dialect.leniencies = take_byte();
    take_parts(&file);
    case_begins(show_file);
    take_pieces(answer);
    take_outcome(answer);
}
