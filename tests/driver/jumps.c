/* Files by indexes: the index built in every room that the wire names, and records asked for by
   every index that it brings. */
#include "cases.h"
#include "face.h"
#include "report.h"
#include "wire.h"

#include <stdio.h>
#include <string.h>

static struct dialect dialect;
static struct list file, file_kept;
static struct lent lent;

/* The file's own index, and the one by which records are asked for. */
static struct list own;
static struct list by, by_kept;

/* The records that are asked for, and the present one, or none while the index is built. */
static uint64_t records[256];
static size_t asked;
static const uint64_t *now;

void jumps_open(void)
{
    list_open(&file, sizeof(uint8_t), MOST);
    list_open(&file_kept, sizeof(uint8_t), MOST);
    lent_open(&lent, "index", sizeof(uint32_t), MOST);
    list_open(&own, sizeof(uint32_t), MOST);
    list_open(&by, sizeof(uint32_t), MOST);
    list_open(&by_kept, sizeof(uint32_t), MOST);
}

static void show_jump(void)
{
    print_bytes("file", list_start(&file), file.length);
    printf("  delimiter %02x, leniencies %u\n", dialect.delimiter, dialect.leniencies);
    if (now == NULL)
        return;
    print_words("index", list_start(&by), by.length);
    printf("  record %lu\n", (unsigned long)*now);
}

static void keep(const struct list *list, struct list *kept)
{
    list_resize(kept, list->length);
    memcpy(list_start(kept), list_start(list), list->length * list->width);
}

static bool is_as_kept(const struct list *list, const struct list *kept)
{
    return same_bytes(list_start(list), list_start(kept), list->length * list->width);
}

/* Builds the index; if it is refused, nothing may be written. */
static void try_room(size_t room, const uint32_t *answer)
{
    uint32_t came[INDEXED];
    struct difference where;
    call_index(&file, dialect, &lent, room, came);
    agree_by(index_names, answer, came, INDEXED, "sv_index with room for %lu", (unsigned long)room);
    if (!lent_holds(&lent, answer[0] == 0 ? &own : NULL, &where) &&
        disagree("sv_index with room for %lu", (unsigned long)room))
        printf("  index at entry %ld: expected byte %02x, came %02x\n", (long)where.entry,
               where.expected, where.came);
}

static void take_rooms(void)
{
    uint32_t answer[INDEXED];
    take_answer(answer, INDEXED);
    list_resize(&own, 0);
    if (answer[0] == 0)
        take_list(&own);
    if (own.length != answer[4])
        broken_wire("an index is not as long as its answer says");
    for (uint64_t rooms = take_number(); rooms > 0; rooms--) {
        size_t room = take_number();
        take_answer(answer, INDEXED);
        try_room(room, answer);
    }
}

/* Asks for the present record. Whatever else comes, an accepted part must lie in the file. */
static void ask(const uint32_t *answer)
{
    uint32_t came[JUMPED];
    call_jump(&file, dialect, &by, *now, came);
    agree_by(jump_names, answer, came, JUMPED, "sv_jump");
    if (came[0] == 0 && (uint64_t)came[4] + came[5] > file.length)
        disagree("sv_jump hands out a part that does not lie in the file");
}

static void take_records(void)
{
    asked = take_number();
    if (asked > sizeof records / sizeof records[0])
        broken_wire("too many records are asked for");
    for (size_t i = 0; i < asked; i++)
        records[i] = take_number();
}

static void take_index(void)
{
    take_list(&by);
    keep(&by, &by_kept);
    for (now = records; now < records + asked; now++) {
        uint32_t answer[JUMPED];
        take_answer(answer, JUMPED);
        ask(answer);
    }
    now = NULL;
    if (!is_as_kept(&by, &by_kept))
        disagree("sv_jump changed the index that it reads");
}

void take_jumps(void)
{
    dialect.delimiter = take_byte();
    dialect.leniencies = take_byte();
    take_parts(&file);
    keep(&file, &file_kept);
    now = NULL;
    case_begins(show_jump);
    take_rooms();
    take_records();
    for (uint64_t indexes = take_number(); indexes > 0; indexes--)
        take_index();
    if (!is_as_kept(&file, &file_kept))
        disagree("a call changed the file that it reads");
}
