/* Tables: written, read back, searched and shown. */
#include "cases.h"
#include "face.h"
#include "report.h"
#include "wire.h"

#include <stdio.h>

static struct table table;
static struct list name;
static bool searching;
static struct list written;
static struct lent out;
static struct lent_table read_back;

void tables_open(void)
{
    table_open(&table);
    list_open(&name, sizeof(uint8_t), MOST);
    list_open(&written, sizeof(uint8_t), MOST);
    lent_open(&out, "out", sizeof(uint8_t), MOST);
    lent_table_open(&read_back);
}

static void show_table(void)
{
    print_bytes("text", list_start(&table.text), table.text.length);
    print_words("ends", list_start(&table.ends), table.ends.length);
    print_words("rows", list_start(&table.rows), table.rows.length);
    if (searching)
        print_bytes("name", list_start(&name), name.length);
}

static bool buffer_agrees(const char *call, const struct lent *buffer, const struct list *used)
{
    struct difference where;
    if (lent_holds(buffer, used, &where))
        return true;
    if (disagree("%s with room for %lu", call, (unsigned long)buffer->room))
        printf("  %s at entry %ld: expected byte %02x, came %02x\n", buffer->name,
               (long)where.entry, where.expected, where.came);
    return false;
}

/* Whatever was written must read back as the same table. */
static void read_it_back(void)
{
    struct room room = {table.text.length, table.ends.length, table.rows.length};
    uint32_t came[ANSWER];
    uint32_t answer[ANSWER] = {0};
    answer[4] = (uint32_t)room.rows;
    answer[5] = (uint32_t)room.ends;
    answer[6] = (uint32_t)room.text;
    call_read_strict(&written, &read_back, room, came);
    agree(answer, came, ANSWER, "sv_read_strict of what was written");
    buffer_agrees("sv_read_strict of what was written", &read_back.text, &table.text);
    buffer_agrees("sv_read_strict of what was written", &read_back.ends, &table.ends);
    buffer_agrees("sv_read_strict of what was written", &read_back.rows, &table.rows);
}

static void take_writes(void)
{
    for (uint64_t writes = take_number(); writes > 0; writes--) {
        uint32_t answer[WRITTEN], came[WRITTEN];
        uint8_t mode = take_byte();
        size_t room = take_number();
        take_answer(answer, WRITTEN);
        bool accepted = answer[0] == 0;
        if (accepted)
            take_list(&written);
        call_write(&table, mode, &out, room, came);
        bool same = agree(answer, came, WRITTEN, "sv_write in mode %u with room for %lu", mode,
                          (unsigned long)room);
        same &= buffer_agrees("sv_write", &out, accepted ? &written : NULL);
        if (same && accepted)
            read_it_back();
    }
}

static void take_finds(void)
{
    searching = true;
    for (uint64_t finds = take_number(); finds > 0; finds--) {
        uint32_t answer[COLUMN], came[COLUMN];
        take_list(&name);
        take_answer(answer, COLUMN);
        call_find_column(&table, &name, came);
        agree(answer, came, COLUMN, "sv_find_column");
    }
    searching = false;
}

/* The part is handed out where it lies in text, and else the stand-in. */
static void hand_out(const uint32_t *part)
{
    static const uint8_t stand_in[2];
    const uint8_t *text = list_start(&table.text);
    sv_bytes shown = shown_of(&table, part, stand_in, sizeof stand_in);
    bool same = part[0] ? shown.length == part[2] && shown.bytes == text + part[1]
                        : shown.length == sizeof stand_in && shown.bytes == stand_in;
    if (!same)
        disagree("sv_shown hands out another part");
}

static void take_shows(void)
{
    for (uint64_t shows = take_number(); shows > 0; shows--) {
        uint32_t answer[PART], came[PART];
        size_t record = take_number();
        size_t column = take_number();
        take_answer(answer, PART);
        call_show(&table, record, column, came);
        agree(answer, came, PART, "sv_show of record %lu, column %lu", (unsigned long)record,
              (unsigned long)column);
        hand_out(came);
    }
}

void take_table(void)
{
    take_list(&table.text);
    take_list(&table.ends);
    take_list(&table.rows);
    case_begins(show_table);
    take_writes();
    take_finds();
    take_shows();
}
