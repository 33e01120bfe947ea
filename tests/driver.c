/* Replays the cases of standard input against the library, and compares everything. */
#include "driver/cases.h"
#include "driver/face.h"
#include "driver/report.h"
#include "driver/wire.h"

#include <stdio.h>

static void take_magic(void)
{
    for (const char *magic = "SVCASES1"; *magic != '\0'; magic++)
        if (take_byte() != (uint8_t)*magic)
            broken_wire("it does not begin as one");
}

static void take_section(void)
{
    static struct list name;
    if (name.end == NULL)
        list_open(&name, sizeof(uint8_t), 256);
    take_list(&name);
    section_begins(list_start(&name), name.length);
}

static void take_trailer(void)
{
    if (take_number() != sections_begun())
        broken_wire("sections are missing");
    for (uint64_t section = 0; section < sections_begun(); section++)
        if (take_number() != cases_of(section))
            broken_wire("cases are missing");
    if (!wire_ends())
        broken_wire("more follows its trailer");
}

static const struct {
    uint8_t letter;
    void (*take)(void);
} items[] = {
    {'S', take_section},
    {'D', take_dialect},
    {'W', take_walked_file},
    {'L', take_long_file},
    {'T', take_table},
    {'C', take_hand_state},
    {'N', take_numbered_state},
    {'F', take_sessions},
    {'H', take_stream_hand_state},
    {'M', take_stream_numbered_state},
    {'R', take_unruly_session},
    {'J', take_jumps},
    {'E', take_trailer},
};

/* Takes one item; answers whether it was the trailer. */
static bool take_item(void)
{
    uint8_t letter = take_byte();
    size_t item = 0;
    while (items[item].letter != letter)
        if (++item == sizeof items / sizeof items[0])
            broken_wire("an item of no known kind");
    items[item].take();
    return letter == 'E';
}

int main(void)
{
    watch_for_crashes();
    files_open();
    tables_open();
    states_open();
    sessions_open();
    stream_states_open();
    jumps_open();
    take_magic();
    while (!take_item())
        continue;
    uint64_t disagreements = print_counts();
    print_calls();
    printf("%lu disagreements in this part\n", (unsigned long)disagreements);
    return disagreements != 0;
}
