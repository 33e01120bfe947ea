/* Check states put together by hand: the same calls must give the same answers, asking must change
   nothing, and a piece must lead to the same state wherever it is cut. What the answers are is not
   looked at. */
#include "cases.h"
#include "face.h"
#include "hits.h"
#include "report.h"
#include "wire.h"

#include <stdio.h>
#include <string.h>

enum { MOST_FED = 256 };

static struct list fed_first, fed_then, part;
static sv_check state;

void states_open(void)
{
    list_open(&fed_first, sizeof(uint8_t), MOST_FED);
    list_open(&fed_then, sizeof(uint8_t), MOST_FED);
    list_open(&part, sizeof(uint8_t), MOST_FED);
}

static void show_state(void)
{
    uint32_t numbers[STATE];
    numbers_of_state(state, numbers);
    print_words("state", numbers, STATE);
    print_bytes("fed then", list_start(&fed_then), fed_then.length);
}

/* The state after a part of what is fed, from a copy that ends before a page that nobody may
   touch. */
static sv_check feed_part(sv_check to, size_t from, size_t length)
{
    list_resize(&part, length);
    memcpy(list_start(&part), (uint8_t *)list_start(&fed_then) + from, length);
    return call_feed(to, list_start(&part), length);
}

static void compare_states(sv_check expected, sv_check came, const char *how)
{
    uint32_t numbers[2][STATE], asked[2][ANSWER];
    numbers_of_state(expected, numbers[0]);
    numbers_of_state(came, numbers[1]);
    call_ask(expected, asked[0]);
    call_ask(came, asked[1]);
    agree(asked[0], asked[1], ANSWER, "sv_check_ask of a state made by hand, fed %s", how);
    if (memcmp(numbers[0], numbers[1], sizeof numbers[0]) != 0 &&
        disagree("sv_check_feed of a state made by hand, %s", how)) {
        print_words("fed at once", numbers[0], STATE);
        print_words("fed so", numbers[1], STATE);
    }
}

/* Feeds the state at once, byte by byte and in two pieces. */
static void feed_alike(size_t cut)
{
    sv_check at_once = call_feed(state, list_start(&fed_then), fed_then.length);
    sv_check by_byte = state;
    for (size_t i = 0; i < fed_then.length; i++)
        by_byte = feed_part(by_byte, i, 1);
    if (fed_then.length > 0)
        compare_states(at_once, by_byte, "byte by byte");
    sv_check in_two = feed_part(feed_part(state, 0, cut), cut, fed_then.length - cut);
    compare_states(at_once, in_two, "in two pieces");
}

/* Asks and feeds the state, and does the same again. */
static void ask_alike(void)
{
    uint32_t asked[ANSWER], asked_again[ANSWER], then[ANSWER], then_again[ANSWER];
    call_ask(state, asked);
    call_ask(call_feed(state, list_start(&fed_then), fed_then.length), then);
    call_ask(state, asked_again);
    call_ask(call_feed(state, list_start(&fed_then), fed_then.length), then_again);
    agree(asked, asked_again, ANSWER, "sv_check_ask of a state made by hand, asked again");
    agree(then, then_again, ANSWER, "sv_check_ask of a state made by hand, fed and asked again");
}

void take_hand_state(void)
{
    struct dialect dialect;
    dialect.delimiter = take_byte();
    dialect.leniencies = take_byte();
    take_list(&fed_first);
    uint64_t seed = take_number();
    uint64_t hits = take_number();
    take_list(&fed_then);
    case_begins(show_state);
    state = call_feed(call_start(dialect), list_start(&fed_first), fed_first.length);
    hit(&state, sizeof state, seed, hits);
    ask_alike();
    feed_alike(fed_then.length / 2);
}

void take_numbered_state(void)
{
    uint32_t numbers[STATE];
    for (size_t i = 0; i < STATE; i++)
        numbers[i] = (uint32_t)take_number();
    take_list(&fed_then);
    size_t cut = take_number();
    if (cut > fed_then.length)
        broken_wire("a cut is behind what is fed");
    state = state_of_numbers(numbers);
    case_begins(show_state);
    feed_alike(cut);
}
