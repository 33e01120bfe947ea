#include "report.h"

#include <signal.h>
#include <stdarg.h>
#include <stdio.h>
#include <stdlib.h>
#include <string.h>
#include <unistd.h>

enum { SECTIONS = 64, NAME = 80, PRINTED_OF_SECTION = 20 };

/* A list of up to WHOLE entries is shown whole; of a longer one SHOWN entries at either end. */
enum { WHOLE = 1024, SHOWN = 32 };

static struct {
    char name[NAME];
    uint64_t cases;
    uint64_t disagreements;
} sections[SECTIONS];

static void show_nothing(void) {}

static uint64_t begun;
static void (*show_case)(void) = show_nothing;

void section_begins(const uint8_t *name, size_t length)
{
    if (begun == SECTIONS || length >= NAME)
        broken_wire("too many sections, or too long a name");
    memcpy(sections[begun].name, name, length);
    begun++;
}

void case_begins(void (*show)(void))
{
    if (begun == 0)
        broken_wire("a case outside a section");
    sections[begun - 1].cases++;
    show_case = show;
}

static bool begin_report(const char *call, va_list list)
{
    uint64_t number = ++sections[begun - 1].disagreements;
    if (number > PRINTED_OF_SECTION) {
        if (number == PRINTED_OF_SECTION + 1)
            printf("\nmore in '%s' is counted and not printed\n", sections[begun - 1].name);
        return false;
    }
    printf("\nDISAGREEMENT in case %lu of '%s'\n  ", (unsigned long)sections[begun - 1].cases,
           sections[begun - 1].name);
    vprintf(call, list);
    printf("\n");
    show_case();
    return true;
}

bool disagree(const char *call, ...)
{
    va_list list;
    va_start(list, call);
    bool print = begin_report(call, list);
    va_end(list);
    return print;
}

const char *const index_names[] = {"refusal", "line", "column", "byte", "entries"};
const char *const jump_names[] = {"refusal", "line", "column", "byte", "start", "length"};

static const char *const *names_of(unsigned count)
{
    static const char *const answer[] = {"refusal", "line",   "column", "byte",
                                         "records", "fields", "text",   "report"};
    static const char *const given[] = {"taken", "text", "ends", "rows", "short_of", "closed"};
    static const char *const written[] = {"refusal", "line", "column", "byte", "length"};
    static const char *const column[] = {"refusal", "column"};
    static const char *const part[] = {"found", "start", "length"};
    return count == ANSWER    ? answer
           : count == GIVEN   ? given
           : count == WRITTEN ? written
           : count == COLUMN  ? column
                              : part;
}

static void print_numbers(const char *const *names, const char *whose, const uint32_t *numbers,
                          unsigned count)
{
    printf("  %s", whose);
    for (unsigned i = 0; i < count; i++)
        printf(" %s=%u", names[i], numbers[i]);
    printf("\n");
}

static void report_numbers(const char *const *names, const uint32_t *expected, const uint32_t *came,
                           unsigned count, const char *call, va_list list)
{
    if (begin_report(call, list)) {
        print_numbers(names, "expected:", expected, count);
        print_numbers(names, "came:    ", came, count);
    }
}

bool agree(const uint32_t *expected, const uint32_t *came, unsigned count, const char *call, ...)
{
    if (memcmp(expected, came, count * sizeof *came) == 0)
        return true;
    va_list list;
    va_start(list, call);
    report_numbers(names_of(count), expected, came, count, call, list);
    va_end(list);
    return false;
}

bool agree_by(const char *const *names, const uint32_t *expected, const uint32_t *came,
              unsigned count, const char *call, ...)
{
    if (memcmp(expected, came, count * sizeof *came) == 0)
        return true;
    va_list list;
    va_start(list, call);
    report_numbers(names, expected, came, count, call, list);
    va_end(list);
    return false;
}

/* The entry to show after one: the next, or the first of those at the end. */
static size_t next_shown(size_t entry, size_t length)
{
    if (entry + 1 != SHOWN || length <= WHOLE)
        return entry + 1;
    printf(" ..");
    return length - SHOWN;
}

void print_bytes(const char *name, const uint8_t *bytes, size_t length)
{
    printf("  %s, %lu bytes:", name, (unsigned long)length);
    for (size_t i = 0; i < length; i = next_shown(i, length))
        printf(" %02x", bytes[i]);
    printf("  |");
    for (size_t i = 0; i < length; i = next_shown(i, length))
        printf("%c", bytes[i] >= 0x20 && bytes[i] < 0x7F ? bytes[i] : '.');
    printf("|\n");
}

void print_words(const char *name, const uint32_t *words, size_t length)
{
    printf("  %s, %lu entries:", name, (unsigned long)length);
    for (size_t i = 0; i < length; i = next_shown(i, length))
        printf(" %u", words[i]);
    printf("\n");
}

static void crashed(int number)
{
    disagree("the call crashed with signal %d", number);
    printf("\nthe driver stops here\n");
    fflush(stdout);
    _exit(1);
}

void watch_for_crashes(void)
{
    static const int numbers[] = {SIGILL, SIGABRT, SIGBUS, SIGFPE, SIGSEGV};
    for (size_t i = 0; i < sizeof numbers / sizeof numbers[0]; i++)
        signal(numbers[i], crashed);
}

void broken_wire(const char *why)
{
    printf("the wire of cases is broken: %s\n", why);
    exit(2);
}

uint64_t sections_begun(void) { return begun; }

uint64_t cases_of(uint64_t section) { return sections[section].cases; }

uint64_t print_counts(void)
{
    uint64_t disagreements = 0;
    for (uint64_t i = 0; i < begun; i++) {
        printf("%9lu  %s", (unsigned long)sections[i].cases, sections[i].name);
        if (sections[i].disagreements != 0)
            printf(" (%lu disagreements)", (unsigned long)sections[i].disagreements);
        printf("\n");
        disagreements += sections[i].disagreements;
    }
    return disagreements;
}
