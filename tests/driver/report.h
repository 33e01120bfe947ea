/* What the driver says: the present case, disagreements, and the end of it all. */
#ifndef REPORT_H
#define REPORT_H

#include <stdbool.h>
#include <stddef.h>
#include <stdint.h>

/* The numbers in each of the library's answers. */
enum { ANSWER = 8, GIVEN = 6, WRITTEN = 5, COLUMN = 2, PART = 3, INDEXED = 5, JUMPED = 6 };

/* The names of those of an index and of a jump: other answers have as many. */
extern const char *const index_names[INDEXED];
extern const char *const jump_names[JUMPED];

/* A section begins; its name is kept. */
void section_begins(const uint8_t *name, size_t length);

/* A case begins; `show` prints what it is about. */
void case_begins(void (*show)(void));

/* Begins the report of a disagreement about a call, described as for printf. Each is counted; the
   answer says whether it is to be printed, which the first ones of a section are. */
bool disagree(const char *call, ...);

/* Compares an answer's numbers and reports it if they differ. */
bool agree(const uint32_t *expected, const uint32_t *came, unsigned count, const char *call, ...);

/* The same for numbers of these names. */
bool agree_by(const char *const *names, const uint32_t *expected, const uint32_t *came,
              unsigned count, const char *call, ...);

void print_bytes(const char *name, const uint8_t *bytes, size_t length);
void print_words(const char *name, const uint32_t *words, size_t length);

/* Has a call that crashes name its case. */
void watch_for_crashes(void);

/* Ends the program: the wire does not carry what the generator writes. */
void broken_wire(const char *why);

uint64_t sections_begun(void);
uint64_t cases_of(uint64_t section);

/* Prints the counts; answers the number of disagreements. */
uint64_t print_counts(void);

#endif
