/* The wire: cases on standard input; cases/wire.rs says in what form. */
#ifndef WIRE_H
#define WIRE_H

#include "memory.h"

#include <stdbool.h>

uint8_t take_byte(void);
uint64_t take_number(void);

/* The numbers of an answer. */
void take_answer(uint32_t *into, unsigned count);

/* The same, with the mask for its answer: its bits behind those of the numbers are the caller's. */
uint8_t take_masked(uint32_t *into, unsigned count);

void take_list(struct list *into);

/* A file of parts. */
void take_parts(struct list *into);

struct room take_room(void);

/* Whether no byte is left. */
bool wire_ends(void);

#endif
