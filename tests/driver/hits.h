/* States put together by hand. */
#ifndef HITS_H
#define HITS_H

#include <stddef.h>
#include <stdint.h>

/* Overwrites `hits` bytes or words of the state, or all of its words if there are none. */
void hit(void *state, size_t size, uint64_t seed, uint64_t hits);

#endif
