#ifndef TESTS_STDLIB_H
#define TESTS_STDLIB_H

void exit(int status);

#endif
