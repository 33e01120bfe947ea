#ifndef TESTS_SIGNAL_H
#define TESTS_SIGNAL_H

#define SIGILL 4
#define SIGABRT 6
#define SIGBUS 7
#define SIGFPE 8
#define SIGSEGV 11

void (*signal(int number, void (*handler)(int)))(int);

#endif
