#ifndef STACK_H
#define STACK_H

#include <stddef.h>

/* Runs run(with) on a stack of FOLGUTAN_MOST_STACK bytes, and hands back how many of them it took,
 * with its own frame and the arguments of what it calls. One that takes more ends the test. */
size_t stack_taken(const char *call, void (*run)(void *), void *with);

#endif
