/* Runs a call on a stack of its own: FOLGUTAN_MOST_STACK bytes, filled with a byte that the call
 * overwrites as it goes down, and below them memory that it must not touch. */
#define _DEFAULT_SOURCE

#include "folgutan.h"

#include "stack.h"

#include <signal.h>
#include <stdio.h>
#include <stdlib.h>
#include <string.h>
#include <sys/mman.h>
#include <ucontext.h>
#include <unistd.h>

enum { ROOM = FOLGUTAN_MOST_STACK, BELOW = 1 << 20, FILL = 0xA5 };

/* The lowest byte of the stack; BELOW bytes lie under it. */
static unsigned char *stack;
static ucontext_t before;
static const char *name;
static void (*work)(void *);
static void *what;

static void say(const char *text)
{
    if (write(STDERR_FILENO, text, strlen(text)) < 0)
        _exit(1);
}

/* A touch below the stack ends the test with the call's name; another fault is left to happen again,
 * now without this handler. */
static void fault(int number, siginfo_t *info, void *context)
{
    (void)number;
    (void)context;
    unsigned char *at = info->si_addr;
    if (at < stack - BELOW || at >= stack)
        return;
    say("interface: FAILED: ");
    say(name);
    say(": takes more than FOLGUTAN_MOST_STACK bytes of stack\n");
    _exit(1);
}

static void no_stack(void)
{
    fprintf(stderr, "interface: no stack to run a call on\n");
    exit(1);
}

static void prepare(void)
{
    /* the handler cannot run on a stack that is used up */
    static unsigned char other[1 << 16];
    stack_t own = {.ss_sp = other, .ss_size = sizeof other};
    struct sigaction action = {.sa_flags = SA_SIGINFO | SA_ONSTACK | (int)SA_RESETHAND};
    action.sa_sigaction = fault;
    unsigned char *place =
        mmap(NULL, BELOW + ROOM, PROT_NONE, MAP_PRIVATE | MAP_ANONYMOUS, -1, 0);
    if (place == MAP_FAILED || mprotect(place + BELOW, ROOM, PROT_READ | PROT_WRITE) != 0
        || sigaltstack(&own, NULL) != 0 || sigaction(SIGSEGV, &action, NULL) != 0)
        no_stack();
    stack = place + BELOW;
}

static void enter(void)
{
    work(what);
}

size_t stack_taken(const char *call, void (*run)(void *), void *with)
{
    if (stack == NULL)
        prepare();
    memset(stack, FILL, ROOM);
    name = call;
    work = run;
    what = with;
    ucontext_t there;
    if (getcontext(&there) != 0)
        no_stack();
    there.uc_stack = (stack_t){.ss_sp = stack, .ss_size = ROOM};
    there.uc_link = &before;
    makecontext(&there, enter, 0);
    if (swapcontext(&before, &there) != 0)
        no_stack();
    size_t untouched = 0;
    while (untouched < ROOM && stack[untouched] == FILL)
        untouched++;
    /* to a whole word */
    return ROOM - untouched / 8 * 8;
}
