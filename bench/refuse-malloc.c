/* A library for LD_PRELOAD that refuses allocations of a program, to see how the program ends then.
 *
 * The calls of malloc and realloc are counted together, from 1 on, once the libraries are loaded. With REFUSE_CALL=N
 * in the environment, call N answers NULL with ENOMEM; with REFUSE_FROM=N, call N and each one after it does. All
 * other calls are the C library's. With neither, nothing is refused, and at its end the program writes to standard
 * error how many calls there were.
 *
 *     cc -shared -fPIC -O2 -o refuse-malloc.so refuse-malloc.c
 *     REFUSE_CALL=17 LD_PRELOAD=./refuse-malloc.so PROGRAM WORD ..
 */
#include <errno.h>
#include <stddef.h>
#include <stdio.h>
#include <stdlib.h>

extern void *__libc_malloc(size_t size);
extern void *__libc_realloc(void *block, size_t size);

/* How many calls there were, and which are refused, from the first to the last; none if both are 0. */
static unsigned long calls, first_refused, last_refused;

static unsigned long number_of(const char *name)
{
    const char *number = getenv(name);

    return number ? strtoul(number, NULL, 10) : 0;
}

__attribute__((constructor)) static void begin(void)
{
    unsigned long call = number_of("REFUSE_CALL");
    unsigned long from = number_of("REFUSE_FROM");

    calls = 0;
    first_refused = call ? call : from;
    last_refused = from ? (unsigned long)-1 : call;
}

__attribute__((destructor)) static void end(void)
{
    if (first_refused == 0)
        dprintf(2, "%lu\n", calls);
}

static int is_refused(void)
{
    calls++;
    if (first_refused == 0 || calls < first_refused || calls > last_refused)
        return 0;
    errno = ENOMEM;
    return 1;
}

void *malloc(size_t size)
{
    return is_refused() ? NULL : __libc_malloc(size);
}

void *realloc(void *block, size_t size)
{
    return is_refused() ? NULL : __libc_realloc(block, size);
}
