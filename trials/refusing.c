/* Counts the allocations of the program that it is loaded into, and refuses some.

   REFUSE is the number of the allocation that is refused, from 1, and REFUSE_ALL makes it refuse all later ones too.
   Without REFUSE it refuses none, and writes at the end how many there were to standard error. */
#include <stddef.h>
#include <stdio.h>
#include <stdlib.h>

extern void *__libc_malloc(size_t);
extern void *__libc_calloc(size_t, size_t);
extern void *__libc_realloc(void *, size_t);

static unsigned long count, refused;
static int all;

__attribute__((constructor)) static void start(void)
{
    const char *number = getenv("REFUSE");
    refused = number ? strtoul(number, NULL, 10) : 0;
    all = getenv("REFUSE_ALL") != NULL;
    count = 0;
}

__attribute__((destructor)) static void end(void)
{
    unsigned long counted = count;
    if (refused == 0)
        fprintf(stderr, "%lu\n", counted);
}

static int is_refused(void)
{
    count++;
    return refused != 0 && (count == refused || (all && count > refused));
}

void *malloc(size_t size)
{
    return is_refused() ? NULL : __libc_malloc(size);
}

void *calloc(size_t number, size_t size)
{
    return is_refused() ? NULL : __libc_calloc(number, size);
}

void *realloc(void *place, size_t size)
{
    return is_refused() ? NULL : __libc_realloc(place, size);
}
