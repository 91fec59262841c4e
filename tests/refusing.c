/* Refuses growths of a program. Preloaded, it gives no memory to COUNT growths from that of the number REFUSED on, from 1, and
   writes a byte to the descriptor TOLD for each. */
#define _GNU_SOURCE
#include <dlfcn.h>
#include <errno.h>
#include <stdlib.h>
#include <unistd.h>

static long growths;

static int is_refused(void)
{
    const char *number = getenv("REFUSED"), *count = getenv("COUNT"), *told = getenv("TOLD");
    if (number == NULL || count == NULL || told == NULL)
        return 0;
    long past = ++growths - atol(number);
    if (atol(number) == 0 || past < 0 || past >= atol(count))
        return 0;
    if (write(atoi(told), "!", 1) != 1)
        abort();
    errno = ENOMEM;
    return 1;
}

void *malloc(size_t size)
{
    static void *(*next)(size_t);
    if (next == NULL)
        next = dlsym(RTLD_NEXT, "malloc");
    return is_refused() ? NULL : next(size);
}

void *realloc(void *old, size_t size)
{
    static void *(*next)(void *, size_t);
    if (next == NULL)
        next = dlsym(RTLD_NEXT, "realloc");
    return is_refused() ? NULL : next(old, size);
}
