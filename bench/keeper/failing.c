/* Loaded before the C library. It lets the allocation fail whose number, counted from 1, stands in FAIL_AT, and says on
   standard error at the end where there were fewer. */
#include <stdlib.h>
#include <unistd.h>

extern void *__libc_malloc(size_t);
extern void *__libc_realloc(void *, size_t);

static unsigned long number, failing;

__attribute__((constructor)) static void begin(void)
{
    const char *word = getenv("FAIL_AT");
    number = 0;
    failing = word ? strtoul(word, NULL, 10) : 0;
}

__attribute__((destructor)) static void end(void)
{
    if (number < failing && write(2, "none failed\n", 12) < 0)
        _exit(2);
}

void *malloc(size_t bytes)
{
    return ++number == failing ? NULL : __libc_malloc(bytes);
}

void *realloc(void *old, size_t bytes)
{
    return ++number == failing ? NULL : __libc_realloc(old, bytes);
}
