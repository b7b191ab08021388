// For tools/refused_memory.py: loaded before the program's C library, it refuses one allocation, and says so on standard error. Its number
// is in REFUSED; allocations are counted from 1, from where the program's main begins to be called.
#include <errno.h>
#include <stdlib.h>
#include <unistd.h>

void *__libc_malloc(size_t size);
void *__libc_realloc(void *old, size_t size);

static unsigned long calls, refused;

__attribute__((constructor)) static void begin(void)
{
    const char *number = getenv("REFUSED");
    refused = number ? strtoul(number, NULL, 10) : 0;
    calls = 0;
}

static int is_refused(void)
{
    static const char said[] = "an allocation was refused\n";
    if (++calls != refused)
        return 0;
    if (write(2, said, sizeof said - 1) < 0)
        _exit(99);
    errno = ENOMEM;
    return 1;
}

void *malloc(size_t size)
{
    return is_refused() ? NULL : __libc_malloc(size);
}

void *realloc(void *old, size_t size)
{
    return is_refused() ? NULL : __libc_realloc(old, size);
}
