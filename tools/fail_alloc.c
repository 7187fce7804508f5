/* Makes one allocation of a program fail, for tools/fail_alloc.sh: preloaded, with FAIL_ALLOC the number of that allocation, counted from
   1, and COUNT_FILE a file to which the number of all that were asked for is written in the end. */
#define _GNU_SOURCE
#include <dlfcn.h>
#include <errno.h>
#include <stdio.h>
#include <stdlib.h>
#include <string.h>

static long count;

static int fails(void)
{
    const char *number = getenv("FAIL_ALLOC");
    count++;
    if (number == NULL || strtol(number, NULL, 10) != count)
        return 0;
    errno = ENOMEM;
    return 1;
}

void *malloc(size_t size)
{
    void *(*next)(size_t) = dlsym(RTLD_NEXT, "malloc");
    return fails() ? NULL : next(size);
}

void *realloc(void *block, size_t size)
{
    void *(*next)(void *, size_t) = dlsym(RTLD_NEXT, "realloc");
    return fails() ? NULL : next(block, size);
}

void *aligned_alloc(size_t alignment, size_t size)
{
    void *(*next)(size_t, size_t) = dlsym(RTLD_NEXT, "aligned_alloc");
    return fails() ? NULL : next(alignment, size);
}

__attribute__((destructor)) static void tell(void)
{
    const char *name = getenv("COUNT_FILE");
    long all = count;
    FILE *file = name == NULL ? NULL : fopen(name, "w");
    if (file == NULL)
        return;
    fprintf(file, "%ld\n", all);
    fclose(file);
}
