/* Refuses the nth allocation of the library. It is linked with --wrap for malloc and realloc. */
#include <stddef.h>

void *__real_malloc(size_t size);
void *__real_realloc(void *held, size_t size);

static long left;

/* The nth of the following allocations is refused; with 0 none is. The result is how many the one before still left to come. */
long refuse(long nth)
{
    long before = left;
    left = nth;
    return before;
}

static int is_refused(void)
{
    return left > 0 && --left == 0;
}

void *__wrap_malloc(size_t size)
{
    return is_refused() ? NULL : __real_malloc(size);
}

void *__wrap_realloc(void *held, size_t size)
{
    return is_refused() ? NULL : __real_realloc(held, size);
}
