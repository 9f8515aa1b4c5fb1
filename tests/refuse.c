/* Is loaded into a program that allocates by malloc and realloc alone. Refuses the growth whose number, from 1
 * on, stands in REFUSED_GROWTH, and says so on standard error. */
#include <errno.h>
#include <stdlib.h>
#include <unistd.h>

/* The C library's own, under the names that it keeps for those who stand in front of it. */
void *__libc_malloc(size_t size);
void *__libc_realloc(void *block, size_t size);

static int is_refused(void)
{
    static const char said[] = "growth refused\n";
    static long asked;
    const char *refused = getenv("REFUSED_GROWTH");

    asked++;
    if (refused == NULL || asked != atol(refused))
        return 0;
    if (write(STDERR_FILENO, said, sizeof said - 1) < 0)
        abort();
    errno = ENOMEM;
    return 1;
}

void *malloc(size_t size)
{
    return is_refused() ? NULL : __libc_malloc(size);
}

void *realloc(void *block, size_t size)
{
    return is_refused() ? NULL : __libc_realloc(block, size);
}
