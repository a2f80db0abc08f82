/* Refuses allocations of the program that the system's loader puts this before: those from the one of number FIRST on, ROW in a row (0:
 * all that follow). They count from the program's start, or where FROM is `read` from its first read of standard input. For each that
 * is refused a byte goes into the file REFUSED. */
#include <errno.h>
#include <fcntl.h>
#include <stdlib.h>
#include <string.h>
#include <sys/syscall.h>
#include <unistd.h>

extern void *__libc_malloc(size_t size);
extern void *__libc_realloc(void *old, size_t size);

static unsigned long first, row, asked, refused;
static int counts, file = -1;

__attribute__((constructor)) static void begin(void)
{
    first = strtoul(getenv("FIRST"), NULL, 10);
    row = strtoul(getenv("ROW"), NULL, 10);
    file = open(getenv("REFUSED"), O_WRONLY | O_APPEND);
    if (file < 0)
        abort();
    counts = strcmp(getenv("FROM"), "read") != 0;
}

static int is_refused(void)
{
    if (!counts || ++asked < first || (row && refused == row))
        return 0;
    refused++;
    if (write(file, "x", 1) != 1)
        abort();
    errno = ENOMEM;
    return 1;
}

void *malloc(size_t size)
{
    return is_refused() ? NULL : __libc_malloc(size);
}

void *realloc(void *old, size_t size)
{
    return is_refused() ? NULL : __libc_realloc(old, size);
}

ssize_t read(int from, void *to, size_t size)
{
    if (from == STDIN_FILENO)
        counts = 1;
    return syscall(SYS_read, from, to, size);
}
