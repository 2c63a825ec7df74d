/* In place of the C code of the kit's library os (libos_c.a), which is for x86-64 alone: the same calls, flags and answers,
 * for a program that bench/.native compiles for another machine. */
#define _GNU_SOURCE
#include <errno.h>
#include <fcntl.h>
#include <stddef.h>

int rattle_open_to_read(const char *path);
int rattle_open_new(const char *path, unsigned mode);
int rattle_open_to_overwrite(const char *path, unsigned mode);
int rattle_open_to_append(const char *path);
int rattle_open_to_update(const char *path);
int rattle_errno(void);
void rattle_set_errno(int number);
size_t rattle_arg_count(void);
ptrdiff_t rattle_arg(size_t i, char *to, size_t room);

static int count;
static char **arguments;

__attribute__((constructor)) static void keep(int argc, char **argv)
{
    count = argc;
    arguments = argv;
}

size_t rattle_arg_count(void)
{
    return (size_t)count;
}

/* An argument's length; -1: there is none, -2: it does not fit. */
ptrdiff_t rattle_arg(size_t i, char *to, size_t room)
{
    size_t n;
    if (i >= (size_t)count || !arguments[i])
        return -1;
    for (n = 0; arguments[i][n] != 0; n++) {
        if (n == room)
            return -2;
        to[n] = arguments[i][n];
    }
    return (ptrdiff_t)n;
}

int rattle_open_to_read(const char *path)
{
    return open(path, O_RDONLY | O_NOCTTY | O_CLOEXEC);
}

int rattle_open_new(const char *path, unsigned mode)
{
    return open(path, O_WRONLY | O_CREAT | O_EXCL | O_NOCTTY | O_CLOEXEC, mode);
}

int rattle_open_to_overwrite(const char *path, unsigned mode)
{
    return open(path, O_WRONLY | O_CREAT | O_TRUNC | O_NOCTTY | O_CLOEXEC, mode);
}

int rattle_open_to_append(const char *path)
{
    return open(path, O_WRONLY | O_APPEND | O_NOCTTY | O_CLOEXEC);
}

int rattle_open_to_update(const char *path)
{
    return open(path, O_RDWR | O_NOCTTY | O_CLOEXEC);
}

int rattle_errno(void)
{
    return errno;
}

void rattle_set_errno(int number)
{
    errno = number;
}
