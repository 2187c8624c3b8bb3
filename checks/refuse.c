/* Refuses one call of the program that it is loaded into, by kind and number, or has it move one byte: see checks/refused.

   REFUSE_KIND names the kind, REFUSE_NUMBER the call, counted from 1; at 0 none is refused. REFUSE_COUNT names a file to which
   the number of the kind's calls is written as the program ends. */
#define _GNU_SOURCE
#include <dlfcn.h>
#include <errno.h>
#include <fcntl.h>
#include <pthread.h>
#include <stdarg.h>
#include <stdatomic.h>
#include <stdio.h>
#include <stdlib.h>
#include <string.h>
#include <sys/stat.h>
#include <sys/syscall.h>
#include <unistd.h>

enum kind { NONE, MEMORY, THREAD, READ, WRITE, SYNC, OPEN, LIST, SHORT };

static const char *const names[] = {"none", "memory", "thread", "read", "write", "sync", "open", "list", "short"};
static enum kind chosen = NONE;
static long number;
static atomic_long made;

__attribute__((constructor)) static void begin(void)
{
    const char *kind = getenv("REFUSE_KIND"), *which = getenv("REFUSE_NUMBER");

    number = which ? atol(which) : 0;
    for (int it = MEMORY; kind && it <= SHORT; it++)
        if (!strcmp(kind, names[it]))
            chosen = it;
}

/* Whether this call is the one to refuse. */
static int is_refused(enum kind kind)
{
    return kind == chosen && atomic_fetch_add(&made, 1) + 1 == number;
}

#define NEXT(name) static __typeof__(name) *next; if (!next) next = (__typeof__(next))dlsym(RTLD_NEXT, #name)

void *malloc(size_t size)
{
    NEXT(malloc);
    if (is_refused(MEMORY)) {
        errno = ENOMEM;
        return NULL;
    }
    return next(size);
}

void *realloc(void *block, size_t size)
{
    NEXT(realloc);
    if (size && is_refused(MEMORY)) {
        errno = ENOMEM;
        return NULL;
    }
    return next(block, size);
}

int pthread_create(pthread_t *thread, const pthread_attr_t *how, void *(*run)(void *), void *given)
{
    NEXT(pthread_create);
    return is_refused(THREAD) ? EAGAIN : next(thread, how, run, given);
}

static ssize_t failed(int error)
{
    errno = error;
    return -1;
}

ssize_t read(int file, void *bytes, size_t count)
{
    NEXT(read);
    if (is_refused(READ))
        return failed(EIO);
    return next(file, bytes, count > 1 && is_refused(SHORT) ? 1 : count);
}

ssize_t write(int file, const void *bytes, size_t count)
{
    NEXT(write);
    if (is_refused(WRITE))
        return failed(EIO);
    return next(file, bytes, count > 1 && is_refused(SHORT) ? 1 : count);
}

ssize_t __write(int file, const void *bytes, size_t count)
{
    return write(file, bytes, count);
}

int fsync(int file)
{
    NEXT(fsync);
    return is_refused(SYNC) ? failed(EIO) : next(file);
}

int fdatasync(int file)
{
    NEXT(fdatasync);
    return is_refused(SYNC) ? failed(EIO) : next(file);
}

int open(const char *path, int how, ...)
{
    NEXT(open);
    va_list more;
    va_start(more, how);
    mode_t mode = how & O_CREAT ? va_arg(more, mode_t) : 0;
    va_end(more);
    return is_refused(OPEN) ? failed(EIO) : next(path, how, mode);
}

int openat(int folder, const char *path, int how, ...)
{
    NEXT(openat);
    va_list more;
    va_start(more, how);
    mode_t mode = how & O_CREAT ? va_arg(more, mode_t) : 0;
    va_end(more);
    return is_refused(OPEN) ? failed(EIO) : next(folder, path, how, mode);
}

int mkdir(const char *path, mode_t mode)
{
    NEXT(mkdir);
    return is_refused(OPEN) ? failed(EIO) : next(path, mode);
}

ssize_t getdents64(int folder, void *names_of, size_t count)
{
    NEXT(getdents64);
    return is_refused(LIST) ? failed(EIO) : next(folder, names_of, count);
}

/* Says how many calls were made, at either end of a program. */
__attribute__((destructor)) static void tell(void)
{
    const char *path = getenv("REFUSE_COUNT");
    int file = path ? syscall(SYS_openat, AT_FDCWD, path, O_WRONLY | O_CREAT | O_TRUNC, 0600) : -1;

    if (file >= 0) {
        char text[24];
        int len = snprintf(text, sizeof text, "%ld\n", atomic_load(&made));
        syscall(SYS_write, file, text, len);
    }
}

void _exit(int status)
{
    tell();
    syscall(SYS_exit_group, status);
    __builtin_unreachable();
}
