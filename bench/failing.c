/* Stands between the program and the C library (LD_PRELOAD), and refuses calls as the environment says:
   FAIL_MEMORY=K   the K-th request for memory (malloc and realloc, counted together over all threads)
   FAIL_READ=K     the K-th read of standard input, by EIO or the number FAIL_BY
   FAIL_WRITE=K    the K-th write of standard output, in the same way
   FAIL_THREAD=K   the K-th thread that is begun, by EAGAIN
   MOST=N          a read gives at most N octets, and a write takes at most N
   MARK=FILE       this file is made where a call was refused
   K counts from 1. */
#define _GNU_SOURCE
#include <dlfcn.h>
#include <errno.h>
#include <fcntl.h>
#include <pthread.h>
#include <stdatomic.h>
#include <stdlib.h>
#include <sys/syscall.h>
#include <unistd.h>

enum { MEMORY, READ, WRITE, THREAD, KINDS };
static const char *const names[KINDS] = {"FAIL_MEMORY", "FAIL_READ", "FAIL_WRITE", "FAIL_THREAD"};
static atomic_long calls[KINDS], wanted[KINDS];
static long most, by;
static int is_on;

__attribute__((constructor)) static void begin(void) {
    for (int kind = 0; kind < KINDS; kind++) {
        const char *text = getenv(names[kind]);
        wanted[kind] = text ? atol(text) : 0;
    }
    const char *text = getenv("MOST");
    most = text ? atol(text) : 0;
    text = getenv("FAIL_BY");
    by = text ? atol(text) : EIO;
    is_on = 1;
}

static int refused(int kind) {
    if (!is_on || atomic_fetch_add(&calls[kind], 1) + 1 != wanted[kind])
        return 0;
    const char *mark = getenv("MARK");
    if (mark)
        close(open(mark, O_CREAT | O_WRONLY, 0600));
    return 1;
}

extern void *__libc_malloc(size_t), *__libc_realloc(void *, size_t);

void *malloc(size_t size) {
    if (refused(MEMORY)) {
        errno = ENOMEM;
        return NULL;
    }
    return __libc_malloc(size);
}

void *realloc(void *old, size_t size) {
    if (refused(MEMORY)) {
        errno = ENOMEM;
        return NULL;
    }
    return __libc_realloc(old, size);
}

static size_t piece(size_t size) { return most && size > (size_t)most ? (size_t)most : size; }

ssize_t read(int fd, void *to, size_t size) {
    if (fd == 0 && refused(READ)) {
        errno = by;
        return -1;
    }
    return syscall(SYS_read, fd, to, fd == 0 ? piece(size) : size);
}

static ssize_t put(int fd, const void *from, size_t size) {
    if (fd == 1 && refused(WRITE)) {
        errno = by;
        return -1;
    }
    return syscall(SYS_write, fd, from, fd == 1 ? piece(size) : size);
}

ssize_t write(int fd, const void *from, size_t size) { return put(fd, from, size); }
ssize_t __write(int fd, const void *from, size_t size) { return put(fd, from, size); }

int pthread_create(pthread_t *it, const pthread_attr_t *by, void *(*run)(void *), void *with) {
    static int (*real)(pthread_t *, const pthread_attr_t *, void *(*)(void *), void *);
    if (!real)
        real = (int (*)(pthread_t *, const pthread_attr_t *, void *(*)(void *), void *))dlsym(RTLD_NEXT, "pthread_create");
    return refused(THREAD) ? EAGAIN : real(it, by, run, with);
}
