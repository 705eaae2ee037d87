/* Refuses one call of the system's library, for refuse.py: loaded before a program's libraries.
 *
 * REFUSE names what is refused: `memory` (malloc, calloc and realloc count together), `read`,
 * `write` or `thread` (pthread_create). REFUSE_AT is the number of the call that is refused, from
 * 1. The file REFUSE_MET is made where a call was refused. With REFUSE `short` each read and each
 * write moves one byte at most, and no call is refused. REFUSE_TO is a descriptor: beside all this,
 * each write to it is refused. */
#define _GNU_SOURCE
#include <dlfcn.h>
#include <errno.h>
#include <fcntl.h>
#include <pthread.h>
#include <stdatomic.h>
#include <stdlib.h>
#include <string.h>
#include <sys/syscall.h>
#include <unistd.h>

enum kind { NOTHING, MEMORY, READ, WRITE, THREAD, SHORT };

static const char *const words[] = {"", "memory", "read", "write", "thread", "short"};
static enum kind refused_kind = NOTHING;
static long refused_at = 0;
static int refused_to = -1;
static const char *met = NULL;
static _Atomic long calls = 0;
static int is_ready = 0;

/* What the program asks for counts, and nothing that the loader did before it. */
__attribute__((constructor)) static void begin(void) {
    const char *word = getenv("REFUSE");
    const char *at = getenv("REFUSE_AT");
    const char *to = getenv("REFUSE_TO");
    met = getenv("REFUSE_MET");
    for (int k = 1; word && k <= SHORT; k++)
        if (!strcmp(word, words[k]))
            refused_kind = k;
    refused_at = at ? atol(at) : 0;
    refused_to = to ? atoi(to) : -1;
    is_ready = 1;
}

/* Whether this call, one of the kind, is the one to refuse. */
static int is_refused(enum kind kind) {
    if (!is_ready || kind != refused_kind || atomic_fetch_add(&calls, 1) + 1 != refused_at)
        return 0;
    if (met)
        syscall(SYS_close, syscall(SYS_open, met, O_CREAT | O_WRONLY, 0600));
    return 1;
}

void *__libc_malloc(size_t size);
void *__libc_calloc(size_t count, size_t size);
void *__libc_realloc(void *old, size_t size);

void *malloc(size_t size) {
    if (is_refused(MEMORY)) {
        errno = ENOMEM;
        return NULL;
    }
    return __libc_malloc(size);
}

void *calloc(size_t count, size_t size) {
    if (is_refused(MEMORY)) {
        errno = ENOMEM;
        return NULL;
    }
    return __libc_calloc(count, size);
}

void *realloc(void *old, size_t size) {
    if (is_refused(MEMORY)) {
        errno = ENOMEM;
        return NULL;
    }
    return __libc_realloc(old, size);
}

ssize_t read(int file, void *bytes, size_t count) {
    if (is_refused(READ)) {
        errno = EIO;
        return -1;
    }
    if (refused_kind == SHORT && count > 1)
        count = 1;
    return syscall(SYS_read, file, bytes, count);
}

ssize_t write(int file, const void *bytes, size_t count) {
    if (file == refused_to || is_refused(WRITE)) {
        errno = ENOSPC;
        return -1;
    }
    if (refused_kind == SHORT && count > 1)
        count = 1;
    return syscall(SYS_write, file, bytes, count);
}

int pthread_create(pthread_t *thread, const pthread_attr_t *attributes, void *(*start)(void *),
                   void *argument) {
    int (*make)(pthread_t *, const pthread_attr_t *, void *(*)(void *), void *) =
        (int (*)(pthread_t *, const pthread_attr_t *, void *(*)(void *), void *))dlsym(
            RTLD_NEXT, "pthread_create");
    if (is_refused(THREAD) || !make)
        return EAGAIN;
    return make(thread, attributes, start, argument);
}
