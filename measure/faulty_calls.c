/* Laid before the C library (LD_PRELOAD): lets one call of a kind fail, or move one byte. measure/faulty builds and uses it.
   FAULT_KIND: alloc, read or write. FAULT_AT: the call that fails, from 1; 0: none. FAULT_SHORT: that read or write moves one byte, and does not fail.
   FAULT_COUNT: a file to which the number of calls of the kind is written at the end. */
#define _GNU_SOURCE
#include <dlfcn.h>
#include <errno.h>
#include <fcntl.h>
#include <stdarg.h>
#include <stdio.h>
#include <stdlib.h>
#include <string.h>
#include <sys/socket.h>
#include <sys/types.h>
#include <sys/uio.h>
#include <unistd.h>

static unsigned long calls, at;
static int kind, is_short, on;

__attribute__((constructor)) static void begin(void) {
    const char *word = getenv("FAULT_KIND"), *number = getenv("FAULT_AT");
    kind = word ? word[0] : 0;
    at = number ? strtoul(number, 0, 10) : 0;
    is_short = getenv("FAULT_SHORT") != 0;
    on = 1;
}

__attribute__((destructor)) static void end(void) {
    const char *file = getenv("FAULT_COUNT");
    on = 0;
    if (file) {
        FILE *it = fopen(file, "w");
        if (it) {
            fprintf(it, "%lu\n", calls);
            fclose(it);
        }
    }
}

/* Whether this call of the kind is the one. */
static int hit(int of) {
    return on && kind == of && ++calls == at;
}

#define NEXT(name) static __typeof__(&name) next; if (!next) next = (__typeof__(&name))dlsym(RTLD_NEXT, #name)

void *__libc_malloc(size_t);
void *__libc_realloc(void *, size_t);
void *__libc_calloc(size_t, size_t);
void *__libc_memalign(size_t, size_t);

void *malloc(size_t size) {
    if (hit('a')) { errno = ENOMEM; return 0; }
    return __libc_malloc(size);
}
void *realloc(void *old, size_t size) {
    if (hit('a')) { errno = ENOMEM; return 0; }
    return __libc_realloc(old, size);
}
void *calloc(size_t count, size_t size) {
    if (hit('a')) { errno = ENOMEM; return 0; }
    return __libc_calloc(count, size);
}
void *aligned_alloc(size_t align, size_t size) {
    if (hit('a')) { errno = ENOMEM; return 0; }
    return __libc_memalign(align, size);
}
int posix_memalign(void **to, size_t align, size_t size) {
    if (hit('a')) return ENOMEM;
    *to = __libc_memalign(align, size);
    return *to ? 0 : ENOMEM;
}

#define MOVED(of, whole, one) do { if (hit(of)) { if (is_short) return one; errno = EIO; return -1; } return whole; } while (0)

ssize_t read(int fd, void *to, size_t size) { NEXT(read); MOVED('r', next(fd, to, size), next(fd, to, size ? 1 : 0)); }
ssize_t pread(int fd, void *to, size_t size, off_t where) { NEXT(pread); MOVED('r', next(fd, to, size, where), next(fd, to, size ? 1 : 0, where)); }
ssize_t pread64(int fd, void *to, size_t size, off64_t where) { NEXT(pread64); MOVED('r', next(fd, to, size, where), next(fd, to, size ? 1 : 0, where)); }
ssize_t recv(int fd, void *to, size_t size, int flags) { NEXT(recv); MOVED('r', next(fd, to, size, flags), next(fd, to, size ? 1 : 0, flags)); }
ssize_t write(int fd, const void *from, size_t size) { NEXT(write); MOVED('w', next(fd, from, size), next(fd, from, size ? 1 : 0)); }
ssize_t pwrite(int fd, const void *from, size_t size, off_t where) { NEXT(pwrite); MOVED('w', next(fd, from, size, where), next(fd, from, size ? 1 : 0, where)); }
ssize_t pwrite64(int fd, const void *from, size_t size, off64_t where) { NEXT(pwrite64); MOVED('w', next(fd, from, size, where), next(fd, from, size ? 1 : 0, where)); }
ssize_t send(int fd, const void *from, size_t size, int flags) { NEXT(send); MOVED('w', next(fd, from, size, flags), next(fd, from, size ? 1 : 0, flags)); }
ssize_t writev(int fd, const struct iovec *parts, int count) {
    NEXT(writev);
    if (hit('w')) {
        if (!is_short) { errno = EIO; return -1; }
        for (int n = 0; n < count; n++) if (parts[n].iov_len) { struct iovec one = {parts[n].iov_base, 1}; return next(fd, &one, 1); }
    }
    return next(fd, parts, count);
}
ssize_t sendmsg(int fd, const struct msghdr *message, int flags) {
    NEXT(sendmsg);
    if (hit('w')) {
        if (!is_short) { errno = EIO; return -1; }
        for (size_t n = 0; n < message->msg_iovlen; n++) if (message->msg_iov[n].iov_len) {
            struct iovec one = {message->msg_iov[n].iov_base, 1};
            struct msghdr less = *message;
            less.msg_iov = &one;
            less.msg_iovlen = 1;
            return next(fd, &less, flags);
        }
    }
    return next(fd, message, flags);
}
