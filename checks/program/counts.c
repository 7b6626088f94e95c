// Is loaded before a program: counts in the file COUNTS what the program asks for, as words of 64 bits: threads, growths
// of memory, their bytes, and writes of its standard output and of its errors. Where THREADS_REFUSED is set, it gets
// no thread. Where GROWTH_REFUSED is set, the growth of this number is refused. Where INTERRUPTED is set, so many
// reads of standard input, and as many writes of standard output, are interrupted before one is made.
#define _GNU_SOURCE
#include <dlfcn.h>
#include <errno.h>
#include <fcntl.h>
#include <pthread.h>
#include <stdatomic.h>
#include <stdlib.h>
#include <sys/mman.h>
#include <unistd.h>

typedef int Create(pthread_t *, const pthread_attr_t *, void *(*)(void *), void *);
typedef ssize_t Read(int, void *, size_t);
typedef ssize_t Write(int, const void *, size_t);

extern void *__libc_malloc(size_t);
extern void *__libc_realloc(void *, size_t);

struct counts {
    atomic_ulong threads, growths, bytes, writes, error_writes;
};

static struct counts *counts;
static unsigned long growth_refused;
static _Thread_local int is_starting;

__attribute__((constructor)) static void begin(void) {
    const char *name = getenv("COUNTS");
    int file = name ? open(name, O_RDWR | O_CREAT | O_CLOEXEC, 0600) : -1;
    if (file < 0 || ftruncate(file, sizeof *counts)) abort();
    const char *number = getenv("GROWTH_REFUSED");
    growth_refused = number ? strtoul(number, NULL, 10) : 0;
    counts = mmap(NULL, sizeof *counts, PROT_READ | PROT_WRITE, MAP_SHARED, file, 0);
    if (counts == MAP_FAILED || close(file)) abort();
}

int pthread_create(pthread_t *thread, const pthread_attr_t *how, void *(*body)(void *), void *argument) {
    Create *create = (Create *)dlsym(RTLD_NEXT, "pthread_create");
    is_starting = 1;
    int status = getenv("THREADS_REFUSED") ? EAGAIN : create(thread, how, body, argument);
    is_starting = 0;
    atomic_fetch_add(&counts->threads, 1);
    return status;
}

// Whether a growth is refused. What starts a thread takes memory too, which is none of the program's.
static int is_refused(size_t size) {
    if (!counts || is_starting) return 0;
    atomic_fetch_add(&counts->bytes, size);
    return atomic_fetch_add(&counts->growths, 1) + 1 == growth_refused;
}

void *malloc(size_t size) {
    return is_refused(size) ? NULL : __libc_malloc(size);
}

void *realloc(void *block, size_t size) {
    return is_refused(size) ? NULL : __libc_realloc(block, size);
}

// Whether a call on a stream is interrupted.
static int is_interrupted(int stream) {
    static atomic_int calls[2];
    const char *most = getenv("INTERRUPTED");
    if (stream < 0 || stream > 1 || !most || atomic_fetch_add(&calls[stream], 1) >= atoi(most)) return 0;
    errno = EINTR;
    return 1;
}

ssize_t read(int stream, void *bytes, size_t size) {
    Read *next = (Read *)dlsym(RTLD_NEXT, "read");
    return is_interrupted(stream) ? -1 : next(stream, bytes, size);
}

ssize_t write(int stream, const void *bytes, size_t size) {
    Write *next = (Write *)dlsym(RTLD_NEXT, "write");
    if (stream == STDOUT_FILENO) atomic_fetch_add(&counts->writes, 1);
    if (stream == STDERR_FILENO) atomic_fetch_add(&counts->error_writes, 1);
    return is_interrupted(stream) ? -1 : next(stream, bytes, size);
}

ssize_t __read(int stream, void *bytes, size_t size) {
    return read(stream, bytes, size);
}

ssize_t __write(int stream, const void *bytes, size_t size) {
    return write(stream, bytes, size);
}
