/* Loaded before a program: refuses one growth of memory, and looks for growths where none may be.

   The growth REFUSE_N of the main program is refused, no other library's. A thread of the main program that takes OPENING
   bytes opens a span of its own, and one that takes CLOSING bytes closes it: these two are marks and no growths. To the
   file descriptor REFUSE_SAID it writes `r` for the refusal, `g` for each growth in a span, `s` for each span that is
   closed, `u` for a mark out of turn, and at the end `t` if another thread is still there after a second. */
#define _GNU_SOURCE
#include <dirent.h>
#include <errno.h>
#include <link.h>
#include <stdatomic.h>
#include <stddef.h>
#include <stdlib.h>
#include <unistd.h>

enum { OPENING = 12345, CLOSING = 12347 };

extern void *__libc_malloc(size_t);
extern void *__libc_calloc(size_t, size_t);
extern void *__libc_realloc(void *, size_t);
extern void *__libc_memalign(size_t, size_t);

static atomic_ulong growths;
static unsigned long refused;
static int said = -1;
static char *first, *last;
static _Thread_local int is_open;

static int main_program(struct dl_phdr_info *info, size_t size, void *data) {
    (void)size, (void)data;
    for (int i = 0; i < info->dlpi_phnum; i++) {
        const ElfW(Phdr) *part = &info->dlpi_phdr[i];
        char *from = (char *)info->dlpi_addr + part->p_vaddr;
        if (part->p_type != PT_LOAD) continue;
        if (!first || from < first) first = from;
        if (from + part->p_memsz > last) last = from + part->p_memsz;
    }
    return 1;
}

__attribute__((constructor)) static void begin(void) {
    dl_iterate_phdr(main_program, NULL);
    refused = strtoul(getenv("REFUSE_N"), NULL, 10);
    said = atoi(getenv("REFUSE_SAID"));
}

static void tell(char what) {
    if (write(said, &what, 1) != 1) abort();
}

static int is_mark(size_t size) {
    if (size != OPENING && size != CLOSING) return 0;
    int opens = size == OPENING;
    if (opens == is_open) tell('u');
    if (!opens) tell('s');
    is_open = opens;
    return 1;
}

static int is_refused(void *caller, size_t size) {
    if ((char *)caller < first || (char *)caller >= last) return 0;
    if (is_mark(size)) return 0;
    if (is_open) tell('g');
    if (atomic_fetch_add(&growths, 1) + 1 != refused) return 0;
    tell('r');
    errno = ENOMEM;
    return 1;
}

void *malloc(size_t size) {
    return is_refused(__builtin_return_address(0), size) ? NULL : __libc_malloc(size);
}

void *calloc(size_t count, size_t size) {
    return is_refused(__builtin_return_address(0), count * size) ? NULL : __libc_calloc(count, size);
}

void *realloc(void *block, size_t size) {
    return is_refused(__builtin_return_address(0), size) ? NULL : __libc_realloc(block, size);
}

void *aligned_alloc(size_t alignment, size_t size) {
    return is_refused(__builtin_return_address(0), size) ? NULL : __libc_memalign(alignment, size);
}

int posix_memalign(void **block, size_t alignment, size_t size) {
    if (is_refused(__builtin_return_address(0), size)) return ENOMEM;
    void *got = __libc_memalign(alignment, size);
    if (!got) return ENOMEM;
    *block = got;
    return 0;
}

static int threads(void) {
    DIR *tasks = opendir("/proc/self/task");
    int count = 0;
    while (tasks && readdir(tasks)) count++;
    if (tasks) closedir(tasks);
    return count - 2;
}

__attribute__((destructor)) static void end(void) {
    for (int i = 0; i < 100 && threads() > 1; i++) usleep(10000);
    if (threads() > 1) tell('t');
}
