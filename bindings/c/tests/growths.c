#include "growths.h"
#include <stddef.h>

/* What the linker makes of the calls, and of what they were. */
void *__real_malloc(size_t size);
void *__real_calloc(size_t count, size_t size);
void *__real_realloc(void *block, size_t size);
void __real_free(void *block);
void *__wrap_malloc(size_t size);
void *__wrap_calloc(size_t count, size_t size);
void *__wrap_realloc(void *block, size_t size);
void __wrap_free(void *block);

/* How many growths are granted first, and how many are refused then. */
static long to_grant, to_refuse;
static long asked, regrown, live, refused;

void growths_refuse(long first, long then) {
    to_grant = first;
    to_refuse = then;
    refused = 0;
}

long growths_refused(void) {
    return refused;
}

long growths_asked(void) {
    return asked;
}

long growths_regrown(void) {
    return regrown;
}

long growths_live(void) {
    return live;
}

static int is_refused(void) {
    asked++;
    if (to_grant > 0) {
        to_grant--;
        return 0;
    }
    if (to_refuse == 0)
        return 0;
    to_refuse--;
    refused++;
    return 1;
}

void *__wrap_malloc(size_t size) {
    void *block = is_refused() ? NULL : __real_malloc(size);
    live += block != NULL;
    return block;
}

void *__wrap_calloc(size_t count, size_t size) {
    void *block = is_refused() ? NULL : __real_calloc(count, size);
    live += block != NULL;
    return block;
}

void *__wrap_realloc(void *block, size_t size) {
    void *grown = is_refused() ? NULL : __real_realloc(block, size);
    live += grown != NULL && block == NULL;
    regrown += block != NULL;
    return grown;
}

void __wrap_free(void *block) {
    live -= block != NULL;
    __real_free(block);
}
