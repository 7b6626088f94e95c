/*
 * By which the archive takes memory on processors for which the kit has no object of its own: the same three functions
 * over the C library. Two return whether there was memory, and the block, in that order. A block of no bytes is one of
 * as many bytes as its alignment, which is at most that of malloc.
 */
#include <stddef.h>
#include <stdlib.h>

struct got {
    unsigned long is_there;
    void *block;
};

struct got rattle_alloc(size_t size, size_t align);
struct got rattle_realloc(void *block, size_t old, size_t size, size_t align);
void rattle_dealloc(void *block);

/* What stands for a block that is not there: a caller reads no null pointer. */
static char nothing;

static struct got got(void *block) {
    struct got it = {block != NULL, block ? block : &nothing};
    return it;
}

struct got rattle_alloc(size_t size, size_t align) {
    return got(malloc(size ? size : align));
}

struct got rattle_realloc(void *block, size_t old, size_t size, size_t align) {
    (void)old;
    return got(realloc(block, size ? size : align));
}

void rattle_dealloc(void *block) {
    free(block);
}
