/*
 * Memory for the library in WebAssembly, from which bindings/c/heap.c takes it as from a C library: a list of free
 * blocks in the order of their addresses, of which the first that is large enough is taken. A freed block is joined
 * with those beside it. It is for one thread.
 */
#include <stddef.h>
#include <stdlib.h>

/* What stands before each block: its size with this, and the next free block if it is free. */
struct head {
    size_t size;
    struct head *next;
};

enum { PAGE = 65536, UNIT = 16 };
/* No block is larger than what 32 bits can address. */
static const size_t MOST = (size_t)1 << 32;

/* Where the linker says that memory is free from. */
extern unsigned char __heap_base;

static struct head *free_list;
static size_t end_of_memory;

static int is_before(const struct head *it, const struct head *next) {
    return next != NULL && (const char *)it + it->size == (const char *)next;
}

static void give(struct head *it) {
    struct head *before = NULL, *next = free_list;
    while (next != NULL && next < it) {
        before = next;
        next = next->next;
    }
    it->next = next;
    if (before == NULL) free_list = it;
    else before->next = it;
    if (is_before(it, next)) {
        it->size += next->size;
        it->next = next->next;
    }
    if (before != NULL && is_before(before, it)) {
        before->size += it->size;
        before->next = it->next;
    }
}

/*
 * Asks the browser for a block of so many bytes. Whether it was given is seen by the size of the memory: where its
 * addresses are cut to 32 bits, a refusal is another number than -1.
 */
static int grow(size_t size) {
    size_t begin = end_of_memory ? end_of_memory : ((size_t)&__heap_base + UNIT - 1) / UNIT * UNIT;
    size_t end = __builtin_wasm_memory_size(0) * PAGE;
    if (end < begin + size) __builtin_wasm_memory_grow(0, (begin + size - end + PAGE - 1) / PAGE);
    end = __builtin_wasm_memory_size(0) * PAGE;
    if (end < begin + size) return 0;
    struct head *it = (struct head *)begin;
    it->size = end - begin;
    end_of_memory = end;
    give(it);
    return 1;
}

/* Takes the first free block that is large enough, and leaves what is too much of it free. */
static void *take(size_t size) {
    for (struct head **at = &free_list; *at != NULL; at = &(*at)->next) {
        struct head *it = *at;
        if (it->size < size) continue;
        *at = it->next;
        if (it->size - size >= 2 * UNIT) {
            struct head *rest = (struct head *)((char *)it + size);
            rest->size = it->size - size;
            rest->next = it->next;
            *at = rest;
            it->size = size;
        }
        return it + 1;
    }
    return NULL;
}

void *malloc(size_t size) {
    if (size > MOST) return NULL;
    size = (size + UNIT - 1) / UNIT * UNIT + sizeof(struct head);
    void *block = take(size);
    return block != NULL || !grow(size) ? block : take(size);
}

void free(void *block) {
    give((struct head *)block - 1);
}

void *realloc(void *block, size_t size) {
    size_t had = ((struct head *)block - 1)->size - sizeof(struct head);
    if (size <= had) return block;
    char *larger = malloc(size);
    if (larger == NULL) return NULL;
    for (size_t i = 0; i < had; ++i) larger[i] = ((char *)block)[i];
    free(block);
    return larger;
}
