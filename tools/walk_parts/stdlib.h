/* What the C files of the module need of this header: malloc.c has these. */
#include <stddef.h>
void *malloc(size_t size);
void *realloc(void *block, size_t size);
void free(void *block);
