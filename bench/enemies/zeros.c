// Random words that are all zero, for a program that is loaded after this.
#include <string.h>

int getentropy(void *words, size_t length) {
    memset(words, 0, length);
    return 0;
}
