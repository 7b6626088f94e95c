/*
 * What the program calls of the kit's C files, over main's own words and the C library's errno: so it is linked with
 * any C library, also for ARM. tools/build gives the program's own main the name that stands here.
 */
#include <errno.h>
#include <stddef.h>

int rattle_main(int count, char **words);
long rattle_arg(size_t at, char *to, size_t room);
int rattle_errno(void);
void rattle_set_errno(int number);

static int word_count;
static char **all_words;

int main(int count, char **words) {
    word_count = count;
    all_words = words;
    return rattle_main(count, words);
}

/* Copies a word, without an end, and returns how long it is: -1 if there is none, -2 if there is less room. */
long rattle_arg(size_t at, char *to, size_t room) {
    size_t length = 0;
    if (at >= (size_t)word_count || !all_words[at]) return -1;
    for (const char *word = all_words[at]; word[length]; length++) {
        if (length == room) return -2;
        to[length] = word[length];
    }
    return (long)length;
}

int rattle_errno(void) {
    return errno;
}

void rattle_set_errno(int number) {
    errno = number;
}
