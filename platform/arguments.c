/* Where the program begins: keeps the words of the command line for proved code, and calls it. */
#include "platform.h"

static size_t word_count;
static char **words_given;

int main(int count, char **words) {
    word_count = count < 0 ? 0 : (size_t)count;
    words_given = words;
    return tmchan_main(count, words);
}

size_t rattle_arg_count(void) { return word_count; }

ssize_t rattle_arg(size_t i, uint8_t *array, size_t length) {
    if (i >= word_count) return -1;
    size_t copied = 0;
    for (const char *word = words_given[i]; word[copied]; copied++) {
        if (copied == length) return -2;
        array[copied] = (uint8_t)word[copied];
    }
    return (ssize_t)copied;
}
