/* One program of two builds, for x86-64-v2 and for x86-64-v3. The one for v3 is faster where an inner code is decoded,
 * on some processors (processor.c), and is taken there for a command that does so.
 *
 * Both are compiled from one proved text, so that nothing but speed hangs on what is chosen. */
#include "platform.h"

#include <string.h>

int tmchan_main_v2(int count, char **words);
int tmchan_main_v3(int count, char **words);

static const char *const decoding[] = {"decode", "report", "trace", "bits", "certify", "soak"};

static int decodes_inner_code(int count, char **words) {
    if (count < 2) return 0;
    size_t i = 0, number = sizeof decoding / sizeof *decoding;
    while (i < number && strcmp(words[1], decoding[i])) i++;
    if (i == number) return 0;
    for (int k = 2; k < count; k++) {
        if (!strcmp(words[k], "--inner=none")) return 0;
        if (!strcmp(words[k], "--inner") && k + 1 < count && !strcmp(words[k + 1], "none")) return 0;
    }
    return 1;
}

int tmchan_main(int count, char **words) {
    int is_v3 = platform_takes_v3() && decodes_inner_code(count, words);
    return is_v3 ? tmchan_main_v3(count, words) : tmchan_main_v2(count, words);
}
