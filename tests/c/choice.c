/* By which build of the library a handle is opened, and that all its calls go there: platform/choose_library.c over
 * builds that only answer which they are, 2 or 3. tests/platforms writes the file with these but for the opens, from
 * the names of the calls. The word says whether processors like this are to take x86-64-v3: 1 or 0. Status 0: all was
 * so. */
#include <stdio.h>
#include <stdlib.h>

#include "platform.h"
#include "tmchan.h"

platform_memory rattle_alloc_v2(size_t size, size_t align);
platform_memory rattle_alloc_v3(size_t size, size_t align);
void rattle_dealloc_v2(void *at);

/* Each call of a handle but the opens. They are passed more numbers than any takes, which x86-64 allows. */
extern int64_t (*const calls[])();
extern const char *const names[];
extern const int number_of_calls;

static long tests, failures;

static void test(int right, const char *name, unsigned inner, size_t options) {
    tests++;
    if (right) return;
    failures++;
    fprintf(stderr, "%s: inner %u, %zu options\n", name, inner, options);
}

static int32_t opened(tmchan_stream *stream, platform_memory memory) {
    if (!memory.ok) _Exit(2);
    stream->is_open = 1;
    stream->at = memory.at;
    return 0;
}

#define OPENS(call)                                                                                                    \
    int32_t call##_v2(tmchan_stream *stream, const tmchan_config *config, size_t options) {                            \
        return (void)config, (void)options, opened(stream, rattle_alloc_v2(64, 8));                                    \
    }                                                                                                                  \
    int32_t call##_v3(tmchan_stream *stream, const tmchan_config *config, size_t options) {                            \
        return (void)config, (void)options, opened(stream, rattle_alloc_v3(64, 8));                                    \
    }
OPENS(tmchan_decoder_open)
OPENS(tmchan_receiver_open)

static void test_calls(tmchan_stream *stream, int build, unsigned inner, size_t options) {
    for (int i = 0; i < number_of_calls; i++)
        test((int32_t)calls[i](stream, 0L, 0L, 0L, 0L, 0L, 0L, 0L, 0L, 0L, 0L, 0L) == build, names[i], inner, options);
}

int main(int count, char **words) {
    if (count != 2) return 2;
    int takes_v3 = atoi(words[1]);
    test(platform_takes_v3() == takes_v3, "platform_takes_v3", 0, 0);
    const unsigned rates[] = {TMCHAN_NO_INNER, TMCHAN_RATE_12, TMCHAN_RATE_78};
    for (int i = 0; i < 3; i++)
        for (size_t options = 0; options <= TMCHAN_CONFIG_LENGTH; options++) {
            /* Of fewer options than inner is the last of, none is read. */
            tmchan_config config = {.inner = rates[i]};
            int build = takes_v3 && (options < 4 || rates[i]) ? 3 : 2;
            for (int kind = 0; kind < 2; kind++) {
                tmchan_stream stream = {0};
                test_calls(&stream, 2, rates[i], options);
                (kind ? (tmchan_receiver_open) : (tmchan_decoder_open))(&stream, &config, options);
                tmchan_stream moved = stream;
                test_calls(&moved, build, rates[i], options);
                rattle_dealloc_v2(moved.at);
            }
        }
    printf("%ld tests, %ld failed\n", tests, failures);
    return failures || number_of_calls < 10;
}
