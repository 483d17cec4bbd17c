/* Prints how much memory of arena.c an open takes, by configuration: rows of a table of docs/BOARD.md. It runs where it
 * is compiled (sizes does both): the library takes the same everywhere. */
#include <stdio.h>

#define ARENA 1048576
#include "arena.c"
#include "tmchan.h"

/* What an open takes, and 0 where it refuses. */
static size_t of(int32_t open(tmchan_stream *, const tmchan_config *, size_t), const tmchan_config *config) {
    tmchan_stream stream = {0};
    if (open(&stream, config, TMCHAN_CONFIG_LENGTH) != 0) return 0;
    size_t octets = taken;
    tmchan_close(&stream);
    return octets;
}

int main(void) {
    static const struct { const char *link; uint64_t inner, depth, batch, keep, ahead; } rows[] = {
        {"Reed-Solomon code alone, depth 1, `batch` 1", 0, 1, 1, 8192, 256},
        {"Reed-Solomon code alone, depth 5, `batch` 1", 0, 5, 1, 8192, 256},
        {"Reed-Solomon code alone, depth 5, `batch` 32", 0, 5, 32, 8192, 256},
        {"rate 1/2, depth 1, `batch` 1, `keep` 64, `ahead` 64", 12, 1, 1, 64, 64},
        {"rate 1/2, depth 5, `batch` 1, `keep` 128, `ahead` 64", 12, 5, 1, 128, 64},
        {"rate 1/2, depth 5, `batch` 1, `keep` 1,024, `ahead` 128", 12, 5, 1, 1024, 128},
        {"rate 1/2, depth 1, defaults", 12, 1, 32, 8192, 256},
        {"rate 7/8, depth 5, defaults", 78, 5, 32, 8192, 256},
    };
    for (size_t i = 0; i < sizeof rows / sizeof *rows; i++) {
        tmchan_config config;
        tmchan_config_defaults(&config);
        config.inner = rows[i].inner, config.depth = rows[i].depth, config.batch = rows[i].batch;
        config.keep = rows[i].keep, config.ahead = rows[i].ahead;
        printf("| %s | %zu | %zu | %zu |\n", rows[i].link, of(tmchan_sender_open, &config),
               of(tmchan_decoder_open, &config), of(tmchan_receiver_open, &config));
    }
}
