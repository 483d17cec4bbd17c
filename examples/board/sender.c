/* Sends the transfer frames of the file `frames`: their CADUs, or with an inner code their symbols, go to the file
 * `symbols`. The sender's memory is that of arena.c. Status 0: all are sent; 2: the library refuses; 3, 4: files
 * (host.h); 6: octets after the last whole frame are not sent. */
#include "host.h"
#include "link.h"

enum {
    PIECE = 32, /* octets read at a time: fewer than a frame has */
    SYMBOLS = (INNER == TMCHAN_NO_INNER ? UNIT : 16 * UNIT) + 1, /* room for those of a frame that is whole then */
};

int main(void) {
    static uint8_t symbols[SYMBOLS];
    uint8_t piece[PIECE];
    tmchan_stream sender = {0};
    tmchan_config config;
    tmchan_written written;
    tmchan_config_defaults(&config);
    config.code = CODE, config.depth = DEPTH, config.length = FRAME, config.basis = BASIS;
    config.randomize = RANDOMIZE, config.inner = INNER;
    if (tmchan_sender_open(&sender, &config) != 0) host_exit(2);
    int from = host_reads("frames"), to = host_writes("symbols");
    for (size_t length; (length = host_read(from, piece, PIECE)) > 0;) {
        int64_t count = tmchan_sender_push(&sender, piece, length, symbols, SYMBOLS, &written);
        if (count < 0) host_exit(2);
        host_write(to, symbols, (size_t)count);
    }
    host_exit(tmchan_sender_finish(&sender, &written) == 0 ? 0 : 6);
}
