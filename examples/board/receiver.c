/* Receives the bits of the file `bits`, eight to an octet: the frames of the codeblocks that are found in them go to
 * the file `frames`, and what `tmchan decode` says of them to the file `lines`. It has no memory but its own arrays.
 * Status 0: all codeblocks are good; 1: one is bad; 2: the library refuses; 3, 4: files (host.h). */
#include "host.h"
#include "link.h"

enum {
    PIECE = 64,        /* octets read at a time */
    BEFORE = UNIT + 1, /* octets before these: those of a codeblock, which may begin at any of their bits */
};

/* BEFORE octets that were searched, and then a piece; and the number of the first one's first bit. */
static uint8_t received[BEFORE + PIECE];
static uint64_t first_bit = -8 * (uint64_t)BEFORE;

static uint8_t block[BLOCK];
static uint64_t frames, bad, fixed;
static int frames_file, lines_file;

static void say(const char *text) {
    size_t length = 0;
    while (text[length]) length++;
    host_write(lines_file, text, length);
}

static void say_number(const char *before, uint64_t number) {
    char digits[21], *at = digits + 20;
    *at = 0;
    do {
        *--at = (char)('0' + number % 10);
        number /= 10;
    } while (number);
    say(before);
    say(at);
}

/* Copies the codeblock after a marker, in the right polarity and without its randomizer sequence. */
static void take_block(const tmchan_place *place) {
    size_t bit = (size_t)(place->place + 32 - first_bit);
    for (size_t i = 0; i < BLOCK; i++) {
        const uint8_t *from = received + bit / 8 + i;
        unsigned two = (unsigned)from[0] << 8 | from[1];
        block[i] = (uint8_t)(two >> (8 - bit % 8) ^ (place->inverted ? 0xFF : 0));
    }
    if (RANDOMIZE) tmchan_randomize(block, BLOCK);
}

/* Repairs each column, and says how many of its octets were wrong. Answers whether all are codewords then. */
static int repair_block(void) {
    static uint8_t word[COLUMN];
    int is_good = 1;
    for (uint32_t i = 0; i < DEPTH; i++) {
        tmchan_take_column(DEPTH, i, block, BLOCK, word, COLUMN);
        int32_t wrong = tmchan_rs_decode(CODE, BASIS, CODE, word, COLUMN);
        if (wrong < 0) {
            is_good = 0;
            say(" x");
        } else {
            tmchan_put_column(DEPTH, i, block, BLOCK, word, COLUMN);
            fixed += (uint64_t)wrong;
            say_number(" ", (uint64_t)wrong);
        }
    }
    return is_good;
}

static void receive(const tmchan_place *place) {
    say_number("frame ", frames + bad);
    say_number(" at ", place->place);
    say_number(place->bridged ? " bridged " : " marker ", place->distance);
    say(place->inverted ? " inverted words" : " words");
    take_block(place);
    if (repair_block()) {
        frames++;
        host_write(frames_file, block, FRAME);
    } else {
        bad++;
    }
    say("\n");
}

int main(void) {
    uint8_t none; /* the room of a search that verifies no place */
    tmchan_search search = {0};
    tmchan_place place;
    if (tmchan_search_open(&search, TOLERANCE, FLY, EITHER, 8 * BLOCK, 0) != 0) host_exit(2);
    int bits_file = host_reads("bits");
    frames_file = host_writes("frames"), lines_file = host_writes("lines");
    for (size_t length; (length = host_read(bits_file, received + BEFORE, PIECE)) > 0;) {
        uint64_t at = 0;
        while (tmchan_search_octets(&search, &none, 0, received + BEFORE, length, &at, &place) == 1) receive(&place);
        for (size_t i = 0; i < BEFORE; i++) received[i] = received[length + i];
        first_bit += 8 * length;
    }
    say_number("frames ", frames);
    say_number(" bad ", bad);
    say_number(" fixed ", fixed);
    say_number(" bits ", first_bit + 8 * BEFORE);
    say("\n");
    host_exit(bad > 0);
}
