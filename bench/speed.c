/* Mbit/s of each call, by processor time, the best of a hundred rounds of about five milliseconds; beside libfec's where it is built in.
 * A bit is one of what the call is given: of data, of a word with its checks, of a block, of a frame; of symbols, one for each bit of the unit. */
#include <stdio.h>
#include <stdlib.h>
#include <string.h>
#include <time.h>

#include "tmchan.h"
#ifdef WITH_LIBFEC
#include <fec.h>
#endif

enum { FRAMES = 5 * 223, UNIT = 16 * 1279, MOST = 3 * (8192 + 256) + 7 + UNIT, ITEMS = 64 };

static uint8_t sent[255], word[255], flags[255], checks[32], block[2040], unit[2044];
static uint8_t symbols[2 * UNIT + 1], soft[UNIT], bits[MOST], frames[ITEMS * FRAMES];
static tmchan_report reports[ITEMS];
static tmchan_stream sender, decoder, receiver, plain;
static tmchan_search search;
static tmchan_written written;
static int bad; /* answers that were not the wanted ones */

static double seconds(void) {
    struct timespec now;
    clock_gettime(CLOCK_PROCESS_CPUTIME_ID, &now);
    return (double)now.tv_sec + 1e-9 * (double)now.tv_nsec;
}

static void encode(void) { bad += tmchan_rs_encode(16, 0, sent, 223, checks, 32) != 0; }
static void disturb(int wrong) {
    memcpy(word, sent, 255);
    for (int i = 0; i < wrong; i++) word[15 * i] ^= (uint8_t)(i + 1);
}
static void decode(int wrong) {
    disturb(wrong);
    bad += tmchan_rs_decode(16, 0, 16, word, 255) != wrong;
}
static void decode_clean(void) { decode(0); }
static void decode_one(void) { decode(1); }
static void decode_sixteen(void) { decode(16); }
static void decode_erased(void) {
    disturb(16);
    bad += tmchan_rs_decode_erased(16, 0, 8, word, 255, flags, 255) != 16;
}
static void randomize(void) { tmchan_randomize(block, 1275); }
static void take(void) { bad += tmchan_take_column(5, 2, block, 1275, word, 255) != 0; }
static void put(void) { bad += tmchan_put_column(5, 2, block, 1275, word, 255) != 0; }
static void cadu(void) { bad += tmchan_cadu(16, 5, 0, 1, block, 1115, unit, 1279) != 0; }

/* Streams of all defaults but the depth, 5: a frame, or its symbols, at a time. */
static void open_streams(void) {
    tmchan_config config;
    tmchan_config_defaults(&config);
    config.depth = 5;
    bad += tmchan_sender_open(&sender, &config) + tmchan_decoder_open(&decoder, &config) + tmchan_receiver_open(&receiver, &config) != 0;
    bad += tmchan_search_open(&search, 0, 0, 0, 8 * 1275, 0) != 0;
    bad += tmchan_sender_push(&sender, block, FRAMES, symbols, sizeof symbols, &written) != UNIT;
    memcpy(soft, symbols, UNIT);
    config.inner = 0;
    bad += tmchan_receiver_open(&plain, &config) != 0;
}
static void send_frame(void) { bad += tmchan_sender_push(&sender, block, FRAMES, symbols, sizeof symbols, &written) != UNIT; }
static void decode_soft(void) { bad += tmchan_decoder_push(&decoder, soft, UNIT, bits, sizeof bits, &written) < 0; }
static void receive(void) { bad += tmchan_receiver_push(&receiver, soft, UNIT, frames, sizeof frames, reports, ITEMS, &written) < 0; }
static void receive_octets(void) { bad += tmchan_receiver_push(&plain, unit, 1279, frames, sizeof frames, reports, ITEMS, &written) < 0; }
static void find(void) {
    tmchan_place place;
    uint64_t at = 0;
    while (tmchan_search_octets(&search, bits, 0, unit, 1279, &at, &place) == 1) continue;
}

#ifdef WITH_LIBFEC
static void fec_encode(void) { encode_rs_ccsds(sent, checks, 0); }
static void fec_decode(int wrong) {
    disturb(wrong);
    bad += decode_rs_ccsds(word, NULL, 0, 0) != wrong;
}
static void fec_clean(void) { fec_decode(0); }
static void fec_one(void) { fec_decode(1); }
static void fec_sixteen(void) { fec_decode(16); }
static void fec_erased(void) {
    int places[16];
    for (int i = 0; i < 16; i++) places[i] = 15 * i;
    disturb(16);
    bad += decode_rs_ccsds(word, places, 16, 0) != 16;
}
#else
#define fec_encode NULL
#define fec_clean NULL
#define fec_one NULL
#define fec_sixteen NULL
#define fec_erased NULL
#endif

static double speed(void (*call)(void), int size) {
    double best = 0;
    for (int round = 0; round < 100; round++) {
        long count = 0;
        double start = seconds(), spent;
        do {
            for (int i = 0; i < 20; i++) call();
            count += 20;
            spent = seconds() - start;
        } while (spent < 0.005);
        double reached = (double)count * size / spent / 1e6;
        if (reached > best) best = reached;
    }
    return best;
}

int main(void) {
    const struct { const char *name; void (*ours)(void), (*fec)(void); int bits; } rows[] = {
        {"rs_encode, 223 octets", encode, fec_encode, 8 * 223},
        {"rs_decode, no wrong octet", decode_clean, fec_clean, 8 * 255},
        {"rs_decode, 1 wrong octet", decode_one, fec_one, 8 * 255},
        {"rs_decode, 16 wrong octets", decode_sixteen, fec_sixteen, 8 * 255},
        {"rs_decode_erased, 16 erased", decode_erased, fec_erased, 8 * 255},
        {"randomize, 1,275 octets", randomize, NULL, 8 * 1275},
        {"take_column, depth 5", take, NULL, 8 * 255},
        {"put_column, depth 5", put, NULL, 8 * 255},
        {"cadu, depth 5, 1,115 octets", cadu, NULL, 8 * 1115},
        {"sender, rate 1/2", send_frame, NULL, 8 * FRAMES},
        {"soft decoder, rate 1/2", decode_soft, NULL, UNIT / 2},
        {"receiver, rate 1/2", receive, NULL, UNIT / 2},
        {"receiver, no inner code", receive_octets, NULL, 8 * 1279},
        {"search in octets", find, NULL, 8 * 1279},
    };
    srand(131);
    for (int i = 0; i < 223; i++) sent[i] = (uint8_t)rand();
    for (int i = 0; i < 2040; i++) block[i] = (uint8_t)rand();
    for (int i = 0; i < 16; i++) flags[15 * i] = 1;
    encode();
    memcpy(sent + 223, checks, 32);
    cadu();
    open_streams();
    printf("%-30s %10s %10s\n", "Mbit/s, (255,223), dual basis", "libtmchan", "libfec");
    for (size_t i = 0; i < sizeof rows / sizeof *rows; i++) {
        printf("%-30s %10.1f", rows[i].name, speed(rows[i].ours, rows[i].bits));
        if (rows[i].fec)
            printf(" %10.1f\n", speed(rows[i].fec, rows[i].bits));
        else
            printf(" %10s\n", "-");
    }
    if (bad) fprintf(stderr, "%d answers were not the wanted ones\n", bad);
    return bad != 0;
}
