/* Two threads, each with a handle and a search of its own, send, receive and search at the same time, and get what each gets alone. It is C and
 * C++ alike, so that the header is compiled as both. Status 0: nothing differed. */
#include <pthread.h>
#include <stdio.h>
#include <stdlib.h>
#include <string.h>

#include "tmchan.h"

enum { THREADS = 2, ROUNDS = 20, FRAMES = 4 };

struct link {
    uint64_t code, depth, inner, phase;
    long differing;
};

static pthread_barrier_t begin;

static void *room(size_t size) {
    void *made = calloc(1, size + 1);
    if (!made) exit(2);
    return made;
}

/* Sends frames over a link of its own, receives them, and finds the markers of a CADU. Answers how many calls had another answer. */
static long pass(const struct link *link, unsigned round) {
    tmchan_config config;
    tmchan_stream stream;
    tmchan_totals totals;
    tmchan_phase phase;
    tmchan_written written;
    tmchan_search search;
    tmchan_place place;
    uint64_t frames_length, at = 0;
    long differing = 0;
    memset(&stream, 0, sizeof stream);
    memset(&search, 0, sizeof search);
    tmchan_config_defaults(&config);
    config.code = link->code, config.depth = link->depth, config.inner = link->inner, config.phase = link->phase, config.keep = 512;
    size_t size = (size_t)tmchan_frame_length(&config), sent_length = FRAMES * size;
    uint8_t *sent = (uint8_t *)room(sent_length);
    for (size_t i = 0; i < sent_length; i++) sent[i] = (uint8_t)(i * (round + 1) + i / 5);
    size_t needed = (size_t)tmchan_sender_room(&config, sent_length);
    uint8_t *symbols = (uint8_t *)room(needed);
    differing += tmchan_sender_open(&stream, &config) != 0;
    int64_t count = tmchan_sender_push(&stream, sent, sent_length, symbols, needed, &written);
    differing += count <= 0 || tmchan_sender_finish(&stream, &written) != 0;
    int64_t most = tmchan_receiver_room(&config, (size_t)count, &frames_length);
    uint8_t *frames = (uint8_t *)room(frames_length);
    tmchan_report *reports = (tmchan_report *)room((size_t)most * sizeof *reports);
    differing += tmchan_receiver_open(&stream, &config) != 0;
    differing += tmchan_receiver_push(&stream, symbols, (size_t)count, frames, frames_length, reports, (size_t)most, &written) != 0;
    differing += tmchan_receiver_finish(&stream, frames, frames_length, reports, (size_t)most, &totals, &phase, &written) != FRAMES;
    differing += memcmp(frames, sent, sent_length) != 0;
    int32_t unit_length = tmchan_cadu_length((uint32_t)link->code, (uint32_t)link->depth, size);
    uint8_t *unit = (uint8_t *)room((size_t)unit_length);
    differing += tmchan_cadu((uint32_t)link->code, (uint32_t)link->depth, TMCHAN_DUAL, 1, sent, size, unit, (size_t)unit_length) != 0;
    differing += tmchan_search_open(&search, 0, 0, 0, 8 * (uint32_t)(unit_length - 4), 0) != 0;
    differing += tmchan_search_octets(&search, frames, 0, unit, (size_t)unit_length, &at, &place) != 1 || place.place != 0;
    free(sent), free(symbols), free(frames), free(reports), free(unit);
    return differing;
}

static void *pass_all(void *given) {
    struct link *link = (struct link *)given;
    pthread_barrier_wait(&begin);
    for (unsigned round = 0; round < ROUNDS; round++) link->differing += pass(link, round);
    return NULL;
}

int main(void) {
    static struct link links[THREADS] = {{TMCHAN_RS16, 5, TMCHAN_RATE_12, TMCHAN_GIVEN, 0}, {TMCHAN_RS8, 2, TMCHAN_RATE_78, TMCHAN_FOLLOW, 0}};
    pthread_t threads[THREADS];
    long differing = 0;
    if (pthread_barrier_init(&begin, NULL, THREADS)) return 2;
    for (int i = 0; i < THREADS; i++)
        if (pthread_create(&threads[i], NULL, pass_all, &links[i])) return 2;
    for (int i = 0; i < THREADS; i++) {
        pthread_join(threads[i], NULL);
        differing += links[i].differing;
    }
    printf("%d threads, %d rounds of each, %ld calls differ\n", THREADS, ROUNDS, differing);
    return differing != 0;
}
