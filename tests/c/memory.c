/* Counts and refuses allocations: each of an open in turn, which answers TMCHAN_MEMORY then, leaves the handle closed and keeps nothing. What an
 * open took its finish or tmchan_close gives back, and no other call allocates or frees. Linked with the static library and
 * -Wl,--wrap=malloc,--wrap=realloc,--wrap=free, so that the calls of the library come here; those of this file are not counted. Status 0: all
 * was so. */
#include <stdio.h>
#include <string.h>

#include "tmchan.h"

void *__real_malloc(size_t size);
void *__real_realloc(void *old, size_t size);
void __real_free(void *old);

/* How many allocations were asked for, which of them is refused (0: none), how many blocks are held, and how many were given back. */
static long asked, refused, held, given_back;
static long differing, tests;

static void expect(int right, const char *what, const char *kind, int number) {
    tests++;
    if (right) return;
    differing++;
    fprintf(stderr, "%s: %s, configuration %d\n", kind, what, number);
}

static void *counted(void *old, size_t size) {
    if (++asked == refused) return NULL;
    void *made = __real_realloc(old, size);
    held += made && !old;
    return made;
}

void *__wrap_malloc(size_t size) { return counted(NULL, size); }
void *__wrap_realloc(void *old, size_t size) { return counted(old, size); }

void __wrap_free(void *old) {
    held -= old != NULL, given_back += old != NULL;
    __real_free(old);
}

static void *room(size_t size) {
    void *made = __real_malloc(size + 1);
    if (!made) _Exit(2);
    return memset(made, 0, size + 1);
}

/* Frames, their symbols with some of them wrong, and arrays with room for whatever these come to. */
struct data {
    uint8_t *frames, *symbols, *octets;
    size_t frames_length, symbols_length, octets_length;
    tmchan_report *reports;
    size_t reports_length;
};

/* The calls of a stream of each kind between its open and its end. Each answers whether the calls answered as they should. */
static int use_sender(tmchan_stream *stream, const tmchan_config *config, struct data *data) {
    size_t half = data->frames_length / 2, needed = tmchan_sender_room(config, data->frames_length);
    tmchan_written written;
    return needed <= data->octets_length && tmchan_sender_push(stream, data->frames, 1, data->octets, 0, &written) == TMCHAN_ROOM
        && tmchan_sender_push(stream, data->frames, half, data->octets, needed, &written) >= 0
        && tmchan_sender_push(stream, data->frames + half, data->frames_length - half, data->octets, needed, &written) > 0;
}

static int use_decoder(tmchan_stream *stream, const tmchan_config *config, struct data *data) {
    size_t half = data->symbols_length / 2;
    tmchan_phase phase;
    tmchan_written written;
    return tmchan_decoder_room(config, data->symbols_length) <= (int64_t)data->octets_length
        && tmchan_decoder_push(stream, data->symbols, 1, data->octets, 0, &written) <= 0
        && tmchan_decoder_push(stream, data->symbols, half, data->octets, data->octets_length, &written) >= 0
        && tmchan_decoder_push(stream, data->symbols + half, data->symbols_length - half, data->octets, data->octets_length, &written) >= 0
        && tmchan_decoder_phase(stream, &phase) == 0;
}

static int use_receiver(tmchan_stream *stream, const tmchan_config *config, struct data *data) {
    size_t half = data->symbols_length / 2;
    uint64_t slips, frames_length;
    tmchan_phase phase;
    tmchan_written written;
    return tmchan_receiver_room(config, data->symbols_length, &frames_length) <= (int64_t)data->reports_length
        && frames_length <= data->octets_length
        && tmchan_receiver_push(stream, data->symbols, half, data->octets, data->octets_length, data->reports, data->reports_length, &written) >= 0
        && tmchan_receiver_push(stream, data->symbols + half, data->symbols_length - half, data->octets, 0, data->reports, 0, &written) <= 0
        && tmchan_receiver_phase(stream, &phase) == 0 && tmchan_receiver_slips(stream, &slips) == 0;
}

static int64_t finish_sender(tmchan_stream *stream, struct data *data) {
    tmchan_written written;
    (void)data;
    return tmchan_sender_finish(stream, &written);
}

static int64_t finish_decoder(tmchan_stream *stream, struct data *data) {
    tmchan_phase phase;
    tmchan_written written;
    return tmchan_decoder_finish(stream, data->octets, data->octets_length, &phase, &written);
}

static int64_t finish_receiver(tmchan_stream *stream, struct data *data) {
    tmchan_totals totals;
    tmchan_phase phase;
    tmchan_written written;
    return tmchan_receiver_finish(stream, data->octets, data->octets_length, data->reports, data->reports_length, &totals, &phase, &written);
}

static const struct {
    const char *name;
    int32_t (*open)(tmchan_stream *, const tmchan_config *, size_t);
    int (*use)(tmchan_stream *, const tmchan_config *, struct data *);
    int64_t (*finish)(tmchan_stream *, struct data *);
} kinds[] = {
    {"sender", tmchan_sender_open, use_sender, finish_sender},
    {"decoder", tmchan_decoder_open, use_decoder, finish_decoder},
    {"receiver", tmchan_receiver_open, use_receiver, finish_receiver},
};

/* What may end a stream. */
enum { CLOSES_UNUSED, CLOSES, FINISHES, ENDS };

static void make_streams(int number, const tmchan_config *config, struct data *data) {
    for (int kind = 0; kind < 3; kind++) {
        const char *name = kinds[kind].name;
        long in_open = 0;
        for (int end = 0; end < ENDS; end++) {
            tmchan_stream stream = {0};
            asked = refused = given_back = 0;
            expect(kinds[kind].open(&stream, config, TMCHAN_CONFIG_LENGTH) == 0, "it does not open", name, number);
            in_open = asked;
            expect(in_open > 0 && held > 0 && held + given_back <= asked, "it takes no memory", name, number);
            given_back = 0;
            long held_open = held;
            if (end != CLOSES_UNUSED) expect(kinds[kind].use(&stream, config, data), "a call has another answer", name, number);
            expect(kinds[kind].open(&stream, config, TMCHAN_CONFIG_LENGTH) == TMCHAN_OPEN, "it opens twice", name, number);
            expect(asked == in_open && held == held_open && given_back == 0, "a call allocates or frees", name, number);
            expect((end == FINISHES ? kinds[kind].finish(&stream, data) : tmchan_close(&stream)) >= 0, "it does not end", name, number);
            expect(asked == in_open && held == 0, "memory is kept", name, number);
            expect(tmchan_close(&stream) == TMCHAN_CLOSED && asked == in_open && held == 0, "it closes twice", name, number);
        }
        for (long at = 1; at <= in_open; at++) {
            tmchan_stream stream = {0};
            asked = 0, refused = at;
            expect(kinds[kind].open(&stream, config, TMCHAN_CONFIG_LENGTH) == TMCHAN_MEMORY && asked == at, "an allocation is refused", name, number);
            expect(held == 0 && tmchan_close(&stream) == TMCHAN_CLOSED, "memory is kept, or it is open", name, number);
            refused = 0;
            expect(kinds[kind].open(&stream, config, TMCHAN_CONFIG_LENGTH) == 0 && tmchan_close(&stream) == 0 && held == 0, "it does not open then", name, number);
        }
    }
}

/* The calls that have no handle. */
static void make_plain_calls(void) {
    uint8_t word[255] = {1}, checks[32], flags[255] = {1}, block[510] = {0}, unit[300];
    const char *name = "a call without a handle";
    tmchan_search search = {0};
    tmchan_place place;
    uint64_t at = 0;
    asked = refused = 0;
    expect(tmchan_version() == TMCHAN_VERSION, "version", name, 0);
    char text[TMCHAN_TEXT_LENGTH];
    expect(tmchan_text(TMCHAN_MEMORY, text, sizeof text) == (int32_t)strlen(text), "a text", name, 0);
    expect(tmchan_rs_encode(TMCHAN_RS16, TMCHAN_DUAL, word, 223, checks, 32) == 0, "encode", name, 0);
    expect(tmchan_rs_decode(TMCHAN_RS16, TMCHAN_DUAL, 16, word, 255) == 1, "decode", name, 0);
    word[7] = 9;
    expect(tmchan_rs_decode_erased(TMCHAN_RS16, TMCHAN_DUAL, 15, word, 255, flags, 255) == 1, "decode with erased octets", name, 0);
    tmchan_randomize(block, sizeof block);
    expect(tmchan_take_column(2, 1, block, 510, word, 255) == 0 && tmchan_put_column(2, 0, block, 510, word, 255) == 0, "columns", name, 0);
    expect(tmchan_cadu_length(TMCHAN_RS16, 1, 223) == 259 && tmchan_cadu(TMCHAN_RS16, 1, TMCHAN_DUAL, 1, block, 223, unit, 259) == 0, "a CADU", name, 0);
    expect(tmchan_search_open(&search, 0, 0, 0, 2040, 0) == 0, "search", name, 0);
    expect(tmchan_search_octets(&search, flags, 0, unit, 259, &at, &place) == 1 && place.place == 0, "octets", name, 0);
    at = 0;
    expect(tmchan_search_bits(&search, flags, 0, block, 510, &at, &place) == 0 && at == 510, "bits", name, 0);
    expect(asked == 0, "a call allocates", name, 0);
}

int main(void) {
    static const struct { uint64_t code, depth, inner, phase, polarity, batch, workers, verify, keep, pack, rescan, bad; } given[] = {
        {16, 1, 12, 0, 0, 32, 1, 0, 8192, 1, 0, 0}, {8, 2, 34, 1, 1, 1, 1, 0, 64, 1, 1, 0}, {16, 5, 78, 2, 0, 4, 4, 2, 512, 1, 1, 1},
        {0, 1, 12, 2, 1, 32, 64, 7, 64, 1, 0, 1},   {8, 1, 0, 0, 1, 2, 1, 1, 64, 1, 1, 1},  {16, 1, 0, 0, 0, 32, 1, 0, 8192, 0, 0, 0},
    };
    for (size_t i = 0; i < sizeof given / sizeof *given; i++) {
        tmchan_config config;
        tmchan_stream sender = {0};
        tmchan_config_defaults(&config);
        config.code = given[i].code, config.depth = given[i].depth, config.inner = given[i].inner, config.phase = given[i].phase;
        config.polarity = given[i].polarity, config.batch = given[i].batch, config.workers = given[i].workers, config.verify = given[i].verify;
        config.keep = given[i].keep, config.pack = given[i].pack, config.rescan = given[i].rescan, config.bad = given[i].bad;
        uint64_t octets_length;
        struct data data = {.frames_length = 12 * tmchan_frame_length(&config)};
        data.symbols_length = tmchan_sender_room(&config, data.frames_length);
        data.reports_length = tmchan_receiver_room(&config, data.symbols_length, &octets_length);
        data.octets_length = tmchan_decoder_room(&config, data.symbols_length);
        if (data.octets_length < octets_length) data.octets_length = octets_length;
        if (data.octets_length < data.symbols_length) data.octets_length = data.symbols_length;
        data.frames = room(data.frames_length), data.symbols = room(data.symbols_length), data.octets = room(data.octets_length);
        data.reports = room(data.reports_length * sizeof *data.reports);
        for (size_t k = 0; k < data.frames_length; k++) data.frames[k] = 5 * k + k / 7;
        expect(tmchan_sender_open(&sender, &config) == 0, "it does not open", "sender", i);
        tmchan_written written;
        data.symbols_length = tmchan_sender_push(&sender, data.frames, data.frames_length, data.symbols, data.symbols_length, &written);
        tmchan_close(&sender);
        for (size_t k = 0; k < data.symbols_length; k += 400 + k % 77) data.symbols[k] ^= 0xFF;
        make_streams(i, &config, &data);
        __real_free(data.frames), __real_free(data.symbols), __real_free(data.octets), __real_free(data.reports);
    }
    make_plain_calls();
    printf("%ld tests of memory, %ld fail\n", tests, differing);
    return differing != 0;
}
