#define _POSIX_C_SOURCE 200809L

/* Makes the calls of the streams of each row on standard input (tests/stream_rows.py writes them), in pieces of several sizes, and refusals of
 * each call. Reports, totals and phases are written as the program's lines, and compared with those. Each array has exactly its length on the
 * heap, so that valgrind and AddressSanitizer see an octet beyond it. Status 0: no call differed. */
#include <inttypes.h>
#include <stdio.h>
#include <stdlib.h>
#include <string.h>

#include "tmchan.h"

enum { OPTIONS = TMCHAN_CONFIG_LENGTH };

/* More octets than any call says room for; no size of 32 bits is so great. */
enum { IS_WIDE = SIZE_MAX > UINT32_MAX };
static const size_t too_many = (size_t)(((uint64_t)1 << 40) + 1);

static long differing, calls;
static size_t line_number;

static void expect(int right, const char *what) {
    calls++;
    if (right) return;
    differing++;
    fprintf(stderr, "line %zu: %s\n", line_number, what);
}

static void *room(size_t size) {
    void *made = calloc(1, size + (size == 0));
    if (!made) exit(2);
    return made;
}

static int is_written(const tmchan_written *written, uint64_t reports, uint64_t octets) {
    return written->reports == reports && written->octets == octets && written->windows == 0;
}

struct octets {
    uint8_t *at; /* NULL where they are not told */
    size_t length;
};

static struct octets octets(const char *digits) {
    if (*digits == '*') return (struct octets){NULL, 0};
    size_t length = *digits == '-' ? 0 : strcspn(digits, " \n") / 2;
    struct octets made = {room(length), length};
    for (size_t i = 0; i < length; i++) {
        unsigned octet;
        sscanf((char[]){digits[2 * i], digits[2 * i + 1], 0}, "%x", &octet);
        made.at[i] = (uint8_t)octet;
    }
    return made;
}

static void send(const tmchan_config *config, const struct octets *fields, size_t piece) {
    const struct octets *given = &fields[0], *wanted = &fields[1];
    tmchan_stream sender = {0};
    tmchan_written written;
    uint8_t *sent = room(wanted->length);
    size_t count = 0;
    expect(tmchan_sender_open(&sender, config) == 0, "the sender does not open");
    for (size_t at = 0; at < given->length; at += piece) {
        size_t size = given->length - at < piece ? given->length - at : piece;
        int64_t needed = tmchan_sender_room(config, size);
        uint8_t *octets = room(size), *symbols = room(needed);
        memcpy(octets, given->at + at, size);
        int64_t answer = tmchan_sender_push(&sender, octets, size, symbols, needed, &written);
        expect(is_written(&written, 0, answer), "a push wrote another number");
        expect(answer >= 0 && answer < needed && count + answer <= wanted->length, "a push has a wrong answer");
        if (answer > 0 && count + answer <= wanted->length) memcpy(sent + count, symbols, answer);
        count += answer;
        free(octets), free(symbols);
    }
    expect(count == wanted->length && !memcmp(sent, wanted->at, count), "other symbols were sent");
    int32_t size = tmchan_frame_length(config);
    expect(tmchan_sender_finish(&sender, &written) == (int64_t)(given->length % size), "another number is left over");
    expect(is_written(&written, 0, 0), "a sender's finish wrote");
    expect(tmchan_close(&sender) == TMCHAN_CLOSED, "the sender is open after its finish");
    free(sent);
}

/* The line of a codeblock. */
static void say_report(FILE *lines, size_t number, const tmchan_report *report) {
    fprintf(lines, "frame %zu at %" PRIu64 " %s %u%s", number, report->place, report->bridged ? "bridged" : "marker", report->distance,
            report->inverted ? " inverted" : "");
    fputs(report->columns ? " words" : " uncoded", lines);
    for (int k = 0; k < report->columns; k++) fprintf(lines, report->repaired[k] == 255 ? " x" : " %u", report->repaired[k]);
    fputc('\n', lines);
}

static void say_phase(FILE *lines, const tmchan_phase *phase) {
    if (phase->is_chosen) fprintf(lines, "phase %u cost %" PRIu64 "\n", phase->skip, phase->cost);
}

static void receive(const tmchan_config *config, const struct octets *fields, size_t piece) {
    const struct octets *given = &fields[0], *wanted = &fields[1], *notes = &fields[2];
    tmchan_stream receiver = {0};
    uint8_t *received = room(wanted->length);
    size_t count = 0, frames_found = 0, bad = 0, fixed = 0, lines_length, items_length;
    uint64_t slips = 0;
    tmchan_totals totals = {0};
    tmchan_phase phase = {0};
    char *lines_at, *items_at;
    FILE *lines = open_memstream(&lines_at, &lines_length), *items = open_memstream(&items_at, &items_length);
    int32_t size = tmchan_frame_length(config);
    expect(tmchan_receiver_open(&receiver, config) == 0, "the receiver does not open");
    for (size_t at = 0; at <= given->length; at += piece) {
        size_t length = given->length - at < piece ? given->length - at : piece;
        int last = at + piece > given->length;
        uint8_t *octets = room(length);
        memcpy(octets, given->at + at, length);
        for (int ending = 0; ending <= last; ending++) {
            uint64_t frames_length = 0;
            int64_t most = tmchan_receiver_room(config, ending ? 0 : length, &frames_length);
            expect(most >= 0 && frames_length == (uint64_t)most * size, "a room has a wrong answer");
            uint8_t *frames = room(frames_length);
            tmchan_report *reports = room(most * sizeof *reports);
            if (ending) expect(tmchan_receiver_slips(&receiver, &slips) == 0, "no slips are answered");
            tmchan_written said;
            int64_t answer = ending ? tmchan_receiver_finish(&receiver, frames, frames_length, reports, most, &totals, &phase, &said)
                                    : tmchan_receiver_push(&receiver, octets, length, frames, frames_length, reports, most, &said);
            expect(answer >= 0 && answer <= most, "the receiver refuses");
            size_t written = 0;
            for (int64_t i = 0; i < answer; i++) {
                int is_bad = 0;
                for (int k = 0; k < reports[i].columns; k++) {
                    is_bad |= reports[i].repaired[k] == 255;
                    fixed += reports[i].repaired[k] == 255 ? 0 : reports[i].repaired[k];
                }
                expect(reports[i].bad == is_bad, "bad or not");
                expect(reports[i].frame_length == (is_bad && config->bad == TMCHAN_DROP ? 0 : (uint64_t)size), "a frame has another length");
                expect(reports[i].bridged <= 1 && reports[i].inverted <= 1, "neither 0 nor 1");
                say_report(items, frames_found + bad, &reports[i]);
                frames_found += !is_bad, bad += is_bad;
                written += reports[i].frame_length;
            }
            expect(is_written(&said, answer, written), "the receiver wrote another number");
            if (wanted->at && count + written <= wanted->length) memcpy(received + count, frames, written);
            count += written;
            free(frames), free(reports);
        }
        free(octets);
    }
    expect(!wanted->at || (count == wanted->length && !memcmp(received, wanted->at, count)), "other frames were received");
    expect(slips <= totals.slips && (config->phase == 2 || totals.slips == 0), "other slips at the end");
    expect(tmchan_close(&receiver) == TMCHAN_CLOSED, "the receiver is open after its finish");
    fclose(items);
    say_phase(lines, &phase);
    fputs(items_at, lines);
    if (config->phase == 2) fprintf(lines, "slips %" PRIu64 "\n", totals.slips);
    fprintf(lines, "frames %zu bad %zu fixed %zu bits %" PRIu64 "\n", frames_found, bad, fixed, totals.bits);
    fclose(lines);
    expect(lines_length == notes->length && !memcmp(lines_at, notes->at, lines_length), "other reports, totals or phase");
    free(received), free(lines_at), free(items_at);
}

static void decode(const tmchan_config *config, const struct octets *fields, size_t piece) {
    const struct octets *given = &fields[0], *wanted = &fields[1], *notes = &fields[2];
    tmchan_stream decoder = {0};
    tmchan_phase phase = {0};
    uint8_t *decoded = room(wanted->length);
    size_t count = 0, lines_length;
    char *lines_at;
    FILE *lines = open_memstream(&lines_at, &lines_length);
    expect(tmchan_decoder_open(&decoder, config) == 0, "the decoder does not open");
    for (size_t at = 0; at <= given->length; at += piece) {
        size_t length = given->length - at < piece ? given->length - at : piece;
        int last = at + piece > given->length;
        uint8_t *octets = room(length);
        memcpy(octets, given->at + at, length);
        for (int ending = 0; ending <= last; ending++) {
            int64_t needed = tmchan_decoder_room(config, ending ? 0 : length);
            uint8_t *bits = room(needed);
            tmchan_written written;
            int64_t answer = ending ? tmchan_decoder_finish(&decoder, bits, needed, &phase, &written)
                                    : tmchan_decoder_push(&decoder, octets, length, bits, needed, &written);
            expect(is_written(&written, 0, answer), "the decoder wrote another number");
            expect(answer >= 0 && answer <= needed, "the decoder refuses");
            for (int64_t i = 0; i < answer; i++, count++) {
                expect(bits[i] <= 1, "no bit");
                if (wanted->at && count < 8 * wanted->length) decoded[count / 8] |= bits[i] << (7 - count % 8);
            }
            free(bits);
        }
        free(octets);
    }
    say_phase(lines, &phase);
    fprintf(lines, "bits %zu\n", count);
    fclose(lines);
    expect(!wanted->at || !memcmp(decoded, wanted->at, wanted->length), "other bits were decoded");
    expect(lines_length == notes->length && !memcmp(lines_at, notes->at, lines_length), "another phase, or another number of bits");
    expect(tmchan_close(&decoder) == TMCHAN_CLOSED, "the decoder is open after its finish");
    free(decoded), free(lines_at);
}

/* The lines of windows. */
static void say_windows(FILE *lines, const tmchan_window *windows, uint64_t count) {
    for (uint64_t i = 0; i < count; i++)
        for (int k = 0; k < 9; k++) fprintf(lines, "%" PRIu64 "%c", ((const uint64_t *)&windows[i])[k], k < 8 ? ' ' : '\n');
}

/* What a decoder and a receiver count of windows, and where the receiver's codeblocks stand; their answers are those of the calls without. */
static void count_windows(const tmchan_config *config, const struct octets *fields, size_t piece) {
    const struct octets *given = &fields[0], *wanted = &fields[1], *places = &fields[2];
    for (int receives = 0; receives < 2; receives++) {
        tmchan_stream counting = {0}, plain = {0};
        tmchan_totals totals;
        tmchan_phase phase;
        size_t lines_length, found_length;
        char *lines_at, *found_at;
        FILE *lines = open_memstream(&lines_at, &lines_length), *found = open_memstream(&found_at, &found_length);
        for (int is_plain = 0; is_plain < 2; is_plain++) {
            tmchan_stream *stream = is_plain ? &plain : &counting;
            expect((receives ? tmchan_receiver_open(stream, config) : tmchan_decoder_open(stream, config)) == 0, "a stream of windows does not open");
        }
        for (size_t at = 0; at <= given->length; at += piece) {
            size_t length = given->length - at < piece ? given->length - at : piece;
            for (int ending = 0; ending <= (at + piece > given->length); ending++) {
                size_t size = ending ? 0 : length;
                uint64_t most = 0;
                int64_t count = receives ? tmchan_receiver_room(config, size, &most) : 0, room_for = tmchan_window_room(config, size);
                int64_t answers[2];
                tmchan_written said[2];
                if (!receives) most = tmchan_decoder_room(config, size);
                expect(room_for >= 0, "no room for windows is answered");
                for (int is_plain = 0; is_plain < 2; is_plain++) {
                    tmchan_stream *s = is_plain ? &plain : &counting;
                    tmchan_written *w = &said[is_plain];
                    uint8_t *octets = room(size), *out = room(most);
                    tmchan_report *reports = room(count * sizeof *reports);
                    tmchan_window *windows = room(room_for * sizeof *windows);
                    memcpy(octets, given->at + at, size);
                    answers[is_plain] =
                        receives && ending && is_plain ? tmchan_receiver_finish(s, out, most, reports, count, &totals, &phase, w)
                        : receives && ending ? tmchan_receiver_finish_windows(s, out, most, reports, count, windows, room_for, &totals, &phase, w)
                        : receives && is_plain ? tmchan_receiver_push(s, octets, size, out, most, reports, count, w)
                        : receives ? tmchan_receiver_push_windows(s, octets, size, out, most, reports, count, windows, room_for, w)
                        : ending && is_plain ? tmchan_decoder_finish(s, out, most, &phase, w)
                        : ending ? tmchan_decoder_finish_windows(s, out, most, windows, room_for, &phase, w)
                        : is_plain ? tmchan_decoder_push(s, octets, size, out, most, w)
                                   : tmchan_decoder_push_windows(s, octets, size, out, most, windows, room_for, w);
                    if (!is_plain) {
                        expect(w->windows <= (uint64_t)room_for, "more windows than there is room");
                        say_windows(lines, windows, w->windows);
                        for (uint64_t i = 0, frame = 0; i < w->reports; frame += reports[i++].frame_length) {
                            expect(reports[i].frame == frame, "a frame begins elsewhere");
                            fprintf(found, "%" PRIu64 " %" PRIu64 "\n", reports[i].place, reports[i].symbol);
                        }
                    }
                    free(octets), free(out), free(reports), free(windows);
                }
                expect(answers[0] >= 0 && answers[0] == answers[1], "a call with windows answers otherwise");
                expect(said[0].reports == said[1].reports && said[0].octets == said[1].octets && said[1].windows == 0, "another number is written");
            }
        }
        fclose(lines), fclose(found);
        expect(lines_length == wanted->length && !memcmp(lines_at, wanted->at, lines_length), "other windows");
        expect(found_length == (receives ? places->length : 0) && !memcmp(found_at, places->at, found_length), "other places, or their symbols");
        expect(tmchan_close(&counting) == TMCHAN_CLOSED && tmchan_close(&plain) == TMCHAN_CLOSED, "a stream of windows is open after its finish");
        free(lines_at), free(found_at);
    }
}

static void read_numbers(tmchan_config *config) {
    for (int k = 0; k < OPTIONS; k++) ((uint64_t *)config)[k] = strtoull(strtok(NULL, " \n"), NULL, 10);
}

static void make_row(char *line) {
    tmchan_config config;
    const char *call = strtok(line, " \n");
    read_numbers(&config);
    if (!strcmp(call, "recording")) {
        tmchan_config wanted;
        read_numbers(&wanted);
        tmchan_config_recording(&config);
        expect(!memcmp(&config, &wanted, sizeof config), "other options for a recording");
        return;
    }
    if (!strcmp(call, "check")) {
        long wanted = strtol(strtok(NULL, " \n"), NULL, 10);
        tmchan_stream stream = {0};
        expect(tmchan_config_check(&config) == wanted && tmchan_frame_length(&config) == wanted, "the check has a wrong answer");
        expect(tmchan_sender_open(&stream, &config) == wanted && tmchan_decoder_open(&stream, &config) == wanted && tmchan_receiver_open(&stream, &config) == wanted,
               "an open has a wrong answer");
        uint64_t frames_length = 7;
        expect(tmchan_sender_room(&config, 1) == wanted && tmchan_decoder_room(&config, 1) == wanted, "a room has a wrong answer");
        expect(tmchan_receiver_room(&config, 1, &frames_length) == wanted && frames_length == 7, "a receiver's room has a wrong answer");
        expect(tmchan_window_room(&config, 1) == wanted, "the room of windows has a wrong answer");
        return;
    }
    expect(tmchan_config_check(&config) == 0, "the check refuses");
    struct octets fields[3] = {{NULL, 0}};
    size_t count = 0;
    for (const char *word; count < 3 && (word = strtok(NULL, " \n")); count++) fields[count] = octets(word);
    expect(count == (*call == 's' ? 2 : 3), "no such row");
    const size_t pieces[] = {1, 17, 4096, 1 << 20};
    for (int k = fields[0].length > 20000; k < 4; k++) (*call == 's' ? send : *call == 'b' ? decode : *call == 'w' ? count_windows : receive)(&config, fields, pieces[k]);
    for (size_t k = 0; k < 3; k++) free(fields[k].at);
}

/* Twelve frames at rate 1/2, and a symbol of the fifth is lost: where the phase is found once the codeblocks after it are lost as well, and where
 * it is followed one more at most. The numbers are those of docs/reference. */
static void lose_a_symbol(void) {
    tmchan_stream s = {0};
    tmchan_config config;
    uint8_t sent[12 * 16];
    tmchan_config_defaults(&config);
    line_number = 0;
    config.code = TMCHAN_NO_CODE, config.length = 16, config.keep = 64, config.ahead = 64;
    for (size_t i = 0; i < sizeof sent; i++) sent[i] = 7 * (i % 16) + 31 * (i / 16) + i % 16 * (i % 16);
    int64_t needed = tmchan_sender_room(&config, sizeof sent);
    uint8_t *symbols = room(needed);
    tmchan_written written;
    expect(tmchan_sender_open(&s, &config) == 0, "a sender does not open");
    expect(tmchan_sender_push(&s, sent, sizeof sent, symbols, needed, &written) == 3840, "symbols of twelve frames");
    expect(tmchan_close(&s) == 0, "the sender is closed");
    memmove(symbols + 1500, symbols + 1501, 3840 - 1501);
    for (config.phase = 1; config.phase <= 2; config.phase++) {
        int follows = config.phase == 2;
        uint64_t frames_length, slips;
        tmchan_totals totals;
        tmchan_phase phase;
        int64_t most = tmchan_receiver_room(&config, 3839, &frames_length);
        uint8_t *frames = room(frames_length);
        tmchan_report *reports = room(most * sizeof *reports);
        expect(tmchan_receiver_open(&s, &config) == 0, "the receiver does not open");
        expect(tmchan_receiver_push(&s, symbols, 3839, frames, frames_length, reports, most, &written) == 0, "no whole batch");
        expect(tmchan_receiver_slips(&s, &slips) == 0 && slips == (uint64_t)follows, "slips so far");
        expect(tmchan_receiver_finish(&s, frames, frames_length, reports, most, &totals, &phase, &written) == (follows ? 11 : 5), "codeblocks");
        expect(totals.bits == 1919 && totals.slips == (uint64_t)follows, "totals");
        expect(!memcmp(frames, sent, 4 * 16) && (!follows || !memcmp(frames + 5 * 16, sent + 6 * 16, 6 * 16)), "frames before and after");
        free(frames), free(reports);
    }
    free(symbols);
}

static void make_refusals(void) {
    tmchan_stream s = {0};
    tmchan_config config;
    tmchan_phase phase;
    tmchan_totals totals;
    uint64_t bits, at = 0;
    uint8_t some[64] = {0}, out[64];
    tmchan_report reports[1];
    tmchan_window windows[1];
    tmchan_config_defaults(&config);
    line_number = 0;
    expect(tmchan_config_check(&config) == 0 && tmchan_frame_length(&config) == 223, "the defaults");
    /* 3 * 8448 + 7 + 1000 bits are 12 units of 2,072 bits and a part, and a batch has 32; with four workers the bits of a batch may wait. */
    expect(tmchan_receiver_room(&config, 1000, &bits) == 44 && bits == 44 * 223, "the room of the defaults");
    config.verify = 3; /* a marker may verify the places of three more codeblocks at once */
    expect(tmchan_receiver_room(&config, 1000, &bits) == 47 && bits == 47 * 223, "with further markers");
    config.verify = 0, config.workers = 4;
    expect(tmchan_receiver_room(&config, 1000, &bits) == 76 && tmchan_receiver_room(&config, 0, &bits) == 76 && bits == 76 * 223, "with workers");
    expect(!IS_WIDE || (tmchan_receiver_room(&config, too_many, &bits) == TMCHAN_ROOM && bits == 76 * 223), "too many octets");
    /* Of 3 * 8448 + 7 + 1000 bits each window but the last keeps 8192. */
    expect(tmchan_window_room(&config, 1000) == 4 && tmchan_window_room(&config, 8185) == 5 && tmchan_window_room(&config, 0) == 4, "the room of windows");
    expect(!IS_WIDE || tmchan_window_room(&config, too_many) == TMCHAN_ROOM, "too many octets for windows");
    config.workers = 1, config.inner = 0;
    expect(tmchan_window_room(&config, 1000) == 0, "windows with no inner code");
    expect(tmchan_receiver_room(&config, 1000, &bits) == 35 && tmchan_receiver_room(&config, 0, &bits) == 32 && bits == 32 * 223, "with no inner code");
    config.inner = 12;
    config.inner = 0, config.rescan = TMCHAN_ON; /* codeblocks may lie inside others then */
    expect(tmchan_receiver_room(&config, 1000, &bits) == 42 && bits == 42 * 223, "with rescan");
    config.inner = 12, config.rescan = TMCHAN_OFF;
    tmchan_written w;
    for (int round = 0; round < 2; round++) {
        w.octets = w.reports = w.windows = 9;
        expect(tmchan_sender_push(&s, some, 1, out, 64, &w) == TMCHAN_CLOSED && is_written(&w, 0, 0), "a closed sender");
        w.octets = 9;
        expect(tmchan_sender_finish(&s, &w) == TMCHAN_CLOSED && is_written(&w, 0, 0), "a closed sender's finish");
        w.octets = 9;
        expect(tmchan_decoder_push(&s, some, 1, out, 64, &w) == TMCHAN_CLOSED && is_written(&w, 0, 0), "a closed decoder");
        w.octets = 9;
        expect(tmchan_decoder_finish(&s, out, 64, &phase, &w) == TMCHAN_CLOSED && is_written(&w, 0, 0), "a closed decoder's finish");
        w.octets = 9;
        expect(tmchan_decoder_push_windows(&s, some, 1, out, 64, windows, 1, &w) == TMCHAN_CLOSED && is_written(&w, 0, 0), "a closed decoder's windows");
        w.octets = 9;
        expect(tmchan_decoder_finish_windows(&s, out, 64, windows, 1, &phase, &w) == TMCHAN_CLOSED && is_written(&w, 0, 0), "a closed decoder's last windows");
        w.octets = 9;
        expect(tmchan_receiver_push_windows(&s, some, 1, out, 64, reports, 1, windows, 1, &w) == TMCHAN_CLOSED && is_written(&w, 0, 0),
               "a closed receiver's windows");
        w.octets = 9;
        expect(tmchan_receiver_finish_windows(&s, out, 64, reports, 1, windows, 1, &totals, &phase, &w) == TMCHAN_CLOSED && is_written(&w, 0, 0),
               "a closed receiver's last windows");
        expect(tmchan_decoder_phase(&s, &phase) == TMCHAN_CLOSED && tmchan_receiver_phase(&s, &phase) == TMCHAN_CLOSED, "a closed phase");
        expect(tmchan_receiver_slips(&s, &bits) == TMCHAN_CLOSED, "closed slips");
        w.octets = 9;
        expect(tmchan_receiver_push(&s, some, 1, out, 64, reports, 1, &w) == TMCHAN_CLOSED && is_written(&w, 0, 0), "a closed receiver");
        w.octets = 9;
        expect(tmchan_receiver_finish(&s, out, 64, reports, 1, &totals, &phase, &w) == TMCHAN_CLOSED && is_written(&w, 0, 0), "a closed receiver's finish");
        expect(tmchan_close(&s) == TMCHAN_CLOSED, "closed");
        expect(tmchan_sender_open(&s, &config) == 0 && tmchan_receiver_open(&s, &config) == TMCHAN_OPEN, "open");
        expect(tmchan_sender_open(&s, &config) == TMCHAN_OPEN && tmchan_decoder_open(&s, &config) == TMCHAN_OPEN, "open already");
        expect(tmchan_receiver_push(&s, some, 1, out, 64, reports, 1, &w) == TMCHAN_CLOSED && tmchan_decoder_push(&s, some, 1, out, 64, &w) == TMCHAN_CLOSED,
               "another kind");
        int64_t needed = tmchan_sender_room(&config, 64);
        uint8_t *symbols = room(needed);
        expect(tmchan_sender_push(&s, some, 64, symbols, needed - 1, &w) == TMCHAN_ROOM && tmchan_sender_push(&s, some, 0, symbols, 0, &w) == TMCHAN_ROOM,
               "no room");
        expect(tmchan_sender_push(&s, some, 64, symbols, needed, &w) == 0, "room");
        expect(!IS_WIDE || (tmchan_sender_room(&config, SIZE_MAX) == TMCHAN_ROOM && tmchan_decoder_room(&config, too_many) == TMCHAN_ROOM), "too many");
        free(symbols);
        expect(tmchan_close(&s) == 0, "close");
    }
    expect(tmchan_decoder_open(&s, &config) == 0, "open");
    expect(tmchan_decoder_push(&s, some, 64, out, 64, &w) == TMCHAN_ROOM && tmchan_decoder_finish(&s, out, 64, &phase, &w) == TMCHAN_ROOM, "no room for bits");
    expect(tmchan_decoder_phase(&s, &phase) == 0 && phase.is_chosen == 0 && tmchan_close(&s) == 0, "still open");
    tmchan_search search = {0};
    tmchan_place place;
    uint8_t bits_room[105];
    expect(tmchan_search_bits(&search, bits_room, 0, some, 1, &at, &place) == TMCHAN_CLOSED, "closed for bits");
    expect(tmchan_search_octets(&search, bits_room, 0, some, 1, &at, &place) == TMCHAN_CLOSED, "closed for octets");
    expect(tmchan_search_open(&search, 9, 99, 9, 8, 8) == TMCHAN_BAD_TOLERANCE && tmchan_search_open(&search, 8, 16, 9, 8, 8) == TMCHAN_BAD_FLY, "bad rules");
    expect(tmchan_search_open(&search, 8, 15, 2, 8, 8) == TMCHAN_BAD_POLARITY && tmchan_search_open(&search, 8, 15, 1, 8, 8) == TMCHAN_BAD_VERIFY, "bad numbers");
    expect(tmchan_search_open(&search, 0, 0, 1, 20, 2) == 0, "rules");
    expect(tmchan_search_bits(&search, bits_room, 103, some, 8, &at, &place) == TMCHAN_ROOM && at == 0, "too small a room");
    expect(tmchan_search_octets(&search, bits_room, 105, some, 8, &at, &place) == TMCHAN_ROOM && at == 0, "too large a room");
    expect(tmchan_search_bits(&search, bits_room, 104, some, 8, &at, &place) == 0 && at == 8, "its room");
    at = 9;
    expect(tmchan_search_bits(&search, bits_room, 104, some, 8, &at, &place) == TMCHAN_ROOM && at == 9, "beyond the array");
}

/* Configurations of other lengths than the struct's: options that are missing have their defaults, and what stands behind is to be 0. A call
 * writes no number beyond the length. */
static void pass_lengths(void) {
    enum { MOST = OPTIONS + 2 };
    uint64_t defaults[MOST] = {0};
    line_number = 0;
    (tmchan_config_defaults)((tmchan_config *)defaults, MOST);
    expect(!memcmp(&defaults[OPTIONS], (uint64_t[2]){0}, 2 * sizeof *defaults), "numbers behind the defaults");
    for (size_t length = 0; length <= MOST; length++) {
        uint64_t *numbers = room(length * sizeof *numbers), known[MOST];
        tmchan_config *config = (tmchan_config *)numbers;
        tmchan_stream stream = {0};
        (tmchan_config_defaults)(config, length);
        expect(!memcmp(numbers, defaults, length * sizeof *numbers), "defaults of another length");
        expect((tmchan_config_check)(config, length) == 0 && (tmchan_frame_length)(config, length) == 223, "a configuration of another length");
        expect((tmchan_sender_open)(&stream, config, length) == 0 && tmchan_close(&stream) == 0, "a sender of another length");
        (tmchan_config_recording)(config, length);
        (tmchan_config_recording)((tmchan_config *)memcpy(known, defaults, sizeof known), MOST);
        expect(!memcmp(numbers, known, length * sizeof *numbers), "a recording of another length");
        for (size_t at = 0; at < length; at++) {
            uint64_t was = numbers[at];
            numbers[at] = at < OPTIONS ? (uint64_t)1 << 50 : 1;
            int32_t wanted = at < OPTIONS ? TMCHAN_BAD_CODE - (int32_t)at + (at > 4) : TMCHAN_BAD_CONFIG;
            uint64_t frames_length = 7;
            expect((tmchan_config_check)(config, length) == wanted && (tmchan_frame_length)(config, length) == wanted, "a number outside");
            expect((tmchan_sender_room)(config, length, 1) == wanted && (tmchan_decoder_room)(config, length, 1) == wanted, "a room of a number outside");
            expect((tmchan_receiver_room)(config, length, 1, &frames_length) == wanted && frames_length == 7, "a receiver's room of a number outside");
            expect((tmchan_sender_open)(&stream, config, length) == wanted && (tmchan_decoder_open)(&stream, config, length) == wanted
                   && (tmchan_receiver_open)(&stream, config, length) == wanted, "an open with a number outside");
            numbers[at] = was;
        }
        free(numbers);
    }
}

/* Searches with codeblocks of 20 bits, in bits or in octets that are cut at any place, which find these places. */
static void search_each(const uint8_t *bits, int octets_length, uint32_t verify, int wanted, const tmchan_place *places) {
    uint8_t packed[32] = {0};
    size_t room_length = verify * (32 + 20);
    for (int i = 0; i < 8 * octets_length; i++) packed[i / 8] |= bits[i] << (7 - i % 8);
    for (int cut = 0; cut <= octets_length; cut++)
        for (int in_octets = 0; in_octets < 2; in_octets++) {
            tmchan_search search = {0};
            tmchan_place place;
            uint8_t *its_room = room(room_length);
            int count = 0;
            expect(tmchan_search_open(&search, 0, 0, 1, 20, verify) == 0, "the search does not open");
            for (int part = 0; part < 2; part++) {
                int first = part ? cut : 0, size = part ? octets_length - cut : cut;
                uint8_t *array = room(in_octets ? size : 8 * size);
                memcpy(array, in_octets ? packed + first : bits + 8 * first, in_octets ? size : 8 * size);
                uint64_t at = 0;
                while ((in_octets ? tmchan_search_octets(&search, its_room, room_length, array, size, &at, &place)
                                  : tmchan_search_bits(&search, its_room, room_length, array, 8 * size, &at, &place)) == 1) {
                    expect(count < wanted && place.place == places[count].place && place.inverted == places[count].inverted, "another place was found");
                    count++;
                }
                expect(at == (uint64_t)8 * size, "not all was taken");
                free(array);
            }
            expect(count == wanted, "places were not found");
            free(its_room);
        }
}

/* Two markers, the second inverted, each before a codeblock and after 5 bits; and one that no other verifies, before three that follow each other,
 * the last of them inverted. */
static void make_searches(void) {
    static const char marker[] = "00011010110011111111110000011101";
    static const tmchan_place two[] = {{.place = 5}, {.place = 62, .inverted = 1}};
    static const tmchan_place four[] = {{.place = 3}, {.place = 59}, {.place = 111}, {.place = 163, .inverted = 1}};
    uint8_t bits[120] = {0}, more_bits[216] = {0};
    for (int i = 0; i < 32; i++) {
        for (int k = 0; k < 2; k++) bits[two[k].place + i] = (marker[i] - '0') ^ two[k].inverted;
        for (int k = 0; k < 4; k++) more_bits[four[k].place + i] = (marker[i] - '0') ^ four[k].inverted;
    }
    search_each(bits, 15, 0, 2, two);
    search_each(bits, 15, 1, 0, two);
    search_each(more_bits, 27, 0, 4, four);
    search_each(more_bits, 27, 1, 3, four + 1);
    search_each(more_bits, 27, 2, 0, four);
}

int main(void) {
    size_t size = 0;
    char *line = NULL;
    while (getline(&line, &size, stdin) > 0) {
        line_number++;
        make_row(line);
    }
    free(line);
    expect(line_number > 0, "no row");
    lose_a_symbol();
    make_refusals();
    pass_lengths();
    make_searches();
    printf("%ld tests of streams, %ld fail\n", calls, differing);
    return differing != 0;
}
