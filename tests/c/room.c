/* Runs into TMCHAN_ROOM at each length of an array from 0 on: a sender's push, a decoder's push and finish, a receiver's push and finish, the
 * windows of both, and a search. The answer is TMCHAN_ROOM below the length that is needed, and not from there on; no octet beyond the length that was passed is written,
 * and where nothing is taken the array is as it was, and the same call with room goes on as if there had been none. Status 0: all was so. */
#include <stdio.h>
#include <stdlib.h>
#include <string.h>

#include "tmchan.h"

enum { GUARD = 64, KEPT = 0xA5, FRAMES = 4 };

static long differing, calls;

static void expect(int right, const char *what, size_t length) {
    calls++;
    if (right) return;
    differing++;
    fprintf(stderr, "%s, length %zu\n", what, length);
}

/* An array of `length` octets, and octets after it that no call may write. */
static void *guarded(size_t length) {
    void *made = malloc(length + GUARD);
    if (!made) exit(2);
    return memset(made, KEPT, length + GUARD);
}

/* Whether the octets from `from` on, with those after the array, were not written. */
static int is_kept(const void *array, size_t from, size_t length) {
    const uint8_t *octets = array;
    for (size_t i = from; i < length + GUARD; i++)
        if (octets[i] != KEPT) return 0;
    return 1;
}

/* A push of a sender or a decoder. */
typedef int64_t (*push_call)(tmchan_stream *, const uint8_t *, size_t, uint8_t *, size_t, tmchan_written *);
typedef int32_t (*open_call)(tmchan_stream *, const tmchan_config *, size_t);

/* Whether a call says that it wrote so much. */
static int is_written(const tmchan_written *written, uint64_t reports, uint64_t octets) {
    return written->reports == reports && written->octets == octets && written->windows == 0;
}

static void push_each(open_call open, push_call push, const tmchan_config *config, const uint8_t *given, size_t given_length, size_t needed,
                      const uint8_t *wanted, int64_t count) {
    for (size_t length = 0; length <= needed + 1; length++) {
        tmchan_stream stream = {0};
        tmchan_written written;
        uint8_t *array = guarded(length), *all = guarded(needed);
        expect(open(&stream, config, TMCHAN_CONFIG_LENGTH) == 0, "a stream does not open", length);
        int64_t answer = push(&stream, given, given_length, array, length, &written);
        if (length < needed) {
            expect(answer == TMCHAN_ROOM && is_kept(array, 0, length) && is_written(&written, 0, 0), "a push with less room", length);
            answer = push(&stream, given, given_length, all, needed, &written);
            expect(answer == count && !memcmp(all, wanted, count) && is_kept(all, needed, needed), "a push after one with less room", length);
        } else {
            expect(answer == count && !memcmp(array, wanted, count) && is_kept(array, length, length), "a push with its room", length);
        }
        expect(is_written(&written, 0, count), "what was written", length);
        expect(tmchan_close(&stream) == 0, "a stream is closed", length);
        free(array), free(all);
    }
}

/* A decoder's finish, after all of the octets. */
static void finish_each(const tmchan_config *config, const uint8_t *given, size_t given_length, size_t most) {
    size_t needed = tmchan_decoder_room(config, 0);
    uint8_t *bits = guarded(most), *wanted = guarded(needed);
    int64_t count = -1;
    tmchan_written written;
    for (size_t length = needed + 2; length-- > 0;) {
        tmchan_stream decoder = {0};
        tmchan_phase phase;
        uint8_t *array = guarded(length), *all = guarded(needed);
        memset(&phase, KEPT, sizeof phase);
        expect(tmchan_decoder_open(&decoder, config) == 0 && tmchan_decoder_push(&decoder, given, given_length, bits, most, &written) > 0, "bits", length);
        int64_t answer = tmchan_decoder_finish(&decoder, array, length, &phase, &written);
        if (length > needed) count = answer, memcpy(wanted, array, needed);
        if (length < needed) {
            expect(answer == TMCHAN_ROOM && is_kept(array, 0, length) && phase.cost == 0xA5A5A5A5A5A5A5A5, "a finish with less room", length);
            expect(is_written(&written, 0, 0), "a finish that wrote nothing", length);
            answer = tmchan_decoder_finish(&decoder, all, needed, &phase, &written);
            expect(answer == count && !memcmp(all, wanted, count) && is_kept(all, needed, needed), "a finish after one with less room", length);
        } else {
            expect(answer > 0 && answer == count && !memcmp(array, wanted, count) && is_kept(array, length, length), "a finish with its room", length);
        }
        expect(is_written(&written, 0, count), "what a finish wrote", length);
        expect(phase.is_chosen == (config->phase > 0) && tmchan_close(&decoder) == TMCHAN_CLOSED, "a decoder is closed", length);
        free(array), free(all);
    }
    free(bits), free(wanted);
}

/* Windows at each length of their array, of which a push makes several and the finish one: a decoder refuses less room than is said, and takes
 * nothing then; a receiver writes the first ones, and takes all. */
static void windows_each(const tmchan_config *config, const uint8_t *given, size_t given_length) {
    const size_t most = tmchan_window_room(config, given_length), bits_length = tmchan_decoder_room(config, given_length);
    const size_t left = tmchan_window_room(config, 0); /* for the finish */
    uint64_t frames_length, count = 0;
    const size_t reports_length = tmchan_receiver_room(config, given_length, &frames_length);
    uint8_t *bits = guarded(bits_length), *frames = guarded(frames_length);
    tmchan_report *reports = guarded(reports_length * sizeof *reports);
    tmchan_window *wanted = guarded(most * sizeof *wanted), *last = guarded(left * sizeof *last);
    for (size_t length = most + 2; length-- > 0;) {
        tmchan_stream decoder = {0}, receiver = {0};
        tmchan_totals totals;
        tmchan_phase phase;
        tmchan_written said;
        tmchan_window *windows = guarded(length * sizeof *windows);
        expect(tmchan_decoder_open(&decoder, config) == 0 && tmchan_receiver_open(&receiver, config) == 0, "a stream does not open", length);
        int64_t answer = tmchan_decoder_push_windows(&decoder, given, given_length, bits, bits_length, windows, length, &said);
        if (length > most) count = said.windows, memcpy(wanted, windows, most * sizeof *windows);
        if (length < most) {
            expect(answer == TMCHAN_ROOM && is_written(&said, 0, 0) && is_kept(windows, 0, length * sizeof *windows), "windows with less room", length);
            answer = tmchan_decoder_push(&decoder, given, given_length, bits, bits_length, &said);
            expect(answer > 0 && is_written(&said, 0, answer), "a push after one with less room", length);
        } else {
            expect(answer > 0 && said.octets == (uint64_t)answer && said.windows == count, "windows with their room", length);
            expect(!memcmp(windows, wanted, count * sizeof *windows) && is_kept(windows, count * sizeof *windows, length * sizeof *windows),
                   "the windows of a decoder", length);
        }
        answer = tmchan_decoder_finish_windows(&decoder, bits, bits_length, last, left - 1, &phase, &said);
        expect(answer == TMCHAN_ROOM && is_written(&said, 0, 0), "the last window with less room", length);
        answer = tmchan_decoder_finish_windows(&decoder, bits, bits_length, last, left, &phase, &said);
        expect(answer > 0 && said.windows == 1 && last[0].kept == (uint64_t)answer, "the last window", length);
        memset(windows, KEPT, length * sizeof *windows + GUARD);
        answer = tmchan_receiver_push_windows(&receiver, given, given_length, frames, frames_length, reports, reports_length, windows, length, &said);
        uint64_t fitting = length < count ? length : count;
        expect((answer == TMCHAN_ROOM) == (fitting < count) && said.windows == fitting, "a receiver's windows", length);
        expect(!memcmp(windows, wanted, fitting * sizeof *windows) && is_kept(windows, fitting * sizeof *windows, length * sizeof *windows),
               "the windows of a receiver", length);
        answer = tmchan_receiver_finish_windows(&receiver, frames, frames_length, reports, reports_length, last, 1, &totals, &phase, &said);
        expect(answer >= 0 && said.windows == 1 && last[0].steps == last[0].kept, "a receiver's last window", length);
        expect(tmchan_close(&decoder) == TMCHAN_CLOSED && tmchan_close(&receiver) == TMCHAN_CLOSED, "streams are closed", length);
        free(windows);
    }
    expect(count > 1, "several windows", 0);
    free(bits), free(frames), free(reports), free(wanted), free(last);
}

/* A receiver, of whose codeblocks the second is uncorrectable: all are due at its finish, or with the octets where a batch is of one. At
 * TMCHAN_ROOM what fitted stands, as much as the call says, and nothing else is written. */
static void receive_each(const tmchan_config *config, const uint8_t *given, size_t given_length, const uint8_t *sent, int ends) {
    const size_t size = tmchan_frame_length(config), octets[FRAMES] = {size, config->bad * size, size, size}, needed = (3 + config->bad) * size;
    uint64_t most_octets;
    size_t most = tmchan_receiver_room(config, given_length, &most_octets);
    for (size_t length = 0; length <= FRAMES + 1; length++)
        for (size_t frames_length = 0; frames_length <= needed + 1; frames_length++) {
            tmchan_stream receiver = {0};
            tmchan_totals totals = {0};
            tmchan_phase phase;
            tmchan_report *reports = guarded(length * sizeof *reports), *no_reports = guarded(most * sizeof *reports);
            uint8_t *frames = guarded(frames_length), *no_frames = guarded(most_octets);
            tmchan_written said, none;
            int64_t wanted = length < FRAMES || frames_length < needed ? TMCHAN_ROOM : FRAMES, answer;
            memset(&phase, KEPT, sizeof phase);
            expect(tmchan_receiver_open(&receiver, config) == 0, "a receiver does not open", length);
            if (ends) {
                expect(tmchan_receiver_push(&receiver, given, given_length, no_frames, 0, no_reports, 0, &none) == 0, "nothing is due", length);
                answer = tmchan_receiver_finish(&receiver, frames, frames_length, reports, length, &totals, &phase, &said);
            } else {
                answer = tmchan_receiver_push(&receiver, given, given_length, frames, frames_length, reports, length, &said);
                expect(tmchan_receiver_finish(&receiver, no_frames, 0, no_reports, 0, &totals, &phase, &none) == 0, "nothing is left", length);
            }
            expect(answer == wanted && is_written(&none, 0, 0), "a receiver answers", length);
            expect(totals.bits > 0 && phase.is_chosen == 0, "what all came to is given", length);
            expect(tmchan_close(&receiver) == TMCHAN_CLOSED, "a receiver is closed", length);
            size_t fitting = 0, written = 0;
            while (fitting < FRAMES && fitting < length && written + octets[fitting] <= frames_length) written += octets[fitting++];
            expect(is_written(&said, fitting, written), "how much fitted", length);
            for (size_t i = 0; i < fitting; i++)
                expect(reports[i].bad == (i == 1) && reports[i].frame_length == octets[i] && reports[i].place == totals.bits / FRAMES * i, "a report that fitted", length);
            expect(!memcmp(frames, sent, written < size ? written : size), "the first frame", length);
            size_t first = (1 + config->bad) * size; /* where the third frame begins */
            expect(written <= first || !memcmp(frames + first, sent + 2 * size, written - first), "frames that fitted", length);
            expect(is_kept(reports, fitting * sizeof *reports, length * sizeof *reports), "a report beyond", length);
            expect(is_kept(frames, written, frames_length), "an octet of a frame beyond", frames_length);
            expect(is_kept(no_reports, 0, most * sizeof *reports) && is_kept(no_frames, 0, most_octets), "arrays of no length", length);
            free(reports), free(no_reports), free(frames), free(no_frames);
        }
}

/* After a push with too little room the next one hands over what is due with its own octets. */
static void go_on(const tmchan_config *config, const uint8_t *given, size_t given_length) {
    uint64_t frames_length;
    size_t most = tmchan_receiver_room(config, given_length, &frames_length), half = given_length / 2;
    tmchan_stream receiver = {0};
    tmchan_totals totals;
    tmchan_phase phase;
    tmchan_written written;
    tmchan_report *reports = guarded(most * sizeof *reports);
    uint8_t *frames = guarded(frames_length);
    expect(tmchan_receiver_open(&receiver, config) == 0, "a receiver does not open", half);
    expect(tmchan_receiver_push(&receiver, given, half, frames, 0, reports, most, &written) == TMCHAN_ROOM, "a push with less room", half);
    expect(tmchan_receiver_push(&receiver, given + half, half, frames, frames_length, reports, most, &written) == FRAMES / 2, "a push after it", half);
    expect(tmchan_receiver_finish(&receiver, frames, frames_length, reports + 2, most - 2, &totals, &phase, &written) == 0, "a finish after it", half);
    expect(reports[0].place == totals.bits / 2 && reports[1].place == totals.bits / 4 * 3, "its places", half);
    free(reports), free(frames);
}

static void make_streams(tmchan_config config) {
    const size_t size = tmchan_frame_length(&config), sent_length = FRAMES * size;
    uint8_t *sent = guarded(sent_length);
    for (size_t i = 0; i < sent_length; i++) sent[i] = 7 * i + i / 3;
    size_t needed = tmchan_sender_room(&config, sent_length);
    uint8_t *symbols = guarded(needed);
    tmchan_stream sender = {0};
    tmchan_written written;
    expect(tmchan_sender_open(&sender, &config) == 0, "a sender does not open", 0);
    int64_t count = tmchan_sender_push(&sender, sent, sent_length, symbols, needed, &written);
    expect(count > 0 && tmchan_sender_finish(&sender, &written) == 0, "frames are sent", 0);
    push_each(tmchan_sender_open, tmchan_sender_push, &config, sent, sent_length, needed, symbols, count);
    if (config.inner != 0) {
        size_t bits_needed = tmchan_decoder_room(&config, count);
        uint8_t *bits = guarded(bits_needed);
        tmchan_stream decoder = {0};
        expect(tmchan_decoder_open(&decoder, &config) == 0, "a decoder does not open", 0);
        int64_t bits_count = tmchan_decoder_push(&decoder, symbols, count, bits, bits_needed, &written);
        expect(bits_count > 0 && tmchan_close(&decoder) == 0, "bits are decoded", 0);
        push_each(tmchan_decoder_open, tmchan_decoder_push, &config, symbols, count, bits_needed, bits, bits_count);
        finish_each(&config, symbols, count, bits_needed);
        windows_each(&config, symbols, count);
        free(bits);
    } else {
        uint8_t *damaged = symbols + count / FRAMES;
        for (int64_t i = count / FRAMES / 4; i < count / FRAMES; i++) damaged[i] ^= 0xFF;
        for (config.bad = TMCHAN_DROP; config.bad <= TMCHAN_PASS; config.bad++)
            for (config.batch = 1; config.batch <= 32; config.batch += 31)
                receive_each(&config, symbols, count, sent, config.batch == 32);
        config.bad = TMCHAN_DROP;
        config.batch = 1;
        go_on(&config, symbols, count);
    }
    free(sent), free(symbols);
}

/* A search has exactly its room, whose octets may be written by calls that are not refused. */
static void make_searches(void) {
    const uint32_t block_bits = 20, verify = 2;
    const size_t needed = verify * (32 + block_bits);
    uint8_t bits[200] = {0};
    for (size_t length = 0; length <= needed + 1; length++)
        for (int in_octets = 0; in_octets < 2; in_octets++) {
            tmchan_search search = {0};
            tmchan_place place;
            uint64_t at = 0;
            uint8_t *array = guarded(length);
            expect(tmchan_search_open(&search, 0, 0, 0, block_bits, verify) == 0, "a search does not open", length);
            const tmchan_search before = search;
            int32_t answer = (in_octets ? tmchan_search_octets : tmchan_search_bits)(&search, array, length, bits, sizeof bits, &at, &place);
            if (length == needed) {
                expect(answer == 0 && at == sizeof bits * (in_octets ? 8 : 1) && is_kept(array, length, length), "a search with its room", length);
            } else {
                expect(answer == TMCHAN_ROOM && at == 0 && is_kept(array, 0, length), "a search with another room", length);
                expect(search.pushed == before.pushed && search.received == before.received, "a search that took nothing", length);
            }
            free(array);
        }
}

int main(void) {
    tmchan_config config;
    tmchan_config_defaults(&config);
    config.code = TMCHAN_RS8, config.length = 3, config.inner = 0;
    make_streams(config);
    config.pack = 0;
    make_streams(config);
    config.pack = 1, config.inner = 34, config.keep = 64, config.ahead = 8;
    make_streams(config);
    config.phase = 1;
    make_streams(config);
    make_searches();
    printf("%ld tests of room, %ld fail\n", calls, differing);
    return differing != 0;
}
