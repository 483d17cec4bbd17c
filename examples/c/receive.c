/* Reads received soft octets from standard input, and writes the frames of the codeblocks that are found in them to standard output, and a line
 * for each codeblock to standard error. Its arguments are options as NAME=VALUE, with the names and words of the command line, in any order, and
 * `recording`, which sets those for a recording; what follows it comes on top. With -v there is a line for each window of the soft decoder too, of
 * how many of its symbols were received nearer to the other one:
 *
 *     cc -o receive examples/c/receive.c $(pkg-config --cflags --libs tmchan)
 *     ./receive inner=1/2 recording depth=5 <symbols >frames
 */
#include <inttypes.h>
#include <stdio.h>
#include <stdlib.h>
#include <string.h>

#include "tmchan.h"

enum { PIECE = 65536, NAMES = TMCHAN_CONFIG_LENGTH, WORDS = 6 };
enum { DONE, BAD, REFUSED, NOT_READ, NOT_WRITTEN, NO_MEMORY };

struct word {
    const char *text;
    uint64_t number;
};

#define SWITCH {{"off", TMCHAN_OFF}, {"on", TMCHAN_ON}}

/* The options in the order of tmchan_config. One without words takes a number. */
static const struct {
    const char *name;
    struct word words[WORDS];
} options[NAMES] = {
    {"code", {{"none", TMCHAN_NO_CODE}, {"rs8", TMCHAN_RS8}, {"rs16", TMCHAN_RS16}}},
    {"depth", {{0}}},
    {"length", {{0}}},
    {"inner", {{"none", TMCHAN_NO_INNER}, {"1/2", TMCHAN_RATE_12}, {"2/3", TMCHAN_RATE_23}, {"3/4", TMCHAN_RATE_34}, {"5/6", TMCHAN_RATE_56},
               {"7/8", TMCHAN_RATE_78}}},
    {"invert", SWITCH},
    {"randomize", SWITCH},
    {"basis", {{"dual", TMCHAN_DUAL}, {"poly", TMCHAN_POLYNOMIAL}}},
    {"tolerance", {{0}}},
    {"repair", {{0}}},
    {"soft", {{"u8", TMCHAN_U8}, {"i8", TMCHAN_I8}}},
    {"start", {{"zero", TMCHAN_ZERO}, {"any", TMCHAN_ANY}}},
    {"skip", {{0}}},
    {"workers", {{0}}},
    {"limit", {{0}}},
    {"fly", {{0}}},
    {"keep", {{0}}},
    {"ahead", {{0}}},
    {"phase", {{"given", TMCHAN_GIVEN}, {"find", TMCHAN_FIND}, {"follow", TMCHAN_FOLLOW}}},
    {"polarity", {{"given", TMCHAN_GIVEN}, {"find", TMCHAN_FIND}}},
    {"batch", {{0}}},
    {"pack", SWITCH},
    {"verify", {{0}}},
    {"rescan", SWITCH},
    {"bad", {{"drop", TMCHAN_DROP}, {"pass", TMCHAN_PASS}}},
};

/* Reads the value of an option. Answers whether there is such a value. */
static int read_value(const struct word *words, const char *text, uint64_t *value) {
    for (int k = 0; k < WORDS && words[k].text; k++)
        if (!strcmp(words[k].text, text)) return *value = words[k].number, 1;
    size_t digits = strspn(text, "0123456789");
    if (words[0].text || digits == 0 || digits > 19 || text[digits]) return 0;
    *value = strtoull(text, NULL, 10);
    return 1;
}

/* Sets the option of NAME=VALUE. Answers whether there is such an option, and such a value. */
static int set_option(tmchan_config *config, const char *word) {
    if (!strcmp(word, "recording")) return tmchan_config_recording(config), 1;
    size_t size = strcspn(word, "=");
    for (int k = 0; k < NAMES; k++)
        if (word[size] && strlen(options[k].name) == size && !strncmp(options[k].name, word, size))
            return read_value(options[k].words, word + size + 1, (uint64_t *)config + k);
    return 0;
}

/* Says what an answer means, and hands a status through. */
static int fail(int64_t answer, int status) {
    char text[TMCHAN_TEXT_LENGTH];
    tmchan_text(answer, text, sizeof text);
    fprintf(stderr, "%s\n", text);
    return status;
}

/* Writes the frames and the lines; what fails is seen at the end. Answers how many codeblocks are bad. */
static int show(const tmchan_written *written, const uint8_t *frames, const tmchan_report *reports, const tmchan_window *windows) {
    int bad = 0;
    for (uint64_t i = 0; i < written->windows; i++) {
        fprintf(stderr, "symbol %" PRIu64 " wrong %" PRIu64 " of %" PRIu64 " (%.4f)", windows[i].symbol, windows[i].wrong, windows[i].octets,
                (double)windows[i].wrong / (double)windows[i].octets);
        if (windows[i].dropped) fprintf(stderr, " dropped %" PRIu64, windows[i].dropped);
        fputc('\n', stderr);
    }
    for (uint64_t i = 0; i < written->reports; bad += reports[i++].bad) {
        fprintf(stderr, "place %" PRIu64 " distance %u%s%s", reports[i].place, reports[i].distance, reports[i].bridged ? " bridged" : "",
                reports[i].inverted ? " inverted" : "");
        for (int k = 0; k < reports[i].columns; k++) fprintf(stderr, reports[i].repaired[k] == 255 ? " x" : " %u", reports[i].repaired[k]);
        fputc('\n', stderr);
    }
    fwrite(frames, 1, written->octets, stdout);
    return bad;
}

/* Status 0: all codeblocks are good; 1: one is bad; 2: an option is refused; 3: reading failed; 4: writing failed; 5: not enough memory. */
int main(int argc, char **argv) {
    tmchan_config config;
    int says_windows = argc > 1 && !strcmp(argv[1], "-v");
    tmchan_config_defaults(&config);
    for (int i = 1 + says_windows; i < argc; i++)
        if (!set_option(&config, argv[i])) return fprintf(stderr, "no such option, or no such value: %s\n", argv[i]), REFUSED;
    tmchan_stream receiver = {0};
    int32_t opened = tmchan_receiver_open(&receiver, &config);
    if (opened) return fail(opened, opened == TMCHAN_MEMORY ? NO_MEMORY : REFUSED);
    uint64_t octets; /* of frames */
    int64_t room = tmchan_receiver_room(&config, PIECE, &octets), most = tmchan_window_room(&config, PIECE);
    tmchan_report *reports = calloc(room, sizeof *reports);
    tmchan_window *windows = calloc(most + 1, sizeof *windows);
    uint8_t *frames = malloc(octets), *piece = malloc(PIECE);
    if (!reports || !windows || !frames || !piece) return fail(TMCHAN_MEMORY, NO_MEMORY);
    tmchan_written written;
    int bad = 0;
    for (size_t count; !ferror(stdout) && (count = fread(piece, 1, PIECE, stdin)) > 0;) {
        if (says_windows) tmchan_receiver_push_windows(&receiver, piece, count, frames, octets, reports, room, windows, most, &written);
        else tmchan_receiver_push(&receiver, piece, count, frames, octets, reports, room, &written);
        bad += show(&written, frames, reports, windows);
    }
    tmchan_totals totals;
    tmchan_phase phase;
    if (says_windows) tmchan_receiver_finish_windows(&receiver, frames, octets, reports, room, windows, most, &totals, &phase, &written);
    else tmchan_receiver_finish(&receiver, frames, octets, reports, room, &totals, &phase, &written);
    bad += show(&written, frames, reports, windows);
    fprintf(stderr, "bits %" PRIu64 "\n", totals.bits);
    if (config.phase == TMCHAN_FOLLOW) fprintf(stderr, "slips %" PRIu64 "\n", totals.slips);
    free(reports), free(windows), free(frames), free(piece);
    if (ferror(stdin)) return fprintf(stderr, "reading failed\n"), NOT_READ;
    if (fflush(stdout) || ferror(stdout) || ferror(stderr)) return fprintf(stderr, "writing failed\n"), NOT_WRITTEN;
    return bad ? BAD : DONE;
}
