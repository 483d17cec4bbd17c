/* Makes the call of each row on standard input (tests/library_rows.py writes them), and refusals of each call. Each array has exactly its
 * length on the heap, so that valgrind and AddressSanitizer see an octet beyond it. Status 0: no call differed. */
#include <stdio.h>
#include <stdlib.h>
#include <string.h>

#include "tmchan.h"

struct octets {
    uint8_t *at; /* never null */
    size_t length;
};

static long differing, calls;
static size_t line_number;

static struct octets copy(const uint8_t *at, size_t length) {
    struct octets made = {malloc(length + (length == 0)), length};
    if (!made.at) exit(2);
    if (length) memcpy(made.at, at, length);
    return made;
}

static struct octets zeros(size_t length) {
    struct octets made = {calloc(1, length + (length == 0)), length};
    if (!made.at) exit(2);
    return made;
}

static const char *next(void) {
    const char *word = strtok(NULL, " \n");
    if (!word) {
        fprintf(stderr, "line %zu is too short\n", line_number);
        exit(2);
    }
    return word;
}

static long number(void) { return strtol(next(), NULL, 10); }

static struct octets octets(void) {
    const char *digits = next();
    size_t length = *digits == '-' ? 0 : strlen(digits) / 2;
    struct octets made = zeros(length);
    for (size_t i = 0; i < length; i++) {
        unsigned octet;
        sscanf(digits + 2 * i, "%2x", &octet);
        made.at[i] = (uint8_t)octet;
    }
    return made;
}

/* Compares an answer, and what a call left; frees both. */
static void compare(long answer, long wanted, struct octets left, struct octets right) {
    calls++;
    if (answer != wanted || left.length != right.length || (left.length && memcmp(left.at, right.at, left.length))) {
        fprintf(stderr, "line %zu: answered %ld, wanted %ld\n", line_number, answer, wanted);
        differing++;
    }
    free(left.at);
    free(right.at);
}

static void expect(int right, const char *what) {
    calls++;
    if (right) return;
    differing++;
    fprintf(stderr, "%s\n", what);
}

static void make_row(const char *call) {
    if (!strcmp(call, "encode")) {
        uint32_t code = number(), basis = number();
        struct octets data = octets();
        long answer = number();
        struct octets right = octets(), left = zeros(right.length);
        compare(tmchan_rs_encode(code, basis, data.at, data.length, left.at, left.length), answer, left, right);
        free(data.at);
    } else if (!strcmp(call, "decode")) {
        uint32_t code = number(), basis = number(), repair = number();
        struct octets word = octets();
        long answer = number();
        compare(tmchan_rs_decode(code, basis, repair, word.at, word.length), answer, word, octets());
    } else if (!strcmp(call, "decode_erased")) {
        uint32_t code = number(), basis = number(), repair = number();
        struct octets word = octets(), flags = octets();
        long answer = number();
        compare(tmchan_rs_decode_erased(code, basis, repair, word.at, word.length, flags.at, flags.length), answer, word, octets());
        free(flags.at);
    } else if (!strcmp(call, "randomize")) {
        struct octets block = octets();
        tmchan_randomize(block.at, block.length);
        compare(0, 0, block, octets());
    } else if (!strcmp(call, "take_column")) {
        uint32_t depth = number(), index = number();
        struct octets block = octets();
        long answer = number();
        struct octets right = octets(), left = zeros(right.length);
        compare(tmchan_take_column(depth, index, block.at, block.length, left.at, left.length), answer, left, right);
        free(block.at);
    } else if (!strcmp(call, "put_column")) {
        uint32_t depth = number(), index = number();
        struct octets block = octets(), word = octets();
        long answer = number();
        compare(tmchan_put_column(depth, index, block.at, block.length, word.at, word.length), answer, block, octets());
        free(word.at);
    } else if (!strcmp(call, "cadu")) {
        uint32_t code = number(), depth = number(), basis = number(), randomize = number();
        struct octets frame = octets();
        long answer = number();
        struct octets right = octets(), left = zeros(right.length);
        compare(tmchan_cadu_length(code, depth, frame.length), (long)right.length, zeros(0), zeros(0));
        compare(tmchan_cadu(code, depth, basis, randomize, frame.at, frame.length, left.at, left.length), answer, left, right);
        free(frame.at);
    } else {
        fprintf(stderr, "line %zu: no such call: %s\n", line_number, call);
        exit(2);
    }
}

/* Each refusal of each call, in the order of the header, where the later ones hold too. Nothing is written. */
static void make_refusals(void) {
    static const uint8_t some[300];
    const struct { uint32_t code, basis; size_t data, checks; long answer; } encodings[] = {
        {9, 2, 0, 0, TMCHAN_BAD_CODE}, {0, 2, 0, 0, TMCHAN_BAD_CODE}, {UINT32_MAX, 2, 300, 300, TMCHAN_BAD_CODE}, {16, 2, 0, 0, TMCHAN_BAD_LENGTH},
        {16, 2, 224, 0, TMCHAN_BAD_LENGTH}, {8, 2, 240, 0, TMCHAN_BAD_LENGTH}, {16, 2, 223, 0, TMCHAN_BAD_BASIS}, {16, UINT32_MAX, 1, 0, TMCHAN_BAD_BASIS},
        {16, 0, 223, 31, TMCHAN_ROOM}, {16, 1, 223, 33, TMCHAN_ROOM}, {8, 1, 239, 0, TMCHAN_ROOM},
    };
    for (size_t i = 0; i < sizeof encodings / sizeof *encodings; i++) {
        struct octets data = copy(some, encodings[i].data), left = zeros(encodings[i].checks);
        memset(left.at, 7, left.length);
        struct octets right = copy(left.at, left.length);
        compare(tmchan_rs_encode(encodings[i].code, encodings[i].basis, data.at, data.length, left.at, left.length), encodings[i].answer, left, right);
        free(data.at);
    }
    const struct { uint32_t code, basis, repair; size_t n, flags; long answer; } words[] = {
        {15, 2, 99, 0, 1, TMCHAN_BAD_CODE}, {16, 2, 99, 32, 1, TMCHAN_BAD_LENGTH}, {16, 2, 99, 0, 1, TMCHAN_BAD_LENGTH},
        {16, 2, 99, 256, 1, TMCHAN_BAD_LENGTH}, {8, 2, 99, 16, 1, TMCHAN_BAD_LENGTH}, {8, 2, 99, 17, 1, TMCHAN_BAD_BASIS},
        {16, 1, 17, 33, 1, TMCHAN_BAD_REPAIR}, {8, 0, 9, 255, 1, TMCHAN_BAD_REPAIR}, {8, 0, UINT32_MAX, 255, 1, TMCHAN_BAD_REPAIR},
        {16, 0, 16, 33, 0, TMCHAN_FLAGS}, {16, 0, 16, 33, 34, TMCHAN_FLAGS},
    };
    for (size_t i = 0; i < sizeof words / sizeof *words; i++) {
        struct octets flags = zeros(words[i].flags), left = copy(some, words[i].n), right = copy(some, words[i].n);
        if (words[i].answer != TMCHAN_FLAGS) {
            struct octets word = copy(some, words[i].n);
            compare(tmchan_rs_decode(words[i].code, words[i].basis, words[i].repair, word.at, word.length), words[i].answer, word, copy(some, words[i].n));
        }
        compare(tmchan_rs_decode_erased(words[i].code, words[i].basis, words[i].repair, left.at, left.length, flags.at, flags.length),
                words[i].answer, left, right);
        free(flags.at);
    }
    const struct { uint32_t depth, index; size_t block, word; long answer; } columns[] = {
        {0, 0, 1, 0, TMCHAN_COLUMN}, {5, 5, 1, 9, TMCHAN_COLUMN}, {5, UINT32_MAX, 10, 2, TMCHAN_COLUMN}, {5, 4, 9, 2, TMCHAN_ROOM},
        {5, 0, 11, 2, TMCHAN_ROOM}, {1, 0, 0, 1, TMCHAN_ROOM}, {1, 0, 1, 0, TMCHAN_ROOM}, {UINT32_MAX, 0, 0, 0, 0},
    };
    for (size_t i = 0; i < sizeof columns / sizeof *columns; i++) {
        struct octets block = copy(some, columns[i].block), word = zeros(columns[i].word);
        compare(tmchan_take_column(columns[i].depth, columns[i].index, block.at, block.length, word.at, word.length), columns[i].answer,
                copy(word.at, word.length), zeros(word.length));
        memset(word.at, 7, word.length);
        compare(tmchan_put_column(columns[i].depth, columns[i].index, block.at, block.length, word.at, word.length), columns[i].answer,
                copy(block.at, block.length), copy(some, block.length));
        free(block.at);
        free(word.at);
    }
    const struct { uint32_t code, depth, basis, randomize; size_t frame, unit; long answer; } units[] = {
        {12, 6, 2, 2, 0, 0, TMCHAN_BAD_CODE}, {16, 6, 2, 2, 0, 0, TMCHAN_BAD_DEPTH}, {16, 0, 2, 2, 0, 0, TMCHAN_BAD_DEPTH},
        {0, 2, 2, 2, 0, 0, TMCHAN_BAD_DEPTH}, {16, 5, 2, 2, 0, 0, TMCHAN_BAD_LENGTH}, {16, 5, 2, 2, 7, 0, TMCHAN_BAD_LENGTH},
        {16, 1, 2, 2, 224, 0, TMCHAN_BAD_LENGTH}, {0, 1, 2, 2, 0, 0, TMCHAN_BAD_LENGTH}, {0, 1, 2, 2, 300, 0, TMCHAN_BAD_SWITCH},
        {16, 5, 2, 1, 10, 0, TMCHAN_BAD_BASIS}, {16, 5, 1, 1, 10, 0, TMCHAN_ROOM}, {16, 5, 1, 1, 10, 173, TMCHAN_ROOM}, {16, 5, 1, 1, 10, 175, TMCHAN_ROOM},
    };
    for (size_t i = 0; i < sizeof units / sizeof *units; i++) {
        struct octets frame = copy(some, units[i].frame), left = zeros(units[i].unit);
        memset(left.at, 7, left.length);
        struct octets right = copy(left.at, left.length);
        if (units[i].answer >= TMCHAN_BAD_CODE - 3 && units[i].answer <= TMCHAN_BAD_CODE)
            compare(tmchan_cadu_length(units[i].code, units[i].depth, frame.length), units[i].answer, zeros(0), zeros(0));
        compare(tmchan_cadu(units[i].code, units[i].depth, units[i].basis, units[i].randomize, frame.at, frame.length, left.at, left.length),
                units[i].answer, left, right);
        free(frame.at);
    }
}

/* The text of each answer, into arrays of each length: none is longer than TMCHAN_TEXT_LENGTH, and each answer of a list has one of its own. */
static void make_texts(void) {
    static const int32_t answers[] = {
        0, TMCHAN_BEYOND, TMCHAN_ROOM, TMCHAN_FLAGS, TMCHAN_COLUMN, TMCHAN_CLOSED, TMCHAN_OPEN, TMCHAN_MEMORY, TMCHAN_BAD_CONFIG, TMCHAN_BAD_CODE,
        TMCHAN_BAD_DEPTH, TMCHAN_BAD_LENGTH, TMCHAN_BAD_INNER, TMCHAN_BAD_SWITCH, TMCHAN_BAD_BASIS, TMCHAN_BAD_TOLERANCE, TMCHAN_BAD_REPAIR, TMCHAN_BAD_SOFT,
        TMCHAN_BAD_START, TMCHAN_BAD_SKIP, TMCHAN_BAD_WORKERS, TMCHAN_BAD_LIMIT, TMCHAN_BAD_FLY, TMCHAN_BAD_KEEP, TMCHAN_BAD_AHEAD, TMCHAN_BAD_PHASE,
        TMCHAN_BAD_POLARITY, TMCHAN_BAD_BATCH, TMCHAN_BAD_PACK, TMCHAN_BAD_VERIFY, TMCHAN_BAD_RESCAN, TMCHAN_BAD_BAD, TMCHAN_BAD_BAD - 1,
    };
    enum { COUNT = sizeof answers / sizeof *answers };
    static char all[COUNT][TMCHAN_TEXT_LENGTH];
    for (int i = 0; i < COUNT; i++) {
        int32_t length = tmchan_text(answers[i], all[i], TMCHAN_TEXT_LENGTH);
        expect(length > 0 && length < TMCHAN_TEXT_LENGTH && (size_t)length == strlen(all[i]), "a text has another length");
        for (int k = 0; k < i; k++) expect(strcmp(all[k], all[i]) != 0, "two answers have one text");
        for (int32_t size = 0; size <= length + 2; size++) {
            struct octets array = zeros(size);
            memset(array.at, 7, size);
            int32_t answer = tmchan_text(answers[i], (char *)array.at, size);
            expect(size > length ? answer == length && !memcmp(array.at, all[i], length + 1) && (size == length + 1 || array.at[length + 1] == 7)
                                 : answer == TMCHAN_ROOM && (size == 0 || (array.at[0] == 7 && array.at[size - 1] == 7)),
                   "a text in an array of another length");
            free(array.at);
        }
    }
    static const int64_t others[] = {INT64_MIN, INT32_MIN, -39, -40, -15, -9};
    for (size_t i = 0; i < sizeof others / sizeof *others; i++) {
        char text[TMCHAN_TEXT_LENGTH];
        expect(tmchan_text(others[i], text, sizeof text) > 0 && !strcmp(text, all[COUNT - 1]), "a text of no answer");
    }
    char text[TMCHAN_TEXT_LENGTH];
    expect(tmchan_text(INT64_MAX, text, sizeof text) == 4 && !strcmp(text, "done") && !strcmp(all[0], "done"), "the text of what is done");
}

int main(void) {
    static char line[20000];
    while (fgets(line, sizeof line, stdin)) {
        line_number++;
        make_row(strtok(line, " \n"));
    }
    if (line_number == 0) {
        fprintf(stderr, "there is no row\n");
        differing++;
    }
    make_refusals();
    make_texts();
    if (tmchan_version() != TMCHAN_VERSION) {
        fprintf(stderr, "the library is of another version\n");
        differing++;
    }
    printf("%ld calls, %ld differ\n", calls, differing);
    return differing != 0;
}
