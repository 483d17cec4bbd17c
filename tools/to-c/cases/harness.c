/* Calls each function of a case on the same inputs, and prints what it writes: FUNCTIONS is a list FUNCTION(name) .. */
#include <stdint.h>
#include <stdio.h>
#include <string.h>

enum { IN = 256, OUT = 4096, INPUTS = 40 };

#define FUNCTION(name) void name(uint8_t *in, uint8_t *out);
FUNCTIONS
#undef FUNCTION

static const struct {
    const char *name;
    void (*call)(uint8_t *in, uint8_t *out);
} functions[] = {
#define FUNCTION(name) {#name, name},
    FUNCTIONS};

/* The first inputs are of one octet, or of two by turns; the others are drawn. */
static void fill(uint8_t *in, int number) {
    static const uint8_t ends[] = {0, 1, 2, 127, 128, 254, 255, 16};
    static uint32_t drawn = 12345;
    for (int k = 0; k < IN; k++) {
        drawn = drawn * 1664525u + 1013904223u;
        if (number < 8) in[k] = ends[number];
        else if (number < 12) in[k] = ends[(k + number) & 7];
        else if (number < 16) in[k] = ends[drawn >> 29];
        else in[k] = (uint8_t)(drawn >> 24);
    }
}

int main(void) {
    static uint8_t in[IN], out[OUT];
    for (size_t f = 0; f < sizeof functions / sizeof *functions; f++) {
        for (int number = 0; number < INPUTS; number++) {
            fill(in, number);
            memset(out, 0, OUT);
            functions[f].call(in, out);
            int used = OUT;
            while (used && !out[used - 1]) used--;
            printf("%s %d ", functions[f].name, number);
            for (int k = 0; k < used; k++) printf("%02x", out[k]);
            printf("\n");
        }
    }
    return 0;
}
