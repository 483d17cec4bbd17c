/* Compares the Reed-Solomon calls for the (255,223) code with libfec's, on drawn words of every length: checks, words that are repaired with
 * wrong and erased octets, and how many octets were wrong. Status 0: no call differed. */
#include <fec.h>
#include <stdio.h>
#include <stdlib.h>
#include <string.h>

#include "tmchan.h"

int main(void) {
    long calls = 0, differing = 0;
    srand(131);
    for (int round = 0; round < 20; round++)
        for (int size = 1; size <= 223; size++)
            for (uint32_t basis = 0; basis < 2; basis++) {
                int n = size + 32, pad = 255 - n, erasures[32];
                uint8_t word[255], checks[32], ours[255], theirs[255], flags[255] = {0};
                for (int i = 0; i < size; i++) word[i] = (uint8_t)rand();
                if (basis == TMCHAN_DUAL)
                    encode_rs_ccsds(word, word + size, pad);
                else
                    encode_rs_8(word, word + size, pad);
                calls++;
                differing += tmchan_rs_encode(TMCHAN_RS16, basis, word, (size_t)size, checks, 32) != 0 || memcmp(checks, word + size, 32) != 0;
                memcpy(ours, word, (size_t)n);
                int erased = round % 4 ? 0 : rand() % 33, wrong = rand() % ((32 - erased) / 2 + 1), found = 0;
                for (int k = 0; k < wrong + erased;) {
                    int i = rand() % n;
                    if (flags[i]) continue;
                    flags[i] = 1 + (k < wrong);
                    ours[i] ^= (uint8_t)(1 + rand() % 255);
                    k++;
                }
                for (int i = 0; i < n; i++) {
                    if (flags[i] == 1) erasures[found++] = i; /* Debian's libfec counts from the first octet that is sent */
                    flags[i] = flags[i] == 1;
                }
                memcpy(theirs, ours, (size_t)n);
                int count = basis == TMCHAN_DUAL ? decode_rs_ccsds(theirs, erasures, erased, pad) : decode_rs_8(theirs, erasures, erased, pad);
                int answer = erased ? tmchan_rs_decode_erased(TMCHAN_RS16, basis, (uint32_t)((32 - erased) / 2), ours, (size_t)n, flags, (size_t)n)
                                    : tmchan_rs_decode(TMCHAN_RS16, basis, 16, ours, (size_t)n);
                calls++;
                differing += answer != count || answer != wrong + erased || memcmp(ours, theirs, (size_t)n) != 0 || memcmp(ours, word, (size_t)n) != 0;
            }
    printf("%ld calls beside libfec's, %ld differ\n", calls, differing);
    return differing != 0;
}
