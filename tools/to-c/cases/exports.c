/* Calls each call of exports.h, and prints what it answers and writes. */
#include <inttypes.h>
#include <stdio.h>

#include "exports.h"

int main(void) {
    tmchan_config config = {UINT64_C(0x0102030405060708), 20, 300};
    uint64_t sum = 9;
    int32_t answer = options_sum(&config, 3, &sum);
    printf("%" PRId32 " %" PRIx64 "\n", answer, sum);
    uint64_t many[200] = {0};
    for (int k = 0; k < 63; k++) many[k] = (uint64_t)k << 32;
    options_sum((const tmchan_config *)(const void *)many, 200, &sum);
    printf("%" PRIx64 "\n", sum);
    options_filled(&config, 3);
    printf("%" PRIx64 " %" PRIx64 " %" PRIx64 "\n", config.first, config.second, config.third);

    uint8_t room[5] = {1, 2, 3, 4, 5};
    handle handle = {0, 0};
    handle_opened(&handle, room, 4);
    printf("%u %u\n", (unsigned)handle.is_open, (unsigned)((uint8_t *)handle.at - room));
    unsigned octet = handle_read(&handle);
    printf("%u %u\n", octet, (unsigned)handle.is_open);

    odd odd = {0x01020304, UINT64_C(0x1112131415161718), 9};
    odd_turned(&odd);
    printf("%" PRIx32 " %" PRIx64 " %u\n", odd.number, odd.after, odd.last);

    plain plains[3] = {{1, 2, 3, {4, 5, 6, 7, 8, 9, 10, 11}}, {UINT64_C(1) << 60, 0xfffefdfc, 0, {0}}, {0, 1, 0, {0}}};
    int64_t count = plains_turned(plains, 3);
    printf("%" PRId64 " %" PRIx32 "\n", count, version());
    for (int k = 0; k < 3; k++) {
        plain it = plains[k];
        printf("%" PRIx64 " %" PRIx32 " %" PRIx32 " %u %u\n", it.place, it.one, it.two, it.octets[3], it.octets[7]);
    }
    return 0;
}
