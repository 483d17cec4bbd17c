/* Calls of exports.ll with structs whose layout differs from one processor to another. */
#include <stddef.h>
#include <stdint.h>

typedef struct {
    uint64_t first;
    uint64_t second, third;
} tmchan_config;

typedef struct {
    uint64_t is_open;
    void *at;
} handle;

typedef struct {
    uint32_t number;
    uint64_t after;
    uint8_t last;
} odd;

typedef struct {
    uint64_t place;
    uint32_t one, two;
    uint8_t octets[8];
} plain;

int32_t options_sum(const tmchan_config *config, size_t config_length, uint64_t *sum);
void options_filled(tmchan_config *config, size_t config_length);
void handle_opened(handle *handle, uint8_t *room, size_t room_length);
uint8_t handle_read(handle *handle);
void odd_turned(odd *it);
int64_t plains_turned(plain *plains, size_t plains_length);
uint32_t version(void);
