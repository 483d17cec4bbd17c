/* The calls of include/tmchan.h that are compiled twice, for x86-64-v2 and for x86-64-v3: those of streams. A soft
 * decoder or a receiver is opened by the build for v3 where it decodes an inner code, which AVX2 makes faster on some
 * processors (processor.c); the outer code alone is slower by it. All else is for v2, and the calls that take no handle
 * are there once.
 *
 * All calls of a handle are those of the build that opened it. That stands in its memory: each build has a heap of its
 * own over that of heap.c, whose blocks have the build's number before them. The Makefile reads the names of the calls
 * here. */
#include "platform.h"
#include "tmchan.h"

/* The octets before a block: the largest alignment, so that the block is aligned as what heap.c gives. */
enum { BEFORE = 16 };

static platform_memory numbered(platform_memory memory, uint8_t build) {
    if (!memory.ok) return memory;
    uint8_t *start = memory.at;
    *start = build;
    memory.at = start + BEFORE;
    return memory;
}

#define HEAP(build, number)                                                                                            \
    platform_memory rattle_alloc_##build(size_t size, size_t align) {                                                  \
        return numbered(rattle_alloc(BEFORE + size, align), number);                                                   \
    }                                                                                                                  \
    platform_memory rattle_realloc_##build(void *at, size_t kept, size_t size, size_t align) {                         \
        return numbered(rattle_realloc((uint8_t *)at - BEFORE, BEFORE + kept, BEFORE + size, align), number);          \
    }                                                                                                                  \
    void rattle_dealloc_##build(void *at) { rattle_dealloc((uint8_t *)at - BEFORE); }

HEAP(v2, 2)
HEAP(v3, 3)

/* Without inner among the options it has its default, rate 1/2. */
static int opens_v3(const tmchan_config *config, size_t config_length) {
    int has_inner = config_length > offsetof(tmchan_config, inner) / sizeof(uint64_t);
    return platform_takes_v3() && (!has_inner || config->inner != TMCHAN_NO_INNER);
}

static int is_v3(const tmchan_stream *stream) {
    return stream->is_open == 1 && ((const uint8_t *)stream->at)[-BEFORE] == 3;
}

#define CHOOSE_BY(takes_v3, call, type, parameters, arguments)                                                         \
    type call##_v2 parameters;                                                                                         \
    type call##_v3 parameters;                                                                                         \
    type (call) parameters { return takes_v3 ? call##_v3 arguments : call##_v2 arguments; }

#define OPEN(call)                                                                                                     \
    CHOOSE_BY(opens_v3(config, config_length), call, int32_t,                                                          \
              (tmchan_stream *stream, const tmchan_config *config, size_t config_length),                              \
              (stream, config, config_length))

#define CHOOSE(call, type, parameters, arguments) CHOOSE_BY(is_v3(stream), call, type, parameters, arguments)

OPEN(tmchan_decoder_open)
OPEN(tmchan_receiver_open)
CHOOSE(tmchan_close, int32_t, (tmchan_stream *stream), (stream))
CHOOSE(tmchan_sender_push, int64_t,
       (tmchan_stream *stream, const uint8_t *octets, size_t octets_length, uint8_t *symbols, size_t symbols_length,
        tmchan_written *written),
       (stream, octets, octets_length, symbols, symbols_length, written))
CHOOSE(tmchan_sender_finish, int64_t, (tmchan_stream *stream, tmchan_written *written), (stream, written))
CHOOSE(tmchan_decoder_push, int64_t,
       (tmchan_stream *stream, const uint8_t *octets, size_t octets_length, uint8_t *bits, size_t bits_length,
        tmchan_written *written),
       (stream, octets, octets_length, bits, bits_length, written))
CHOOSE(tmchan_decoder_push_windows, int64_t,
       (tmchan_stream *stream, const uint8_t *octets, size_t octets_length, uint8_t *bits, size_t bits_length,
        tmchan_window *windows, size_t windows_length, tmchan_written *written),
       (stream, octets, octets_length, bits, bits_length, windows, windows_length, written))
CHOOSE(tmchan_decoder_phase, int32_t, (tmchan_stream *stream, tmchan_phase *phase), (stream, phase))
CHOOSE(tmchan_decoder_finish, int64_t,
       (tmchan_stream *stream, uint8_t *bits, size_t bits_length, tmchan_phase *phase, tmchan_written *written),
       (stream, bits, bits_length, phase, written))
CHOOSE(tmchan_decoder_finish_windows, int64_t,
       (tmchan_stream *stream, uint8_t *bits, size_t bits_length, tmchan_window *windows, size_t windows_length,
        tmchan_phase *phase, tmchan_written *written),
       (stream, bits, bits_length, windows, windows_length, phase, written))
CHOOSE(tmchan_receiver_push, int64_t,
       (tmchan_stream *stream, const uint8_t *octets, size_t octets_length, uint8_t *frames, size_t frames_length,
        tmchan_report *reports, size_t reports_length, tmchan_written *written),
       (stream, octets, octets_length, frames, frames_length, reports, reports_length, written))
CHOOSE(tmchan_receiver_push_windows, int64_t,
       (tmchan_stream *stream, const uint8_t *octets, size_t octets_length, uint8_t *frames, size_t frames_length,
        tmchan_report *reports, size_t reports_length, tmchan_window *windows, size_t windows_length,
        tmchan_written *written),
       (stream, octets, octets_length, frames, frames_length, reports, reports_length, windows, windows_length,
        written))
CHOOSE(tmchan_receiver_phase, int32_t, (tmchan_stream *stream, tmchan_phase *phase), (stream, phase))
CHOOSE(tmchan_receiver_slips, int32_t, (tmchan_stream *stream, uint64_t *slips), (stream, slips))
CHOOSE(tmchan_receiver_finish, int64_t,
       (tmchan_stream *stream, uint8_t *frames, size_t frames_length, tmchan_report *reports, size_t reports_length,
        tmchan_totals *totals, tmchan_phase *phase, tmchan_written *written),
       (stream, frames, frames_length, reports, reports_length, totals, phase, written))
CHOOSE(tmchan_receiver_finish_windows, int64_t,
       (tmchan_stream *stream, uint8_t *frames, size_t frames_length, tmchan_report *reports, size_t reports_length,
        tmchan_window *windows, size_t windows_length, tmchan_totals *totals, tmchan_phase *phase,
        tmchan_written *written),
       (stream, frames, frames_length, reports, reports_length, windows, windows_length, totals, phase, written))
