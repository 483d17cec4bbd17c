/* libtmchan: a CCSDS 131.0-B (TM Synchronization and Channel Coding) link for programs in C. Calls that keep nothing:
 * Reed-Solomon codes, pseudo-randomizer (scrambler), columns of a codeblock (interleaving), channel access data units
 * (CADUs). Streams: a sender, a soft decoder of the convolutional code, a search for sync markers, and a whole
 * receiver.
 *
 * The library is proved in Rattle: what each call writes and returns is a clause of it, for every value that can be
 * passed (docs/PROMISES.md, "The C library"); but no clause says when TMCHAN_MEMORY comes.
 *
 * What holds of every call
 *
 * - It starts no thread and calls nothing outside but memcpy, memmove, memset, and where it is said malloc, realloc
 *   and free. Calls that are passed different handles, or none, may be made by different threads at the same time; a
 *   handle is passed to one call at a time.
 * - An array is passed as a pointer followed by its length, in octets, and of reports or windows in elements. A call
 *   reads and writes nothing beyond it.
 * - Any length may be passed, 0 too, and any number. Where something does not fit, the call returns a negative number
 *   and writes nothing but a tmchan_written, which says so; a receiver's push and finish may write (TMCHAN_ROOM).
 *
 * What the caller owes, since no call can test it
 *
 * - A pointer is never null, not even where the length is 0. The memory that it points to is readable, or writable
 *   where it is not const, for the length passed.
 * - An array of options, reports or windows is aligned to 8 octets, as C does it.
 * - What a call may write, that is all that a pointer without const points to, an array or a struct, overlaps nothing
 *   else that is passed to that call, or to another call under way. Each call that takes a handle or a tmchan_search
 *   writes it: two threads do not pass one at the same time, and what orders the calls of threads that share one is a
 *   lock, the start or the join of a thread, or an atomic. What is const may be shared.
 * - No call is made from a signal handler, and none in the forked child of a process with threads (as of Python's
 *   multiprocessing, where it forks).
 * - malloc, realloc and free are of one allocator, and the memory that they give is aligned to 16 octets.
 *
 * Octets and bits: octet 0 of an array is sent first, and of each octet the most significant bit.
 *
 * Numbers that calls take
 *
 * - code: how many wrong symbols of a codeword the code corrects, E below: TMCHAN_RS16 for the (255,223) code,
 *   TMCHAN_RS8 for the (255,239) code. A symbol is an octet. A codeword ends with 2E check symbols.
 * - basis: TMCHAN_DUAL for the dual basis of CCSDS 131.0-B, TMCHAN_POLYNOMIAL for the polynomial ("conventional")
 *   basis.
 * - depth: the interleaving depth I. Octet m of a codeblock belongs to column m mod I, and each column is a codeword.
 *
 * A shortened codeword has fewer than 255 octets: the virtual fill, zeros before the data, is never passed.
 */
#ifndef TMCHAN_H
#define TMCHAN_H

#include <stddef.h>
#include <stdint.h>

#ifdef __cplusplus
extern "C" {
#endif

/* The version that this header describes: 65,536 times the first number, 256 times the second, and the third. While
 * the first is 0, a program is compiled anew for each second number: in 0.3 each push and finish takes a tmchan_written
 * as its last argument, the calls that take options take their number too, which macros of their names pass, and
 * tmchan_report is longer. */
#define TMCHAN_VERSION 0x000300

/* The codes. TMCHAN_NO_CODE is taken by tmchan_cadu, tmchan_cadu_length and the field code of tmchan_config alone. */
#define TMCHAN_NO_CODE 0
#define TMCHAN_RS8 8
#define TMCHAN_RS16 16

/* The bases. */
#define TMCHAN_DUAL 0
#define TMCHAN_POLYNOMIAL 1

/* On and off. */
#define TMCHAN_OFF 0
#define TMCHAN_ON 1

/* The rates of the convolutional code, by their digits. */
#define TMCHAN_NO_INNER 0
#define TMCHAN_RATE_12 12
#define TMCHAN_RATE_23 23
#define TMCHAN_RATE_34 34
#define TMCHAN_RATE_56 56
#define TMCHAN_RATE_78 78

/* The forms of soft octets. */
#define TMCHAN_U8 0
#define TMCHAN_I8 1

/* From which register the decoder's first path starts. */
#define TMCHAN_ZERO 0
#define TMCHAN_ANY 1

/* What is known of the symbol phase, and of the polarity, which is not followed. */
#define TMCHAN_GIVEN 0
#define TMCHAN_FIND 1
#define TMCHAN_FOLLOW 2

/* What becomes of a frame with an uncorrectable column. */
#define TMCHAN_DROP 0
#define TMCHAN_PASS 1

/* What calls return below 0. Each call lists its own; where several apply it returns the first of its list. After any
 * of them all arrays are as they were, but for those of a receiver's push or finish: after TMCHAN_ROOM the
 * tmchan_written says what stands in them. tmchan_text has what each means. */
#define TMCHAN_BEYOND (-1)      /* uncorrectable: no codeword is within the repair bound. No mistake of the caller */
#define TMCHAN_ROOM (-2)        /* an array is too short, or its length does not fit those of the others, or the code */
#define TMCHAN_FLAGS (-3)       /* there are not as many flags as symbols */
#define TMCHAN_COLUMN (-4)      /* the index of the column is not below the depth */
#define TMCHAN_BAD_CODE (-16)   /* no such code */
#define TMCHAN_BAD_DEPTH (-17)  /* the depth is none of 1, 2, 3, 4, 5 and 8, or it is not 1 and there is no code */
#define TMCHAN_BAD_LENGTH (-18) /* no word, or no frame, of this code and depth is so long */
#define TMCHAN_BAD_SWITCH (-20) /* randomize is neither 0 nor 1 */
#define TMCHAN_BAD_BASIS (-21)  /* no such basis */
#define TMCHAN_BAD_REPAIR (-23) /* the repair bound is above E */

#define TMCHAN_CLOSED (-5)      /* the handle is closed, or a stream of another kind is open */
#define TMCHAN_OPEN (-6)        /* the handle is open already */
#define TMCHAN_MEMORY (-7)      /* malloc gave no memory */
#define TMCHAN_BAD_CONFIG (-8)  /* a number after the options that this library has is not 0 */
#define TMCHAN_BAD_INNER (-19)
#define TMCHAN_BAD_TOLERANCE (-22)
#define TMCHAN_BAD_SOFT (-24)
#define TMCHAN_BAD_START (-25)
#define TMCHAN_BAD_SKIP (-26)
#define TMCHAN_BAD_WORKERS (-27)
#define TMCHAN_BAD_LIMIT (-28)
#define TMCHAN_BAD_FLY (-29)
#define TMCHAN_BAD_KEEP (-30)
#define TMCHAN_BAD_AHEAD (-31)
#define TMCHAN_BAD_PHASE (-32)
#define TMCHAN_BAD_POLARITY (-33)
#define TMCHAN_BAD_BATCH (-34)
#define TMCHAN_BAD_PACK (-35)
#define TMCHAN_BAD_VERIFY (-36)
#define TMCHAN_BAD_RESCAN (-37)
#define TMCHAN_BAD_BAD (-38)

/* Returns the version of the library that is linked, a number as TMCHAN_VERSION is. */
uint32_t tmchan_version(void);

/* The octets in which each text has room, with the 0 after it. */
#define TMCHAN_TEXT_LENGTH 96

/* Writes what a returned number means to text: a sentence in ASCII without a full stop, and a 0 after it. Returns the
 * length of the sentence; TMCHAN_ROOM, where text is too short: never with TMCHAN_TEXT_LENGTH. */
int32_t tmchan_text(int64_t answer, char *text, size_t text_length);

/* Reed-Solomon codes */

/* Writes the 2E check octets of data octets to checks: the data followed by the checks are the one codeword, in this
 * basis, that begins with the data. data_length is 1 to 255 - 2E, checks_length is 2E.
 *
 * Returns 0; TMCHAN_BAD_CODE, TMCHAN_BAD_LENGTH (of the data), TMCHAN_BAD_BASIS, TMCHAN_ROOM (of the checks). */
int32_t tmchan_rs_encode(uint32_t code, uint32_t basis, const uint8_t *data, size_t data_length, uint8_t *checks,
                         size_t checks_length);

/* Repairs a word, 2E + 1 to 255 octets, in place: where a codeword differs from it in at most `repair` octets, it
 * becomes that codeword. There is at most one. repair is 0 to E; 0 says whether the word is a codeword.
 *
 * Returns the number of octets that were wrong, 0 to repair; TMCHAN_BEYOND where there is no such codeword;
 * TMCHAN_BAD_CODE, TMCHAN_BAD_LENGTH (of the word), TMCHAN_BAD_BASIS, TMCHAN_BAD_REPAIR. */
int32_t tmchan_rs_decode(uint32_t code, uint32_t basis, uint32_t repair, uint8_t *word, size_t word_length);

/* Decodes a word of which some octets are known to be lost. erased has a flag for each octet of the word: 0 where it is
 * good, any other number where it is erased; what stands at an erased octet does not matter. The word becomes the
 * codeword that differs from it in at most `repair` octets that are not erased, where twice their number and the number
 * of erased octets are at most 2E together. There is at most one.
 *
 * Returns the number of octets that were wrong, erased or not (an erased octet that was right is not counted), 0 to 2E;
 * TMCHAN_BEYOND where there is no such codeword; TMCHAN_BAD_CODE, TMCHAN_BAD_LENGTH (of the word), TMCHAN_BAD_BASIS,
 * TMCHAN_BAD_REPAIR, TMCHAN_FLAGS. */
int32_t tmchan_rs_decode_erased(uint32_t code, uint32_t basis, uint32_t repair, uint8_t *word, size_t word_length,
                                const uint8_t *erased, size_t erased_length);

/* Codeblocks */

/* Adds the pseudo-random sequence to a codeblock modulo 2, from the sequence's start, in place. A second call takes
 * it off again. Any length will do; the sequence repeats after 255 octets. */
void tmchan_randomize(uint8_t *block, size_t block_length);

/* Copies column `index`, from 0, of a codeblock of this depth to word. block_length is depth times word_length. Any
 * depth will do.
 *
 * Returns 0; TMCHAN_COLUMN, TMCHAN_ROOM. */
int32_t tmchan_take_column(uint32_t depth, uint32_t index, const uint8_t *block, size_t block_length, uint8_t *word,
                           size_t word_length);

/* Replaces column `index`, from 0, of a codeblock of this depth by word; no other column changes. block_length is
 * depth times word_length. Any depth will do.
 *
 * Returns 0; TMCHAN_COLUMN, TMCHAN_ROOM. */
int32_t tmchan_put_column(uint32_t depth, uint32_t index, uint8_t *block, size_t block_length, const uint8_t *word,
                          size_t word_length);

/* Channel access data units */

/* How many octets the CADU of a frame has: four of the attached sync marker, the frame, and 2E check octets for each
 * column. frame_length is a multiple of the depth, 1 to 255 - 2E times it; with TMCHAN_NO_CODE it is 1 to 2,040.
 *
 * Returns that number, at most 2,044; TMCHAN_BAD_CODE, TMCHAN_BAD_DEPTH, TMCHAN_BAD_LENGTH. */
int32_t tmchan_cadu_length(uint32_t code, uint32_t depth, size_t frame_length);

/* Writes the CADU of a frame: the attached sync marker 1A CF FC 1D and the codeblock, whose columns are the codewords
 * that begin with the frame's columns, randomized where randomize is 1, and not where it is 0. With TMCHAN_NO_CODE
 * the codeblock is the frame, and the basis has no effect. cadu_length is what tmchan_cadu_length returns.
 *
 * Returns 0; TMCHAN_BAD_CODE, TMCHAN_BAD_DEPTH, TMCHAN_BAD_LENGTH (of the frame), TMCHAN_BAD_SWITCH,
 * TMCHAN_BAD_BASIS, TMCHAN_ROOM (of the CADU). */
int32_t tmchan_cadu(uint32_t code, uint32_t depth, uint32_t basis, uint32_t randomize, const uint8_t *frame,
                    size_t frame_length, uint8_t *cadu, size_t cadu_length);

/* Configurations */

/* The value of an option that is left to the library: of length, invert and repair alone. */
#define TMCHAN_UNSET UINT64_MAX

/* The options of a link, as those of the command line: which numbers each takes, and what the defaults are. Where a
 * number is outside, a call returns the option's TMCHAN_BAD_.., of the first in the order in which they stand here (but
 * invert and randomize are tested together). Later versions may add options at the end, of which 0 is the default. */
typedef struct {
    uint64_t code;      /* TMCHAN_RS16 (default), TMCHAN_RS8 or TMCHAN_NO_CODE */
    uint64_t depth;     /* interleaving depth: 1 (default), 2, 3, 4, 5 or 8; 1 alone where there is no code */
    uint64_t length;    /* octets of a transfer frame: a multiple of the depth, 1 to 255 - 2E times it; with no code 1
                           to 2,040. TMCHAN_UNSET (default): the most */
    uint64_t inner;     /* the convolutional code's rate: TMCHAN_RATE_12 (default) and so on, or TMCHAN_NO_INNER */
    uint64_t invert;    /* TMCHAN_ON: each second symbol of the convolutional code is inverted, TMCHAN_OFF: not.
                           TMCHAN_UNSET (default): at rate 1/2 alone */
    uint64_t randomize; /* codeblocks are randomized: TMCHAN_ON (default), or not: TMCHAN_OFF. TMCHAN_BAD_SWITCH is of
                           invert and of randomize */
    uint64_t basis;     /* TMCHAN_DUAL (default) or TMCHAN_POLYNOMIAL */
    uint64_t tolerance; /* sync threshold: how many of a marker's 32 bits may be wrong, 0 (default) to 8 */
    uint64_t repair;    /* how many symbols of a codeword are repaired at most, 0 to E. TMCHAN_UNSET (default): E */
    uint64_t soft;      /* soft octets: TMCHAN_U8 (default): 0 is the surest 0 and 255 the surest 1; TMCHAN_I8: in
                           two's complement, -128 and 127 */
    uint64_t start;     /* the decoder's first path starts from register zero: TMCHAN_ZERO (default), or from any:
                           TMCHAN_ANY */
    uint64_t skip;      /* how many soft octets, or bits with no inner code, are dropped first: 0 (default) to 15 */
    uint64_t workers;   /* 1 (default) to 64: no thread is started here; with more than 1 tmchan_receiver_room says
                           more */
    uint64_t limit;     /* 1 to 2^40 (default 2^32): has no effect here */
    uint64_t fly;       /* flywheel: how many markers in a row may be missing, 0 (default) to 15 */
    uint64_t keep;      /* steps of a decoder's window that are kept: 64 to 65,536, default 8,192 */
    uint64_t ahead;     /* steps after these: 0 to 4,096, default 256 */
    uint64_t phase;     /* the symbol phase is TMCHAN_GIVEN (default), to be found: TMCHAN_FIND, or to be found and
                           followed: TMCHAN_FOLLOW. Then it is looked at again before each later window of the
                           decoder, and a few octets are dropped there where symbols were lost or doubled */
    uint64_t polarity;  /* the polarity of the bits is TMCHAN_GIVEN (default), or to be found: TMCHAN_FIND */
    uint64_t batch;     /* how many codeblocks a receiver repairs and hands over at once: 1 to 4,096 (32 by default) */
    uint64_t pack;      /* with no inner code, eight bits make an octet: TMCHAN_ON (default), or each bit is an octet of
                           its own, as symbols are: TMCHAN_OFF */
    uint64_t verify;    /* how many further markers must match before a place that is searched for is taken, 0
                           (default) to 7 */
    uint64_t rescan;    /* markers are looked for inside codeblocks too, anywhere in one with an uncorrectable column
                           and in the last symbols of another one that no marker follows: TMCHAN_ON, or not:
                           TMCHAN_OFF (default). tmchan_receiver_room says nearly twice as much then */
    uint64_t bad;       /* a frame with an uncorrectable column is not given: TMCHAN_DROP (default), or given with that
                           column as it was received: TMCHAN_PASS */
} tmchan_config;

/* How many numbers of options a program passes: as many as its tmchan_config has. A call has the defaults for options
 * that are missing, and of more numbers than it knows each is to be 0 (TMCHAN_BAD_CONFIG), so that a program and a
 * library may be of different versions. It is passed by macros of the calls' names: one writes
 * tmchan_config_check(&config). A program that calls by a pointer, or from another language, passes it itself. */
#define TMCHAN_CONFIG_LENGTH (sizeof(tmchan_config) / sizeof(uint64_t))

/* Fills in the defaults, and 0 for numbers after the options that this library has. */
void tmchan_config_defaults(tmchan_config *config, size_t config_length);

/* Sets the options for a real recording, which begins anywhere, has noise before its frames, loses symbols and changes
 * polarity, as README's lines have them: start TMCHAN_ANY, phase TMCHAN_FOLLOW, polarity TMCHAN_FIND, tolerance 3,
 * fly 1, verify 0, rescan TMCHAN_ON; and where inner is TMCHAN_RATE_12 keep 128 and ahead 64, else the defaults of
 * these two. So inner is set before. It leaves the other options. */
void tmchan_config_recording(tmchan_config *config, size_t config_length);

/* Returns 0; TMCHAN_BAD_CONFIG, or the TMCHAN_BAD_.. of the first option whose value is outside. So do the calls below
 * that list TMCHAN_BAD_... */
int32_t tmchan_config_check(const tmchan_config *config, size_t config_length);

/* Returns the octets of a transfer frame, 1 to 2,040; TMCHAN_BAD_... */
int32_t tmchan_frame_length(const tmchan_config *config, size_t config_length);

#define tmchan_config_defaults(config) (tmchan_config_defaults)(config, TMCHAN_CONFIG_LENGTH)
#define tmchan_config_recording(config) (tmchan_config_recording)(config, TMCHAN_CONFIG_LENGTH)
#define tmchan_config_check(config) (tmchan_config_check)(config, TMCHAN_CONFIG_LENGTH)
#define tmchan_frame_length(config) (tmchan_frame_length)(config, TMCHAN_CONFIG_LENGTH)

/* Streams
 *
 * A handle begins as {0}, which is closed, and only calls change it. A call that opens it takes all the memory of the
 * stream by malloc; no other call allocates. tmchan_close, and the finish of each kind of stream, close it and give
 * the memory back (tests count both, and no proof says it); then calls on the handle return TMCHAN_CLOSED, and it may
 * be opened again. Handles may be moved in memory, and not copied.
 *
 * What a push writes stands at the start of its arrays; what follows it is left open, and may have changed. How large
 * the arrays have to be a call says before: tmchan_sender_room, tmchan_decoder_room, tmchan_receiver_room and
 * tmchan_window_room; none says it for more than 2^40 elements, and a sender or a decoder takes no more at a time
 * (TMCHAN_ROOM). The octets of a decoder or a receiver in all are to be below 2^60. */
typedef struct {
    uint64_t is_open;
    void *at;
} tmchan_stream;

/* The symbol phase: how many soft octets stand before the first step's symbols, and what the best path after them
 * costs. */
typedef struct {
    uint32_t is_chosen; /* 0: not chosen yet, or the phase is given */
    uint32_t skip;
    uint64_t cost;
} tmchan_phase;

/* How much a push or a finish has written to the start of its arrays: reports, octets (of frames, or symbols or bits),
 * and windows (0 but in the calls whose name ends with _windows). Where a call returns a number below 0 all are 0, but
 * at a receiver's TMCHAN_ROOM. */
typedef struct {
    uint64_t reports, octets, windows;
} tmchan_written;

/* Closes a stream of any kind, and drops what was not written yet. Returns 0; TMCHAN_CLOSED. */
int32_t tmchan_close(tmchan_stream *stream);

/* The sender: the octets of transfer frames in pieces of any length, and the symbols of the CADU of each frame once
 * it is whole: with an inner code an octet for each symbol, 00 and FF (or 80 and 7F in the signed form), and else the
 * octets of the CADU, or with pack = 0 such an octet for each of its bits. */

/* Returns for how many symbols a push of octets_length octets needs room, which may be more than it writes;
 * TMCHAN_BAD_.., TMCHAN_ROOM. */
int64_t tmchan_sender_room(const tmchan_config *config, size_t config_length, size_t octets_length);

/* Opens a sender. Returns 0; TMCHAN_OPEN, TMCHAN_BAD_.., TMCHAN_MEMORY. */
int32_t tmchan_sender_open(tmchan_stream *stream, const tmchan_config *config, size_t config_length);

/* Takes the next octets of the frames. Returns how many symbols were written; TMCHAN_CLOSED, TMCHAN_ROOM: nothing was
 * taken then. */
int64_t tmchan_sender_push(tmchan_stream *stream, const uint8_t *octets, size_t octets_length, uint8_t *symbols,
                           size_t symbols_length, tmchan_written *written);

/* Closes a sender, and writes nothing but *written, all 0. Returns how many octets follow the last whole frame, which
 * were not sent; TMCHAN_CLOSED. */
int64_t tmchan_sender_finish(tmchan_stream *stream, tmchan_written *written);

#define tmchan_sender_room(config, octets_length) (tmchan_sender_room)(config, TMCHAN_CONFIG_LENGTH, octets_length)
#define tmchan_sender_open(stream, config) (tmchan_sender_open)(stream, config, TMCHAN_CONFIG_LENGTH)

/* Figures of a window of the soft decoder: how well received octets fit the symbols of the window's best path. A window
 * keeps its first steps, of an information bit each; those after them only settle these. Counted are the octets of the
 * kept steps, so that each octet counts once; none is equally near to both symbols. The symbol error rate and Es/N0 are
 * estimated by these counts (docs/GUIDE.md, "How good symbols are"). */
typedef struct {
    uint64_t symbol;   /* the number, from 0, of its first step's first symbol among all octets that were given; those
                          that were skipped or dropped are counted */
    uint64_t dropped;  /* how many octets were dropped before it */
    uint64_t steps;    /* how many steps it has */
    uint64_t kept;     /* how many of them it keeps: as many as the option keep says, in the last window all */
    uint64_t metric;   /* what its best path costs, over all steps */
    uint64_t octets;   /* how many octets the kept steps have */
    uint64_t wrong;    /* how many of these are nearer to the other symbol than to the path's */
    uint64_t distance; /* the sum of their distances from the path's symbols, 0 to 255 each */
    uint64_t squares;  /* the sum of the squares of these distances */
} tmchan_window;

/* Returns for how many windows a push of octets_length octets, or fewer, and the finish need room: enough for any
 * decoder and any receiver of this configuration, whatever was pushed before, and so mostly more than are written; 0
 * where there is no inner code; TMCHAN_BAD_.., TMCHAN_ROOM (of more than 2^40 octets). */
int64_t tmchan_window_room(const tmchan_config *config, size_t config_length, size_t octets_length);

#define tmchan_window_room(config, octets_length) (tmchan_window_room)(config, TMCHAN_CONFIG_LENGTH, octets_length)

/* The soft decoder of the convolutional code: soft octets in pieces of any length, and the decoded bits, an octet for
 * each, 0 or 1. With inner = 0 no bit comes. Bits come a window at a time: keep bits once more than keep + ahead
 * steps are there. */

/* Returns for how many bits a push of octets_length octets needs room, or with 0 the finish; TMCHAN_BAD_..,
 * TMCHAN_ROOM. */
int64_t tmchan_decoder_room(const tmchan_config *config, size_t config_length, size_t octets_length);

/* Opens a decoder. Returns 0; TMCHAN_OPEN, TMCHAN_BAD_.., TMCHAN_MEMORY. */
int32_t tmchan_decoder_open(tmchan_stream *stream, const tmchan_config *config, size_t config_length);

/* Takes the next soft octets. Returns how many bits were written; TMCHAN_CLOSED, TMCHAN_ROOM: nothing was taken
 * then. */
int64_t tmchan_decoder_push(tmchan_stream *stream, const uint8_t *octets, size_t octets_length, uint8_t *bits,
                            size_t bits_length, tmchan_written *written);

/* Does what tmchan_decoder_push does, and writes the figures of the windows that are decoded to windows, which has the
 * room that tmchan_window_room says (TMCHAN_ROOM otherwise: nothing was taken then). A stream may be given to this push
 * and to the one above by turns: the one that decodes a window writes its figures, or drops them. */
int64_t tmchan_decoder_push_windows(tmchan_stream *stream, const uint8_t *octets, size_t octets_length, uint8_t *bits,
                                    size_t bits_length, tmchan_window *windows, size_t windows_length,
                                    tmchan_written *written);

/* Gives the phase so far. Returns 0; TMCHAN_CLOSED. */
int32_t tmchan_decoder_phase(tmchan_stream *stream, tmchan_phase *phase);

/* Writes the bits that are left, gives the phase, and closes the decoder. Returns how many bits were written;
 * TMCHAN_CLOSED, TMCHAN_ROOM: the decoder is still open then. */
int64_t tmchan_decoder_finish(tmchan_stream *stream, uint8_t *bits, size_t bits_length, tmchan_phase *phase,
                              tmchan_written *written);

/* Does what tmchan_decoder_finish does, and writes the figures of the windows that are left. */
int64_t tmchan_decoder_finish_windows(tmchan_stream *stream, uint8_t *bits, size_t bits_length, tmchan_window *windows,
                                      size_t windows_length, tmchan_phase *phase, tmchan_written *written);

#define tmchan_decoder_room(config, octets_length) (tmchan_decoder_room)(config, TMCHAN_CONFIG_LENGTH, octets_length)
#define tmchan_decoder_open(stream, config) (tmchan_decoder_open)(stream, config, TMCHAN_CONFIG_LENGTH)

/* The receiver: received soft octets (or octets that hold the bits, with no inner code) in pieces of any length; the
 * frames of the codeblocks that are found in them, and a report of each. Codeblocks come in whole batches, of as many
 * as `batch` says, and what is left at the finish. */

typedef struct {
    uint64_t place;        /* how many received bits stand before its marker */
    uint64_t symbol;       /* the number, from 0, of its marker's first symbol among all octets that were given, with
                              pack = 1 and no inner code among all bits; those that were skipped or dropped are
                              counted. With an inner code it is the first symbol of the step of its first bit */
    uint64_t frame;        /* where its frame begins in the array frames of this call; where it has none, where the
                              next one begins */
    uint64_t frame_length; /* the octets of its frame; 0 where a column is uncorrectable and bad is TMCHAN_DROP: it has
                              none then */
    uint8_t distance;      /* how many of the marker's 32 bits are wrong, in the codeblock's polarity */
    uint8_t bridged;       /* 1: no marker stands there; its place was taken since it directly follows a codeblock */
    uint8_t inverted;      /* 1: the codeblock was received inverted */
    uint8_t columns;       /* how many columns it has: the depth, or 0 with no code */
    uint8_t bad;           /* 1: a column is uncorrectable */
    uint8_t repaired[8];   /* for each column how many symbols were wrong, or 255 where it is uncorrectable; of others
                              nothing is said */
} tmchan_report;

/* Says for how many reports a push of octets_length octets, or fewer, and the finish need room: enough for any receiver
 * of this configuration, whatever was pushed before, and so mostly more than are written; with rescan nearly twice as
 * many as without, since codeblocks may lie inside others then. To *frames_length it writes the octets of as many
 * frames.
 *
 * Returns the number of reports; TMCHAN_BAD_.., TMCHAN_ROOM (of more than 2^40 octets): *frames_length is as it was
 * then. */
int64_t tmchan_receiver_room(const tmchan_config *config, size_t config_length, size_t octets_length,
                             uint64_t *frames_length);

/* Opens a receiver. Returns 0; TMCHAN_OPEN, TMCHAN_BAD_.., TMCHAN_MEMORY. */
int32_t tmchan_receiver_open(tmchan_stream *stream, const tmchan_config *config, size_t config_length);

/* Takes the next octets, and writes the frames of the codeblocks that are handed over, one after the other, to
 * frames, and a report of each to reports; frames_length is in octets, reports_length in reports. Returns how many
 * codeblocks these are; TMCHAN_CLOSED: nothing was taken then; TMCHAN_ROOM: the octets were taken, those codeblocks
 * were written that *written says, and all from the first that had no room on are lost. That never comes with the room
 * that tmchan_receiver_room says. */
int64_t tmchan_receiver_push(tmchan_stream *stream, const uint8_t *octets, size_t octets_length, uint8_t *frames,
                             size_t frames_length, tmchan_report *reports, size_t reports_length,
                             tmchan_written *written);

/* Does what tmchan_receiver_push does, and writes the figures of the windows of the inner code that are decoded to
 * windows. TMCHAN_ROOM comes too where windows has no room for all: the octets were taken then, and the figures of the
 * first windows written, as many as *written says. That never comes with the room that tmchan_window_room says. */
int64_t tmchan_receiver_push_windows(tmchan_stream *stream, const uint8_t *octets, size_t octets_length,
                                     uint8_t *frames, size_t frames_length, tmchan_report *reports,
                                     size_t reports_length, tmchan_window *windows, size_t windows_length,
                                     tmchan_written *written);

/* Gives the phase so far. Returns 0; TMCHAN_CLOSED. */
int32_t tmchan_receiver_phase(tmchan_stream *stream, tmchan_phase *phase);

/* What all octets came to. */
typedef struct {
    uint64_t bits;  /* how many bits were received */
    uint64_t slips; /* before how many windows of the inner code octets were dropped; 0 where the phase is not
                       followed */
} tmchan_totals;

/* Writes to *slips before how many windows of the inner code octets were dropped so far, of those whose bits were
 * searched; 0 where the phase is not followed. Returns 0; TMCHAN_CLOSED. */
int32_t tmchan_receiver_slips(tmchan_stream *stream, uint64_t *slips);

/* Writes the codeblocks that are left as a push does, gives what all octets came to and the phase, and closes the
 * receiver. Returns how many codeblocks these are; TMCHAN_CLOSED; TMCHAN_ROOM, as of a push: the totals and the phase
 * are given, and the receiver is closed, all the same. */
int64_t tmchan_receiver_finish(tmchan_stream *stream, uint8_t *frames, size_t frames_length, tmchan_report *reports,
                               size_t reports_length, tmchan_totals *totals, tmchan_phase *phase,
                               tmchan_written *written);

/* Does what tmchan_receiver_finish does, and writes the figures of the windows that are left, as
 * tmchan_receiver_push_windows does. */
int64_t tmchan_receiver_finish_windows(tmchan_stream *stream, uint8_t *frames, size_t frames_length,
                                       tmchan_report *reports, size_t reports_length, tmchan_window *windows,
                                       size_t windows_length, tmchan_totals *totals, tmchan_phase *phase,
                                       tmchan_written *written);

#define tmchan_receiver_room(config, octets_length, frames_length) \
    (tmchan_receiver_room)(config, TMCHAN_CONFIG_LENGTH, octets_length, frames_length)
#define tmchan_receiver_open(stream, config) (tmchan_receiver_open)(stream, config, TMCHAN_CONFIG_LENGTH)

/* The search for sync markers: in bits, or in octets, which marker has a whole codeblock after it. It takes no
 * memory: what it keeps stands in the caller's struct, which begins as {0}, and in a room of the caller's, and only
 * calls change them. The room has verify * (32 + block_bits) octets, one for each bit; none where verify is 0. What
 * it holds at first does not matter. A search may be copied with its room. */
typedef struct {
    uint64_t is_open, pushed, start, place, after;
    uint32_t block_bits, received; /* received: the last 32 bits */
    uint8_t tolerance, fly, either, verify, has_before, before_inverted, before_bridged, has_place, distance, bridged,
        inverted, next_inverted, next_bridged;
} tmchan_search;

typedef struct {
    uint64_t place;   /* how many bits stand before the marker */
    uint8_t distance; /* how many of its 32 bits are wrong, in its polarity */
    uint8_t bridged;  /* 1: no marker stands there, and the place was taken since it directly follows a codeblock */
    uint8_t inverted; /* 1: the marker is inverted */
} tmchan_place;

/* Begins a search: of markers with at most `tolerance` wrong bits, 0 to 8; where at most `fly` in a row may be
 * missing, 0 to 15; inverted ones too where either is 1, and not where it is 0; with codeblocks of block_bits bits. A
 * marker that does not directly follow a codeblock is taken where `verify` further ones, 0 to 7, each right after the
 * codeblock of the one before, match in the same polarity. Returns 0; TMCHAN_BAD_TOLERANCE, TMCHAN_BAD_FLY,
 * TMCHAN_BAD_POLARITY (of either), TMCHAN_BAD_VERIFY. */
int32_t tmchan_search_open(tmchan_search *search, uint32_t tolerance, uint32_t fly, uint32_t either,
                           uint32_t block_bits, uint32_t verify);

/* Takes bits of an array, each 0, or any other number for 1, from number *at on, up to the one with which the next
 * place is found, or all; *at is how many of the array are taken then. A place is found with the last bit of its
 * codeblock, and where further markers verify it with the last bit of these: several places may be found with one
 * bit, and come one a call. Returns 1 where a place is found, and gives it; 0 where all are taken; TMCHAN_CLOSED,
 * TMCHAN_ROOM (the room has another length, *at is beyond the array, or that has more than 2^40 elements): nothing
 * was taken then. The bits given to a search in all, those of the array too, are to be at most 2^63. So this takes an
 * array:
 *
 *     uint64_t at = 0;
 *     while (tmchan_search_bits(&search, room, room_length, bits, bits_length, &at, &place) == 1) use(place); */
int32_t tmchan_search_bits(tmchan_search *search, uint8_t *room, size_t room_length, const uint8_t *bits,
                           size_t bits_length, uint64_t *at, tmchan_place *place);

/* Searches the bits of octets; *at is a number of bits. */
int32_t tmchan_search_octets(tmchan_search *search, uint8_t *room, size_t room_length, const uint8_t *octets,
                             size_t octets_length, uint64_t *at, tmchan_place *place);

#ifdef __cplusplus
}
#endif

#endif
