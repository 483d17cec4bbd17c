/* The link of the examples, as both ends know it. -D of any of these sets another. */
#ifndef LINK_H
#define LINK_H

#include "tmchan.h"

#ifndef CODE /* TMCHAN_RS16 or TMCHAN_RS8 */
#define CODE TMCHAN_RS16
#endif
#ifndef DEPTH
#define DEPTH 5
#endif
#ifndef FRAME /* octets of a transfer frame */
#define FRAME (DEPTH * (255 - 2 * CODE))
#endif
#ifndef BASIS
#define BASIS TMCHAN_DUAL
#endif
#ifndef RANDOMIZE
#define RANDOMIZE TMCHAN_ON
#endif

/* Of the sender alone: the receiver has no decoder of the convolutional code. */
#ifndef INNER
#define INNER TMCHAN_NO_INNER
#endif

/* Of the receiver alone */
#ifndef TOLERANCE
#define TOLERANCE 2
#endif
#ifndef FLY
#define FLY 1
#endif
#ifndef EITHER /* inverted bits are received too */
#define EITHER TMCHAN_OFF
#endif

enum {
    COLUMN = FRAME / DEPTH + 2 * CODE, /* octets of a codeword, which is a column of the codeblock */
    BLOCK = DEPTH * COLUMN,            /* of a codeblock */
    UNIT = 4 + BLOCK,                  /* of a CADU */
};

#endif
