/* The calls of a coder over the messages of a row of the table, as main.c measures them. */
#ifndef SPEED_H
#define SPEED_H

#include <stddef.h>

#define SENTINEL 0x7e

struct work {
    size_t count;                  /* messages */
    size_t len;                    /* bytes of each message */
    const unsigned char *messages; /* one after another */
    const unsigned char *stream;   /* their frames, a zero after each */
    const unsigned char *marked;   /* the stream for SENTINEL */
    size_t stream_len;
    const size_t *lens;    /* bytes of each frame */
    unsigned char *copies; /* a copy of the stream, to decode in place */
    unsigned char *room;
    size_t room_size;
};

/* Makes the call for each message, and returns the sum of the lengths of what it made. */
typedef size_t call(struct work *work);

/* In the order of CALLS in measure.py. A coder that doesn't have the call has NULL. */
enum { IN_PLACE = 2, ENCODES = 7, CALLS = 14 };
extern call *const calls[CALLS];

#endif
