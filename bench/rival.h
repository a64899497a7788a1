/* COBS as firmware developers write it by hand. A state contains the pointer to its buffer. A result is a
 * length or one of these numbers. */
#ifndef RIVAL_H
#define RIVAL_H

#include <stddef.h>

enum { RIVAL_MORE = -1, RIVAL_BROKEN = -2, RIVAL_TOO_LONG = -3 };

typedef struct rival_decoder {
    unsigned char *buffer;
    size_t room;
    size_t length;
    unsigned char code;     /* the open block's code; 255 at the start, because no zero follows such a block */
    unsigned char left;     /* how many bytes of the open block are still to come */
    unsigned char too_long; /* whether a byte had no room */
} rival_decoder;

typedef struct rival_encoder {
    unsigned char *buffer;
    size_t room;
    size_t code;   /* the index at which the code of the open block belongs */
    size_t length; /* the length of the frame so far */
} rival_encoder;

void rival_decoder_init(rival_decoder *decoder, void *buffer, size_t room);
ptrdiff_t rival_decoder_feed(rival_decoder *decoder, unsigned char byte);
ptrdiff_t rival_decoder_push(rival_decoder *decoder, const void *bytes, size_t len, size_t *consumed);
ptrdiff_t rival_decode(const void *source, size_t len, void *message, size_t room);
ptrdiff_t rival_decode_in_place(void *buffer, size_t len);
void rival_encoder_init(rival_encoder *encoder, void *buffer, size_t room);
int rival_encoder_feed(rival_encoder *encoder, unsigned char byte);
int rival_encoder_push(rival_encoder *encoder, const void *bytes, size_t len);
ptrdiff_t rival_encoder_finish(rival_encoder *encoder);
ptrdiff_t rival_encode(const void *message, size_t len, void *frame, size_t room);

#endif
