/* COBS as one writes it by memchr, memcpy and memmove, with the checks of hand.c. */
#include "rival.h"

#include <string.h>

void rival_decoder_init(rival_decoder *decoder, void *buffer, size_t room)
{
    *decoder = (rival_decoder){buffer, room, 0, 255, 0, 0};
}

static void add(rival_decoder *decoder, const unsigned char *bytes, size_t len)
{
    size_t rest = decoder->room - decoder->length;

    if (len > rest) {
        decoder->too_long = 1;
        len = rest;
    }
    memcpy(decoder->buffer + decoder->length, bytes, len);
    decoder->length += len;
}

static void begin_block(rival_decoder *decoder, unsigned char code)
{
    if (decoder->code != 255) {
        if (decoder->length < decoder->room)
            decoder->buffer[decoder->length++] = 0;
        else
            decoder->too_long = 1;
    }
    decoder->code = code;
    decoder->left = (unsigned char)(code - 1);
}

static ptrdiff_t end_frame(rival_decoder *decoder)
{
    ptrdiff_t result = decoder->too_long                              ? RIVAL_TOO_LONG
                       : decoder->left > 0                            ? RIVAL_BROKEN
                       : decoder->length == 0 && decoder->code == 255 ? RIVAL_MORE
                                                                      : (ptrdiff_t)decoder->length;

    decoder->length = 0;
    decoder->code = 255;
    decoder->left = 0;
    decoder->too_long = 0;
    return result;
}

ptrdiff_t rival_decoder_feed(rival_decoder *decoder, unsigned char byte)
{
    size_t consumed;

    return rival_decoder_push(decoder, &byte, 1, &consumed);
}

ptrdiff_t rival_decoder_push(rival_decoder *decoder, const void *bytes, size_t len, size_t *consumed)
{
    const unsigned char *from = bytes, *zero;
    ptrdiff_t result = RIVAL_MORE;
    size_t i = 0, stop;

    while (result == RIVAL_MORE && i < len) {
        zero = memchr(from + i, 0, len - i);
        stop = zero ? (size_t)(zero - from) : len;
        while (i < stop) {
            if (decoder->left > 0) {
                size_t some = decoder->left < stop - i ? decoder->left : stop - i;

                add(decoder, from + i, some);
                decoder->left = (unsigned char)(decoder->left - some);
                i += some;
            } else {
                begin_block(decoder, from[i++]);
            }
        }
        if (zero) {
            i++;
            result = end_frame(decoder);
        }
    }
    *consumed = i;
    return result;
}

static size_t end_of(const unsigned char *source, size_t len)
{
    const unsigned char *zero = len > 0 ? memchr(source, 0, len) : NULL;

    return zero ? (size_t)(zero - source) : len;
}

ptrdiff_t rival_decode(const void *source, size_t len, void *message, size_t room)
{
    const unsigned char *from = source, *end = from + end_of(source, len);
    unsigned char *to = message, *limit = to + room;

    while (from < end) {
        size_t code = *from++;

        if ((size_t)(end - from) < code - 1)
            return RIVAL_BROKEN;
        if ((size_t)(limit - to) < code - 1)
            return RIVAL_TOO_LONG;
        if (code > 1)
            memcpy(to, from, code - 1);
        from += code - 1;
        to += code - 1;
        if (code != 255 && from < end) {
            if (to == limit)
                return RIVAL_TOO_LONG;
            *to++ = 0;
        }
    }
    return to - (unsigned char *)message;
}

ptrdiff_t rival_decode_in_place(void *buffer, size_t len)
{
    unsigned char *from = buffer, *to = buffer, *end = from + end_of(buffer, len);

    while (from < end) {
        size_t code = *from++;

        if ((size_t)(end - from) < code - 1)
            return RIVAL_BROKEN;
        if (code > 1)
            memmove(to, from, code - 1);
        from += code - 1;
        to += code - 1;
        if (code != 255 && from < end)
            *to++ = 0;
    }
    return to - (unsigned char *)buffer;
}

void rival_encoder_init(rival_encoder *encoder, void *buffer, size_t room)
{
    *encoder = (rival_encoder){buffer, room, 0, 1};
}

/* Ends the open block, which is full or before a zero, and begins another one. */
static int next_block(rival_encoder *encoder)
{
    if (encoder->length >= encoder->room)
        return 0;
    encoder->buffer[encoder->code] = (unsigned char)(encoder->length - encoder->code);
    encoder->code = encoder->length++;
    return 1;
}

int rival_encoder_push(rival_encoder *encoder, const void *bytes, size_t len)
{
    const unsigned char *from = bytes, *end = from + len, *zero;

    while (from < end) {
        size_t some = 255 - (encoder->length - encoder->code);

        if (some == 0) {
            if (!next_block(encoder))
                return 0;
            some = 254;
        }
        if (some > (size_t)(end - from))
            some = (size_t)(end - from);
        zero = memchr(from, 0, some);
        if (zero)
            some = (size_t)(zero - from);
        if (encoder->length > encoder->room || some > encoder->room - encoder->length)
            return 0;
        if (some > 0)
            memcpy(encoder->buffer + encoder->length, from, some);
        encoder->length += some;
        from += some;
        if (zero) {
            if (!next_block(encoder))
                return 0;
            from++;
        }
    }
    return 1;
}

int rival_encoder_feed(rival_encoder *encoder, unsigned char byte)
{
    return rival_encoder_push(encoder, &byte, 1);
}

ptrdiff_t rival_encoder_finish(rival_encoder *encoder)
{
    size_t length = encoder->length;

    if (length > encoder->room)
        return RIVAL_TOO_LONG;
    encoder->buffer[encoder->code] = (unsigned char)(length - encoder->code);
    encoder->code = 0;
    encoder->length = 1;
    return (ptrdiff_t)length;
}

ptrdiff_t rival_encode(const void *message, size_t len, void *frame, size_t room)
{
    const unsigned char *from = message, *end = from + len, *zero;
    unsigned char *to = frame, *limit = to + room;

    for (;;) {
        size_t run = end - from < 254 ? (size_t)(end - from) : 254;

        zero = run > 0 ? memchr(from, 0, run) : NULL;
        if (zero)
            run = (size_t)(zero - from);
        if ((size_t)(limit - to) < run + 1)
            return RIVAL_TOO_LONG;
        *to++ = (unsigned char)(run + 1);
        if (run > 0)
            memcpy(to, from, run);
        to += run;
        from += run;
        if (zero)
            from++;
        else if (from == end)
            return to - (unsigned char *)frame;
    }
}
