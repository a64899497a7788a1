/* COBS as firmware developers write it by hand, for comparing speed and size: one function per task, one pass,
 * and before each write a check that the buffer has room. This code does less than jcobs.c: if the output doesn't fit, it
 * writes the bytes that fit; it assumes that the state isn't corrupt; and it returns one number. */
#include "rival.h"

void rival_decoder_init(rival_decoder *decoder, void *buffer, size_t room)
{
    decoder->buffer = buffer;
    decoder->room = room;
    decoder->length = 0;
    decoder->left = 0;
    decoder->code = 255;
    decoder->too_long = 0;
}

ptrdiff_t rival_decoder_feed(rival_decoder *decoder, unsigned char byte)
{
    unsigned char put = byte;

    if (byte == 0) {
        ptrdiff_t result = (ptrdiff_t)decoder->length;

        if (decoder->too_long)
            result = RIVAL_TOO_LONG;
        else if (decoder->left != 0)
            result = RIVAL_BROKEN;
        else if (result == 0 && decoder->code == 255)
            result = RIVAL_MORE;
        decoder->length = 0;
        decoder->left = 0;
        decoder->code = 255;
        decoder->too_long = 0;
        return result;
    }
    if (decoder->left != 0) {
        decoder->left--;
    } else {
        unsigned char code = decoder->code;

        decoder->left = (unsigned char)(byte - 1);
        decoder->code = byte;
        if (code == 255)
            return RIVAL_MORE;
        put = 0;
    }
    if (decoder->length < decoder->room)
        decoder->buffer[decoder->length++] = put;
    else
        decoder->too_long = 1;
    return RIVAL_MORE;
}

ptrdiff_t rival_decoder_push(rival_decoder *decoder, const void *bytes, size_t len, size_t *consumed)
{
    const unsigned char *from = bytes;
    const unsigned char *end = from + len;
    unsigned char *to = decoder->buffer + decoder->length;
    unsigned char *limit = decoder->buffer + decoder->room;
    unsigned char left = decoder->left;
    unsigned char code = decoder->code;
    unsigned char too_long = decoder->too_long;
    ptrdiff_t result = RIVAL_MORE;

    while (from < end) {
        unsigned char byte = *from++;

        if (byte == 0) {
            if (too_long)
                result = RIVAL_TOO_LONG;
            else if (left != 0)
                result = RIVAL_BROKEN;
            else if (to != decoder->buffer || code != 255)
                result = to - decoder->buffer;
            to = decoder->buffer;
            left = 0;
            code = 255;
            too_long = 0;
            if (result != RIVAL_MORE)
                break;
        } else if (left != 0) {
            left--;
            if (to < limit)
                *to++ = byte;
            else
                too_long = 1;
        } else {
            left = (unsigned char)(byte - 1);
            if (code != 255) {
                if (to < limit)
                    *to++ = 0;
                else
                    too_long = 1;
            }
            code = byte;
        }
    }
    decoder->length = (size_t)(to - decoder->buffer);
    decoder->left = left;
    decoder->code = code;
    decoder->too_long = too_long;
    *consumed = (size_t)(from - (const unsigned char *)bytes);
    return result;
}

ptrdiff_t rival_decode(const void *source, size_t len, void *message, size_t room)
{
    const unsigned char *from = source;
    const unsigned char *end = from + len;
    unsigned char *to = message;
    unsigned char *limit = to + room;
    unsigned char left = 0;
    unsigned char code = 255;

    while (from < end) {
        unsigned char byte = *from++;

        if (byte == 0)
            break;
        if (left != 0) {
            if (to == limit)
                return RIVAL_TOO_LONG;
            *to++ = byte;
            left--;
        } else {
            if (code != 255) {
                if (to == limit)
                    return RIVAL_TOO_LONG;
                *to++ = 0;
            }
            code = byte;
            left = (unsigned char)(byte - 1);
        }
    }
    return left != 0 ? RIVAL_BROKEN : to - (unsigned char *)message;
}

ptrdiff_t rival_decode_in_place(void *buffer, size_t len)
{
    const unsigned char *from = buffer;
    const unsigned char *end = from + len;
    unsigned char *to = buffer;

    while (from < end && *from != 0) {
        unsigned char code = *from++;
        unsigned char left;

        for (left = (unsigned char)(code - 1); left != 0; left--) {
            if (from == end || *from == 0)
                return RIVAL_BROKEN;
            *to++ = *from++;
        }
        if (code != 255 && from < end && *from != 0)
            *to++ = 0;
    }
    return to - (unsigned char *)buffer;
}

void rival_encoder_init(rival_encoder *encoder, void *buffer, size_t room)
{
    encoder->buffer = buffer;
    encoder->room = room;
    encoder->code = 0;
    encoder->length = 1;
}

int rival_encoder_feed(rival_encoder *encoder, unsigned char byte)
{
    size_t length = encoder->length;

    if (length - encoder->code == 255) {
        if (length >= encoder->room)
            return 0;
        encoder->buffer[encoder->code] = 255;
        encoder->code = length++;
    }
    if (length >= encoder->room)
        return 0;
    if (byte != 0) {
        encoder->buffer[length] = byte;
    } else {
        encoder->buffer[encoder->code] = (unsigned char)(length - encoder->code);
        encoder->code = length;
    }
    encoder->length = length + 1;
    return 1;
}

/* The code of a block is counted, which is faster than computing the distance of two pointers. */
int rival_encoder_push(rival_encoder *encoder, const void *bytes, size_t len)
{
    const unsigned char *from = bytes;
    const unsigned char *end = from + len;
    unsigned char *code_at = encoder->buffer + encoder->code;
    unsigned char *to = encoder->buffer + encoder->length;
    unsigned char *limit = encoder->buffer + encoder->room;
    unsigned char code = (unsigned char)(to - code_at);

    while (from < end) {
        unsigned char byte = *from++;

        if (code == 255) {
            if (to >= limit)
                return 0;
            *code_at = 255;
            code_at = to++;
            code = 1;
        }
        if (to >= limit)
            return 0;
        if (byte != 0) {
            *to++ = byte;
            code++;
        } else {
            *code_at = code;
            code_at = to++;
            code = 1;
        }
    }
    encoder->code = (size_t)(code_at - encoder->buffer);
    encoder->length = (size_t)(to - encoder->buffer);
    return 1;
}

ptrdiff_t rival_encoder_finish(rival_encoder *encoder)
{
    size_t length = encoder->length;

    if (length > encoder->room)
        return RIVAL_TOO_LONG;
    encoder->buffer[encoder->code] = (unsigned char)(length - encoder->code);
    encoder->code = 0;
    encoder->length = 1;
    return (ptrdiff_t)length;
}

ptrdiff_t rival_encode(const void *message, size_t len, void *frame, size_t room)
{
    const unsigned char *from = message;
    const unsigned char *end = from + len;
    unsigned char *code_at = frame;
    unsigned char *to = code_at + 1;
    unsigned char *limit = code_at + room;
    unsigned char code = 1;

    if (room == 0)
        return RIVAL_TOO_LONG;
    while (from < end) {
        unsigned char byte = *from++;

        if (code == 255) {
            if (to == limit)
                return RIVAL_TOO_LONG;
            *code_at = 255;
            code_at = to++;
            code = 1;
        }
        if (to == limit)
            return RIVAL_TOO_LONG;
        if (byte != 0) {
            *to++ = byte;
            code++;
        } else {
            *code_at = code;
            code_at = to++;
            code = 1;
        }
    }
    *code_at = code;
    return to - (unsigned char *)frame;
}
