/* plain.c: COBS in plain C, for comparing sizes and instructions. It makes the checks of the proved calls: no byte
 * outside the buffers is accessed, in any state; a frame that doesn't fit or is broken is reported once; and an encoder
 * writes nothing unless the whole frame fits. */
#include "plain.h"

jcobs_answer plain_decoder_push(jcobs_decoder *decoder, void *buffer, size_t buffer_size, const void *bytes, size_t len)
{
    const unsigned char *from = bytes;
    unsigned char *to = buffer;
    jcobs_decoder here = *decoder;
    jcobs_answer answer = {JCOBS_MORE, len, 0};
    size_t i;

    for (i = 0; i < len; i++) {
        unsigned char byte = from[i];

        if (byte == 0) {
            if (here.too_long || (here.missing == 0 && here.written > buffer_size))
                answer.status = JCOBS_TOO_SMALL;
            else if (here.missing != 0)
                answer.status = JCOBS_BROKEN;
            else if (here.written != 0 || here.joint)
                answer.status = JCOBS_OK;
            if (answer.status != JCOBS_MORE) {
                answer.consumed = i + 1;
                break;
            }
        } else if (!here.too_long) {
            if (here.missing != 0 || here.joint) {
                if (here.written >= buffer_size) {
                    here.too_long = 1;
                    continue;
                }
                to[here.written++] = here.missing != 0 ? byte : 0;
            }
            if (here.missing != 0) {
                here.missing--;
            } else {
                here.missing = (unsigned char)(byte - 1);
                here.joint = byte != 255;
            }
        }
    }
    answer.length = here.too_long || here.written > buffer_size ? buffer_size : here.written;
    if (answer.status != JCOBS_MORE) {
        here.written = 0;
        here.missing = 0;
        here.joint = 0;
        here.too_long = 0;
    }
    *decoder = here;
    return answer;
}

/* Returns the length of the frame from its open block on, after the block has taken these bytes. */
static size_t open_length(size_t code, const unsigned char *bytes, size_t len)
{
    size_t total = 0;
    size_t i;

    for (i = 0; i < len; i++) {
        if (code == 255) {
            total += 255;
            code = 1;
        }
        if (bytes[i] != 0) {
            code++;
        } else {
            total += code;
            code = 1;
        }
    }
    return total + code;
}

jcobs_answer plain_encoder_push(jcobs_encoder *encoder, void *buffer, size_t buffer_size, const void *bytes, size_t len)
{
    const unsigned char *from = bytes;
    unsigned char *to = buffer;
    jcobs_answer answer = {JCOBS_TOO_SMALL, 0, 0};
    size_t index = encoder->index;
    size_t code = encoder->taken + 1u;
    size_t i;

    if (code > 254 || index > buffer_size || (!encoder->full && code > buffer_size - index))
        return answer;
    if (len > 0) {
        if (len > buffer_size - index || open_length(code, from, len) > buffer_size - index)
            return answer;
        for (i = 0; i < len; i++) {
            if (code == 255) {
                to[index] = 255;
                index += 255;
                code = 1;
            }
            if (from[i] != 0) {
                to[index + code++] = from[i];
            } else {
                to[index] = (unsigned char)code;
                index += code;
                code = 1;
            }
        }
        encoder->full = 0;
        if (code == 255) {
            to[index] = 255;
            index += 255;
            code = 1;
            encoder->full = 1;
        }
        encoder->index = index;
        encoder->taken = (unsigned char)(code - 1);
    }
    answer.status = JCOBS_OK;
    answer.consumed = len;
    answer.length = encoder->full ? index : index + code;
    return answer;
}

jcobs_answer plain_encoder_finish(jcobs_encoder *encoder, void *buffer, size_t buffer_size)
{
    jcobs_answer answer = {JCOBS_TOO_SMALL, 0, 0};

    if (buffer_size == 0)
        return answer;
    answer = plain_encoder_push(encoder, buffer, buffer_size, NULL, 0);
    if (answer.status == JCOBS_OK) {
        if (!encoder->full)
            ((unsigned char *)buffer)[encoder->index] = (unsigned char)(encoder->taken + 1);
        encoder->index = 0;
        encoder->taken = 0;
        encoder->full = 0;
    }
    return answer;
}

jcobs_answer plain_encode_terminated(const void *message, size_t message_len, void *frame, size_t frame_size)
{
    jcobs_encoder encoder = JCOBS_ENCODER_INIT;
    jcobs_answer answer = {JCOBS_TOO_SMALL, 0, 0};

    if (frame_size == 0)
        return answer;
    answer = plain_encoder_push(&encoder, frame, frame_size - 1, message, message_len);
    if (answer.status == JCOBS_OK) {
        plain_encoder_finish(&encoder, frame, frame_size - 1);
        ((unsigned char *)frame)[answer.length++] = 0;
    }
    return answer;
}

jcobs_answer plain_encoder_finish_terminated(jcobs_encoder *encoder, void *buffer, size_t buffer_size)
{
    jcobs_answer answer = {JCOBS_TOO_SMALL, 0, 0};

    if (buffer_size == 0)
        return answer;
    answer = plain_encoder_finish(encoder, buffer, buffer_size - 1);
    if (answer.status == JCOBS_OK)
        ((unsigned char *)buffer)[answer.length++] = 0;
    return answer;
}

/* The end of the source ends its last piece, as a zero does. */
jcobs_answer plain_decode_frame(const void *source, size_t source_len, void *message, size_t message_size)
{
    jcobs_decoder decoder = JCOBS_DECODER_INIT;
    jcobs_answer answer = plain_decoder_push(&decoder, message, message_size, source, source_len);

    if (answer.status == JCOBS_MORE) {
        answer = plain_decoder_push(&decoder, message, message_size, "", 1);
        answer.consumed = source_len;
        if (answer.status == JCOBS_MORE)
            answer.status = JCOBS_EMPTY;
    }
    return answer;
}

static size_t length_to_zero(const unsigned char *bytes, size_t len)
{
    size_t i;

    for (i = 0; i < len && bytes[i] != 0; i++)
        ;
    return i;
}

/* A broken block isn't moved. */
jcobs_answer plain_decode_in_place(void *buffer, size_t buffer_len)
{
    unsigned char *at = buffer;
    jcobs_answer answer = {JCOBS_EMPTY, 0, 0};
    size_t end;
    size_t read = 0;
    size_t i;

    if (buffer_len == 0)
        return answer;
    end = length_to_zero(at, buffer_len);
    answer.status = JCOBS_OK;
    answer.consumed = end < buffer_len ? end + 1 : end;
    while (read < end) {
        size_t code = at[read++];

        if (code - 1 > end - read) {
            answer.status = JCOBS_BROKEN;
            break;
        }
        for (i = 1; i < code; i++)
            at[answer.length++] = at[read++];
        if (code != 255 && read < end)
            at[answer.length++] = 0;
    }
    return answer;
}

unsigned int plain_frame_kind(const void *bytes, size_t len)
{
    const unsigned char *from = bytes;
    size_t at = 0;
    size_t code = 0;
    size_t before = 0;

    if (len == 0 || length_to_zero(from, len) < len)
        return JCOBS_NOT_A_FRAME;
    while (at < len) {
        before = code;
        code = from[at];
        at += code;
    }
    if (at > len)
        return JCOBS_NOT_A_FRAME;
    return before == 255 && code == 1 ? JCOBS_LONGER : JCOBS_CANONICAL;
}
