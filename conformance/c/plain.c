/* A plain COBS library in C: two pointers, one loop. Written for adapter.c. */
#include "plain.h"

size_t cobs_encode(const uint8_t *message, size_t length, uint8_t *frame)
{
    const uint8_t *end = message + length;
    uint8_t *code_at = frame;
    uint8_t *out = frame + 1;
    uint8_t code = 1;

    while (message < end) {
        uint8_t byte = *message++;
        if (byte != 0) {
            *out++ = byte;
            code++;
        }
        if (byte == 0 || (code == 255 && message < end)) {
            *code_at = code;
            code_at = out++;
            code = 1;
        }
    }
    *code_at = code;
    return (size_t)(out - frame);
}

size_t cobs_decode(const uint8_t *frame, size_t length, uint8_t *message)
{
    const uint8_t *end = frame + length;
    uint8_t *out = message;

    while (frame < end) {
        uint8_t code = *frame++;
        if (code == 0 || end - frame < code - 1)
            return COBS_INVALID;
        for (uint8_t left = code - 1; left > 0; left--) {
            if (*frame == 0)
                return COBS_INVALID;
            *out++ = *frame++;
        }
        if (code != 255 && frame < end)
            *out++ = 0;
    }
    return (size_t)(out - message);
}
