/* The two usual calls of a COBS library: one that encodes and one that decodes. */
#ifndef PLAIN_H
#define PLAIN_H

#include <stddef.h>
#include <stdint.h>

/* What cobs_decode answers for bytes that are no frame. */
#define COBS_INVALID ((size_t)-1)

/* Writes the frame, at most length + length / 254 + 1 bytes, and returns its length. */
size_t cobs_encode(const uint8_t *message, size_t length, uint8_t *frame);

/* Writes the message, at most length bytes, and returns its length. */
size_t cobs_decode(const uint8_t *frame, size_t length, uint8_t *message);

#endif
