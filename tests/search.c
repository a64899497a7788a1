/* Counts how often the calls of libjcobs.a search with memchr and copy a slice, for each length of the message.
 *
 * tests/search.sh links this file with the shipped archive. The linker wraps memcpy and memmove, so that they count their calls. A
 * debugger counts the searches, because memchr is a local function of the archive: the debugger stops there and adds 1 to
 * `searches`. A copy that the compiler writes as instructions isn't counted, so only calls count as slices. */
#include <stdio.h>
#include <stdlib.h>
#include <string.h>

#include "jcobs.h"

enum { LONGEST = 70000, SHORT = 16 };

volatile unsigned searches;
static unsigned copies, moves;
static size_t copied;
static int failed;

void *__real_memcpy(void *dest, const void *source, size_t size);
void *__real_memmove(void *dest, const void *source, size_t size);

void *__wrap_memcpy(void *dest, const void *source, size_t size) {
    copies++;
    copied += size;
    return __real_memcpy(dest, source, size);
}

void *__wrap_memmove(void *dest, const void *source, size_t size) {
    moves++;
    copied += size;
    return __real_memmove(dest, source, size);
}

static unsigned char message[LONGEST], frame[LONGEST], room[LONGEST];

static void start(void) {
    searches = 0;
    copies = moves = 0;
    copied = 0;
}

/* Prints a row, and fails if there are fewer searches or slices than this. */
static void row(const char *call, const char *data, size_t size, unsigned least_searches, unsigned least_slices) {
    unsigned slices = copies + moves;
    int short_of = searches < least_searches || slices < least_slices;
    printf("%s  %-24s %-12s %6zu bytes: %4u searches, %4u slices of %6zu bytes\n", short_of ? "FAILED" : "ok", call,
           data, size, (unsigned)searches, slices, copied);
    failed |= short_of;
}

static void fail(const char *what, size_t size) {
    printf("FAILED: %s of %zu bytes returns something else\n", what, size);
    failed = 1;
}

/* Each way to decode a message of this size: a search and a slice in each call that gets more than 16 bytes, and a slice for
   each 254 bytes of the message. In place the bytes are moved by instructions that the compiler writes for `copy_within`, so only
   the search is counted. */
static void decode_all(const char *data, size_t size) {
    jcobs_answer encoded = jcobs_encode(message, size, frame, sizeof frame);
    size_t len = encoded.length;
    frame[len] = 0;
    unsigned least = len > SHORT ? 1 : 0, slices = least ? (unsigned)((size + 253) / 254) : 0;

    start();
    jcobs_answer whole = jcobs_decode(frame, len + 1, room, sizeof room);
    row("decode", data, size, least, slices);
    if (whole.status != JCOBS_OK || whole.length != size || memcmp(room, message, size) != 0) {
        fail("decode", size);
    }

    jcobs_decoder decoder = JCOBS_DECODER_INIT;
    start();
    jcobs_answer pushed = jcobs_decoder_push(&decoder, room, sizeof room, frame, len + 1);
    row("push, whole", data, size, least, slices);
    if (pushed.status != JCOBS_OK || pushed.length != size || memcmp(room, message, size) != 0) {
        fail("push", size);
    }

    jcobs_decoder_reset(&decoder);
    start();
    for (size_t at = 0; at < len + 1; at += 64) {
        size_t piece = len + 1 - at < 64 ? len + 1 - at : 64;
        pushed = jcobs_decoder_push(&decoder, room, sizeof room, frame + at, piece);
    }
    unsigned chunks = (unsigned)(len / 64 + (len % 64 + 1 > SHORT));
    row("push, 64 bytes a call", data, size, chunks, chunks);
    if (pushed.status != JCOBS_OK || pushed.length != size || memcmp(room, message, size) != 0) {
        fail("push of 64", size);
    }

    memcpy(room, frame, len + 1);
    start();
    jcobs_answer placed = jcobs_decode_in_place(room, len + 1);
    row("decode_in_place", data, size, least, 0);
    if (placed.status != JCOBS_OK || placed.length != size || memcmp(room, message, size) != 0) {
        fail("decode_in_place", size);
    }
}

/* Each way to encode the message: a search and a slice for each run of more than 32 bytes, and for each 254 bytes of it. (Up to 16
   bytes of a run after a short one, and up to 16 bytes at its end, are copied one by one.) */
static void encode_all(const char *data, size_t size) {
    unsigned least = 0;
    for (size_t start = 0; start < size;) {
        size_t end = start;
        while (end < size && message[end] != 0) {
            end++;
        }
        if (end - start > 2 * SHORT) {
            least += 1 + (unsigned)((end - start - 2 * SHORT - 1) / 254);
        }
        start = end + 1;
    }
    start();
    jcobs_answer encoded = jcobs_encode(message, size, frame, sizeof frame);
    row("encode", data, size, least, least);
    size_t len = encoded.length;
    jcobs_encoder encoder = JCOBS_ENCODER_INIT;
    start();
    jcobs_answer pushed = jcobs_encoder_push(&encoder, room, sizeof room, message, size);
    jcobs_answer finished = jcobs_encoder_finish(&encoder, room, sizeof room);
    row("encoder_push, whole", data, size, least, least);
    if (pushed.status != JCOBS_OK || finished.length != len || memcmp(room, frame, len) != 0) {
        fail("encoder_push", size);
    }
}

static void fill(const char *data, size_t size) {
    unsigned seed = 12345;
    for (size_t i = 0; i < size; i++) {
        seed = seed * 1103515245u + 12345u;
        unsigned char byte = (unsigned char)(seed >> 16);
        if (strcmp(data, "ones") == 0) {
            byte = 1;
        } else if (strcmp(data, "a zero in 8") == 0) {
            byte = i % 8 == 7 ? 0 : (unsigned char)(byte | 1);
        } else if (strncmp(data, "runs of ", 8) == 0) {
            size_t run = (size_t)atoi(data + 8);
            byte = i % (run + 1) == run ? 0 : 1;
        } else if (strcmp(data, "packets") == 0) { /* 20 bytes, every other one a zero, and then 200 without one */
            byte = i % 220 < 20 && i % 2 != 0 ? 0 : (unsigned char)(byte | 1);
        } else if (strcmp(data, "1000, 0, 1000") == 0) {
            byte = i == 1000 ? 0 : 1;
        }
        message[i] = byte;
    }
}

int main(void) {
    static const size_t sizes[] = {16, 17, 20, 66, 80, 254, 300, 600, 1000, 2001, 7900, 10000, 65536};
    static const char *const kinds[] = {"ones", "random", "a zero in 8", "runs of 33", "runs of 40", "runs of 300", "packets"};
    for (size_t k = 0; k < sizeof kinds / sizeof *kinds; k++) {
        for (size_t i = 0; i < sizeof sizes / sizeof *sizes; i++) {
            fill(kinds[k], sizes[i]);
            decode_all(kinds[k], sizes[i]);
            encode_all(kinds[k], sizes[i]);
        }
    }
    fill("1000, 0, 1000", 2001);
    encode_all("1000, 0, 1000", 2001);
    decode_all("1000, 0, 1000", 2001);
    return failed;
}
