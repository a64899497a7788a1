/* jcobs.c: the calls of jcobs.h in one file of C, for any processor. Written by translate.py: don't edit.
 *
 * SPDX-License-Identifier: MIT OR Apache-2.0
 *
 * Compile this file with your program, as C99 or later or as C++, with jcobs.h in the same folder or in the include
 * path. The C compiler must be able to return structs. The file has no static variables, except a constant table with
 * the texts of jcobs_strerror, and allocates no memory.
 *
 * JCOBS_FAST is the one choice. With -DJCOBS_FAST, more bytes than JCOBS_SHORT are searched by memchr, and copied by memcpy
 * and memmove. That is many times as fast if zeros are rare, and takes more flash. Without JCOBS_FAST all bytes are
 * encoded and decoded one by one, and the file calls no function of a C library. (A compiler may turn some lines of the
 * file into calls of memset, memcpy or memmove.) The results are the same. The build files for hosts define JCOBS_FAST;
 * those for devices don't.
 *
 * What is proved: each function of crates/cobs_c meets its contract, accesses only the buffers that are passed to
 * it, and returns. The proofs are for lengths of 64 bits and for any contents of the buffers and states. The comment
 * above a call summarizes its contract, and names the file of crates/cobs_c/src that has the contract. The words of
 * the contracts are defined in crates/cobs_c/specs and crates/cobs/specs. The proofs hold for any value of JCOBS_SHORT.
 *
 * What is tested, not proved: this file does what the functions in Rattle do. translate.py translated each function from
 * Rattle, and your compiler compiles it. Lengths have the width of your size_t. bindings/c/tests/translated.py, which
 * shares no code with translate.py, runs the functions in Rattle, and compares the results with those of this file.
 * bindings/c/tests/run.sh and tests/device.sh run this file on processors of both byte orders, whose size_t has 16, 32 or
 * 64 bits. They run the cases of conformance/, unless size_t has 16 bits. They also make random calls with states of
 * random bytes, and compare the results with those of plain C. The functions from jcobs_strerror to the end of this file
 * are written by hand, and tested in the same way.
 */
#include "jcobs.h"

#include <limits.h>
#ifdef JCOBS_FAST
#include <string.h>
#endif

/* These two types don't compile on a processor that this file doesn't support. The first doesn't compile if bytes have
 * more than 8 bits, and the second doesn't compile if size_t is shorter than unsigned int. */
typedef char jcobs_bytes_have_8_bits[CHAR_BIT == 8 ? 1 : -1];
typedef char jcobs_size_t_is_no_shorter_than_int[sizeof(size_t) >= sizeof(unsigned int) ? 1 : -1];

/* Which functions are inlined:
 *
 * - JCOBS_INLINE: always inlined, because a loop over bytes calls the function, or because it only makes a struct.
 * - JCOBS_APART: not inlined, so that the loop of the function can use all registers of a small processor. On x86-64 the
 *   function may be inlined: this processor has more registers, and a call takes as much time as several bytes.
 * - JCOBS_ONCE: inlined with JCOBS_FAST. Without it, one copy of the function serves all calls. */
#ifdef __GNUC__
#define JCOBS_INLINE __inline__ __attribute__((always_inline))
#ifdef __x86_64__
#define JCOBS_APART __inline__
#else
#define JCOBS_APART __attribute__((noinline))
#endif
#else
#define JCOBS_INLINE inline
#define JCOBS_APART
#endif
#ifdef JCOBS_FAST
#define JCOBS_ONCE JCOBS_INLINE
#else
#define JCOBS_ONCE
#endif

/* A frame is a sequence of blocks. A block is a code, from 1 to 255, followed by code - 1 bytes, none of which is 0. A
 * block with the code 255 is full. The message consists of the bytes after the code of each block, and of a zero after
 * each block that is neither full nor the last. The last block is open as long as more bytes may follow. */
enum {
    JCOBS_FULL_BLOCK_BYTES = 254, /* the number of bytes that a full block has after its code */
    JCOBS_FULL_CODE = 255,        /* the code of a full block */
    JCOBS_SHORT = 16              /* up to this many bytes are searched, encoded and decoded one by one */
};

/* jcobs.h declares the states. Their members have these meanings:
 *
 * - In a decoder, the first `written` bytes of the buffer are the open message so far, and the open block still needs
 *   `missing` bytes. `joint` is 1 after the code of a block that isn't full: if another block follows, the message has a
 *   zero between these two blocks. `joint` is 0 at the start, and after the code of a full block. too_long is 1 if there
 *   was no room for a byte of the message: then the rest of the piece is skipped.
 * - In an encoder, the code of the open block will be written at `index` in the buffer, and the `taken` bytes of this
 *   block follow the code. `full` is 1 if the last byte made a block full: the frame ends with this block, unless
 *   another byte follows.
 *
 * A member may also have any other value. In `joint`, too_long and `full`, each value except 0 means the same as 1. */

/* The functions jcobs_make_.. return a struct with the given members. They are used because C++ has no compound
 * literals. */

/* How a piece of a stream ended. A piece is the bytes between two zeros: a frame, or a broken frame. */
enum jcobs_end_kind {
    JCOBS_END_MESSAGE,  /* the piece is the frame of a message; `count` is the message's length */
    JCOBS_END_BROKEN,   /* the piece breaks off inside a block; `count` is the length of its output */
    JCOBS_END_TOO_LONG, /* the output of the piece is longer than the buffer */
    JCOBS_END_NONE      /* the piece hasn't ended, or there is no piece: `count` has no meaning */
};

typedef struct jcobs_end {
    enum jcobs_end_kind kind;
    size_t count;    /* the length of a message, or of the output of a broken piece */
    size_t consumed; /* how many bytes were consumed, if the function says so */
} jcobs_end;

static JCOBS_INLINE jcobs_end jcobs_make_end(enum jcobs_end_kind kind, size_t count, size_t consumed)
{
    jcobs_end end;

    end.kind = kind;
    end.count = count;
    end.consumed = consumed;
    return end;
}

/* Whether an encoder's frame fits the buffer, and the frame's length if it fits. */
typedef struct jcobs_frame_length {
    int fits;
    size_t length;
} jcobs_frame_length;

static JCOBS_INLINE jcobs_frame_length jcobs_make_frame_length(int fits, size_t length)
{
    jcobs_frame_length result;

    result.fits = fits;
    result.length = length;
    return result;
}

static JCOBS_INLINE jcobs_answer jcobs_make_answer(JCOBS_STATUS status, size_t consumed, size_t length)
{
    jcobs_answer answer;

    answer.status = status;
    answer.consumed = consumed;
    answer.length = length;
    return answer;
}

typedef struct jcobs_last_block {
    unsigned char code;
    unsigned char missing;
} jcobs_last_block;

#ifdef JCOBS_FAST
static JCOBS_INLINE jcobs_last_block jcobs_make_last_block(unsigned char code, unsigned char missing)
{
    jcobs_last_block last_block;

    last_block.code = code;
    last_block.missing = missing;
    return last_block;
}
#endif

typedef struct jcobs_kept {
    size_t len;
    int is_whole;
} jcobs_kept;

static JCOBS_INLINE jcobs_kept jcobs_make_kept(size_t len, int is_whole)
{
    jcobs_kept kept;

    kept.len = len;
    kept.is_whole = is_whole;
    return kept;
}

/* Sets the encoder to JCOBS_ENCODER_INIT. */
static JCOBS_INLINE void jcobs_encoder_init(jcobs_encoder *encoder)
{
    encoder->index = 0;
    encoder->taken = 0;
    encoder->full = 0;
}

/* Sets the decoder to JCOBS_DECODER_INIT. */
static JCOBS_INLINE void jcobs_decoder_init(jcobs_decoder *decoder)
{
    decoder->written = 0;
    decoder->missing = 0;
    decoder->joint = 0;
    decoder->too_long = 0;
}

static JCOBS_INLINE size_t jcobs_min(size_t a, size_t b)
{
    return a < b ? a : b;
}

#ifdef JCOBS_FAST
static JCOBS_INLINE size_t jcobs_max(size_t a, size_t b)
{
    return a > b ? a : b;
}
#endif

#ifdef JCOBS_FAST
/* Returns a - b, or 0 if b is greater than a. */
static JCOBS_INLINE size_t jcobs_saturating_sub(size_t a, size_t b)
{
    return a > b ? a - b : 0;
}
#endif

/* Returns the sum of a and b, or 0 if the sum doesn't fit a size_t. */
static size_t jcobs_sum_or_zero(size_t a, size_t b)
{
    return b > (size_t)-1 - a ? 0 : a + b;
}

/* ---- Encoding a whole message ---- */

/* Returns the greatest overhead, in bytes, that an encoded frame can have if its message has message_len bytes.
 * The overhead of a frame is its length minus the length of its message. */
static JCOBS_APART size_t jcobs_max_overhead(size_t message_len)
{
    if (message_len == 0) {
        return 1;
    }
    return message_len / JCOBS_FULL_BLOCK_BYTES + (message_len % JCOBS_FULL_BLOCK_BYTES != 0 ? 1 : 0);
}

/* Returns the length of the longest encoded frame of a message of message_len bytes, or 0 if this length doesn't
 * fit the type of the result.
 * Proved, by the contract in encode.rt: the result is this length if it is below 2 to the 64th, and 0 otherwise. */
size_t jcobs_max_length(size_t message_len)
{
    return jcobs_sum_or_zero(message_len, jcobs_max_overhead(message_len));
}

/* Returns whether fewer than `spare` blocks become full if `bytes` are appended to an open block of `taken` bytes.
 * A block that becomes full with the last byte isn't counted: no other block follows it, so the frame needs no
 * further code. `spare` is the number of bytes that the buffer has for codes, including the code of the open
 * block. */
static int jcobs_fits(unsigned char taken, const unsigned char *bytes, size_t len, size_t spare)
{
    size_t left = spare;
    size_t code = (size_t)taken + 1;

    for (size_t i = 0; i < len; i++) {
        unsigned char byte = bytes[i];
        if (code == JCOBS_FULL_CODE) {
            left--;
            if (left == 0) {
                return 0;
            }
            code = 1;
        }
        code = byte == 0 ? 1 : code + 1;
    }
    return 1;
}

/* Returns whether the encoder's state is possible in a buffer of buffer_size bytes, and the frame fits this buffer
 * after `bytes` are appended to the message. The function reads `bytes` only if their number doesn't decide this. */
static JCOBS_INLINE int jcobs_encoder_has_room(const jcobs_encoder *encoder, const unsigned char *bytes, size_t len,
                                               size_t buffer_size)
{
    size_t taken = encoder->taken;

    /* An open block has at most 253 bytes; `taken` is greater only if the caller has changed the encoder's
     * numbers. */
    if (taken >= JCOBS_FULL_BLOCK_BYTES || buffer_size < encoder->index) {
        return 0;
    }

    size_t room = buffer_size - encoder->index;

    if (len == 0) {
        return encoder->full != 0 || taken < room;
    }

    size_t next = taken + len;

    if (room <= next) {
        return 0;
    }

    /* `spare` bytes are left for codes. They are enough if the open block has at most 254 times as many bytes,
     * which is tested without a product that could overflow, and without a division that is slow on small
     * processors. */
    size_t spare = room - next;

    return next <= JCOBS_FULL_BLOCK_BYTES || (next - next / 2 + spare - 1) / 128 < spare || jcobs_fits(encoder->taken,
                                              bytes, len, spare);
}

/* Returns the index of the first byte of the source that equals `byte`, or the source's length if no byte does. */
static JCOBS_ONCE size_t jcobs_find(const unsigned char *source, size_t source_len, unsigned char byte)
{
#ifdef JCOBS_FAST
    if (source_len > JCOBS_SHORT) {
        const unsigned char *found = (const unsigned char *)memchr(source, byte, source_len);
        return found != NULL ? (size_t)(found - source) : source_len;
    }
#endif
    for (size_t i = 0; i < source_len; i++) {
        if (source[i] == byte) {
            return i;
        }
    }
    return source_len;
}

#ifdef JCOBS_FAST
/* Encodes `bytes`, as jcobs_encoder_append_steps does, in stretches. The caller ensures that there is room for
 * them. */
static JCOBS_INLINE void jcobs_encoder_append_stretches(jcobs_encoder *encoder, unsigned char *dest,
                                                        const unsigned char *bytes, size_t len)
{
    size_t index = encoder->index;
    size_t next = index + encoder->taken + 1;
    unsigned char full = encoder->full;
    size_t read = 0;
    /* The length of the last run. After a long run, the end of the next one is searched for, too. */
    size_t run = JCOBS_SHORT;

    while (read < len) {
        /* The open block has room for the bytes before index `end`. */
        size_t end = read + jcobs_min(len - read, JCOBS_FULL_CODE - (next - index));
        size_t copied = 0;
        if (end - read > JCOBS_SHORT) {
            if (run < JCOBS_SHORT) {
                end = read + (JCOBS_SHORT - run);
            } else {
                copied = jcobs_find(bytes + read, end - read, 0);
                memcpy(dest + next, bytes + read, copied);
                next += copied;
                read += copied;
                end = jcobs_min(end, read + 1);
            }
        }
        for (size_t i = read; i < end; i++) {
            unsigned char byte = bytes[i];
            dest[next] = byte;
            dest[index] = (unsigned char)(next - index);
            index = byte == 0 ? next : index;
            next++;
        }
        read = end;
        run = jcobs_max(copied, next - index - 1);
        full = 0;
        if (next - index == JCOBS_FULL_CODE) {
            dest[index] = JCOBS_FULL_CODE;
            index = next;
            next++;
            full = 1;
        }
    }
    encoder->index = index;
    encoder->taken = (unsigned char)(next - index - 1);
    encoder->full = full;
}
#endif

/* Encodes the next byte of the message. The caller ensures that there is room for the byte. */
static JCOBS_INLINE void jcobs_encoder_append_byte(jcobs_encoder *encoder, unsigned char *dest, unsigned char byte)
{
    /* `code` is the code of the open block before this byte. If the byte joins this block, the block then has
     * `code` bytes after its code, so `taken` becomes `code`. If the byte ends the block, `taken` becomes 0. */
    size_t index = encoder->index;
    size_t code = (size_t)encoder->taken + 1;
    size_t next = index + code;

    encoder->full = 0;
    if (byte == 0) {
        dest[index] = (unsigned char)code;
        encoder->index = next;
        code = 0;
    } else {
        dest[next] = byte;
        if (code == JCOBS_FULL_BLOCK_BYTES) {
            dest[index] = JCOBS_FULL_CODE;
            encoder->index = next + 1;
            encoder->full = 1;
            code = 0;
        }
    }
    encoder->taken = (unsigned char)code;
}

#ifndef JCOBS_FAST
/* Encodes `bytes` one by one. The caller ensures that there is room for them. */
static JCOBS_INLINE void jcobs_encoder_append_steps(jcobs_encoder *encoder, unsigned char *dest,
                                                    const unsigned char *bytes, size_t len)
{
    /* The copy stays in registers while bytes are written to the buffer. */
    jcobs_encoder state = *encoder;

    for (size_t i = 0; i < len; i++) {
        unsigned char byte = bytes[i];
        jcobs_encoder_append_byte(&state, dest, byte);
    }
    *encoder = state;
}
#endif

/* Encodes `bytes` as the next bytes of the message. The caller ensures that there is room for them. The code of
 * the open block isn't written yet: jcobs_encoder_close_block writes it at the end of the message. */
static JCOBS_INLINE void jcobs_encoder_append(jcobs_encoder *encoder, unsigned char *dest, const unsigned char *bytes,
                                              size_t len)
{
    /* Where no run is searched, stretches would be the same steps in more code. */
#ifdef JCOBS_FAST
    jcobs_encoder_append_stretches(encoder, dest, bytes, len);
#else
    jcobs_encoder_append_steps(encoder, dest, bytes, len);
#endif
}

/* Writes the code of the open block, unless the frame ends with a full block, and returns the frame's length.
 * Before the call, the byte at the code's index may have any value. */
static JCOBS_INLINE size_t jcobs_encoder_close_block(const jcobs_encoder *encoder, unsigned char *dest)
{
    if (encoder->full != 0) {
        return encoder->index;
    }

    unsigned char code = (unsigned char)(encoder->taken + 1);

    dest[encoder->index] = code;
    return encoder->index + code;
}

/* Writes the encoded frame of `source` to the front of `dest`, and returns the frame's length in bytes. */
static JCOBS_ONCE size_t jcobs_write_frame(const unsigned char *source, size_t source_len, unsigned char *dest)
{
    jcobs_encoder encoder = JCOBS_ENCODER_INIT;

    jcobs_encoder_append(&encoder, dest, source, source_len);
    return jcobs_encoder_close_block(&encoder, dest);
}

/* Writes the encoded frame of `source` to the front of `dest`, as jcobs_write_frame does, if the frame fits
 * `dest`. Returns the frame's length in bytes. */
static JCOBS_ONCE size_t jcobs_try_write_frame(const unsigned char *source, size_t source_len, unsigned char *dest,
                                               size_t dest_size)
{
    jcobs_encoder encoder = JCOBS_ENCODER_INIT;

    if (!jcobs_encoder_has_room(&encoder, source, source_len, dest_size)) {
        return 0;
    }
    return jcobs_write_frame(source, source_len, dest);
}

/* Returns the result of a successful call: the call consumed `consumed` bytes, and `length` bytes of output are at
 * the front of the buffer. */
static JCOBS_INLINE jcobs_answer jcobs_ok_answer(size_t consumed, size_t length)
{
    return jcobs_make_answer(JCOBS_OK, consumed, length);
}

/* Returns the result of a call that consumed and wrote nothing, because the buffer is too short. */
static JCOBS_INLINE jcobs_answer jcobs_too_small_answer(void)
{
    return jcobs_make_answer(JCOBS_TOO_SMALL, 0, 0);
}

/* Encodes the message, and writes its frame to the front of the buffer `frame`, if it fits. Otherwise nothing is
 * written.
 * Proved, by the contract in encode.rt: if the frame of the message fits, the buffer begins with it, and the bytes
 * after it are as they were. Otherwise the status is TOO_SMALL, and the buffer is as it was. */
jcobs_answer jcobs_encode(const void *message, size_t message_len, void *frame, size_t frame_size)
{
    size_t length = jcobs_try_write_frame((const unsigned char *)message, message_len, (unsigned char *)frame,
                                          frame_size);

    if (length != 0) {
        return jcobs_ok_answer(message_len, length);
    }
    return jcobs_too_small_answer();
}

/* Writes the frame of the message, followed by a zero, to the front of the buffer `frame`, if the frame and the
 * zero fit. Otherwise nothing is written.
 * Proved, by the contract in encode.rt: if the frame of the message and the zero fit, the buffer begins with them,
 * and the bytes after them are as they were. Otherwise the status is TOO_SMALL, and the buffer is as it was. */
jcobs_answer jcobs_encode_terminated(const void *message, size_t message_len, void *frame, size_t frame_size)
{
    unsigned char *const frame_bytes = (unsigned char *)frame;

    if (frame_size == 0) {
        return jcobs_too_small_answer();
    }

    /* The zero needs one byte. */
    size_t last = frame_size - 1;
    size_t length = jcobs_try_write_frame((const unsigned char *)message, message_len, frame_bytes, last);

    if (length != 0) {
        frame_bytes[length] = 0;
        return jcobs_ok_answer(message_len, length + 1);
    }
    return jcobs_too_small_answer();
}

/* XORs each byte with `sentinel`. So a frame with the sentinel 0 becomes a frame with this sentinel, and the other
 * way round. */
static void jcobs_xor_bytes(unsigned char *bytes, size_t len, unsigned char sentinel)
{
    for (size_t i = 0; i < len; i++) {
        bytes[i] = (unsigned char)(bytes[i] ^ sentinel);
    }
}

/* Writes the encoded frame of `source` to the front of `dest`, as jcobs_encode_with_sentinel does, if the frame
 * fits `dest`. Returns the frame's length in bytes. */
static size_t jcobs_try_write_frame_for(const unsigned char *source, size_t source_len, unsigned char *dest,
                                        size_t dest_size, unsigned char sentinel)
{
    size_t length = jcobs_try_write_frame(source, source_len, dest, dest_size);

    if (length == 0) {
        return length;
    }
    jcobs_xor_bytes(dest, length, sentinel);
    return length;
}

/* Encodes the message with this sentinel, and writes the frame to the front of the buffer `frame`, if it fits.
 * Otherwise nothing is written.
 * Proved, by the contract in encode.rt: if the frame of the message fits, the buffer begins with it, each byte
 * XORed with the sentinel, and the bytes after it are as they were. Otherwise the status is TOO_SMALL, and the
 * buffer is as it was. */
jcobs_answer jcobs_encode_with_sentinel(const void *message, size_t message_len, void *frame, size_t frame_size,
                                        unsigned char sentinel)
{
    size_t length = jcobs_try_write_frame_for((const unsigned char *)message, message_len, (unsigned char *)frame,
                                              frame_size, sentinel);

    if (length != 0) {
        return jcobs_ok_answer(message_len, length);
    }
    return jcobs_too_small_answer();
}

/* Encodes the message with this sentinel, and writes the frame, followed by the sentinel, to the front of the
 * buffer `frame`, if the frame and the sentinel fit. Otherwise nothing is written.
 * Proved, by the contract in encode.rt: if the frame of the message and the sentinel fit, the buffer begins with
 * them, and the bytes after them are as they were. Otherwise the status is TOO_SMALL, and the buffer is as it was. */
jcobs_answer jcobs_encode_terminated_with_sentinel(const void *message, size_t message_len, void *frame,
                                                   size_t frame_size, unsigned char sentinel)
{
    unsigned char *const frame_bytes = (unsigned char *)frame;

    if (frame_size == 0) {
        return jcobs_too_small_answer();
    }

    /* The sentinel needs one byte. */
    size_t last = frame_size - 1;
    size_t length = jcobs_try_write_frame_for((const unsigned char *)message, message_len, frame_bytes, last, sentinel);

    if (length != 0) {
        frame_bytes[length] = sentinel;
        return jcobs_ok_answer(message_len, length + 1);
    }
    return jcobs_too_small_answer();
}

/* Encodes a message in the buffer that holds it, and returns the length of the frame in bytes. */
static size_t jcobs_write_in_place(unsigned char *buffer, size_t start, size_t message_len)
{
    jcobs_encoder encoder = JCOBS_ENCODER_INIT;

    /* The frame of the bytes read so far never extends past the last byte that was read. So the frame never
     * overwrites a byte that hasn't been read yet. */
    for (size_t taken = 0; taken < message_len; taken++) {
        unsigned char byte = buffer[start + taken];
        jcobs_encoder_append_byte(&encoder, buffer, byte);
    }
    return jcobs_encoder_close_block(&encoder, buffer);
}

/* Encodes a message in place. The message has message_len bytes and begins at index `start` of the buffer. The
 * frame is written to the front of the buffer. If `start` is below JCOBS_MAX_OVERHEAD(message_len), or if the
 * message isn't within the buffer, nothing is written.
 * Proved, by the contract in encode.rt: if the longest frame fits, the buffer begins with the frame of the
 * message, and the bytes after this frame are as they were. Otherwise the status is TOO_SMALL, and the buffer is
 * as it was. */
jcobs_answer jcobs_encode_in_place(void *buffer, size_t buffer_size, size_t start, size_t message_len)
{
    size_t overhead = jcobs_max_overhead(message_len);

    if (start < overhead || buffer_size < start || buffer_size - start < message_len) {
        return jcobs_too_small_answer();
    }

    size_t length = jcobs_write_in_place((unsigned char *)buffer, start, message_len);

    return jcobs_ok_answer(message_len, length);
}

/* ---- Decoding a whole frame ---- */

/* Returns the number of sentinels at the front of `bytes` if no piece has begun, because these sentinels then end
 * no piece. If a piece has begun, the function returns 0. Some serial lines carry many sentinels while no frame is
 * sent. */
static JCOBS_INLINE size_t jcobs_decoder_zeros_outside(const jcobs_decoder *decoder, const unsigned char *bytes,
                                                       size_t len, unsigned char sentinel)
{
    if (!(decoder->written == 0 && decoder->missing == 0 && decoder->joint == 0 && decoder->too_long == 0)) {
        return 0;
    }
    for (size_t i = 0; i < len; i++) {
        if (bytes[i] != sentinel) {
            return i;
        }
    }
    return len;
}

/* Returns the value that `joint` has while a block with this code is open: 0 for a full block, otherwise 1. */
static JCOBS_INLINE unsigned char jcobs_joint_after(unsigned char code)
{
    return code == JCOBS_FULL_CODE ? 0 : 1;
}

#ifdef JCOBS_FAST
/* Decodes the code of a new block, before which the output has no zero. */
static JCOBS_INLINE void jcobs_decoder_take_code(jcobs_decoder *decoder, unsigned char code)
{
    decoder->joint = jcobs_joint_after(code);
    decoder->missing = (unsigned char)(code - 1);
}

/* Returns how many of the next `len` bytes a span may contain. A span ends no later than the first full block that
 * ends in it. */
static JCOBS_INLINE size_t jcobs_decoder_span_len(const jcobs_decoder *decoder, size_t len)
{
    size_t most = decoder->joint == 0 ? (size_t)decoder->missing : JCOBS_FULL_BLOCK_BYTES - 1;

    return jcobs_min(len, most);
}

/* Copies all bytes of `source` to `dest`, each XORed with `sentinel`. */
static JCOBS_INLINE void jcobs_xor_slice(unsigned char *dest, const unsigned char *source, size_t source_len,
                                         unsigned char sentinel)
{
    for (size_t i = 0; i < source_len; i++) {
        dest[i] = (unsigned char)(source[i] ^ sentinel);
    }
}

/* Copies all bytes of the source to the front of `dest`, each XORed with `sentinel`. */
static JCOBS_INLINE void jcobs_copy_xored(const unsigned char *source, size_t source_len, unsigned char *dest,
                                          unsigned char sentinel)
{
    if (sentinel == 0) {
        memcpy(dest, source, source_len);
    } else {
        jcobs_xor_slice(dest, source, source_len, sentinel);
    }
}

/* Writes a zero over each code in `dest`. `dest` contains the bytes of a piece that follow the code `first`. If no
 * code in `dest` follows a full block, `dest` then contains the output of these bytes. (The output has no zero
 * after a full block.) Returns the code of the last block, and how many bytes of this block are missing. */
static JCOBS_INLINE jcobs_last_block jcobs_write_zeros_at_codes(unsigned char *dest, size_t dest_size, size_t first)
{
    size_t code = first;
    /* The index of the next code. */
    size_t at = first - 1;

    while (at < dest_size) {
        code = (size_t)dest[at];
        dest[at] = 0;
        at += code;
    }
    return jcobs_make_last_block((unsigned char)code, (unsigned char)(at - dest_size));
}

/* Decodes `len` bytes that the caller has moved to the end of the output, that is, to index `written` of `dest`.
 * The caller ensures that none of them is a zero, and that no full block ends before the last of them. */
static JCOBS_INLINE void jcobs_decoder_take_moved(jcobs_decoder *decoder, unsigned char *dest, size_t len)
{
    size_t at = decoder->written;
    size_t missing = decoder->missing;

    decoder->written = at + len;
    if (len <= missing) {
        decoder->missing = (unsigned char)(decoder->missing - (unsigned char)len);
        return;
    }

    /* `missing` bytes of the open block are missing, as in a block that has just begun with the code missing +
     * 1. So missing + 1 is passed as the code. */
    jcobs_last_block last_block = jcobs_write_zeros_at_codes(dest + at, len, missing + 1);

    decoder->joint = jcobs_joint_after(last_block.code);
    decoder->missing = last_block.missing;
}

/* Decodes bytes from the front of `bytes`, either one code or a span, and returns how many bytes it decoded. The
 * function returns 0 only if `dest` has no room for the output of the first byte. */
static JCOBS_INLINE size_t jcobs_decoder_take_part(jcobs_decoder *decoder, unsigned char *dest, size_t dest_size,
                                                   const unsigned char *bytes, size_t len, unsigned char sentinel)
{
    if (decoder->missing == 0 && decoder->joint == 0) {
        jcobs_decoder_take_code(decoder, (unsigned char)(bytes[0] ^ sentinel));
        return 1;
    }

    size_t at = decoder->written;
    size_t taken = jcobs_decoder_span_len(decoder, jcobs_min(len, jcobs_saturating_sub(dest_size, at)));

    if (taken == 0) {
        return 0;
    }
    jcobs_copy_xored(bytes, taken, dest + at, sentinel);
    jcobs_decoder_take_moved(decoder, dest, taken);
    return taken;
}
#endif

/* Decodes a nonzero byte of a piece into the buffer. Returns false and changes nothing if the buffer has no room
 * for the output of this byte. */
static JCOBS_INLINE int jcobs_decoder_take_byte(jcobs_decoder *decoder, unsigned char *dest, size_t dest_size,
                                                unsigned char byte)
{
    size_t at = decoder->written;

    if (decoder->missing != 0) {
        if (dest_size <= at) {
            return 0;
        }
        dest[at] = byte;
        decoder->written = at + 1;
        decoder->missing--;
        return 1;
    }
    if (decoder->joint != 0) {
        if (dest_size <= at) {
            return 0;
        }
        dest[at] = 0;
        decoder->written = at + 1;
    }
    decoder->missing = (unsigned char)(byte - 1);
    decoder->joint = jcobs_joint_after(byte);
    return 1;
}

/* Decodes `bytes` one by one, up to the first sentinel, as long as `dest` has room for the output. Returns how
 * many bytes it decoded. */
static JCOBS_ONCE size_t jcobs_decoder_take_steps(jcobs_decoder *decoder, unsigned char *dest, size_t dest_size,
                                                  const unsigned char *bytes, size_t len, unsigned char sentinel)
{
    /* The loop changes `state`, a copy of the decoder that stays in registers. If the loop changed the decoder
     * itself, compilers would read the fields again after each byte that is written. */
    jcobs_decoder state = *decoder;

    state.too_long = 0;

    size_t taken = 0;

    while (taken < len) {
        unsigned char byte = (unsigned char)(bytes[taken] ^ sentinel);
        if (byte == 0 || !jcobs_decoder_take_byte(&state, dest, dest_size, byte)) {
            break;
        }
        taken++;
    }
    decoder->written = state.written;
    decoder->missing = state.missing;
    decoder->joint = state.joint;
    return taken;
}

/* Decodes `bytes` as long as `dest` has room for the output, and returns how many bytes it decoded. The caller
 * ensures that none of the bytes is the sentinel. */
static JCOBS_INLINE size_t jcobs_decoder_take_blocks(jcobs_decoder *decoder, unsigned char *dest, size_t dest_size,
                                                     const unsigned char *bytes, size_t len, unsigned char sentinel)
{
#ifdef JCOBS_FAST
    if (len > JCOBS_SHORT) {
        /* The loop changes `state`, a copy of the decoder that stays in registers. too_long is 0 before and
         * after the loop, so this field isn't copied. */
        jcobs_decoder state = *decoder;
        state.too_long = 0;
        size_t taken = 0;
        while (taken < len) {
            size_t step = jcobs_decoder_take_part(&state, dest, dest_size, bytes + taken, len - taken, sentinel);
            taken += step;
            if (step == 0) {
                break;
            }
        }
        decoder->written = state.written;
        decoder->missing = state.missing;
        decoder->joint = state.joint;
        return taken;
    }
#endif
    return jcobs_decoder_take_steps(decoder, dest, dest_size, bytes, len, sentinel);
}

/* Decodes `bytes` up to the first sentinel, as long as `dest` has room for the output. Returns how many bytes it
 * decoded. If the piece is already too long for the buffer, the function decodes nothing. */
static JCOBS_INLINE size_t jcobs_decoder_take_run(jcobs_decoder *decoder, unsigned char *dest, size_t dest_size,
                                                  const unsigned char *bytes, size_t len, unsigned char sentinel)
{
    if (decoder->too_long != 0) {
        return 0;
    }
#ifdef JCOBS_FAST
    if (len > JCOBS_SHORT) {
        size_t end = jcobs_find(bytes, len, sentinel);
        return jcobs_decoder_take_blocks(decoder, dest, dest_size, bytes, end, sentinel);
    }
#endif
    return jcobs_decoder_take_steps(decoder, dest, dest_size, bytes, len, sentinel);
}

/* Ends the open piece, if there is one, at a zero, and returns how the piece ended. The buffer has buffer_size
 * bytes. */
static JCOBS_INLINE jcobs_end jcobs_decoder_end_piece(jcobs_decoder *decoder, size_t buffer_size)
{
    jcobs_decoder before = *decoder;

    jcobs_decoder_init(decoder);
    if (before.too_long != 0) {
        return jcobs_make_end(JCOBS_END_TOO_LONG, 0, 0);
    }
    if (before.missing != 0) {
        return jcobs_make_end(JCOBS_END_BROKEN, before.written, 0);
    }
    /* `written` counts only bytes that fitted the buffer. So it is greater than buffer_size only if the caller
     * now passes a shorter buffer, or has changed the decoder's numbers. */
    if (buffer_size < before.written) {
        return jcobs_make_end(JCOBS_END_TOO_LONG, 0, 0);
    }
    /* No byte of a block is missing here. If a piece has begun and its last block isn't full, `joint` isn't 0.
     * If a piece has begun and its last block is full, `written` isn't 0, because the bytes of that block were
     * written. So if `joint` and `written` are both 0, no piece has begun. */
    if (before.written == 0 && before.joint == 0) {
        return jcobs_make_end(JCOBS_END_NONE, 0, 0);
    }
    return jcobs_make_end(JCOBS_END_MESSAGE, before.written, 0);
}

/* Decodes the next bytes of a stream whose frames were encoded with `sentinel`, with `dest` as the buffer, and
 * stops after the first sentinel that ends a piece. */
static JCOBS_ONCE jcobs_end jcobs_decoder_take_bytes(jcobs_decoder *decoder, unsigned char *dest, size_t dest_size,
                                                     const unsigned char *bytes, size_t len, unsigned char sentinel)
{
    size_t start = jcobs_decoder_zeros_outside(decoder, bytes, len, sentinel);
    size_t taken = start + jcobs_decoder_take_run(decoder, dest, dest_size, bytes + start, len - start, sentinel);

    if (taken == len) {
        return jcobs_make_end(JCOBS_END_NONE, 0, 0);
    }

    size_t next = taken + 1;

    if (bytes[taken] == sentinel) {
        jcobs_end end = jcobs_decoder_end_piece(decoder, dest_size);
        return jcobs_make_end(end.kind, end.count, next);
    }

    /* The buffer has no room for the output of this byte, so only the sentinel that ends the piece still
     * matters. */
    size_t end = next + jcobs_find(bytes + next, len - next, sentinel);

    if (end == len) {
        decoder->too_long = 1;
        return jcobs_make_end(JCOBS_END_NONE, 0, 0);
    }
    jcobs_decoder_init(decoder);
    return jcobs_make_end(JCOBS_END_TOO_LONG, 0, end + 1);
}

/* Decodes the first piece of the source into `dest`. Returns how the piece ended, and how many bytes of the source
 * were consumed: the leading zeros, the piece, and the zero after the piece if there is one. Returns
 * JCOBS_END_NONE if the source has no piece. */
static JCOBS_ONCE jcobs_end jcobs_decode_first(const unsigned char *source, size_t source_len, unsigned char *dest,
                                               size_t dest_size)
{
    jcobs_decoder decoder = JCOBS_DECODER_INIT;
    jcobs_end end = jcobs_decoder_take_bytes(&decoder, dest, dest_size, source, source_len, 0);

    if (end.kind != JCOBS_END_NONE) {
        return end;
    }

    /* No zero ends the piece, so the end of the source ends it. */
    jcobs_end end_of_frame = jcobs_decoder_end_piece(&decoder, dest_size);

    return jcobs_make_end(end_of_frame.kind, end_of_frame.count, source_len);
}

/* Returns the result of a call that consumed `consumed` bytes and decoded them into a buffer of `room` bytes.
 * `end` says how the piece or the frame ended; it is JCOBS_END_NONE if there was none. */
static JCOBS_INLINE jcobs_answer jcobs_end_answer(jcobs_end end, size_t consumed, size_t room)
{
    switch (end.kind) {
    case JCOBS_END_MESSAGE:
        return jcobs_ok_answer(consumed, end.count);
    case JCOBS_END_BROKEN:
        return jcobs_make_answer(JCOBS_BROKEN, consumed, end.count);
    case JCOBS_END_TOO_LONG:
        return jcobs_make_answer(JCOBS_TOO_SMALL, consumed, room);
    case JCOBS_END_NONE:
    default:
        break;
    }
    return jcobs_make_answer(JCOBS_EMPTY, consumed, 0);
}

/* Decodes the first frame of the source, and writes the message to the front of `message`.
 * Proved, by the contract in decode.rt: the result and the written bytes are those that the definition of COBS
 * gives for the source and message_size, and all other bytes of the buffer are as they were. A buffer as long as
 * the source is never too small. */
jcobs_answer jcobs_decode(const void *source, size_t source_len, void *message, size_t message_size)
{
    jcobs_end end = jcobs_decode_first((const unsigned char *)source, source_len, (unsigned char *)message,
                                       message_size);

    if (end.kind != JCOBS_END_NONE) {
        return jcobs_end_answer(end, end.consumed, message_size);
    }
    return jcobs_end_answer(jcobs_make_end(JCOBS_END_NONE, 0, 0), source_len, message_size);
}

/* Returns how many bytes of a piece have to be decoded, and whether the piece is whole. A whole piece is decoded
 * to its end. A broken piece is decoded up to and including the code of its last block, because the kept output
 * doesn't include the other bytes of that block. Each byte of the piece is XORed with the sentinel before it is
 * read. */
static jcobs_kept jcobs_kept_len(const unsigned char *bytes, size_t len, unsigned char sentinel)
{
    size_t at = 0;

    while (at < len) {
        size_t code = (unsigned char)(bytes[at] ^ sentinel);
        if (len - at < code) {
            return jcobs_make_kept(at + 1, 0);
        }
        at += code;
    }
    return jcobs_make_kept(at, 1);
}

/* Returns `len`, the message's length, if the frame is whole. Otherwise returns the error for a broken frame. */
static JCOBS_INLINE jcobs_end jcobs_message_len(size_t len, int whole)
{
    if (whole) {
        return jcobs_make_end(JCOBS_END_MESSAGE, len, 0);
    }
    return jcobs_make_end(JCOBS_END_BROKEN, len, 0);
}

/* Decodes a source that contains no sentinel, and returns the message's length in bytes. */
static jcobs_end jcobs_decode_blocks(const unsigned char *source, size_t source_len, unsigned char *dest,
                                     size_t dest_size, unsigned char sentinel)
{
    jcobs_kept kept = jcobs_kept_len(source, source_len, sentinel);
    jcobs_decoder decoder = JCOBS_DECODER_INIT;

    if (jcobs_decoder_take_blocks(&decoder, dest, dest_size, source, kept.len, sentinel) < kept.len) {
        return jcobs_make_end(JCOBS_END_TOO_LONG, 0, 0);
    }
    return jcobs_message_len(decoder.written, kept.is_whole);
}

/* Decodes the frame at the front of the source, and returns the message's length in bytes. The frame was encoded
 * with `sentinel`, which may be any byte. */
static jcobs_end jcobs_read_frame_for(const unsigned char *source, size_t source_len, unsigned char *dest,
                                      size_t dest_size, unsigned char sentinel)
{
    if (source_len == 0) {
        return jcobs_make_end(JCOBS_END_NONE, 0, 0);
    }

    size_t end = jcobs_find(source, source_len, sentinel);

    return jcobs_decode_blocks(source, end, dest, dest_size, sentinel);
}

/* Decodes a frame that was encoded with this sentinel, and writes the message to the front of `message`. The frame
 * consists of the source's bytes before the first sentinel.
 * Proved, by the contract in decode.rt: the result and the written bytes are those that the definition of COBS
 * gives for the source, the sentinel and message_size, and all other bytes of the buffer are as they were. A
 * buffer as long as the source is never too small. */
jcobs_answer jcobs_decode_with_sentinel(const void *source, size_t source_len, void *message, size_t message_size,
                                        unsigned char sentinel)
{
    const unsigned char *const source_bytes = (const unsigned char *)source;
    /* The sentinel after the frame is consumed too, if there is one. */
    size_t consumed = jcobs_min(source_len, jcobs_find(source_bytes, source_len, sentinel) + 1);
    jcobs_end end = jcobs_read_frame_for(source_bytes, source_len, (unsigned char *)message, message_size, sentinel);

    if (end.kind == JCOBS_END_MESSAGE) {
        return jcobs_ok_answer(consumed, end.count);
    }
    return jcobs_end_answer(end, consumed, message_size);
}

/* Makes one decoding step: decodes one or more bytes of the buffer. The first of these bytes is at index `read`,
 * and the last is before index `end`. Writes the output to the same buffer, and returns how many bytes it decoded.
 * The steps are those of jcobs_decoder_take_part, but the output always fits the buffer. */
static JCOBS_INLINE size_t jcobs_decoder_take_part_in_place(jcobs_decoder *decoder, unsigned char *buffer,
                                                            size_t buffer_size, size_t read, size_t end)
{
#ifdef JCOBS_FAST
    if (end > JCOBS_SHORT) {
        if (decoder->missing == 0 && decoder->joint == 0) {
            jcobs_decoder_take_code(decoder, buffer[read]);
            return 1;
        }
        size_t at = decoder->written;
        size_t len = jcobs_decoder_span_len(decoder, end - read);
        memmove(buffer + at, buffer + read, len);
        jcobs_decoder_take_moved(decoder, buffer, len);
        return len;
    }
#else
    (void)end;
#endif
    unsigned char byte = buffer[read];

    jcobs_decoder_take_byte(decoder, buffer, buffer_size, byte);
    return 1;
}

/* Decodes the bytes at the indices from `read` to end - 1 of the buffer, and writes their output to the same
 * buffer. */
static void jcobs_decoder_take_in_place(jcobs_decoder *decoder, unsigned char *buffer, size_t buffer_size, size_t read,
                                        size_t end)
{
    size_t at = read;

    while (at < end) {
        at += jcobs_decoder_take_part_in_place(decoder, buffer, buffer_size, at, end);
    }
}

/* Decodes the first `end` bytes of the buffer in place, as one frame, and returns the message's length in bytes.
 * None of these bytes is a zero. */
static JCOBS_APART jcobs_end jcobs_decode_blocks_in_place(unsigned char *buffer, size_t buffer_size, size_t end)
{
    jcobs_kept kept = jcobs_kept_len(buffer, end, 0);
    jcobs_decoder decoder = JCOBS_DECODER_INIT;

    jcobs_decoder_take_in_place(&decoder, buffer, buffer_size, 0, kept.len);
    return jcobs_message_len(decoder.written, kept.is_whole);
}

/* Decodes the frame at the front of the buffer in place, up to the first zero or the buffer's end. Returns the
 * length of the frame and the length of the message, in bytes. */
static JCOBS_INLINE jcobs_end jcobs_read_frame_in_place(unsigned char *buf, size_t buf_size)
{
    if (buf_size == 0) {
        return jcobs_make_end(JCOBS_END_NONE, 0, 0);
    }

    size_t end = jcobs_find(buf, buf_size, 0);
    jcobs_end end_of_frame = jcobs_decode_blocks_in_place(buf, buf_size, end);

    return jcobs_make_end(end_of_frame.kind, end_of_frame.count, end);
}

/* Decodes the frame at the front of the buffer, in place.
 * Proved, by the contract in decode.rt: the result and every byte of the buffer are those that the definition of
 * COBS gives for the bytes that were in the buffer before the call. */
jcobs_answer jcobs_decode_in_place(void *buffer, size_t buffer_len)
{
    unsigned char *const buffer_bytes = (unsigned char *)buffer;
    jcobs_end end = jcobs_read_frame_in_place(buffer_bytes, buffer_len);

    if (end.kind == JCOBS_END_MESSAGE) {
        /* The zero after the frame is consumed too, if there is one. */
        return jcobs_ok_answer(jcobs_min(buffer_len, end.consumed + 1), end.count);
    }

    jcobs_answer broken = jcobs_end_answer(end, 0, buffer_len);
    /* The bytes after the output are unchanged, so the first zero among them ends the frame. */
    size_t written = broken.length;
    size_t frame_len = written + jcobs_find(buffer_bytes + written, buffer_len - written, 0);

    broken.consumed = jcobs_min(buffer_len, frame_len + 1);
    return broken;
}

/* Decodes the frame at the front of the buffer in place, up to the first zero or the buffer's end, and returns the
 * message's length. */
static jcobs_end jcobs_read_in_place(unsigned char *buff, size_t buff_size)
{
    return jcobs_read_frame_in_place(buff, buff_size);
}

/* Decodes the frame at the front of the buffer in place, and returns the message's length. The frame was encoded
 * with `sentinel`, which may be any byte. */
static jcobs_end jcobs_read_in_place_for(unsigned char *buff, size_t buff_size, unsigned char sentinel)
{
    jcobs_xor_bytes(buff, buff_size, sentinel);
    return jcobs_read_in_place(buff, buff_size);
}

/* Decodes, in place, a frame that was encoded with this sentinel. The frame consists of the buffer's bytes before
 * the first sentinel.
 * Proved, by the contract in decode.rt: the result and every byte of the buffer are those that the definition of
 * COBS gives for the sentinel and the bytes that were in the buffer before the call. */
jcobs_answer jcobs_decode_in_place_with_sentinel(void *buffer, size_t buffer_len, unsigned char sentinel)
{
    unsigned char *const buffer_bytes = (unsigned char *)buffer;
    size_t end = jcobs_find(buffer_bytes, buffer_len, sentinel);

    /* A leading sentinel is read as an empty message. */
    if (end == 0 && buffer_len != 0) {
        return jcobs_ok_answer(1, 0);
    }

    size_t consumed = jcobs_min(buffer_len, end + 1);
    jcobs_end end_of_frame = jcobs_read_in_place_for(buffer_bytes, end, sentinel);

    if (end_of_frame.kind == JCOBS_END_MESSAGE) {
        return jcobs_ok_answer(consumed, end_of_frame.count);
    }
    return jcobs_end_answer(end_of_frame, consumed, buffer_len);
}

/* Returns whether the bytes are a frame that encoders write, another frame, or no frame.
 * Proved, by the contract in decode.rt: the result is NOT_A_FRAME if and only if the bytes aren't a frame, and
 * CANONICAL if and only if they are a frame that encoders write. */
unsigned int jcobs_frame_kind(const void *bytes, size_t len)
{
    const unsigned char *const data = (const unsigned char *)bytes;

    if (jcobs_find(data, len, 0) < len) {
        return JCOBS_NOT_A_FRAME;
    }

    size_t read = 0;
    int after_full = 0;

    while (read < len) {
        size_t code = data[read];
        size_t left = len - read;
        if (left < code) {
            return JCOBS_NOT_A_FRAME;
        }
        if (left == code) {
            return after_full && code == 1 ? JCOBS_LONGER : JCOBS_CANONICAL;
        }
        after_full = code == JCOBS_FULL_CODE;
        read += code;
    }
    /* The loop returns at the last block, so this line is reached only if there are no bytes. */
    return JCOBS_NOT_A_FRAME;
}

/* ---- Decoding a stream ---- */

/* Resets the decoder to the initial state, from any state.
 * Proved, by the contract in decoder.rt: after the call the decoder has taken no byte, whatever its state was. */
void jcobs_decoder_reset(jcobs_decoder *decoder)
{
    jcobs_decoder_init(decoder);
}

/* Returns the result of a call that was passed `len` bytes of the stream and a buffer of buffer_size bytes. If a
 * piece has ended in these bytes, `end` says how the piece ended, and how many bytes there are up to and including
 * the zero that ended it. Even if the decoder's state is corrupt, the returned `length` is at most buffer_size. */
static JCOBS_INLINE jcobs_answer jcobs_decoder_answer(const jcobs_decoder *decoder, jcobs_end end, size_t len,
                                                      size_t buffer_size)
{
    if (end.kind != JCOBS_END_NONE) {
        jcobs_answer ended = jcobs_end_answer(end, end.consumed, buffer_size);
        ended.length = jcobs_min(ended.length, buffer_size);
        return ended;
    }
    return jcobs_make_answer(JCOBS_MORE, len, decoder->too_long != 0 ? buffer_size : jcobs_min(decoder->written,
                             buffer_size));
}

/* Decodes bytes of the stream, and stops after the zero that ends the first piece. If no piece ends, decodes all
 * the bytes. Even if the state is corrupt, the buffer keeps its length, `consumed` is at most the number of bytes,
 * and `length` is at most the buffer's length.
 * Proved, by the contract in decoder.rt: the result, the state and the buffer are those that the definition of the
 * stream gives after these bytes, however the stream is divided among calls. In every state consumed is at most
 * the number of bytes passed, and length is at most buffer_size. */
jcobs_answer jcobs_decoder_push(jcobs_decoder *decoder, void *buffer, size_t buffer_size, const void *bytes, size_t len)
{
    jcobs_end end = jcobs_decoder_take_bytes(decoder, (unsigned char *)buffer, buffer_size,
                                             (const unsigned char *)bytes, len, 0);

    return jcobs_decoder_answer(decoder, end, len, buffer_size);
}

/* Decodes the next byte of the stream, and writes the output of this byte to `dest`. It returns JCOBS_END_TOO_LONG
 * at each byte of a piece that is too long. */
static JCOBS_INLINE jcobs_end jcobs_decoder_step(jcobs_decoder *decoder, unsigned char *dest, size_t dest_size,
                                                 unsigned char byte)
{
    if (byte == 0) {
        return jcobs_decoder_end_piece(decoder, dest_size);
    }
    if (decoder->too_long == 0 && jcobs_decoder_take_byte(decoder, dest, dest_size, byte)) {
        return jcobs_make_end(JCOBS_END_NONE, 0, 0);
    }
    decoder->too_long = 1;
    return jcobs_make_end(JCOBS_END_TOO_LONG, 0, 0);
}

/* Decodes the next byte of the stream. The contract is the same as for a call of jcobs_decoder_push with this
 * byte.
 * Proved, by the contract in decoder.rt: the result, the state and the buffer are those that the definition of the
 * stream gives after these bytes, however the stream is divided among calls. In every state consumed is at most
 * the number of bytes passed, and length is at most buffer_size. */
jcobs_answer jcobs_decoder_feed(jcobs_decoder *decoder, void *buffer, size_t buffer_size, unsigned char byte)
{
    jcobs_end end = {JCOBS_END_NONE, 0, 0};
    jcobs_end returned = jcobs_decoder_step(decoder, (unsigned char *)buffer, buffer_size, byte);

    /* Only a zero ends a piece. If the piece is too long, jcobs_decoder_step returns an end for other bytes too. */
    if (byte == 0) {
        if (returned.kind != JCOBS_END_NONE) {
            end = jcobs_make_end(returned.kind, returned.count, 1);
        }
    }
    return jcobs_decoder_answer(decoder, end, 1, buffer_size);
}

/* Decodes bytes of a stream whose frames were encoded with this sentinel, and stops after the sentinel that ends
 * the first piece. If no piece ends, decodes all the bytes.
 * Proved, by the contract in decoder.rt: the result, the state and the buffer are those that the definition of the
 * stream gives after these bytes, however the stream is divided among calls. In every state consumed is at most
 * the number of bytes passed, and length is at most buffer_size. */
jcobs_answer jcobs_decoder_push_with_sentinel(jcobs_decoder *decoder, void *buffer, size_t buffer_size,
                                              const void *bytes, size_t len, unsigned char sentinel)
{
    jcobs_end end = jcobs_decoder_take_bytes(decoder, (unsigned char *)buffer, buffer_size,
                                             (const unsigned char *)bytes, len, sentinel);

    return jcobs_decoder_answer(decoder, end, len, buffer_size);
}

/* Returns 1 if no piece is open, and 0 otherwise.
 * Proved, by the contract in decoder.rt: the result is 1 if and only if no piece is open. */
unsigned int jcobs_decoder_is_idle(const jcobs_decoder *decoder)
{
    return decoder->written == 0 && decoder->missing == 0 && decoder->joint == 0 && decoder->too_long == 0;
}

/* ---- Encoding a message that comes in chunks ---- */

/* Resets the encoder to the initial state, from any state.
 * Proved, by the contract in encoder.rt: after the call the encoder has taken no byte, whatever its state was. */
void jcobs_encoder_reset(jcobs_encoder *encoder)
{
    jcobs_encoder_init(encoder);
}

/* Encodes the next bytes of the message, with `dest` as the buffer. */
static JCOBS_INLINE int jcobs_encoder_try_push(jcobs_encoder *encoder, unsigned char *dest, size_t dest_size,
                                               const unsigned char *bytes, size_t len)
{
    if (!jcobs_encoder_has_room(encoder, bytes, len, dest_size)) {
        return 0;
    }
    if (len != 0) {
        jcobs_encoder_append(encoder, dest, bytes, len);
    }
    return 1;
}

/* Returns the length of the frame of all bytes that the encoder has taken. */
static JCOBS_INLINE size_t jcobs_encoder_length(const jcobs_encoder *encoder)
{
    if (encoder->full != 0) {
        return encoder->index;
    }
    return encoder->index + encoder->taken + 1;
}

/* Encodes the next bytes of a message, if the frame of the message up to and including these bytes fits the
 * buffer. Even if the state is corrupt, the buffer keeps its length, `consumed` is at most the number of bytes,
 * and `length` is at most the buffer's length.
 * Proved, by the contract in encoder.rt: the status is OK if and only if the frame of the message so far,
 * including these bytes, fits. If the status isn't OK, the state and the buffer are as they were. In every state
 * consumed is at most the number of bytes passed, and length is at most buffer_size. */
jcobs_answer jcobs_encoder_push(jcobs_encoder *encoder, void *buffer, size_t buffer_size, const void *bytes, size_t len)
{
    if (!jcobs_encoder_try_push(encoder, (unsigned char *)buffer, buffer_size, (const unsigned char *)bytes, len)) {
        return jcobs_too_small_answer();
    }
    return jcobs_ok_answer(len, jcobs_encoder_length(encoder));
}

/* Encodes the next byte of the message, with `dest` as the buffer. */
static JCOBS_INLINE int jcobs_encoder_try_feed(jcobs_encoder *encoder, unsigned char *dest, size_t dest_size,
                                               unsigned char byte)
{
    if (!jcobs_encoder_has_room(encoder, &byte, 1, dest_size)) {
        return 0;
    }
    jcobs_encoder_append_byte(encoder, dest, byte);
    return 1;
}

/* Encodes the next byte of a message. The contract is the same as for a call of jcobs_encoder_push with this byte.
 * Proved, by the contract in encoder.rt: the status is OK if and only if the frame of the message so far,
 * including these bytes, fits. If the status isn't OK, the state and the buffer are as they were. In every state
 * consumed is at most the number of bytes passed, and length is at most buffer_size. */
jcobs_answer jcobs_encoder_feed(jcobs_encoder *encoder, void *buffer, size_t buffer_size, unsigned char byte)
{
    /* The copy stays in registers while bytes are written to the buffer. */
    jcobs_encoder state = *encoder;

    if (!jcobs_encoder_try_feed(&state, (unsigned char *)buffer, buffer_size, byte)) {
        return jcobs_too_small_answer();
    }
    *encoder = state;
    return jcobs_ok_answer(1, jcobs_encoder_length(&state));
}

/* Ends the message, if the state is possible in a buffer of this size, and returns the length of its encoded frame
 * in bytes. The buffer then begins with that frame, and the encoder is ready for the next message. Every byte
 * after the frame is as it was before this call. */
static jcobs_frame_length jcobs_encoder_try_finish(jcobs_encoder *encoder, unsigned char *dest, size_t dest_size)
{
    if (!jcobs_encoder_has_room(encoder, NULL, 0, dest_size)) {
        return jcobs_make_frame_length(0, 0);
    }

    size_t length = jcobs_encoder_close_block(encoder, dest);

    jcobs_encoder_init(encoder);
    return jcobs_make_frame_length(1, length);
}

/* Ends the message, if its frame fits the buffer. Even if the state is corrupt, the buffer keeps its length, and
 * the returned `length` is at most the buffer's length.
 * Proved, by the contract in encoder.rt: if the frame of all bytes that were taken fits, the buffer begins with
 * it, and the encoder is in its initial state. Otherwise the status is TOO_SMALL, and the state and the buffer are
 * as they were. In every state consumed is 0, and length is at most buffer_size. */
jcobs_answer jcobs_encoder_finish(jcobs_encoder *encoder, void *buffer, size_t buffer_size)
{
    /* No frame fits an empty buffer. Without this test, the call could return a frame of 0 bytes if the state is
     * corrupt. */
    if (buffer_size == 0) {
        return jcobs_too_small_answer();
    }

    jcobs_frame_length result = jcobs_encoder_try_finish(encoder, (unsigned char *)buffer, buffer_size);

    if (result.fits) {
        return jcobs_ok_answer(0, result.length);
    }
    return jcobs_too_small_answer();
}

/* Writes the sentinel after the frame that a call has written to the front of the buffer, if the call succeeded.
 * Returns the result for the frame and the sentinel together. */
static jcobs_answer jcobs_terminated_answer(jcobs_answer frame, unsigned char *buffer, unsigned char sentinel)
{
    if (frame.status != JCOBS_OK) {
        return frame;
    }
    buffer[frame.length] = sentinel;
    return jcobs_ok_answer(frame.consumed, frame.length + 1);
}

/* Ends the message, as jcobs_encoder_finish does, and writes a zero after its frame. If the frame and the zero
 * don't fit the buffer, nothing changes.
 * Proved, by the contract in encoder.rt: if the frame of all bytes that were taken and the zero fit, the buffer
 * begins with them, and the encoder is in its initial state. Otherwise the status is TOO_SMALL, and the state and
 * the buffer are as they were. In every state consumed is 0, and length is at most buffer_size. */
jcobs_answer jcobs_encoder_finish_terminated(jcobs_encoder *encoder, void *buffer, size_t buffer_size)
{
    unsigned char *const buffer_bytes = (unsigned char *)buffer;

    if (buffer_size == 0) {
        return jcobs_too_small_answer();
    }

    /* The zero needs one byte. */
    size_t last = buffer_size - 1;
    jcobs_answer written = jcobs_encoder_finish(encoder, buffer_bytes, last);

    return jcobs_terminated_answer(written, buffer_bytes, 0);
}

/* Ends the message, as jcobs_encoder_finish does, but the frame is encoded with this sentinel.
 * Proved, by the contract in encoder.rt: if the frame of all bytes that were taken fits, the buffer begins with
 * it, each byte XORed with the sentinel, and the encoder is in its initial state. Otherwise the status is
 * TOO_SMALL, and the state and the buffer are as they were. In every state consumed is 0, and length is at most
 * buffer_size. */
jcobs_answer jcobs_encoder_finish_with_sentinel(jcobs_encoder *encoder, void *buffer, size_t buffer_size,
                                                unsigned char sentinel)
{
    unsigned char *const buffer_bytes = (unsigned char *)buffer;
    jcobs_answer returned = jcobs_encoder_finish(encoder, buffer_bytes, buffer_size);

    jcobs_xor_bytes(buffer_bytes, returned.length, sentinel);
    return returned;
}

/* Ends the message, as jcobs_encoder_finish_with_sentinel does, and writes the sentinel after its frame. If the
 * frame and the sentinel don't fit the buffer, nothing changes.
 * Proved, by the contract in encoder.rt: if the frame of all bytes that were taken and the sentinel fit, the
 * buffer begins with them, and the encoder is in its initial state. Otherwise the status is TOO_SMALL, and the
 * state and the buffer are as they were. In every state consumed is 0, and length is at most buffer_size. */
jcobs_answer jcobs_encoder_finish_terminated_with_sentinel(jcobs_encoder *encoder, void *buffer, size_t buffer_size,
                                                           unsigned char sentinel)
{
    unsigned char *const buffer_bytes = (unsigned char *)buffer;

    if (buffer_size == 0) {
        return jcobs_too_small_answer();
    }

    /* The sentinel needs one byte. */
    size_t last = buffer_size - 1;
    jcobs_answer written = jcobs_encoder_finish_with_sentinel(encoder, buffer_bytes, last, sentinel);

    return jcobs_terminated_answer(written, buffer_bytes, sentinel);
}

/* ---- Written by hand: the texts and the versions ---- */

size_t jcobs_strerror(unsigned int status, char *text, size_t text_size)
{
    /* The descriptions in the order of the statuses; the last description is for other numbers. Each row has room for the
     * longest description, so no pointers are needed. */
    static const char descriptions[][sizeof "the frame breaks off inside a block"] = {
        "done",
        "more bytes are needed",
        "the buffer is too small",
        "the frame breaks off inside a block",
        "there is no frame",
        "unknown status",
    };
    const char *description = descriptions[status <= JCOBS_EMPTY ? status : JCOBS_EMPTY + 1];
    size_t length = 0;

    while (description[length] != '\0') {
        if (length + 1 < text_size) {
            text[length] = description[length];
        }
        length++;
    }
    if (text_size > 0) {
        text[jcobs_min(length, text_size - 1)] = '\0';
    }
    return length;
}

unsigned int jcobs_version(void)
{
    return JCOBS_VERSION;
}

unsigned int jcobs_abi_1(void)
{
    return 1;
}
