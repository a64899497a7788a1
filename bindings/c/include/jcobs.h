/* jcobs.h: Consistent Overhead Byte Stuffing (COBS).
 *
 * SPDX-License-Identifier: MIT OR Apache-2.0
 *
 * COBS encodes a message, which may contain any bytes, as a frame that never contains a certain byte value: the
 * sentinel. So the sentinel can mark the end of each frame on a serial line or in a file. The sentinel is 0, except in
 * the calls that have a parameter `sentinel`. The frame of a message of up to 254 bytes is 1 byte longer than the
 * message. The frame of a longer message of n bytes is at most n / 254 bytes longer than the message, where n / 254 is
 * rounded up.
 *
 * To receive frames in chunks of any size:
 *
 *     jcobs_decoder decoder = JCOBS_DECODER_INIT;
 *     unsigned char message[1024];
 *     unsigned char bytes[256];
 *     ssize_t n;
 *
 *     while ((n = read(fd, bytes, sizeof bytes)) > 0) {
 *         size_t at = 0;
 *         while (at < (size_t)n) {
 *             jcobs_answer answer =
 *                 jcobs_decoder_push(&decoder, message, sizeof message, bytes + at, (size_t)n - at);
 *             at += answer.consumed;
 *             if (answer.status == JCOBS_OK)
 *                 handle(message, answer.length);
 *             else if (answer.status != JCOBS_MORE)
 *                 complain(answer.status);
 *         }
 *     }
 *
 * To receive frames byte by byte:
 *
 *     jcobs_decoder decoder = JCOBS_DECODER_INIT;
 *     unsigned char message[64];
 *     int byte;
 *
 *     while ((byte = next_byte()) >= 0) {
 *         jcobs_answer answer = jcobs_decoder_feed(&decoder, message, sizeof message, (unsigned char)byte);
 *         if (answer.status == JCOBS_OK)
 *             handle(message, answer.length);
 *     }
 *
 * To send a message:
 *
 *     unsigned char frame[JCOBS_MAX_LENGTH(1024) + 1];
 *     jcobs_answer answer = jcobs_encode_terminated(text, strlen(text), frame, sizeof frame);
 *
 *     if (answer.status == JCOBS_OK)
 *         transmit(frame, answer.length);
 *
 * To send a message that comes in chunks:
 *
 *     jcobs_encoder encoder = JCOBS_ENCODER_INIT;
 *     unsigned char frame[JCOBS_MAX_LENGTH(1024) + 1];
 *
 *     if (jcobs_encoder_push(&encoder, frame, sizeof frame, "id: ", 4).status == JCOBS_OK &&
 *         jcobs_encoder_push(&encoder, frame, sizeof frame, text, strlen(text)).status == JCOBS_OK) {
 *         jcobs_answer answer = jcobs_encoder_finish_terminated(&encoder, frame, sizeof frame);
 *         if (answer.status == JCOBS_OK)
 *             transmit(frame, answer.length);
 *     }
 *     jcobs_encoder_reset(&encoder);
 *
 * Preconditions
 *
 * Each pointer to bytes is passed together with a number of bytes. A number whose name is len or ends in _len is the
 * length of the input. A number whose name ends in _size is the size of a buffer. The pointer must be valid for reading
 * that many bytes. If it doesn't point to const, it must also be valid for writing that many bytes. If the number is 0,
 * the pointer isn't used and may be NULL. The number must be at most PTRDIFF_MAX. The input, the buffer and the state
 * of a call must not overlap. To encode or decode within one buffer, use jcobs_encode_in_place or
 * jcobs_decode_in_place.
 *
 * A pointer to a state must be valid. The state may have any contents. Even if the state is corrupt, the call returns,
 * and accesses no memory outside the input, the buffer and the state. The result is still in range: consumed is at most
 * the number of bytes passed, and length is at most the buffer's size. Everything else that this header says about
 * results is true only if the state is the initial state, or is as an earlier call left it.
 *
 * While a call runs, nothing else may change its input, its buffer or its state: no other thread or process, no
 * interrupt or signal handler, no DMA transfer. The comment above a call says if the call may read a byte twice. If
 * such a byte changes between the two reads, the call may access memory outside the buffers, or never return. So wait
 * until a DMA transfer into the input has finished, or pass a copy of the input.
 *
 * No function allocates memory or uses a lock. No function keeps a pointer or other data after it returns, so the
 * result of a call depends only on the arguments. Calls on different buffers and states may run at the same time, even
 * in signal handlers.
 *
 * Results
 *
 * Most calls return a struct, so the compiler must support functions that return structs.
 *
 * The comment above a prototype lists each status that the call can return, without the prefix JCOBS_. For each status,
 * the comment gives the values of the other two members of jcobs_answer:
 *
 * - consumed is the number of bytes of the input (the message, the source or the pushed bytes) that the call has
 *   processed;
 * - length is the number of bytes at the front of the buffer that belong to the result.
 *
 * A call doesn't change the bytes of the buffer that follow the result. The only exception is
 * jcobs_decode_in_place_with_sentinel. If you decode one frame with several calls, or encode one message with several
 * calls, the bytes that follow the result are as they were before the first of these calls. If a call with a
 * jcobs_encoder returns TOO_SMALL, the whole buffer is as it was before this call.
 *
 * A frame is a sequence of blocks. The first byte of a block is its code, from 1 to 255. The code is the length of the
 * block: a block with the code n has n - 1 nonzero bytes after the code. A block with the code 255 is full. The output
 * of a frame is the bytes that the frame decodes to. To decode a frame, take the bytes after the code of each block.
 * Then put a zero between the bytes of two neighbouring blocks, unless the first of these two blocks is full. A broken
 * frame is cut off inside its last block. In some calls the output of a broken frame includes the bytes of this block;
 * in other calls it doesn't. If decoding puts a zero before the bytes of this block, that zero belongs to the output in
 * all calls. For example, the broken frame 02 41 05 42 is cut off inside the block 05 42. If the output includes this
 * block, it is 41 00 42; otherwise it is 41 00.
 *
 * The calls that decode a whole frame don't need a sentinel after the frame: jcobs_decode, jcobs_decode_in_place,
 * jcobs_decode_with_sentinel and jcobs_decode_in_place_with_sentinel. If there is no sentinel, the frame ends at the
 * end of the source, and consumed is the source's length. So if a frame was cut off between two blocks, the blocks
 * before the cut are taken for a whole frame, and the status is OK. If your protocol ends each frame with a sentinel,
 * and the status is OK, test whether source[consumed - 1] is the sentinel. This test also works after
 * jcobs_decode_in_place. It doesn't work after jcobs_decode_in_place_with_sentinel: this call changes the bytes of the
 * frame, so the last byte of the frame may then be equal to the sentinel. Before this call, test whether the buffer
 * contains the sentinel. The streaming decoder needs no such test: it reports a frame only when the sentinel after the
 * frame has arrived. COBS has no checksum: damage that turns a frame into another frame isn't noticed.
 *
 * This paragraph is about the built library for Linux on x86-64 and aarch64. On x86-64 the built library needs a
 * processor with x86-64-v2 (SSE4.2 and POPCNT). Most Intel processors since 2009 and most AMD processors since 2011
 * have these instructions. On aarch64 the library needs ARMv8-A. The library for x86-64 has call frame information for
 * debuggers; the library for aarch64 has none. Neither library has unwind tables. No call throws or unwinds. Each call
 * begins with a landing pad (endbr64 or bti c), so a program that is hardened with IBT, SHSTK or BTI stays hardened.
 * The library calls only two functions that it doesn't contain: memcpy and memmove.
 */
#ifndef JCOBS_H
#define JCOBS_H

#include <stddef.h>

#ifdef __cplusplus
extern "C" {
#endif

/* The version of this header. jcobs_version() returns the version of the library. */
#define JCOBS_VERSION_MAJOR 1
#define JCOBS_VERSION_MINOR 0
#define JCOBS_VERSION_PATCH 0
#define JCOBS_VERSION (JCOBS_VERSION_MAJOR * 10000u + JCOBS_VERSION_MINOR * 100u + JCOBS_VERSION_PATCH)

/* Each prototype begins with JCOBS_API. To compile jcobs.c in the same translation unit as your code, define JCOBS_API
 * as static, and include jcobs.c. If the compiler then warns about functions that your code doesn't call
 * (-Wunused-function), define JCOBS_API as static inline. To compile jcobs.c into a library of your own, define
 * JCOBS_API as the attribute that exports or hides a function, such as __attribute__((visibility("hidden"))). */
#ifndef JCOBS_API
#define JCOBS_API
#endif

/* JCOBS_STATUS is the type of the member status of jcobs_answer. It always has the size of an unsigned int: in C and
 * C++, on every target, and even with -fshort-enums. If the header can make sure that the enum jcobs_status has this
 * size, JCOBS_STATUS is this enum, and otherwise it is unsigned int. If it is the enum, a compiler with -Wswitch checks
 * each switch on the status. */
#if (defined(__cplusplus) && __cplusplus >= 201103L) || (defined(__STDC_VERSION__) && __STDC_VERSION__ >= 202311L)
#define JCOBS_ENUM(name) enum name : unsigned int
#define JCOBS_STATUS jcobs_status
#else
#define JCOBS_ENUM(name) enum name
#if defined(__GNUC__) && !defined(__cplusplus)
#define JCOBS_STATUS                                                                                                   \
    __typeof__(__builtin_choose_expr(sizeof(jcobs_status) == sizeof(unsigned int), (jcobs_status)0, 0u))
#else
#define JCOBS_STATUS unsigned int
#endif
#endif
typedef JCOBS_ENUM(jcobs_status){
    JCOBS_OK = 0,        /* done */
    JCOBS_MORE = 1,      /* all bytes were processed, and no frame has ended in them */
    JCOBS_TOO_SMALL = 2, /* the buffer is too short */
    JCOBS_BROKEN = 3,    /* the frame breaks off inside a block */
    JCOBS_EMPTY = 4      /* there is no frame */
} jcobs_status;

/* The result of a call. */
typedef struct jcobs_answer {
    JCOBS_STATUS status; /* how the call ended: a jcobs_status */
    size_t consumed;     /* how many bytes of the input were processed */
    size_t length;       /* how many bytes at the front of the buffer belong to the result */
} jcobs_answer;

/* The values that jcobs_frame_kind can return. The value says whether the bytes are a frame, and if so, whether
 * encoders write this frame. Pass the bytes to the call without the sentinels before and after them. */
enum jcobs_kind {
    JCOBS_NOT_A_FRAME = 0, /* there are no bytes, a byte is 0, or the bytes break off inside a block */
    JCOBS_CANONICAL = 1,   /* a frame that encoders write */
    JCOBS_LONGER = 2       /* a frame that encoders write, followed by the byte 1, which doesn't change the message */
};

/* The state of a streaming decoder. Only the library uses the members. */
typedef struct jcobs_decoder {
    size_t written;         /* how many bytes of the current message are in the buffer */
    unsigned char missing;  /* how many bytes of the current block haven't arrived yet */
    unsigned char joint;    /* whether the message has a zero between the current block and the next one */
    unsigned char too_long; /* whether the current message has become too long for the buffer */
} jcobs_decoder;

/* The initial state, in which no frame has begun. All members are 0, as after jcobs_decoder_reset. */
/* clang-format off */
#define JCOBS_DECODER_INIT {0, 0, 0, 0}
/* clang-format on */

/* The state of a streaming encoder. Only the library uses the members. The open block is the block that the encoder has
 * begun but not finished; its code isn't written yet. */
typedef struct jcobs_encoder {
    size_t index;        /* the index in the buffer at which the code of the open block will be written */
    unsigned char taken; /* how many bytes the open block has so far, not counting its code */
    unsigned char full;  /* whether the last byte made a block full; if so, no block is open until the next byte */
} jcobs_encoder;

/* The initial state, in which no message has begun. All members are 0, as after jcobs_encoder_reset. */
/* clang-format off */
#define JCOBS_ENCODER_INIT {0, 0, 0}
/* clang-format on */

/* With these attributes GCC and Clang check that the result of a call is used, and that a pointer to a state isn't
 * NULL. GCC also checks that a pointer that is passed with a length points to at least that many bytes. The macros'
 * parameters `pointer` and `length` are positions in the call's list of arguments. Two of the calls that finish a
 * message also read the pushed bytes from the buffer: the two calls whose names end in _with_sentinel. But all calls
 * that finish a message are marked as calls that only write to the buffer. Otherwise, if no bytes were pushed, GCC
 * would warn that nothing has been written to the buffer. */
#ifdef __GNUC__
#define JCOBS_CHECKED __attribute__((warn_unused_result))
#define JCOBS_STATE __attribute__((nonnull(1)))
#else
#define JCOBS_CHECKED
#define JCOBS_STATE
#endif
#if defined(__GNUC__) && __GNUC__ >= 11 && !defined(__clang__)
#define JCOBS_READS(pointer, length) __attribute__((access(read_only, pointer, length)))
#define JCOBS_WRITES(pointer, length) __attribute__((access(write_only, pointer, length)))
#define JCOBS_CHANGES(pointer, length) __attribute__((access(read_write, pointer, length)))
#else
#define JCOBS_READS(pointer, length)
#define JCOBS_WRITES(pointer, length)
#define JCOBS_CHANGES(pointer, length)
#endif

/* JCOBS_MAX_LENGTH gives the same value as jcobs_max_length. If the argument is a constant, the macro is a constant
 * expression, so it can be the length of an array. If the argument's type isn't wider than size_t, the value of the
 * macro has an unsigned type that is as wide as size_t. In this case, if the length doesn't fit a size_t, the macro
 * wraps around, but the function returns 0. The macro evaluates its argument more than once, and can't be used in
 * #if. */
#define JCOBS_MAX_LENGTH(message_len)                                                                                  \
    (sizeof(char) * (message_len) + sizeof(char) * (message_len) / 254 +                                               \
     (sizeof(char) * (message_len) % 254 != 0 || (message_len) == 0 ? 1 : 0))

/* Returns the length of the longest frame that a message of message_len bytes can have, not counting a sentinel, or 0
 * if this length doesn't fit a size_t. The length is message_len plus message_len / 254, where message_len / 254 is
 * rounded up. For the empty message the length is 1. */
JCOBS_API size_t jcobs_max_length(size_t message_len) JCOBS_CHECKED;

/* Writes the frame of the message, without a sentinel, to the front of the buffer `frame`. A buffer of
 * jcobs_max_length(message_len) bytes is always long enough. The call may read a byte of the message twice.
 *
 * Returns:
 * - OK: consumed is message_len, and length is the length of the frame;
 * - TOO_SMALL, if and only if the frame doesn't fit: consumed and length are 0, and the buffer is as it was. */
JCOBS_API jcobs_answer jcobs_encode(const void *message, size_t message_len, void *frame, size_t frame_size)
    JCOBS_READS(1, 2) JCOBS_WRITES(3, 4) JCOBS_CHECKED;

/* Writes the frame of the message, followed by a zero, to the front of the buffer `frame`. A buffer of
 * jcobs_max_length(message_len) + 1 bytes is always long enough. The call may read a byte of the message twice.
 *
 * Returns:
 * - OK: consumed is message_len, and length is the length of the frame and its zero;
 * - TOO_SMALL, if and only if the frame and its zero don't fit: consumed and length are 0, and the buffer is as it
 *   was. */
JCOBS_API jcobs_answer jcobs_encode_terminated(const void *message, size_t message_len, void *frame, size_t frame_size)
    JCOBS_READS(1, 2) JCOBS_WRITES(3, 4) JCOBS_CHECKED;

/* Encodes like jcobs_encode, but XORs each byte of the frame with the given sentinel. The call may read a byte of the
 * message twice.
 *
 * Returns the same as jcobs_encode. */
JCOBS_API jcobs_answer jcobs_encode_with_sentinel(const void *message, size_t message_len, void *frame,
                                                  size_t frame_size, unsigned char sentinel) JCOBS_READS(1, 2)
    JCOBS_WRITES(3, 4) JCOBS_CHECKED;

/* Encodes like jcobs_encode_terminated, but XORs each byte of the frame with the given sentinel, and writes this
 * sentinel after the frame instead of a zero. The call may read a byte of the message twice.
 *
 * Returns the same as jcobs_encode_terminated. */
JCOBS_API jcobs_answer jcobs_encode_terminated_with_sentinel(const void *message, size_t message_len, void *frame,
                                                             size_t frame_size, unsigned char sentinel)
    JCOBS_READS(1, 2) JCOBS_WRITES(3, 4) JCOBS_CHECKED;

/* JCOBS_MAX_OVERHEAD is JCOBS_MAX_LENGTH(message_len) minus message_len. This macro also evaluates its argument more
 * than once, and can't be used in #if. */
#define JCOBS_MAX_OVERHEAD(message_len) (JCOBS_MAX_LENGTH(message_len) - sizeof(char) * (message_len))

/* Encodes a message in its own buffer. Before the call the message, which has message_len bytes, begins at index start
 * of the buffer; the bytes before this index have no effect. After the call the buffer begins with the frame that
 * jcobs_encode would write. The start must be at least JCOBS_MAX_OVERHEAD(message_len), so that the frame never
 * overwrites a byte of the message that isn't encoded yet.
 *
 * Returns:
 * - OK: consumed is message_len, and length is the length of the frame;
 * - TOO_SMALL, if and only if the start is less than JCOBS_MAX_OVERHEAD(message_len), or the message isn't within the
 *   buffer: consumed and length are 0, and the buffer is as it was. */
JCOBS_API jcobs_answer jcobs_encode_in_place(void *buffer, size_t buffer_size, size_t start, size_t message_len)
    JCOBS_CHANGES(1, 2) JCOBS_CHECKED;

/* Decodes the first frame of the source, and writes the message to the front of the buffer `message`. Leading zeros are
 * skipped, and the frame ends at the next zero or at the end of the source. A buffer of source_len bytes is always long
 * enough. The call may read a byte of the source twice.
 *
 * Returns:
 * - OK: consumed counts the leading zeros, the frame and the zero after it; length is the length of the message;
 * - BROKEN: consumed is the same as for OK; length is the length of the frame's output, including the block that is cut
 *   off;
 * - TOO_SMALL, if the frame's output, including a block that is cut off, is longer than the buffer: consumed is the
 *   same as for OK; length is message_size, and the buffer has the first message_size bytes of the output;
 * - EMPTY, if the source has no bytes or only zeros: consumed is source_len, and length is 0. */
JCOBS_API jcobs_answer jcobs_decode(const void *source, size_t source_len, void *message, size_t message_size)
    JCOBS_READS(1, 2) JCOBS_WRITES(3, 4) JCOBS_CHECKED;

/* Decodes a frame that was encoded with the given sentinel, and writes the message to the front of the buffer
 * `message`. The frame is at the front of the source, and ends at the first sentinel or at the end of the source. No
 * sentinel is skipped: if the source begins with a sentinel, the message is empty. Even if the sentinel is 0, the
 * results may differ from those of jcobs_decode, for two reasons: jcobs_decode skips leading zeros, and its output of a
 * broken frame includes the bytes of the block that is cut off. The call may read a byte of the source twice.
 *
 * Returns:
 * - OK: consumed counts the frame and the sentinel after it; length is the length of the message;
 * - BROKEN: consumed is the same as for OK; length is the length of the frame's output, without the block that is cut
 *   off;
 * - TOO_SMALL, if the frame's output, without a block that is cut off, is longer than the buffer: consumed is the same
 *   as for OK; length is message_size, and the buffer has the first message_size bytes of the output;
 * - EMPTY, if the source has no bytes: consumed and length are 0. */
JCOBS_API jcobs_answer jcobs_decode_with_sentinel(const void *source, size_t source_len, void *message,
                                                  size_t message_size, unsigned char sentinel) JCOBS_READS(1, 2)
    JCOBS_WRITES(3, 4) JCOBS_CHECKED;

/* Decodes the frame at the front of the buffer, and writes the message to the front of the same buffer. The frame ends
 * at the first zero or at the end of the buffer. No zero is skipped: if the buffer begins with a zero, the message is
 * empty. The message always fits, because no message is longer than its frame. The call may read a byte of the buffer
 * twice.
 *
 * Returns:
 * - OK: consumed counts the frame and the zero after it; length is the length of the message;
 * - BROKEN: consumed is the same as for OK; length is the length of the frame's output, without the block that is cut
 *   off;
 * - EMPTY, if the buffer has no bytes: consumed and length are 0. */
JCOBS_API jcobs_answer jcobs_decode_in_place(void *buffer, size_t buffer_len) JCOBS_CHANGES(1, 2) JCOBS_CHECKED;

/* Decodes like jcobs_decode_in_place, but with the given sentinel. The call first XORs each byte of the frame with the
 * sentinel, so the bytes between the end of the message and the end of the frame change too. The sentinel after the
 * frame and the bytes after that sentinel aren't changed: the next frame begins at buffer + consumed. The call may read
 * a byte of the buffer twice.
 *
 * Returns the same as jcobs_decode_in_place, with the sentinel instead of the zero. */
JCOBS_API jcobs_answer jcobs_decode_in_place_with_sentinel(void *buffer, size_t buffer_len, unsigned char sentinel)
    JCOBS_CHANGES(1, 2) JCOBS_CHECKED;

/* Returns a value of the enum jcobs_kind: whether the bytes are a frame for the sentinel 0, and if so, whether encoders
 * write this frame. The call may read one of the bytes twice. */
JCOBS_API unsigned int jcobs_frame_kind(const void *bytes, size_t len) JCOBS_READS(1, 2) JCOBS_CHECKED;

/* Resets the decoder to the initial state, from any state. If a frame was open, the bytes of this frame that arrive
 * later are taken for a new frame. */
JCOBS_API void jcobs_decoder_reset(jcobs_decoder *decoder) JCOBS_STATE;

/* Decodes the next bytes of a stream in which a zero ends each frame. The call processes the bytes up to and including
 * the first zero that ends a frame, or all bytes if no frame ends in them. If a frame has ended, its message is at the
 * front of the buffer until the next call. The bytes after the zero that ends the frame have no effect: push them again
 * in the next call. Every frame is reported once, at the zero that ends it. Zeros between frames are skipped. A frame
 * that is broken, or whose message is too long for the buffer, never affects the next frame.
 *
 * From the first byte of a frame to the zero that ends it, pass the same buffer with the same size, and don't change
 * the buffer's contents between two calls. Otherwise the status of that frame and the contents of the buffer are
 * unspecified. The call may read one of the bytes twice.
 *
 * Returns:
 * - OK: consumed counts the bytes up to and including the zero that ends the frame; length is the length of the
 *   message;
 * - BROKEN: consumed is the same as for OK; length is the length of the frame's output, including the block that is cut
 *   off;
 * - TOO_SMALL, if the frame's output, including a block that is cut off, is longer than the buffer: consumed is the
 *   same as for OK; length is buffer_size, and the buffer has the first buffer_size bytes of the output;
 * - MORE: consumed is len; length is the number of bytes of the unfinished message that are in the buffer. */
JCOBS_API jcobs_answer jcobs_decoder_push(jcobs_decoder *decoder, void *buffer, size_t buffer_size, const void *bytes,
                                          size_t len) JCOBS_STATE JCOBS_WRITES(2, 3) JCOBS_READS(4, 5) JCOBS_CHECKED;

/* Decodes one byte of a stream. The call has the same effect as jcobs_decoder_push with this byte, and is faster.
 *
 * Returns the same as jcobs_decoder_push; consumed is 1. */
JCOBS_API jcobs_answer jcobs_decoder_feed(jcobs_decoder *decoder, void *buffer, size_t buffer_size,
                                          unsigned char byte) JCOBS_STATE JCOBS_WRITES(2, 3) JCOBS_CHECKED;

/* Decodes the next bytes of a stream, like jcobs_decoder_push. The frames of this stream were encoded with the given
 * sentinel, and this sentinel ends each frame. The call may read one of the bytes
 * twice.
 *
 * Returns the same as jcobs_decoder_push, with the sentinel instead of the zero. */
JCOBS_API jcobs_answer jcobs_decoder_push_with_sentinel(jcobs_decoder *decoder, void *buffer, size_t buffer_size,
                                                        const void *bytes, size_t len,
                                                        unsigned char sentinel) JCOBS_STATE JCOBS_WRITES(2, 3)
    JCOBS_READS(4, 5) JCOBS_CHECKED;

/* Returns 1 if the decoder is idle, and 0 if a frame is open. A frame is open from its first byte until the sentinel
 * that ends it. At the end of a stream, the result 0 means that the sentinel after the last frame is missing. */
JCOBS_API unsigned int jcobs_decoder_is_idle(const jcobs_decoder *decoder) JCOBS_STATE JCOBS_CHECKED;

/* Resets the encoder to the initial state, from any state. */
JCOBS_API void jcobs_encoder_reset(jcobs_encoder *encoder) JCOBS_STATE;

/* Encodes the next bytes of a message into the buffer. If these bytes don't fit, you can push fewer bytes, finish the
 * message without these bytes, or drop the message with jcobs_encoder_reset.
 *
 * From the first push of a message until the message is finished, pass the same buffer with the same size, and don't
 * change the buffer's contents between two calls. Otherwise the contents of the buffer are unspecified. The call may
 * read one of the bytes twice.
 *
 * Returns:
 * - OK: consumed is len, and length is the length of the frame so far. This frame is still incomplete: only the call
 *   that finishes the message writes the code of the open block;
 * - TOO_SMALL, if and only if the frame of the message, including these bytes, doesn't fit: consumed and length are 0,
 *   and the state and the buffer are as they were. */
JCOBS_API jcobs_answer jcobs_encoder_push(jcobs_encoder *encoder, void *buffer, size_t buffer_size, const void *bytes,
                                          size_t len) JCOBS_STATE JCOBS_WRITES(2, 3) JCOBS_READS(4, 5) JCOBS_CHECKED;

/* Encodes one byte of a message. The call has the same effect as jcobs_encoder_push with this byte, and is faster.
 *
 * Returns the same as jcobs_encoder_push; consumed is 1 for OK, and 0 for TOO_SMALL. */
JCOBS_API jcobs_answer jcobs_encoder_feed(jcobs_encoder *encoder, void *buffer, size_t buffer_size,
                                          unsigned char byte) JCOBS_STATE JCOBS_WRITES(2, 3) JCOBS_CHECKED;

/* Ends the message. The buffer then begins with the frame that jcobs_encode would write for the message, and the
 * encoder is in the initial state.
 *
 * Returns:
 * - OK: consumed is 0, and length is the length of the frame;
 * - TOO_SMALL, if and only if the frame doesn't fit: consumed and length are 0, and the state and the buffer are as
 *   they were. If buffer_size is the same as in the pushes, this status is returned only if buffer_size is 0. */
JCOBS_API jcobs_answer jcobs_encoder_finish(jcobs_encoder *encoder, void *buffer, size_t buffer_size) JCOBS_STATE
    JCOBS_WRITES(2, 3) JCOBS_CHECKED;

/* Ends the message like jcobs_encoder_finish, and also writes a zero after the frame. The buffer needs room for the
 * frame and one more byte.
 *
 * Returns:
 * - OK: consumed is 0, and length is the length of the frame and its zero;
 * - TOO_SMALL, if the frame and its zero don't fit: consumed and length are 0, and the state and the buffer are as they
 *   were. */
JCOBS_API jcobs_answer jcobs_encoder_finish_terminated(jcobs_encoder *encoder, void *buffer,
                                                       size_t buffer_size) JCOBS_STATE JCOBS_WRITES(2, 3) JCOBS_CHECKED;

/* Ends the message like jcobs_encoder_finish, but XORs each byte of the frame with the given sentinel. Push the message
 * with jcobs_encoder_push or jcobs_encoder_feed, whatever the sentinel is.
 *
 * Returns the same as jcobs_encoder_finish. */
JCOBS_API jcobs_answer jcobs_encoder_finish_with_sentinel(jcobs_encoder *encoder, void *buffer, size_t buffer_size,
                                                          unsigned char sentinel) JCOBS_STATE
    JCOBS_WRITES(2, 3) JCOBS_CHECKED;

/* Ends the message like jcobs_encoder_finish_terminated, but XORs each byte of the frame with the given sentinel, and
 * writes this sentinel after the frame instead of a zero. Push the message with jcobs_encoder_push or
 * jcobs_encoder_feed, whatever the sentinel is.
 *
 * Returns the same as jcobs_encoder_finish_terminated. */
JCOBS_API jcobs_answer jcobs_encoder_finish_terminated_with_sentinel(jcobs_encoder *encoder, void *buffer,
                                                                     size_t buffer_size,
                                                                     unsigned char sentinel) JCOBS_STATE
    JCOBS_WRITES(2, 3) JCOBS_CHECKED;

/* So many bytes are enough for each text that jcobs_strerror writes. */
#define JCOBS_TEXT_LENGTH 48

/* Writes a short English description of a status to `text`, followed by a '\0'. A description that doesn't fit is cut
 * off; JCOBS_TEXT_LENGTH bytes are always enough. If text_size is 0, nothing is written. For a number that isn't a
 * status, the description is "unknown status".
 *
 * Returns the length of the whole description, without the '\0'. */
JCOBS_API size_t jcobs_strerror(unsigned int status, char *text, size_t text_size) JCOBS_WRITES(2, 3);

/* Returns the version of the library, as a number of the same form as JCOBS_VERSION. */
JCOBS_API unsigned int jcobs_version(void);

/* Returns 1. A library of another major version has no function of this name, so a program that calls this function
 * can't be linked with such a library. */
JCOBS_API unsigned int jcobs_abi_1(void);

#ifdef __cplusplus
}
#endif

#endif
