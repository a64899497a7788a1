/* jcobs.c: the calls of jcobs.h in one file of C, for any processor. Written by translate.py: don't edit.
 *
 * SPDX-License-Identifier: MIT OR Apache-2.0
 *
 * Compile this file with your program, as C99 or later or as C++, with jcobs.h in the same folder or in the include
 * path. The C compiler must be able to return structs. The file has no static variables, except a constant table with
 * the texts of jcobs_strerror, and allocates no memory.
 *
 * JCOBS_FAST is the one choice. With -DJCOBS_FAST, more bytes than JCOBS_SHORT are searched by memchr, and copied by memcpy
 * and memmove. That is many times as fast if zeros are rare, and takes more flash. Without JCOBS_FAST all bytes are
 * encoded and decoded one by one, and the file calls no function of a C library. (A compiler may turn some lines of the
 * file into calls of memset, memcpy or memmove.) The results are the same. The build files for hosts define JCOBS_FAST;
 * those for devices don't.
 *
 * What is proved: each function of crates/cobs_c meets its contract, accesses only the buffers that are passed to
 * it, and returns. The proofs are for lengths of 64 bits and for any contents of the buffers and states. The comment
 * above a call summarizes its contract, and names the file of crates/cobs_c/src that has the contract. The words of
 * the contracts are defined in crates/cobs_c/specs and crates/cobs/specs. The proofs hold for any value of JCOBS_SHORT.
 *
 * What is tested, not proved: this file does what the functions in Rattle do. translate.py translated each function from
 * Rattle, and your compiler compiles it. Lengths have the width of your size_t. bindings/c/tests/translated.py, which
 * shares no code with translate.py, runs the functions in Rattle, and compares the results with those of this file.
 * bindings/c/tests/run.sh and tests/device.sh run this file on processors of both byte orders, whose size_t has 16, 32 or
 * 64 bits. They run the cases of conformance/, unless size_t has 16 bits. They also make random calls with states of
 * random bytes, and compare the results with those of plain C. The functions from jcobs_strerror to the end of this file
 * are written by hand, and tested in the same way.
 */
#include "jcobs.h"

#include <limits.h>
#ifdef JCOBS_FAST
#include <string.h>
#endif

/* These two types don't compile on a processor that this file doesn't support. The first doesn't compile if bytes have
 * more than 8 bits, and the second doesn't compile if size_t is shorter than unsigned int. */
typedef char jcobs_bytes_have_8_bits[CHAR_BIT == 8 ? 1 : -1];
typedef char jcobs_size_t_is_no_shorter_than_int[sizeof(size_t) >= sizeof(unsigned int) ? 1 : -1];

/* Which functions are inlined:
 *
 * - JCOBS_INLINE: always inlined, because a loop over bytes calls the function, or because it only makes a struct.
 * - JCOBS_APART: not inlined, so that the loop of the function can use all registers of a small processor. On x86-64 the
 *   function may be inlined: this processor has more registers, and a call takes as much time as several bytes.
 * - JCOBS_ONCE: inlined with JCOBS_FAST. Without it, one copy of the function serves all calls. */
#ifdef __GNUC__
#define JCOBS_INLINE __inline__ __attribute__((always_inline))
#ifdef __x86_64__
#define JCOBS_APART __inline__
#else
#define JCOBS_APART __attribute__((noinline))
#endif
#else
#define JCOBS_INLINE inline
#define JCOBS_APART
#endif
#ifdef JCOBS_FAST
#define JCOBS_ONCE JCOBS_INLINE
#else
#define JCOBS_ONCE
#endif

/* A frame is a sequence of blocks. A block is a code, from 1 to 255, followed by code - 1 bytes, none of which is 0. A
 * block with the code 255 is full. The message consists of the bytes after the code of each block, and of a zero after
 * each block that is neither full nor the last. The last block is open as long as more bytes may follow. */
/* the constants */

/* jcobs.h declares the states. Their members have these meanings:
 *
 * - In a decoder, the first `written` bytes of the buffer are the open message so far, and the open block still needs
 *   `missing` bytes. `joint` is 1 after the code of a block that isn't full: if another block follows, the message has a
 *   zero between these two blocks. `joint` is 0 at the start, and after the code of a full block. too_long is 1 if there
 *   was no room for a byte of the message: then the rest of the piece is skipped.
 * - In an encoder, the code of the open block will be written at `index` in the buffer, and the `taken` bytes of this
 *   block follow the code. `full` is 1 if the last byte made a block full: the frame ends with this block, unless
 *   another byte follows.
 *
 * A member may also have any other value. In `joint`, too_long and `full`, each value except 0 means the same as 1. */

/* The functions jcobs_make_.. return a struct with the given members. They are used because C++ has no compound
 * literals. */

/* How a piece of a stream ended. A piece is the bytes between two zeros: a frame, or a broken frame. */
enum jcobs_end_kind {
    JCOBS_END_MESSAGE,  /* the piece is the frame of a message; `count` is the message's length */
    JCOBS_END_BROKEN,   /* the piece breaks off inside a block; `count` is the length of its output */
    JCOBS_END_TOO_LONG, /* the output of the piece is longer than the buffer */
    JCOBS_END_NONE      /* the piece hasn't ended, or there is no piece: `count` has no meaning */
};

typedef struct jcobs_end {
    enum jcobs_end_kind kind;
    size_t count;    /* the length of a message, or of the output of a broken piece */
    size_t consumed; /* how many bytes were consumed, if the function says so */
} jcobs_end;

static JCOBS_INLINE jcobs_end jcobs_make_end(enum jcobs_end_kind kind, size_t count, size_t consumed)
{
    jcobs_end end;

    end.kind = kind;
    end.count = count;
    end.consumed = consumed;
    return end;
}

/* Whether an encoder's frame fits the buffer, and the frame's length if it fits. */
typedef struct jcobs_frame_length {
    int fits;
    size_t length;
} jcobs_frame_length;

static JCOBS_INLINE jcobs_frame_length jcobs_make_frame_length(int fits, size_t length)
{
    jcobs_frame_length result;

    result.fits = fits;
    result.length = length;
    return result;
}

static JCOBS_INLINE jcobs_answer jcobs_make_answer(JCOBS_STATUS status, size_t consumed, size_t length)
{
    jcobs_answer answer;

    answer.status = status;
    answer.consumed = consumed;
    answer.length = length;
    return answer;
}
