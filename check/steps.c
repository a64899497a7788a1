/* steps.c: compares the calls of jcobs.h with the format COBS, by enumeration.
 *
 *     cc -O2 -Ibindings/c/include check/steps.c bindings/c/source/jcobs.c -o steps && ./steps
 *
 * Any compiler for C99 will do. Link it with a built library instead of jcobs.c, and it checks that library.
 *
 * This file shares no code with the library. Four short functions say what is right. A reader can check them against a
 * description of COBS:
 *
 *   decode_byte    the step of a decoder for one byte
 *   encode_byte    the step of an encoder for one byte
 *   encode_end     the end of a message
 *   read_blocks    the format itself: it reads bytes as blocks, without a machine
 *
 * Part 1 calls the decoder with every byte, for each number of bytes missing in a block, each kind of block, and each place
 * in buffers of 0 to 4 bytes. Part 2 calls the encoder with every byte, for each length of the open block. Both also try
 * states that no call leaves. For these the header promises only that nothing outside the buffer changes, and that the
 * counts are within it.
 *
 * Part 3 takes every string of up to DEPTH tokens. A token is one of the bytes 0, 1, 2, 3 and 255, a full block, or a block
 * with one byte fewer. Each string is decoded as a stream and as a source, and encoded as a message, by each call: with several
 * lengths of the buffer, for several sentinels, and in two pushes. After the first push the state must be the one that the
 * format gives for these bytes, however they came; so pushes of any other number of pieces end in the same states. Then it
 * takes two blocks of each pair of lengths, as a library may have ways of its own for some lengths.
 *
 * Buffers end where their memory ends, so that a compiler's checks for accesses (-fsanitize=address, with -DMARGIN=0) see
 * each byte that is touched after them. Without these checks, only writes are noticed.
 */
#include "jcobs.h"

#include <stdio.h>
#include <stdlib.h>
#include <string.h>

#ifndef DEPTH
#define DEPTH 6 /* tokens in a string of part 3, at most 6 */
#endif
#ifndef MARGIN
#define MARGIN 8 /* bytes after a buffer that are compared after each call */
#endif

typedef unsigned char u8;

#define SIZE 2048 /* more than the longest string or frame */
#define ROOMS 14  /* the most lengths of a buffer that are tried for a frame */
#define FILL 0xEE /* the bytes of a buffer before a call; no string has this byte */

static unsigned long long cases;

/* The string that part 3 is about, for the report of a fault. */
static const u8 *subject;
static size_t subject_len;

static void stop(int line, const char *condition)
{
    size_t i;

    printf("FAILED: steps.c:%d: %s\n", line, condition);
    if (subject) {
        printf("bytes:");
        for (i = 0; i < subject_len; i++)
            printf(" %02x", subject[i]);
        printf("\n");
    }
    exit(1);
}

#define CHECK(condition) ((condition) ? (void)0 : stop(__LINE__, #condition))

/* Memory whose last bytes are the buffers. */
static u8 *new_block(void)
{
    u8 *block = (u8 *)malloc(SIZE + MARGIN);

    if (!block)
        stop(__LINE__, "there is memory");
    memset(block, FILL, SIZE + MARGIN);
    return block;
}

/* The last n bytes of a block, filled. */
static u8 *filled(u8 *block, size_t n)
{
    u8 *at = block + SIZE - n;

    memset(at - 8, FILL, n + 8 + MARGIN);
    return at;
}

/* The last n bytes of a block, with a copy of these bytes. */
static u8 *copied(u8 *block, const u8 *bytes, size_t n)
{
    u8 *at = block + SIZE - n;

    memcpy(at, bytes, n);
    return at;
}

/* Whether the bytes of a buffer from an index on, and the bytes around the buffer, are as `filled` left them. */
static int untouched(const u8 *buffer, size_t from, size_t n)
{
    size_t i;

    for (i = from; i < n + MARGIN; i++) {
        if (buffer[i] != FILL)
            return 0;
    }
    for (i = 1; i <= 8; i++) {
        if (buffer[-(int)i] != FILL)
            return 0;
    }
    return 1;
}

static u8 *block_a, *block_b;

/* Part 1: the decoder. */

/* The state of a decoder between two bytes of a stream. */
typedef struct decoder_state {
    size_t written;   /* bytes of the open message in the buffer */
    unsigned missing; /* bytes missing in the open block */
    int joint;        /* whether a zero joins the next block to the open one: it isn't full */
    int too_long;     /* whether the open message was too long for the buffer */
} decoder_state;

static const decoder_state idle = {0, 0, 0, 0};

/* The effects of a byte outside the state. */
typedef struct decoder_effect {
    jcobs_status status;
    size_t length;
    int puts; /* whether this byte is appended to the message in the buffer */
    u8 put;
} decoder_effect;

/* The step of a decoder for one byte, with a buffer of n bytes. */
static decoder_effect decode_byte(decoder_state *state, size_t n, u8 byte)
{
    decoder_effect effect = {JCOBS_MORE, 0, 0, 0};

    if (byte == 0) {
        if (state->too_long) {
            effect.status = JCOBS_TOO_SMALL;
            effect.length = n;
        } else if (state->missing > 0) {
            effect.status = JCOBS_BROKEN;
            effect.length = state->written;
        } else if (state->joint || state->written > 0) {
            effect.status = JCOBS_OK;
            effect.length = state->written;
        } /* else no frame has begun */
        *state = idle;
        return effect;
    }
    if (!state->too_long) {
        int is_code = state->missing == 0;

        effect.puts = !is_code || state->joint;
        effect.put = is_code ? 0 : byte;
        if (effect.puts && state->written == n) {
            effect.puts = 0;
            state->too_long = 1;
        } else {
            state->written += effect.puts != 0;
            state->missing = is_code ? byte - 1u : state->missing - 1;
            if (is_code)
                state->joint = byte != 255;
        }
    }
    effect.length = state->too_long ? n : state->written;
    return effect;
}

/* The library's state for these numbers, and back. */
static jcobs_decoder to_decoder(size_t written, unsigned missing, unsigned joint, unsigned too_long)
{
    jcobs_decoder decoder = JCOBS_DECODER_INIT;

    decoder.written = written;
    decoder.missing = (u8)missing;
    decoder.joint = (u8)joint;
    decoder.too_long = (u8)too_long;
    return decoder;
}

static int is_decoder(const jcobs_decoder *decoder, const decoder_state *state)
{
    if (state->too_long)
        return decoder->too_long != 0;
    return decoder->too_long == 0 && decoder->written == state->written && decoder->missing == state->missing &&
           !decoder->joint == !state->joint;
}

enum { BY_FEED, BY_PUSH, BY_PUSH_WITH_SENTINEL, WAYS };

static jcobs_answer decode_one(int way, jcobs_decoder *decoder, u8 *buffer, size_t n, u8 byte)
{
    u8 *at = block_b + SIZE - 1;

    if (way == BY_FEED)
        return jcobs_decoder_feed(decoder, buffer, n, byte);
    *at = byte;
    if (way == BY_PUSH)
        return jcobs_decoder_push(decoder, buffer, n, at, 1);
    *at ^= 0x5A;
    return jcobs_decoder_push_with_sentinel(decoder, buffer, n, at, 1, 0x5A);
}

static void decoder_steps(void)
{
    unsigned missing, byte;
    size_t n, written;
    int joint, too_long, way;

    for (missing = 0; missing < 255; missing++)
        for (joint = 0; joint < 2; joint++)
            for (too_long = 0; too_long < 2; too_long++)
                for (n = 0; n <= 4; n++)
                    for (written = 0; written <= n; written++)
                        for (byte = 0; byte < 256; byte++)
                            for (way = 0; way < WAYS; way++, cases++) {
                                jcobs_decoder decoder =
                                    to_decoder(written, missing, (unsigned)joint, (unsigned)too_long);
                                decoder_state state;
                                decoder_effect effect;
                                jcobs_answer answer;
                                u8 *buffer = filled(block_a, n);

                                state.written = written;
                                state.missing = missing;
                                state.joint = joint;
                                state.too_long = too_long;
                                CHECK(jcobs_decoder_is_idle(&decoder) == !(written || missing || joint || too_long));
                                effect = decode_byte(&state, n, (u8)byte);
                                answer = decode_one(way, &decoder, buffer, n, (u8)byte);
                                CHECK(answer.status == effect.status && answer.consumed == 1);
                                CHECK(answer.length == effect.length);
                                CHECK(is_decoder(&decoder, &state));
                                if (effect.puts) {
                                    CHECK(buffer[written] == effect.put);
                                    buffer[written] = FILL;
                                }
                                CHECK(untouched(buffer, 0, n));
                            }
}

/* Any other contents of a state. */
static void corrupt_decoders(void)
{
    static const u8 flags[] = {0, 1, 2, 255};
    static const u8 lackings[] = {0, 1, 2, 127, 253, 254, 255};
    size_t n, w, j, t, l;
    unsigned byte;
    int way;

    for (n = 0; n <= 4; n++)
        for (w = 0; w < 6; w++)
            for (l = 0; l < sizeof lackings; l++)
                for (j = 0; j < 4; j++)
                    for (t = 0; t < 4; t++)
                        for (byte = 0; byte < 256; byte++)
                            for (way = 0; way < WAYS; way++, cases++) {
                                const size_t writtens[6] = {0, n, n + 1, n + 2, (size_t)-1 / 2, (size_t)-1};
                                jcobs_decoder decoder = to_decoder(writtens[w], lackings[l], flags[j], flags[t]);
                                u8 *buffer = filled(block_a, n);
                                jcobs_answer answer = decode_one(way, &decoder, buffer, n, (u8)byte);

                                CHECK(answer.status <= JCOBS_BROKEN && answer.consumed == 1 && answer.length <= n);
                                CHECK(untouched(buffer, n, n));
                                if (byte == 0) /* a frame never affects the next */
                                    CHECK(is_decoder(&decoder, &idle) && untouched(buffer, 0, n));
                                decoder = to_decoder(writtens[w], lackings[l], flags[j], flags[t]);
                                jcobs_decoder_reset(&decoder);
                                CHECK(is_decoder(&decoder, &idle) && jcobs_decoder_is_idle(&decoder) == 1);
                            }
}

/* Part 2: the encoder. */

/* The state of an encoder between two bytes of a message. The blocks before the open one are written. */
typedef struct encoder_state {
    size_t index;   /* where the code of the open block belongs */
    unsigned taken; /* bytes that the open block has: they are written after that place */
    int full;       /* whether the last block that was written is full, and nothing has come after it */
} encoder_state;

/* The effects of a byte, or of the end, outside the state. */
typedef struct encoder_effect {
    size_t length; /* of the frame, if the message ends here: nothing is done if that doesn't fit */
    int puts;      /* whether the byte is written */
    size_t at;     /* and where */
    int closes;    /* whether the open block's code is written, at the index that the state had */
    u8 code;
    int terminates; /* whether a zero is written after the frame */
} encoder_effect;

/* The frame's length, if the message ends here. After a full block there is nothing more to write. */
static size_t frame_length(const encoder_state *state)
{
    return state->full ? state->index : state->index + 1 + state->taken;
}

/* The step of an encoder for one byte. */
static encoder_effect encode_byte(encoder_state *state, u8 byte)
{
    encoder_effect effect = {0, 0, 0, 0, 0, 0};

    state->full = 0;
    if (byte == 0) {
        effect.closes = 1;
    } else {
        effect.puts = 1;
        effect.at = state->index + 1 + state->taken;
        state->taken++;
        if (state->taken == 254) {
            effect.closes = 1;
            state->full = 1;
        }
    }
    if (effect.closes) {
        effect.code = (u8)(state->taken + 1);
        state->index += state->taken + 1;
        state->taken = 0;
    }
    effect.length = frame_length(state);
    return effect;
}

/* The end of a message. */
static encoder_effect encode_end(encoder_state *state, int terminates)
{
    encoder_effect effect = {0, 0, 0, 0, 0, 0};

    effect.closes = !state->full;
    effect.code = (u8)(state->taken + 1);
    effect.terminates = terminates;
    effect.length = frame_length(state) + (terminates ? 1 : 0);
    memset(state, 0, sizeof *state);
    return effect;
}

static jcobs_encoder to_encoder(size_t index, unsigned taken, unsigned full)
{
    jcobs_encoder encoder = JCOBS_ENCODER_INIT;

    encoder.index = index;
    encoder.taken = (u8)taken;
    encoder.full = (u8)full;
    return encoder;
}

static int is_encoder(const jcobs_encoder *encoder, const encoder_state *state)
{
    return encoder->index == state->index && encoder->taken == state->taken && !encoder->full == !state->full;
}

enum { FEEDS, PUSHES, FINISHES, FINISHES_WITH_SENTINEL, TERMINATES, TERMINATES_WITH_SENTINEL, ENCODER_CALLS };

static jcobs_answer encode_one(int call, jcobs_encoder *encoder, u8 *buffer, size_t n, u8 byte)
{
    u8 *at = block_b + SIZE - 1;

    *at = byte;
    switch (call) {
    case FEEDS:
        return jcobs_encoder_feed(encoder, buffer, n, byte);
    case PUSHES:
        return jcobs_encoder_push(encoder, buffer, n, at, 1);
    case FINISHES:
        return jcobs_encoder_finish(encoder, buffer, n);
    case FINISHES_WITH_SENTINEL:
        return jcobs_encoder_finish_with_sentinel(encoder, buffer, n, 0x5A);
    case TERMINATES:
        return jcobs_encoder_finish_terminated(encoder, buffer, n);
    default:
        return jcobs_encoder_finish_terminated_with_sentinel(encoder, buffer, n, 0x5A);
    }
}

/* One call in one state, whose frame so far is `before`; it fits a buffer of n bytes. */
static void encoder_step(const u8 *before, encoder_state state, size_t n, int call, u8 byte)
{
    static u8 expected[SIZE];
    const encoder_state start = state;
    size_t so_far = frame_length(&state), i;
    jcobs_encoder encoder = to_encoder(state.index, state.taken, (unsigned)state.full);
    u8 *buffer = filled(block_a, n);
    encoder_effect effect = call <= PUSHES ? encode_byte(&state, byte) : encode_end(&state, call >= TERMINATES);
    jcobs_answer answer;

    memcpy(buffer, before, so_far);
    memcpy(expected, before, so_far);
    memset(expected + so_far, FILL, n - so_far);
    answer = encode_one(call, &encoder, buffer, n, byte);
    cases++;
    if (effect.length > n) {
        CHECK(answer.status == JCOBS_TOO_SMALL && answer.consumed == 0 && answer.length == 0);
        CHECK(is_encoder(&encoder, &start));
        CHECK(memcmp(buffer, expected, n) == 0 && untouched(buffer, n, n));
        return;
    }
    CHECK(answer.status == JCOBS_OK && answer.consumed == (call <= PUSHES) && answer.length == effect.length);
    CHECK(is_encoder(&encoder, &state));
    if (effect.puts)
        expected[effect.at] = byte;
    if (effect.closes)
        expected[start.index] = effect.code;
    if (effect.terminates)
        expected[effect.length - 1] = 0;
    if (call == FINISHES_WITH_SENTINEL || call == TERMINATES_WITH_SENTINEL)
        for (i = 0; i < effect.length; i++)
            expected[i] ^= 0x5A;
    if (call <= PUSHES && !state.full) /* until the block is closed, its code may be anything */
        expected[state.index] = buffer[state.index];
    CHECK(memcmp(buffer, expected, n) == 0 && untouched(buffer, n, n));
}

/* Blocks end to end: of each length that is given, up to a 0. Returns how many bytes they have. */
static size_t put_blocks(u8 *to, const unsigned *lengths)
{
    size_t at = 0;
    unsigned i;

    for (; *lengths; lengths++) {
        to[at] = (u8)*lengths;
        for (i = 1; i < *lengths; i++)
            to[at + i] = (u8)(i % 200 + 1);
        at += *lengths;
    }
    return at;
}

static void encoder_steps(void)
{
    /* Blocks before the open one: those that a wrong step could confuse are full, almost full, or short. */
    static const unsigned blocks[][4] = {{0},      {1, 0},      {2, 0},      {254, 0},     {1, 254, 0},
                                         {255, 0}, {1, 255, 0}, {255, 1, 0}, {255, 255, 0}};
    static u8 before[SIZE];
    size_t b, extra;
    unsigned taken, byte;
    int call;

    for (b = 0; b < sizeof blocks / sizeof blocks[0]; b++) {
        encoder_state state;
        int after_full = 0;
        const unsigned *last;

        for (last = blocks[b]; *last; last++)
            after_full = *last == 255;
        state.index = put_blocks(before, blocks[b]);
        for (taken = 0; taken < 254; taken++) {
            state.taken = taken;
            state.full = after_full && taken == 0;
            before[state.index] = 77; /* the place of the code */
            if (taken)
                before[state.index + taken] = (u8)(taken % 200 + 1);
            for (extra = 0; extra < 4; extra++) {
                size_t n = frame_length(&state) + extra;

                for (byte = 0; byte < 256; byte++)
                    for (call = FEEDS; call <= PUSHES; call++)
                        encoder_step(before, state, n, call, (u8)byte);
                for (call = FINISHES; call < ENCODER_CALLS; call++)
                    encoder_step(before, state, n, call, 0);
            }
        }
    }
}

/* Any other contents of a state, and buffers that its frame doesn't fit. */
static void corrupt_encoders(void)
{
    static const u8 flags[] = {0, 1, 2, 255};
    static const u8 takens[] = {0, 1, 2, 126, 127, 128, 252, 253, 254, 255};
    static const u8 bytes[] = {0, 1, 254, 255};
    static const size_t lengths[] = {0, 1, 2, 3, 4, 253, 254, 255, 256, 257, 258, 259, 600};
    size_t i, t, f, b, l, k;
    int call;

    for (i = 0; i < 14; i++)
        for (t = 0; t < sizeof takens; t++)
            for (f = 0; f < 4; f++)
                for (l = 0; l < sizeof lengths / sizeof lengths[0]; l++)
                    for (b = 0; b < sizeof bytes; b++)
                        for (call = 0; call < ENCODER_CALLS; call++, cases++) {
                            const size_t n = lengths[l], end = (size_t)-1;
                            const size_t indices[14] = {0,   1,           2, 254,   255,     256,       257,
                                                        600, n - (n > 0), n, n + 1, end / 2, end - 255, end};
                            jcobs_encoder encoder = to_encoder(indices[i], takens[t], flags[f]);
                            u8 *buffer = filled(block_a, n);
                            jcobs_answer answer = encode_one(call, &encoder, buffer, n, bytes[b]);

                            CHECK(answer.status == JCOBS_OK || answer.status == JCOBS_TOO_SMALL);
                            CHECK(answer.consumed <= (call <= PUSHES) && answer.length <= n);
                            CHECK(untouched(buffer, answer.length, n));
                            if (n == 0 || indices[i] > n)
                                CHECK(answer.status == JCOBS_TOO_SMALL);
                            if (answer.status == JCOBS_TOO_SMALL) {
                                CHECK(answer.consumed == 0 && answer.length == 0);
                                CHECK(encoder.index == indices[i] && encoder.taken == takens[t] &&
                                      encoder.full == flags[f]);
                            }
                            for (k = 0; k < 2; k++) { /* by reset, whatever the call left */
                                const encoder_state start = {0, 0, 0};

                                jcobs_encoder_reset(&encoder);
                                CHECK(is_encoder(&encoder, &start));
                                encoder = to_encoder(indices[i], takens[t], flags[f]);
                            }
                        }
}

/* Part 3: the format. */

/* Bytes without a zero, read as blocks. */
typedef struct reading {
    size_t length; /* of what they decode to */
    size_t kept;   /* of what the whole blocks decode to, with the zero after them if they aren't full */
    int broken;    /* whether there are none, or bytes of the last block are missing */
    int longer; /* whether the last block is 1, after a full one: then the frame without it reads as the same message */
    size_t last;      /* where the last block begins */
    unsigned missing; /* how many bytes of the last block are missing */
    int joint;        /* whether a zero would join another block to the last one */
} reading;

/* Reads bytes as blocks, end to end. A block is a code, and bytes after it; the code counts them and itself. They stand for
 * these bytes, and a zero between two blocks unless the first is full, that is has the code 255. */
static reading read_blocks(const u8 *bytes, size_t len, u8 *message)
{
    reading r = {0, 0, 1, 0, 0, 0, 0};
    size_t at = 0;
    unsigned before = 0;

    while (at < len) {
        unsigned code = bytes[at];
        size_t here = code <= len - at ? code : len - at;

        if (r.joint)
            message[r.length++] = 0;
        r.last = at;
        r.kept = r.length;
        memcpy(message + r.length, bytes + at + 1, here - 1);
        r.length += here - 1;
        r.missing = (unsigned)(code - here);
        r.broken = r.missing > 0;
        if (!r.broken)
            r.kept = r.length;
        r.joint = code != 255;
        r.longer = !r.broken && code == 1 && before == 255;
        before = code;
        at += code;
    }
    return r;
}

static u8 string[SIZE], text[SIZE], frame[SIZE], again[SIZE];

/* Where part 3 cuts a string. */
static size_t cuts[SIZE], cut_count;

static size_t min_of(size_t a, size_t b)
{
    return a < b ? a : b;
}

/* How many bytes there are up to the first zero, or in all. */
static size_t head_length(const u8 *bytes, size_t len)
{
    size_t i = 0;

    while (i < len && bytes[i] != 0)
        i++;
    return i;
}

static void xor_all(u8 *bytes, size_t len, u8 sentinel)
{
    size_t i;

    for (i = 0; i < len; i++)
        bytes[i] ^= sentinel;
}

/* The string as a stream, in two pushes, with a buffer of n bytes. */
static void check_stream(size_t len, size_t n, size_t cut, u8 sentinel)
{
    jcobs_decoder decoder = JCOBS_DECODER_INIT;
    u8 *buffer = filled(block_a, n);
    size_t at = 0, start = 0; /* the next byte to push; the first byte of the open piece */
    int second;

    cases++;
    for (second = 0; second < 2; second++) {
        size_t end = second ? len : cut;

        do { /* also if there are no bytes */
            size_t i = at, got;
            reading r;
            jcobs_answer answer;
            u8 *source = copied(block_b, string + at, end - at);
            int ends;

            while (i < end && (string[i] != 0 || i == start)) {
                if (string[i] == 0)
                    start = i + 1; /* a zero between two pieces */
                i++;
            }
            ends = i < end;
            r = read_blocks(string + start, i - start, text);
            got = min_of(r.length, n);
            if (sentinel) {
                xor_all(source, end - at, sentinel);
                answer = jcobs_decoder_push_with_sentinel(&decoder, buffer, n, source, end - at, sentinel);
            } else {
                answer = jcobs_decoder_push(&decoder, buffer, n, source, end - at);
            }
            CHECK(answer.consumed == (ends ? i + 1 : end) - at);
            CHECK(answer.length == got && memcmp(buffer, text, got) == 0 && untouched(buffer, got, n));
            if (ends) {
                CHECK(answer.status == (r.length > n ? JCOBS_TOO_SMALL : r.broken ? JCOBS_BROKEN : JCOBS_OK));
                CHECK(is_decoder(&decoder, &idle));
                filled(block_a, n);
                at = start = i + 1;
            } else {
                decoder_state state = idle;

                if (i > start) {
                    state.written = r.length;
                    state.missing = r.missing;
                    state.joint = r.joint;
                    state.too_long = r.length > n;
                }
                CHECK(answer.status == JCOBS_MORE && is_decoder(&decoder, &state));
                CHECK(jcobs_decoder_is_idle(&decoder) == (i == start));
                at = end;
            }
        } while (at < end);
    }
}

/* The string as the source of each call that decodes one frame. */
static void check_source(size_t len, size_t n, u8 sentinel)
{
    size_t zeros = 0, head = head_length(string, len), piece, got, through;
    u8 *source = copied(block_b, string, len), *buffer = filled(block_a, n);
    reading r;
    jcobs_answer answer;

    cases++;
    /* The first piece, after zeros. */
    while (zeros < len && string[zeros] == 0)
        zeros++;
    piece = head_length(string + zeros, len - zeros);
    r = read_blocks(string + zeros, piece, text);
    got = min_of(r.length, n);
    answer = jcobs_decode(source, len, buffer, n);
    CHECK(answer.consumed == min_of(zeros + piece + 1, len));
    CHECK(answer.status == (piece == 0     ? JCOBS_EMPTY
                            : r.length > n ? JCOBS_TOO_SMALL
                            : r.broken     ? JCOBS_BROKEN
                                           : JCOBS_OK));
    CHECK(answer.length == got && memcmp(buffer, text, got) == 0 && untouched(buffer, got, n));

    /* The bytes up to the first sentinel. If there are none before it, the message is empty. */
    r = read_blocks(string, head, text);
    got = min_of(r.kept, n);
    through = min_of(head + 1, len);
    buffer = filled(block_a, n);
    xor_all(source, len, sentinel);
    answer = jcobs_decode_with_sentinel(source, len, buffer, n, sentinel);
    CHECK(answer.consumed == through);
    CHECK(answer.status == (len == 0           ? JCOBS_EMPTY
                            : r.kept > n       ? JCOBS_TOO_SMALL
                            : head && r.broken ? JCOBS_BROKEN
                                               : JCOBS_OK));
    CHECK(answer.length == got && memcmp(buffer, text, got) == 0 && untouched(buffer, got, n));
}

/* The same in place, where the buffer always suffices. */
static void check_in_place(size_t len, u8 sentinel)
{
    size_t head = head_length(string, len), through = min_of(head + 1, len);
    reading r = read_blocks(string, head, text);
    const jcobs_status status = len == 0 ? JCOBS_EMPTY : head && r.broken ? JCOBS_BROKEN : JCOBS_OK;
    jcobs_answer answer;
    u8 *buffer;
    unsigned kind;

    cases++;
    filled(block_a, len);
    buffer = copied(block_a, string, len);
    answer = jcobs_decode_in_place(buffer, len);
    CHECK(answer.status == status && answer.consumed == through && answer.length == r.kept);
    CHECK(memcmp(buffer, text, r.kept) == 0 && memcmp(buffer + r.kept, string + r.kept, len - r.kept) == 0);
    CHECK(untouched(buffer, len, len));

    copied(block_a, string, len);
    xor_all(buffer, len, sentinel);
    answer = jcobs_decode_in_place_with_sentinel(buffer, len, sentinel);
    CHECK(answer.status == status && answer.consumed == through && answer.length == r.kept);
    CHECK(memcmp(buffer, text, r.kept) == 0 && memcmp(buffer + r.kept, string + r.kept, head - r.kept) == 0);
    xor_all(buffer + head, len - head, sentinel);
    CHECK(memcmp(buffer + head, string + head, len - head) == 0 && untouched(buffer, len, len));

    kind = jcobs_frame_kind(copied(block_b, string, len), len);
    if (head < len || r.broken)
        CHECK(kind == JCOBS_NOT_A_FRAME);
    else
        CHECK(kind == (unsigned)(r.longer ? JCOBS_LONGER : JCOBS_CANONICAL));
}

/* Encodes a message with room to spare, and checks by the format that the result is its encoded frame: it has no zero, it
 * reads as the message, and it doesn't end in the block 1 after a full one. There is only one such frame. */
static size_t encoded(const u8 *message, size_t len, u8 *to, reading *r)
{
    size_t room = len + (len == 0 ? 1 : len / 254 + (len % 254 != 0));
    jcobs_answer answer;

    CHECK(jcobs_max_length(len) == room && JCOBS_MAX_LENGTH(len) == room);
    answer = jcobs_encode(message, len, to, room);
    CHECK(answer.status == JCOBS_OK && answer.consumed == len && answer.length <= room);
    CHECK(memchr(to, 0, answer.length) == NULL);
    *r = read_blocks(to, answer.length, again);
    CHECK(!r->broken && !r->longer && r->length == len && memcmp(again, message, len) == 0);
    return answer.length;
}

/* Lengths of buffers for a frame of this length: about that, and for strings of up to four tokens also shorter ones. */
static size_t rooms_for(size_t length, int shorter, size_t *rooms)
{
    const size_t wanted[ROOMS] = {length, length - 1, length + 1, length - 2, length / 2, 0,   1,
                                  2,      253,        254,        255,        256,        257, 258};
    size_t count = 0, i;

    for (i = 0; i < (shorter ? ROOMS : 3); i++) {
        if (wanted[i] <= length + 1) /* length - 2 may have wrapped round */
            rooms[count++] = wanted[i];
    }
    return count;
}

/* The string as a message, in one call. Its encoded frame, of this length, is in `frame`. */
static void check_message(size_t len, size_t length, int shorter, u8 sentinel)
{
    size_t rooms[ROOMS], count = rooms_for(length, shorter, rooms), overhead = JCOBS_MAX_OVERHEAD(len), k, n;
    u8 *source, *buffer;
    jcobs_answer answer;
    int with, terminated;

    for (k = 0; k < count; k++)
        for (with = 0; with < 2; with++)
            for (terminated = 0; terminated < 2; terminated++, cases++) {
                size_t wanted = length + (terminated ? 1 : 0);

                n = rooms[k];
                source = copied(block_b, string, len);
                buffer = filled(block_a, n);
                if (with)
                    answer = terminated ? jcobs_encode_terminated_with_sentinel(source, len, buffer, n, sentinel)
                                        : jcobs_encode_with_sentinel(source, len, buffer, n, sentinel);
                else
                    answer = terminated ? jcobs_encode_terminated(source, len, buffer, n)
                                        : jcobs_encode(source, len, buffer, n);
                if (n < wanted) {
                    CHECK(answer.status == JCOBS_TOO_SMALL && answer.consumed == 0 && answer.length == 0);
                    CHECK(untouched(buffer, 0, n));
                    continue;
                }
                CHECK(answer.status == JCOBS_OK && answer.consumed == len && answer.length == wanted);
                if (with)
                    xor_all(buffer, wanted, sentinel);
                CHECK(memcmp(buffer, frame, length) == 0 && (!terminated || buffer[length] == 0));
                CHECK(untouched(buffer, wanted, n));
            }

    /* In place: the message is after the room for the longest frame's other bytes. */
    count = rooms_for(overhead + len, shorter, rooms);
    for (k = 0; k < count; k++, cases++) {
        n = rooms[k];
        buffer = filled(block_a, n);
        if (n >= overhead + len)
            memcpy(buffer + overhead, string, len);
        memcpy(again, buffer, n);
        answer = jcobs_encode_in_place(buffer, n, overhead, len);
        if (n < overhead + len) {
            CHECK(answer.status == JCOBS_TOO_SMALL && answer.consumed == 0 && answer.length == 0);
            CHECK(untouched(buffer, 0, n));
            continue;
        }
        CHECK(answer.status == JCOBS_OK && answer.consumed == len && answer.length == length);
        CHECK(memcmp(buffer, frame, length) == 0);
        CHECK(memcmp(buffer + length, again + length, n - length) == 0 && untouched(buffer, n, n));
    }
}

/* The state of an encoder, by the encoded frame of what it has taken. */
static encoder_state state_after(const u8 *encoded_frame, size_t length, const reading *r)
{
    encoder_state state;

    state.full = encoded_frame[r->last] == 255;
    state.index = state.full ? length : r->last;
    state.taken = state.full ? 0 : encoded_frame[r->last] - 1u;
    return state;
}

/* Whether the buffer has the frame, but for the code of an open block, and nothing after it. */
static int has_open_frame(const u8 *buffer, size_t n, const u8 *expected, size_t length, const encoder_state *state)
{
    size_t code = state->full ? length : state->index, after = min_of(code + 1, length);

    return memcmp(buffer, expected, code) == 0 && memcmp(buffer + after, expected + after, length - after) == 0 &&
           untouched(buffer, length, n);
}

/* The string as a message, in two pushes. Its encoded frame, of this length, is in `frame`. */
static void check_pushes(size_t len, size_t cut, size_t length, const encoder_state *after, int shorter, u8 sentinel)
{
    static u8 first_frame[SIZE];
    const encoder_state whole = *after, start = {0, 0, 0};
    reading r;
    size_t first_length = encoded(string, cut, first_frame, &r), rooms[ROOMS],
           count = rooms_for(length, shorter, rooms), k;
    const encoder_state first = state_after(first_frame, first_length, &r);
    jcobs_encoder encoder;
    jcobs_answer answer;

    for (k = 0; k < count; k++, cases++) {
        size_t n = rooms[k];
        u8 *buffer = filled(block_a, n), *source = copied(block_b, string, cut);

        jcobs_encoder_reset(&encoder);
        answer = jcobs_encoder_push(&encoder, buffer, n, source, cut);
        if (first_length > n) {
            CHECK(answer.status == JCOBS_TOO_SMALL && answer.consumed == 0 && answer.length == 0);
            CHECK(is_encoder(&encoder, &start) && untouched(buffer, 0, n));
            continue;
        }
        CHECK(answer.status == JCOBS_OK && answer.consumed == cut && answer.length == first_length);
        CHECK(is_encoder(&encoder, &first) && has_open_frame(buffer, n, first_frame, first_length, &first));
        source = copied(block_b, string + cut, len - cut);
        answer = jcobs_encoder_push(&encoder, buffer, n, source, len - cut);
        if (length > n) {
            CHECK(answer.status == JCOBS_TOO_SMALL && answer.consumed == 0 && answer.length == 0);
            CHECK(is_encoder(&encoder, &first) && has_open_frame(buffer, n, first_frame, first_length, &first));
            answer = jcobs_encoder_finish(&encoder, buffer, n); /* the shorter message */
            CHECK(answer.status == JCOBS_OK && answer.consumed == 0 && answer.length == first_length);
            CHECK(memcmp(buffer, first_frame, first_length) == 0 && untouched(buffer, first_length, n));
            continue;
        }
        CHECK(answer.status == JCOBS_OK && answer.consumed == len - cut && answer.length == length);
        CHECK(is_encoder(&encoder, &whole) && has_open_frame(buffer, n, frame, length, &whole));
        if (length == n) { /* one byte too few for a terminator: nothing changes */
            answer = jcobs_encoder_finish_terminated(&encoder, buffer, n);
            CHECK(answer.status == JCOBS_TOO_SMALL && answer.consumed == 0 && answer.length == 0);
            CHECK(is_encoder(&encoder, &whole) && has_open_frame(buffer, n, frame, length, &whole));
        }
        answer = jcobs_encoder_finish_with_sentinel(&encoder, buffer, n, sentinel);
        CHECK(answer.status == JCOBS_OK && answer.consumed == 0 && answer.length == length);
        CHECK(is_encoder(&encoder, &start) && untouched(buffer, length, n));
        xor_all(buffer, length, sentinel);
        CHECK(memcmp(buffer, frame, length) == 0);
    }
}

/* Appends a token to a string. */
static size_t put_token(unsigned token, u8 *to, int of_frame)
{
    static const u8 bytes[] = {0, 1, 2, 3, 255};
    size_t i, run = token == 5 ? 254 : 253;

    if (token < sizeof bytes) {
        to[0] = bytes[token];
        return 1;
    }
    /* Bytes for a block, in a frame after its code. */
    if (of_frame)
        *to++ = (u8)(run + 1);
    for (i = 0; i < run; i++)
        to[i] = (u8)(i % 200 + 1);
    return run + (of_frame ? 1 : 0);
}

/* The string of this number: its digits are the tokens. Every place is a cut if the string is short; otherwise its ends, and
 * the places beside the ends of the tokens. */
static size_t put_string(unsigned long number, unsigned depth, int of_frame)
{
    size_t len = 0, i;
    unsigned k;

    cut_count = 0;
    cuts[cut_count++] = 0;
    for (k = 0; k < depth; k++, number /= 7) {
        len += put_token((unsigned)(number % 7), string + len, of_frame);
        for (i = len - 1; i <= len + 1; i++) {
            if (i > cuts[cut_count - 1])
                cuts[cut_count++] = i;
        }
    }
    while (cuts[cut_count - 1] > len)
        cut_count--;
    if (depth <= 2) {
        for (i = 0; i <= len; i++)
            cuts[i] = i;
        cut_count = len + 1;
    }
    subject = string;
    subject_len = len;
    return len;
}

/* Every call with the string, which is a stream of pieces, as in a frame or in several. */
static void check_frames(size_t len, u8 sentinel)
{
    size_t longest = 0, i, start, rooms[5];
    unsigned r;

    /* Rooms about the longest message of the stream, and fewer. */
    for (start = 0; start <= len; start += head_length(string + start, len - start) + 1) {
        reading piece = read_blocks(string + start, head_length(string + start, len - start), text);

        if (piece.length > longest)
            longest = piece.length;
    }
    rooms[0] = longest;
    rooms[1] = longest + 3;
    rooms[2] = longest ? longest - 1 : 0;
    rooms[3] = longest / 2;
    rooms[4] = 0;
    for (r = 0; r < 5; r++) {
        if (r > 1 && rooms[r] == rooms[r - 1])
            continue;
        check_source(len, rooms[r], sentinel);
        for (i = 0; i < cut_count; i++)
            check_stream(len, rooms[r], cuts[i], 0);
        check_stream(len, rooms[r], cuts[len % cut_count], sentinel);
    }
    check_in_place(len, sentinel);
}

/* Every call with the string as a message. */
static void check_messages(size_t len, int shorter, u8 sentinel)
{
    reading whole;
    size_t length = encoded(string, len, frame, &whole), i;
    encoder_state after = state_after(frame, length, &whole);

    check_message(len, length, shorter, sentinel);
    for (i = 0; i < cut_count; i++)
        check_pushes(len, cuts[i], length, &after, shorter, sentinel);
}

static const u8 sentinels[] = {1, 2, 0x5A, 255};

static void check_string(unsigned long number, unsigned depth)
{
    const u8 sentinel = sentinels[number % 4];

    check_frames(put_string(number, depth, 1), sentinel);
    check_messages(put_string(number, depth, 0), depth <= 4, sentinel);
}

/* Two blocks of each pair of lengths: whole, without the last byte, and with a zero after them; and their message. */
static void check_pairs(void)
{
    unsigned pair[3] = {0, 0, 0}, step = DEPTH < 6 ? 7 : 1;

    subject = string;
    for (pair[0] = 1; pair[0] < 256; pair[0]++)
        for (pair[1] = 1; pair[1] < 256; pair[1] += step) {
            const u8 sentinel = sentinels[(pair[0] + pair[1]) % 4];
            size_t len = put_blocks(string, pair), longer = len + 1;
            reading r = read_blocks(string, len, text);

            cuts[0] = pair[0];
            cut_count = 1;
            string[len] = 0;
            for (subject_len = len - 1; subject_len <= longer; subject_len++)
                check_frames(subject_len, sentinel);
            subject_len = r.length;
            memcpy(string, text, r.length);
            check_messages(r.length, 0, sentinel);
        }
}

/* The lengths that no frame has. */
static void check_lengths(void)
{
    size_t n, k;

    for (n = 0; n < 70000; n++)
        CHECK(jcobs_max_length(n) == (n == 0 ? 1 : n + n / 254 + (n % 254 != 0)));
    for (k = 0; k < 600; k++, cases++) {
        const size_t fits = (size_t)-1 / 255 * 254; /* its frame has as many bytes as SIZE_MAX, or a few less */

        n = fits - 300 + k;
        CHECK(jcobs_max_length(n) == (n + n / 254 + (n % 254 != 0) < n ? 0 : n + n / 254 + (n % 254 != 0)));
        CHECK(jcobs_max_length((size_t)-1 - k) == 0);
    }
}

int main(void)
{
    unsigned long count = 1, number;
    unsigned long long before;
    unsigned depth;

    block_a = new_block();
    block_b = new_block();
    decoder_steps();
    printf("decoder: %llu steps\n", cases);
    before = cases;
    encoder_steps();
    printf("encoder: %llu steps and ends\n", cases - before);
    before = cases;
    corrupt_decoders();
    corrupt_encoders();
    printf("corrupt states: %llu calls\n", cases - before);
    before = cases;
    check_lengths();
    for (depth = 0; depth <= DEPTH; depth++, count *= 7)
        for (number = 0; number < count; number++)
            check_string(number, depth);
    printf("strings of up to %d tokens: %llu cases\n", DEPTH, cases - before);
    before = cases;
    check_pairs();
    printf("pairs of blocks: %llu cases\n", cases - before);
    free(block_a);
    free(block_b);
    return 0;
}
