/* Makes random calls of the library on a device, and compares each with the same call of plain.c: random CALLS
 *
 * Around the buffers are bytes that no call may change. Half of the states come from earlier calls, whose buffer is kept
 * too; the other states are random bytes. */
#include "plain.h"

#include <stdio.h>
#include <stdlib.h>
#include <string.h>

#define ROOM 300
#define AROUND 16

static unsigned long seed = 1;
static unsigned char mine[AROUND + ROOM + AROUND];
static unsigned char theirs[AROUND + ROOM + AROUND];
static unsigned char bytes[ROOM];

static unsigned int any(unsigned int below)
{
    seed = seed * 1664525u + 1013904223u;
    return (unsigned int)((seed >> 8) & 0xffffff) % below;
}

static void fill(unsigned char *at, size_t len, unsigned int zeros)
{
    size_t i;

    for (i = 0; i < len; i++)
        at[i] = any(zeros) == 0 ? 0 : (unsigned char)(any(8) == 0 ? 255 : any(256));
}

static int same(jcobs_answer a, jcobs_answer b)
{
    return a.status == b.status && a.consumed == b.consumed && a.length == b.length &&
           memcmp(mine, theirs, sizeof mine) == 0;
}

static int decodes(jcobs_decoder *decoder, size_t room, size_t len)
{
    jcobs_decoder other = *decoder;
    unsigned char *to = mine + AROUND;
    int is_idle = other.written == 0 && other.missing == 0 && other.joint == 0 && other.too_long == 0;
    jcobs_answer answer;

    if (jcobs_decoder_is_idle(decoder) != (unsigned int)is_idle)
        return 0;
    answer = len == 1 && any(2) ? jcobs_decoder_feed(decoder, to, room, bytes[0])
                                : jcobs_decoder_push(decoder, room ? to : NULL, room, len ? bytes : NULL, len);
    if (!same(answer, plain_decoder_push(&other, theirs + AROUND, room, bytes, len)))
        return 0;
    return decoder->written == other.written && decoder->missing == other.missing && decoder->joint == other.joint &&
           !decoder->too_long == !other.too_long; /* each value except 0 means the same */
}

static int encodes(jcobs_encoder *encoder, size_t room, size_t len)
{
    jcobs_encoder other = *encoder;
    unsigned char *to = mine + AROUND;
    jcobs_answer answer;
    jcobs_answer plain;

    if (any(4) == 0) {
        int terminated = any(2) != 0;

        answer =
            terminated ? jcobs_encoder_finish_terminated(encoder, to, room) : jcobs_encoder_finish(encoder, to, room);
        plain = terminated ? plain_encoder_finish_terminated(&other, theirs + AROUND, room)
                           : plain_encoder_finish(&other, theirs + AROUND, room);
    } else {
        answer = len == 1 && any(2) ? jcobs_encoder_feed(encoder, to, room, bytes[0])
                                    : jcobs_encoder_push(encoder, room ? to : NULL, room, len ? bytes : NULL, len);
        plain = plain_encoder_push(&other, theirs + AROUND, room, bytes, len);
        /* The code of the open block isn't written yet: its byte may have any value. */
        if (answer.status == JCOBS_OK && encoder->index < room && encoder->full == 0)
            to[encoder->index] = theirs[AROUND + encoder->index];
    }
    return same(answer, plain) && encoder->index == other.index && encoder->taken == other.taken &&
           encoder->full == other.full;
}

static int encodes_whole(size_t room, size_t len)
{
    jcobs_answer answer = jcobs_encode_terminated(bytes, len, mine + AROUND, room);
    jcobs_answer plain = plain_encode_terminated(bytes, len, theirs + AROUND, room);

    if (!same(answer, plain))
        return 0;
    if (answer.status == JCOBS_OK) {
        answer = jcobs_encode(bytes, len, mine + AROUND, room);
        if (answer.status != JCOBS_OK || answer.length + 1 != plain.length || mine[AROUND + answer.length] != 0)
            return 0;
    }
    return memcmp(mine, theirs, sizeof mine) == 0;
}

/* Encodes a message in its own buffer: the frame of plain C must be at the front, and the bytes after it must be
 * unchanged. */
static int encodes_in_place(size_t room, size_t len)
{
    static unsigned char frame[ROOM + ROOM / 254 + 2];
    jcobs_answer answer;
    jcobs_answer plain = {JCOBS_TOO_SMALL, 0, 0};

    if (jcobs_max_length(len) <= room) {
        if (len > 0)
            memcpy(mine + AROUND + JCOBS_MAX_OVERHEAD(len), bytes, len);
        memcpy(theirs, mine, sizeof mine);
        plain = plain_encode_terminated(bytes, len, frame, sizeof frame);
        plain.length--;
        memcpy(theirs + AROUND, frame, plain.length);
    }
    answer = jcobs_encode_in_place(room > 0 ? mine + AROUND : NULL, room, JCOBS_MAX_OVERHEAD(len), len);
    return same(answer, plain);
}

/* A frame that the library has written must be canonical. For any bytes the result must be that of plain C. */
static int is_canonical(size_t len)
{
    static unsigned char frame[ROOM + ROOM / 254 + 1];
    jcobs_answer answer = jcobs_encode(bytes, len, frame, sizeof frame);

    return answer.status == JCOBS_OK && jcobs_frame_kind(frame, answer.length) == JCOBS_CANONICAL &&
           jcobs_frame_kind(len ? bytes : NULL, len) == plain_frame_kind(bytes, len);
}

static int decodes_whole(size_t room, size_t len)
{
    jcobs_answer answer = jcobs_decode(len ? bytes : NULL, len, mine + AROUND, room);

    return same(answer, plain_decode_frame(bytes, len, theirs + AROUND, room));
}

/* Half of the buffers begin with a frame and its zero, as the library writes them. */
static int decodes_in_place(size_t room, size_t len)
{
    if (len > room)
        len = room;
    if (len <= 2 || any(2) == 0 || jcobs_encode_terminated(bytes, len - 2, mine + AROUND, room).status != JCOBS_OK)
        memcpy(mine + AROUND, bytes, len);
    memcpy(theirs, mine, sizeof mine);
    return same(jcobs_decode_in_place(len ? mine + AROUND : NULL, len), plain_decode_in_place(theirs + AROUND, len));
}

static void xor_bytes(unsigned char *at, size_t len, unsigned char sentinel)
{
    size_t i;

    for (i = 0; i < len; i++)
        at[i] = (unsigned char)(at[i] ^ sentinel);
}

static int encodes_for(size_t room, size_t len, unsigned char sentinel)
{
    int terminated = any(2) != 0;
    jcobs_answer answer = terminated
                              ? jcobs_encode_terminated_with_sentinel(bytes, len, mine + AROUND, room, sentinel)
                              : jcobs_encode_with_sentinel(bytes, len, mine + AROUND, room ? room - 1 : 0, sentinel);
    jcobs_answer plain = plain_encode_terminated(bytes, len, theirs + AROUND, room);

    xor_bytes(theirs + AROUND, plain.length, sentinel);
    if (!terminated && plain.status == JCOBS_OK) {
        plain.length--;
        theirs[AROUND + plain.length] = mine[AROUND + plain.length];
    }
    return same(answer, plain);
}

static int finishes_for(jcobs_encoder *encoder, size_t room, unsigned char sentinel)
{
    jcobs_encoder other = *encoder;
    int terminated = any(2) != 0;
    jcobs_answer answer = terminated
                              ? jcobs_encoder_finish_terminated_with_sentinel(encoder, mine + AROUND, room, sentinel)
                              : jcobs_encoder_finish_with_sentinel(encoder, mine + AROUND, room, sentinel);
    jcobs_answer plain = terminated ? plain_encoder_finish_terminated(&other, theirs + AROUND, room)
                                    : plain_encoder_finish(&other, theirs + AROUND, room);

    xor_bytes(theirs + AROUND, plain.length, sentinel);
    return same(answer, plain) && encoder->index == other.index;
}

static int decodes_for(jcobs_decoder *decoder, size_t room, size_t len, unsigned char sentinel)
{
    jcobs_decoder other = *decoder;
    jcobs_answer plain = plain_decoder_push(&other, theirs + AROUND, room, bytes, len);

    xor_bytes(bytes, len, sentinel);
    return same(jcobs_decoder_push_with_sentinel(decoder, mine + AROUND, room, len ? bytes : NULL, len, sentinel),
                plain) &&
           decoder->written == other.written && decoder->missing == other.missing;
}

/* Compares the calls for a sentinel, in place or not, with plain C in place for the same bytes and the sentinel 0. */
static int decodes_whole_for(size_t room, size_t len, unsigned char sentinel, int in_place)
{
    static unsigned char decoded[ROOM + 1];
    jcobs_answer plain;
    jcobs_answer answer;
    size_t end;

    if (in_place && len > room)
        len = room;
    memcpy(decoded, bytes, len);
    plain = plain_decode_in_place(decoded, len);
    end = plain.consumed - (plain.consumed > 0 && bytes[plain.consumed - 1] == 0);
    xor_bytes(bytes, len, sentinel);
    if (in_place) {
        memcpy(mine + AROUND, bytes, len);
        memcpy(theirs + AROUND, bytes, len);
        memcpy(theirs + AROUND, decoded, end);
        return same(jcobs_decode_in_place_with_sentinel(len ? mine + AROUND : NULL, len, sentinel), plain);
    }
    if (plain.length > room) {
        plain.status = JCOBS_TOO_SMALL;
        plain.length = room;
    }
    memcpy(theirs + AROUND, decoded, plain.length);
    answer = jcobs_decode_with_sentinel(len ? bytes : NULL, len, mine + AROUND, room, sentinel);
    return same(answer, plain);
}

static int for_sentinel(unsigned int kind, jcobs_decoder *decoder, jcobs_encoder *encoder, size_t room, size_t len)
{
    unsigned char sentinel = (unsigned char)any(256);

    return kind == 7   ? encodes_for(room, len, sentinel)
           : kind == 8 ? finishes_for(encoder, room, sentinel)
           : kind == 9 ? decodes_for(decoder, room, len, sentinel)
                       : decodes_whole_for(room, len, sentinel, any(2) != 0);
}
static int run(unsigned long calls)
{
    jcobs_decoder decoder = JCOBS_DECODER_INIT;
    jcobs_encoder encoder = JCOBS_ENCODER_INIT;
    size_t room = ROOM;
    unsigned long i;

    for (i = 0; i < calls; i++) {
        size_t len = any(4) ? any(40) : any(ROOM + 1);
        unsigned int kind = any(11);
        int holds;

        if (any(8) == 0) {
            room = any(2) ? ROOM : any(ROOM + 1);
            fill(mine, sizeof mine, 5);
            memcpy(theirs, mine, sizeof mine);
            fill((unsigned char *)&decoder, sizeof decoder, 3);
            fill((unsigned char *)&encoder, sizeof encoder, 3);
            if (any(2)) {
                decoder.written %= ROOM + 1;
                encoder.index %= ROOM + 1;
            }
            if (any(3) == 0) {
                jcobs_decoder_reset(&decoder);
                jcobs_encoder_reset(&encoder);
            }
        }
        fill(bytes, len, any(3) ? 300 : 4);
        if (any(6) == 0)
            memset(bytes, 1 + (int)any(255), len);
        holds = kind == 0   ? decodes(&decoder, room, len)
                : kind == 1 ? encodes(&encoder, room, len)
                : kind == 2 ? encodes_whole(room, len)
                : kind == 3 ? decodes_whole(room, len)
                : kind == 4 ? decodes_in_place(room, len)
                : kind == 5 ? encodes_in_place(room, len)
                : kind == 6 ? is_canonical(len)
                            : for_sentinel(kind, &decoder, &encoder, room, len);
        if (!holds) {
            printf("call %lu of kind %u differs: room %u, %u bytes\n", i, kind, (unsigned)room, (unsigned)len);
            return 1;
        }
    }
    printf("%lu random calls, none differs\n", calls);
    return 0;
}

int main(int argc, char **argv)
{
    return run(argc > 1 ? strtoul(argv[argc - 1], NULL, 10) : 100000);
}
