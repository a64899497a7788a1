/* The calls of jcobs.h, or with RIVAL those of rival.h, over the messages of a row. */
#include "speed.h"

#ifdef RIVAL
#include "rival.h"

static rival_decoder decoder;
static rival_encoder encoder;

static void begin(struct work *work)
{
    rival_decoder_init(&decoder, work->room, work->room_size);
    rival_encoder_init(&encoder, work->room, work->room_size);
}
static ptrdiff_t decode_one(struct work *work, const unsigned char *frame, size_t len)
{
    return rival_decode(frame, len, work->room, work->room_size);
}
static ptrdiff_t in_place_one(unsigned char *frame, size_t len)
{
    return rival_decode_in_place(frame, len);
}
static size_t push_one(struct work *work, const unsigned char *bytes, size_t len, ptrdiff_t *length)
{
    size_t consumed;

    (void)work;
    *length = rival_decoder_push(&decoder, bytes, len, &consumed);
    return consumed;
}
static ptrdiff_t feed_one(struct work *work, unsigned char byte)
{
    (void)work;
    return rival_decoder_feed(&decoder, byte);
}
static ptrdiff_t encode_one(struct work *work, const unsigned char *message)
{
    return rival_encode(message, work->len, work->room, work->room_size);
}
static int encoder_push_one(struct work *work, const unsigned char *bytes, size_t len)
{
    (void)work;
    return rival_encoder_push(&encoder, bytes, len);
}
static int encoder_feed_one(struct work *work, unsigned char byte)
{
    (void)work;
    return rival_encoder_feed(&encoder, byte);
}
static ptrdiff_t finish(struct work *work)
{
    (void)work;
    return rival_encoder_finish(&encoder);
}
#else
#include <jcobs.h>

static jcobs_decoder decoder;
static jcobs_encoder encoder;

static ptrdiff_t length_of(jcobs_answer answer)
{
    return answer.status == JCOBS_OK ? (ptrdiff_t)answer.length : -1;
}
static void begin(struct work *work)
{
    (void)work;
    jcobs_decoder_reset(&decoder);
    jcobs_encoder_reset(&encoder);
}
static ptrdiff_t decode_one(struct work *work, const unsigned char *frame, size_t len)
{
    return length_of(jcobs_decode(frame, len, work->room, work->room_size));
}
static ptrdiff_t decode_marked_one(struct work *work, const unsigned char *frame, size_t len)
{
    return length_of(jcobs_decode_with_sentinel(frame, len, work->room, work->room_size, SENTINEL));
}
static ptrdiff_t in_place_one(unsigned char *frame, size_t len)
{
    return length_of(jcobs_decode_in_place(frame, len));
}
static size_t push_one(struct work *work, const unsigned char *bytes, size_t len, ptrdiff_t *length)
{
    jcobs_answer answer = jcobs_decoder_push(&decoder, work->room, work->room_size, bytes, len);

    *length = length_of(answer);
    return answer.consumed;
}
static ptrdiff_t feed_one(struct work *work, unsigned char byte)
{
    return length_of(jcobs_decoder_feed(&decoder, work->room, work->room_size, byte));
}
static ptrdiff_t encode_one(struct work *work, const unsigned char *message)
{
    return length_of(jcobs_encode(message, work->len, work->room, work->room_size));
}
static ptrdiff_t encode_marked_one(struct work *work, const unsigned char *message)
{
    return length_of(jcobs_encode_with_sentinel(message, work->len, work->room, work->room_size, SENTINEL));
}
static int encoder_push_one(struct work *work, const unsigned char *bytes, size_t len)
{
    return jcobs_encoder_push(&encoder, work->room, work->room_size, bytes, len).status == JCOBS_OK;
}
static int encoder_feed_one(struct work *work, unsigned char byte)
{
    return jcobs_encoder_feed(&encoder, work->room, work->room_size, byte).status == JCOBS_OK;
}
static ptrdiff_t finish(struct work *work)
{
    return length_of(jcobs_encoder_finish(&encoder, work->room, work->room_size));
}
#endif

static size_t decode(struct work *work)
{
    const unsigned char *frame = work->stream;
    size_t sum = 0, i;

    for (i = 0; i < work->count; frame += work->lens[i++] + 1)
        sum += (size_t)decode_one(work, frame, work->lens[i]);
    return sum;
}

static size_t in_place(struct work *work)
{
    unsigned char *frame = work->copies;
    size_t sum = 0, i;

    for (i = 0; i < work->count; frame += work->lens[i++] + 1)
        sum += (size_t)in_place_one(frame, work->lens[i]);
    return sum;
}

static size_t push_by(struct work *work, size_t most)
{
    const unsigned char *from = work->stream, *end = from + work->stream_len;
    size_t sum = 0;

    begin(work);
    while (from < end) {
        const unsigned char *stop = (size_t)(end - from) < most ? end : from + most;

        while (from < stop) {
            ptrdiff_t length;

            from += push_one(work, from, (size_t)(stop - from), &length);
            if (length >= 0)
                sum += (size_t)length;
        }
    }
    return sum;
}
static size_t push(struct work *work)
{
    return push_by(work, work->stream_len);
}
static size_t push_64(struct work *work)
{
    return push_by(work, 64);
}
static size_t push_8(struct work *work)
{
    return push_by(work, 8);
}

static size_t feed(struct work *work)
{
    size_t sum = 0, i;

    begin(work);
    for (i = 0; i < work->stream_len; i++) {
        ptrdiff_t length = feed_one(work, work->stream[i]);

        if (length >= 0)
            sum += (size_t)length;
    }
    return sum;
}

static size_t encode(struct work *work)
{
    size_t sum = 0, i;

    for (i = 0; i < work->count; i++)
        sum += (size_t)encode_one(work, work->messages + i * work->len);
    return sum;
}

static size_t encoder_by(struct work *work, size_t most)
{
    size_t sum = 0, i, at;

    begin(work);
    for (i = 0; i < work->count; i++) {
        for (at = 0; at < work->len; at += most)
            if (!encoder_push_one(work, work->messages + i * work->len + at,
                                  work->len - at < most ? work->len - at : most))
                return 0;
        sum += (size_t)finish(work);
    }
    return sum;
}
static size_t encoder_push(struct work *work)
{
    return encoder_by(work, work->len);
}
static size_t encoder_64(struct work *work)
{
    return encoder_by(work, 64);
}
static size_t encoder_8(struct work *work)
{
    return encoder_by(work, 8);
}
static size_t encoder_feed(struct work *work)
{
    size_t sum = 0, i, at;

    begin(work);
    for (i = 0; i < work->count; i++) {
        for (at = 0; at < work->len; at++)
            if (!encoder_feed_one(work, work->messages[i * work->len + at]))
                return 0;
        sum += (size_t)finish(work);
    }
    return sum;
}

#ifdef RIVAL
#define decode_marked NULL
#define encode_marked NULL
#else
static size_t decode_marked(struct work *work)
{
    const unsigned char *frame = work->marked;
    size_t sum = 0, i;

    for (i = 0; i < work->count; frame += work->lens[i++] + 1)
        sum += (size_t)decode_marked_one(work, frame, work->lens[i]);
    return sum;
}
static size_t encode_marked(struct work *work)
{
    size_t sum = 0, i;

    for (i = 0; i < work->count; i++)
        sum += (size_t)encode_marked_one(work, work->messages + i * work->len);
    return sum;
}
#endif

call *const calls[CALLS] = {decode, decode_marked, in_place,      push,         push_64,    push_8,    feed,
                            encode, NULL,          encode_marked, encoder_push, encoder_64, encoder_8, encoder_feed};
