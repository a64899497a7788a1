/* Measures how many instructions per byte each call of the library and of plain.c needs in QEMU, also with one call for
 * each byte; for an AVR, how many cycles in simavr. */
#include "plain.h"
#include "ticks.h"

#include <stdio.h>
#include <string.h>

#define LONG 4000

static unsigned char message[LONG];
static unsigned char frame[LONG + LONG / 254 + 2];
static unsigned char decoded[LONG];
static size_t frame_len;
static jcobs_answer answer;
static jcobs_decoder decoder;
static jcobs_encoder encoder;

static void decode(void)
{
    answer = jcobs_decoder_push(&decoder, decoded, sizeof decoded, frame, frame_len);
}
static void plain_decode(void)
{
    answer = plain_decoder_push(&decoder, decoded, sizeof decoded, frame, frame_len);
}
static void push(void)
{
    answer = jcobs_encoder_push(&encoder, frame, sizeof frame, message, sizeof message);
    answer = jcobs_encoder_finish(&encoder, frame, sizeof frame);
}
static void plain_push(void)
{
    answer = plain_encoder_push(&encoder, frame, sizeof frame, message, sizeof message);
    answer = plain_encoder_finish(&encoder, frame, sizeof frame);
}
static void terminated(void)
{
    frame_len = jcobs_encode_terminated(message, sizeof message, frame, sizeof frame).length;
}
static void plain_terminated(void)
{
    frame_len = plain_encode_terminated(message, sizeof message, frame, sizeof frame).length;
}

static void decode_bytes(void)
{
    size_t i;

    for (i = 0; i < frame_len; i++) {
        jcobs_answer fed = jcobs_decoder_feed(&decoder, decoded, sizeof decoded, frame[i]);

        if (fed.status == JCOBS_OK)
            frame_len = i;
    }
}
static void push_bytes(void)
{
    size_t i;

    for (i = 0; i < sizeof message; i++) {
        jcobs_answer fed = jcobs_encoder_feed(&encoder, frame, sizeof frame, message[i]);

        if (fed.status != JCOBS_OK)
            return;
    }
    answer = jcobs_encoder_finish(&encoder, frame, sizeof frame);
}

static void compare(const char *name, void (*call)(void), void (*plain)(void))
{
    unsigned long mine = ticks(call) * EACH * 100 / LONG;
    unsigned long theirs = ticks(plain) * EACH * 100 / LONG;

    printf("instructions %s %lu.%02lu plain %lu.%02lu percent %lu\n", name, mine / 100, mine % 100, theirs / 100,
           theirs % 100, mine * 100 / theirs);
}

static void count(const char *name, void (*call)(void))
{
    unsigned long mine = ticks(call) * EACH * 100 / LONG;

    printf("feed %s %lu.%02lu\n", name, mine / 100, mine % 100);
}

int main(void)
{
    static const char *const kinds[] = {"text", "zeros", "no-zero"};
    unsigned int kind;
    size_t i;

    begin();
    for (kind = 0; kind < 3; kind++) {
        char name[40];

        for (i = 0; i < LONG; i++)
            message[i] = (unsigned char)(kind == 2 ? 1 + i % 255 : i % (kind == 0 ? 33 : 3) == 0 ? 0 : 1 + i % 255);
        sprintf(name, "encode-%s", kinds[kind]);
        compare(name, terminated, plain_terminated);
        sprintf(name, "decode-%s", kinds[kind]);
        compare(name, decode, plain_decode);
        sprintf(name, "push-%s", kinds[kind]);
        compare(name, push, plain_push);
        if (memcmp(message, decoded, sizeof message) != 0)
            return 1;
        memset(decoded, 0, sizeof decoded);
        memset(frame, 0, sizeof frame);
        count("encoder", push_bytes);
        count("decoder", decode_bytes);
        if (memcmp(message, decoded, sizeof message) != 0)
            return 1;
    }
    return 0;
}
