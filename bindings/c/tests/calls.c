/* Tests that neither vectors.c nor the random calls of guard.c make: constants, texts, NULL, and loops over whole
 * streams. */
#include <jcobs.h>

#include <stdio.h>
#include <string.h>

static int failures = 0;

static void expect(int holds, const char *what)
{
    if (!holds) {
        printf("failed: %s\n", what);
        failures++;
    }
}

static int is_answer(jcobs_answer answer, unsigned int status, size_t consumed, size_t length)
{
    return answer.status == status && answer.consumed == consumed && answer.length == length;
}

/* The greatest length is a constant expression. */
typedef unsigned char at_compile_time[JCOBS_MAX_LENGTH(255)];

static void test_constants(void)
{
    jcobs_decoder decoder = JCOBS_DECODER_INIT;
    jcobs_decoder reset;
    jcobs_encoder encoder = JCOBS_ENCODER_INIT;
    jcobs_encoder begun;
    unsigned char room[1];
    unsigned char byte = 255;
    unsigned int word = 4294967295u;

    expect(sizeof(at_compile_time) == 257, "JCOBS_MAX_LENGTH(255) is 257");
    expect(JCOBS_MAX_LENGTH(0) == 1 && JCOBS_MAX_LENGTH(254) == 255, "JCOBS_MAX_LENGTH of 0 and of 254");
    expect(JCOBS_MAX_LENGTH(byte) == 257 && JCOBS_MAX_LENGTH(2147483647) == 2155938308ul,
           "JCOBS_MAX_LENGTH of each type");
    expect(sizeof(size_t) < 8
               ? jcobs_max_length(word) == 0
               : JCOBS_MAX_LENGTH(word) == jcobs_max_length(word) && JCOBS_MAX_LENGTH(4294967295u) == 4311876616ul,
           "JCOBS_MAX_LENGTH of each type");
    /* The greatest size_t is a multiple of 255, and 254 of each 255 bytes of a frame are the message's. So this is the
     * longest message whose frame's length fits a size_t. */
    expect(jcobs_max_length((size_t)-1 / 255 * 254) == (size_t)-1, "the greatest length");
    expect(jcobs_max_length((size_t)-1 / 255 * 254 - 1) == (size_t)-1 - 1, "the greatest length but one");
    expect(jcobs_max_length((size_t)-1 / 255 * 254 + 1) == 0, "the least length that doesn't fit");
    expect(jcobs_max_length((size_t)-1) == 0, "no length that doesn't fit");
    expect(jcobs_version() == JCOBS_VERSION, "the version is the header's");
    expect(jcobs_abi_1() == JCOBS_VERSION_MAJOR, "the version of the ABI");
    memset(&reset, 0xff, sizeof reset);
    jcobs_decoder_reset(&reset);
    expect(jcobs_decoder_is_idle(&decoder) == 1 && jcobs_decoder_is_idle(&reset) == 1, "a decoder begins idle");
    expect(reset.written == 0 && reset.missing == 0 && reset.joint == 0 && reset.too_long == 0, "reset makes zeros");
    memset(&begun, 0xff, sizeof begun);
    jcobs_encoder_reset(&begun);
    expect(is_answer(jcobs_encoder_finish(&begun, room, 1), JCOBS_OK, 0, 1) && room[0] == 1, "reset begins a message");
    expect(is_answer(jcobs_encoder_finish(&encoder, room, 0), JCOBS_TOO_SMALL, 0, 0), "no frame in no bytes");
}

static void test_texts(void)
{
    static const char *const texts[] = {"done",
                                        "more bytes are needed",
                                        "the buffer is too small",
                                        "the frame breaks off inside a block",
                                        "there is no frame",
                                        "unknown status"};
    char text[JCOBS_TEXT_LENGTH];
    char few[5] = "....";
    unsigned int status;

    for (status = 0; status < 6; status++) {
        expect(jcobs_strerror(status, text, sizeof text) == strlen(texts[status]), "length of a text");
        expect(strcmp(text, texts[status]) == 0, "a text");
    }
    expect(jcobs_strerror(JCOBS_EMPTY, few, sizeof few) == 17 && strcmp(few, "ther") == 0, "a text that is cut");
    expect(jcobs_strerror(JCOBS_OK, NULL, 0) == 4, "the length of a text alone");
}

static void test_null(void)
{
    unsigned char room[2] = {9, 9};
    jcobs_decoder decoder = JCOBS_DECODER_INIT;
    jcobs_encoder encoder = JCOBS_ENCODER_INIT;

    expect(is_answer(jcobs_encode(NULL, 0, room, 2), JCOBS_OK, 0, 1) && room[0] == 1 && room[1] == 9, "encode");
    expect(is_answer(jcobs_encode(NULL, 0, NULL, 0), JCOBS_TOO_SMALL, 0, 0), "encode to NULL");
    expect(is_answer(jcobs_encode_terminated(NULL, 0, NULL, 0), JCOBS_TOO_SMALL, 0, 0), "terminated to NULL");
    expect(is_answer(jcobs_encode_with_sentinel(NULL, 0, NULL, 0, 7), JCOBS_TOO_SMALL, 0, 0), "for a sentinel");
    expect(is_answer(jcobs_decode(NULL, 0, NULL, 0), JCOBS_EMPTY, 0, 0), "decode");
    expect(is_answer(jcobs_decode_with_sentinel(NULL, 0, NULL, 0, 7), JCOBS_EMPTY, 0, 0), "decode for a sentinel");
    expect(is_answer(jcobs_decode_in_place(NULL, 0), JCOBS_EMPTY, 0, 0), "in place");
    expect(is_answer(jcobs_decode_in_place_with_sentinel(NULL, 0, 7), JCOBS_EMPTY, 0, 0), "in place for a sentinel");
    expect(jcobs_frame_kind(NULL, 0) == JCOBS_NOT_A_FRAME, "kind");
    expect(is_answer(jcobs_decoder_push(&decoder, NULL, 0, NULL, 0), JCOBS_MORE, 0, 0), "decoder");
    expect(is_answer(jcobs_decoder_push(&decoder, NULL, 0, "\1", 2), JCOBS_OK, 2, 0),
           "an empty message needs no buffer");
    expect(is_answer(jcobs_encoder_push(&encoder, NULL, 0, NULL, 0), JCOBS_TOO_SMALL, 0, 0), "encoder");
    expect(is_answer(jcobs_encoder_push(&encoder, room, 2, NULL, 0), JCOBS_OK, 0, 1), "encoder, no bytes");
}

/* Encoding a message in its own buffer writes the same frame as encoding it to another buffer. The bytes after the
 * frame stay. */
static void test_encode_in_place(void)
{
    static unsigned char message[3 * 254 + 2];
    unsigned int zeros;
    size_t length;

    for (zeros = 1; zeros < 1024; zeros *= 4)
        for (length = 0; length <= sizeof message; length++) {
            static unsigned char frame[JCOBS_MAX_LENGTH(sizeof message) + 8];
            static unsigned char bytes[sizeof frame];
            size_t room = jcobs_max_length(length);
            size_t overhead = JCOBS_MAX_OVERHEAD(length);
            jcobs_answer answer;
            size_t i;

            for (i = 0; i < length; i++)
                message[i] = (unsigned char)((i + length) % zeros == 0 ? 0 : i % 255 + 1);
            memset(frame, 0xaa, sizeof frame);
            memcpy(frame + overhead, message, length);
            memcpy(bytes, frame, sizeof bytes);
            answer = jcobs_encode_in_place(bytes, room - 1, overhead, length);
            expect(is_answer(answer, JCOBS_TOO_SMALL, 0, 0) && memcmp(bytes, frame, sizeof bytes) == 0, "too short");
            answer = jcobs_encode_in_place(bytes, room, overhead - 1, length);
            expect(is_answer(answer, JCOBS_TOO_SMALL, 0, 0) && memcmp(bytes, frame, sizeof bytes) == 0, "too near");
            answer = jcobs_encode(message, length, frame, room);
            expect(is_answer(jcobs_encode_in_place(bytes, room, overhead, length), JCOBS_OK, length, answer.length),
                   "in place");
            expect(memcmp(bytes, frame, sizeof bytes) == 0, "the frame, and what was behind it");
            memcpy(bytes + overhead + 3, message, length);
            expect(is_answer(jcobs_encode_in_place(bytes, room + 3, overhead + 3, length), JCOBS_OK, length,
                             answer.length) &&
                       memcmp(bytes, frame, answer.length) == 0,
                   "a later start");
        }
    expect(is_answer(jcobs_encode_in_place(NULL, 0, 0, 0), JCOBS_TOO_SMALL, 0, 0), "no room for the empty message");
    expect(is_answer(jcobs_encode_in_place(message, sizeof message, 1, (size_t)-1), JCOBS_TOO_SMALL, 0, 0),
           "no such length");
    expect(is_answer(jcobs_encode_in_place(message, sizeof message, (size_t)-1, 2), JCOBS_TOO_SMALL, 0, 0),
           "no such start");
}

/* A message in pieces, ended by each of the four calls, has the frame of the whole message. Feeding a byte does what a
 * push of one byte does. */
static void test_finish(void)
{
    static const unsigned char sentinels[] = {0, 7, 255};
    unsigned char message[600];
    size_t length;
    size_t s;

    for (length = 0; length < sizeof message; length += length < 4 || length % 254 < 3 || length % 254 > 250 ? 1 : 83)
        for (s = 0; s < sizeof sentinels; s++) {
            unsigned char at_once[700];
            unsigned char in_pieces[700];
            jcobs_encoder encoder = JCOBS_ENCODER_INIT;
            jcobs_encoder kept;
            jcobs_answer answer;
            size_t whole;
            size_t i;

            for (i = 0; i < length; i++)
                message[i] = (unsigned char)(i % 300 == 299 ? 0 : i % 7 + 1);
            memset(at_once, 0xaa, sizeof at_once);
            memset(in_pieces, 0xaa, sizeof in_pieces);
            answer = jcobs_encode_terminated_with_sentinel(message, length, at_once, sizeof at_once, sentinels[s]);
            whole = answer.length;
            for (i = 0; i < length; i++)
                expect(jcobs_encoder_feed(&encoder, in_pieces, whole - 1, message[i]).consumed == 1, "feed");
            kept = encoder;
            answer = jcobs_encoder_finish_terminated_with_sentinel(&encoder, in_pieces, whole - 1, sentinels[s]);
            expect(is_answer(answer, JCOBS_TOO_SMALL, 0, 0), "no room for the terminator");
            expect(encoder.index == kept.index && encoder.taken == kept.taken && encoder.full == kept.full,
                   "as it was");
            answer = jcobs_encoder_finish_terminated_with_sentinel(&encoder, in_pieces, whole, sentinels[s]);
            expect(is_answer(answer, JCOBS_OK, 0, whole), "with a terminator");
            expect(memcmp(at_once, in_pieces, sizeof at_once) == 0, "the frame, and nothing after it");
            expect(encoder.index == 0 && encoder.taken == 0 && encoder.full == 0, "the start");
            memset(in_pieces, 0xaa, sizeof in_pieces);
            expect(jcobs_encoder_push(&encoder, in_pieces, whole, message, length).status == JCOBS_OK, "push");
            answer = jcobs_encoder_finish_with_sentinel(&encoder, in_pieces, whole, sentinels[s]);
            expect(is_answer(answer, JCOBS_OK, 0, whole - 1), "for a sentinel");
            expect(memcmp(at_once, in_pieces, whole - 1) == 0 && in_pieces[whole - 1] == 0xaa, "the frame alone");
            if (sentinels[s] == 0) {
                expect(jcobs_encoder_push(&encoder, in_pieces, whole, message, length).status == JCOBS_OK, "push");
                answer = jcobs_encoder_finish_terminated(&encoder, in_pieces, whole);
                expect(is_answer(answer, JCOBS_OK, 0, whole) && in_pieces[whole - 1] == 0, "with a zero");
            }
        }
}

/* Feeding a stream byte by byte, or decoding it for another sentinel, has the results, states and buffers of pushes. */
static void test_streams(void)
{
    static const unsigned char sentinels[] = {0, 7, 255};
    unsigned char stream[900];
    size_t rooms;
    size_t s;
    size_t i;

    for (i = 0; i < sizeof stream; i++)
        stream[i] = (unsigned char)(i < 300   ? i * i % 7
                                    : i < 600 ? (i == 300 || i == 555 ? 255
                                                 : i % 256 == 44      ? 0
                                                                      : 9)
                                              : i % 5);
    for (rooms = 0; rooms < 300; rooms += rooms < 8 ? 1 : 97)
        for (s = 0; s < sizeof sentinels; s++) {
            jcobs_decoder pushed = JCOBS_DECODER_INIT;
            jcobs_decoder other = JCOBS_DECODER_INIT;
            unsigned char buffer[400];
            unsigned char other_buffer[400];
            unsigned char changed[1];

            memset(buffer, 0xaa, sizeof buffer);
            memset(other_buffer, 0xaa, sizeof other_buffer);
            for (i = 0; i < sizeof stream; i++) {
                jcobs_answer answer = jcobs_decoder_push(&pushed, buffer, rooms, stream + i, 1);
                jcobs_answer by_byte;

                changed[0] = (unsigned char)(stream[i] ^ sentinels[s]);
                if (sentinels[s] == 0)
                    by_byte = jcobs_decoder_feed(&other, other_buffer, rooms, stream[i]);
                else
                    by_byte = jcobs_decoder_push_with_sentinel(&other, other_buffer, rooms, changed, 1, sentinels[s]);
                expect(is_answer(by_byte, answer.status, answer.consumed, answer.length), "the same result");
                expect(jcobs_decoder_is_idle(&pushed) == jcobs_decoder_is_idle(&other), "both idle, or neither");
                expect(memcmp(buffer, other_buffer, sizeof buffer) == 0, "the same buffer");
            }
        }
}

/* Frames one after another in a buffer are decoded in place, from consumed on, for any sentinel. */
static void test_in_place(void)
{
    unsigned int sentinel;

    for (sentinel = 0; sentinel < 256; sentinel++) {
        unsigned char bytes[32];
        size_t end = 0;
        size_t at = 0;
        size_t count = 0;

        for (count = 0; count < 4; count++)
            end += jcobs_encode_terminated_with_sentinel("a\0b", count, bytes + end, sizeof bytes - end,
                                                         (unsigned char)sentinel)
                       .length;
        for (count = 0; at < end; count++) {
            jcobs_answer answer = jcobs_decode_in_place_with_sentinel(bytes + at, end - at, (unsigned char)sentinel);
            expect(answer.status == JCOBS_OK && answer.length == count && memcmp(bytes + at, "a\0b", count) == 0,
                   "a frame in place");
            at += answer.consumed;
            expect(bytes[at - 1] == sentinel, "its sentinel");
        }
        expect(count == 4, "four frames in place");
    }
}

/* The loops that a caller writes end, and find each frame once. */
static void test_loops(void)
{
    static const unsigned char recorded[] = {0, 0, 3, 'h', 'i', 0, 5, 1, 0, 4, 'a', 'b', 'c', 0, 0};
    unsigned char buffer[2];
    unsigned char bytes[sizeof recorded];
    unsigned int statuses[8];
    size_t count = 0;
    size_t at;

    for (at = 0; at < sizeof recorded && count < 8;) {
        jcobs_answer answer = jcobs_decode(recorded + at, sizeof recorded - at, buffer, sizeof buffer);
        statuses[count++] = answer.status;
        at += answer.consumed;
    }
    expect(count == 4 && at == sizeof recorded, "decode goes through a stream");
    expect(statuses[0] == JCOBS_OK && statuses[1] == JCOBS_BROKEN && statuses[2] == JCOBS_TOO_SMALL &&
               statuses[3] == JCOBS_EMPTY,
           "what decode meets there");
    memcpy(bytes, recorded, sizeof recorded);
    count = 0;
    for (at = 0; at < sizeof bytes && count < 8;) {
        jcobs_answer answer = jcobs_decode_in_place(bytes + at, sizeof bytes - at);
        statuses[count++] = answer.status;
        at += answer.consumed;
    }
    expect(count == 6 && at == sizeof bytes, "decode_in_place goes through a stream, zeros as empty messages");
}

int main(void)
{
    test_constants();
    test_texts();
    test_null();
    test_encode_in_place();
    test_finish();
    test_streams();
    test_in_place();
    test_loops();
    if (failures == 0)
        puts("all calls answered as they should");
    return failures == 0 ? 0 : 1;
}
