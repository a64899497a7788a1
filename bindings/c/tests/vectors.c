/* Runs the cases of conformance/ for which this library has calls: vectors FILE...
 *
 * Prints each case that fails, and at the end how many cases were run, skipped and failed. conformance/README.md has
 * the format. The results of this library differ from those of the cases in these points:
 *
 * - consumed includes the sentinel that ends a frame, also in place, and is set after an error too. The counts that the
 *   cases don't have are compared with counts made here.
 * - JCOBS_EMPTY stands for `empty`. If the source of `decode` has only zeros, it stands for `invalid` with 0.
 * - A piece that is too long for the buffer is reported once, at the zero that ends it. The results of `decoder` before
 *   that zero are skipped. */
#include <jcobs.h>

#include <stdio.h>
#include <stdlib.h>
#include <string.h>

#define MOST_WORDS 256
#define MOST_LINE 8192
#define MOST_TEXT 800000 /* the most bytes of a line whose parts are written out */
#define MOST_STREAM 200000

static char *words[MOST_WORDS];
static size_t word_count; /* the number of words of the line */
static size_t arrow;      /* the index of the word -> */
static size_t next_answer;
static int failed; /* whether the case failed */

typedef struct bytes {
    unsigned char *data;
    size_t len;
} bytes;

static void fail(const char *what)
{
    printf("failed %s: %s\n", words[0], what);
    failed = 1;
}

static void *room_for(size_t len)
{
    void *room = malloc(len == 0 ? 1 : len);
    if (room == NULL) {
        fputs("out of memory\n", stderr);
        exit(1);
    }
    return room;
}

static unsigned int digit(char c)
{
    return (unsigned int)(c <= '9' ? c - '0' : c - 'a' + 10);
}

/* Returns the bytes of a word, in memory of exactly their length, or NULL if there are no bytes. */
static bytes bytes_of(const char *word)
{
    bytes read = {NULL, 0};
    size_t i;

    if (strcmp(word, "-") == 0)
        return read;
    read.len = strlen(word) / 2;
    read.data = room_for(read.len);
    for (i = 0; i < read.len; i++)
        read.data[i] = (unsigned char)(digit(word[2 * i]) * 16 + digit(word[2 * i + 1]));
    return read;
}

static bytes argument(size_t index)
{
    return bytes_of(words[3 + index]);
}

static size_t argument_count(void)
{
    return arrow - 3;
}

/* Compares the next word of the result, unless it is a question mark. */
static void expect_word(const char *what, const char *found)
{
    if (next_answer >= word_count) {
        fail("more answers than words");
        return;
    }
    if (strcmp(words[next_answer], "?") != 0 && strcmp(words[next_answer], found) != 0)
        fail(what);
    next_answer++;
}

static void expect_count(const char *what, size_t found)
{
    char text[32];

    sprintf(text, "%lu", (unsigned long)found);
    expect_word(what, text);
}

static void expect_bytes(const char *what, const unsigned char *found, size_t len)
{
    char *text = room_for(2 * len + 2);
    size_t i;

    text[0] = '-';
    for (i = 0; i < len; i++) {
        text[2 * i] = "0123456789abcdef"[found[i] / 16];
        text[2 * i + 1] = "0123456789abcdef"[found[i] % 16];
    }
    text[len == 0 ? 1 : 2 * len] = '\0';
    expect_word(what, text);
    free(text);
}

static void expect(const char *what, int holds)
{
    if (!holds)
        fail(what);
}

/* Returns the number of bytes through the first sentinel. */
static size_t through(bytes source, size_t from, unsigned char sentinel)
{
    size_t i;

    for (i = from; i < source.len; i++)
        if (source.data[i] == sentinel)
            return i + 1;
    return source.len;
}

static size_t zeros_in_front(bytes source)
{
    size_t i = 0;

    while (i < source.len && source.data[i] == 0)
        i++;
    return i;
}

/* Expects an error with this word, or `refused` if the case has that word. */
static void expect_refusal(const char *word)
{
    if (next_answer < word_count && strcmp(words[next_answer], "refused") == 0)
        word = "refused";
    expect_word("refusal", word);
}

static void expect_status(jcobs_answer answer, size_t source_len)
{
    const char *word = "?";

    switch (answer.status) {
    case JCOBS_OK:
        expect_word("status", "ok");
        return;
    case JCOBS_TOO_SMALL:
        word = "too_small";
        break;
    case JCOBS_BROKEN:
        word = "invalid";
        break;
    case JCOBS_EMPTY:
        word = source_len == 0 ? "empty" : "invalid";
        break;
    default:
        fail("unknown status");
    }
    expect_refusal(word);
}

/* Expects the length. The cases don't have it if the buffer is too short, or if there is no frame. */
static void expect_length(jcobs_answer answer)
{
    if (next_answer < word_count && strcmp(words[next_answer], "-") == 0)
        next_answer++;
    else
        expect_count("length", answer.length);
}

static void run_max_length(int overhead)
{
    size_t len = (size_t)strtoul(words[3], NULL, 10);

    expect_count("greatest length", jcobs_max_length(len) - (overhead ? len : 0));
    expect("the macro is the function", JCOBS_MAX_LENGTH(len) == jcobs_max_length(len));
}

/* Encodes to a buffer that has exactly the length of the frame, or of the frame with its terminator. */
static void run_encode_vec(int with_sentinel)
{
    bytes message = argument(with_sentinel ? 1 : 0);
    unsigned char sentinel = 0;
    size_t room = jcobs_max_length(message.len) + 1;
    unsigned char *frame = room_for(room);
    unsigned char *exact;
    jcobs_answer answer;
    jcobs_answer again;

    if (with_sentinel) {
        bytes word = argument(0);
        sentinel = word.data[0];
        free(word.data);
        answer = jcobs_encode_with_sentinel(message.data, message.len, frame, room, sentinel);
    } else {
        answer = jcobs_encode(message.data, message.len, frame, room);
    }
    expect("ok", answer.status == JCOBS_OK && answer.consumed == message.len);
    expect_bytes("frame", frame, answer.length);
    exact = room_for(answer.length + 1);
    again = with_sentinel
                ? jcobs_encode_terminated_with_sentinel(message.data, message.len, exact, answer.length + 1, sentinel)
                : jcobs_encode_terminated(message.data, message.len, exact, answer.length + 1);
    expect("terminated", again.status == JCOBS_OK && again.length == answer.length + 1 &&
                             again.consumed == message.len && memcmp(exact, frame, answer.length) == 0 &&
                             exact[answer.length] == sentinel);
    memset(exact, 0xaa, answer.length + 1);
    again = with_sentinel
                ? jcobs_encode_terminated_with_sentinel(message.data, message.len, exact, answer.length, sentinel)
                : jcobs_encode_terminated(message.data, message.len, exact, answer.length);
    expect("no room for a terminator", again.status == JCOBS_TOO_SMALL && again.consumed == 0 && again.length == 0 &&
                                           exact[0] == 0xaa && exact[answer.length - 1] == 0xaa);
    if (!with_sentinel) {
        again = jcobs_encode(message.data, message.len, exact, answer.length);
        expect("exactly its room", again.status == JCOBS_OK && again.length == answer.length);
        if (message.len > 0)
            memcpy(frame + JCOBS_MAX_OVERHEAD(message.len), message.data, message.len);
        again = jcobs_encode_in_place(frame, room - 1, JCOBS_MAX_OVERHEAD(message.len), message.len);
        expect("in place", again.status == JCOBS_OK && again.length == answer.length && again.consumed == message.len &&
                               memcmp(frame, exact, answer.length) == 0);
    }
    free(exact);
    free(frame);
    free(message.data);
}

static void run_encode(int with_sentinel, int with_status)
{
    bytes message = argument(with_sentinel ? 1 : 0);
    bytes buffer = argument(with_sentinel ? 2 : 1);
    jcobs_answer answer;

    if (with_sentinel) {
        bytes word = argument(0);
        answer = jcobs_encode_with_sentinel(message.data, message.len, buffer.data, buffer.len, word.data[0]);
        free(word.data);
    } else {
        answer = jcobs_encode(message.data, message.len, buffer.data, buffer.len);
    }
    if (with_status)
        expect_status(answer, message.len);
    expect("consumed", answer.consumed == (answer.status == JCOBS_OK ? message.len : 0));
    expect_length(answer);
    if (with_status && answer.status != JCOBS_OK && next_answer < word_count && strcmp(words[next_answer], "-") == 0 &&
        buffer.len > 0)
        next_answer++;
    else
        expect_bytes("buffer", buffer.data, buffer.len);
    free(message.data);
    free(buffer.data);
}

static void run_encoder(void)
{
    bytes buffer = argument(0);
    jcobs_encoder encoder = JCOBS_ENCODER_INIT;
    jcobs_encoder other;
    unsigned char *terminated;
    const char *told[MOST_WORDS];
    jcobs_answer answer;
    jcobs_answer again;
    size_t pieces = argument_count() - 1;
    size_t i;

    for (i = 0; i < pieces; i++) {
        bytes piece = argument(i + 1);
        answer = piece.len == 1 ? jcobs_encoder_feed(&encoder, buffer.data, buffer.len, piece.data[0])
                                : jcobs_encoder_push(&encoder, buffer.data, buffer.len, piece.data, piece.len);
        told[i] = answer.status == JCOBS_OK ? "ok" : "too_small";
        expect("consumed", answer.consumed == (answer.status == JCOBS_OK ? piece.len : 0));
        free(piece.data);
    }
    terminated = room_for(buffer.len);
    memcpy(terminated, buffer.data, buffer.len);
    other = encoder;
    again = jcobs_encoder_finish_terminated(&other, terminated, buffer.len);
    answer = jcobs_encoder_finish(&encoder, buffer.data, buffer.len);
    expect("finished", answer.status == JCOBS_OK && answer.consumed == 0);
    expect("terminated", answer.length == buffer.len ? again.status == JCOBS_TOO_SMALL
                                                     : again.status == JCOBS_OK && again.length == answer.length + 1 &&
                                                           memcmp(terminated, buffer.data, answer.length) == 0 &&
                                                           terminated[answer.length] == 0);
    free(terminated);
    expect_count("length", answer.length);
    expect_bytes("buffer", buffer.data, buffer.len);
    for (i = 0; i < pieces; i++)
        expect_word("push", told[i]);
    free(buffer.data);
}

static void run_encode_frames(void)
{
    unsigned char *stream = room_for(MOST_STREAM);
    size_t len = 0;
    size_t i;

    for (i = 0; i < argument_count(); i++) {
        bytes message = argument(i);
        jcobs_answer answer = jcobs_encode_terminated(message.data, message.len, stream + len, MOST_STREAM - len);
        expect("ok", answer.status == JCOBS_OK);
        len += answer.length;
        free(message.data);
    }
    expect_bytes("frames", stream, len);
    free(stream);
}

enum decoding { INTO_BUFFER, INTO_VECTOR };

static void run_decode(enum decoding how)
{
    bytes source = argument(0);
    bytes buffer = {NULL, 0};
    size_t zeros = zeros_in_front(source);
    jcobs_answer answer;

    if (how == INTO_BUFFER)
        buffer = argument(1);
    else {
        buffer.len = source.len;
        buffer.data = room_for(buffer.len);
    }
    answer = jcobs_decode(source.data, source.len, buffer.data, buffer.len);
    expect_status(answer, source.len);
    expect("consumed", answer.consumed == through(source, zeros, 0));
    if (how == INTO_BUFFER) {
        if (answer.status == JCOBS_OK)
            expect_count("consumed", answer.consumed);
        else
            expect_word("consumed", "-");
        if (answer.status == JCOBS_TOO_SMALL)
            expect("the whole buffer", answer.length == buffer.len);
        expect_length(answer);
        expect_bytes("buffer", buffer.data, buffer.len);
    } else {
        expect_length(answer);
        if (answer.status == JCOBS_OK)
            expect_bytes("message", buffer.data, answer.length);
        else
            next_answer++;
    }
    free(source.data);
    free(buffer.data);
}

static void run_decode_with_sentinel(enum decoding how)
{
    bytes word = argument(0);
    bytes source = argument(1);
    bytes buffer = {NULL, 0};
    jcobs_answer answer;

    if (how == INTO_BUFFER)
        buffer = argument(2);
    else {
        buffer.len = source.len;
        buffer.data = room_for(buffer.len);
    }
    answer = jcobs_decode_with_sentinel(source.data, source.len, buffer.data, buffer.len, word.data[0]);
    expect_status(answer, source.len);
    expect("consumed", answer.consumed == through(source, 0, word.data[0]));
    expect_length(answer);
    if (how == INTO_BUFFER)
        expect_bytes("buffer", buffer.data, buffer.len);
    else if (answer.status == JCOBS_OK)
        expect_bytes("message", buffer.data, answer.length);
    else
        next_answer++;
    free(word.data);
    free(source.data);
    free(buffer.data);
}

static void run_in_place(int with_sentinel, int with_consumed)
{
    bytes buffer = argument(with_sentinel ? 1 : 0);
    unsigned char sentinel = 0;
    size_t consumed;
    size_t terminator;
    size_t i;
    jcobs_answer answer;

    if (with_sentinel) {
        bytes word = argument(0);
        sentinel = word.data[0];
        free(word.data);
    }
    consumed = through(buffer, 0, sentinel);
    terminator = consumed > 0 && buffer.data[consumed - 1] == sentinel ? 1 : 0;
    answer = with_sentinel ? jcobs_decode_in_place_with_sentinel(buffer.data, buffer.len, sentinel)
                           : jcobs_decode_in_place(buffer.data, buffer.len);
    expect_status(answer, buffer.len);
    expect("consumed", answer.consumed == consumed);
    if (with_consumed) {
        if (answer.status == JCOBS_OK)
            expect_count("consumed", answer.consumed - terminator);
        else
            expect_word("consumed", "-");
    }
    expect_length(answer);
    /* In the cases every byte of the buffer is XORed with the sentinel. The library changes no byte after the frame. */
    for (i = consumed - terminator; with_sentinel && i < buffer.len; i++)
        buffer.data[i] ^= sentinel;
    expect_bytes("buffer", buffer.data, buffer.len);
    free(buffer.data);
}

/* Skips the results of a piece that is too long, except the one at the zero that ends the piece. */
static void pass_over_early(bytes stream)
{
    while (next_answer + 2 < word_count && strcmp(words[next_answer + 1], "too_small") == 0) {
        size_t place = (size_t)strtoul(words[next_answer], NULL, 10);
        if (stream.data[place - 1] == 0)
            return;
        next_answer += 3;
    }
}

/* A stream is pushed in its pieces, or byte by byte for a sentinel. */
enum { IN_PIECES = -1 };

static const int streams[] = {IN_PIECES, 0, 1, 2, 10, 0x80, 0xff};

static jcobs_answer push(jcobs_decoder *decoder, unsigned char *buffer, size_t room, const unsigned char *data,
                         size_t len, int sentinel)
{
    unsigned char byte;

    if (sentinel == IN_PIECES)
        return jcobs_decoder_push(decoder, buffer, room, data, len);
    byte = (unsigned char)(data[0] ^ sentinel);
    return jcobs_decoder_push_with_sentinel(decoder, buffer, room, &byte, 1, (unsigned char)sentinel);
}

static void run_decoder(int sentinel)
{
    bytes buffer = argument(0);
    bytes stream = {NULL, 0};
    jcobs_decoder decoder = JCOBS_DECODER_INIT;
    size_t after = next_answer++;
    size_t i;

    stream.data = room_for(MOST_STREAM);
    for (i = 1; i < argument_count(); i++) {
        bytes piece;
        size_t at = 0;

        if (strcmp(words[3 + i], "reset") == 0) {
            jcobs_decoder_reset(&decoder);
            continue;
        }
        piece = argument(i);
        if (piece.len > 0)
            memcpy(stream.data + stream.len, piece.data, piece.len);
        while (at < piece.len) {
            jcobs_answer answer = push(&decoder, buffer.data, buffer.len, piece.data + at, piece.len - at, sentinel);
            at += answer.consumed;
            if (answer.consumed == 0) {
                fail("nothing consumed");
                break;
            }
            if (answer.status == JCOBS_MORE) {
                expect("all consumed", at == piece.len || sentinel != IN_PIECES);
                continue;
            }
            pass_over_early(stream);
            expect_count("place", stream.len + at);
            expect_word("answer", answer.status == JCOBS_OK       ? "message"
                                  : answer.status == JCOBS_BROKEN ? "broken"
                                                                  : "too_small");
            expect_bytes("front of the buffer", buffer.data, answer.length);
        }
        stream.len += piece.len;
        free(piece.data);
    }
    pass_over_early(stream);
    i = next_answer;
    next_answer = after;
    expect_bytes("buffer", buffer.data, buffer.len);
    next_answer = i;
    free(stream.data);
    free(buffer.data);
}

static void run_decode_stream(int sentinel)
{
    size_t room = (size_t)strtoul(words[3], NULL, 10);
    unsigned char *buffer = room_for(room);
    jcobs_decoder decoder = JCOBS_DECODER_INIT;
    size_t i;

    for (i = 1; i < argument_count(); i++) {
        bytes piece = argument(i);
        size_t at = 0;

        while (at < piece.len) {
            jcobs_answer answer = push(&decoder, buffer, room, piece.data + at, piece.len - at, sentinel);
            at += answer.consumed;
            if (answer.consumed == 0) {
                fail("nothing consumed");
                break;
            }
            switch (answer.status) {
            case JCOBS_OK:
                expect_word("message", "message");
                expect_bytes("message", buffer, answer.length);
                break;
            case JCOBS_BROKEN:
                expect_refusal("broken");
                expect_count("broken", answer.length);
                break;
            case JCOBS_TOO_SMALL:
                expect_refusal("too_long");
                expect_word("too long", "-");
                break;
            default:
                break;
            }
        }
        free(piece.data);
    }
    if (next_answer < word_count && strcmp(words[next_answer], "-") == 0)
        next_answer++;
    free(buffer);
}

/* Runs a case of a streaming decoder in each way. */
static void run_in_each_way(void (*run)(int))
{
    size_t first = next_answer;
    size_t i;

    for (i = 0; i < sizeof streams / sizeof streams[0]; i++) {
        next_answer = first;
        run(streams[i]);
        if (next_answer != word_count)
            fail("fewer answers than words");
    }
}

static void run_frame_kind(void)
{
    static const char *const names[] = {"not_a_frame", "canonical", "longer"};
    bytes frame = argument(0);

    expect_word("kind", names[jcobs_frame_kind(frame.data, frame.len)]);
    free(frame.data);
}

/* Runs the case, and returns whether the library has this call. */
static int run_case(const char *call)
{
    if (strcmp(call, "max_encoding_overhead") == 0)
        run_max_length(1);
    else if (strcmp(call, "max_encoding_length") == 0)
        run_max_length(0);
    else if (strcmp(call, "encode_vec") == 0)
        run_encode_vec(0);
    else if (strcmp(call, "encode_vec_with_sentinel") == 0)
        run_encode_vec(1);
    else if (strcmp(call, "encode") == 0)
        run_encode(0, 0);
    else if (strcmp(call, "encode_with_sentinel") == 0)
        run_encode(1, 0);
    else if (strcmp(call, "try_encode") == 0)
        run_encode(0, 1);
    else if (strcmp(call, "try_encode_with_sentinel") == 0)
        run_encode(1, 1);
    else if (strcmp(call, "encoder") == 0)
        run_encoder();
    else if (strcmp(call, "encode_frames") == 0)
        run_encode_frames();
    else if (strcmp(call, "decode_vec") == 0)
        run_decode(INTO_VECTOR);
    else if (strcmp(call, "decode") == 0)
        run_decode(INTO_BUFFER);
    else if (strcmp(call, "decode_vec_with_sentinel") == 0)
        run_decode_with_sentinel(INTO_VECTOR);
    else if (strcmp(call, "decode_with_sentinel") == 0)
        run_decode_with_sentinel(INTO_BUFFER);
    else if (strcmp(call, "decode_in_place") == 0)
        run_in_place(0, 0);
    else if (strcmp(call, "decode_in_place_report") == 0)
        run_in_place(0, 1);
    else if (strcmp(call, "decode_in_place_with_sentinel") == 0)
        run_in_place(1, 0);
    else if (strcmp(call, "decoder") == 0)
        run_in_each_way(run_decoder);
    else if (strcmp(call, "decode_stream") == 0)
        run_in_each_way(run_decode_stream);
    else if (strcmp(call, "frame_kind") == 0)
        run_frame_kind();
    else
        return 0;
    return 1;
}

/* Writes the digits of each part as many times as its number says. */
static void write_out(const char *line, char *text)
{
    char *part = text;
    char *const end = text + MOST_TEXT - 1;

    while (*line != '\0' && text < end) {
        if (*line == '*') {
            char *behind;
            size_t len = (size_t)(text - part);
            unsigned long count = strtoul(line + 1, &behind, 10);
            for (; count > 1 && len <= (size_t)(end - text); count--) {
                memcpy(text, part, len);
                text += len;
            }
            line = behind;
        } else if (*line == '+') {
            part = text;
            line++;
        } else {
            *text++ = *line;
            if (*line++ == ' ')
                part = text;
        }
    }
    *text = '\0';
}

/* Cuts the line into its words. */
static void cut(char *line)
{
    char *word;

    word_count = 0;
    arrow = 0;
    for (word = strtok(line, " \n"); word != NULL && word_count < MOST_WORDS; word = strtok(NULL, " \n")) {
        if (arrow == 0 && strcmp(word, "->") == 0)
            arrow = word_count;
        words[word_count++] = word;
    }
    next_answer = arrow + 1;
}

int main(int argc, char **argv)
{
    static char line[MOST_LINE];
    static char text[MOST_TEXT];
    unsigned long run = 0;
    unsigned long over = 0;
    unsigned long bad = 0;
    int i;

    for (i = 1; i < argc; i++) {
        FILE *file = fopen(argv[i], "r");
        if (file == NULL) {
            perror(argv[i]);
            return 1;
        }
        while (fgets(line, sizeof line, file) != NULL) {
            if (line[0] == '#' || line[0] == '\n')
                continue;
            write_out(line, text);
            cut(text);
            failed = 0;
            if (arrow < 3) {
                fail("no case");
            } else if (run_case(words[2])) {
                run++;
                if (next_answer != word_count)
                    fail("fewer answers than words");
            } else {
                over++;
            }
            bad += failed ? 1 : 0;
        }
        fclose(file);
    }
    printf("%lu cases run, %lu of calls that this library lacks, %lu failed\n", run, over, bad);
    return bad == 0 && run > 0 ? 0 : 1;
}
