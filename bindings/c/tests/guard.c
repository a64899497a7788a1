/* Makes random calls with buffers next to pages without access: guard [CALLS [SEED]].
 *
 * Each buffer of a call begins right after a page without access, or ends right before such a page. The bytes on the
 * buffer's other side are compared after the call. The states are random bytes, or the states that earlier calls left.
 * If a call accesses a byte outside its buffers, or if consumed or length is too large, the program ends. */
#define _DEFAULT_SOURCE
#include <jcobs.h>

#include <stdio.h>
#include <stdlib.h>
#include <string.h>
#include <sys/mman.h>
#include <unistd.h>

#define REGIONS 3
#define PAGES 2
#define MARGIN 64

static unsigned char *region[REGIONS];
static size_t page;
static unsigned long long state = 88172645463325252ull;

static unsigned int random_word(void)
{
    state ^= state << 13;
    state ^= state >> 7;
    state ^= state << 17;
    return (unsigned int)(state >> 16);
}

static size_t below(size_t bound)
{
    return random_word() % bound;
}

static void stop(const char *what, unsigned long call)
{
    printf("call %lu: %s\n", call, what);
    exit(1);
}

/* A buffer of `len` bytes at one end of a region, and the bytes on its other side. */
typedef struct placed {
    unsigned char *data;
    size_t len;
    unsigned char *beside;
    size_t beside_len;
    unsigned char copy[MARGIN];
} placed;

static placed place(int index, size_t len)
{
    placed buffer;
    size_t whole = PAGES * page;
    size_t spare = whole - len;
    size_t margin = spare < MARGIN ? spare : MARGIN;

    buffer.len = len;
    buffer.beside_len = margin;
    if (random_word() & 1) {
        buffer.data = region[index];
        buffer.beside = region[index] + len;
    } else {
        buffer.data = region[index] + spare;
        buffer.beside = buffer.data - margin;
    }
    memset(buffer.copy, 0, sizeof buffer.copy);
    memcpy(buffer.copy, buffer.beside, margin);
    if (len == 0 && (random_word() & 1))
        buffer.data = NULL;
    return buffer;
}

static int is_beside_same(const placed *buffer)
{
    return memcmp(buffer->copy, buffer->beside, buffer->beside_len) == 0;
}

/* Random bytes of one kind: anything, few zeros, small codes, or one value. */
static void fill(unsigned char *bytes, size_t len)
{
    unsigned int kind = random_word() % 4;
    unsigned char value = (unsigned char)random_word();
    size_t i;

    for (i = 0; i < len; i++) {
        unsigned int word = random_word();
        switch (kind) {
        case 0:
            bytes[i] = (unsigned char)word;
            break;
        case 1:
            bytes[i] = (unsigned char)((word >> 8) % 40 == 0 ? 0 : word | 1);
            break;
        case 2:
            bytes[i] = (unsigned char)(word % 5);
            break;
        default:
            bytes[i] = (unsigned char)((word >> 8) % 300 == 0 ? word : value);
        }
    }
}

static size_t some_length(void)
{
    switch (random_word() % 8) {
    case 0:
        return 0;
    case 1:
        return PAGES * page;
    case 2:
        return below(PAGES * page + 1);
    case 3:
        return 250 + below(12);
    default:
        return below(48);
    }
}

/* Decodes with one of the three calls. */
static jcobs_answer decode_some(jcobs_decoder *decoder, placed out, placed in, unsigned char sentinel)
{
    switch (random_word() % 3) {
    case 0:
        return jcobs_decoder_push(decoder, out.data, out.len, in.data, in.len);
    case 1:
        return jcobs_decoder_push_with_sentinel(decoder, out.data, out.len, in.data, in.len, sentinel);
    default:
        if (in.len == 0)
            return jcobs_decoder_push(decoder, out.data, out.len, NULL, 0);
        return jcobs_decoder_feed(decoder, out.data, out.len, in.data[0]);
    }
}

/* Ends a message with one of the four calls. */
static jcobs_answer finish(jcobs_encoder *encoder, placed out, unsigned char sentinel)
{
    switch (random_word() % 4) {
    case 0:
        return jcobs_encoder_finish(encoder, out.data, out.len);
    case 1:
        return jcobs_encoder_finish_terminated(encoder, out.data, out.len);
    case 2:
        return jcobs_encoder_finish_with_sentinel(encoder, out.data, out.len, sentinel);
    default:
        return jcobs_encoder_finish_terminated_with_sentinel(encoder, out.data, out.len, sentinel);
    }
}

int main(int argc, char **argv)
{
    unsigned long calls = argc > 1 ? strtoul(argv[1], NULL, 10) : 1000000;
    unsigned long call;
    unsigned long statuses[5] = {0, 0, 0, 0, 0};
    jcobs_decoder decoder = JCOBS_DECODER_INIT;
    jcobs_encoder encoder = JCOBS_ENCODER_INIT;
    int i;

    if (argc > 2)
        state ^= strtoul(argv[2], NULL, 10) * 0x9e3779b97f4a7c15ull;
    page = (size_t)sysconf(_SC_PAGESIZE);
    for (i = 0; i < REGIONS; i++) {
        unsigned char *map = mmap(NULL, (PAGES + 2) * page, PROT_NONE, MAP_PRIVATE | MAP_ANONYMOUS, -1, 0);
        if (map == MAP_FAILED || mprotect(map + page, PAGES * page, PROT_READ | PROT_WRITE) != 0) {
            perror("mmap");
            return 1;
        }
        region[i] = map + page;
    }
    for (call = 1; call <= calls; call++) {
        placed in = place(0, some_length());
        placed out = place(1, some_length());
        jcobs_answer answer = {JCOBS_OK, 0, 0};
        unsigned char sentinel = (unsigned char)random_word();
        size_t taken = in.len;
        size_t room = out.len;
        unsigned char *state_bytes = region[2] + (random_word() & 1 ? 0 : PAGES * page - sizeof decoder);
        unsigned int garbage = random_word() & 1;

        fill(in.data, in.len);
        if ((random_word() & 3) == 0)
            fill(out.data, out.len);
        switch (random_word() % 17) {
        case 0:
            answer = jcobs_encode(in.data, in.len, out.data, out.len);
            break;
        case 1:
            answer = jcobs_encode_terminated(in.data, in.len, out.data, out.len);
            break;
        case 2:
            answer = jcobs_encode_with_sentinel(in.data, in.len, out.data, out.len, sentinel);
            break;
        case 3:
            answer = jcobs_encode_terminated_with_sentinel(in.data, in.len, out.data, out.len, sentinel);
            break;
        case 4:
            answer = jcobs_decode(in.data, in.len, out.data, out.len);
            break;
        case 5:
            answer = jcobs_decode_with_sentinel(in.data, in.len, out.data, out.len, sentinel);
            break;
        case 6:
            answer = jcobs_decode_in_place(in.data, in.len);
            room = in.len;
            break;
        case 7:
            answer = jcobs_decode_in_place_with_sentinel(in.data, in.len, sentinel);
            room = in.len;
            break;
        case 8:
            if (jcobs_frame_kind(in.data, in.len) > JCOBS_LONGER)
                stop("unknown kind", call);
            if (jcobs_strerror(random_word() % 7, (char *)out.data, out.len) >= JCOBS_TEXT_LENGTH)
                stop("long text", call);
            break;
        case 9:
            if (garbage)
                fill(state_bytes, sizeof decoder);
            else
                memcpy(state_bytes, &decoder, sizeof decoder);
            answer = decode_some((jcobs_decoder *)(void *)state_bytes, out, in, sentinel);
            memcpy(&decoder, state_bytes, sizeof decoder);
            if (jcobs_decoder_is_idle(&decoder) > 1)
                stop("neither idle nor not", call);
            break;
        case 10:
            if (garbage)
                fill(state_bytes, sizeof encoder);
            else
                memcpy(state_bytes, &encoder, sizeof encoder);
            answer = jcobs_encoder_push((jcobs_encoder *)(void *)state_bytes, out.data, out.len, in.data, in.len);
            memcpy(&encoder, state_bytes, sizeof encoder);
            break;
        case 11:
            if (garbage)
                fill(state_bytes, sizeof encoder);
            else
                memcpy(state_bytes, &encoder, sizeof encoder);
            answer = jcobs_encoder_feed((jcobs_encoder *)(void *)state_bytes, out.data, out.len, sentinel);
            taken = 1;
            memcpy(&encoder, state_bytes, sizeof encoder);
            break;
        case 12:
            taken = some_length();
            answer = jcobs_encode_in_place(out.data, out.len, some_length(), taken);
            break;
        default:
            if (garbage)
                fill(state_bytes, sizeof encoder);
            else
                memcpy(state_bytes, &encoder, sizeof encoder);
            answer = finish((jcobs_encoder *)(void *)state_bytes, out, sentinel);
            memcpy(&encoder, state_bytes, sizeof encoder);
            taken = 0;
            if (garbage)
                jcobs_decoder_reset(&decoder);
            break;
        }
        if (answer.status > JCOBS_EMPTY)
            stop("unknown status", call);
        statuses[answer.status]++;
        if (answer.consumed > taken)
            stop("more consumed than there was", call);
        if (answer.length > room)
            stop("longer than the buffer", call);
        if (!is_beside_same(&in) || !is_beside_same(&out))
            stop("a byte outside was changed", call);
    }
    printf("%lu calls: %lu ok, %lu more, %lu too small, %lu broken, %lu empty\n", calls, statuses[0], statuses[1],
           statuses[2], statuses[3], statuses[4]);
    return 0;
}
