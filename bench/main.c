/* Measures the calls of a coder, in the order of measure.py: each row of messages, and for it each call.
 *
 *     program          prints the nanoseconds of each call for one message, the least of ROUNDS
 *     program count    makes each call between begin() and end(), so that its instructions can be counted
 *
 * Without a C library (BARE) it counts, and ends by an undefined instruction in done(). In WebAssembly
 * wasm.mjs has the clock and takes the figures. */
#define _POSIX_C_SOURCE 199309L
#include "speed.h"

extern const unsigned char rows[];
extern const size_t rows_len;

#define ROOM 70000
#define MOST 1024 /* messages of a row */
#define ROUNDS 16
#define LEAST 20000 /* nanoseconds of a round */

#ifdef PLACE /* all code after this lies so many bytes further on in memory */
__asm__(".text\n.skip " PLACE "\n");
#endif

static unsigned char room[ROOM], copies[ROOM];
static size_t lens[MOST];

static int same(const unsigned char *a, const unsigned char *b, size_t len, unsigned char flip)
{
    size_t i;

    for (i = 0; i < len && (a[i] ^ flip) == b[i]; i++)
        ;
    return i == len;
}

static void copy(unsigned char *to, const unsigned char *from, size_t len)
{
    size_t i;

    for (i = 0; i < len; i++)
        to[i] = from[i];
}

static size_t number(const unsigned char **at)
{
    const unsigned char *from = *at;

    *at += 4;
    return from[0] | (size_t)from[1] << 8 | (size_t)from[2] << 16 | (size_t)from[3] << 24;
}

static const unsigned char *lay_out(struct work *work, const unsigned char *at)
{
    size_t i;

    work->count = number(&at);
    work->len = number(&at);
    work->stream_len = work->count;
    for (i = 0; i < work->count; i++)
        work->stream_len += lens[i] = number(&at);
    work->messages = at;
    work->stream = at + work->count * work->len;
    work->marked = work->stream + work->stream_len;
    return work->marked + work->stream_len;
}

/* Whether a call wrote every byte that it should: of the last message, and in place of the first one. */
static int is_right(const struct work *work, int which, size_t sum)
{
    size_t last = work->count - 1;
    const unsigned char *message = work->messages + last * work->len;
    const unsigned char *frame = work->stream + work->stream_len - lens[last] - 1;

    if (which == IN_PLACE)
        return sum == work->count * work->len && same(copies, work->messages, work->len, 0);
    if (which < ENCODES)
        return sum == work->count * work->len && same(room, message, work->len, 0);
    return sum == work->stream_len - work->count && same(room, frame, lens[last], which == ENCODES + 2 ? SENTINEL : 0);
}

__attribute__((noinline)) void begin(void)
{
    __asm__ volatile("");
}
__attribute__((noinline)) void end(void)
{
    __asm__ volatile("" ::: "memory");
}

#ifdef BARE
__attribute__((noinline, noreturn)) void done(void)
{
    __builtin_trap();
}
static void fail(void)
{
    __builtin_trap();
}
#elif defined(__wasm__)
double now(void);
void put(double nanoseconds);
_Noreturn void fail(void);
#else
#include <stdio.h>
#include <stdlib.h>
#include <time.h>

static double now(void)
{
    struct timespec time;

    clock_gettime(CLOCK_MONOTONIC, &time);
    return (double)time.tv_sec * 1e9 + (double)time.tv_nsec;
}
static void put(double nanoseconds)
{
    printf("%.2f\n", nanoseconds);
}
static void fail(void)
{
    fprintf(stderr, "a wrong result\n");
    exit(1);
}
#endif

static void count(struct work *work, int which)
{
    size_t sum;

    copy(copies, work->stream, work->stream_len);
    begin();
    sum = calls[which] ? calls[which](work) : 0;
    end();
    if (calls[which] && !is_right(work, which, sum))
        fail();
}

#ifndef BARE
/* The nanoseconds of so many calls. In place, each has a new copy, outside of the clock. */
static double taken(struct work *work, int which, size_t times)
{
    double sum = 0, begun;
    size_t i;

    for (i = 0; i < times; i++) {
        if (which == IN_PLACE)
            copy(copies, work->stream, work->stream_len);
        begun = now();
        calls[which](work);
        sum += now() - begun;
    }
    return sum;
}

/* The same with one reading of the clock for all. */
static double taken_at_once(struct work *work, int which, size_t times)
{
    double begun = now();
    size_t i;

    for (i = 0; i < times; i++)
        calls[which](work);
    return now() - begun;
}

static void measure(struct work *work, int which)
{
    double (*measured)(struct work *, int, size_t) = which == IN_PLACE ? taken : taken_at_once;
    double least = 1e18, once;
    size_t times = 1;
    int round;

    if (!calls[which]) {
        put(0);
        return;
    }
    copy(copies, work->stream, work->stream_len);
    if (!is_right(work, which, calls[which](work)))
        fail();
    while (measured(work, which, times) < LEAST)
        times *= 2;
    for (round = 0; round < ROUNDS; round++) {
        once = measured(work, which, times) / (double)(times * work->count);
        least = once < least ? once : least;
    }
    put(least);
}
#endif

static void all(void (*act)(struct work *, int))
{
    static struct work work;
    const unsigned char *at = rows;
    int which;

    begin();
    end(); /* what these take alone */
    work.lens = lens;
    work.copies = copies;
    work.room = room;
    work.room_size = ROOM;
    while (at < rows + rows_len) {
        at = lay_out(&work, at);
        for (which = 0; which < CALLS; which++)
            act(&work, which);
    }
}

#ifdef BARE
void start(void)
{
    all(count);
    done();
}
#elif defined(__wasm__)
void start(void)
{
    all(measure);
}
#else
int main(int argc, char **argv)
{
    (void)argv;
    all(argc > 1 ? count : measure);
    return 0;
}
#endif
