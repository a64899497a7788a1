/* A plain program with the output of `cobs_watch show`: as lines, with --as raw, or with --as json. It copies runs of bytes at once, and
 * writes digits with a table. The speed of cobs_watch is compared with the speed of this program. Hidden characters that aren't
 * ASCII are written unchanged. */
#include <stdio.h>
#include <stdlib.h>
#include <string.h>
#include <unistd.h>

enum { ROOM = 65536, OUT = 1 << 20 };
enum style { HEX, RAW, JSON };

static unsigned char in[ROOM], out[OUT], message[ROOM];
static size_t out_len;
static unsigned long long frames;
static char digits[256][2];

static void flush_out(void)
{
    for (size_t at = 0; at < out_len;) {
        ssize_t count = write(1, out + at, out_len - at);
        if (count <= 0)
            exit(1);
        at += (size_t)count;
    }
    out_len = 0;
}

static void reserve(size_t room)
{
    if (OUT - out_len < room)
        flush_out();
}

static void put(const void *bytes, size_t len)
{
    memcpy(out + out_len, bytes, len);
    out_len += len;
}

static void put_number(unsigned long long number)
{
    char text[20];
    size_t at = sizeof text;

    do
        text[--at] = (char)('0' + number % 10);
    while (number /= 10);
    put(text + at, sizeof text - at);
}

static void put_digits(const unsigned char *bytes, size_t len)
{
    for (size_t i = 0; i < len; i++)
        memcpy(out + out_len + 2 * i, digits[bytes[i]], 2);
    out_len += 2 * len;
}

static int is_utf8(const unsigned char *p, size_t len)
{
    for (const unsigned char *end = p + len; p < end;) {
        unsigned char lead = *p++;
        size_t more = lead < 0x80 ? 0 : lead < 0xc2 ? 9 : lead < 0xe0 ? 1 : lead < 0xf0 ? 2 : lead < 0xf5 ? 3 : 9;
        if (more > (size_t)(end - p))
            return 0;
        if (more > 1 && ((lead == 0xe0 && *p < 0xa0) || (lead == 0xed && *p > 0x9f) || (lead == 0xf0 && *p < 0x90) ||
                         (lead == 0xf4 && *p > 0x8f)))
            return 0;
        for (; more > 0; more--)
            if ((*p++ & 0xc0) != 0x80)
                return 0;
    }
    return 1;
}

static void put_escaped(const unsigned char *p, size_t len)
{
    for (const unsigned char *end = p + len; p < end;) {
        const unsigned char *run = p;
        while (p < end && *p >= 32 && *p != 127 && *p != '"' && *p != '\\')
            p++;
        put(run, (size_t)(p - run));
        if (p == end)
            return;
        if (*p == '"' || *p == '\\') {
            put("\\", 1);
            put(p, 1);
        } else {
            put("\\u00", 4);
            put_digits(p, 1);
        }
        p++;
    }
}

/* A piece ended; `is_broken` says whether inside a block. */
static void show(enum style style, size_t len, int is_broken, int too_long)
{
    reserve(8 * ROOM + 128);
    frames++;
    if (style == RAW) {
        if (!is_broken && !too_long) {
            put(message, len);
            put("\n", 1);
        }
    } else if (style == HEX) {
        if (too_long) {
            put("too long\n", 9);
            return;
        }
        put(is_broken ? "broken " : "message ", is_broken ? 7 : 8);
        put_number(len);
        if (!is_broken && len > 0) {
            put(" ", 1);
            put_digits(message, len);
        }
        put("\n", 1);
    } else {
        put("{\"frame\":", 9);
        put_number(frames);
        if (too_long) {
            put(",\"kind\":\"too-long\"}\n", 20);
            return;
        }
        put(is_broken ? ",\"kind\":\"broken\",\"length\":" : ",\"kind\":\"message\",\"length\":", is_broken ? 26 : 27);
        put_number(len);
        if (!is_broken) {
            put(",\"hex\":\"", 8);
            put_digits(message, len);
            put("\"", 1);
            if (is_utf8(message, len)) {
                put(",\"text\":\"", 9);
                put_escaped(message, len);
                put("\"", 1);
            }
        }
        put("}\n", 2);
    }
}

int main(int argc, char **argv)
{
    enum style style = argc < 3 ? HEX : strcmp(argv[2], "raw") == 0 ? RAW : JSON;
    int begun = 0, too_long = 0, zero_due = 0;
    size_t left = 0, len = 0;
    ssize_t count;

    for (int i = 0; i < 256; i++) {
        digits[i][0] = "0123456789abcdef"[i >> 4];
        digits[i][1] = "0123456789abcdef"[i & 15];
    }
    while ((count = read(0, in, ROOM)) > 0) {
        for (const unsigned char *p = in, *end = in + count; p < end;) {
            if (left > 0) {
                size_t run = left < (size_t)(end - p) ? left : (size_t)(end - p);
                const unsigned char *zero = memchr(p, 0, run);
                if (zero)
                    run = (size_t)(zero - p);
                if (run > ROOM - len)
                    too_long = 1;
                else {
                    memcpy(message + len, p, run);
                    len += run;
                }
                left -= run;
                p += run;
                if (!zero)
                    continue;
            }
            if (*p == 0) {
                if (begun)
                    show(style, len, left > 0, too_long);
                begun = too_long = zero_due = 0;
                left = len = 0;
            } else {
                if (zero_due) {
                    if (len == ROOM)
                        too_long = 1;
                    else
                        message[len++] = 0;
                }
                begun = 1;
                left = *p - 1u;
                zero_due = *p != 255;
            }
            p++;
        }
        flush_out();
    }
    if (begun && style != RAW) {
        const char *text = style == HEX ? "unfinished\n" : "{\"kind\":\"unfinished\"}\n";
        put(text, strlen(text));
        flush_out();
    }
    return count < 0;
}
