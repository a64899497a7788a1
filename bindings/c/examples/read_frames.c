/* Reads a stream of frames from standard input, and prints each message or error when its frame ends:
 * read_frames [CHUNK [ROOM]].
 *
 * At most CHUNK bytes are read at a time (default 4,096), and the buffer for messages has ROOM bytes (default 1,024).
 * The output is the same for every CHUNK. */
#define _POSIX_C_SOURCE 200809L
#include <jcobs.h>

#include <errno.h>
#include <poll.h>
#include <stdio.h>
#include <stdlib.h>
#include <unistd.h>

static void print_message(const unsigned char *message, size_t length)
{
    size_t i;

    printf("message %lu%s", (unsigned long)length, length > 0 ? " " : "");
    for (i = 0; i < length; i++)
        printf("%02x", (unsigned int)message[i]);
    putchar('\n');
}

static void print_answer(jcobs_answer answer, const unsigned char *buffer)
{
    switch (answer.status) {
    case JCOBS_OK:
        print_message(buffer, answer.length);
        break;
    case JCOBS_BROKEN:
        printf("broken %lu\n", (unsigned long)answer.length);
        break;
    case JCOBS_TOO_SMALL:
        puts("too long");
        break;
    default: /* JCOBS_MORE: no frame has ended yet */
        break;
    }
}

/* Waits for bytes and reads them. Returns the number of bytes, 0 at the end of the input, or -1 if the read failed. */
static ssize_t read_some(int fd, unsigned char *bytes, size_t len)
{
    struct pollfd wait = {0, POLLIN, 0};
    ssize_t n;

    wait.fd = fd;
    for (;;) {
        if (poll(&wait, 1, -1) < 0) {
            if (errno == EINTR)
                continue;
            return -1;
        }
        n = read(fd, bytes, len);
        if (n >= 0 || (errno != EINTR && errno != EAGAIN))
            return n;
    }
}

int main(int argc, char **argv)
{
    size_t chunk = argc > 1 ? (size_t)strtoul(argv[1], NULL, 10) : 4096;
    size_t room = argc > 2 ? (size_t)strtoul(argv[2], NULL, 10) : 1024;
    unsigned char *bytes = malloc(chunk);
    unsigned char *buffer = malloc(room);
    jcobs_decoder decoder = JCOBS_DECODER_INIT;
    ssize_t n;

    if (chunk == 0 || bytes == NULL || (room > 0 && buffer == NULL)) {
        fputs("usage: read_frames [CHUNK [ROOM]]\n", stderr);
        return 2;
    }
    while ((n = read_some(STDIN_FILENO, bytes, chunk)) > 0) {
        size_t at = 0;

        while (at < (size_t)n) {
            jcobs_answer answer = jcobs_decoder_push(&decoder, buffer, room, bytes + at, (size_t)n - at);

            at += answer.consumed;
            print_answer(answer, buffer);
        }
        fflush(stdout);
    }
    if (n < 0) {
        perror("read_frames");
        return 1;
    }
    if (!jcobs_decoder_is_idle(&decoder))
        puts("unfinished");
    free(bytes);
    free(buffer);
    if (fflush(stdout) != 0 || ferror(stdout)) {
        perror("read_frames");
        return 1;
    }
    return 0;
}
