/* Encodes each line of standard input, without its newline, and writes the frame and a zero to standard output.
 *
 * The chunks of a line are encoded as soon as they are read, so the program keeps the frame in memory, but not the line. */
#include <jcobs.h>

#include <stdio.h>
#include <string.h>

#define MAX_LINE 65536
#define MAX_FRAME JCOBS_MAX_LENGTH(MAX_LINE)

/* The frame of the longest line, and the zero after it. */
static unsigned char frame[MAX_FRAME + 1];

/* Ends the frame of a line and writes it. Returns 0 if the write failed. */
static int send_frame(jcobs_encoder *encoder)
{
    size_t length = jcobs_encoder_finish(encoder, frame, MAX_FRAME).length;

    frame[length] = 0;
    return fwrite(frame, 1, length + 1, stdout) == length + 1 && fflush(stdout) == 0;
}

int main(void)
{
    jcobs_encoder encoder = JCOBS_ENCODER_INIT;
    unsigned char chunk[256];
    size_t begun = 0; /* how many bytes of the current line were encoded */
    size_t n;

    while ((n = fread(chunk, 1, sizeof chunk, stdin)) > 0) {
        size_t at = 0;

        while (at < n) {
            unsigned char *newline = memchr(chunk + at, '\n', n - at);
            size_t len = (newline != NULL ? (size_t)(newline - chunk) : n) - at;

            if (jcobs_encoder_push(&encoder, frame, MAX_FRAME, chunk + at, len).status != JCOBS_OK) {
                fputs("send_lines: a line is too long\n", stderr);
                return 1;
            }
            begun += len;
            at += len;
            if (newline != NULL) {
                if (!send_frame(&encoder)) {
                    perror("send_lines");
                    return 1;
                }
                begun = 0;
                at++;
            }
        }
    }
    if (ferror(stdin) || (begun > 0 && !send_frame(&encoder))) {
        perror("send_lines");
        return 1;
    }
    return 0;
}
