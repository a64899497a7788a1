/* Firmware for QEMU's mps2-an386 (a Cortex-M4 with a UART): it receives commands as frames, and sends replies as
 * frames.
 *
 * The UART's interrupt handler puts each received byte into a ring buffer. The main loop feeds the bytes of the ring to
 * the decoder, and handles each command when its frame ends:
 *
 *     'e' bytes..   echo: sends the bytes back
 *     'a' bytes..   add: adds the bytes up, and sends the sum in two bytes, the high byte first
 *     's'           statistics: sends how many frames were decoded, broken, and too long, and how often the ring was
 *                   full. Each count is sent in one byte, and continues with 0 after 255
 *
 * Each reply begins with the letter of its command. A frame that is broken or too long is counted, and never affects
 * another frame. If the ring is full and bytes are lost, the receiver drops the bytes up to and including the next zero
 * that arrives. So it drops a frame that lost bytes. If the zero at the end of this frame was lost too, the receiver
 * also drops the next frame. */
#include "board.h"

/* THE RECEIVER: copy the code from here down to the line of dashes. Your program defines handle, complain and
 * uart_send. */

#include <jcobs.h>

#define MAX_COMMAND 64 /* the greatest number of bytes in a command */

static volatile unsigned char ring[256]; /* indices of 8 bits wrap around at its length; one byte stays unused */
static volatile unsigned char ring_head; /* the interrupt handler writes here */
static volatile unsigned char ring_tail; /* the main loop reads here */
static volatile unsigned char ring_cut;  /* bytes are lost while this is set; the main loop clears it */
static volatile unsigned char overruns;

void uart_received(unsigned char byte) /* called by the interrupt handler */
{
    if (ring_cut)
        return;
    if ((unsigned char)(ring_head + 1) == ring_tail) {
        ring_cut = 1;
        overruns++;
        return;
    }
    ring[ring_head] = byte;
    ring_head++;
}

static jcobs_decoder decoder = JCOBS_DECODER_INIT;
static unsigned char command[MAX_COMMAND];

static void handle(const unsigned char *bytes, size_t len);
static void complain(unsigned int status);

static void receive(void) /* called by the main loop */
{
    static unsigned char is_skipping; /* whether the rest of a frame that lost bytes is skipped */
    unsigned char was_cut = ring_cut; /* read first: the lost bytes come after all bytes in the ring */

    while (ring_tail != ring_head) {
        unsigned char byte = ring[ring_tail];
        jcobs_answer answer;

        ring_tail++;
        if (is_skipping) {
            is_skipping = byte != 0;
            continue;
        }
        answer = jcobs_decoder_feed(&decoder, command, sizeof command, byte);
        if (answer.status == JCOBS_OK)
            handle(command, answer.length);
        else if (answer.status != JCOBS_MORE)
            complain(answer.status);
    }
    if (was_cut) {
        jcobs_decoder_reset(&decoder);
        is_skipping = 1;
        ring_cut = 0;
    }
}

static void send(const unsigned char *bytes, size_t len)
{
    static unsigned char frame[JCOBS_MAX_LENGTH(MAX_COMMAND + 1) + 1];
    jcobs_answer answer = jcobs_encode_terminated(bytes, len, frame, sizeof frame);
    size_t i;

    for (i = 0; i < answer.length; i++)
        uart_send(frame[i]);
}

/* ---------------------------------------------------------------- */

static unsigned char counts[3]; /* of frames that were decoded, broken, too long */

static void handle(const unsigned char *bytes, size_t len)
{
    unsigned char reply[MAX_COMMAND + 1];
    unsigned int sum = 0;
    size_t i;

    counts[0]++;
    if (len == 0)
        return;
    reply[0] = bytes[0];
    switch (bytes[0]) {
    case 'e':
        for (i = 1; i < len; i++)
            reply[i] = bytes[i];
        send(reply, len);
        break;
    case 'a':
        for (i = 1; i < len; i++)
            sum += bytes[i];
        reply[1] = (unsigned char)(sum >> 8);
        reply[2] = (unsigned char)sum;
        send(reply, 3);
        break;
    case 's':
        reply[1] = counts[0];
        reply[2] = counts[1];
        reply[3] = counts[2];
        reply[4] = overruns;
        send(reply, 5);
        break;
    default:
        break;
    }
}

static void complain(unsigned int status)
{
    counts[status == JCOBS_BROKEN ? 1 : 2]++;
}

int main(void)
{
    uart_start();
    for (;;) {
        interrupts_off(); /* so that no byte arrives between the test and the wait */
        if (ring_tail == ring_head && !ring_cut)
            wait_for_interrupt();
        interrupts_on();
        receive();
    }
}
