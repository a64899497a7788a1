/* The start of a program for simavr's atmega1284p. The program's output goes to the UART. At its end the processor
 * sleeps with interrupts off, which ends simavr. It is built with -Dmain=program, and CALLS is its argument. */
#include <avr/io.h>
#include <avr/sleep.h>

#include <stdio.h>

#undef main
#ifndef CALLS
#define CALLS ""
#endif

int program(int argc, char **argv);

static int put(char letter, FILE *stream)
{
    (void)stream;
    loop_until_bit_is_set(UCSR0A, UDRE0);
    UDR0 = (unsigned char)letter;
    return 0;
}

static FILE output = FDEV_SETUP_STREAM(put, NULL, _FDEV_SETUP_WRITE);

int main(void)
{
    static char name[] = "program";
    static char calls[] = CALLS;
    char *arguments[] = {name, calls, NULL};

    UCSR0B = 1 << TXEN0;
    stdout = &output;
    program(2, arguments);
    loop_until_bit_is_set(UCSR0A, UDRE0);
    SMCR = 1 << SE;
    __asm__ volatile("cli\n\tsleep");
    return 0;
}
