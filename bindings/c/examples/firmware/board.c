/* board.c: the start code, the vector table and UART 0 (an ARM CMSDK UART) of QEMU's mps2-an386. */
#include "board.h"

#define UART ((volatile unsigned int *)0x40004000) /* data, state, control, interrupt, divider */
#define ENABLE_INTERRUPT (*(volatile unsigned int *)0xe000e100)

enum { DATA, STATE, CONTROL, INTERRUPT, DIVIDER };

extern unsigned int stack_top, data_start, data_end, data_from, bss_start, bss_end;
int main(void);

void uart_start(void)
{
    UART[DIVIDER] = 16;
    UART[CONTROL] = 1 | 2 | 8; /* send, receive, interrupt when a byte has arrived */
    ENABLE_INTERRUPT = 1;      /* number 0: UART 0 has received */
}

void uart_send(unsigned char byte)
{
    while (UART[STATE] & 1)
        ;
    UART[DATA] = byte;
}

void interrupts_off(void)
{
    __asm__ volatile("cpsid i" ::: "memory");
}

void interrupts_on(void)
{
    __asm__ volatile("cpsie i" ::: "memory");
}

void wait_for_interrupt(void)
{
    __asm__ volatile("wfi" ::: "memory");
}

static void uart_interrupt(void)
{
    UART[INTERRUPT] = 2; /* cleared before the bytes are read: a byte that arrives later interrupts again */
    while (UART[STATE] & 2)
        uart_received((unsigned char)UART[DATA]);
}

static void stop(void)
{
    for (;;)
        ;
}

static void start(void)
{
    unsigned int *from = &data_from;
    unsigned int *to;

    for (to = &data_start; to < &data_end; to++)
        *to = *from++;
    for (to = &bss_start; to < &bss_end; to++)
        *to = 0;
    main();
    stop();
}

typedef void (*handler)(void);

__attribute__((section(".vectors"), used)) static const handler vectors[17] = {
    (handler)&stack_top, start, stop, stop, stop, stop, stop, 0, 0, 0, 0, stop, stop, 0, stop, stop, uart_interrupt,
};
