/* ticks.h: counts the instructions that QEMU has run, or the cycles of simavr. */
#ifndef TICKS_H
#define TICKS_H

#if defined(__riscv)
#define EACH 1
#define COUNTED 0xffffff
static void begin(void)
{
}
static unsigned long now(void)
{
    unsigned long instructions;

    __asm__ volatile("rdinstret %0" : "=r"(instructions));
    return instructions;
}
#elif defined(__AVR__)
#include <avr/io.h>
#define EACH 64
#define COUNTED 0xffff
static void begin(void)
{
    TCCR1B = 1 << CS11 | 1 << CS10;
}
static unsigned long now(void)
{
    return TCNT1;
}
#else /* Cortex-M: QEMU runs one instruction in each nanosecond (-icount shift=0), and the timer counts down 40 of them. */
#define EACH 40
#define COUNTED 0xffffff
static volatile unsigned int *const timer = (volatile unsigned int *)0xe000e010; /* control, reload, value */
static void begin(void)
{
    timer[1] = COUNTED;
    timer[2] = 0;
    timer[0] = 5;
}
static unsigned long now(void)
{
    return COUNTED - timer[2];
}
#endif

/* Returns how many instructions or cycles the call needs, in units of EACH. */
static unsigned long ticks(void (*call)(void))
{
    unsigned long before = now();

    call();
    return (now() - before) & COUNTED;
}

#endif
