/* The start of a program for QEMU's mps2 machines: the vector table, and then the start code of the C library, which
 * asks the machine by semihosting where its memory is. */
extern void _start(void);

#ifdef __ARM_ARCH_8M_MAIN__
#define STACK 0x38100000 /* of mps2-an505 */
#else
#define STACK 0x20100000
#endif

static void stop(void)
{
    for (;;)
        ;
}

__attribute__((section(".vectors"), used)) void *const vectors[16] = {(void *)STACK, _start, stop, stop,
                                                                      stop,          stop,   stop};
