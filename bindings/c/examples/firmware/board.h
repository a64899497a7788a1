/* board.h: the UART of QEMU's mps2-an386. */
#ifndef BOARD_H
#define BOARD_H

void uart_start(void);
void uart_send(unsigned char byte);
void interrupts_off(void);
void interrupts_on(void);
void wait_for_interrupt(void);          /* also returns while interrupts are off, without handling the interrupt */
void uart_received(unsigned char byte); /* defined by the program, called by the interrupt handler */

#endif
