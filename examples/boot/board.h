/* What a program without a C library asks of its board, and what the board asks of it. Assumes nothing but the compiler's own headers. */
#ifndef BOARD_H
#define BOARD_H

#include <stddef.h>

/* The program's: the board calls it once, with memory and a stack ready. It answers 0 where all went well. */
int program(void);

/* The board's: bytes to its console and from it. Each answers how many bytes it moved, and nothing above 0 where it can move no more. */
long board_write(const void *from, size_t size);
long board_read(void *to, size_t most);

#endif
