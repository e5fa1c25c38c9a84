/* A board that is a Linux process, so that boot code can be tried on a desk: the console is standard output and input. Assumes Linux on
 * x86-64, aarch64 or riscv64 and no C library; has the two functions of one that the archive needs. Build it with -ffreestanding. */
#include "board.h"

#if defined __x86_64__

enum { CALL_READ = 0, CALL_WRITE = 1, CALL_EXIT = 60 };

__asm__(".globl _start\n"
        "_start:\n"
        "xor %ebp, %ebp\n"
        "and $-16, %rsp\n"
        "call board_begin\n");

static long system_call(long number, long a, long b, long c) {
    long answer;
    __asm__ volatile("syscall" : "=a"(answer) : "0"(number), "D"(a), "S"(b), "d"(c) : "rcx", "r11", "memory");
    return answer;
}

#elif defined __aarch64__

enum { CALL_READ = 63, CALL_WRITE = 64, CALL_EXIT = 93 };

__asm__(".globl _start\n"
        "_start:\n"
        "mov x29, #0\n"
        "mov x30, #0\n"
        "bl board_begin\n");

static long system_call(long number, long a, long b, long c) {
    register long x8 __asm__("x8") = number;
    register long x0 __asm__("x0") = a;
    register long x1 __asm__("x1") = b;
    register long x2 __asm__("x2") = c;
    __asm__ volatile("svc #0" : "+r"(x0) : "r"(x8), "r"(x1), "r"(x2) : "memory");
    return x0;
}

#elif defined __riscv && __riscv_xlen == 64

enum { CALL_READ = 63, CALL_WRITE = 64, CALL_EXIT = 93 };

__asm__(".globl _start\n"
        "_start:\n"
        ".option push\n"
        ".option norelax\n"
        "lla gp, __global_pointer$\n"
        ".option pop\n"
        "call board_begin\n");

static long system_call(long number, long a, long b, long c) {
    register long a7 __asm__("a7") = number;
    register long a0 __asm__("a0") = a;
    register long a1 __asm__("a1") = b;
    register long a2 __asm__("a2") = c;
    __asm__ volatile("ecall" : "+r"(a0) : "r"(a7), "r"(a1), "r"(a2) : "memory");
    return a0;
}

#else
#error "this board is for x86-64, aarch64 and riscv64"
#endif

long board_write(const void *from, size_t size) {
    return system_call(CALL_WRITE, 1, (long)from, (long)size);
}

long board_read(void *to, size_t most) {
    return system_call(CALL_READ, 0, (long)to, (long)most);
}

/* where _start leads; never returns */
void board_begin(void);
void board_begin(void) {
    int status = program();
    for (;;)
        system_call(CALL_EXIT, status, 0, 0);
}

/* What the archive needs of a C library. The bytes that are written are volatile, or the compiler would see a copy or a fill in each loop
 * and make it a call of the function itself. */
void *memcpy(void *to, const void *from, size_t size);
void *memset(void *to, int value, size_t size);

void *memcpy(void *to, const void *from, size_t size) {
    volatile unsigned char *at = to;
    const unsigned char *source = from;
    for (size_t i = 0; i < size; i++)
        at[i] = source[i];
    return to;
}

void *memset(void *to, int value, size_t size) {
    volatile unsigned char *at = to;
    for (size_t i = 0; i < size; i++)
        at[i] = (unsigned char)value;
    return to;
}
