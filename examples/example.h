// What the examples in C share: the call that writes, numbers that repeat from run to run, and the end of an example.
#include <riscv_vector.h>
#include <stddef.h>
#include <stdint.h>

// Writes bytes to the output.
static void write_out(const char *bytes, size_t count) {
    register int number __asm__("a7") = 64;
    register int output __asm__("a0") = 1;
    register const char *from __asm__("a1") = bytes;
    register size_t length __asm__("a2") = count;
    __asm__ volatile("ecall" : "+r"(output) : "r"(number), "r"(from), "r"(length) : "memory");
}

// The next of a row of numbers that look random.
static uint32_t next_number(uint32_t *state) {
    *state = *state * 1664525 + 1013904223;
    return *state >> 8;
}

// Tells whether a kernel computed what a plain loop does, and gives the status of the example.
static int told(int same) {
    if (same) {
        write_out("same\n", 5);
        return 0;
    }
    write_out("different\n", 10);
    return 1;
}
