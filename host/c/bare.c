/* A program on a bare 64-bit Arm machine: no C library, no operating system. What the archive needs of its host stands here: memcpy, memmove and
   memset. Lines go out, and the end is told, by semihosting, which the machine's emulator answers. */
#include <stddef.h>
#include <stdint.h>

int host_main(void (*line)(const char *));

void *memcpy(void *to, const void *from, size_t n) {
    uint8_t *a = to;
    const uint8_t *b = from;
    while (n--) {
        *a++ = *b++;
    }
    return to;
}

void *memmove(void *to, const void *from, size_t n) {
    uint8_t *a = to;
    const uint8_t *b = from;
    if ((uintptr_t)a <= (uintptr_t)b) {
        return memcpy(to, from, n);
    }
    while (n--) {
        a[n] = b[n];
    }
    return to;
}

void *memset(void *to, int value, size_t n) {
    uint8_t *a = to;
    while (n--) {
        *a++ = (uint8_t)value;
    }
    return to;
}

static void ask(uint64_t operation, const void *block) {
    register uint64_t w0 __asm__("x0") = operation;
    register const void *x1 __asm__("x1") = block;
    __asm__ volatile("hlt #0xf000" : "+r"(w0) : "r"(x1) : "memory");
}

static void line(const char *text) {
    ask(0x04, text);
    ask(0x04, "\n");
}

void bare_main(void) {
    /* "stopped by the application", and the exit status */
    const uint64_t ended[2] = {0x20026, (uint64_t)host_main(line)};
    ask(0x18, ended);
}
