/* Where a program begins, and the four functions on bytes that a compiler may call without being asked to.
 *
 * main's result is the program's status. A task needs nothing here: it begins at its own function, with its stack
 * already there, and ends by returning.
 */
#include <stddef.h>

#ifndef TSS_PLAIN

__asm__(".pushsection .text.start, \"ax\"\n"
        ".globl _start\n"
        "_start:\n"
        "    call main\n"
        "    li a7, 1\n"
        "    ecall\n"
        ".popsection\n");

#else

/* The same under Linux, without a C library. */
__asm__(".pushsection .text.start, \"ax\"\n"
        ".globl _start\n"
        "_start:\n"
        "    call main\n"
        "    li a7, 94\n"
        "    ecall\n"
        ".popsection\n");

ptrdiff_t write(int file, const void *bytes, size_t length) {
    register int a0 __asm__("a0") = file;
    register const void *a1 __asm__("a1") = bytes;
    register size_t a2 __asm__("a2") = length;
    register int a7 __asm__("a7") = 64;
    __asm__ volatile("ecall" : "+r"(a0) : "r"(a1), "r"(a2), "r"(a7) : "memory");
    return a0;
}

__attribute__((noreturn)) void _exit(int status) {
    register int a0 __asm__("a0") = status;
    register int a7 __asm__("a7") = 94;
    __asm__ volatile("ecall" : : "r"(a0), "r"(a7) : "memory");
    __builtin_unreachable();
}

#endif

void *memcpy(void *to, const void *from, size_t count) {
    for (size_t i = 0; i < count; i++)
        ((char *)to)[i] = ((const char *)from)[i];
    return to;
}

void *memmove(void *to, const void *from, size_t count) {
    if ((char *)to <= (const char *)from)
        return memcpy(to, from, count);
    while (count-- > 0)
        ((char *)to)[count] = ((const char *)from)[count];
    return to;
}

void *memset(void *to, int byte, size_t count) {
    for (size_t i = 0; i < count; i++)
        ((char *)to)[i] = (char)byte;
    return to;
}

int memcmp(const void *one, const void *other, size_t count) {
    for (size_t i = 0; i < count; i++) {
        int difference = ((const unsigned char *)one)[i] - ((const unsigned char *)other)[i];
        if (difference != 0)
            return difference;
    }
    return 0;
}
