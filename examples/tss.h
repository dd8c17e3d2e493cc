/* What a program may ask of Geldrizh, for C.
 *
 * Main is a plain C program. It spawns tasks, waits for all of them or for one object, prints and exits. A task is a
 * function
 *
 *     void task(first *, second *, ..., uint32_t argument)
 *
 * with a pointer for each of its operands, at most seven and in the order of the spawn, and then its argument. It ends
 * when it returns. It reads its operands, its own variables and constants, writes its own variables and the operands
 * that are output or inout, and touches nothing else: no global variable, no call of main's.
 *
 * With TSS_PLAIN defined the same program is one without tasks: a spawn calls the function at once.
 */
#ifndef TSS_H
#define TSS_H

#include <stdint.h>

/* What a task does with an operand: it reads it, writes it (it is zero when the task begins), or both. */
enum { TSS_INPUT = 1, TSS_OUTPUT = 2, TSS_INOUT = 3 };

/* An operand: an object in memory and what the task does with it. The base is a multiple of 4, the length in bytes is
 * at least 1. Two objects that are named at one time are the same object, or they share no byte. An object is named from
 * a spawn on until it is awaited or a barrier comes. */
typedef struct {
    const void *base;
    uint32_t length;
    uint32_t mode;
} tss_operand;

/* The type that every task is cast to, whatever its parameters are. */
typedef void tss_task(void);

static inline tss_operand tss_input(const void *base, uint32_t length) {
    return (tss_operand){base, length, TSS_INPUT};
}

static inline tss_operand tss_output(void *base, uint32_t length) {
    return (tss_operand){base, length, TSS_OUTPUT};
}

static inline tss_operand tss_inout(void *base, uint32_t length) {
    return (tss_operand){base, length, TSS_INOUT};
}

/* TSS_SPAWN(task, argument, operands...) spawns a task: TSS_SPAWN(add, 5, tss_input(a, 64), tss_inout(b, 64)). */
#define TSS_SPAWN(task, argument, ...) \
    do { \
        const tss_operand tss_list[] = {__VA_ARGS__}; \
        tss_spawn((tss_task *)(task), tss_list, sizeof tss_list / sizeof(tss_operand), argument); \
    } while (0)

#ifndef TSS_PLAIN

_Static_assert(sizeof(tss_operand) == 12, "an operand is three words");

/* Spawns a task on the operands of a list. The list may be changed afterwards. */
static inline void tss_spawn(tss_task *task, const tss_operand *list, uint32_t count, uint32_t argument) {
    register tss_task *a0 __asm__("a0") = task;
    register const tss_operand *a1 __asm__("a1") = list;
    register uint32_t a2 __asm__("a2") = count;
    register uint32_t a3 __asm__("a3") = argument;
    register uint32_t a7 __asm__("a7") = 2;
    __asm__ volatile("ecall" : : "r"(a0), "r"(a1), "r"(a2), "r"(a3), "r"(a7) : "memory");
}

/* Waits for all tasks. Until then main may not touch an object that it has named in a spawn and hasn't awaited. */
static inline void tss_barrier(void) {
    register uint32_t a7 __asm__("a7") = 3;
    __asm__ volatile("ecall" : : "r"(a7) : "memory");
}

/* Waits for the object at this base, which main has named in a spawn, until the tasks so far have done with it and it is
 * in memory. Then main may touch it, and may name it or parts of it anew. Other objects stay with their tasks. */
static inline void tss_await(const void *base) {
    register const void *a0 __asm__("a0") = base;
    register uint32_t a7 __asm__("a7") = 5;
    __asm__ volatile("ecall" : : "r"(a0), "r"(a7) : "memory");
}

/* Prints bytes. */
static inline void tss_print(const void *bytes, uint32_t length) {
    register const void *a0 __asm__("a0") = bytes;
    register uint32_t a1 __asm__("a1") = length;
    register uint32_t a7 __asm__("a7") = 4;
    __asm__ volatile("ecall" : : "r"(a0), "r"(a1), "r"(a7) : "memory");
}

/* Ends the program with a status. To return from main does the same. */
static inline __attribute__((noreturn)) void tss_exit(uint32_t status) {
    register uint32_t a0 __asm__("a0") = status;
    register uint32_t a7 __asm__("a7") = 1;
    __asm__ volatile("ecall" : : "r"(a0), "r"(a7) : "memory");
    __builtin_unreachable();
}

#else

extern __PTRDIFF_TYPE__ write(int file, const void *bytes, __SIZE_TYPE__ length);
extern __attribute__((noreturn)) void _exit(int status);

/* Whether operand i is zero at the task's start: no equal operand of the list has another mode than output. */
static inline int tss_is_fresh(const tss_operand *list, uint32_t count, uint32_t i) {
    for (uint32_t k = 0; k < count; k++)
        if (list[k].base == list[i].base && list[k].length == list[i].length && list[k].mode != TSS_OUTPUT)
            return 0;
    return 1;
}

/* Calls the task at once. As on the machine, what follows the argument is 0. */
static inline void tss_spawn(tss_task *task, const tss_operand *list, uint32_t count, uint32_t argument) {
    typedef void with_all(uintptr_t, uintptr_t, uintptr_t, uintptr_t, uintptr_t, uintptr_t, uintptr_t, uintptr_t);
    uintptr_t a[8] = {0};
    for (uint32_t i = 0; i < count; i++) {
        if (tss_is_fresh(list, count, i))
            for (uint32_t k = 0; k < list[i].length; k++)
                ((volatile char *)(uintptr_t)list[i].base)[k] = 0;
        a[i] = (uintptr_t)list[i].base;
    }
    a[count] = argument;
    ((with_all *)task)(a[0], a[1], a[2], a[3], a[4], a[5], a[6], a[7]);
}

/* No task is left to wait for. */
static inline void tss_barrier(void) {
}

/* Nor one that has the object. */
static inline void tss_await(const void *base) {
    (void)base;
}

/* Writes bytes to standard output. */
static inline void tss_print(const void *bytes, uint32_t length) {
    const char *next = (const char *)bytes;
    while (length > 0) {
        __PTRDIFF_TYPE__ done = write(1, next, length);
        if (done <= 0)
            _exit(255);
        next += done;
        length -= (uint32_t)done;
    }
}

/* Ends the program with a status, of which Linux keeps the low eight bits. */
static inline __attribute__((noreturn)) void tss_exit(uint32_t status) {
    _exit((int)status);
}

#endif
#endif
