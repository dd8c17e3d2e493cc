/* Texts for main to print. */
#ifndef TEXT_H
#define TEXT_H

#include "tss.h"

/* Prints a text up to its zero byte. */
static inline void print_text(const char *text) {
    uint32_t length = 0;
    while (text[length] != 0)
        length++;
    tss_print(text, length);
}

/* Prints a number in decimal, with blanks before it up to a width. */
static inline void print_number(uint32_t number, uint32_t width) {
    char digits[32];
    uint32_t first = sizeof digits;
    do {
        digits[--first] = (char)('0' + number % 10);
        number /= 10;
    } while (number > 0);
    while (first > 0 && sizeof digits - first < width)
        digits[--first] = ' ';
    tss_print(digits + first, sizeof digits - first);
}

/* Prints bytes as two hexadecimal digits each. */
static inline void print_hex(const uint8_t *bytes, uint32_t count) {
    for (uint32_t i = 0; i < count; i++) {
        char digits[2] = {"0123456789abcdef"[bytes[i] >> 4], "0123456789abcdef"[bytes[i] & 15]};
        tss_print(digits, 2);
    }
}

#endif
