/* SHA-256 of sixteen messages, a task for each, and of their digests as a tree: each further task hashes the digests
 * of two others, so the last one's digest is that of all messages. Prints the digests and the tree's root.
 */
#include "text.h"

enum { MESSAGES = 16, ROOM = 1024 };

static const uint32_t fractions[64] = {
    0x428a2f98, 0x71374491, 0xb5c0fbcf, 0xe9b5dba5, 0x3956c25b, 0x59f111f1, 0x923f82a4, 0xab1c5ed5,
    0xd807aa98, 0x12835b01, 0x243185be, 0x550c7dc3, 0x72be5d74, 0x80deb1fe, 0x9bdc06a7, 0xc19bf174,
    0xe49b69c1, 0xefbe4786, 0x0fc19dc6, 0x240ca1cc, 0x2de92c6f, 0x4a7484aa, 0x5cb0a9dc, 0x76f988da,
    0x983e5152, 0xa831c66d, 0xb00327c8, 0xbf597fc7, 0xc6e00bf3, 0xd5a79147, 0x06ca6351, 0x14292967,
    0x27b70a85, 0x2e1b2138, 0x4d2c6dfc, 0x53380d13, 0x650a7354, 0x766a0abb, 0x81c2c92e, 0x92722c85,
    0xa2bfe8a1, 0xa81a664b, 0xc24b8b70, 0xc76c51a3, 0xd192e819, 0xd6990624, 0xf40e3585, 0x106aa070,
    0x19a4c116, 0x1e376c08, 0x2748774c, 0x34b0bcb5, 0x391c0cb3, 0x4ed8aa4a, 0x5b9cca4f, 0x682e6ff3,
    0x748f82ee, 0x78a5636f, 0x84c87814, 0x8cc70208, 0x90befffa, 0xa4506ceb, 0xbef9a3f7, 0xc67178f2};

static uint32_t rotated(uint32_t word, uint32_t by) {
    return word >> by | word << (32 - by);
}

/* Puts one block of 64 bytes into the state. */
static void put_block(uint32_t state[8], const uint8_t block[64]) {
    uint32_t w[64], s[8];
    for (uint32_t i = 0; i < 16; i++)
        w[i] = (uint32_t)block[4 * i] << 24 | (uint32_t)block[4 * i + 1] << 16 | (uint32_t)block[4 * i + 2] << 8 |
               block[4 * i + 3];
    for (uint32_t i = 16; i < 64; i++)
        w[i] = w[i - 16] + (rotated(w[i - 15], 7) ^ rotated(w[i - 15], 18) ^ w[i - 15] >> 3) + w[i - 7] +
               (rotated(w[i - 2], 17) ^ rotated(w[i - 2], 19) ^ w[i - 2] >> 10);
    for (uint32_t i = 0; i < 8; i++)
        s[i] = state[i];
    for (uint32_t i = 0; i < 64; i++) {
        uint32_t one = s[7] + (rotated(s[4], 6) ^ rotated(s[4], 11) ^ rotated(s[4], 25)) +
                       ((s[4] & s[5]) ^ (~s[4] & s[6])) + fractions[i] + w[i];
        uint32_t two = (rotated(s[0], 2) ^ rotated(s[0], 13) ^ rotated(s[0], 22)) +
                       ((s[0] & s[1]) ^ (s[0] & s[2]) ^ (s[1] & s[2]));
        for (uint32_t k = 7; k > 0; k--)
            s[k] = s[k - 1];
        s[4] += one;
        s[0] = one + two;
    }
    for (uint32_t i = 0; i < 8; i++)
        state[i] += s[i];
}

/* The task of a message: its digest. */
static void hash(const uint8_t *message, uint8_t *digest, uint32_t length) {
    uint32_t state[8] = {0x6a09e667, 0xbb67ae85, 0x3c6ef372, 0xa54ff53a,
                         0x510e527f, 0x9b05688c, 0x1f83d9ab, 0x5be0cd19};
    uint8_t last[128] = {0};
    uint32_t whole = length / 64 * 64, end = length - whole < 56 ? 64 : 128;
    for (uint32_t at = 0; at < whole; at += 64)
        put_block(state, message + at);
    for (uint32_t i = whole; i < length; i++)
        last[i - whole] = message[i];
    last[length - whole] = 0x80;
    for (uint32_t i = 0; i < 4; i++)
        last[end - 1 - i] = (uint8_t)(length << 3 >> 8 * i);
    for (uint32_t at = 0; at < end; at += 64)
        put_block(state, last + at);
    for (uint32_t i = 0; i < 32; i++)
        digest[i] = (uint8_t)(state[i / 4] >> (24 - 8 * (i % 4)));
}

/* The task of an inner node: the digest of two digests. */
static void join(const uint8_t *left, const uint8_t *right, uint8_t *digest) {
    uint8_t both[64];
    for (uint32_t i = 0; i < 32; i++) {
        both[i] = left[i];
        both[32 + i] = right[i];
    }
    hash(both, digest, 64);
}

static const uint16_t lengths[MESSAGES] = {0,   3,   26,  55,  56,  63,  64,  100,
                                           119, 120, 200, 256, 300, 448, 512, ROOM};

static uint8_t message[MESSAGES][ROOM] __attribute__((aligned(64)));
static uint8_t digest[2 * MESSAGES - 1][32] __attribute__((aligned(64)));

int main(void) {
    for (uint32_t i = 0; i < MESSAGES; i++)
        for (uint32_t k = 0; k < lengths[i]; k++)
            message[i][k] = (uint8_t)('a' + k % 26);
    for (uint32_t i = 0; i < MESSAGES; i++)
        TSS_SPAWN(hash, lengths[i], tss_input(message[i], ROOM), tss_output(digest[i], 32));
    for (uint32_t i = 0; i < MESSAGES - 1; i++)
        TSS_SPAWN(join, 0, tss_input(digest[2 * i], 32), tss_input(digest[2 * i + 1], 32),
                  tss_output(digest[MESSAGES + i], 32));
    tss_barrier();
    for (uint32_t i = 0; i < MESSAGES; i++) {
        print_number(lengths[i], 4);
        print_text(" ");
        print_hex(digest[i], 32);
        print_text("\n");
    }
    print_text("root ");
    print_hex(digest[2 * MESSAGES - 2], 32);
    print_text("\n");
    return 0;
}
