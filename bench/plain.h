/* What the measuring programs compare the measured code with: AES-256 byte by byte and the fold bit by bit, as plain as can be. */
#ifndef PLAIN_H
#define PLAIN_H

#include <stdint.h>
#include <stdio.h>
#include <stdlib.h>
#include <string.h>

/* Of make_sbox. */
static uint8_t sbox[256];

static inline uint8_t twice(uint8_t a)
{
    return (uint8_t)(a << 1 ^ (a >> 7) * 0x1B);
}

static inline uint8_t product(uint8_t a, uint8_t b)
{
    uint8_t sum = 0;
    for (; b; b >>= 1, a = twice(a))
        if (b & 1)
            sum ^= a;
    return sum;
}

/* Called before the first encryption. */
static inline void make_sbox(void)
{
    for (int a = 0; a < 256; a++) {
        uint8_t inverse = 0, s = 0x63;
        for (int b = 1; b < 256; b++)
            if (product((uint8_t)a, (uint8_t)b) == 1)
                inverse = (uint8_t)b;
        for (int turn = 0; turn < 5; turn++)
            s ^= (uint8_t)(inverse << turn | inverse >> (8 - turn));
        sbox[a] = s;
    }
}

/* Encrypts a block. */
static inline void plain_aes(const uint8_t key[32], uint8_t s[16])
{
    uint8_t w[60][4], t[16], power = 1;
    memcpy(w, key, 32);
    for (int i = 8; i < 60; i++) {
        uint8_t v[4];
        for (int k = 0; k < 4; k++)
            v[k] = i % 8 == 0 ? sbox[w[i - 1][(k + 1) % 4]] : i % 8 == 4 ? sbox[w[i - 1][k]] : w[i - 1][k];
        if (i % 8 == 0) {
            v[0] ^= power;
            power = twice(power);
        }
        for (int k = 0; k < 4; k++)
            w[i][k] = w[i - 8][k] ^ v[k];
    }
    for (int k = 0; k < 16; k++)
        s[k] ^= w[k / 4][k % 4];
    for (int round = 1; round <= 14; round++) {
        for (int k = 0; k < 16; k++)
            t[k] = sbox[s[k % 4 + 4 * ((k / 4 + k % 4) % 4)]];
        for (int k = 0; k < 16; k++) {
            const uint8_t *c = t + k / 4 * 4;
            s[k] = round == 14 ? t[k] : (uint8_t)(product(c[k % 4], 2) ^ product(c[(k + 1) % 4], 3) ^ c[(k + 2) % 4] ^ c[(k + 3) % 4]);
            s[k] ^= w[4 * round + k / 4][k % 4];
        }
    }
}

/* a = a * b * x^-128, from the low bit up: add b where the bit is set, then divide by x. */
static inline void plain_dot(uint8_t a[16], const uint8_t b[16])
{
    uint8_t r[16] = {0};
    for (int i = 0; i < 128; i++) {
        if (a[i / 8] >> (i % 8) & 1)
            for (int k = 0; k < 16; k++)
                r[k] ^= b[k];
        int low = r[0] & 1;
        for (int k = 0; k < 16; k++)
            r[k] = r[k] >> 1 | (k < 15 ? r[k + 1] << 7 : 0);
        if (low)
            r[15] ^= 0xE1;
    }
    memcpy(a, r, 16);
}

/* Folds data with h, from a value and into it. The most significant bit of a byte comes first. */
static inline void plain_fold(const uint8_t h[16], uint8_t value[16], uint32_t bits, const uint8_t *bytes)
{
    for (uint32_t block = 0; block < bits; block += 128) {
        for (uint32_t at = block; at < block + 128 && at < bits; at++)
            value[at / 8 % 16] ^= bytes[at / 8] & (0x80 >> at % 8);
        plain_dot(value, h);
    }
}

static inline void fill(uint8_t *bytes, size_t length)
{
    for (size_t i = 0; i < length; i++)
        bytes[i] = (uint8_t)rand();
}

static inline void differ(const char *what)
{
    fprintf(stderr, "%s differ\n", what);
    exit(1);
}

#endif
