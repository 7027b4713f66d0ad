/* Measures AES-256: time stamp counter cycles a block, in batches of eight and as a generator gives them, and cycles for a key.
 *
 * Before anything is measured, it is compared with a plain one, byte by byte, under random keys and on random blocks. */
#include <stdint.h>
#include <stdio.h>
#include <stdlib.h>
#include <string.h>
#include "calls.h"
#include "plain.h"
#include "timing.h"

enum { TURNS = 4000, KEYS = 500, COMPARED = 2000 };

static void compare(void)
{
    for (int turn = 0; turn < COMPARED; turn++) {
        uint8_t key[32], ours[16], plain[16], nonce[12], sum[16] = {0};
        fill(key, sizeof key);
        fill(plain, sizeof plain);
        memcpy(ours, plain, sizeof ours);
        bench_aes256(key, ours, 2);
        plain_aes(key, plain);
        plain_aes(key, plain);
        if (memcmp(ours, plain, 16) != 0)
            differ("encryptions");
        fill(nonce, sizeof nonce);
        uint32_t count = (uint32_t)(turn % 40);
        for (uint32_t index = 0; index < count; index++) {
            memcpy(plain, nonce, 12);
            for (int i = 0; i < 4; i++)
                plain[12 + i] = (uint8_t)(index >> (24 - 8 * i));
            plain_aes(key, plain);
            for (int i = 0; i < 16; i++)
                sum[i] ^= plain[i];
        }
        bench_keystream(key, nonce, count, ours);
        if (memcmp(ours, sum, 16) != 0)
            differ("keystreams");
    }
}

static uint8_t key[32], nonce[12], block[16];

static void batches(uint32_t times)
{
    bench_aes256(key, block, times);
}

static void generator(uint32_t times)
{
    bench_keystream(key, nonce, 8 * times, block);
}

static void keys(uint32_t times)
{
    for (uint32_t i = 0; i < times; i++)
        bench_aes256(key, block, 0);
}

static void generators(uint32_t times)
{
    for (uint32_t i = 0; i < times; i++)
        bench_keystream(key, nonce, 0, block);
}

static void show(const char *what, struct figures of)
{
    printf("| %s | %.1f | %.1f | %.0f | %.0f |\n", what, of.ns_median, of.ns_least, of.tsc_median, of.tsc_least);
}

int main(void)
{
    srand(1);
    make_sbox();
    compare();
    warm_up(batches, TURNS);
    printf("| what | ns, median | ns, least | tsc cycles, median | tsc cycles, least |\n|---|---|---|---|---|\n");
    show("a block, in batches of eight", measure(batches, TURNS, 8));
    show("a block of the generator", measure(generator, TURNS, 8));
    show("a key", measure(keys, KEYS, 1));
    show("a generator of a key", measure(generators, KEYS, 1));
    return 0;
}
