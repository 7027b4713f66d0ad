/* Measures the fold: nanoseconds and time stamp counter cycles a block, at several lengths.
 *
 * Before anything is measured, the fold is compared with a plain one, bit by bit, on data of every length up to 800 bits. */
#include <stdint.h>
#include <stdio.h>
#include <stdlib.h>
#include <string.h>
#include "calls.h"
#include "plain.h"
#include "timing.h"

enum { BLOCKS_A_ROUND = 20000 };

static void compare(const uint8_t h[16], const uint8_t *bytes)
{
    for (uint32_t bits = 0; bits <= 800; bits++) {
        uint8_t ours[16] = {1, 2, 3}, plain[16] = {1, 2, 3};
        bench_fold(h, ours, bits, bytes, (bits + 7) / 8);
        plain_fold(h, plain, bits, bytes);
        if (memcmp(ours, plain, 16) != 0) {
            fprintf(stderr, "the folds of %u bits differ\n", (unsigned)bits);
            exit(1);
        }
    }
}

static uint8_t h[16], value[16], bytes[16384];
static size_t length;

static void folds(uint32_t times)
{
    for (uint32_t turn = 0; turn < times; turn++)
        bench_fold(h, value, (uint32_t)(8 * length), bytes, length);
}

int main(void)
{
    static const size_t lengths[] = {16, 64, 160, 1400, 16384};
    srand(1);
    fill(h, sizeof h);
    fill(bytes, sizeof bytes);
    compare(h, bytes);
    length = sizeof bytes;
    warm_up(folds, 1);
    printf("| bytes | blocks | ns a block, median | ns a block, least | tsc cycles a block, median |\n|---|---|---|---|---|\n");
    for (size_t i = 0; i < sizeof lengths / sizeof *lengths; i++) {
        length = lengths[i];
        size_t blocks = (length + 15) / 16;
        struct figures of = measure(folds, (uint32_t)(BLOCKS_A_ROUND / blocks), (double)blocks);
        printf("| %zu | %zu | %.1f | %.1f | %.0f |\n", length, blocks, of.ns_median, of.ns_least, of.tsc_median);
    }
    return 0;
}
