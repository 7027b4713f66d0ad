/* Measures the cover over the AES generator: nanoseconds and time stamp counter cycles a byte of message, at several lengths. The
 * generator is made once for all the messages of a round.
 *
 * Before anything is measured, the cover is compared with a plain one, at random lengths in bits. */
#include <stdint.h>
#include <stdio.h>
#include <stdlib.h>
#include <string.h>
#include "calls.h"
#include "plain.h"
#include "timing.h"

enum { COMPARED = 3000, LONGEST_COMPARED = 200, BEARER = 5, DIRECTION = 0, AAD = 64, TAG = 16 };

/* So long, in nanoseconds, a round takes at least; no round takes more than about twice as long. */
static const double ROUND = 2e6;

static size_t filled(uint32_t bits)
{
    return (bits + 7) / 8;
}

/* The nonce of a message with a tag of t bytes, and EXTRA_IV of zeros. */
static void plain_nonce(uint8_t nonce[12], int t, int combined, int instance, uint32_t count)
{
    memset(nonce, 0, 12);
    nonce[0] = (uint8_t)(t << 3 | combined << 2 | instance);
    nonce[1] = BEARER << 1 | DIRECTION;
    for (int i = 0; i < 4; i++)
        nonce[8 + i] = (uint8_t)(count >> (24 - 8 * i));
}

static void plain_block(const uint8_t key[32], const uint8_t nonce[12], uint32_t index, uint8_t block[16])
{
    memcpy(block, nonce, 12);
    for (int i = 0; i < 4; i++)
        block[12 + i] = (uint8_t)(index >> (24 - 8 * i));
    plain_aes(key, block);
}

/* Bit by bit, so that the spare bits are never looked at and stay zero. */
static void plain_cover(const uint8_t key[32], const uint8_t nonce[12], uint32_t bits, const uint8_t *text, uint8_t *out)
{
    uint8_t block[16];
    memset(out, 0, filled(bits));
    for (uint32_t at = 0; at < bits; at++) {
        if (at % 128 == 0)
            plain_block(key, nonce, at / 128, block);
        out[at / 8] |= (text[at / 8] ^ block[at / 8 % 16]) & (0x80 >> at % 8);
    }
}

static void plain_nea5(const uint8_t key[32], uint32_t count, uint32_t bits, const uint8_t *text, uint8_t *out)
{
    uint8_t nonce[12];
    plain_nonce(nonce, 0, 0, 0, count);
    plain_cover(key, nonce, bits, text, out);
}

/* The tag has sixteen bytes; one of t bytes is its beginning. */
static void plain_tag(const uint8_t key[32], int t, uint32_t count, uint32_t aad_bits, const uint8_t *aad, uint32_t bits,
                      const uint8_t *ciphertext, uint8_t tag[16])
{
    uint8_t nonce[12], h[16], q[16], p[16];
    plain_nonce(nonce, t, 1, 1, count);
    plain_block(key, nonce, 0, h);
    plain_block(key, nonce, 1, q);
    plain_block(key, nonce, 2, p);
    memset(tag, 0, 16);
    plain_fold(h, tag, aad_bits, aad);
    plain_fold(h, tag, bits, ciphertext);
    for (int i = 0; i < 4; i++) {
        tag[i] ^= (uint8_t)(bits >> 8 * i);
        tag[8 + i] ^= (uint8_t)(aad_bits >> 8 * i);
    }
    plain_dot(tag, q);
    for (int i = 0; i < 16; i++)
        tag[i] ^= p[i];
}

static void plain_nca5(const uint8_t key[32], int t, uint32_t count, uint32_t aad_bits, const uint8_t *aad, uint32_t bits,
                       const uint8_t *message, uint8_t *ciphertext, uint8_t tag[16])
{
    uint8_t nonce[12];
    plain_nonce(nonce, t, 1, 0, count);
    plain_cover(key, nonce, bits, message, ciphertext);
    plain_tag(key, t, count, aad_bits, aad, bits, ciphertext, tag);
}

/* A length in bits, often a multiple of 8 or of 128. */
static uint32_t some_bits(void)
{
    uint32_t bits = (uint32_t)rand() % (8 * LONGEST_COMPARED + 1);
    switch (rand() % 4) {
    case 0:
        return bits / 8 * 8;
    case 1:
        return bits / 128 * 128;
    default:
        return bits;
    }
}

static void turn_bit(uint8_t *bytes, uint32_t bits)
{
    uint32_t at = (uint32_t)rand() % bits;
    bytes[at / 8] ^= 0x80 >> at % 8;
}

static void compare_nea5(void)
{
    uint8_t key[32], text[LONGEST_COMPARED], ours[LONGEST_COMPARED], plain[LONGEST_COMPARED];
    uint32_t count = rand() % 8 == 0 ? 0xFFFFFFFF : (uint32_t)rand(), turns = (uint32_t)rand() % 3, bits = some_bits();
    size_t bytes = filled(bits);
    fill(key, sizeof key);
    fill(text, sizeof text);
    fill(ours, sizeof ours);
    memcpy(plain, ours, sizeof plain);
    bench_nea5(key, count, turns, bits, text, bytes, ours, bytes);
    if (turns > 0)
        plain_nea5(key, count + turns - 1, bits, text, plain);
    if (memcmp(ours, plain, sizeof plain) != 0)
        differ("NEA5's outputs");
}

/* A message covered, as it is opened. */
struct covered {
    uint8_t key[32], aad[LONGEST_COMPARED], ciphertext[LONGEST_COMPARED], tag[16];
    uint32_t count, aad_bits, bits;
    size_t t;
};

static void uncover(const struct covered *of, uint32_t turns, uint8_t *message)
{
    bench_nca5_open(of->key, of->count, turns, of->aad_bits, of->aad, filled(of->aad_bits), of->bits, of->ciphertext,
                    filled(of->bits), of->tag, of->t, message, filled(of->bits));
}

/* Opening leaves the buffer for the message as it was. */
static void refused(const struct covered *of)
{
    uint8_t opened[LONGEST_COMPARED], before[LONGEST_COMPARED];
    fill(opened, sizeof opened);
    memcpy(before, opened, sizeof before);
    uncover(of, 1, opened);
    if (memcmp(opened, before, sizeof before) != 0)
        differ("buffers before and after a refusal to open");
}

/* Each way in which a message is damaged. */
static void compare_refusals(const struct covered *good)
{
    struct covered bad = *good;
    turn_bit(bad.tag, 8 * (uint32_t)bad.t);
    refused(&bad);
    bad = *good;
    bad.count ^= 1;
    refused(&bad);
    bad = *good;
    bad.t--;
    refused(&bad);
    bad = *good;
    if (bad.aad_bits > 0) {
        turn_bit(bad.aad, bad.aad_bits);
        refused(&bad);
        bad = *good;
    }
    if (bad.bits > 0) {
        turn_bit(bad.ciphertext, bad.bits);
        refused(&bad);
        bad = *good;
    }
    if (bad.bits % 8 != 0) {
        bad.ciphertext[bad.bits / 8] ^= 1;
        refused(&bad);
    }
}

static void compare_nca5(void)
{
    uint8_t message[LONGEST_COMPARED], plain[LONGEST_COMPARED], tag[16], opened[LONGEST_COMPARED];
    struct covered ours = {.count = (uint32_t)rand() << 1, .aad_bits = some_bits(), .bits = some_bits(), .t = 4 + (size_t)rand() % 13};
    uint32_t turns = 1 + (uint32_t)rand() % 2;
    size_t bytes = filled(ours.bits);
    fill(ours.key, sizeof ours.key);
    fill(ours.aad, sizeof ours.aad);
    fill(message, sizeof message);
    fill(ours.ciphertext, sizeof ours.ciphertext);
    memcpy(plain, ours.ciphertext, sizeof plain);
    bench_nca5_cover(ours.key, ours.count, turns, ours.aad_bits, ours.aad, filled(ours.aad_bits), ours.bits, message, bytes,
                     ours.ciphertext, bytes, ours.tag, ours.t);
    plain_nca5(ours.key, (int)ours.t, ours.count, ours.aad_bits, ours.aad, ours.bits, message, plain, tag);
    if (memcmp(ours.ciphertext, plain, sizeof plain) != 0)
        differ("NCA5's ciphertexts");
    if (memcmp(ours.tag, tag, ours.t) != 0)
        differ("NCA5's tags");

    fill(opened, sizeof opened);
    memcpy(plain, opened, sizeof plain);
    memcpy(plain, message, bytes);
    if (ours.bits % 8 != 0)
        plain[bytes - 1] &= 0xFF << (8 - ours.bits % 8);
    uncover(&ours, turns, opened);
    if (memcmp(opened, plain, sizeof plain) != 0)
        differ("NCA5's opened messages");
    compare_refusals(&ours);
}

/* Of a tag size that is not one of NCA5's, nothing is written. */
static void compare_sizes(void)
{
    static const size_t sizes[] = {0, 1, 3, 17, 255, 256, 260};
    uint8_t key[32], text[16], ours[16], before[16], tag[260], tag_before[260];
    fill(key, sizeof key);
    fill(text, sizeof text);
    fill(ours, sizeof ours);
    fill(tag, sizeof tag);
    memcpy(before, ours, sizeof before);
    memcpy(tag_before, tag, sizeof tag_before);
    for (size_t i = 0; i < sizeof sizes / sizeof *sizes; i++) {
        bench_nca5_cover(key, 0, 1, 0, text, 0, 128, text, 16, ours, 16, tag, sizes[i]);
        bench_nca5_open(key, 0, 1, 0, text, 0, 128, text, 16, tag, sizes[i], ours, 16);
        if (memcmp(ours, before, sizeof before) != 0 || memcmp(tag, tag_before, sizeof tag_before) != 0)
            differ("buffers before and after a refused tag size");
    }
}

static uint8_t key[32], aad[AAD], message[16384], ciphertext[16384], tag[TAG], opened[16384];
static size_t length;

static void nea5(uint32_t times)
{
    bench_nea5(key, 1, times, (uint32_t)(8 * length), message, length, ciphertext, length);
}

static void nca5_cover(uint32_t times)
{
    bench_nca5_cover(key, 1, times, 8 * AAD, aad, AAD, (uint32_t)(8 * length), message, length, ciphertext, length, tag, TAG);
}

static void nca5_open(uint32_t times)
{
    bench_nca5_open(key, 1, times, 8 * AAD, aad, AAD, (uint32_t)(8 * length), ciphertext, length, tag, TAG, opened, length);
}

static uint32_t times_a_round(measured *run)
{
    for (uint32_t times = 1;; times *= 2) {
        double started = nanoseconds();
        run(times);
        if (nanoseconds() - started >= ROUND)
            return times;
    }
}

static void show(const char *what, measured *run)
{
    struct figures of = measure(run, times_a_round(run), (double)length);
    printf("| %s | %zu | %.2f | %.2f | %.1f | %.1f |\n", what, length, of.ns_median, of.ns_least, of.tsc_median, of.tsc_least);
}

int main(void)
{
    static const size_t lengths[] = {16, 160, 1400, 16384};
    srand(1);
    make_sbox();
    for (int turn = 0; turn < COMPARED; turn++) {
        compare_nea5();
        compare_nca5();
    }
    compare_sizes();
    fill(key, sizeof key);
    fill(aad, sizeof aad);
    fill(message, sizeof message);
    length = sizeof message;
    warm_up(nca5_cover, 1);
    printf("| what | bytes | ns a byte, median | ns a byte, least | tsc cycles a byte, median | tsc cycles a byte, least |\n");
    printf("|---|---|---|---|---|---|\n");
    for (size_t i = 0; i < sizeof lengths / sizeof *lengths; i++) {
        length = lengths[i];
        show("NEA5", nea5);
    }
    for (size_t i = 0; i < sizeof lengths / sizeof *lengths; i++) {
        length = lengths[i];
        show("NCA5, covering", nca5_cover);
    }
    for (size_t i = 0; i < sizeof lengths / sizeof *lengths; i++) {
        length = lengths[i];
        nca5_cover(1);
        memset(opened, 0, sizeof opened);
        show("NCA5, opening", nca5_open);
        /* a refusal would take less time */
        if (memcmp(opened, message, length) != 0)
            differ("the messages that were measured, and opened,");
    }
    return 0;
}
