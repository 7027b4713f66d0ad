/* Calls the measured code with its secrets marked as undefined, for valgrind's memcheck, which reports every branch and every
 * address that depends on an undefined value. A fold whose H and data are undefined must give no report, nor a tag whose H, Q, P,
 * AAD and ciphertext are, an encryption whose key and block are, keystream whose key is, or a message covered by NEA5 or NCA5 whose
 * key and bytes are, and its AAD.
 *
 * Opening is not watched: it goes by whether the tag matches, which its caller is told, and which depends on the key. */
#include <stddef.h>
#include <stdint.h>
#include <stdio.h>
#include <string.h>
#include <valgrind/memcheck.h>
#include "calls.h"

static void make_secret(uint8_t *bytes, size_t length, int filled_with)
{
    memset(bytes, filled_with, length);
    (void)VALGRIND_MAKE_MEM_UNDEFINED(bytes, length);
}

int main(int count, char **words)
{
    static const size_t lengths[] = {0, 1, 15, 16, 17, 100, 1400};
    static const uint8_t nonce[12] = {1, 2, 3};
    uint8_t h[16], q[16], p[16], value[16], bytes[1400], tag[16], key[32], block[16], keystream[16];
    uint8_t output[1400] = {0}, ciphertext[1400] = {0}, tag_of_ciphertext[16] = {0};
    make_secret(h, sizeof h, 3);
    make_secret(q, sizeof q, 4);
    make_secret(p, sizeof p, 6);
    make_secret(value, sizeof value, 5);
    make_secret(bytes, sizeof bytes, 7);
    make_secret(key, sizeof key, 8);
    make_secret(block, sizeof block, 9);
    for (size_t i = 0; i < sizeof lengths / sizeof *lengths; i++) {
        uint32_t bits = (uint32_t)(8 * lengths[i]);
        bench_fold(h, value, bits, bytes, lengths[i]);
        if (bits > 0)
            bench_fold(h, value, bits - 3, bytes, lengths[i]);
        bench_tag(h, q, p, 61, bytes, 8, bits, bytes, lengths[i], tag, 4 + i);
        for (uint32_t fewer = 0; fewer <= 3 && fewer <= bits; fewer += 3) {
            bench_nea5(key, 10, 2, bits - fewer, bytes, lengths[i], output, lengths[i]);
            bench_nca5_cover(key, 10, 2, 61, bytes, 8, bits - fewer, bytes, lengths[i], ciphertext, lengths[i], tag_of_ciphertext,
                             4 + 2 * i);
        }
    }
    for (uint32_t turns = 0; turns < 3; turns++)
        bench_aes256(key, block, turns);
    for (uint32_t count = 0; count < 20; count++)
        bench_keystream(key, nonce, count, keystream);
    /* asked for a report, to see that one would be given */
    if (count > 1 && strcmp(words[1], "report") == 0
        && (value[0] ^ tag[0] ^ block[0] ^ keystream[0] ^ output[0] ^ ciphertext[0] ^ tag_of_ciphertext[0]) == 0)
        puts("zero");
    return 0;
}
