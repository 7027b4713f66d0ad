/* Errors between the comparing program and the library, one of them at a time: a call goes through the function here, by the
 * linker's --wrap. For the program `planted`. */
#include "catsvomi.h"
#include <string.h>

__typeof__(catsvomi_nea5) __real_catsvomi_nea5, __wrap_catsvomi_nea5;
__typeof__(catsvomi_nia5) __real_catsvomi_nia5, __wrap_catsvomi_nia5;
__typeof__(catsvomi_nca5_cover) __real_catsvomi_nca5_cover, __wrap_catsvomi_nca5_cover;
__typeof__(catsvomi_nca5_open) __real_catsvomi_nca5_open, __wrap_catsvomi_nca5_open;

/* Keeps the compiler from seeing that a byte is not used. */
static volatile uint8_t sink;

uint32_t __wrap_catsvomi_nea5(const uint8_t *key, uint8_t *work, size_t work_length, uint8_t bearer, uint8_t direction,
                              const uint8_t *extra_iv, uint32_t count, uint32_t bits, const uint8_t *input, size_t input_length,
                              uint8_t *output, size_t output_length, struct catsvomi_refusal *refusal)
{
    if (PLANTED == 10 && input_length > 0)
        sink = input[input_length];
    if (PLANTED == 12 && key[0] == 7)
        sink = 1;
    if (PLANTED == 11 && work_length > 0 && work[0] == 7)
        sink = 1;
    uint32_t answer = __real_catsvomi_nea5(key, work, work_length, bearer, direction, extra_iv, count, bits, input, input_length,
                                           output, output_length, refusal);
    if (PLANTED == 2 && work_length > 64)
        work[64] = 1;
    if (PLANTED == 7 && answer == CATSVOMI_ACCEPTED && bits % 8 != 0)
        output[output_length - 1] |= input[input_length - 1] & 0xFF >> bits % 8;
    return answer;
}

uint32_t __wrap_catsvomi_nia5(const uint8_t *key, uint8_t *work, size_t work_length, uint8_t bearer, uint8_t direction,
                              const uint8_t *extra_iv, uint32_t count, uint8_t tag_size, uint32_t bits, const uint8_t *text,
                              size_t text_length, uint8_t *tag, size_t tag_length, struct catsvomi_refusal *refusal)
{
    uint64_t place = refusal->place;
    uint8_t before[255];
    size_t kept = tag_length < sizeof before ? tag_length : sizeof before;
    memcpy(before, tag, kept);
    uint32_t answer = __real_catsvomi_nia5(key, work, work_length, bearer, direction, extra_iv, count, tag_size, bits, text,
                                           text_length, tag, tag_length, refusal);
    if (PLANTED == 8)
        refusal->place = place;
    if (PLANTED == 9)
        memcpy(tag, before, kept);
    return answer;
}

uint32_t __wrap_catsvomi_nca5_cover(const uint8_t *key, uint8_t *work, size_t work_length, uint8_t bearer, uint8_t direction,
                                    const uint8_t *extra_iv, uint32_t count, uint8_t tag_size, uint32_t aad_bits,
                                    const uint8_t *aad, size_t aad_length, uint32_t bits, const uint8_t *message,
                                    size_t message_length, uint8_t *ciphertext, size_t ciphertext_length, uint8_t *tag,
                                    size_t tag_length, struct catsvomi_refusal *refusal)
{
    uint32_t answer = __real_catsvomi_nca5_cover(key, work, work_length, bearer, direction, extra_iv, count, tag_size, aad_bits,
                                                 aad, aad_length, bits, message, message_length, ciphertext, ciphertext_length,
                                                 tag, tag_length, refusal);
    if (PLANTED == 5 && answer == CATSVOMI_ACCEPTED)
        ciphertext[ciphertext_length] = 0;
    if (PLANTED == 6 && aad_length > 0)
        ((uint8_t *)aad)[aad_length / 2] ^= 1;
    return answer;
}

uint32_t __wrap_catsvomi_nca5_open(const uint8_t *key, uint8_t *work, size_t work_length, uint8_t bearer, uint8_t direction,
                                   const uint8_t *extra_iv, uint32_t count, uint8_t tag_size, uint32_t aad_bits,
                                   const uint8_t *aad, size_t aad_length, uint32_t bits, const uint8_t *ciphertext,
                                   size_t ciphertext_length, const uint8_t *tag, size_t tag_length, uint8_t *message,
                                   size_t message_length, struct catsvomi_refusal *refusal)
{
    uint32_t answer = __real_catsvomi_nca5_open(key, work, work_length, bearer, direction, extra_iv, count, tag_size, aad_bits, aad,
                                                aad_length, bits, ciphertext, ciphertext_length, tag, tag_length, message,
                                                message_length, refusal);
    if (PLANTED == 1 && answer == CATSVOMI_REFUSED_WRONG_TAG)
        work[63] = 1;
    if (PLANTED == 3 && answer == CATSVOMI_REFUSED_WRONG_TAG)
        memset(message, 0, message_length);
    if (PLANTED == 4 && answer == CATSVOMI_REFUSED_WRONG_TAG)
        for (unsigned last = 0; last < 256 && answer != CATSVOMI_ACCEPTED; last++) {
            uint8_t other[16];
            memcpy(other, tag, tag_size);
            other[tag_size - 1] = (uint8_t)last;
            answer = __real_catsvomi_nca5_open(key, work, work_length, bearer, direction, extra_iv, count, tag_size, aad_bits, aad,
                                               aad_length, bits, ciphertext, ciphertext_length, other, tag_length, message,
                                               message_length, refusal);
        }
    return answer;
}
