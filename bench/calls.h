/* The exported calls of crates/bench. A slice is a pointer and then a length. Nothing checks these declarations. */
#ifndef CALLS_H
#define CALLS_H

#include <stddef.h>
#include <stdint.h>

void bench_fold(const uint8_t h[16], uint8_t value[16], uint32_t bits, const uint8_t *bytes, size_t length);
void bench_tag(const uint8_t h[16], const uint8_t q[16], const uint8_t p[16], uint32_t aad_bits, const uint8_t *aad,
               size_t aad_length, uint32_t bits, const uint8_t *ciphertext, size_t length, uint8_t *out, size_t out_length);
void bench_aes256(const uint8_t key[32], uint8_t block[16], uint32_t turns);
void bench_keystream(const uint8_t key[32], const uint8_t nonce[12], uint32_t count, uint8_t out[16]);
void bench_nea5(const uint8_t key[32], uint32_t count, uint32_t turns, uint32_t bits, const uint8_t *input, size_t input_length,
                uint8_t *output, size_t output_length);
void bench_nca5_cover(const uint8_t key[32], uint32_t count, uint32_t turns, uint32_t aad_bits, const uint8_t *aad,
                      size_t aad_length, uint32_t bits, const uint8_t *message, size_t length, uint8_t *ciphertext,
                      size_t ciphertext_length, uint8_t *tag, size_t tag_length);
void bench_nca5_open(const uint8_t key[32], uint32_t count, uint32_t turns, uint32_t aad_bits, const uint8_t *aad,
                     size_t aad_length, uint32_t bits, const uint8_t *ciphertext, size_t length, const uint8_t *tag,
                     size_t tag_length, uint8_t *message, size_t message_length);

#endif
