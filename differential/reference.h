/* NEA5, NIA5 and NCA5 once more, to compare the library with. Written from docs/RULES.md alone: nothing of the library is used, its
 * header neither. AES-256 is that of OpenSSL's libcrypto, a block at a time; the product of the field goes bit by bit. */
#ifndef REFERENCE_H
#define REFERENCE_H

#include <stddef.h>
#include <stdint.h>

/* What a message goes under. NEA5 has no tag size. */
struct terms {
    const uint8_t *key;
    unsigned bearer, direction, tag_size;
    const uint8_t *extra_iv;
    uint32_t count;
};

/* Bytes with a length in bits. Any number of bytes may go with any number of bits. */
struct string {
    uint32_t bits;
    const uint8_t *bytes;
    size_t length;
};

struct buffer {
    uint8_t *bytes;
    size_t length;
};

/* Holds the product and AES against published examples, and exits where they do not agree. Called before all others. */
void reference_begin(void);

void reference_end(void);

/* How many bytes so many bits fill. */
size_t reference_filled(uint32_t bits);

/* Each answers the number of the first test that is met, or 0, and writes its outputs only where it answers 0. */
unsigned reference_nea5(const struct terms *of, size_t work_length, struct string input, struct buffer output);
unsigned reference_nia5(const struct terms *of, size_t work_length, struct string text, struct buffer tag);
unsigned reference_nca5_cover(const struct terms *of, size_t work_length, struct string aad, struct string message,
                              struct buffer ciphertext, struct buffer tag);
unsigned reference_nca5_open(const struct terms *of, size_t work_length, struct string aad, struct string ciphertext,
                             struct buffer tag, struct buffer message);

#endif
