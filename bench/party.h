/* Who is measured side by side, and on what. Each party works on the same buffers, under a key that it has set up before. */
#ifndef PARTY_H
#define PARTY_H

#include <stddef.h>
#include <stdint.h>
#include "timing.h"

enum { AAD = 64, TAG = 16, LONGEST = 16384 };

extern uint8_t key[32], aad[AAD], message[LONGEST], ciphertext[LONGEST], tag[TAG], opened[LONGEST];

/* How many bytes of the message count. */
extern size_t length;

/* The count of the message that was covered last. */
extern uint32_t count;

struct party {
    void (*set_key)(void);

    /* Encrypt the message into the ciphertext, and no tag. Each time goes under the count after. */
    measured *encrypt;

    /* Encrypts the message into the ciphertext, and makes the tag of that and of the AAD. */
    measured *cover;

    /* Opens the ciphertext with the tag, each time the same one, and leaves zeros where that is refused. */
    measured *open;
};

extern const struct party ours, openssl, bearssl;

/* A nonce of twelve bytes that ends in a count, and four bytes of zeros, for a counter of blocks. */
static inline void set_nonce(uint8_t nonce[16], uint32_t of)
{
    for (int i = 0; i < 16; i++)
        nonce[i] = i >= 8 && i < 12 ? (uint8_t)(of >> (88 - 8 * i)) : 0;
}

#endif
