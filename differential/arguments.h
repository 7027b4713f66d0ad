/* What the library's functions are given, by the names that catsvomi.h has for its parameters; and a call of each function, which
 * calls.awk makes from that header. */
#ifndef ARGUMENTS_H
#define ARGUMENTS_H

#include "catsvomi.h"

struct arguments {
    uint8_t *key, *extra_iv, *work, *aad, *input, *text, *message, *ciphertext, *tag, *output;
    size_t work_length, aad_length, input_length, text_length, message_length, ciphertext_length, tag_length, output_length;
    uint8_t bearer, direction, tag_size;
    uint32_t count, aad_bits, bits;
    struct catsvomi_refusal *refusal;
};

#include "calls.h"

#endif
