/* A trial: one call of the library with all its bytes, drawn at random, and what the reference says of it. */
#ifndef TRIAL_H
#define TRIAL_H

#include <stddef.h>
#include <stdint.h>

enum function { NEA5, NIA5, NCA5_COVER, NCA5_OPEN, FUNCTIONS };

/* Bytes that a call is given, between guard bytes. */
struct piece {
    uint8_t *whole, *bytes;
    size_t front, length;
    /* what they have to hold after the call */
    uint8_t *wanted;
};

struct trial {
    enum function function;
    uint8_t bearer, direction, tag_size;
    uint32_t count, aad_bits, bits;
    /* `text` is what is covered or opened, or what a tag is made of; `out` is what that gives */
    struct piece key, extra_iv, work, aad, text, tag, out, refusal;
    /* how many faults were planted, a few of which are none after all */
    unsigned faults;
    /* the number that has to be answered */
    unsigned answer;
};

/* Trial number `index` of a seed. The same two always make the same trial. */
void make_trial(struct trial *of, uint64_t seed, uint64_t index);

/* A trial without a fault, of so many bits. */
void make_trial_of(struct trial *of, uint64_t seed, enum function function, uint32_t bits);

void free_trial(struct trial *of);

/* Whether the guard bytes of a piece are as they were made. */
int guarded(const struct piece *of);

enum { GUARD = 48 };

#endif
