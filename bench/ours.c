/* Our party: NEA5 and NCA5 over the AES generator, by the calls of crates/bench, which make one generator for all their turns. */
#include <string.h>
#include "calls.h"
#include "party.h"

/* Each call is given the key. */
static void set_key(void)
{
}

/* The call takes the count after for each turn. */
static void encrypt(uint32_t times)
{
    bench_nea5(key, count + 1, times, (uint32_t)(8 * length), message, length, ciphertext, length);
    count += times;
}

/* The call stays at one count, at which the generator keeps nothing that the next turn could use. */
static void cover(uint32_t times)
{
    count++;
    bench_nca5_cover(key, count, times, 8 * AAD, aad, AAD, (uint32_t)(8 * length), message, length, ciphertext, length, tag, TAG);
}

/* What is refused leaves the buffer as it was, so it is wiped before. */
static void uncover(uint32_t times)
{
    memset(opened, 0, length);
    bench_nca5_open(key, count, times, 8 * AAD, aad, AAD, (uint32_t)(8 * length), ciphertext, length, tag, TAG, opened, length);
}

const struct party ours = {set_key, encrypt, cover, uncover};
