/* BearSSL's party: AES-256 in counter mode, and AES-256-GCM, by the implementations in constant time, br_aes_ct64_ctr and
 * br_ghash_ctmul64. They work in place, so the text is copied first. */
#include <bearssl.h>
#include <string.h>
#include "party.h"

static br_aes_ct64_ctr_keys aes;
static br_gcm_context gcm;

static void set_key(void)
{
    br_aes_ct64_ctr_init(&aes, key, sizeof key);
    br_gcm_init(&gcm, &aes.vtable, br_ghash_ctmul64);
}

static void encrypt(uint32_t times)
{
    uint8_t nonce[16];
    for (uint32_t turn = 0; turn < times; turn++) {
        set_nonce(nonce, ++count);
        memcpy(ciphertext, message, length);
        br_aes_ct64_ctr_run(&aes, nonce, 0, ciphertext, length);
    }
}

static void run(uint32_t under, int to_encrypt, uint8_t *text)
{
    uint8_t nonce[16];
    set_nonce(nonce, under);
    br_gcm_reset(&gcm, nonce, 12);
    br_gcm_aad_inject(&gcm, aad, AAD);
    br_gcm_flip(&gcm);
    br_gcm_run(&gcm, to_encrypt, text, length);
}

static void cover(uint32_t times)
{
    for (uint32_t turn = 0; turn < times; turn++) {
        memcpy(ciphertext, message, length);
        run(++count, 1, ciphertext);
        br_gcm_get_tag(&gcm, tag);
    }
}

static void uncover(uint32_t times)
{
    for (uint32_t turn = 0; turn < times; turn++) {
        memcpy(opened, ciphertext, length);
        run(count, 0, opened);
        if (!br_gcm_check_tag(&gcm, tag))
            memset(opened, 0, length);
    }
}

const struct party bearssl = {set_key, encrypt, cover, uncover};
