/* OpenSSL's party: AES-256 in counter mode, and AES-256-GCM, by the EVP calls. */
#include <openssl/evp.h>
#include <stdio.h>
#include <stdlib.h>
#include <string.h>
#include "party.h"

static EVP_CIPHER_CTX *encrypting, *covering, *opening;

static void must(int done)
{
    if (done)
        return;
    fprintf(stderr, "a call of OpenSSL failed\n");
    exit(1);
}

static EVP_CIPHER_CTX *with_key(const EVP_CIPHER *cipher, int to_encrypt)
{
    EVP_CIPHER_CTX *context = EVP_CIPHER_CTX_new();
    must(context != NULL && EVP_CipherInit_ex(context, cipher, NULL, key, NULL, to_encrypt));
    return context;
}

static void set_key(void)
{
    encrypting = with_key(EVP_aes_256_ctr(), 1);
    covering = with_key(EVP_aes_256_gcm(), 1);
    opening = with_key(EVP_aes_256_gcm(), 0);
}

static void encrypt(uint32_t times)
{
    uint8_t nonce[16];
    int written;
    for (uint32_t turn = 0; turn < times; turn++) {
        set_nonce(nonce, ++count);
        must(EVP_EncryptInit_ex(encrypting, NULL, NULL, NULL, nonce)
             && EVP_EncryptUpdate(encrypting, ciphertext, &written, message, (int)length));
    }
}

static void cover(uint32_t times)
{
    uint8_t nonce[16];
    int written;
    for (uint32_t turn = 0; turn < times; turn++) {
        set_nonce(nonce, ++count);
        must(EVP_EncryptInit_ex(covering, NULL, NULL, NULL, nonce) && EVP_EncryptUpdate(covering, NULL, &written, aad, AAD)
             && EVP_EncryptUpdate(covering, ciphertext, &written, message, (int)length)
             && EVP_EncryptFinal_ex(covering, ciphertext + written, &written)
             && EVP_CIPHER_CTX_ctrl(covering, EVP_CTRL_AEAD_GET_TAG, TAG, tag));
    }
}

static void uncover(uint32_t times)
{
    uint8_t nonce[16];
    int written;
    set_nonce(nonce, count);
    for (uint32_t turn = 0; turn < times; turn++) {
        must(EVP_DecryptInit_ex(opening, NULL, NULL, NULL, nonce) && EVP_DecryptUpdate(opening, NULL, &written, aad, AAD)
             && EVP_DecryptUpdate(opening, opened, &written, ciphertext, (int)length)
             && EVP_CIPHER_CTX_ctrl(opening, EVP_CTRL_AEAD_SET_TAG, TAG, tag));
        if (!EVP_DecryptFinal_ex(opening, opened + written, &written))
            memset(opened, 0, length);
    }
}

const struct party openssl = {set_key, encrypt, cover, uncover};
