#include "reference.h"
#include <openssl/evp.h>
#include <stdio.h>
#include <stdlib.h>
#include <string.h>

enum { BLOCK = 16, NONCE = 12, WORK_AREA = 64 };

static EVP_CIPHER_CTX *aes;

static void give_up(const char *what)
{
    fprintf(stderr, "the reference: %s\n", what);
    exit(2);
}

static void use_key(const uint8_t key[32])
{
    if (EVP_EncryptInit_ex(aes, NULL, NULL, key, NULL) != 1 || EVP_CIPHER_CTX_set_padding(aes, 0) != 1)
        give_up("libcrypto takes no key");
}

static void encrypt(const uint8_t block[BLOCK], uint8_t out[BLOCK])
{
    int length = 0;
    if (EVP_EncryptUpdate(aes, out, &length, block, BLOCK) != 1 || length != BLOCK)
        give_up("libcrypto encrypts no block");
}

/* A polynomial over bits: the low bit of `low` belongs to power 0, the high bit of `high` to power 127. */
struct element {
    uint64_t low, high;
};

static struct element sum(struct element a, struct element b)
{
    return (struct element){a.low ^ b.low, a.high ^ b.high};
}

/* The low bit of byte 0 belongs to power 0. */
static struct element element_of(const uint8_t block[BLOCK])
{
    struct element a = {0, 0};
    for (int i = 0; i < 8; i++) {
        a.low |= (uint64_t)block[i] << (8 * i);
        a.high |= (uint64_t)block[8 + i] << (8 * i);
    }
    return a;
}

static void bytes_of(struct element a, uint8_t block[BLOCK])
{
    for (int i = 0; i < 8; i++) {
        block[i] = (uint8_t)(a.low >> (8 * i));
        block[8 + i] = (uint8_t)(a.high >> (8 * i));
    }
}

#define POWER(n) ((uint64_t)1 << ((n) % 64))

/* a * x. What comes to power 128 is replaced by x^127 + x^126 + x^121 + 1. */
static struct element times_x(struct element a)
{
    uint64_t over = 0 - (a.high >> 63);
    a.high = a.high << 1 | a.low >> 63;
    a.low <<= 1;
    a.high ^= over & (POWER(127) | POWER(126) | POWER(121));
    a.low ^= over & POWER(0);
    return a;
}

static uint64_t coefficient(struct element a, int power)
{
    return (power < 64 ? a.low : a.high) >> (power % 64) & 1;
}

/* a * b, from the highest power of b down. */
static struct element product(struct element a, struct element b)
{
    struct element r = {0, 0};
    for (int power = 127; power >= 0; power--) {
        uint64_t taken = 0 - coefficient(b, power);
        r = times_x(r);
        r.low ^= taken & a.low;
        r.high ^= taken & a.high;
    }
    return r;
}

/* x^-128. */
static const struct element INVERSE = {POWER(0), POWER(127) | POWER(124) | POWER(121) | POWER(114)};

/* pdot(a, b) is product(a, factor(b)). */
static struct element factor(struct element b)
{
    return product(b, INVERSE);
}

size_t reference_filled(uint32_t bits)
{
    size_t bytes = bits / 8;
    if (bits % 8 > 0)
        bytes++;
    return bytes;
}

/* The bits of byte `at` that are among the first so many. */
static uint8_t counted(uint32_t bits, size_t at)
{
    if (at < bits / 8)
        return 0xFF;
    return at == bits / 8 ? (uint8_t)(0xFF00 >> bits % 8) : 0;
}

static struct element fold(struct element value, struct element h, struct string data)
{
    struct element by_h = factor(h);
    for (size_t from = 0; from < data.length; from += BLOCK) {
        uint8_t block[BLOCK] = {0};
        for (size_t i = 0; i < BLOCK && from + i < data.length; i++)
            block[i] = data.bytes[from + i] & counted(data.bits, from + i);
        value = product(sum(value, element_of(block)), by_h);
    }
    return value;
}

static void put_number(uint8_t bytes[4], uint32_t number)
{
    for (int i = 0; i < 4; i++)
        bytes[i] = (uint8_t)(number >> (8 * (3 - i)));
}

static void make_nonce(const struct terms *of, unsigned tag_size, unsigned combined, unsigned instance, uint8_t nonce[NONCE])
{
    nonce[0] = (uint8_t)(tag_size * 8 + combined * 4 + instance);
    nonce[1] = (uint8_t)(of->bearer * 2 + of->direction);
    memcpy(nonce + 2, of->extra_iv, 6);
    put_number(nonce + 8, of->count);
}

/* The block of keystream at an index. */
static void keystream(const uint8_t nonce[NONCE], uint32_t index, uint8_t out[BLOCK])
{
    uint8_t block[BLOCK];
    memcpy(block, nonce, NONCE);
    put_number(block + NONCE, index);
    encrypt(block, out);
}

static void add_keystream(const uint8_t nonce[NONCE], struct string text, uint8_t *out)
{
    uint8_t key[BLOCK];
    for (size_t i = 0; i < text.length; i++) {
        if (i % BLOCK == 0)
            keystream(nonce, (uint32_t)(i / BLOCK), key);
        out[i] = (text.bytes[i] ^ key[i % BLOCK]) & counted(text.bits, i);
    }
}

/* The sixteen bytes that a tag is the beginning of. */
static void make_tag(const uint8_t nonce[NONCE], struct string aad, struct string ciphertext, uint8_t tag[BLOCK])
{
    uint8_t h[BLOCK], q[BLOCK], p[BLOCK];
    keystream(nonce, 0, h);
    keystream(nonce, 1, q);
    keystream(nonce, 2, p);
    struct element value = {0, 0}, lengths = {ciphertext.bits, aad.bits};
    value = fold(value, element_of(h), aad);
    value = fold(value, element_of(h), ciphertext);
    value = product(sum(value, lengths), factor(element_of(q)));
    bytes_of(sum(value, element_of(p)), tag);
}

static int unfilled(struct string text)
{
    return text.length != reference_filled(text.bits);
}

/* 1 and 2. */
static unsigned first_tests(const struct terms *of, size_t work_length)
{
    if (work_length != WORK_AREA)
        return 1;
    return of->bearer > 31 || of->direction > 1 ? 2 : 0;
}

/* 1, 2 and 3. */
static unsigned tests_with_tag(const struct terms *of, size_t work_length)
{
    unsigned met = first_tests(of, work_length);
    if (met == 0 && (of->tag_size < 4 || of->tag_size > 16))
        met = 3;
    return met;
}

unsigned reference_nea5(const struct terms *of, size_t work_length, struct string input, struct buffer output)
{
    uint8_t nonce[NONCE];
    unsigned met = first_tests(of, work_length);
    if (met > 0)
        return met;
    if (input.bits == 0)
        return 4;
    if (unfilled(input))
        return 5;
    if (output.length != input.length)
        return 6;
    use_key(of->key);
    make_nonce(of, 0, 0, 0, nonce);
    add_keystream(nonce, input, output.bytes);
    return 0;
}

unsigned reference_nia5(const struct terms *of, size_t work_length, struct string text, struct buffer tag)
{
    uint8_t nonce[NONCE], whole[BLOCK];
    unsigned met = tests_with_tag(of, work_length);
    if (met > 0)
        return met;
    if (text.bits == 0)
        return 4;
    if (unfilled(text))
        return 5;
    if (tag.length != of->tag_size)
        return 6;
    use_key(of->key);
    make_nonce(of, of->tag_size, 0, 1, nonce);
    make_tag(nonce, text, (struct string){0, NULL, 0}, whole);
    memcpy(tag.bytes, whole, of->tag_size);
    return 0;
}

/* The first t bytes count. */
static void nca5_tag(const struct terms *of, struct string aad, struct string ciphertext, uint8_t tag[BLOCK])
{
    uint8_t nonce[NONCE];
    make_nonce(of, of->tag_size, 1, 1, nonce);
    make_tag(nonce, aad, ciphertext, tag);
}

static void nca5_keystream(const struct terms *of, struct string text, uint8_t *out)
{
    uint8_t nonce[NONCE];
    make_nonce(of, of->tag_size, 1, 0, nonce);
    add_keystream(nonce, text, out);
}

unsigned reference_nca5_cover(const struct terms *of, size_t work_length, struct string aad, struct string message,
                              struct buffer ciphertext, struct buffer tag)
{
    uint8_t whole[BLOCK];
    unsigned met = tests_with_tag(of, work_length);
    if (met > 0)
        return met;
    if (unfilled(aad) || unfilled(message))
        return 5;
    if (ciphertext.length != message.length || tag.length != of->tag_size)
        return 6;
    use_key(of->key);
    nca5_keystream(of, message, ciphertext.bytes);
    nca5_tag(of, aad, (struct string){message.bits, ciphertext.bytes, ciphertext.length}, whole);
    memcpy(tag.bytes, whole, of->tag_size);
    return 0;
}

unsigned reference_nca5_open(const struct terms *of, size_t work_length, struct string aad, struct string ciphertext,
                             struct buffer tag, struct buffer message)
{
    uint8_t whole[BLOCK];
    unsigned met = tests_with_tag(of, work_length);
    if (met > 0)
        return met;
    if (unfilled(aad) || unfilled(ciphertext) || tag.length != of->tag_size)
        return 5;
    if (message.length != ciphertext.length)
        return 6;
    if (ciphertext.length > 0) {
        size_t last = ciphertext.length - 1;
        if ((ciphertext.bytes[last] & ~counted(ciphertext.bits, last)) != 0)
            return 10;
    }
    use_key(of->key);
    nca5_tag(of, aad, ciphertext, whole);
    if (memcmp(whole, tag.bytes, of->tag_size) != 0)
        return 14;
    nca5_keystream(of, ciphertext, message.bytes);
    return 0;
}

/* The example of FIPS 197. */
static void see_aes(void)
{
    static const uint8_t wanted[BLOCK] = {0x8e, 0xa2, 0xb7, 0xca, 0x51, 0x67, 0x45, 0xbf,
                                          0xea, 0xfc, 0x49, 0x90, 0x4b, 0x49, 0x60, 0x89};
    uint8_t key[32], block[BLOCK], out[BLOCK];
    for (int i = 0; i < 32; i++)
        key[i] = (uint8_t)i;
    for (int i = 0; i < BLOCK; i++)
        block[i] = (uint8_t)(0x11 * i);
    use_key(key);
    encrypt(block, out);
    if (memcmp(out, wanted, BLOCK) != 0)
        give_up("AES-256 does not give the example of FIPS 197");
}

/* The example of RFC 8452, appendix A: POLYVAL(H, X_1, X_2). */
static void see_polyval(void)
{
    static const uint8_t h[BLOCK] = {0x25, 0x62, 0x93, 0x47, 0x58, 0x92, 0x42, 0x76,
                                     0x1d, 0x31, 0xf8, 0x26, 0xba, 0x4b, 0x75, 0x7b};
    static const uint8_t data[2 * BLOCK] = {0x4f, 0x4f, 0x95, 0x66, 0x8c, 0x83, 0xdf, 0xb6, 0x40, 0x17, 0x62,
                                            0xbb, 0x2d, 0x01, 0xa2, 0x62, 0xd1, 0xa2, 0x4d, 0xdd, 0x27, 0x21,
                                            0xd0, 0x06, 0xbb, 0xe4, 0x5f, 0x20, 0xd3, 0xc9, 0xf3, 0x62};
    static const uint8_t wanted[BLOCK] = {0xf7, 0xa3, 0xb4, 0x7b, 0x84, 0x61, 0x19, 0xfa,
                                          0xe5, 0xb7, 0x86, 0x6c, 0xf5, 0xe5, 0xb7, 0x7e};
    uint8_t out[BLOCK];
    bytes_of(fold((struct element){0, 0}, element_of(h), (struct string){256, data, sizeof data}), out);
    if (memcmp(out, wanted, BLOCK) != 0)
        give_up("the fold does not give the example of RFC 8452");
}

void reference_begin(void)
{
    aes = EVP_CIPHER_CTX_new();
    if (aes == NULL || EVP_EncryptInit_ex(aes, EVP_aes_256_ecb(), NULL, NULL, NULL) != 1)
        give_up("libcrypto has no AES-256");
    see_aes();
    see_polyval();
}

void reference_end(void)
{
    EVP_CIPHER_CTX_free(aes);
}
