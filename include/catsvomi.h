/* Catsvomi for C: 256-NEA5, 256-NIA5 and 256-NCA5 of 3GPP, over AES-256.
 *
 * The calls
 * ---------
 *
 *   catsvomi_nea5         covers a message, and uncovers it again. There is no tag.
 *   catsvomi_nia5         makes the tag of a text.
 *   catsvomi_nca5_cover   covers a message, and makes a tag over it and over an AAD, which is data that is sent uncovered.
 *   catsvomi_nca5_open    looks whether the tag is right, and only then uncovers the message.
 *
 * docs/RULES.md says, byte for byte, what the calls of these names test, answer and write; here a refusal is answered by its
 * number, and layers have the numbers of enum catsvomi_layer. docs/C.md says how the library is built and linked.
 *
 * This file needs C99 or a later C: <stddef.h> and <stdint.h>, `static inline`, and `static` in the array of a parameter. In C++ it
 * needs a compiler that has <stdint.h>, as C++11 asks.
 *
 * What a call answers
 * -------------------
 *
 * 0 (CATSVOMI_ACCEPTED) says that the call was accepted and that its outputs are written, whole. Any other answer is the number of
 * a refusal (enum catsvomi_reason). A refused call has written none of its outputs: they hold what they held before. So look at
 * the answer before an output is sent, stored or acted on: after a refusal it is whatever stood there.
 *
 * A call makes its tests in the order of their numbers, and answers the first that is met. `refusal` is written by every call, and
 * tells the layer that refused and a place. Accepted, both are 0; refused by the calls of this file, the layer is
 * CATSVOMI_LAYER_COVER and the place 0. (A short keystream would name the generator, and its reach as place; AES has keystream
 * for every length, so that no call of this file meets it.)
 *
 * What the caller has to keep
 * ---------------------------
 *
 * None of these can be tested, and a call that breaks one may do anything.
 *
 * - No pointer is null, not even one to a buffer of no bytes: give it the address of some byte.
 * - Behind each pointer there are as many bytes as its length says: 32 of `key`, 6 of `extra_iv`, `work_length` of `work`, and so
 *   on. No length is above PTRDIFF_MAX.
 * - `refusal` points at a struct catsvomi_refusal, aligned as the compiler aligns one.
 * - What a call writes (`work`, each output and `refusal`) is memory that may be written, and has no byte in common with anything
 *   else that the call is given. So no message is covered or opened in place. Inputs may share bytes with one another.
 * - While a call runs, nobody else writes what it reads, or reads or writes what it writes.
 *
 * All else may have any value. What is out of its range is refused, and no number or length that is given makes a call go past a
 * buffer. Outputs and work area may hold anything before the call, and need not have been written at all. (That no nonce is used
 * twice is a duty too, below: no memory is harmed where it is broken, but what was to be kept secret is given away.)
 *
 * Lengths
 * -------
 *
 * A text has a length in bits and one in bytes, which are two arguments. Bits are counted from the most significant bit of byte 0
 * on. N bits fill N / 8 bytes, rounded up: catsvomi_bytes(N). An input and an output have exactly that many bytes, and a tag has
 * exactly `tag_size`; any other number is refused, also a greater one. The bits of the last byte past the length are spare bits.
 * Those of an input are ignored, except that a ciphertext to be opened must have none set; those of an output are written as zero.
 *
 * The work area
 * -------------
 *
 * `work` has CATSVOMI_WORK_AREA bytes. It holds H, Q, P and keystream during the call. After every call all its bytes are zero,
 * whether the call was accepted or refused, and also where it has another length, which is refused.
 *
 * The nonce: one count for one message
 * ------------------------------------
 *
 * The algorithm, `bearer` (0 to 31), `direction` (0 or 1), `extra_iv` (six bytes, zero where there is none), `count` and, but for
 * NEA5, `tag_size` make the nonce. Under one key, NO TWO MESSAGES MAY BE COVERED, AND NO TWO TEXTS GIVEN A TAG, BY ONE ALGORITHM
 * WITH THE SAME ONES: whoever has both ciphertexts has the sum of the two messages, and two tags help to forge a third. No call
 * can notice it. (NEA5, NIA5 and NCA5 never share a nonce, so that one message may go through NEA5 and NIA5 under one count.) Give
 * each message under a key a count of its own, also across restarts (docs/INTEGRATING.md says how counts are kept), and take a new
 * key before the counts are used up.
 *
 * Whoever receives a message calls with the parameters that it was covered with: to uncover it, to open it, or to make the tag of
 * the text that came. Such a tag is compared and given to nobody: what came may be another text than the one that was sent.
 *
 * Secrets
 * -------
 *
 * A call keeps nothing for the next one: there is no state, nothing is allocated, and calls may run at the same time where none
 * writes what another reads or writes. Each call expands the key and makes eight blocks before all else, refused or not, which
 * takes about 4,000 cycles. What a call leaves on the stack, round keys among it, is not wiped. It takes about 15 KB of stack.
 *
 * What is proved, and what is not
 * -------------------------------
 *
 * The functions behind these declarations are written in Rattle (crates/capi). Each is proved, before it is built, to meet its
 * contract for every input: the answer, the layer and the place, each output, the zeroed work area; that it stays within its
 * buffers; and that it returns. That nothing is written before all tests are made, and that every byte of a tag is looked at, is
 * in no contract: it is read in the code.
 *
 * NOTHING PROVES THIS FILE. A parameter that stood in the wrong place here, or had the wrong type, would be an error that no proof
 * sees. A test does (differential/run): it holds these declarations against what the crate exports, makes its calls by the names
 * that stand here, and compares each with an implementation of its own. And nothing at all sees whether a program keeps what is
 * said above of pointers. */
#ifndef CATSVOMI_H
#define CATSVOMI_H

#include <stddef.h>
#include <stdint.h>

/* So many bytes are behind a pointer, at least. A compiler may warn where it sees that there are fewer. */
#ifdef __cplusplus
#define CATSVOMI_AT_LEAST(bytes) bytes
extern "C" {
#else
#define CATSVOMI_AT_LEAST(bytes) static bytes
#endif

/* A compiler that can warns of a null pointer that it sees, and of an answer that nobody looks at. */
#if defined __GNUC__
#define CATSVOMI_CHECKED __attribute__((nonnull, warn_unused_result))
#else
#define CATSVOMI_CHECKED
#endif

/* Sizes, in bytes. */
#define CATSVOMI_KEY 32
#define CATSVOMI_WORK_AREA 64
#define CATSVOMI_EXTRA_IV 6
#define CATSVOMI_LEAST_TAG 4
#define CATSVOMI_MOST_TAG 16

/* What a call answers. The other numbers of docs/RULES.md belong to layers that this file does not offer. */
enum catsvomi_reason {
    /* The call was accepted. */
    CATSVOMI_ACCEPTED = 0,
    /* The work area has not exactly 64 bytes. */
    CATSVOMI_REFUSED_WORK_AREA = 1,
    /* BEARER is above 31 or DIRECTION above 1. */
    CATSVOMI_REFUSED_BEARER_DIRECTION = 2,
    /* The tag size is outside 4 to 16. */
    CATSVOMI_REFUSED_TAG_SIZE = 3,
    /* In NEA5 and NIA5, there are no bits. */
    CATSVOMI_REFUSED_BIT_LENGTH = 4,
    /* An input has not exactly the bytes that its bits fill, or a tag to be compared has not as many as the tag size says. */
    CATSVOMI_REFUSED_INPUT_BYTES = 5,
    /* An output has not exactly the bytes of what would be written to it. */
    CATSVOMI_REFUSED_OUTPUT_BYTES = 6,
    /* Spare bits are set in a ciphertext to be opened. */
    CATSVOMI_REFUSED_SPARE_BITS = 10,
    /* The keystream is too short. Never answered by the calls of this file. */
    CATSVOMI_REFUSED_SHORT_KEYSTREAM = 13,
    /* The tag is not the one of this key, these parameters, this AAD and this ciphertext. */
    CATSVOMI_REFUSED_WRONG_TAG = 14
};

/* The layer that a refusal names. */
enum catsvomi_layer {
    /* There was no refusal. */
    CATSVOMI_LAYER_NONE = 0,
    CATSVOMI_LAYER_COVER = 1,
    /* The layers below are named by none of the calls of this file. */
    CATSVOMI_LAYER_LINK = 2,
    CATSVOMI_LAYER_GENERATOR = 3,
    CATSVOMI_LAYER_RECORDING = 4,
    CATSVOMI_LAYER_KEY_TEXT = 5
};

/* What a call says beside its answer. */
struct catsvomi_refusal {
    /* An enum catsvomi_layer. */
    uint32_t layer;
    /* What the refusal names; 0 where it names nothing. */
    uint64_t place;
};

/* How many bytes so many bits fill. (bits + 7) / 8 would wrap for the greatest lengths. */
static inline size_t catsvomi_bytes(uint32_t bits)
{
    return (size_t)(bits / 8) + (bits % 8 != 0);
}

/* NEA5: writes to `output` the input plus the keystream. The same call on the output gives the input back, its spare bits cleared.
 * Nothing shows that a ciphertext was changed on its way: where that matters, use NCA5.
 *
 *   bits                         1 to 2^32 - 1
 *   input_length, output_length  catsvomi_bytes(bits) each
 *
 * Answers 0, 1, 2, 4, 5 or 6. */
uint32_t catsvomi_nea5(
    const uint8_t key[CATSVOMI_AT_LEAST(CATSVOMI_KEY)],
    uint8_t *work, size_t work_length,
    uint8_t bearer, uint8_t direction,
    const uint8_t extra_iv[CATSVOMI_AT_LEAST(CATSVOMI_EXTRA_IV)],
    uint32_t count,
    uint32_t bits, const uint8_t *input, size_t input_length,
    uint8_t *output, size_t output_length,
    struct catsvomi_refusal *refusal) CATSVOMI_CHECKED;

/* NIA5: writes to `tag` the tag of a text. To check a tag that came with a text, make the text's own and compare the two, by a
 * comparison that looks at every byte; memcmp does not.
 *
 *   tag_size     4 to 16
 *   bits         1 to 2^32 - 1
 *   text_length  catsvomi_bytes(bits)
 *   tag_length   tag_size
 *
 * Answers 0, 1, 2, 3, 4, 5 or 6. */
uint32_t catsvomi_nia5(
    const uint8_t key[CATSVOMI_AT_LEAST(CATSVOMI_KEY)],
    uint8_t *work, size_t work_length,
    uint8_t bearer, uint8_t direction,
    const uint8_t extra_iv[CATSVOMI_AT_LEAST(CATSVOMI_EXTRA_IV)],
    uint32_t count, uint8_t tag_size,
    uint32_t bits, const uint8_t *text, size_t text_length,
    uint8_t *tag, size_t tag_length,
    struct catsvomi_refusal *refusal) CATSVOMI_CHECKED;

/* NCA5, covering: writes to `ciphertext` the message plus the keystream, and to `tag` the tag over AAD and ciphertext. AAD,
 * ciphertext and tag are what is sent. Both AAD and message may have no bits.
 *
 *   tag_size                           4 to 16
 *   aad_bits                           0 to 2^32 - 1
 *   aad_length                         catsvomi_bytes(aad_bits)
 *   bits                               0 to 2^32 - 1
 *   message_length, ciphertext_length  catsvomi_bytes(bits) each
 *   tag_length                         tag_size
 *
 * Answers 0, 1, 2, 3, 5 or 6. */
uint32_t catsvomi_nca5_cover(
    const uint8_t key[CATSVOMI_AT_LEAST(CATSVOMI_KEY)],
    uint8_t *work, size_t work_length,
    uint8_t bearer, uint8_t direction,
    const uint8_t extra_iv[CATSVOMI_AT_LEAST(CATSVOMI_EXTRA_IV)],
    uint32_t count, uint8_t tag_size,
    uint32_t aad_bits, const uint8_t *aad, size_t aad_length,
    uint32_t bits, const uint8_t *message, size_t message_length,
    uint8_t *ciphertext, size_t ciphertext_length,
    uint8_t *tag, size_t tag_length,
    struct catsvomi_refusal *refusal) CATSVOMI_CHECKED;

/* NCA5, opening: makes the tag over AAD and ciphertext, compares it with `tag`, and where the two are alike writes the message,
 * its spare bits cleared. The whole tag is compared before a byte of the message is written, and every byte of it is looked at. A
 * ciphertext with a wrong tag (14) gives nothing of its message. What has been opened is not remembered: a message that is sent
 * again opens again, and it is for the program to see by its count.
 *
 *   tag_size                           4 to 16
 *   aad_bits                           0 to 2^32 - 1
 *   aad_length                         catsvomi_bytes(aad_bits)
 *   bits                               0 to 2^32 - 1
 *   ciphertext_length, message_length  catsvomi_bytes(bits) each
 *   tag_length                         tag_size; another is refused by 5, since the tag is an input here
 *
 * Answers 0, 1, 2, 3, 5, 6, 10 or 14. */
uint32_t catsvomi_nca5_open(
    const uint8_t key[CATSVOMI_AT_LEAST(CATSVOMI_KEY)],
    uint8_t *work, size_t work_length,
    uint8_t bearer, uint8_t direction,
    const uint8_t extra_iv[CATSVOMI_AT_LEAST(CATSVOMI_EXTRA_IV)],
    uint32_t count, uint8_t tag_size,
    uint32_t aad_bits, const uint8_t *aad, size_t aad_length,
    uint32_t bits, const uint8_t *ciphertext, size_t ciphertext_length,
    const uint8_t *tag, size_t tag_length,
    uint8_t *message, size_t message_length,
    struct catsvomi_refusal *refusal) CATSVOMI_CHECKED;

#ifdef __cplusplus
}
#endif

#endif
