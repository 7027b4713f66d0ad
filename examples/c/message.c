/* Covers a message by NCA5 together with an AAD, opens it again, and sees that a damaged one is refused.
 *
 * Ends with 0 only where each call answers what it should. */
#include "catsvomi.h"
#include <inttypes.h>
#include <stdio.h>
#include <stdlib.h>
#include <string.h>

enum { BEARER = 7, DIRECTION = 1, TAG_SIZE = 8 };

/* Of this example alone. A key of one's own comes from a key exchange, and is in no program text. */
static const uint8_t key[CATSVOMI_KEY] = {0x00, 0x01, 0x02, 0x03, 0x04, 0x05, 0x06, 0x07, 0x08, 0x09, 0x0a,
                                          0x0b, 0x0c, 0x0d, 0x0e, 0x0f, 0x10, 0x11, 0x12, 0x13, 0x14, 0x15,
                                          0x16, 0x17, 0x18, 0x19, 0x1a, 0x1b, 0x1c, 0x1d, 0x1e, 0x1f};

/* There is no EXTRA_IV. */
static const uint8_t extra_iv[CATSVOMI_EXTRA_IV] = {0};

/* The number of a junction, in 12 bits. It is sent uncovered, and the tag covers it too. */
static const uint8_t junction[] = {0x02, 0xb0};
enum { JUNCTION_BITS = 12 };

/* Without the zero byte at its end. */
static const uint8_t message[] = "stage 3, green for 25 s";
enum { MESSAGE_BYTES = sizeof message - 1, MESSAGE_BITS = 8 * MESSAGE_BYTES };

/* What goes on the radio, with the count and the lengths. */
struct covered {
    uint32_t count;
    uint8_t ciphertext[MESSAGE_BYTES], tag[TAG_SIZE];
};

static void print_bytes(const char *name, const uint8_t *bytes, size_t length)
{
    printf("%-12s", name);
    for (size_t i = 0; i < length; i++)
        printf("%02x", bytes[i]);
    printf("\n");
}

static const char *layer_word(uint32_t layer)
{
    static const char *const words[] = {"none", "cover", "link", "generator", "recording", "key-text"};
    return layer < sizeof words / sizeof *words ? words[layer] : "unknown";
}

static void print_refusal(uint32_t answer, const struct catsvomi_refusal *refusal)
{
    printf("%-12s%" PRIu32 " %s %" PRIu64 "%s\n", "refused", answer, layer_word(refusal->layer), refusal->place,
           answer == CATSVOMI_REFUSED_WRONG_TAG ? " (the tag does not match)" : "");
}

/* Each message under a key has a count of its own: to cover two with one count would show their sum. */
static int cover(uint32_t count, struct covered *to)
{
    uint8_t work[CATSVOMI_WORK_AREA];
    struct catsvomi_refusal refusal;
    uint32_t answer = catsvomi_nca5_cover(key, work, sizeof work, BEARER, DIRECTION, extra_iv, count, TAG_SIZE,
                                          JUNCTION_BITS, junction, sizeof junction, MESSAGE_BITS, message, MESSAGE_BYTES,
                                          to->ciphertext, sizeof to->ciphertext, to->tag, sizeof to->tag, &refusal);
    to->count = count;
    if (answer != CATSVOMI_ACCEPTED)
        print_refusal(answer, &refusal);
    return answer == CATSVOMI_ACCEPTED;
}

/* Writes the message only where the tag is right; answers the number of the refusal else. */
static uint32_t open_covered(const struct covered *from, uint8_t opened[MESSAGE_BYTES])
{
    uint8_t work[CATSVOMI_WORK_AREA];
    struct catsvomi_refusal refusal;
    uint32_t answer = catsvomi_nca5_open(key, work, sizeof work, BEARER, DIRECTION, extra_iv, from->count, TAG_SIZE,
                                         JUNCTION_BITS, junction, sizeof junction, MESSAGE_BITS, from->ciphertext,
                                         sizeof from->ciphertext, from->tag, sizeof from->tag, opened, MESSAGE_BYTES, &refusal);
    if (answer != CATSVOMI_ACCEPTED)
        print_refusal(answer, &refusal);
    return answer;
}

static int opens_to_the_same(const struct covered *from)
{
    uint8_t opened[MESSAGE_BYTES];
    if (open_covered(from, opened) != CATSVOMI_ACCEPTED)
        return 0;
    printf("%-12s%.*s\n", "opened", (int)sizeof opened, (const char *)opened);
    return memcmp(opened, message, sizeof opened) == 0;
}

/* One bit of the ciphertext is turned on its way. The buffer for the message stays as it was. */
static int damaged_is_refused(const struct covered *from)
{
    struct covered damaged = *from;
    uint8_t opened[MESSAGE_BYTES] = {0}, zeros[MESSAGE_BYTES] = {0};
    damaged.ciphertext[6] ^= 0x04;
    print_bytes("damaged", damaged.ciphertext, sizeof damaged.ciphertext);
    return open_covered(&damaged, opened) == CATSVOMI_REFUSED_WRONG_TAG && memcmp(opened, zeros, sizeof opened) == 0;
}

int main(void)
{
    struct covered covered;
    if (!cover(1, &covered))
        return EXIT_FAILURE;
    print_bytes("junction", junction, sizeof junction);
    printf("%-12s%s\n", "message", (const char *)message);
    print_bytes("ciphertext", covered.ciphertext, sizeof covered.ciphertext);
    print_bytes("tag", covered.tag, sizeof covered.tag);
    if (!opens_to_the_same(&covered) || !damaged_is_refused(&covered))
        return EXIT_FAILURE;
    return fflush(stdout) == 0 ? EXIT_SUCCESS : EXIT_FAILURE;
}
