#include "trial.h"
#include "reference.h"
#include <stdio.h>
#include <stdlib.h>
#include <string.h>

/* Some trials have texts of up to so many bits: short ones, those of the longest frame, of 16 KiB and of 1 MiB. */
enum { SHORT = 1024, FRAME = 11200, LONG = 8 * 16384, LONGEST = 8 * 1048576 };

enum { GUARD_BYTE = 0xA5, REFUSAL_SIZE = 16 };

/* splitmix64 */
static uint64_t state;

static uint64_t draw(void)
{
    uint64_t z = state += 0x9E3779B97F4A7C15;
    z = (z ^ z >> 30) * 0xBF58476D1CE4E5B9;
    z = (z ^ z >> 27) * 0x94D049BB133111EB;
    return z ^ z >> 31;
}

static uint32_t below(uint32_t limit)
{
    return (uint32_t)(draw() >> 32) % limit;
}

static void fill(uint8_t *bytes, size_t length)
{
    uint64_t word = 0;
    for (size_t i = 0; i < length; i++) {
        word = i % 8 == 0 ? draw() : word >> 8;
        bytes[i] = (uint8_t)word;
    }
}

static void *some_memory(size_t length)
{
    void *found = malloc(length > 0 ? length : 1);
    if (found == NULL) {
        fprintf(stderr, "no memory\n");
        exit(2);
    }
    return found;
}

/* What is there at first is random. The bytes begin anywhere, but where `aligned`. */
static struct piece make_piece(size_t length, int aligned)
{
    struct piece made = {.front = aligned ? GUARD : GUARD + below(16), .length = length};
    made.whole = some_memory(made.front + length + GUARD);
    made.wanted = some_memory(length);
    made.bytes = made.whole + made.front;
    memset(made.whole, GUARD_BYTE, made.front);
    fill(made.bytes, length);
    memset(made.bytes + length, GUARD_BYTE, GUARD);
    return made;
}

static void free_piece(struct piece *of)
{
    free(of->whole);
    free(of->wanted);
}

int guarded(const struct piece *of)
{
    for (size_t i = 0; i < of->front; i++)
        if (of->whole[i] != GUARD_BYTE)
            return 0;
    for (size_t i = 0; i < GUARD; i++)
        if (of->bytes[of->length + i] != GUARD_BYTE)
            return 0;
    return 1;
}

/* How many bytes each piece has. */
struct sizes {
    size_t work, aad, text, tag, out;
};

static struct sizes right_sizes(const struct trial *of)
{
    size_t filled = reference_filled(of->bits);
    return (struct sizes){64, reference_filled(of->aad_bits), filled, of->tag_size, filled};
}

/* What a trial would hold if nothing were wrong with it. */
struct contents {
    uint8_t key[32], extra_iv[6], tag[16], *aad, *text;
};

static uint32_t some_length(void)
{
    uint32_t kind = below(2000);
    if (kind == 0)
        return below(LONGEST + 1);
    if (kind < 250)
        return below(LONG + 1);
    if (kind < 700)
        return below(FRAME + 1);
    return below(SHORT + 1);
}

/* Often none, or a multiple of 8 or of 128, or one more or less than that. */
static uint32_t some_bits(void)
{
    uint32_t bits = some_length();
    switch (below(8)) {
    case 0:
        return 0;
    case 1:
        return bits / 8 * 8;
    case 2:
        return bits / 128 * 128;
    case 3:
        return bits / 128 * 128 + 127 + below(3);
    default:
        return bits;
    }
}

static void choose_terms(struct trial *of)
{
    of->bearer = (uint8_t)below(32);
    of->direction = (uint8_t)below(2);
    of->tag_size = (uint8_t)(4 + below(13));
    of->count = below(8) == 0 ? below(2) - 1 : (uint32_t)draw();
}

static void choose_contents(const struct trial *of, struct contents *chosen)
{
    struct sizes right = right_sizes(of);
    fill(chosen->key, sizeof chosen->key);
    if (below(4) == 0)
        memset(chosen->extra_iv, 0, sizeof chosen->extra_iv);
    else
        fill(chosen->extra_iv, sizeof chosen->extra_iv);
    chosen->aad = some_memory(right.aad);
    chosen->text = some_memory(right.text);
    fill(chosen->aad, right.aad);
    fill(chosen->text, right.text);
    fill(chosen->tag, sizeof chosen->tag);
}

static struct terms terms_of(const struct trial *of, const uint8_t *key, const uint8_t *extra_iv)
{
    return (struct terms){key, of->bearer, of->direction, of->tag_size, extra_iv, of->count};
}

/* Makes of the text its ciphertext and of the tag the right one, as opening needs them. */
static void cover_contents(const struct trial *of, struct contents *chosen)
{
    struct sizes right = right_sizes(of);
    struct terms terms = terms_of(of, chosen->key, chosen->extra_iv);
    uint8_t *ciphertext = some_memory(right.text);
    unsigned answer = reference_nca5_cover(&terms, 64, (struct string){of->aad_bits, chosen->aad, right.aad},
                                           (struct string){of->bits, chosen->text, right.text},
                                           (struct buffer){ciphertext, right.text}, (struct buffer){chosen->tag, right.tag});
    if (answer != 0) {
        fprintf(stderr, "the reference covers no message\n");
        exit(2);
    }
    free(chosen->text);
    chosen->text = ciphertext;
}

/* What can be wrong with a call. */
enum fault {
    WORK_SIZE, BEARER, DIRECTION, TAG_RANGE, NO_BITS, OTHER_BITS, OTHER_AAD_BITS, AAD_SIZE, TEXT_SIZE, TAG_SIZE, OUT_SIZE,
    /* of opening alone */
    SPARE_BITS, AAD_BIT, TEXT_BIT, TAG_BIT, OTHER_TAG, OTHER_LINE, OTHER_COUNT, OTHER_KEY, OTHER_EXTRA_IV, SHORTER_TAG,
    FAULTS
};

static const enum fault of_nea5[] = {WORK_SIZE, BEARER, DIRECTION, NO_BITS, OTHER_BITS, TEXT_SIZE, OUT_SIZE};
static const enum fault of_nia5[] = {WORK_SIZE, BEARER, DIRECTION, TAG_RANGE, NO_BITS, OTHER_BITS, TEXT_SIZE, TAG_SIZE};
static const enum fault of_cover[] = {WORK_SIZE, BEARER,   DIRECTION, TAG_RANGE, OTHER_BITS, OTHER_AAD_BITS,
                                      AAD_SIZE,  TEXT_SIZE, TAG_SIZE,  OUT_SIZE};

static enum fault some_fault(enum function function)
{
    switch (function) {
    case NEA5:
        return of_nea5[below(sizeof of_nea5 / sizeof *of_nea5)];
    case NIA5:
        return of_nia5[below(sizeof of_nia5 / sizeof *of_nia5)];
    case NCA5_COVER:
        return of_cover[below(sizeof of_cover / sizeof *of_cover)];
    default:
        return (enum fault)below(FAULTS);
    }
}

/* None, one more or less, half, or anything up to 40 more. */
static size_t other_size(size_t right)
{
    switch (below(5)) {
    case 0:
        return 0;
    case 1:
        return right + 1;
    case 2:
        return right > 0 ? right - 1 : 1;
    case 3:
        return right / 2;
    default:
        return right + below(41);
    }
}

/* A little more or less, anything, or the greatest. */
static uint32_t other_bits(uint32_t bits)
{
    switch (below(3)) {
    case 0:
        return bits + below(17) - 8;
    case 1:
        return (uint32_t)draw();
    default:
        return 0 - (1 + below(8));
    }
}

static void other_tag_range(struct trial *of, struct sizes *sizes)
{
    of->tag_size = (uint8_t)(below(2) == 0 ? below(4) : 17 + below(239));
    if (below(2) == 0)
        sizes->tag = of->tag_size;
}

static void no_bits(struct trial *of, struct sizes *sizes)
{
    of->bits = 0;
    if (below(2) == 0)
        sizes->text = sizes->out = 0;
}

/* Faults in what the call is told. */
static void mistell(struct trial *of, struct sizes *sizes, enum fault fault)
{
    switch (fault) {
    case WORK_SIZE: sizes->work = other_size(64); break;
    case BEARER: of->bearer = (uint8_t)(32 + below(224)); break;
    case DIRECTION: of->direction = (uint8_t)(2 + below(254)); break;
    case TAG_RANGE: other_tag_range(of, sizes); break;
    case NO_BITS: no_bits(of, sizes); break;
    case OTHER_BITS: of->bits = other_bits(of->bits); break;
    case OTHER_AAD_BITS: of->aad_bits = other_bits(of->aad_bits); break;
    case AAD_SIZE: sizes->aad = other_size(sizes->aad); break;
    case TEXT_SIZE: sizes->text = other_size(sizes->text); break;
    case TAG_SIZE: sizes->tag = other_size(sizes->tag); break;
    case OUT_SIZE: sizes->out = other_size(sizes->out); break;
    case OTHER_LINE: of->bearer ^= (uint8_t)(1 << below(5)); break;
    case OTHER_COUNT: of->count ^= (uint32_t)1 << below(32); break;
    case SHORTER_TAG: sizes->tag = of->tag_size = (uint8_t)(4 + below(13)); break;
    default: break;
    }
}

static void turn_bit(struct piece *of)
{
    if (of->length > 0)
        of->bytes[draw() % of->length] ^= (uint8_t)(1 << below(8));
}

/* The last byte gets other bits past the length. */
static void turn_spare_bits(struct piece *of, uint32_t bits)
{
    if (of->length > 0 && bits % 8 > 0)
        of->bytes[of->length - 1] ^= (uint8_t)(1 + below(0xFF >> bits % 8));
}

/* Faults in the bytes that the call is given. */
static void damage(struct trial *of, enum fault fault)
{
    switch (fault) {
    case SPARE_BITS: turn_spare_bits(&of->text, of->bits); break;
    case AAD_BIT: turn_bit(&of->aad); break;
    case TEXT_BIT: turn_bit(&of->text); break;
    case TAG_BIT: turn_bit(&of->tag); break;
    case OTHER_TAG: fill(of->tag.bytes, of->tag.length); break;
    case OTHER_KEY: turn_bit(&of->key); break;
    case OTHER_EXTRA_IV: turn_bit(&of->extra_iv); break;
    default: break;
    }
}

static void copy_start(struct piece *to, const uint8_t *from, size_t length)
{
    memcpy(to->bytes, from, to->length < length ? to->length : length);
}

static void make_pieces(struct trial *of, const struct sizes *sizes, const struct sizes *right, const struct contents *chosen)
{
    of->key = make_piece(sizeof chosen->key, 0);
    of->extra_iv = make_piece(sizeof chosen->extra_iv, 0);
    of->work = make_piece(sizes->work, 0);
    of->aad = make_piece(sizes->aad, 0);
    of->text = make_piece(sizes->text, 0);
    of->tag = make_piece(sizes->tag, 0);
    of->out = make_piece(sizes->out, 0);
    of->refusal = make_piece(REFUSAL_SIZE, 1);
    copy_start(&of->key, chosen->key, sizeof chosen->key);
    copy_start(&of->extra_iv, chosen->extra_iv, sizeof chosen->extra_iv);
    copy_start(&of->aad, chosen->aad, right->aad);
    copy_start(&of->text, chosen->text, right->text);
    copy_start(&of->tag, chosen->tag, sizeof chosen->tag);
}

/* An input stays, and so does an output of a refused call. */
static void want_as_it_is(struct piece *of)
{
    memcpy(of->wanted, of->bytes, of->length);
}

static struct string string_of(uint32_t bits, const struct piece *of)
{
    return (struct string){bits, of->bytes, of->length};
}

static struct buffer wanted_of(const struct piece *of)
{
    return (struct buffer){of->wanted, of->length};
}

static unsigned ask_reference(const struct trial *of)
{
    struct terms terms = terms_of(of, of->key.bytes, of->extra_iv.bytes);
    struct string aad = string_of(of->aad_bits, &of->aad), text = string_of(of->bits, &of->text);
    struct buffer tag = wanted_of(&of->tag), out = wanted_of(&of->out);
    switch (of->function) {
    case NEA5:
        return reference_nea5(&terms, of->work.length, text, out);
    case NIA5:
        return reference_nia5(&terms, of->work.length, text, tag);
    case NCA5_COVER:
        return reference_nca5_cover(&terms, of->work.length, aad, text, out, tag);
    default:
        return reference_nca5_open(&terms, of->work.length, aad, text, tag, out);
    }
}

static void choose_wanted(struct trial *of)
{
    struct piece *stay[] = {&of->key, &of->extra_iv, &of->aad, &of->text, &of->tag, &of->out};
    for (size_t i = 0; i < sizeof stay / sizeof *stay; i++)
        want_as_it_is(stay[i]);
    memset(of->work.wanted, 0, of->work.length);
    of->answer = ask_reference(of);
}

/* Of a trial whose function and lengths are chosen. */
static void make_rest(struct trial *of, unsigned faults)
{
    struct contents chosen;
    enum fault planted[8];
    choose_terms(of);
    struct sizes right = right_sizes(of), sizes = right;
    choose_contents(of, &chosen);
    if (of->function == NCA5_OPEN)
        cover_contents(of, &chosen);
    of->faults = faults;
    for (unsigned i = 0; i < faults; i++) {
        planted[i] = some_fault(of->function);
        mistell(of, &sizes, planted[i]);
    }
    make_pieces(of, &sizes, &right, &chosen);
    for (unsigned i = 0; i < faults; i++)
        damage(of, planted[i]);
    if (below(2) == 0)
        turn_spare_bits(&of->aad, of->aad_bits);
    choose_wanted(of);
    free(chosen.aad);
    free(chosen.text);
}

void make_trial(struct trial *of, uint64_t seed, uint64_t index)
{
    static const unsigned faults[16] = {0, 0, 0, 0, 0, 0, 0, 1, 1, 1, 1, 1, 2, 2, 3, 4};
    state = seed;
    state = draw() + index;
    of->function = (enum function)below(FUNCTIONS);
    of->bits = some_bits();
    of->aad_bits = below(4) == 0 ? some_bits() : below(SHORT / 2 + 1);
    if (of->bits == 0 && (of->function == NEA5 || of->function == NIA5))
        of->bits = 1 + below(SHORT);
    make_rest(of, faults[below(16)]);
}

void make_trial_of(struct trial *of, uint64_t seed, enum function function, uint32_t bits)
{
    state = seed;
    of->function = function;
    of->bits = bits;
    of->aad_bits = below(SHORT);
    make_rest(of, 0);
}

void free_trial(struct trial *of)
{
    struct piece *pieces[] = {&of->key, &of->extra_iv, &of->work, &of->aad, &of->text, &of->tag, &of->out, &of->refusal};
    for (size_t i = 0; i < sizeof pieces / sizeof *pieces; i++)
        free_piece(pieces[i]);
}
