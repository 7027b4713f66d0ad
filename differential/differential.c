/* Makes random calls of the library and compares each with the reference: the answer, the layer and the place, every output, the
 * inputs, the work area, and guard bytes about each of them. Stops at the first difference, and prints all that went into the call.
 *
 *   differential SEED CALLS [FIRST]    the trials FIRST (else 0) to FIRST + CALLS - 1 of a seed
 *   differential secrets SEED CALLS    for valgrind: the same, but for those that open; key, AAD and text are secret
 *   differential longest SEED          one call of each function, of 2^32 - 1 bits; takes 3 GB
 *
 * Under valgrind's memcheck the guard bytes may not be read either, no branch and no address may depend on what an output or the
 * work area held before the call, and what the call has written must come from its inputs. No branch and no address may depend on a
 * secret. Opening goes by whether the tag matches, so that nothing is secret there. */
#include "arguments.h"
#include "reference.h"
#include "trial.h"
#include <inttypes.h>
#include <stdio.h>
#include <stdlib.h>
#include <string.h>
#include <valgrind/memcheck.h>

static const char *const names[FUNCTIONS] = {"catsvomi_nea5", "catsvomi_nia5", "catsvomi_nca5_cover", "catsvomi_nca5_open"};

/* The numbers that a call may answer, and a column for each in the account. */
static const unsigned numbers[] = {0, 1, 2, 3, 4, 5, 6, 10, 13, 14};
enum { NUMBERS = sizeof numbers / sizeof *numbers };

/* Which of them each function can answer over AES. */
static const int answered[FUNCTIONS][NUMBERS] = {
    [NEA5] = {1, 1, 1, 0, 1, 1, 1, 0, 0, 0},
    [NIA5] = {1, 1, 1, 1, 1, 1, 1, 0, 0, 0},
    [NCA5_COVER] = {1, 1, 1, 1, 0, 1, 1, 0, 0, 0},
    [NCA5_OPEN] = {1, 1, 1, 1, 0, 1, 1, 1, 0, 1},
};

/* In so many calls, each of those answers has to come up. */
enum { ENOUGH = 20000 };

static struct account {
    unsigned long answers[FUNCTIONS][NUMBERS];
    unsigned long several, none, odd, spare, above_16k;
    uint32_t longest;
} account;

/* Whether key, AAD and text are secret. */
static int secrets;

static int same_reasons(void)
{
    static const unsigned reasons[NUMBERS] = {
        CATSVOMI_ACCEPTED, CATSVOMI_REFUSED_WORK_AREA, CATSVOMI_REFUSED_BEARER_DIRECTION, CATSVOMI_REFUSED_TAG_SIZE,
        CATSVOMI_REFUSED_BIT_LENGTH, CATSVOMI_REFUSED_INPUT_BYTES, CATSVOMI_REFUSED_OUTPUT_BYTES, CATSVOMI_REFUSED_SPARE_BITS,
        CATSVOMI_REFUSED_SHORT_KEYSTREAM, CATSVOMI_REFUSED_WRONG_TAG};
    return memcmp(reasons, numbers, sizeof numbers) == 0;
}

static int same_layers(void)
{
    static const unsigned layers[] = {CATSVOMI_LAYER_NONE, CATSVOMI_LAYER_COVER, CATSVOMI_LAYER_LINK, CATSVOMI_LAYER_GENERATOR,
                                      CATSVOMI_LAYER_RECORDING, CATSVOMI_LAYER_KEY_TEXT};
    for (unsigned i = 0; i < sizeof layers / sizeof *layers; i++)
        if (layers[i] != i)
            return 0;
    return 1;
}

static int same_sizes(void)
{
    for (uint32_t bits = 0; bits < 300; bits++)
        if (catsvomi_bytes(bits) != reference_filled(bits) || catsvomi_bytes(0 - bits) != reference_filled(0 - bits))
            return 0;
    return CATSVOMI_KEY == 32 && CATSVOMI_WORK_AREA == 64 && CATSVOMI_EXTRA_IV == 6 && CATSVOMI_LEAST_TAG == 4
           && CATSVOMI_MOST_TAG == 16;
}

/* Whether the header's numbers and sizes are those of the rules. No call would show it. */
static int same_header(void)
{
    int same = same_reasons() && same_layers() && same_sizes();
    if (!same)
        printf("catsvomi.h has another number or size than the rules, or another catsvomi_bytes\n");
    return same;
}

typedef char refusal_fits[sizeof(struct catsvomi_refusal) <= 16 ? 1 : -1];

static struct arguments arguments_of(const struct trial *of)
{
    struct arguments to = {0};
    to.key = of->key.bytes;
    to.extra_iv = of->extra_iv.bytes;
    to.work = of->work.bytes;
    to.work_length = of->work.length;
    to.bearer = of->bearer;
    to.direction = of->direction;
    to.count = of->count;
    to.tag_size = of->tag_size;
    to.aad_bits = of->aad_bits;
    to.aad = of->aad.bytes;
    to.aad_length = of->aad.length;
    to.bits = of->bits;
    to.tag = of->tag.bytes;
    to.tag_length = of->tag.length;
    to.refusal = (struct catsvomi_refusal *)(void *)of->refusal.bytes;
    return to;
}

/* `text` and `out` have names of their own in each function. */
static uint32_t call(const struct trial *of)
{
    struct arguments with = arguments_of(of);
    const struct piece *text = &of->text, *out = &of->out;
    switch (of->function) {
    case NEA5:
        with.input = text->bytes, with.input_length = text->length;
        with.output = out->bytes, with.output_length = out->length;
        return call_nea5(&with);
    case NIA5:
        with.text = text->bytes, with.text_length = text->length;
        return call_nia5(&with);
    case NCA5_COVER:
        with.message = text->bytes, with.message_length = text->length;
        with.ciphertext = out->bytes, with.ciphertext_length = out->length;
        return call_nca5_cover(&with);
    default:
        with.ciphertext = text->bytes, with.ciphertext_length = text->length;
        with.message = out->bytes, with.message_length = out->length;
        return call_nca5_open(&with);
    }
}

enum kind { INPUT, SECRET_INPUT, OUTPUT };

/* A piece, what it is called, and what it is to the call. */
struct named {
    const char *name;
    struct piece *piece;
    enum kind kind;
};

enum { PIECES = 8 };

static void pieces_of(struct trial *of, struct named named[PIECES])
{
    enum kind tag = of->function == NCA5_OPEN ? INPUT : OUTPUT;
    named[0] = (struct named){"key", &of->key, SECRET_INPUT};
    named[1] = (struct named){"extra_iv", &of->extra_iv, INPUT};
    named[2] = (struct named){"aad", &of->aad, SECRET_INPUT};
    named[3] = (struct named){"text", &of->text, SECRET_INPUT};
    named[4] = (struct named){"tag", &of->tag, tag};
    named[5] = (struct named){"out", &of->out, OUTPUT};
    named[6] = (struct named){"work", &of->work, OUTPUT};
    named[7] = (struct named){"refusal", &of->refusal, OUTPUT};
}

/* For valgrind: the guard bytes are out of bounds, and what is to be written holds nothing yet. To valgrind a secret is the same
 * as what holds nothing: it tells of every branch and address that depends on it. */
static void close_guards(const struct named *of)
{
    struct piece *piece = of->piece;
    (void)VALGRIND_MAKE_MEM_NOACCESS(piece->whole, piece->front);
    (void)VALGRIND_MAKE_MEM_NOACCESS(piece->bytes + piece->length, GUARD);
    if (of->kind == OUTPUT || (secrets && of->kind == SECRET_INPUT))
        (void)VALGRIND_MAKE_MEM_UNDEFINED(piece->bytes, piece->length);
}

static void open_guards(const struct named *of)
{
    struct piece *piece = of->piece;
    (void)VALGRIND_MAKE_MEM_DEFINED(piece->whole, piece->front + piece->length + GUARD);
}

/* Whether valgrind knows of a byte that was not written, or not from the inputs. */
static int unwritten(const void *bytes, size_t length)
{
    return VALGRIND_CHECK_MEM_IS_DEFINED(bytes, length) != 0;
}

static void print_bytes(const char *name, const uint8_t *bytes, size_t length)
{
    printf("  %s (%zu bytes) ", name, length);
    for (size_t i = 0; i < length; i++)
        printf("%02x", bytes[i]);
    printf("\n");
}

static void print_trial(const struct trial *of)
{
    printf("  bearer %u, direction %u, count %" PRIu32 ", tag_size %u, aad_bits %" PRIu32 ", bits %" PRIu32 "\n", of->bearer,
           of->direction, of->count, of->tag_size, of->aad_bits, of->bits);
    printf("  work_length %zu, tag_length %zu, length of out %zu\n", of->work.length, of->tag.length, of->out.length);
    print_bytes("key", of->key.wanted, of->key.length);
    print_bytes("extra_iv", of->extra_iv.wanted, of->extra_iv.length);
    print_bytes("aad", of->aad.wanted, of->aad.length);
    print_bytes("text", of->text.wanted, of->text.length);
    if (of->function == NCA5_OPEN)
        print_bytes("tag", of->tag.wanted, of->tag.length);
}

/* A difference, and where it was met. */
struct place {
    const char *trial;
    const struct trial *of;
};

static void differ(const struct place *at, const char *what)
{
    printf("%s, %s: %s\n", at->trial, names[at->of->function], what);
    print_trial(at->of);
}

static void differ_bytes(const struct place *at, const struct named *named)
{
    char what[64];
    snprintf(what, sizeof what, "%s holds other bytes than it should", named->name);
    differ(at, what);
    print_bytes("it holds", named->piece->bytes, named->piece->length);
    print_bytes("it should hold", named->piece->wanted, named->piece->length);
}

static int same_answer(const struct place *at, uint32_t answer)
{
    const struct trial *of = at->of;
    struct catsvomi_refusal refusal;
    char what[128];
    uint32_t layer = of->answer == 0 ? CATSVOMI_LAYER_NONE : CATSVOMI_LAYER_COVER;
    memcpy(&refusal, of->refusal.bytes, sizeof refusal);
    if (answer == of->answer && refusal.layer == layer && refusal.place == 0)
        return 1;
    snprintf(what, sizeof what, "answer %" PRIu32 ", layer %" PRIu32 ", place %" PRIu64 ", and not %u, %" PRIu32 ", 0", answer,
             refusal.layer, refusal.place, of->answer, layer);
    differ(at, what);
    return 0;
}

/* Asks valgrind. What comes from secrets counts as secret itself. */
static int all_written(const struct place *at, uint32_t answer)
{
    const struct trial *of = at->of;
    const struct catsvomi_refusal *refusal = (const void *)of->refusal.bytes;
    int missing = unwritten(&answer, sizeof answer) || unwritten(&refusal->layer, sizeof refusal->layer)
                  || unwritten(&refusal->place, sizeof refusal->place) || unwritten(of->work.bytes, of->work.length);
    if (of->answer == 0 && !secrets) {
        missing |= of->function != NEA5 && unwritten(of->tag.bytes, of->tag.length);
        missing |= of->function != NIA5 && unwritten(of->out.bytes, of->out.length);
    }
    return !missing;
}

static int same_pieces(const struct place *at, const struct named named[PIECES])
{
    for (int i = 0; i < PIECES; i++) {
        const struct piece *piece = named[i].piece;
        if (piece != &at->of->refusal && memcmp(piece->bytes, piece->wanted, piece->length) != 0) {
            differ_bytes(at, &named[i]);
            return 0;
        }
        if (!guarded(piece)) {
            differ(at, "a byte beside a buffer was written");
            printf("  the buffer is %s\n", named[i].name);
            return 0;
        }
    }
    return 1;
}

static int same(const char *trial, struct trial *of)
{
    struct named named[PIECES];
    struct place at = {trial, of};
    pieces_of(of, named);
    for (int i = 0; i < PIECES; i++)
        close_guards(&named[i]);
    uint32_t answer = call(of);
    int written = all_written(&at, answer);
    for (int i = 0; i < PIECES; i++)
        open_guards(&named[i]);
    if (!written)
        differ(&at, "not all bytes were written from the inputs");
    return written && same_answer(&at, answer) && same_pieces(&at, named);
}

static int spare_set(const struct trial *of)
{
    uint32_t left = of->bits % 8;
    return of->answer == 0 && left > 0 && (of->text.wanted[of->text.length - 1] & 0xFF >> left) != 0;
}

static void count(const struct trial *of)
{
    for (int i = 0; i < NUMBERS; i++)
        account.answers[of->function][i] += numbers[i] == of->answer;
    account.several += of->faults > 1;
    account.spare += spare_set(of);
    if (of->answer != 0)
        return;
    account.none += of->bits == 0;
    account.odd += of->bits % 8 != 0;
    account.above_16k += of->bits > 8 * 16384;
    if (of->bits > account.longest)
        account.longest = of->bits;
}

static void print_account(void)
{
    printf("| function | calls | accepted |");
    for (int i = 1; i < NUMBERS; i++)
        printf(" %u |", numbers[i]);
    printf("\n|---|---|---|");
    for (int i = 1; i < NUMBERS; i++)
        printf("---|");
    printf("\n");
    for (int function = 0; function < FUNCTIONS; function++) {
        unsigned long calls = 0;
        for (int i = 0; i < NUMBERS; i++)
            calls += account.answers[function][i];
        printf("| %s | %lu |", names[function], calls);
        for (int i = 0; i < NUMBERS; i++)
            printf(" %lu |", account.answers[function][i]);
        printf("\n");
    }
    printf("calls with several faults: %lu\n", account.several);
    printf("accepted: %lu of no bits, %lu of bits that leave spare ones, %lu with some of those set, %lu of more than 16 KiB; the "
           "longest of %" PRIu32 " bits\n",
           account.none, account.odd, account.spare, account.above_16k, account.longest);
}

/* Whether each function gave each answer that it can give. */
static int all_met(void)
{
    for (int function = 0; function < FUNCTIONS; function++)
        for (int i = 0; i < NUMBERS; i++)
            if (answered[function][i] != (account.answers[function][i] > 0)) {
                printf("%s: %s %u\n", names[function], answered[function][i] ? "never answered" : "answered", numbers[i]);
                return 0;
            }
    return 1;
}

static int run(uint64_t seed, uint64_t calls, uint64_t first)
{
    for (uint64_t index = first; index < first + calls; index++) {
        struct trial trial;
        char name[80];
        snprintf(name, sizeof name, "trial %" PRIu64 " of seed %" PRIu64, index, seed);
        make_trial(&trial, seed, index);
        if (!secrets || trial.function != NCA5_OPEN) {
            if (!same(name, &trial))
                return 1;
            count(&trial);
        }
        free_trial(&trial);
    }
    print_account();
    return !secrets && calls >= ENOUGH && !all_met();
}

static int run_longest(uint64_t seed)
{
    for (int function = 0; function < FUNCTIONS; function++) {
        struct trial trial;
        make_trial_of(&trial, seed, (enum function)function, UINT32_MAX);
        if (!same("the longest", &trial))
            return 1;
        count(&trial);
        free_trial(&trial);
    }
    print_account();
    return 0;
}

static uint64_t number_of(const char *word)
{
    char *end;
    uint64_t number = strtoull(word, &end, 10);
    if (*word == '\0' || *end != '\0') {
        fprintf(stderr, "%s is no number\n", word);
        exit(2);
    }
    return number;
}

int main(int words, char **word)
{
    int status = 2;
    if (!same_header())
        return 1;
    reference_begin();
    if (words == 3 && strcmp(word[1], "longest") == 0)
        status = run_longest(number_of(word[2]));
    else if (words == 4 && strcmp(word[1], "secrets") == 0) {
        secrets = 1;
        status = run(number_of(word[2]), number_of(word[3]), 0);
    } else if (words == 3 || words == 4)
        status = run(number_of(word[1]), number_of(word[2]), words == 4 ? number_of(word[3]) : 0);
    else
        fprintf(stderr, "differential SEED CALLS [FIRST], differential secrets SEED CALLS or differential longest SEED\n");
    reference_end();
    return status;
}
