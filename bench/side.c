/* Measures NEA5 and NCA5 side by side with AES-256 in counter mode and AES-256-GCM, of OpenSSL and of BearSSL, and prints tables.
 *
 * OpenSSL is measured twice: as it is, and held to fewer of the processor's instructions by the variable OPENSSL_ia32cap, which
 * it reads as it starts. So the second runs in a child, this program with the word `held`, which is told each round by a pipe.
 *
 * The parties take their rounds turn about and on one processor, so that a slow time of the machine meets all of them, and a
 * ratio is that of two rounds that stood side by side. */
#define _GNU_SOURCE
#include <inttypes.h>
#include <openssl/crypto.h>
#include <sched.h>
#include <stdio.h>
#include <stdlib.h>
#include <string.h>
#include <unistd.h>
#include "party.h"
#include "plain.h"

/* Takes away bit 57, AES, and bit 33, PCLMULQDQ; and, since no mask of the later features follows, AVX2 and all of those. */
#define HELD "~0x200000200000000"

/* So long, in nanoseconds, a round takes at least; no round takes more than about twice as long. */
static const double SIDE_ROUND = 1e6;

enum { SIDE_ROUNDS = 201, COMPARED = 300, LONGEST_COMPARED = 400 };

enum { OURS, OPENSSL, OPENSSL_HELD, BEARSSL, PARTIES };

enum { ENCRYPT, COVER, OPEN, TASKS };

static const char *const tasks[TASKS] = {"NEA5 / AES-256-CTR", "NCA5 / AES-256-GCM, covering", "NCA5 / AES-256-GCM, opening"};

enum { LENGTHS = 4 };

static const size_t lengths[LENGTHS] = {16, 160, 1400, LONGEST};

uint8_t key[32], aad[AAD], message[LONGEST], ciphertext[LONGEST], tag[TAG], opened[LONGEST];
size_t length;
uint32_t count;

/* The ends of the pipes to the child and from it. */
static int to_child, from_child;

/* What a party does so many times, and what the child is told. */
struct round {
    uint32_t task, length, times;
};

/* Of a task at a length, by party: nanoseconds a message, and how many times as long ours takes. */
struct row {
    double median[PARTIES], least[PARTIES], ratio[PARTIES];
};

static _Noreturn void fail(const char *why)
{
    fprintf(stderr, "%s\n", why);
    exit(1);
}

static measured *call_of(const struct party *party, uint32_t task)
{
    return task == ENCRYPT ? party->encrypt : task == COVER ? party->cover : party->open;
}

/* Has OpenSSL and BearSSL do the same under one count. */
static void compare_calls(uint32_t task)
{
    uint8_t kept[LONGEST], kept_tag[TAG];
    uint32_t before = count;
    call_of(&openssl, task)(1);
    memcpy(kept, ciphertext, length);
    memcpy(kept_tag, tag, TAG);
    count = before;
    memset(ciphertext, 0, length);
    call_of(&bearssl, task)(1);
    if (memcmp(kept, ciphertext, length) != 0 || memcmp(kept_tag, tag, TAG) != 0)
        differ("what OpenSSL and BearSSL make of a message");
}

/* Has a party open what was covered, and then refuse it with another tag. */
static void compare_opening(const struct party *party)
{
    party->open(1);
    if (memcmp(opened, message, length) != 0)
        differ("a message and what is opened");
    tag[rand() % TAG] ^= 1 << rand() % 8;
    party->open(1);
    if (memcmp(opened, message, length) == 0)
        fail("a message is opened with another tag");
}

/* Each opens what the other covered. That ours does as it should is compared with plain code, in cover.c. */
static void compare(size_t bytes)
{
    length = bytes;
    fill(message, length);
    /* so that it differs from what is wiped */
    message[0] |= 1;
    fill(aad, sizeof aad);
    compare_calls(ENCRYPT);
    compare_calls(COVER);
    compare_opening(&openssl);
    openssl.cover(1);
    compare_opening(&bearssl);
    ours.cover(1);
    compare_opening(&ours);
}

static void set_up(void)
{
    srand(1);
    fill(key, sizeof key);
    ours.set_key();
    openssl.set_key();
    bearssl.set_key();
    for (int turn = 0; turn < COMPARED; turn++)
        compare(1 + (size_t)rand() % LONGEST_COMPARED);
    for (int i = 0; i < LENGTHS; i++)
        compare(lengths[i]);
    fill(message, sizeof message);
}

/* The nanoseconds that a round takes in this process. */
static double run_round(const struct party *party, struct round of)
{
    measured *run = call_of(party, of.task);
    length = of.length;
    if (of.task == OPEN)
        party->cover(1);
    memset(opened, 0, length);
    run(1);
    double started = nanoseconds();
    run(of.times);
    double taken = nanoseconds() - started;
    /* a refusal would take less time */
    if (of.task == OPEN && memcmp(opened, message, length) != 0)
        differ("a message that was measured and what is opened");
    return taken;
}

/* Whether OpenSSL would use the processor's instructions for AES and for products. */
static int uses_instructions(void)
{
    uint64_t features = 0;
    sscanf(OPENSSL_info(OPENSSL_INFO_CPU_SETTINGS), "OPENSSL_ia32cap=%" SCNx64, &features);
    return (features >> 57 & 1) && (features >> 33 & 1);
}

/* What the child does: rounds, as it is told. */
static void serve(void)
{
    struct round of;
    if (uses_instructions())
        fail("OpenSSL does not heed OPENSSL_ia32cap");
    while (read(STDIN_FILENO, &of, sizeof of) == sizeof of) {
        double taken = run_round(&openssl, of);
        if (write(STDOUT_FILENO, &taken, sizeof taken) != sizeof taken)
            fail("the child cannot answer");
    }
}

static void become_child(int told[2], int answered[2])
{
    dup2(told[0], STDIN_FILENO);
    dup2(answered[1], STDOUT_FILENO);
    close(told[1]);
    close(answered[0]);
    setenv("OPENSSL_ia32cap", HELD, 1);
    execl("/proc/self/exe", "side", "held", (char *)NULL);
    fail("the child does not start");
}

static void start_child(void)
{
    int told[2], answered[2];
    pid_t child = pipe(told) != 0 || pipe(answered) != 0 ? -1 : fork();
    if (child < 0)
        fail("the child does not start");
    if (child == 0)
        become_child(told, answered);
    close(told[0]);
    close(answered[1]);
    to_child = told[1];
    from_child = answered[0];
}

static double ask_child(struct round of)
{
    double taken;
    if (write(to_child, &of, sizeof of) != sizeof of || read(from_child, &taken, sizeof taken) != sizeof taken)
        fail("the child does not answer");
    return taken;
}

static double time_of(int party, struct round of)
{
    switch (party) {
    case OURS:
        return run_round(&ours, of);
    case OPENSSL:
        return run_round(&openssl, of);
    case OPENSSL_HELD:
        return ask_child(of);
    default:
        return run_round(&bearssl, of);
    }
}

static uint32_t times_a_round(int party, struct round of)
{
    of.times = 1;
    while (time_of(party, of) < SIDE_ROUND)
        of.times *= 2;
    return of.times;
}

static struct row measure_row(uint32_t task, size_t bytes)
{
    static double taken[PARTIES][SIDE_ROUNDS], ratios[PARTIES][SIDE_ROUNDS];
    struct round rounds[PARTIES];
    struct row row;
    for (int party = 0; party < PARTIES; party++) {
        rounds[party] = (struct round){task, (uint32_t)bytes, 1};
        rounds[party].times = times_a_round(party, rounds[party]);
    }
    for (int round = 0; round < SIDE_ROUNDS; round++)
        for (int party = 0; party < PARTIES; party++) {
            taken[party][round] = time_of(party, rounds[party]) / rounds[party].times;
            ratios[party][round] = taken[OURS][round] / taken[party][round];
        }
    for (int party = 0; party < PARTIES; party++) {
        row.median[party] = median(taken[party], SIDE_ROUNDS);
        row.least[party] = taken[party][0];
        row.ratio[party] = median(ratios[party], SIDE_ROUNDS);
    }
    return row;
}

static void print_ratios(struct row rows[TASKS][LENGTHS])
{
    printf("| our time / theirs | bytes | OpenSSL | OpenSSL, held | BearSSL |\n|---|---|---|---|---|\n");
    for (int task = 0; task < TASKS; task++)
        for (int i = 0; i < LENGTHS; i++) {
            printf("| %s | %zu |", tasks[task], lengths[i]);
            for (int party = OPENSSL; party < PARTIES; party++)
                printf(" %.2f |", rows[task][i].ratio[party]);
            printf("\n");
        }
}

static void print_times(struct row rows[TASKS][LENGTHS])
{
    printf("| ns a byte | bytes | ours | OpenSSL | OpenSSL, held | BearSSL |\n|---|---|---|---|---|---|\n");
    for (int task = 0; task < TASKS; task++)
        for (int i = 0; i < LENGTHS; i++) {
            double bytes = (double)lengths[i];
            printf("| %s | %zu |", tasks[task], lengths[i]);
            for (int party = OURS; party < PARTIES; party++)
                printf(" %.2f (%.2f) |", rows[task][i].median[party] / bytes, rows[task][i].least[party] / bytes);
            printf("\n");
        }
}

/* The largest part of a ratio by which it differs from the ratio of the least times. */
static double spread(struct row rows[TASKS][LENGTHS])
{
    double largest = 0;
    for (int task = 0; task < TASKS; task++)
        for (int i = 0; i < LENGTHS; i++)
            for (int party = OPENSSL; party < PARTIES; party++) {
                struct row *row = &rows[task][i];
                double of = row->least[OURS] / row->least[party] / row->ratio[party] - 1;
                largest = of > largest ? of : -of > largest ? -of : largest;
            }
    return largest;
}

static void stay_on_one_processor(void)
{
    cpu_set_t one;
    CPU_ZERO(&one);
    CPU_SET(sched_getcpu(), &one);
    if (sched_setaffinity(0, sizeof one, &one) != 0)
        fail("the processor cannot be chosen");
}

static void measure_all(void)
{
    static struct row rows[TASKS][LENGTHS];
    stay_on_one_processor();
    start_child();
    warm_up(ours.cover, 1);
    for (int task = 0; task < TASKS; task++)
        for (int i = 0; i < LENGTHS; i++)
            rows[task][i] = measure_row((uint32_t)task, lengths[i]);
    print_ratios(rows);
    printf("\nEach is the median of %d rounds. The ratios of the least times differ from these by less than %d %%.\n", SIDE_ROUNDS,
           (int)(100 * spread(rows)) + 1);
    printf("The times, with the least in brackets:\n\n");
    print_times(rows);
    if (!uses_instructions())
        printf("\nThis processor lacks the instructions that OpenSSL was held from: its two columns are of the same code.\n");
}

int main(int words, char **word)
{
    if (words == 2 && strcmp(word[1], "version") == 0) {
        puts(OpenSSL_version(OPENSSL_VERSION));
        return 0;
    }
    set_up();
    if (words == 2 && strcmp(word[1], "held") == 0)
        serve();
    else
        measure_all();
    return 0;
}
