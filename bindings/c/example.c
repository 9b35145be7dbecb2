/* A message is encoded by BCH and then by LDPC, noise is added, and runs give it back, each with its record. A window
   looks at the last of them. Then it is received twice, each time in part, and what was received is combined. */
#include <raxdov.h>

#include <inttypes.h>
#include <stdio.h>
#include <stdlib.h>
#include <string.h>

#define N 3740u /* 10 groups of 374 bits, */
#define ROWS 5u /* 5 of them information */
#define ADDRESSES 19u
#define K (374u * ROWS)
#define MESSAGE (K - RAXDOV_BCH_PARITY) /* the BCH word fills the information bits */
#define LANES 1u
#define WIDTH 2u /* of the window */
#define TIMES 2u /* at most RAXDOV_COMBINE_MOST */

static const uint32_t lens[ROWS] = {6, 4, 3, 3, 3};
static const uint16_t addrs[ADDRESSES] = {41,  388, 617,  904, 1276, 1730, 95,  512, 833, 1409,
                                          230, 781, 1644, 3,   1067, 1528, 356, 992, 1815};

static uint8_t message[MESSAGE], info[K], sent[N], out[N];
static float llr[N];
static int8_t soft[N];
static int8_t received[TIMES * N]; /* one word after the other, */
static const uint32_t lengths[TIMES] = {N, N}; /* of these lengths */
static uint64_t window[RAXDOV_WINDOW_COUNT]; /* zeros: empty */
static uint32_t ring[RAXDOV_WINDOW_RING * WIDTH];

/* A refusal ends the program. */
static void accepted(const char *call, uint32_t number)
{
    if (number != RAXDOV_ACCEPTED) {
        fprintf(stderr, "%s: refused by %u\n", call, (unsigned)number);
        exit(1);
    }
}

/* The same numbers on every machine. (Begun at 82, the lost word is one in which isdb-rs would leave a bit changed.) */
static uint32_t draw(uint32_t below)
{
    static uint32_t state = 82;
    state = state * UINT32_C(1664525) + UINT32_C(1013904223);
    return (state >> 8) % below;
}

/* A 0 is sent as 2 and a 1 as -2; the noise is a sum of eight draws, from -7 to 7. */
static float noisy(uint8_t bit)
{
    float value = bit ? -2.0f : 2.0f;
    int i;
    for (i = 0; i < 8; i++) {
        value += ((float)draw(15) - 7.0f) / 8.0f;
    }
    return value;
}

static void print_record(const uint32_t *record)
{
    static const char *const states[] = {"waiting", "held", "met", "unmet"};
    printf("%s, iterations %u, unsatisfied %u, BCH ", states[record[RAXDOV_RECORD_STATE]],
           (unsigned)record[RAXDOV_RECORD_ITERATIONS], (unsigned)record[RAXDOV_RECORD_UNSATISFIED]);
    if (record[RAXDOV_RECORD_BCH] == RAXDOV_LOST) {
        printf("lost");
    } else {
        printf("%u", (unsigned)record[RAXDOV_RECORD_BCH]);
    }
    printf(", changed by LDPC %u", (unsigned)record[RAXDOV_RECORD_CHANGED]);
}

/* A run of one word: what its tally counts it as. (Of each word of several its record says it: enum raxdov_tally.) */
static const char *counted_as(const uint32_t *tally)
{
    if (tally[RAXDOV_TALLY_KEPT] == 1) {
        return "kept";
    }
    if (tally[RAXDOV_TALLY_DOUBTFUL] == 1) {
        return "doubtful";
    }
    return tally[RAXDOV_TALLY_LOST] == 1 ? "lost" : "not finished";
}

/* Window and ring belong together, and are handed on from record to record. (All records here are of one message, for
   show: a window counts what it is given.) */
static void push_and_print(const uint32_t *record)
{
    accepted("window", raxdov_window_push(WIDTH, window, record, ring, sizeof ring / sizeof *ring));
    printf("  the last %" PRIu64 " finished: kept %" PRIu64 ", doubtful %" PRIu64 ", lost %" PRIu64
           "; iterations %" PRIu64 ", corrected by BCH %" PRIu64 "\n",
           window[RAXDOV_WINDOW_WORDS],
           window[RAXDOV_WINDOW_WORDS] - window[RAXDOV_WINDOW_DOUBTFUL] - window[RAXDOV_WINDOW_LOST],
           window[RAXDOV_WINDOW_DOUBTFUL], window[RAXDOV_WINDOW_LOST], window[RAXDOV_WINDOW_ITERATIONS],
           window[RAXDOV_WINDOW_CORRECTED]);
}

static void run(const int8_t *word, uint32_t limit, uint32_t rounds)
{
    uint32_t record[RAXDOV_RECORD_COUNT], tally[RAXDOV_TALLY_COUNT], ending;
    size_t needs[RAXDOV_NEEDS_COUNT];
    int8_t *work;
    uint32_t *lists;

    accepted("sizes", raxdov_run_sizes(N, lens, ROWS, addrs, ADDRESSES, LANES, needs));
    work = (int8_t *)malloc(needs[RAXDOV_NEEDS_WORK] * sizeof *work);
    lists = (uint32_t *)malloc(needs[RAXDOV_NEEDS_LISTS] * sizeof *lists);
    if (work == NULL || lists == NULL) {
        fprintf(stderr, "no memory\n");
        exit(1);
    }
    accepted("run", raxdov_run(N, lens, ROWS, addrs, ADDRESSES, word, N, LANES, limit, /* sequential */ 0, 0,
                               /* offset */ 1, rounds, /* BCH part */ 0, K, out, N, record, RAXDOV_RECORD_COUNT, tally,
                               &ending, work, needs[RAXDOV_NEEDS_WORK], lists, needs[RAXDOV_NEEDS_LISTS]));
    free(work);
    free(lists);
    printf("limit %u: %s after %u rounds: ", (unsigned)limit, ending == RAXDOV_FINISHED ? "finished" : "stopped",
           (unsigned)tally[RAXDOV_TALLY_ROUNDS]);
    print_record(record);
    printf(": %s; the message is %s\n", counted_as(tally), memcmp(out, message, MESSAGE) == 0 ? "right" : "wrong");
    push_and_print(record);
}

/* The soft values of what was sent, received with other noise each time. */
static void receive(int8_t *word)
{
    size_t i;

    for (i = 0; i < N; i++) {
        llr[i] = noisy(sent[i]);
    }
    accepted("soft values", raxdov_quantise(llr, N, /* scale */ 8.0f, word, N));
}

static unsigned wrong(const int8_t *word)
{
    unsigned count = 0;
    size_t i;

    for (i = 0; i < N; i++) {
        count += (word[i] < 0) != sent[i];
    }
    return count;
}

/* Of the first word the last half is missing, of the second the first third: zeros, which add nothing. (Where
   its bits are counted or it is run alone, a 0 is taken for a bit 0.) */
static void combine_and_run(void)
{
    receive(received);
    receive(received + N);
    memset(received + N / 2, 0, N - N / 2);
    memset(received + N, 0, N / 3);
    accepted("combine", raxdov_combine(lengths, TIMES, received, TIMES * N, soft, N));
    printf("received twice, in part: %u and %u bits wrong, combined %u\n", wrong(received), wrong(received + N),
           wrong(soft));
    run(received, 50, UINT32_MAX); /* alone each is lost */
    run(received + N, 50, UINT32_MAX);
    run(soft, 50, UINT32_MAX); /* "changed by LDPC" is of the combined word */
}

int main(void)
{
    size_t i, other = 0;

    if (raxdov_record_words() != RAXDOV_RECORD_COUNT || raxdov_tally_words() != RAXDOV_TALLY_COUNT ||
        raxdov_window_words() != RAXDOV_WINDOW_COUNT) {
        fprintf(stderr, "header and archive do not belong together\n");
        return 1;
    }
    for (i = 0; i < MESSAGE; i++) {
        message[i] = (uint8_t)draw(2);
    }
    accepted("BCH", raxdov_bch_encode(message, MESSAGE, info, K));
    accepted("LDPC", raxdov_ldpc_encode(N, lens, ROWS, addrs, ADDRESSES, info, K, sent, N));
    receive(soft);
    printf("%u bits sent, %u received wrong\n", (unsigned)N, wrong(soft));
    run(soft, 50, UINT32_MAX); /* every check is met, and BCH accepts it: the word is kept */
    run(soft, 4, UINT32_MAX);  /* checks are left, and BCH corrects the rest: right here, but the word is doubtful */
    run(soft, 0, UINT32_MAX);  /* too many are left: the word is lost, and goes out as it came to BCH */
    for (i = 0; i < N; i++) {
        other += (soft[i] < 0) != out[i];
    }
    printf("  of the lost word, %u bits are not as received\n", (unsigned)other);
    run(soft, 50, 2);          /* the round limit comes first: the word is held, and the window passes it over */
    run(soft, 50, UINT32_MAX);
    run(soft, 4, UINT32_MAX); /* the lost word leaves the window */
    combine_and_run();
    return 0;
}
