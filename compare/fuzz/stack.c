/* The stack that each function of the archive takes: the most over accepted and refused calls, each in a thread whose stack was filled
   with a pattern. Fails if raxdov_run takes more than the number of bytes given, or another function more than 16,000, as
   bindings/c/raxdov.h says. */
#include "raxdov.h"
#include <pthread.h>
#include <stdio.h>
#include <stdlib.h>
#include <string.h>
#include <sys/mman.h>

#define STACK (1 << 20)
enum { N = 1122, ROWS = 2, TOTAL = 8, WORDS = 5, LANES = 64, BCH = 65535 };

static const uint32_t lens[ROWS] = {4, 4};
static const uint16_t addrs[TOTAL] = {0, 40, 121, 300, 7, 7, 381, 65535};
static uint8_t word[BCH], out[BCH];
static uint32_t lists[8192], records[RAXDOV_RECORD_COUNT * WORDS], tally[RAXDOV_TALLY_COUNT], ending, number, five[RAXDOV_RECORD_COUNT], index_[8192];
static int8_t soft[N * WORDS], work[(N + 3 * 4000) * LANES], soft_out[64];
static float llr[64];
static size_t needs[2];
static uint64_t window[RAXDOV_WINDOW_COUNT];
static uint32_t ring[RAXDOV_WINDOW_RING * RAXDOV_WINDOW_WIDEST];

#define CODE N, lens, ROWS, addrs, TOTAL

static void run(uint32_t layered, uint32_t step, uint32_t lanes)
{
    for (size_t i = 0; i < sizeof soft; i++) soft[i] = (int8_t)(i * 7919 % 61 - 20);
    raxdov_run(CODE, soft, sizeof soft, lanes, 6, layered, step, 1, UINT32_MAX, 0, N, out, sizeof out, records, RAXDOV_RECORD_COUNT * WORDS, tally, &ending, work, sizeof work, index_, 8192);
}

static void nothing(void) {}
static void quantise(void) { raxdov_quantise(llr, 64, 2, soft_out, 64); }
static void combine(void)
{
    static const uint32_t lengths[8] = {701, 701, 701, 701, 701, 701, 701, 701};
    raxdov_combine(lengths, 8, soft, 8 * 701, work, sizeof work);
}
static void combine_refused(void) { raxdov_combine(lens, ROWS, soft, 9, work, sizeof work); }
static void sizes(void) { raxdov_ldpc_sizes(CODE, five); }
static void new(void) { raxdov_ldpc_new(CODE, lists, 8192, five); }
static void check(void) { raxdov_ldpc_check(CODE, 5, lists, 8192, &number); }
static void parity(void) { raxdov_ldpc_parity(CODE, word, 374 * ROWS, out, BCH); }
static void encode(void) { raxdov_ldpc_encode(CODE, word, 374 * ROWS, out, BCH); }
static void weight(void) { raxdov_ldpc_syndrome_weight(CODE, word, N, &number); }
static void bch_parity(void) { raxdov_bch_parity(word, BCH - 192, out, BCH); }
static void bch_encode(void) { raxdov_bch_encode(word, BCH - 192, out, BCH); }
static void bch_decode(void)
{
    memset(out, 0, BCH);
    for (int i = 0; i < 12; i++) out[i * 5000 + 3] = 1;
    raxdov_bch_decode(out, BCH, &number);
}
static void bch_lost(void)
{
    for (int i = 0; i < BCH; i++) out[i] = i * 7919 % 61 < 20;
    raxdov_bch_decode(out, BCH, &number);
}
static void record_words(void) { number = raxdov_record_words(); }
static void tally_words(void) { number = raxdov_tally_words(); }
static void run_sizes(void) { raxdov_run_sizes(CODE, LANES, needs); }
static void run_sequential(void) { run(0, 0, LANES); }
static void run_one(void) { run(0, 0, 1); }
static void run_layered(void) { run(1, 7, LANES); }
static void run_whole(void) { run(1, 374, 17); }
static void run_refused(void) { run(0, 0, 65); }
static void window_words(void) { number = raxdov_window_words(); }
static void window_push(void)
{
    static const uint32_t record[RAXDOV_RECORD_COUNT] = {RAXDOV_UNMET, 50, 3, 1, RAXDOV_LOST, 9};
    for (int i = 0; i < 2 * RAXDOV_WINDOW_WIDEST; i++) raxdov_window_push(RAXDOV_WINDOW_WIDEST, window, record, ring, sizeof ring / 4);
}
static void window_refused(void) { raxdov_window_push(0, window, five, ring, sizeof ring / 4); }

static void *call(void *f)
{
    void (*function)(void);
    memcpy(&function, &f, sizeof f);
    function();
    return NULL;
}

/* The bytes of a thread's stack that were written. */
static size_t taken(void (*function)(void))
{
    uint8_t *stack = mmap(NULL, STACK, PROT_READ | PROT_WRITE, MAP_PRIVATE | MAP_ANONYMOUS, -1, 0);
    pthread_attr_t attr;
    pthread_t thread;
    void *f;
    memset(stack, 0xa5, STACK);
    memcpy(&f, &function, sizeof f);
    pthread_attr_init(&attr);
    if (pthread_attr_setstack(&attr, stack, STACK) || pthread_create(&thread, &attr, call, f) || pthread_join(thread, NULL)) abort();
    size_t low = 0;
    while (low < STACK && stack[low] == 0xa5) low++;
    munmap(stack, STACK);
    return STACK - low;
}

int main(int argc, char **argv)
{
    const size_t run_most = argc > 1 ? (size_t)atol(argv[1]) : 0;
    const struct {
        const char *name;
        void (*function)(void);
        size_t most;
    } all[] = {
        {"quantise", quantise, 16000}, {"combine", combine, 16000}, {"combine, refused", combine_refused, 16000},
        {"ldpc_sizes", sizes, 16000}, {"ldpc_new", new, 16000}, {"ldpc_check", check, 16000},
        {"ldpc_parity", parity, 16000}, {"ldpc_encode", encode, 16000}, {"ldpc_syndrome_weight", weight, 16000},
        {"bch_parity", bch_parity, 16000}, {"bch_encode", bch_encode, 16000}, {"bch_decode, 12 errors", bch_decode, 16000},
        {"bch_decode, lost", bch_lost, 16000}, {"record_words", record_words, 16000}, {"tally_words", tally_words, 16000},
        {"run_sizes", run_sizes, 16000}, {"run, sequential, 64 lanes", run_sequential, run_most}, {"run, sequential, 1 lane", run_one, run_most},
        {"run, layered by 7, 64 lanes", run_layered, run_most}, {"run, layered by 374, 17 lanes", run_whole, run_most}, {"run, refused", run_refused, run_most},
        {"window_words", window_words, 16000}, {"window_push", window_push, 16000}, {"window_push, refused", window_refused, 16000},
    };
    int wrong = 0;
    size_t thread = taken(nothing);
    for (size_t i = 0; i < sizeof all / sizeof *all; i++) {
        size_t bytes = taken(all[i].function) - thread;
        printf("%s: %zu bytes%s\n", all[i].name, bytes, bytes > all[i].most ? ", TOO MUCH" : "");
        wrong += bytes > all[i].most;
    }
    printf("%d too much; an empty thread takes %zu bytes\n", wrong, thread);
    return wrong != 0;
}
