/* The archive's functions with slices of so many megabytes: answers, what is left alone behind what is written, and times. */
#include "raxdov.h"
#include "scope.h"
#include <stdio.h>
#include <stdlib.h>
#include <string.h>
#include <sys/mman.h>
#include <time.h>

enum { N = 748, P = 374, E = 3 * 374 + 2 * P - 1, WORDS = 3, LANES = 2 };
static const uint32_t lens[1] = {3};
static const uint16_t addrs[3] = {0, 40, 121};
static size_t size;
static int wrong;
static double spent;

static void *room(void)
{
    void *p = mmap(NULL, size, PROT_READ | PROT_WRITE, MAP_PRIVATE | MAP_ANONYMOUS | MAP_NORESERVE, -1, 0);
    if (p == MAP_FAILED) abort();
    return p;
}

static double now(void)
{
    struct timespec t;
    clock_gettime(CLOCK_MONOTONIC, &t);
    return (double)t.tv_sec + 1e-9 * (double)t.tv_nsec;
}

/* A call and its time. */
#define CALL(call) (spent = now(), got = call, spent = now() - spent)

static void told(const char *name, uint32_t got, uint32_t expected, int right)
{
    int good = got == expected && right;
    printf("%s %s: answered %u, %.3f s\n", good ? "ok    " : "FAILED", name, got, spent);
    wrong += !good;
}

static int zeros_from(const uint8_t *p, size_t at)
{
    while (at < size && p[at] == 0) at++;
    return at == size;
}

int main(int argc, char **argv)
{
    if (argc < 2) return 2;
    size = (size_t)atol(argv[1]) << 20;
    uint8_t *a = room(), *b = room(), *c = room(), *d = room(), parity[192];
    uint32_t number, tally[TALLY], ending, five[5], got;
    scope_start();

    CALL(raxdov_bch_decode(a, size, &number)), told("bch_decode, a huge word", got, 11, 1);
    CALL(raxdov_bch_parity(a, size, b, size)), told("bch_parity, a huge message", got, 11, 1);
    CALL(raxdov_bch_encode(a, size, b, size)), told("bch_encode, a huge message", got, 11, zeros_from(b, 0));
    uint32_t eight[8];
    for (int i = 0; i < 8; i++) eight[i] = 1u << 29;
    CALL(raxdov_combine((const uint32_t *)a, size / 4, (const int8_t *)a, size, (int8_t *)b, size)), told("combine, a huge list of lengths", got, 15, zeros_from(b, 0));
    CALL(raxdov_combine(eight, 8, (const int8_t *)a, 0, (int8_t *)b, size)), told("combine, lengths that add up to 2^32 and no values", got, 15, zeros_from(b, 0));
    for (int i = 0; i < 8; i++) eight[i] = (uint32_t)(size / 8);
    CALL(raxdov_combine(eight, 8, (const int8_t *)a, size - 1, (int8_t *)b, size)), told("combine, eight huge words, a value too few", got, 15, zeros_from(b, 0));
    CALL(raxdov_combine(eight, 8, (const int8_t *)a, size, (int8_t *)b, size / 8 - 1)), told("combine, eight huge words, an output too short", got, 13, zeros_from(b, 0));
    CALL(raxdov_ldpc_sizes(N, (const uint32_t *)a, size / 4, addrs, 3, five)), told("ldpc_sizes, a huge list of rows", got, 3, 1);
    CALL(raxdov_ldpc_sizes(N, lens, 1, (const uint16_t *)a, size / 2, five)), told("ldpc_sizes, a huge list of addresses", got, 5, 1);
    CALL(raxdov_ldpc_parity(N, lens, 1, addrs, 3, a, size, b, size)), told("ldpc_parity, huge information", got, 12, zeros_from(b, 0));
    CALL(raxdov_ldpc_syndrome_weight(N, lens, 1, addrs, 3, a, size, &number)), told("ldpc_syndrome_weight, a huge word", got, 12, 1);
    size_t whole = size / N * N;
    CALL(raxdov_run(N, lens, 1, addrs, 3, (const int8_t *)a, whole, LANES, 5, 0, 0, 1, 9, 0, N, b, size, (uint32_t *)c, size / 4, tally, &ending, (int8_t *)d, size, five, 5));
    told("run, soft values of too many words", got, 8, zeros_from(b, 0) && zeros_from(c, 0) && zeros_from(d, 0));
    CALL(raxdov_run(N, lens, 1, addrs, 3, (const int8_t *)a, whole + 1, LANES, 5, 0, 0, 1, 9, 0, N, b, size, (uint32_t *)c, size / 4, tally, &ending, (int8_t *)d, size, five, 5));
    told("run, soft values that are no whole number of words", got, 8, zeros_from(b, 0));

    uint64_t window[WINDOW] = {1, 2, 3, 4, 5, 6};
    uint32_t record[RECORD] = {3, 50, 7, 1, 12, 9}, left[RECORD] = {0};
    CALL(raxdov_window_push(4097, window, record, (uint32_t *)b, size / 4)), told("window_push, too wide, a huge ring", got, 14, window[0] == 1 && window[4] == 5 && window[5] == 6 && zeros_from(b, 0));

    /* accepted, with much room behind what is written */
    memset(window, 0, sizeof window);
    CALL(raxdov_window_push(4096, window, record, (uint32_t *)b, size / 4)), memcpy(left, b, 12);
    told("window_push, a huge ring", got, 0, window[0] == 1 && window[1] == 1 && window[2] == 0 && window[3] == 50 && window[4] == 12 && window[5] == 1 && left[0] == 3 && left[1] == 50 && left[2] == 12 && zeros_from(b, 12));
    memset(b, 0, 12);
    uint8_t message[300];
    for (int i = 0; i < 300; i++) message[i] = (uint8_t)(i * 7 % 3 == 0);
    bch_parity(message, 300, parity);
    CALL(raxdov_bch_encode(message, 300, b, size)), told("bch_encode, a huge output", got, 0, memcmp(b, message, 300) == 0 && memcmp(b + 300, parity, 192) == 0 && zeros_from(b, 492));
    memset(b, 0, 492);
    CALL(raxdov_ldpc_new(N, lens, 1, addrs, 3, (uint32_t *)b, size / 4, five)), told("ldpc_new, huge lists", got, 0, five[3] == E && zeros_from(b, 4 * (P + 1 + E)));
    memset(b, 0, 4 * (P + 1 + E));
    int8_t soft[N * WORDS];
    static uint32_t lists[P + 1 + E];
    for (int i = 0; i < N * WORDS; i++) soft[i] = i % 97 ? 20 : -9;
    CALL(raxdov_run(N, lens, 1, addrs, 3, soft, sizeof soft, LANES, 50, 0, 0, 1, 99, 0, N, b, size, (uint32_t *)c, size / 4, tally, &ending, (int8_t *)d, size, lists, P + 1 + E));
    told("run, huge output, records and work", got, 0, tally[1] == WORDS && tally[3] + tally[4] + tally[5] == WORDS && ending == 0 && zeros_from(b, N * WORDS) && zeros_from(c, 4 * RECORD * WORDS) && zeros_from(d, 0));

    /* eight words that fill a slice */
    for (size_t i = 0; i < size; i++) a[i] = (uint8_t)(i * 2654435761u >> 13);
    size_t each = size / 8;
    CALL(raxdov_combine(eight, 8, (const int8_t *)a, size, (int8_t *)b, size));
    int right = zeros_from(b, each);
    for (size_t i = 0; i < each && right; i += 1 + i % 13) right = (int8_t)b[i] == combined_value((const int8_t *)a, 8, each, i);
    for (size_t i = each - 40; i < each && right; i++) right = (int8_t)b[i] == combined_value((const int8_t *)a, 8, each, i);
    told("combine, eight huge words", got, 0, right);

    /* soft values from as many floats as fit */
    float *llr = (float *)a;
    size_t count = size / 4;
    for (size_t i = 0; i < count; i++) llr[i] = (float)((int)(i % 2001) - 1000) / 7;
    CALL(raxdov_quantise(llr, count, 1.5f, (int8_t *)b, size));
    right = zeros_from(b, count);
    for (size_t i = 0; i < count && right; i += 1 + i % 13) right = (int8_t)b[i] == soft_value(llr[i], 1.5f);
    told("quantise, huge", got, 0, right);
    printf("%d wrong\n", wrong);
    return wrong != 0;
}
