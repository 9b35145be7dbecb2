/* What the scope says, written out in C from its sentences and from nothing of the product: refusals, codes, the decoder, BCH,
   combined words, windows and the report's text. The fuzz targets hold every answer to it. */
#ifndef SCOPE_H
#define SCOPE_H
#include <stddef.h>
#include <stdint.h>

#define LOST 4294967295u
/* Numbers of a word's record. */
#define RECORD 6
/* Numbers of a tally: rounds, words loaded, iterations given, kept, lost, doubtful; and of a window: place, words, lost, iterations,
   corrected bits, doubtful. */
#define TALLY 6
#define WINDOW 6
/* A run that needs more work than a fuzz target has time for. */
#define TOO_LONG 1000u

typedef struct {
    uint32_t n;
    const uint32_t *lens;
    size_t rows;
    const uint16_t *addrs;
    size_t total;
} Code;

/* k, P, q, E of an accepted code, and the bits of check c: bits[start[c]] to bits[start[c + 1] - 1]. */
typedef struct {
    size_t k, p, q, e;
    uint32_t *start, *bits;
} Lists;

typedef struct {
    uint32_t lanes, limit, layered, step;
    int8_t offset;
    uint32_t rounds, first, length;
} Settings;

/* Lengths of what is lent to a run. */
typedef struct {
    size_t out, records, work, lists;
} Lent;

typedef struct {
    uint32_t state, iterations, unsatisfied, bch, changed;
    uint8_t *bits;   /* n bits as they are left in the output; not of a waiting word */
    uint8_t *before; /* the bits before BCH, which `unsatisfied` and `changed` count */
} Word;

typedef struct {
    size_t words;
    Word *word;
    uint32_t tally[TALLY], ending;
} Run;

void scope_start(void);
uint32_t code_refusal(Code code);
Lists lists_of(Code code);
void lists_free(Lists lists);
uint32_t unsatisfied(Lists lists, const uint8_t *bits);
/* Whether the bits leave check c unsatisfied. */
int unmet(Lists lists, const uint8_t *bits, size_t c);
void ldpc_parity(Lists lists, const uint8_t *info, uint8_t *parity);
int8_t soft_value(float llr, float scale);
/* 15, then 13, or 0. */
uint32_t combine_refusal(const uint32_t *lengths, size_t count, size_t soft, size_t out);
/* The value at place i of the word that is combined of `count` words of n values each. */
int8_t combined_value(const int8_t *soft, size_t count, size_t n, size_t i);
void bch_parity(const uint8_t *message, size_t size, uint8_t parity[192]);
/* The corrected count, or LOST, which leaves the word as it came. */
uint32_t bch_decode(uint8_t *word, size_t size);
uint32_t run_refusal(Code code, size_t soft, Settings set, Lent lent);
/* An accepted run; TOO_LONG if it needs more than `budget` edges, else 0. */
uint32_t run_of(Code code, const int8_t *soft, size_t words, Settings set, uint64_t budget, Run *run);
void run_free(Run *run);
/* 14, then 13, or 0. */
uint32_t window_refusal(uint32_t width, size_t ring);
/* Whether a record is of a finished word. */
int finished(const uint32_t record[RECORD]);
/* Words, lost, iterations, corrected bits and doubtful of the last `width` of these finished records, or of all if there are fewer. */
void figures_of(const uint32_t (*records)[RECORD], size_t count, size_t width, uint64_t figures[WINDOW - 1]);
/* What an accepted push makes of any window and ring, also of altered ones. */
void window_push(uint32_t width, uint64_t window[WINDOW], const uint32_t record[RECORD], uint32_t *ring);
/* The report on a text: its size, or 0 if the run is too long. The form alone: *form is 1 for a text of the form. */
#define REPORT_ROOM 4096
size_t report_of(const uint8_t *text, size_t size, uint64_t budget, char out[REPORT_ROOM], int *form);
#endif
