/* One run, for counting its instructions: the same number each time, whatever else the machine does.
     cc -O2 -I../../bindings/c instructions.c /path/to/libraxdov.a -o instructions
     valgrind --tool=callgrind --collect-atstart=no ./instructions LANES WORDS ITERATIONS
   The header must be the archive's or a later one. Needs valgrind's header callgrind.h. */
#include "raxdov.h"
#include <stdio.h>
#include <stdlib.h>
#include <valgrind/callgrind.h>

enum { N = 44880, ROWS = 60 };

int main(int count, char **argument)
{
    if (count != 4) return 2;
    uint32_t lanes = (uint32_t)atoi(argument[1]), words = (uint32_t)atoi(argument[2]), limit = (uint32_t)atoi(argument[3]);
    uint32_t lens[ROWS], tally[RAXDOV_TALLY_COUNT], ending, q = (N - 374 * ROWS) / 374;
    uint16_t addrs[ROWS * 8];
    size_t total = 0, size = (size_t)N * words, needs[RAXDOV_NEEDS_COUNT];
    srand(7);
    for (uint32_t r = 0; r < ROWS; r++) {
        lens[r] = r < 30 ? 13 : 3;
        for (uint32_t k = 0; k < lens[r]; k++)
            addrs[total++] = (uint16_t)((uint32_t)(rand() % 374) * q + (k * q / 13 + r) % q);
    }
    if (raxdov_run_sizes(N, lens, ROWS, addrs, total, lanes, needs)) return 1;
    int8_t *soft = malloc(size), *work = malloc(needs[RAXDOV_NEEDS_WORK]);
    for (size_t i = 0; i < size; i++) soft[i] = (int8_t)(rand() % 255 - 127);
    uint8_t *out = malloc(size);
    uint32_t room = raxdov_record_words() * words, *records = malloc(4 * room), *lists = malloc(4 * needs[RAXDOV_NEEDS_LISTS]);
    CALLGRIND_TOGGLE_COLLECT;
    uint32_t answer = raxdov_run(N, lens, ROWS, addrs, total, soft, size, lanes, limit, 0, 0, 1, UINT32_MAX, 0, 193, out, size, records, room, tally, &ending,
                                 work, needs[RAXDOV_NEEDS_WORK], lists, needs[RAXDOV_NEEDS_LISTS]);
    CALLGRIND_TOGGLE_COLLECT;
    printf("answer %u, %u rounds, %u iterations given\n", answer, tally[RAXDOV_TALLY_ROUNDS], tally[RAXDOV_TALLY_ITERATIONS]);
    return (int)answer;
}
