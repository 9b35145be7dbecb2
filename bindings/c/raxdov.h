/* Raxdov for C and C++: the functions of libraxdov.a, which `rt lib` in crates/raxdov writes to its folder out.
   What each promises is proved of its source, crates/raxdov/src/lib.rt; this header repeats its signatures.

   Slices. A slice is lent as a pointer and, in the next argument, the number of its elements (NAME and NAME_len).
   The pointer is aligned for its type and not null, also where the number is 0. What is lent to be written overlaps
   nothing else that is lent. What a longer slice means:
     out, lists, records, work          are written, and may be longer than what is asked for: what lies behind is left
                                        as it was. Shorter: 13
     ring                               is read and written: it belongs to its window, one ring to one window. It may be
                                        longer: what lies behind is left as it was. Shorter: 13
     info, bits                         are k and n bytes long. Longer or shorter: 12
     lens, addrs                        have an element for each row and for each address: a longer one is another code.
                                        The row lengths add up to addrs_len, or else: 5
     llr                                has as many floats as there are to be turned into soft values
     message, word                      are as long as the BCH message or word. Of a length that BCH does not take: 11
     soft                               is a whole number of words of n values: a longer one is more words. Else: 8.
                                        Of raxdov_combine it is the words that have the lengths of `lengths`. Else: 15
     lengths                            has an element for each word of soft, so 1 to 8 elements. They are equal and
                                        add up to soft_len. Else: 15

   Answers. Every function but raxdov_record_words, raxdov_tally_words and raxdov_window_words returns 0, or the number
   of a refusal (enum raxdov_refusal); a call that is refused has changed nothing. A function lists its refusals in the
   order in which it looks for them ("2 to 6, 13" or "15, 13"): of several it returns the first of that list.

   Codes. An LDPC code is n, the number of addresses of each row (lens) and the rows' addresses one after the other
   (addrs). k = 374 * lens_len information bits, P = n - k checks, q = P / 374, E = 374 * addrs_len + 2 * P - 1 edges.
   Information bit 374 * g + j meets check (a + j * q) mod P for each address a of row g.

   Bits. A byte is a bit; of a byte that is read only the lowest bit counts.

   Processor. The code needs one of level x86-64-v2.

   Memory. No function allocates or keeps anything, so calls on different slices may run in different threads. What a
   call is lent to be written no other thread may read meanwhile, also where it is left as it was.
   raxdov_run wants about 140 KB of stack (have 256 KiB), every other function less than 16 KB. */
#ifndef RAXDOV_H
#define RAXDOV_H

#include <stddef.h>
#include <stdint.h>

#ifdef __cplusplus
extern "C" {
#endif

/* The numbers of refusal. */
enum raxdov_refusal {
    RAXDOV_ACCEPTED = 0,
    RAXDOV_REFUSED_FORM = 1,             /* The report program's input is not of its form (no function here). */
    RAXDOV_REFUSED_N = 2,                /* n is 0, not a multiple of 374, or above 44,880. */
    RAXDOV_REFUSED_ROWS = 3,             /* 374 times the row count is n or more. */
    RAXDOV_REFUSED_ROW_LENGTH = 4,       /* A row has more than 128 addresses. */
    RAXDOV_REFUSED_ADDRESSES = 5,        /* Row lengths don't add up to the address list's length. */
    RAXDOV_REFUSED_EQUAL_ADDRESSES = 6,  /* More than 126 addresses are equal modulo q. */
    RAXDOV_REFUSED_LANES = 7,            /* Lanes are not 1 to 64. */
    RAXDOV_REFUSED_WORDS = 8,            /* The soft values are not a whole number of n-long words, or make over
                                            4,096 words. */
    RAXDOV_REFUSED_ITERATION_LIMIT = 9,  /* The iteration limit is above 65,535. */
    RAXDOV_REFUSED_STEP = 10,            /* The schedule is layered with step 0. */
    RAXDOV_REFUSED_BCH = 11,             /* A BCH word is not 193 to 65,535 bits, a BCH message is over 65,343, or a
                                            run's BCH part passes the end of its word. */
    RAXDOV_REFUSED_SIZE = 12,            /* Information is not k long, a hard word not n, or a check number is P or
                                            more. */
    RAXDOV_REFUSED_TOO_SHORT = 13,       /* A lent output or work slice is too short. */
    RAXDOV_REFUSED_WIDTH = 14,           /* A window's width is 0 or above 4,096. */
    RAXDOV_REFUSED_LENGTHS = 15          /* The soft words to combine are not 1 to 8, their lengths are not equal, or
                                            don't add up to the number of soft values. */
};

/* The BCH result of a word that is uncorrectable, or lost. */
#define RAXDOV_LOST 4294967295u

/* BCH: parity bits, bits that it corrects, the shortest and the longest word. */
#define RAXDOV_BCH_PARITY 192
#define RAXDOV_BCH_ERRORS 12
#define RAXDOV_BCH_SHORTEST 193
#define RAXDOV_BCH_LONGEST 65535

/* The most soft words that are combined into one. */
#define RAXDOV_COMBINE_MOST 8

/* What raxdov_ldpc_sizes writes: sizes[RAXDOV_SIZES_K] .. */
enum raxdov_sizes {
    RAXDOV_SIZES_K = 0,
    RAXDOV_SIZES_P = 1,
    RAXDOV_SIZES_Q = 2,
    RAXDOV_SIZES_E = 3,
    RAXDOV_SIZES_LISTS = 4, /* the elements of lists that raxdov_ldpc_new is lent: P + 1 + E */
    RAXDOV_SIZES_COUNT = 5
};

/* What raxdov_run_sizes writes. */
enum raxdov_run_needs {
    RAXDOV_NEEDS_WORK = 0,  /* the elements of work: (n + 3 * E) * lanes */
    RAXDOV_NEEDS_LISTS = 1, /* the elements of lists: E + P + 1 */
    RAXDOV_NEEDS_COUNT = 2
};

/* A word's record: records[RAXDOV_RECORD_COUNT * w + RAXDOV_RECORD_STATE] .. of word w. */
enum raxdov_record {
    RAXDOV_RECORD_STATE = 0,       /* enum raxdov_state */
    RAXDOV_RECORD_ITERATIONS = 1,  /* the rounds in which a lane held the word */
    RAXDOV_RECORD_UNSATISFIED = 2, /* unsatisfied checks: of a held word's bits, of a finished word's before BCH */
    RAXDOV_RECORD_CHECK = 3,       /* one of those checks, whichever; 0 if there is none */
    RAXDOV_RECORD_BCH = 4,         /* bits corrected, or RAXDOV_LOST; 0 of a word that is not finished */
    RAXDOV_RECORD_CHANGED = 5,     /* bits changed by LDPC: the positions, of all n, where the word's hard decisions
                                      before BCH differ from those of its soft values (1 where negative); a held
                                      word's so far, 0 of a waiting word */
    RAXDOV_RECORD_COUNT = 6
};

enum raxdov_state {
    RAXDOV_WAITING = 0, /* no lane took the word: a record of zeros, output bits left as they were */
    RAXDOV_HELD = 1,    /* a lane holds the word: its hard decisions are written, without BCH */
    RAXDOV_MET = 2,     /* finished with every check met, then corrected by BCH (kept) or lost */
    RAXDOV_UNMET = 3    /* finished at the iteration limit with checks unmet, then corrected by BCH (doubtful) or
                           lost */
};

/* The tally: tally[RAXDOV_TALLY_ROUNDS] .. Every finished word is just one of kept, doubtful and lost, and no other
   word is any of them: the three add up to the finished words. Which one a word is follows from its record: lost if its
   BCH result is RAXDOV_LOST; else kept if its state is RAXDOV_MET, and doubtful if it is RAXDOV_UNMET. The BCH part of
   a doubtful word is a codeword, as a kept word's is; its other bits are as LDPC left them, and some may be wrong. */
enum raxdov_tally {
    RAXDOV_TALLY_ROUNDS = 0,
    RAXDOV_TALLY_LOADED = 1,     /* words that a lane took */
    RAXDOV_TALLY_ITERATIONS = 2, /* iterations given: the sum of the records' */
    RAXDOV_TALLY_KEPT = 3,       /* finished words that are met and that BCH accepts */
    RAXDOV_TALLY_LOST = 4,       /* finished words that BCH calls uncorrectable, met or unmet */
    RAXDOV_TALLY_DOUBTFUL = 5,   /* finished words that are unmet and that BCH accepts */
    RAXDOV_TALLY_COUNT = 6
};

/* How a run ended. */
enum raxdov_ending {
    RAXDOV_FINISHED = 0, /* every word is finished */
    RAXDOV_STOPPED = 1   /* the round limit was used up with words held */
};

/* A window: figures over the last finished words of a long series of records, of many runs: over as many words as its
   width, or over all if there are fewer. window[RAXDOV_WINDOW_WORDS] .. All zeros is an empty window. */
enum raxdov_window {
    RAXDOV_WINDOW_AT = 0,         /* for the archive's own use: where in the ring the next record goes */
    RAXDOV_WINDOW_WORDS = 1,      /* words that the window covers now: the width, or fewer */
    RAXDOV_WINDOW_LOST = 2,       /* how many of them are lost */
    RAXDOV_WINDOW_ITERATIONS = 3, /* the sum of their iterations, lost words' too; of a run's records at most
                                     268,431,360 */
    RAXDOV_WINDOW_CORRECTED = 4,  /* the sum of the bits that BCH corrected in them, doubtful words' too; a lost word
                                     adds 0; of a run's records at most 49,152 */
    RAXDOV_WINDOW_DOUBTFUL = 5,   /* how many of them are doubtful; the others are kept: words - lost - doubtful */
    RAXDOV_WINDOW_COUNT = 6
};

/* The greatest width of a window, and the elements of its ring for each word of the width. */
#define RAXDOV_WINDOW_WIDEST 4096
#define RAXDOV_WINDOW_RING 3

/* Soft values from floats: out[i] = llr[i] * scale, one f32 product, rounded to the nearest whole number with halves
   away from zero, clamped to -127 .. 127; a NaN gives 0.
   out: llr_len elements. Refused by 13. */
uint32_t raxdov_quantise(const float *llr, size_t llr_len, float scale, int8_t *out, size_t out_len);

/* One soft word out of 1 to 8, which several receivers have of one transmission: out[i] is the exact sum of the words'
   values at i, clamped to -127 .. 127 once, at the end. So the order of the words makes no difference, and neither does
   a word of zeros beside others. One word alone comes out as it is, but a value of -128 as -127 (a run of the word
   itself reads -128 as it is).
   A value of 0 adds nothing, so 0 stands for what a receiver does not have. Where the sum is 0 a run takes the bit for
   a 0. A word of zeros meets every check: a run records it as met, with no bit corrected or changed, and counts it as
   kept. So run no word that nobody has.
   lengths  the length of each word: 1 to 8 equal numbers. A word may be of any length here; where the lengths are 0
            nothing is written
   soft     the words, one after the other. To combine all the words of a run in one call, the words here are all the
            soft values of each receiver: those of the first, then those of the second, and so on
   out: as many elements as one word has; it overlaps neither lengths nor soft. Refused by 15, 13. */
uint32_t raxdov_combine(const uint32_t *lengths, size_t lengths_len, const int8_t *soft, size_t soft_len, int8_t *out,
                        size_t out_len);

/* The sizes of a code (enum raxdov_sizes). Refused by 2 to 6. */
uint32_t raxdov_ldpc_sizes(uint32_t n, const uint32_t *lens, size_t lens_len, const uint16_t *addrs, size_t addrs_len,
                           uint32_t sizes[5]);

/* The lists of all checks: lists gets row_start (P + 1 numbers), then rows (E bit numbers); the bits of check c are
   rows[row_start[c]] to rows[row_start[c + 1] - 1]. code gets k, P, q, E.
   lists: P + 1 + E elements. Refused by 2 to 6, 13. */
uint32_t raxdov_ldpc_new(uint32_t n, const uint32_t *lens, size_t lens_len, const uint16_t *addrs, size_t addrs_len,
                         uint32_t *lists, size_t lists_len, uint32_t code[4]);

/* The bits of check c: its information bits ascending, k + c - 1 (not for c = 0), k + c; count gets how many.
   out: as many elements, which is 2 and one for each address equal to c modulo q (one less for c = 0); 128 always do.
   Refused by 2 to 6, 12 (c), 13. */
uint32_t raxdov_ldpc_check(uint32_t n, const uint32_t *lens, size_t lens_len, const uint16_t *addrs, size_t addrs_len,
                           uint32_t c, uint32_t *out, size_t out_len, uint32_t *count);

/* The parity of k information bits. info: k bytes; out: P elements. Refused by 2 to 6, 12 (info), 13. */
uint32_t raxdov_ldpc_parity(uint32_t n, const uint32_t *lens, size_t lens_len, const uint16_t *addrs, size_t addrs_len,
                            const uint8_t *info, size_t info_len, uint8_t *out, size_t out_len);

/* The codeword: the k information bytes as they are, then their parity. info: k bytes; out: n elements.
   Refused by 2 to 6, 12 (info), 13. */
uint32_t raxdov_ldpc_encode(uint32_t n, const uint32_t *lens, size_t lens_len, const uint16_t *addrs, size_t addrs_len,
                            const uint8_t *info, size_t info_len, uint8_t *out, size_t out_len);

/* count gets the number of unsatisfied checks of a hard word. bits: n bytes. Refused by 2 to 6, 12 (bits). */
uint32_t raxdov_ldpc_syndrome_weight(uint32_t n, const uint32_t *lens, size_t lens_len, const uint16_t *addrs,
                                     size_t addrs_len, const uint8_t *bits, size_t bits_len, uint32_t *count);

/* The 192 parity bits of a message of 0 to 65,343 bits, highest power first. out: 192 elements.
   Refused by 11, 13. */
uint32_t raxdov_bch_parity(const uint8_t *message, size_t message_len, uint8_t *out, size_t out_len);

/* The codeword: the message's bytes as they are, then its parity. out: message_len + 192 elements.
   Refused by 11, 13. */
uint32_t raxdov_bch_encode(const uint8_t *message, size_t message_len, uint8_t *out, size_t out_len);

/* Corrects a word of 193 to 65,535 bits in place, exactly if a codeword lies within 12 bits of it. result gets how
   many bits were changed, or RAXDOV_LOST: then every byte of the word is as it came in. Refused by 11. */
uint32_t raxdov_bch_decode(uint8_t *word, size_t word_len, uint32_t *result);

/* RAXDOV_RECORD_COUNT and RAXDOV_TALLY_COUNT of the archive that is linked: compare them with this header's before a
   run, as another archive may have more numbers, which it would write past the end, or fewer, and leave the rest
   unwritten. Size records and tally by these two names. */
uint32_t raxdov_record_words(void);
uint32_t raxdov_tally_words(void);

/* What raxdov_run is to be lent as work and lists (enum raxdov_run_needs). Refused by 2 to 7. */
uint32_t raxdov_run_sizes(uint32_t n, const uint32_t *lens, size_t lens_len, const uint16_t *addrs, size_t addrs_len,
                          uint32_t lanes, size_t sizes[2]);

/* A run: words of soft values are decoded side by side in lanes, and each finished word's BCH part is corrected.
   soft     n values a word, one word after the other, 0 to 4,096 words; a negative value speaks for a 1. A word may be
            a combined one (raxdov_combine): then all that the run promises and records, RAXDOV_RECORD_CHANGED too, is
            of the combined word and not of the words that it was made of
   lanes    1 to 64
   limit    iteration limit: no more iterations of a word than this, at most 65,535
   layered  0: the sequential schedule (step plays no part); any other number: the layered one with step
   step     checks that read the same values, 1 or more; 374 or more: a whole layer
   offset   subtracted from the magnitude of every message
   rounds   round limit: no more rounds than this, 0 too; UINT32_MAX never stops a run early
   first, length   the BCH part of every word: bits first to first + length - 1
   out      n * words elements: gets n bits of each word that a lane took. A lost word's are its n hard decisions at its
            end, of which BCH changes none
   records  gets enum raxdov_record for each word, one word after the other: 6 * words elements
   tally    gets enum raxdov_tally, counted afresh
   ending   gets enum raxdov_ending
   work, lists   as raxdov_run_sizes says; what they hold does not matter, and they are left zero. work has the lanes'
            memory and lists the lists of the code's checks while the run goes on
   Refused by 2 to 11, 13. */
uint32_t raxdov_run(uint32_t n, const uint32_t *lens, size_t lens_len, const uint16_t *addrs, size_t addrs_len,
                    const int8_t *soft, size_t soft_len, uint32_t lanes, uint32_t limit, uint32_t layered,
                    uint32_t step, int8_t offset, uint32_t rounds, uint32_t first, uint32_t length, uint8_t *out,
                    size_t out_len, uint32_t *records, size_t records_len, uint32_t tally[6], uint32_t *ending,
                    int8_t *work, size_t work_len, uint32_t *lists, size_t lists_len);

/* RAXDOV_WINDOW_COUNT of the archive that is linked: compare it with this header's before a push, as another archive
   may have more numbers, which it would write past the end, or fewer, and leave the rest as they were. Size a window by
   this name. (How many words a window covers is window[RAXDOV_WINDOW_WORDS].) */
uint32_t raxdov_window_words(void);

/* One record more of a long series, in a window over the last finished words.
   width    how many words the window covers at most, 1 to 4,096
   window   enum raxdov_window, read and written; zeros to begin with
   numbers  one word's record (enum raxdov_record), as raxdov_run writes it: of its word w, records +
            RAXDOV_RECORD_COUNT * w. State, iterations and BCH result are read. A record whose state is neither
            RAXDOV_MET nor RAXDOV_UNMET is passed over: the call returns 0, and window and ring are as they were.
            Every other record is taken, whatever its numbers: a BCH result of RAXDOV_LOST makes it a lost word, any
            other a kept one if its state is RAXDOV_MET and a doubtful one if it is RAXDOV_UNMET
   ring     the records that the window covers: 3 * width elements. Beside an empty window what it holds does not
            matter, so one that begins anew needs only its window set to zeros
   Window and ring belong together: hand both on as the call before left them, with the same width. Then the figures
   after each call are those of the last width finished records since the window was empty, or of all if there are
   fewer, in the order of the calls; a run's records stand in the order of its words, not of their finishing. Window,
   ring and width may be stored and loaded, together, for an archive with the same raxdov_window_words. For one with
   another number begin anew, with a window of zeros; it covers the same words again when the last width finished
   records are pushed into it in their order.
   If window or ring was altered, or the width is another, the call stays within its slices all the same, but the
   figures mean nothing, and go on to do so however many records follow, until the window is set to zeros. To change
   the width, begin anew: the window set to zeros, and a ring of 3 elements for each word of the new width.
   The time of a call does not depend on the width.
   Refused by 14, 13, whatever the record: window and ring are then unchanged. */
uint32_t raxdov_window_push(uint32_t width, uint64_t window[6], const uint32_t numbers[6], uint32_t *ring,
                            size_t ring_len);

#ifdef __cplusplus
}
#endif

#endif
