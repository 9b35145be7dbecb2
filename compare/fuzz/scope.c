#include "scope.h"
#include <math.h>
#include <stdio.h>
#include <stdlib.h>
#include <string.h>

static void *room(size_t count, size_t each)
{
    void *p = calloc(count + 1, each);
    if (!p) abort();
    return p;
}

/* ---- GF(2^16), alpha^16 = alpha^12 + alpha^3 + alpha + 1 ---- */

static uint16_t power[131070];
static uint32_t logarithm[65536];
static uint64_t generator[4]; /* bit i: the coefficient of x^i */

static uint16_t times(uint16_t a, uint16_t b) { return a && b ? power[logarithm[a] + logarithm[b]] : 0; }

static uint16_t inverse(uint16_t a) { return power[65535 - logarithm[a]]; }

/* g: the product of the minimal polynomials of alpha, alpha^3, .., alpha^23. */
static void make_generator(void)
{
    uint8_t g[400] = {1};
    size_t degree = 0;
    for (uint32_t i = 1; i <= 23; i += 2) {
        uint16_t m[20] = {1};
        size_t size = 0;
        uint32_t j = i;
        do {
            for (size_t t = ++size; t > 0; t--) m[t] = m[t - 1] ^ times(m[t], power[j]);
            m[0] = times(m[0], power[j]);
            j = 2 * j % 65535;
        } while (j != i);
        uint8_t product[400] = {0};
        for (size_t t = 0; t <= size; t++) {
            if (m[t] > 1) abort();
            for (size_t u = 0; m[t] && u <= degree; u++) product[t + u] ^= g[u];
        }
        degree += size;
        memcpy(g, product, sizeof g);
    }
    if (degree != 192) abort();
    for (size_t t = 0; t <= 192; t++) generator[t / 64] |= (uint64_t)g[t] << t % 64;
}

void scope_start(void)
{
    uint32_t a = 1;
    for (uint32_t i = 0; i < 65535; i++) {
        power[i] = power[i + 65535] = (uint16_t)a;
        logarithm[a] = i;
        a = a << 1;
        if (a >> 16) a ^= 0x1100b;
    }
    if (a != 1) abort();
    make_generator();
}

/* ---- BCH ---- */

void bch_parity(const uint8_t *message, size_t size, uint8_t parity[192])
{
    uint64_t r[3] = {0, 0, 0};
    for (size_t i = 0; i < size; i++) {
        uint64_t out = (r[2] >> 63) ^ (message[i] & 1);
        r[2] = r[2] << 1 | r[1] >> 63;
        r[1] = r[1] << 1 | r[0] >> 63;
        r[0] = r[0] << 1;
        for (int t = 0; out && t < 3; t++) r[t] ^= generator[t];
    }
    for (int i = 0; i < 192; i++) parity[i] = r[(191 - i) / 64] >> (191 - i) % 64 & 1;
}

uint32_t bch_decode(uint8_t *word, size_t size)
{
    uint16_t s[25] = {0};
    int codeword = 1;
    for (size_t i = 0; i < size; i++)
        if (word[i] & 1)
            for (uint32_t j = 1; j <= 24; j++) s[j] ^= power[(uint64_t)j * (size - 1 - i) % 65535];
    for (int j = 1; j <= 24; j++) codeword &= s[j] == 0;
    if (codeword) return 0;
    /* the shortest register: Massey */
    uint16_t c[26] = {1}, b[26] = {1};
    size_t length = 0, since = 1;
    uint16_t last = 1;
    for (size_t n = 0; n < 24; n++) {
        uint16_t d = 0;
        for (size_t i = 0; i <= length; i++) d ^= times(c[i], s[n + 1 - i]);
        if (d == 0) {
            since++;
            continue;
        }
        uint16_t old[26], f = times(d, inverse(last));
        memcpy(old, c, sizeof c);
        for (size_t i = since; i < 26; i++) c[i] ^= times(f, b[i - since]);
        if (2 * length <= n) {
            length = n + 1 - length;
            memcpy(b, old, sizeof b);
            last = d;
            since = 1;
        } else
            since++;
    }
    if (length > 12) return LOST;
    /* the places of the roots: no more than the register is long */
    size_t flips = 0, places[12];
    for (size_t p = 0; p < size; p++) {
        uint16_t at = 0;
        for (size_t i = 0; i < 26; i++)
            if (c[i]) at ^= power[(logarithm[c[i]] + (65535 - p % 65535) % 65535 * i) % 65535];
        if (at == 0) places[flips++] = size - 1 - p;
    }
    /* "When BCH calls a word uncorrectable, every byte of it must be as it came in" */
    if (flips < length) return LOST;
    for (size_t i = 0; i < flips; i++) word[places[i]] ^= 1;
    return (uint32_t)flips;
}

/* ---- soft values ---- */

int8_t soft_value(float llr, float scale)
{
    volatile float product = llr * scale;
    double d = product;
    if (isnan(d)) return 0;
    double size = fabs(d) >= 127 ? 127 : floor(fabs(d) + 0.5);
    return (int8_t)(d < 0 ? -size : size);
}

/* ---- combined words ---- */

uint32_t combine_refusal(const uint32_t *lengths, size_t count, size_t soft, size_t out)
{
    if (count < 1 || count > 8) return 15;
    uint64_t sum = 0;
    for (size_t w = 0; w < count; w++) {
        if (lengths[w] != lengths[0]) return 15;
        sum += lengths[w];
    }
    if (sum != soft) return 15;
    return out < lengths[0] ? 13 : 0;
}

int8_t combined_value(const int8_t *soft, size_t count, size_t n, size_t i)
{
    int sum = 0;
    for (size_t w = 0; w < count; w++) sum += soft[w * n + i];
    /* clamped a single time, at the end */
    return (int8_t)(sum < -127 ? -127 : sum > 127 ? 127 : sum);
}

/* ---- codes ---- */

uint32_t code_refusal(Code code)
{
    if (code.n == 0 || code.n % 374 || code.n > 44880) return 2;
    if (code.rows >= code.n / 374) return 3;
    uint64_t sum = 0;
    for (size_t g = 0; g < code.rows; g++) {
        if (code.lens[g] > 128) return 4;
        sum += code.lens[g];
    }
    if (sum != code.total) return 5;
    size_t q = code.n / 374 - code.rows;
    uint32_t equal[120] = {0};
    for (size_t i = 0; i < code.total; i++)
        if (++equal[code.addrs[i] % q] > 126) return 6;
    return 0;
}

Lists lists_of(Code code)
{
    Lists l;
    l.k = 374 * code.rows;
    l.p = code.n - l.k;
    l.q = l.p / 374;
    l.e = 374 * code.total + 2 * l.p - 1;
    l.start = room(l.p + 2, 4);
    l.bits = room(l.e, 4);
    for (int fill = 0; fill < 2; fill++) {
        uint32_t *next = room(l.p, 4);
        for (size_t c = 0; c < l.p; c++) next[c] = l.start[c];
        size_t from = 0;
        for (size_t g = 0; g < code.rows; from += code.lens[g++])
            for (size_t j = 0; j < 374; j++)
                for (size_t i = 0; i < code.lens[g]; i++) {
                    size_t c = (code.addrs[from + i] + j * l.q) % l.p;
                    if (fill) l.bits[next[c]] = (uint32_t)(374 * g + j);
                    next[c]++;
                }
        for (size_t c = 0; c < l.p; c++) {
            if (c > 0) {
                if (fill) l.bits[next[c]] = (uint32_t)(l.k + c - 1);
                next[c]++;
            }
            if (fill) l.bits[next[c]] = (uint32_t)(l.k + c);
            next[c]++;
        }
        /* the first pass counted from 0 in each check; sums make the starts */
        for (size_t c = 0, at = 0; !fill && c < l.p; c++) {
            l.start[c] = (uint32_t)at;
            at += next[c];
            l.start[c + 1] = (uint32_t)at;
        }
        free(next);
    }
    if (l.start[l.p] != l.e) abort();
    return l;
}

void lists_free(Lists l)
{
    free(l.start);
    free(l.bits);
}

int unmet(Lists l, const uint8_t *bits, size_t c)
{
    int odd = 0;
    for (size_t i = l.start[c]; i < l.start[c + 1]; i++) odd ^= bits[l.bits[i]] & 1;
    return odd;
}

uint32_t unsatisfied(Lists l, const uint8_t *bits)
{
    uint32_t count = 0;
    for (size_t c = 0; c < l.p; c++) count += (uint32_t)unmet(l, bits, c);
    return count;
}

void ldpc_parity(Lists l, const uint8_t *info, uint8_t *parity)
{
    for (size_t c = 0; c < l.p; c++) {
        int odd = 0;
        for (size_t i = l.start[c]; i < l.start[c + 1]; i++)
            if (l.bits[i] < l.k) odd ^= info[l.bits[i]] & 1;
        parity[c] = (uint8_t)(odd ^ (c ? parity[c - 1] : 0));
    }
}

/* ---- a word alone ---- */

static int sat(int x) { return x < -128 ? -128 : x > 127 ? 127 : x; }

static int less(int magnitude, int offset)
{
    int m = sat(magnitude - offset);
    return m < 0 ? 0 : m;
}

/* t and the new messages of one check, from the values as they stand. */
static void check_node(Lists l, size_t c, const int *value, const int *old, int offset, int *t, int *new)
{
    int min1 = 127, min2 = 127, negative = 0;
    size_t first = (size_t)-1;
    for (size_t i = l.start[c]; i < l.start[c + 1]; i++) {
        t[i] = sat(value[l.bits[i]] - old[i]);
        int magnitude = abs(t[i]) == 128 ? 127 : abs(t[i]);
        if (magnitude < min1) {
            min2 = min1;
            min1 = magnitude;
            first = i;
        } else if (magnitude < min2)
            min2 = magnitude;
        negative ^= t[i] < 0;
    }
    for (size_t i = l.start[c]; i < l.start[c + 1]; i++) {
        int magnitude = less(i == first ? min2 : min1, offset);
        new[i] = negative ^ (t[i] < 0) ? -magnitude : magnitude;
    }
}

typedef struct {
    Lists l;
    int *value, *message, *t, *new, *sum;
    uint32_t *seen;
} Alone;

static void iterate(Alone *a, Settings set)
{
    Lists l = a->l;
    if (!set.layered) {
        for (size_t c = 0; c < l.p; c++) {
            check_node(l, c, a->value, a->message, set.offset, a->t, a->new);
            for (size_t i = l.start[c]; i < l.start[c + 1]; i++) {
                a->value[l.bits[i]] = sat(a->t[i] + a->new[i]);
                a->message[i] = a->new[i];
            }
        }
        return;
    }
    for (size_t layer = 0; layer < l.q; layer++)
        for (size_t from = 0; from < 374;) {
            size_t to = set.step >= 374 - from ? 374 : from + set.step;
            for (size_t i = from; i < to; i++)
                check_node(l, layer + i * l.q, a->value, a->message, set.offset, a->t, a->new);
            for (size_t i = from; i < to; i++) {
                size_t c = layer + i * l.q;
                for (size_t j = l.start[c]; j < l.start[c + 1]; j++) {
                    uint32_t v = l.bits[j];
                    a->sum[v] = a->seen[v]++ ? a->sum[v] + a->new[j] - a->message[j] : a->t[j] + a->new[j];
                }
            }
            for (size_t i = from; i < to; i++) {
                size_t c = layer + i * l.q;
                for (size_t j = l.start[c]; j < l.start[c + 1]; j++) {
                    uint32_t v = l.bits[j];
                    if (a->seen[v]) a->value[v] = sat(a->sum[v]);
                    a->seen[v] = 0;
                    a->message[j] = a->new[j];
                }
            }
            from = to;
        }
}

static void hard(const Alone *a, size_t n, uint8_t *bits)
{
    for (size_t v = 0; v < n; v++) bits[v] = a->value[v] < 0;
}

/* The iterations that a word has when it ends, or `most` if it does not end before; its bits then. */
static uint32_t alone(Lists l, size_t n, const int8_t *soft, Settings set, uint32_t most, uint8_t *bits, uint64_t *budget, int *ended)
{
    Alone a = {l, room(n, sizeof(int)), room(l.e, sizeof(int)), room(l.e, sizeof(int)), room(l.e, sizeof(int)), room(n, sizeof(int)), room(n, 4)};
    for (size_t v = 0; v < n; v++) a.value[v] = soft[v];
    uint32_t iterations = 0;
    for (;;) {
        hard(&a, n, bits);
        *ended = iterations == set.limit || unsatisfied(l, bits) == 0;
        if (*ended || iterations == most || *budget < l.e) break;
        *budget -= l.e;
        iterate(&a, set);
        iterations++;
    }
    if (!*ended && iterations != most) *budget = 0;
    free(a.value);
    free(a.message);
    free(a.t);
    free(a.new);
    free(a.sum);
    free(a.seen);
    return iterations;
}

/* ---- a run ---- */

uint32_t run_refusal(Code code, size_t soft, Settings set, Lent lent)
{
    uint32_t r = code_refusal(code);
    if (r) return r;
    if (set.lanes < 1 || set.lanes > 64) return 7;
    if (soft % code.n || soft / code.n > 4096) return 8;
    if (set.limit > 65535) return 9;
    if (set.layered && set.step == 0) return 10;
    if (set.length < 193 || set.length > 65535 || (uint64_t)set.first + set.length > code.n) return 11;
    size_t words = soft / code.n, p = code.n - 374 * code.rows, e = 374 * code.total + 2 * p - 1;
    if (lent.out < soft || lent.records / RECORD < words || lent.work < (code.n + 3 * e) * set.lanes || lent.lists < e + p + 1) return 13;
    return 0;
}

uint32_t run_of(Code code, const int8_t *soft, size_t words, Settings set, uint64_t budget, Run *run)
{
    size_t n = code.n;
    Lists l = lists_of(code);
    memset(run, 0, sizeof *run);
    run->words = words;
    run->word = room(words, sizeof(Word));
    uint32_t *ends = room(words, 4); /* iterations at the word's end; UINT32_MAX: never within the round limit */
    for (size_t w = 0; w < words; w++) {
        run->word[w].bits = room(n, 1);
        run->word[w].before = room(n, 1);
        int ended;
        uint32_t i = alone(l, n, soft + w * n, set, set.rounds, run->word[w].before, &budget, &ended);
        ends[w] = ended ? i : UINT32_MAX;
        if (!ended && budget == 0) goto out;
    }
    /* the round rule */
    size_t lane[64], next = 0;
    for (size_t i = 0; i < 64; i++) lane[i] = (size_t)-1;
    for (;;) {
        for (;;) {
            size_t empty = 0;
            while (empty < set.lanes && lane[empty] != (size_t)-1) empty++;
            if (empty == set.lanes || next == words) break;
            run->word[next].state = 1;
            run->tally[1]++;
            if (ends[next] == 0)
                run->word[next].state = 2; /* finished; met or unmet is seen below */
            else
                lane[empty] = next;
            next++;
        }
        int held = 0;
        for (size_t i = 0; i < set.lanes; i++) held |= lane[i] != (size_t)-1;
        run->ending = held ? 1 : 0;
        if (!held || run->tally[0] == set.rounds) break;
        run->tally[0]++;
        for (size_t i = 0; i < set.lanes; i++) {
            if (lane[i] == (size_t)-1) continue;
            Word *word = &run->word[lane[i]];
            word->iterations++;
            if (word->iterations == ends[lane[i]]) {
                word->state = 2;
                lane[i] = (size_t)-1;
            }
        }
    }
    for (size_t w = 0; w < words; w++) {
        Word *word = &run->word[w];
        int ended;
        if (word->state == 0) continue;
        if (word->state == 1) alone(l, n, soft + w * n, set, word->iterations, word->before, &budget, &ended);
        word->unsatisfied = unsatisfied(l, word->before);
        /* "positions where the hard decisions, before BCH, differ from those of the input" */
        for (size_t v = 0; v < n; v++) word->changed += word->before[v] != (soft[w * n + v] < 0);
        memcpy(word->bits, word->before, n);
        run->tally[2] += word->iterations;
        if (word->state == 1) continue;
        word->state = word->unsatisfied ? 3 : 2;
        word->bch = bch_decode(word->bits + set.first, set.length);
        run->tally[word->bch == LOST ? 4 : word->unsatisfied ? 5 : 3]++; /* lost; doubtful; kept */
    }
out:
    free(ends);
    lists_free(l);
    if (budget > 0) return 0;
    run_free(run);
    return TOO_LONG;
}

void run_free(Run *run)
{
    for (size_t w = 0; w < run->words; w++) {
        free(run->word[w].bits);
        free(run->word[w].before);
    }
    free(run->word);
    run->word = NULL;
    run->words = 0;
}

/* ---- windows ---- */

uint32_t window_refusal(uint32_t width, size_t ring)
{
    if (width == 0 || width > 4096) return 14;
    return ring < 3 * (size_t)width ? 13 : 0;
}

int finished(const uint32_t record[RECORD]) { return record[0] == 2 || record[0] == 3; }

void figures_of(const uint32_t (*records)[RECORD], size_t count, size_t width, uint64_t figures[WINDOW - 1])
{
    size_t first = count > width ? count - width : 0;
    figures[0] = count - first;
    figures[1] = figures[2] = figures[3] = figures[4] = 0;
    for (size_t i = first; i < count; i++) {
        figures[2] += records[i][1];
        if (records[i][4] == LOST)
            figures[1]++; /* a lost word adds no corrected bits */
        else {
            figures[3] += records[i][4];
            if (records[i][0] == 3) figures[4]++;
        }
    }
}

/* The request says nothing of windows that were altered. Decided: a place at or past the width is taken as 0, as many words as the
   width or more as a full window, sums are modulo 2^64, and a record of the ring counts as lost only if it is a finished
   word's, and as doubtful only if it is an unmet word's. */
void window_push(uint32_t width, uint64_t window[WINDOW], const uint32_t record[RECORD], uint32_t *ring)
{
    if (!finished(record)) return;
    uint64_t slot = window[0] >= width ? 0 : window[0];
    uint32_t *place = ring + 3 * slot;
    if (window[1] >= width) { /* the oldest leaves */
        window[1] = width - 1;
        window[3] -= place[1];
        if (place[2] != LOST) {
            window[4] -= place[2];
            window[5] -= place[0] == 3;
        } else if (place[0] == 2 || place[0] == 3)
            window[2]--;
    }
    place[0] = record[0];
    place[1] = record[1];
    place[2] = record[4];
    window[0] = (slot + 1) % width;
    window[1]++;
    window[2] += record[4] == LOST;
    window[3] += record[1];
    window[4] += record[4] == LOST ? 0 : record[4];
    window[5] += record[0] == 3 && record[4] != LOST;
}

/* ---- the report's text ---- */

typedef struct {
    const uint8_t *at, *end;
} Text;

static int eat(Text *t, uint8_t byte)
{
    if (t->at == t->end || *t->at != byte) return 0;
    t->at++;
    return 1;
}

/* A decimal number from `least` to `most`, as it is written. */
static int number(Text *t, int64_t least, int64_t most, int64_t *out)
{
    int minus = eat(t, '-');
    const uint8_t *from = t->at;
    int64_t x = 0;
    while (t->at < t->end && *t->at >= '0' && *t->at <= '9' && t->at - from < 12) x = 10 * x + (*t->at++ - '0');
    if (t->at == from || (*from == '0' && (t->at - from > 1 || minus))) return 0;
    *out = minus ? -x : x;
    return *out >= least && *out <= most;
}

#define U32 4294967295ll

size_t report_of(const uint8_t *text, size_t size, uint64_t budget, char out[REPORT_ROOM], int *form)
{
    Text t = {text, text + size};
    int64_t x;
    uint32_t lens[3];
    uint16_t addrs[12];
    static int8_t soft[16 * 1122];
    Code code = {0, lens, 0, addrs, 0};
    Settings set;
    size_t words = 0;
    *form = 0;
    if (!eat(&t, 'N') || !eat(&t, '\t') || !number(&t, 0, 1122, &x) || !eat(&t, '\n')) goto refuse;
    code.n = (uint32_t)x;
    while (eat(&t, 'R')) {
        if (code.rows == 3) goto refuse;
        uint32_t count = 0;
        while (eat(&t, '\t')) {
            if (count == 4 || !number(&t, 0, 65535, &x)) goto refuse;
            addrs[code.total++] = (uint16_t)x;
            count++;
        }
        lens[code.rows++] = count;
        if (!eat(&t, '\n')) goto refuse;
    }
    if (!eat(&t, 'P')) goto refuse;
    if (!eat(&t, '\t') || !number(&t, 0, 4, &x)) goto refuse;
    set.lanes = (uint32_t)x;
    if (!eat(&t, '\t') || !number(&t, 0, U32, &x)) goto refuse;
    set.limit = (uint32_t)x;
    if (!eat(&t, '\t') || !number(&t, -128, 127, &x)) goto refuse;
    set.offset = (int8_t)x;
    if (!eat(&t, '\t')) goto refuse;
    set.layered = !eat(&t, 'S');
    x = 0;
    if (set.layered && !number(&t, 0, U32, &x)) goto refuse;
    set.step = (uint32_t)x;
    if (!eat(&t, '\t') || !number(&t, 0, U32, &x)) goto refuse;
    set.rounds = (uint32_t)x;
    if (!eat(&t, '\t') || !number(&t, 0, U32, &x)) goto refuse;
    set.first = (uint32_t)x;
    if (!eat(&t, '\t') || !number(&t, 0, U32, &x)) goto refuse;
    set.length = (uint32_t)x;
    if (!eat(&t, '\n')) goto refuse;
    while (eat(&t, 'W')) {
        if (words == 16 || !eat(&t, '\t') || !number(&t, -128, 127, &x)) goto refuse;
        int8_t *word = soft + words++ * code.n;
        memset(word, (int)x, code.n);
        int64_t before = -1;
        for (int pairs = 0; eat(&t, '\t'); pairs++) {
            int64_t at;
            if (pairs == 64 || !number(&t, before + 1, (int64_t)code.n - 1, &at) || !eat(&t, '\t') || !number(&t, -128, 127, &x)) goto refuse;
            word[at] = (int8_t)x;
            before = at;
        }
        if (!eat(&t, '\n')) goto refuse;
    }
    if (t.at != t.end) goto refuse;
    *form = 1;
    Lent lent = {1 << 20, 1 << 20, 1 << 20, 1 << 20};
    uint32_t refused = run_refusal(code, words * code.n, set, lent);
    if (refused) return (size_t)sprintf(out, "refused\t%u\n", refused);
    Run run;
    if (run_of(code, soft, words, set, budget, &run)) return 0;
    size_t at = (size_t)sprintf(out, "%s\t%u\n", run.ending ? "stopped" : "finished", run.tally[0]);
    for (size_t w = 0; w < words; w++) {
        static const char *const states[] = {"waiting", "held", "met", "unmet"};
        Word *word = &run.word[w];
        at += (size_t)sprintf(out + at, "%zu\t%s\t%u\t%u\t", w, states[word->state], word->iterations, word->unsatisfied);
        at += (size_t)(word->bch == LOST ? sprintf(out + at, "-\t") : sprintf(out + at, "%u\t", word->bch));
        at += (size_t)sprintf(out + at, "%u\n", word->changed);
    }
    run_free(&run);
    return at;
refuse:
    return (size_t)sprintf(out, "refused\t1\n");
}
