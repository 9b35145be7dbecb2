/* libFuzzer target: the functions of the archive, through its header. The input is a script of calls. Every slice is lent as a malloc of
   exactly its length (sometimes with a few bytes in front that are looked at afterwards), and all that a call answers, writes and
   leaves alone is held to the scope's (scope.c). */
#include "raxdov.h"
#include "scope.h"
#include <stdio.h>
#include <stdlib.h>
#include <string.h>

#define BUDGET 150000 /* edges, for a run */

static const uint8_t *at, *end;
static const char *function;
static uint64_t counts[17][16], executions, states[6], endings[2], changed_words[4], corrected, lost_outside, too_long;
static uint64_t series, altered_series, passed_over, oldest_left, of_runs, clamped, combined_again, combined_words;
static const char *const names[17] = {"quantise", "ldpc_sizes", "ldpc_new", "ldpc_check", "ldpc_parity", "ldpc_encode", "ldpc_syndrome_weight", "bch_parity", "bch_encode", "bch_decode", "record_words", "tally_words", "run_sizes", "run", "window_words", "window_push", "combine"};
__attribute__((section("__libfuzzer_extra_counters"), used)) static uint8_t features[4096];

static void wrong(const char *what)
{
    fprintf(stderr, "WRONG: %s: %s\n", function, what);
    abort();
}

/* ---- the script ---- */

static uint32_t byte(void) { return at < end ? *at++ : 0; }

static uint32_t half(void) { return byte() | byte() << 8; }

static uint32_t whole(void) { return half() | half() << 16; }

static uint64_t seed;

static uint32_t chance(uint32_t below)
{
    seed ^= seed << 13;
    seed ^= seed >> 7;
    seed ^= seed << 17;
    return (uint32_t)((seed >> 11) % below);
}

static void sow(void) { seed = (half() + 1) * 0x9e3779b97f4a7c15u, chance(1); }

/* A length at or near what is needed. */
static size_t near(size_t need)
{
    uint32_t b = byte();
    switch (b & 15) {
    case 1: return need ? need - 1 : 0;
    case 2: return need + 1;
    case 3: return need + (b >> 4) * 3;
    case 4: return 0;
    case 5: return b >> 4;
    case 6: return need / 2;
    default: return need;
    }
}

/* ---- what is lent ---- */

typedef struct {
    uint8_t *base, *copy, *p;
    size_t front, size;
} Slice;

static Slice lend(size_t count, size_t each)
{
    Slice s;
    s.size = count * each;
    s.front = (byte() & 7) == 7 ? each * (1 + chance(5)) : 0;
    /* a slice of nothing: a pointer to behind what is allocated */
    if (s.size == 0) s.front = 16;
    s.base = malloc(s.front + s.size);
    s.copy = malloc(s.front + s.size);
    for (size_t i = 0; i < s.front + s.size; i++) s.base[i] = (uint8_t)chance(256);
    memcpy(s.copy, s.base, s.front + s.size);
    s.p = s.base + s.front;
    return s;
}

/* What it holds now is what it held when it was lent. */
static void keep(Slice *s) { memcpy(s->copy, s->base, s->front + s->size); }

static void unchanged_from(Slice s, size_t from, const char *what)
{
    if (memcmp(s.base, s.copy, s.front)) wrong("written in front of a slice");
    if (from < s.size && memcmp(s.p + from, s.copy + s.front + from, s.size - from)) wrong(what);
}

static void unchanged(Slice s) { unchanged_from(s, 0, "changed what it may not"); }

static void give_back(Slice s)
{
    free(s.base);
    free(s.copy);
}

static void answered(unsigned f, uint32_t got, uint32_t expected)
{
    if (got != expected) {
        fprintf(stderr, "answered %u, not %u\n", got, expected);
        wrong("another answer");
    }
    counts[f][expected]++;
    features[f * 16 + expected]++;
}

/* ---- codes ---- */

typedef struct {
    Code code;
    Slice lens, addrs;
    uint32_t refused;
} Lent_code;

static Lent_code take_code(void)
{
    Lent_code c;
    uint32_t kind = byte(), n, m;
    sow();
    switch (kind & 15) {
    case 15: n = whole(); break;
    case 14: n = 374 * (byte() % 123); break;
    case 13: n = 374 * (1 + byte() % 5) + (byte() % 3) - 1; break;
    case 12: n = kind & 16 ? 44880 : kind & 32 ? 45254 : 0; break;
    default: n = 374 * (1 + (byte() + 1) % 4); break;
    }
    m = n / 374;
    uint32_t shape = byte();
    size_t rows = m ? (1 + (shape >> 4)) % m : 0;
    if ((shape & 15) == 15) rows = m;
    if ((shape & 15) == 14) rows = byte();
    if (rows > 300) rows = 300;
    c.lens = lend(rows, 4);
    uint32_t *lens = (uint32_t *)c.lens.p;
    uint64_t sum = 0;
    for (size_t g = 0; g < rows; g++) {
        uint32_t b = rows > 20 ? chance(256) : byte();
        lens[g] = (b + 3) % 6;
        if (b == 255) lens[g] = 128;
        if (b == 254) lens[g] = 120 + byte() % 10;
        if (b == 253) lens[g] = whole();
        sum += lens[g];
    }
    uint32_t mode = byte();
    size_t total = sum > 20000 ? 7 : (size_t)sum;
    if ((mode & 15) == 15) total += 1;
    if ((mode & 15) == 14 && total) total -= 1;
    c.addrs = lend(total, 2);
    uint16_t *addrs = (uint16_t *)c.addrs.p;
    uint32_t q = m > rows ? m - (uint32_t)rows : 1, base = half();
    for (size_t i = 0; i < total; i++) switch (mode >> 4 & 7) {
        case 0: addrs[i] = (uint16_t)half(); break;
        case 1: addrs[i] = (uint16_t)byte(); break;
        case 2: addrs[i] = (uint16_t)base; break;
        case 3: addrs[i] = (uint16_t)(base + i * q); break;
        case 4: addrs[i] = (uint16_t)(base + 374 * q * chance(3) + chance(2)); break;
        default: addrs[i] = (uint16_t)chance(65536); break;
        }
    keep(&c.lens);
    keep(&c.addrs);
    c.code = (Code){n, lens, rows, addrs, total};
    c.refused = code_refusal(c.code);
    return c;
}

static void give_code(Lent_code c)
{
    unchanged(c.lens);
    unchanged(c.addrs);
    give_back(c.lens);
    give_back(c.addrs);
}

#define CODE(c) c.code.n, c.code.lens, c.code.rows, c.code.addrs, c.code.total

static void test_sizes(void)
{
    Lent_code c = take_code();
    Slice sizes = lend(5, 4);
    answered(1, raxdov_ldpc_sizes(CODE(c), (uint32_t *)sizes.p), c.refused);
    if (c.refused)
        unchanged(sizes);
    else {
        uint32_t k = 374 * (uint32_t)c.code.rows, p = c.code.n - k, e = 374 * (uint32_t)c.code.total + 2 * p - 1;
        uint32_t expected[5] = {k, p, p / 374, e, p + 1 + e};
        if (memcmp(sizes.p, expected, 20)) wrong("other sizes");
        unchanged_from(sizes, 20, "");
    }
    give_back(sizes);
    give_code(c);
}

static void test_new(void)
{
    Lent_code c = take_code();
    uint32_t refused = c.refused;
    Lists l = {0};
    if (!refused) l = lists_of(c.code);
    size_t need = l.p + 1 + l.e, length = near(refused ? 9 : need);
    if (!refused && length < need) refused = 13;
    Slice lists = lend(length, 4), code = lend(4, 4);
    answered(2, raxdov_ldpc_new(CODE(c), (uint32_t *)lists.p, length, (uint32_t *)code.p), refused);
    if (refused)
        unchanged(lists), unchanged(code);
    else {
        uint32_t expected[4] = {(uint32_t)l.k, (uint32_t)l.p, (uint32_t)l.q, (uint32_t)l.e};
        if (memcmp(code.p, expected, 16)) wrong("another code");
        if (memcmp(lists.p, l.start, 4 * (l.p + 1)) || memcmp(lists.p + 4 * (l.p + 1), l.bits, 4 * l.e)) wrong("other lists");
        unchanged_from(lists, 4 * need, "tail changed");
        unchanged_from(code, 16, "");
    }
    if (!c.refused) lists_free(l);
    give_back(lists);
    give_back(code);
    give_code(c);
}

static void test_check(void)
{
    Lent_code c = take_code();
    uint32_t refused = c.refused, number = byte() & 1 ? byte() : whole();
    Lists l = {0};
    size_t size = 5;
    if (!refused) {
        l = lists_of(c.code);
        if (byte() & 7) number %= (uint32_t)l.p + 1;
        if (number >= l.p)
            refused = 12;
        else
            size = l.start[number + 1] - l.start[number];
    }
    size_t length = near(size);
    if (!refused && length < size) refused = 13;
    Slice out = lend(length, 4), count = lend(1, 4);
    answered(3, raxdov_ldpc_check(CODE(c), number, (uint32_t *)out.p, length, (uint32_t *)count.p), refused);
    if (refused)
        unchanged(out), unchanged(count);
    else {
        if (*(uint32_t *)count.p != size || size > 128) wrong("another count");
        if (memcmp(out.p, l.bits + l.start[number], 4 * size)) wrong("other bits");
        unchanged_from(out, 4 * size, "tail changed");
        unchanged_from(count, 4, "");
    }
    if (!c.refused) lists_free(l);
    give_back(out);
    give_back(count);
    give_code(c);
}

/* parity (4) and encode (5) */
static void test_encode(int whole_word)
{
    Lent_code c = take_code();
    uint32_t refused = c.refused;
    Lists l = {0};
    if (!refused) l = lists_of(c.code);
    size_t size = near(refused ? 10 : l.k), need = whole_word ? l.k + l.p : l.p, length = near(refused ? 10 : need);
    if (!refused && size != l.k) refused = 12;
    if (!refused && length < need) refused = 13;
    Slice info = lend(size, 1), out = lend(length, 1);
    answered(whole_word ? 5 : 4, whole_word ? raxdov_ldpc_encode(CODE(c), info.p, size, out.p, length) : raxdov_ldpc_parity(CODE(c), info.p, size, out.p, length), refused);
    unchanged(info);
    if (refused)
        unchanged(out);
    else {
        uint8_t *word = malloc(l.k + l.p);
        memcpy(word, info.p, l.k);
        ldpc_parity(l, info.p, word + l.k);
        if (unsatisfied(l, word)) abort();
        if (memcmp(out.p, whole_word ? word : word + l.k, need)) wrong("other bits");
        unchanged_from(out, need, "tail changed");
        free(word);
        if (whole_word) {
            /* encoding meets every check */
            uint32_t weight = 99;
            answered(6, raxdov_ldpc_syndrome_weight(CODE(c), out.p, need, &weight), 0);
            if (weight) wrong("an encoded word with unmet checks");
        }
    }
    if (!c.refused) lists_free(l);
    give_back(info);
    give_back(out);
    give_code(c);
}

static void test_weight(void)
{
    Lent_code c = take_code();
    uint32_t refused = c.refused;
    size_t size = near(refused ? 10 : c.code.n);
    if (!refused && size != c.code.n) refused = 12;
    Slice bits = lend(size, 1), count = lend(1, 4);
    answered(6, raxdov_ldpc_syndrome_weight(CODE(c), bits.p, size, (uint32_t *)count.p), refused);
    unchanged(bits);
    if (refused)
        unchanged(count);
    else {
        Lists l = lists_of(c.code);
        if (*(uint32_t *)count.p != unsatisfied(l, bits.p)) wrong("another count");
        lists_free(l);
        unchanged_from(count, 4, "");
    }
    give_back(bits);
    give_back(count);
    give_code(c);
}

/* ---- soft values ---- */

static float take_float(void)
{
    uint32_t kind = byte(), bits;
    float x;
    switch (kind & 7) {
    case 0: bits = whole(); break;
    case 1: bits = 0x7f800000u | (kind & 8 ? 0x80000000u : 0) | (kind & 16 ? whole() & 0x7fffff : 0); break;
    case 2: x = (float)((int)half() - 32768) / 256; memcpy(&bits, &x, 4); break;
    case 3: x = (float)((int)byte() - 128) + 0.5f; memcpy(&bits, &x, 4); bits += (kind >> 3) % 5 - 2; break;
    case 4: bits = half() | (kind & 8 ? 0x80000000u : 0); break;
    default: x = (float)(kind >> 3) / 8; memcpy(&bits, &x, 4); break;
    }
    memcpy(&x, &bits, 4);
    return x;
}

static void test_quantise(void)
{
    sow();
    uint32_t b = byte();
    size_t size = b % 40, length = near(size);
    float scale = b & 64 ? 1.0f : take_float();
    Slice llr = lend(size, 4), out = lend(length, 1);
    for (size_t i = 0; i < size; i++) {
        float x = take_float();
        memcpy(llr.p + 4 * i, &x, 4);
    }
    keep(&llr);
    uint32_t refused = length < size ? 13 : 0;
    answered(0, raxdov_quantise((const float *)llr.p, size, scale, (int8_t *)out.p, length), refused);
    unchanged(llr);
    if (refused)
        unchanged(out);
    else {
        for (size_t i = 0; i < size; i++)
            if ((int8_t)out.p[i] != soft_value(((const float *)llr.p)[i], scale)) wrong("another soft value");
        unchanged_from(out, size, "tail changed");
    }
    give_back(llr);
    give_back(out);
}

/* ---- combined words ---- */

/* Words of so many values each, one after another. */
static void take_words(int8_t *soft, size_t count, size_t n)
{
    uint32_t kind = byte();
    static const int8_t ends[8] = {-128, -127, -126, -1, 0, 1, 126, 127};
    for (size_t i = 0; i < count * n; i++) switch (kind & 3) {
        case 0: soft[i] = (int8_t)(byte() + 128); break;
        case 1: soft[i] = ends[chance(8)]; break;
        case 2: soft[i] = (int8_t)((int)chance(33) - 16); break;
        default: soft[i] = (int8_t)chance(256); break;
        }
    if (count == 0) return;
    if (kind & 4) { /* the last word brings each sum near to a limit */
        int8_t *last = soft + (count - 1) * n;
        for (size_t i = 0; i < n; i++) {
            int sum = (chance(2) ? 127 : -127) + (int)chance(5) - 2;
            for (size_t w = 0; w + 1 < count; w++) sum -= soft[w * n + i];
            last[i] = (int8_t)(sum < -128 ? -128 : sum > 127 ? 127 : sum);
        }
    }
    if (kind & 8) memset(soft + chance((uint32_t)count) * n, 0, n);
}

/* One call; the combined word, which is given back by the caller, or NULL if it is refused. */
static int8_t *combine(const uint32_t *lengths, size_t count, const int8_t *words, size_t size, size_t length)
{
    const char *called = function;
    function = names[16];
    uint32_t refused = combine_refusal(lengths, count, size, length);
    Slice of = lend(count, 4), soft = lend(size, 1), out = lend(length, 1);
    if (count) memcpy(of.p, lengths, 4 * count);
    if (size) memcpy(soft.p, words, size);
    keep(&of), keep(&soft);
    answered(16, raxdov_combine((const uint32_t *)of.p, count, (const int8_t *)soft.p, size, (int8_t *)out.p, length), refused);
    unchanged(of), unchanged(soft);
    int8_t *word = NULL;
    if (refused)
        unchanged(out);
    else {
        size_t n = lengths[0];
        word = malloc(n + 1);
        for (size_t i = 0; i < n; i++) {
            word[i] = combined_value(words, count, n, i);
            if ((int8_t)out.p[i] != word[i]) wrong("another combined value");
            clamped += word[i] == 127 || word[i] == -127;
        }
        unchanged_from(out, n, "tail changed");
        features[3300 + 8 * (count - 1) + (n < 32 ? n / 16 : n % 16 ? 3 : 2)]++;
    }
    give_back(of), give_back(soft), give_back(out);
    function = called;
    return word;
}

/* The same words in another order, and a word of zeros more: the same combined word. */
static void combine_again(const uint32_t *lengths, size_t count, const int8_t *words, const int8_t *word)
{
    size_t n = lengths[0], order[9], turned = chance((uint32_t)count);
    uint32_t more[9];
    int8_t *again = calloc((count + 1) * n + 1, 1), *got;
    for (size_t w = 0; w < count; w++) order[w] = (w + turned) % count;
    if (count > 2 && chance(2)) order[0] = order[2], order[2] = turned;
    for (size_t w = 0; w <= count; w++) more[w] = (uint32_t)n;
    for (size_t w = 0; w < count; w++) memcpy(again + w * n, words + order[w] * n, n);
    got = combine(more, count, again, count * n, n);
    if (!got || memcmp(got, word, n)) wrong("another word in another order");
    free(got);
    if (count < 8) {
        size_t before = chance((uint32_t)count + 1);
        memset(again, 0, (count + 1) * n);
        for (size_t w = 0; w < count; w++) memcpy(again + (w + (w >= before)) * n, words + w * n, n);
        got = combine(more, count + 1, again, (count + 1) * n, n);
        if (!got || memcmp(got, word, n)) wrong("another word beside one of zeros");
        free(got);
    }
    free(again);
    combined_again++;
}

static void test_combine(void)
{
    sow();
    uint32_t b = byte(), kind = byte(), lengths[16];
    size_t count = b & 8 ? 1 + (b & 7) : (b & 7) == 0 ? 0 : (b & 7) == 1 ? 9 + (b >> 7) : 1 + (b & 7);
    size_t n = b & 16 ? byte() : 16 * (byte() % 5) + (b >> 5) % 4;
    if ((kind & 31) == 31) n = half();
    for (size_t w = 0; w < 16; w++) lengths[w] = (uint32_t)n;
    size_t size = count * n;
    switch (kind >> 5) { /* where it can go wrong; most of the others are accepted */
    case 1: /* unequal, and adding up */
        if (count > 1 && n) {
            size_t from = chance((uint32_t)count), to = (from + 1 + chance((uint32_t)count - 1)) % count;
            uint32_t by = 1 + chance((uint32_t)n);
            lengths[from] -= by, lengths[to] += by;
        }
        break;
    case 2: /* unequal */
        if (count) lengths[chance((uint32_t)count)] += kind & 16 ? whole() : 1;
        break;
    case 3: size = near(size); break;
    case 4: /* equal, and adding up modulo 2^32 only if the count is a power of two */
        for (size_t w = 0; w < count; w++) lengths[w] += (uint32_t)((UINT64_C(1) << 32) / count);
        break;
    }
    size_t length = near(n);
    int8_t *words = malloc(size + 1);
    take_words(words, size == count * n ? count : 1, size == count * n ? n : size);
    int8_t *word = combine(lengths, count, words, size, length);
    if (word && kind & 1) combine_again(lengths, count, words, word);
    free(word);
    free(words);
}

/* ---- BCH ---- */

static size_t bch_size(size_t add)
{
    uint32_t b = byte();
    switch (b & 31) {
    case 0: return half() + 192 - add;
    case 1: return 65535 - add + (b >> 5 & 1);
    case 2: return 192 - add + (b >> 5);
    case 3: return byte();
    default: return 192 - add + 1 + byte() * (1 + (b >> 5) % 4);
    }
}

/* parity (7) and encode (8) */
static void test_bch_encode(int whole_word)
{
    sow();
    size_t size = bch_size(192), need = whole_word ? size + 192 : 192, length = near(need);
    uint32_t refused = size > 65343 ? 11 : length < need ? 13 : 0;
    Slice message = lend(size, 1), out = lend(length, 1);
    answered(whole_word ? 8 : 7, whole_word ? raxdov_bch_encode(message.p, size, out.p, length) : raxdov_bch_parity(message.p, size, out.p, length), refused);
    unchanged(message);
    if (refused)
        unchanged(out);
    else {
        uint8_t parity[192];
        bch_parity(message.p, size, parity);
        if (whole_word && size && memcmp(out.p, message.p, size)) wrong("another message");
        if (memcmp(out.p + need - 192, parity, 192)) wrong("another parity");
        unchanged_from(out, need, "tail changed");
    }
    give_back(message);
    give_back(out);
}

static void test_bch_decode(void)
{
    sow();
    size_t size = bch_size(0);
    uint32_t refused = size < 193 || size > 65535 ? 11 : 0, kind = byte(), flips = 0, outside = 0;
    Slice word = lend(size, 1), result = lend(1, 4), sent = {0};
    if (!(kind & 1))
        for (size_t i = 0; i < size; i++) word.p[i] &= 1;
    if (size >= 193 && (kind & 6)) { /* a codeword with errors */
        bch_parity(word.p, size - 192, word.p + size - 192);
        sent = lend(size, 1);
        memcpy(sent.p, word.p, size);
        flips = (kind >> 3) % 15;
        for (uint32_t i = 0; i < flips; i++) word.p[kind & 4 ? chance((uint32_t)size) : size - 1 - chance(193)] ^= 1;
        /* an error outside the word, at a power p from its length on: x^p mod g */
        if ((byte() & 1) && size < 65535) {
            uint8_t remainder[192], *one;
            outside = (uint32_t)size + chance(size + 500 < 65535 ? 500 : 65535 - (uint32_t)size);
            one = calloc(outside - 191, 1);
            one[0] = 1;
            bch_parity(one, outside - 191, remainder);
            for (int i = 0; i < 192; i++) word.p[size - 192 + (size_t)i] ^= remainder[i];
            free(one);
        }
    }
    keep(&word);
    answered(9, raxdov_bch_decode(word.p, size, (uint32_t *)result.p), refused);
    if (refused)
        unchanged(word), unchanged(result);
    else {
        uint32_t got = *(uint32_t *)result.p;
        uint8_t *model = malloc(size);
        memcpy(model, word.copy + word.front, size);
        if (got != bch_decode(model, size)) wrong("another result");
        if (got == LOST && memcmp(word.p, word.copy + word.front, size)) wrong("a lost word that is not as it came");
        if (memcmp(model, word.p, size)) wrong("other bits");
        if (got != LOST && got > 12) wrong("too many corrected");
        if (outside && flips <= 11 && got != LOST) wrong("an error outside the word, and not lost");
        if (sent.p && !outside && flips <= 12 && (got == LOST || memcmp(word.p, sent.p, size))) wrong("up to 12 errors not corrected");
        free(model);
        unchanged_from(word, size, "");
        unchanged_from(result, 4, "");
        features[1024 + (got == LOST ? 15 : got)]++;
        features[1040 + (outside && flips <= 11 ? flips : 15)]++;
        corrected += got != LOST && got > 0;
        lost_outside += outside && flips <= 11;
    }
    if (sent.p) give_back(sent);
    give_back(word);
    give_back(result);
}

/* ---- windows ---- */

/* A window and its ring, handed on from push to push; beside them the scope's, and the finished records since it was empty. */
typedef struct {
    uint32_t width;
    int altered;
    Slice window, ring;
    uint64_t numbers[WINDOW];
    uint32_t *same_ring;
    uint32_t (*records)[RECORD];
    size_t count, room;
} Series;

static Series begin(uint32_t width, size_t ring)
{
    Series s = {0};
    s.width = width;
    s.window = lend(WINDOW, 8);
    s.ring = lend(ring, 4);
    memset(s.window.p, 0, 8 * WINDOW);
    s.same_ring = malloc(4 * ring + 1);
    memcpy(s.same_ring, s.ring.p, 4 * ring);
    series++;
    return s;
}

static void end_series(Series *s)
{
    if (!s->same_ring) return;
    free(s->same_ring);
    free(s->records);
    give_back(s->window);
    give_back(s->ring);
    memset(s, 0, sizeof *s);
}

/* The ring is compared and the figures are worked out afresh if `all`. */
static void push(Series *s, const uint32_t *record, int all)
{
    uint64_t *window = (uint64_t *)s->window.p, figures[WINDOW - 1];
    uint32_t refused = window_refusal(s->width, s->ring.size / 4);
    const char *called = function;
    function = names[15];
    answered(15, raxdov_window_push(s->width, window, record, (uint32_t *)s->ring.p, s->ring.size / 4), refused);
    if (!refused) {
        int full = s->numbers[1] >= s->width;
        if (!finished(record))
            passed_over++;
        else {
            oldest_left += full;
            if (s->count == s->room) s->records = realloc(s->records, (s->room = 2 * s->room + 8) * sizeof *s->records);
            memcpy(s->records[s->count++], record, sizeof *s->records);
            features[3200 + 6 * full + 2 * (record[4] == LOST ? 1 : record[0] == 3 ? 2 : 0) + s->altered]++;
        }
        window_push(s->width, s->numbers, record, s->same_ring);
    }
    if (memcmp(window, s->numbers, 8 * WINDOW)) wrong("another window");
    if (all) {
        if (s->ring.size && memcmp(s->ring.p, s->same_ring, s->ring.size)) wrong("another ring");
        if (!s->altered) {
            figures_of((const uint32_t(*)[RECORD])s->records, s->count, s->width, figures);
            if (memcmp(window + 1, figures, sizeof figures)) wrong("figures that are not those of the last records");
        }
    }
    unchanged_from(s->window, 8 * WINDOW, "");
    unchanged_from(s->ring, s->ring.size, "");
    function = called;
}

static uint32_t take_width(void)
{
    uint32_t b = byte();
    switch (b & 15) {
    case 15: return whole();
    case 14: return 4093 + (b >> 4) % 8;
    case 13: return b & 16 ? 0 : 4097;
    case 12: return half() % 4200;
    default: return 1 + (b >> 4) % 12;
    }
}

static void take_record(uint32_t record[RECORD])
{
    uint32_t b = at < end ? byte() : chance(256);
    for (int i = 1; i < RECORD; i++) record[i] = b & 8 ? chance(65536) << 16 | chance(65536) : chance(13);
    record[0] = (b & 7) < 6 ? 2 + (b & 1) : (b & 7) == 6 ? b >> 4 & 1 : 4 + chance(4);
    if (b >> 4 == 15) record[0] = chance(65536) << 16 | chance(65536);
    if ((b >> 5) % 3 == 1) record[4] = LOST;
    if (b >> 4 == 14) record[1] = record[4] = LOST - 1;
}

static void test_window(void)
{
    sow();
    uint32_t width = take_width(), b = byte(), pushes = 1 + byte() % 48;
    Series s = begin(width, near(width <= 5000 ? 3 * (size_t)width : 9));
    uint32_t refused = window_refusal(width, s.ring.size / 4);
    if (b >= 248 && !refused) pushes = width + byte();
    if ((b & 3) == 3) { /* a window of any numbers */
        s.altered = 1;
        altered_series++;
        for (int i = 0; i < WINDOW; i++) {
            uint32_t kind = byte();
            s.numbers[i] = kind & 1 ? (uint64_t)chance(65536) << 48 | chance(65536) : kind & 2 ? (uint64_t)width + (kind >> 2) % 4 - 1 : (uint64_t)0 - (kind >> 2) % 3;
        }
        memcpy(s.window.p, s.numbers, 8 * WINDOW);
    }
    for (uint32_t i = 0; i < pushes; i++) {
        Slice record = lend(RECORD, 4);
        take_record((uint32_t *)record.p);
        keep(&record);
        /* another width, for which the ring has room */
        if (s.altered && !refused && chance(4) == 0) s.width = 1 + chance(width);
        push(&s, (const uint32_t *)record.p, width <= 64 || i % 256 == 0 || i + 1 == pushes);
        unchanged(record);
        give_back(record);
    }
    end_series(&s);
}

/* ---- runs ---- */

/* A window over the records of all runs of the script. */
static Series over_runs;

static void test_numbers(void)
{
    if (raxdov_record_words() != RECORD || RAXDOV_RECORD_COUNT != RECORD) wrong("record_words");
    if (raxdov_tally_words() != TALLY || RAXDOV_TALLY_COUNT != TALLY) wrong("tally_words");
    if (raxdov_window_words() != WINDOW || RAXDOV_WINDOW_COUNT != WINDOW) wrong("window_words");
    counts[10][0]++;
    counts[11][0]++;
    counts[14][0]++;
}

static uint32_t take_lanes(void)
{
    uint32_t b = byte();
    switch (b & 15) {
    case 15: return whole();
    case 14: return b & 16 ? 0 : 65;
    case 13: return 64;
    case 12:
    case 11:
    case 10: return 1 + byte() % 64;
    default: return 1 + (b >> 4) % 9;
    }
}

static void test_run_sizes(void)
{
    Lent_code c = take_code();
    uint32_t lanes = take_lanes(), refused = c.refused ? c.refused : lanes < 1 || lanes > 64 ? 7 : 0;
    Slice sizes = lend(2, sizeof(size_t));
    answered(12, raxdov_run_sizes(CODE(c), lanes, (size_t *)sizes.p), refused);
    if (refused)
        unchanged(sizes);
    else {
        size_t p = c.code.n - 374 * c.code.rows, e = 374 * c.code.total + 2 * p - 1, *got = (size_t *)sizes.p;
        if (got[0] != (c.code.n + 3 * e) * lanes || got[1] != e + p + 1) wrong("other sizes");
        unchanged_from(sizes, 2 * sizeof(size_t), "");
    }
    give_back(sizes);
    give_code(c);
}

static Settings take_settings(Code code, int sound)
{
    Settings s = {0};
    uint32_t b = byte();
    s.lanes = take_lanes();
    s.limit = b & 1 ? byte() % 6 : b & 2 ? byte() : b & 4 ? 65530 + byte() % 8 : b & 8 ? whole() : 3;
    s.layered = b & 16 ? 1 : b & 32 ? whole() : 0;
    s.step = b & 64 ? byte() % 8 : b & 128 ? 370 + byte() % 8 : byte();
    uint32_t o = byte();
    s.offset = (int8_t)(o & 1 ? byte() : (o >> 1) % 4);
    s.rounds = o & 64 ? UINT32_MAX : o & 128 ? whole() : (byte() + 11) % 12;
    uint32_t f = byte();
    if (sound && code.n >= 374) {
        s.first = half() % (code.n - 192);
        s.length = f & 1 ? 193 : f & 2 ? code.n - s.first : 193 + half() % (code.n - 192 - s.first);
    }
    if (f == 255 || !sound) s.first = whole();
    if (f == 254 || !sound) s.length = whole();
    if (f == 253) s.length = (uint32_t)-(int32_t)s.first;
    if (f == 252) s.first++, s.length = code.n - s.first + 1;
    return s;
}

static void take_soft(Lent_code c, int8_t *soft, size_t size)
{
    uint32_t kind = byte(), n = c.code.n;
    int8_t plain = (int8_t)byte();
    switch (kind & 7) {
    case 7: memset(soft, plain, size); break;
    case 6:
        memset(soft, plain, size);
        for (uint32_t i = kind >> 3; i && size; i--) soft[chance((uint32_t)size)] = (int8_t)byte();
        break;
    case 5:
        for (size_t i = 0; i < size; i++) soft[i] = (int8_t)chance(256);
        break;
    case 4:
        for (size_t i = 0; i < size; i++) soft[i] = (int8_t)(chance(4) ? 127 : chance(2) ? -128 : -127);
        break;
    default: /* codewords with noise */
        if (c.refused) {
            memset(soft, plain, size);
            break;
        }
        Lists l = lists_of(c.code);
        uint8_t *word = malloc(n);
        for (size_t w = 0; w + n <= size; w += n) {
            for (size_t i = 0; i < l.k; i++) word[i] = (uint8_t)chance(2);
            ldpc_parity(l, word, word + l.k);
            for (size_t i = 0; i < n; i++) soft[w + i] = (int8_t)((1 + (int)chance(kind & 8 ? 127 : 12)) * (word[i] ? -1 : 1));
            uint32_t flips = (kind >> 4) * (1 + chance(3));
            for (uint32_t i = 0; i < flips; i++) {
                size_t v = w + chance(n);
                soft[v] = (int8_t)-soft[v];
            }
        }
        free(word);
        lists_free(l);
    }
}

/* Each word is combined of several, of which it is one, and the combined word put in its place. */
static void combine_soft(int8_t *soft, size_t words, uint32_t n)
{
    for (size_t w = 0; w < words; w++) {
        size_t count = 1 + chance(8), own = chance((uint32_t)count);
        uint32_t lengths[8];
        int8_t *all = malloc(count * n), *word;
        for (size_t d = 0; d < count; d++) {
            uint32_t from = chance(n), to = from + chance(n - from), kind = d == own ? 0 : chance(4);
            lengths[d] = n;
            for (uint32_t i = 0; i < n; i++) {
                int v = soft[w * n + i];
                if (kind == 1 && i >= from && i < to) v = 0;
                if (kind == 2) v = v / 2 + (int)chance(41) - 20;
                if (kind == 3) v = chance(4) ? v / 3 : -v;
                all[d * n + i] = (int8_t)(v < -128 ? -128 : v > 127 ? 127 : v);
            }
        }
        word = combine(lengths, count, all, count * n, n);
        if (!word) abort();
        memcpy(soft + w * n, word, n);
        free(word);
        free(all);
        combined_words++;
    }
}

static int test_run(void)
{
    Lent_code c = take_code();
    uint32_t n = c.code.n, b = byte();
    size_t words = (b + 3) % 6, size;
    if (b >= 252) words = byte() % 40;
    size = n <= 44880 ? n * words : byte();
    if (b == 251 && n == 374) size = 4097 * 374;
    if (b == 250) size++;
    if (b == 249 && size) size--;
    if (size > 1600000) size = 0;
    Settings set = take_settings(c.code, byte() < 248);
    size_t p = n - 374 * c.code.rows, e = 374 * c.code.total + 2 * p - 1;
    Lent need = {c.refused ? 3 : size, c.refused ? 4 : RECORD * (size / n), c.refused ? 5 : (n + 3 * e) * set.lanes, c.refused ? 6 : e + p + 1};
    if (need.work > 4000000) need.work = 100;
    Lent lent = {near(need.out), near(need.records), near(need.work), near(need.lists)};
    uint32_t refused = run_refusal(c.code, size, set, lent);
    Slice soft = lend(size, 1);
    take_soft(c, (int8_t *)soft.p, size);
    words = refused ? 0 : size / n;
    if (byte() & 1) combine_soft((int8_t *)soft.p, words, n);
    keep(&soft);
    Run run = {0};
    if (!refused && run_of(c.code, (const int8_t *)soft.p, words, set, BUDGET, &run)) {
        too_long++;
        give_back(soft);
        give_code(c);
        return 0;
    }
    Slice out = lend(lent.out, 1), records = lend(lent.records, 4), tally = lend(TALLY, 4), ending = lend(1, 4), work = lend(lent.work, 1), lists = lend(lent.lists, 4);
    answered(13, raxdov_run(CODE(c), (const int8_t *)soft.p, size, set.lanes, set.limit, set.layered, set.step, set.offset, set.rounds, set.first, set.length, out.p, lent.out, (uint32_t *)records.p, lent.records, (uint32_t *)tally.p, (uint32_t *)ending.p, (int8_t *)work.p, lent.work, (uint32_t *)lists.p, lent.lists), refused);
    unchanged(soft);
    if (refused) {
        unchanged(out), unchanged(records), unchanged(tally), unchanged(ending), unchanged(work), unchanged(lists);
    } else {
        Lists l = lists_of(c.code);
        const uint32_t *got = (const uint32_t *)tally.p;
        uint32_t sums[TALLY] = {got[0]};
        for (size_t w = 0; w < words; w++) {
            const uint32_t *r = (const uint32_t *)records.p + RECORD * w;
            Word *word = &run.word[w];
            if (r[0] != word->state) wrong("another state");
            if (r[1] != word->iterations) wrong("other iterations");
            if (r[2] != word->unsatisfied) wrong("another count of unsatisfied checks");
            if (r[4] != word->bch) wrong("another BCH result");
            if (r[5] != word->changed) wrong("another count of bits changed by LDPC");
            if (word->unsatisfied ? r[3] >= l.p || !unmet(l, word->before, r[3]) : r[3] != 0) wrong("a named check that is met");
            const uint8_t *bits = out.p + w * n;
            if (r[4] == LOST && memcmp(bits, word->before, n)) wrong("a lost word that is not as LDPC left it");
            if (memcmp(bits, word->state ? word->bits : out.copy + out.front + w * n, n)) wrong("other bits");
            sums[1] += r[0] > 0;
            sums[2] += r[1];
            sums[3] += r[0] == 2 && r[4] != LOST;
            sums[4] += r[4] == LOST;
            sums[5] += r[0] == 3 && r[4] != LOST;
            states[r[0]]++;
            states[4] += r[4] == LOST;
            states[5] += r[0] == 3 && r[4] != LOST;
            features[2048 + r[0] * 256 + (r[4] == LOST ? 15 : r[4]) * 16 + (r[1] < 15 ? r[1] : 15)]++;
            changed_words[r[0]] += r[5] > 0;
            unsigned digits = 0; /* binary */
            while (r[5] >> digits) digits++;
            features[3072 + r[0] * 32 + digits]++;
        }
        if (memcmp(got, sums, sizeof sums)) wrong("a tally that is not the records'");
        if (!over_runs.same_ring) over_runs = begin(3, 9);
        for (size_t w = 0; w < words; w++) push(&over_runs, (const uint32_t *)records.p + RECORD * w, 1);
        of_runs += words;
        if (memcmp(got, run.tally, sizeof run.tally)) wrong("another tally");
        if (*(uint32_t *)ending.p != run.ending) wrong("another ending");
        endings[run.ending]++;
        features[1100 + run.ending]++;
        features[1104 + set.lanes]++;
        size_t w = (n + 3 * e) * set.lanes, x = 4 * (e + p + 1);
        for (size_t i = 0; i < w; i++)
            if (work.p[i]) wrong("work not left zero");
        for (size_t i = 0; i < x; i++)
            if (lists.p[i]) wrong("lists not left zero");
        unchanged_from(out, size, "tail of the output changed");
        unchanged_from(records, 4 * RECORD * words, "tail of the records changed");
        unchanged_from(work, w, "tail of work changed");
        unchanged_from(lists, x, "tail of lists changed");
        unchanged_from(tally, 4 * TALLY, "");
        unchanged_from(ending, 4, "");
        lists_free(l);
        run_free(&run);
    }
    give_back(out), give_back(records), give_back(tally), give_back(ending), give_back(work), give_back(lists), give_back(soft);
    give_code(c);
    return 1;
}

/* ---- */

static void tell(void)
{
    fprintf(stderr, "counts: %lu scripts; %lu runs that were too long were not made; calls by answer:\n", executions, too_long);
    for (int f = 0; f < 17; f++) {
        uint64_t sum = 0;
        for (int i = 0; i < 16; i++) sum += counts[f][i];
        fprintf(stderr, "counts: %s %lu:", names[f], sum);
        for (int i = 0; i < 16; i++)
            if (counts[f][i]) fprintf(stderr, " %d: %lu", i, counts[f][i]);
        fprintf(stderr, "\n");
    }
    fprintf(stderr, "counts: runs finished %lu, stopped %lu; words: waiting %lu, held %lu, met %lu, unmet %lu, of them lost %lu, doubtful %lu; with bits changed by LDPC: held %lu, met %lu, unmet %lu; BCH words corrected %lu, lost by an error outside %lu\n"
                    "counts: windows %lu, %lu of them altered; records passed over %lu; pushes where the oldest left %lu; records of runs pushed %lu\n"
                    "counts: combined values at a limit %lu; combined again in another order and beside a word of zeros %lu; words of runs combined %lu\n", endings[0], endings[1], states[0], states[1], states[2], states[3], states[4], states[5], changed_words[1], changed_words[2], changed_words[3], corrected, lost_outside, series, altered_series, passed_over, oldest_left, of_runs, clamped, combined_again, combined_words);
}

int LLVMFuzzerInitialize(int *argc, char ***argv)
{
    (void)argc, (void)argv;
    scope_start();
    atexit(tell);
    return 0;
}

int LLVMFuzzerTestOneInput(const uint8_t *data, size_t size)
{
    at = data;
    end = data + size;
    executions++;
    for (int calls = 0; at < end && calls < 8; calls++) {
        uint32_t f = byte() % 26;
        function = names[f < 15 ? f : f < 18 ? 15 : f < 20 ? 16 : 13];
        switch (f) {
        case 0: test_quantise(); break;
        case 1: test_sizes(); break;
        case 2: test_new(); break;
        case 3: test_check(); break;
        case 4: test_encode(0); break;
        case 5: test_encode(1); break;
        case 6: test_weight(); break;
        case 7: test_bch_encode(0); break;
        case 8: test_bch_encode(1); break;
        case 9: test_bch_decode(); break;
        case 10:
        case 11:
        case 14: test_numbers(); break;
        case 12: test_run_sizes(); break;
        case 15:
        case 16:
        case 17: test_window(); break;
        case 18:
        case 19: test_combine(); break;
        default:
            if (!test_run()) {
                end_series(&over_runs);
                return -1;
            }
            calls += 3;
        }
    }
    end_series(&over_runs);
    return 0;
}
