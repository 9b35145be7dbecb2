/* libFuzzer target: the whole report program. Its `main` is `report_main` here, and its read and write are those below, which hand
   out the text in pieces, take the output in pieces, and fail. The report is held to the scope's (scope.c). */
#include "scope.h"
#include <stdio.h>
#include <stdlib.h>
#include <string.h>
#if __has_feature(memory_sanitizer)
#include <sanitizer/msan_interface.h>
/* whether it may be lent to be filled; whether it was written before it is handed out */
static int outside(const void *p, size_t size) { return (void)p, (void)size, 0; }
static int unwritten(const void *p, size_t size) { return __msan_test_shadow(p, size) != -1; }
#else
#include <sanitizer/asan_interface.h>
static int outside(const void *p, size_t size) { return __asan_region_is_poisoned((void *)(uintptr_t)p, size) != NULL; }
static int unwritten(const void *p, size_t size) { return outside(p, size); }
#endif

#define BUDGET 200000 /* edges */

int report_main(void);

/* What the program meets: the text, how many bytes a read or write moves at most (0: all), and which call fails, counted from 1
   (0: none). A write that fails gives -1 or, if `none`, 0. */
static struct {
    const uint8_t *text;
    size_t size, at, piece_in, piece_out;
    unsigned reads, writes, fail_read, fail_write, fail_error;
    int none, ended, failed_read, failed_write;
    size_t got[3];
    char out[3][REPORT_ROOM];
} world;

static void wrong(const char *what)
{
    fprintf(stderr, "WRONG: %s\n", what);
    fprintf(stderr, "program wrote (%zu): %.*s\nand on 2 (%zu): %.*s\n", world.got[1], (int)world.got[1], world.out[1], world.got[2],
            (int)world.got[2], world.out[2]);
    abort();
}

ssize_t fuzz_read(int fd, void *buf, size_t count)
{
    if (fd != 0) wrong("read from another descriptor");
    if (world.ended) wrong("read after the end");
    if (count == 0) wrong("read of nothing");
    if (outside(buf, count)) wrong("lent more than it has");
    if (++world.reads == world.fail_read) {
        world.failed_read = 1;
        world.ended = 1;
        return -1;
    }
    size_t more = world.size - world.at;
    if (more > count) more = count;
    if (world.piece_in && more > world.piece_in) more = world.piece_in;
    if (more) memcpy(buf, world.text + world.at, more);
    world.at += more;
    world.ended = more == 0;
    return (ssize_t)more;
}

ssize_t fuzz_write(int fd, const void *buf, size_t count)
{
    if (fd != 1 && fd != 2) wrong("written to another descriptor");
    if (count == 0) wrong("write of nothing");
    if (unwritten(buf, count)) wrong("written from outside, or what was never filled");
    if (fd == 1 && ++world.writes == world.fail_write) {
        world.failed_write = 1;
        return world.none ? 0 : -1;
    }
    if (fd == 1 && world.failed_write) wrong("written after a write that failed");
    if (fd == 2 && ++world.fail_error == 1000) return -1;
    if (world.piece_out && count > world.piece_out) count = world.piece_out;
    if (world.got[fd] + count > REPORT_ROOM) wrong("too much written");
    memcpy(world.out[fd] + world.got[fd], buf, count);
    world.got[fd] += count;
    return (ssize_t)count;
}

static void start(const uint8_t *text, size_t size)
{
    memset(&world, 0, offsetof(__typeof__(world), out));
    world.text = text;
    world.size = size;
}

static int says(int fd, const char *what, size_t size) { return world.got[fd] == size && memcmp(world.out[fd], what, size) == 0; }

static uint64_t calls, texts, forms, too_long, refusals[14], states[5], endings[2], changed_words[4], failed_reads, failed_writes;

static void tell(void)
{
    fprintf(stderr, "counts: %lu calls of main on %lu texts, %lu of the form; ran: finished %lu, stopped %lu; words: waiting %lu, held %lu, met %lu, unmet %lu, of them lost %lu; with bits changed by LDPC: held %lu, met %lu, unmet %lu; refused:",
            calls, texts, forms, endings[0], endings[1], states[0], states[1], states[2], states[3], states[4], changed_words[1], changed_words[2], changed_words[3]);
    for (int i = 1; i < 14; i++)
        if (refusals[i]) fprintf(stderr, " %d: %lu", i, refusals[i]);
    fprintf(stderr, "; reads that failed %lu, writes %lu; too long, not run: %lu\n", failed_reads, failed_writes, too_long);
}

int LLVMFuzzerInitialize(int *argc, char ***argv)
{
    (void)argc, (void)argv;
    scope_start();
    atexit(tell);
    return 0;
}

/* Features besides the edges: what the report says. */
__attribute__((section("__libfuzzer_extra_counters"), used)) static uint8_t features[2048];

static void notice(const char *report, size_t size, int form)
{
    unsigned number;
    if (sscanf(report, "refused\t%u", &number) == 1 && number < 14) {
        refusals[number]++;
        features[number]++;
        return;
    }
    forms += (uint64_t)form;
    int stopped = report[0] == 's';
    endings[stopped]++;
    features[16 + stopped]++;
    for (const char *at = memchr(report, '\n', size); at && at + 1 < report + size; at = memchr(at + 1, '\n', (size_t)(report + size - at - 1))) {
        char state[16], bch[16];
        unsigned word, iterations, unsatisfied, changed;
        if (sscanf(at + 1, "%u\t%15s\t%u\t%u\t%15s\t%u", &word, state, &iterations, &unsatisfied, bch, &changed) != 6) wrong("a line of another form");
        unsigned s = state[0] == 'w' ? 0 : state[0] == 'h' ? 1 : state[0] == 'm' ? 2 : 3;
        unsigned b = bch[0] == '-' ? 15 : (unsigned)atoi(bch), i = iterations < 12 ? iterations : 12 + (iterations > 50) + (iterations > 200);
        states[s]++;
        states[4] += b == 15;
        features[32 + s * 256 + b * 16 + i]++;
        changed_words[s] += changed > 0;
        unsigned digits = 0; /* binary */
        while (changed >> digits) digits++;
        features[1056 + s * 32 + digits]++;
    }
}

int LLVMFuzzerTestOneInput(const uint8_t *data, size_t size)
{
    char expected[REPORT_ROOM];
    int form;
    texts++;
    size_t length = report_of(data, size, BUDGET, expected, &form);
    if (length == 0) {
        too_long++;
        return -1;
    }
    uint8_t *text = malloc(size + !size);
    if (size) memcpy(text, data, size);
    uint64_t h = 1469598103934665603u;
    for (size_t i = 0; i < size; i++) h = (h ^ data[i]) * 1099511628211u;
    h ^= h >> 29;

    /* all at once */
    start(text, size);
    calls++;
    if (report_main() != 0) wrong("another status");
    if (!says(1, expected, length)) {
        fprintf(stderr, "expected: %.*s\n", (int)length, expected);
        wrong("another report");
    }
    if (world.got[2]) wrong("a line on standard error");
    if (world.at != (size < 10502 ? size : 10502)) wrong("not read as far as it should");
    notice(expected, length, form);

    /* in pieces, or with a call that fails */
    static const size_t pieces[] = {1, 2, 3, 7, 64, 1000, 4095, 4096};
    start(text, size);
    world.piece_in = pieces[h & 7];
    world.piece_out = pieces[h >> 3 & 7];
    switch (h >> 6 & 3) {
    case 2: world.fail_read = 1 + (h >> 8) % 8; break;
    case 3: world.fail_write = 1 + (h >> 8) % 4, world.none = h >> 10 & 1; break;
    }
    calls++;
    if (report_main() != 0) wrong("another status in pieces");
    static const char no_input[] = "report: standard input cannot be read\n", no_output[] = "report: standard output cannot be written\n";
    if (world.failed_read) {
        failed_reads++;
        if (world.got[1] || !says(2, no_input, sizeof no_input - 1)) wrong("a read failed");
    } else if (world.failed_write) {
        failed_writes++;
        if (world.got[1] >= length || memcmp(world.out[1], expected, world.got[1]) || !says(2, no_output, sizeof no_output - 1)) wrong("a write failed");
    } else if (!says(1, expected, length) || world.got[2])
        wrong("another report in pieces");
    free(text);
    return 0;
}

/* ---- changes that know lines and fields ---- */

static uint64_t seed;

static uint64_t pick(uint64_t below)
{
    seed ^= seed << 13;
    seed ^= seed >> 7;
    seed ^= seed << 17;
    return seed % below;
}

size_t LLVMFuzzerMutate(uint8_t *data, size_t size, size_t max);

/* Any number, or none. */
static size_t put_any(char *out)
{
    static const char *const edges[] = {"0", "1", "2", "3", "4", "5", "-1", "S", "126", "127", "128", "-127", "-128", "-129", "192", "193", "373", "374", "375", "747", "748", "1121", "1122", "1123", "65535", "65536", "4294967295", "4294967296", "-0", "01", "", "10", "100"};
    switch (pick(5)) {
    case 0: return (size_t)sprintf(out, "%s", edges[pick(sizeof edges / sizeof *edges)]);
    case 1: return (size_t)sprintf(out, "%d", (int)pick(256) - 128);
    case 2: return (size_t)sprintf(out, "%u", (unsigned)pick(1122));
    case 3: return (size_t)sprintf(out, "%u", (unsigned)pick(65536));
    default: return (size_t)sprintf(out, "%u", (unsigned)pick(12));
    }
}

/* A number that may stand in a field: of line `line`, field `index`, between positions `low` and `high`. */
static size_t put_number(char *out, uint8_t line, unsigned index, long low, long high)
{
    if (pick(12) == 0) return put_any(out);
    long x = (long)pick(256) - 128; /* a soft value */
    if (line == 'N') x = 374 * (long)pick(4);
    if (line == 'R') x = (long)(pick(2) ? pick(65536) : pick(760));
    if (line == 'W' && index % 2 == 0) x = high > low + 1 ? low + 1 + (long)pick((uint64_t)(high - low - 1)) : low + 1;
    if (line == 'P') switch (index) {
        case 1: x = (long)pick(5); break;
        case 2: x = (long)(pick(4) ? pick(9) : pick(2) ? pick(70) : 65530 + pick(8)); break;
        case 3: x = pick(2) ? (long)pick(5) - 1 : x; break;
        case 4:
            if (pick(2)) return (size_t)sprintf(out, "S");
            x = (long)(pick(2) ? pick(400) : pick(8));
            break;
        case 5: x = (long)(pick(2) ? pick(9) : 4294967295u - pick(2)); break;
        case 6: x = (long)(pick(2) ? 0 : pick(930)); break;
        default: x = (long)(193 + pick(2) * pick(182)); break;
        }
    return (size_t)sprintf(out, "%ld", x);
}

static long number_at(const uint8_t *data, size_t size, size_t at)
{
    long x = 0;
    for (size_t digits = 0; at < size && digits < 9 && data[at] >= '0' && data[at] <= '9'; at++, digits++) x = 10 * x + (data[at] - '0');
    return x;
}

static size_t splice(uint8_t *data, size_t size, size_t max, size_t from, size_t to, const char *new, size_t length)
{
    if (size - (to - from) + length > max) return size;
    memmove(data + from + length, data + to, size - to);
    memcpy(data + from, new, length);
    return size - (to - from) + length;
}

size_t LLVMFuzzerCustomMutator(uint8_t *data, size_t size, size_t max, unsigned int with)
{
    seed = with * 0x9e3779b97f4a7c15u + 1;
    pick(1);
    if (size == 0 || pick(5) == 0) return LLVMFuzzerMutate(data, size, max);
    for (uint64_t times = 1 + pick(3); times; times--) {
        size_t at = pick(size), from = at, to = at;
        char new[12000];
        uint64_t kind = pick(8);
        if (kind < 5) { /* another number in a field */
            while (from > 0 && data[from - 1] != '\t' && data[from - 1] != '\n') from--;
            while (to < size && data[to] != '\t' && data[to] != '\n') to++;
            if (from == 0 || data[from - 1] == '\n') continue;
            size_t line = from, second = from;
            unsigned index = 0;
            for (; line > 0 && data[line - 1] != '\n'; line--)
                if (data[line - 1] == '\t' && ++index == 3) second = line - 1;
            long low = -1, high = 1122;
            if (index > 3) low = number_at(data, size, second + 1);
            size_t next = to;
            for (int tabs = 0; next < size && data[next] != '\n' && tabs < 2; next++) tabs += data[next] == '\t';
            if (next < size && next > to && data[next - 1] == '\t') high = number_at(data, size, next);
            size = splice(data, size, max, from, to, new, put_number(new, data[line], index, low, high));
        } else { /* a line: pairs behind it, twice, away, or at another place */
            while (from > 0 && data[from - 1] != '\n') from--;
            while (to < size && data[to] != '\n') to++;
            if (to < size) to++;
            if (to - from > 4000) continue;
            if (kind == 5 && pick(2) && data[from] == 'W' && data[to - 1] == '\n') {
                uint64_t count = 1 + pick(14), position = pick(40), step = 1 + pick(300), length = 0;
                length += (uint64_t)sprintf(new, "W\t%d", (int)pick(256) - 128);
                for (uint64_t i = 0; i < count; i++, position += 1 + pick(step))
                    length += (uint64_t)sprintf(new + length, "\t%u\t%d", (unsigned)position, (int)pick(256) - 128);
                new[length++] = '\n';
                size = splice(data, size, max, from, to, new, length);
            } else if (kind <= 5) {
                memcpy(new, data + from, to - from);
                size = splice(data, size, max, to, to, new, to - from);
            } else if (kind == 6)
                size = splice(data, size, max, from, to, new, 0);
            else {
                size_t length = 0;
                new[length++] = '\t';
                length += put_any(new + length);
                size_t end = to > from && data[to - 1] == '\n' ? to - 1 : to;
                size = splice(data, size, max, end, end, new, length);
            }
        }
        if (size == 0) break;
    }
    return size;
}
