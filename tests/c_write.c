/*
 * Checks janus_write through its header: what it writes, what it refuses and in which order, and what it leaves alone. Each call is
 * made twice: with memory that ends at a page which cannot be touched, so that not even a read may go past it, and with just as
 * much memory of the heap, or NULL where that is none. Ends at the first failure.
 *
 * usage: c_write                             the checks
 *        c_write sheet N L [RUN..] <ENTRIES  the sheet of the entries on standard input, to compare with another program's; ends
 *                                            with the number returned
 */
#define _GNU_SOURCE
#include <sys/mman.h>

#include "c_sheet.h"

enum { PAGE = 4096, LARGEST = 20 * PAGE, MOST_RUNS = 255 };
enum { ENTRIES, RUNS, OUTPUT, FENCES };

#define NO_SIZE ((size_t)-86) /* what the size holds before a call */

/* What the next call is given, beside its output. The sheet that should come out is `sheet`. */
static size_t seats, limit;
static uint8_t entries[LARGEST];
static size_t entries_length;
static size_t runs[MOST_RUNS];
static size_t run_count;

static uint8_t *fences[FENCES]; /* where memory of each kind ends */

static void make_fences(void)
{
    for (int kind = 0; kind < FENCES; kind++) {
        uint8_t *all = mmap(NULL, LARGEST + PAGE, PROT_READ | PROT_WRITE, MAP_PRIVATE | MAP_ANONYMOUS, -1, 0);
        check(all != MAP_FAILED, "a fence", "there is room");
        fences[kind] = all + LARGEST;
        check(mprotect(fences[kind], PAGE, PROT_NONE) == 0, "a fence", "it cannot be touched");
    }
}

/* A copy of so many bytes in memory of just that length. */
static void *lend(int kind, const void *bytes, size_t length, int heap)
{
    uint8_t *memory = fences[kind] - length;
    if (heap)
        memory = length == 0 ? NULL : malloc(length);
    if (length > 0)
        memcpy(memory, bytes, length);
    return memory;
}

static void give_back(void *entries_lent, void *runs_lent, void *output)
{
    free(entries_lent);
    free(runs_lent);
    free(output);
}

/* One call with an output of a length: the number returned. Refused, it changes neither the output nor the size. */
static uint32_t call(const char *what, size_t length, int heap)
{
    static uint8_t blank[LARGEST];
    memset(blank, FILL, sizeof blank);
    memset(fences[OUTPUT] - length - GUARD, FILL, GUARD);
    void *entries_lent = lend(ENTRIES, entries, entries_length, heap);
    void *runs_lent = lend(RUNS, runs, sizeof *runs * run_count, heap);
    uint8_t *output = lend(OUTPUT, blank, length, heap);
    size_t size = NO_SIZE;
    const uint32_t code = janus_write(seats, limit, entries_lent, entries_length, runs_lent, run_count, output, length, &size);
    const size_t written = code == JANUS_FINISHED ? sheet_length : 0;
    check(size == (code == JANUS_FINISHED ? sheet_length : NO_SIZE), what, "the size");
    check(written == 0 || memcmp(output, sheet, written) == 0, what, "the bytes");
    check(length == 0 || filled(output + written, output + length), what, "bytes behind the sheet are kept");
    check(filled(fences[OUTPUT] - length - GUARD, fences[OUTPUT] - length), what, "bytes before the output are kept");
    if (heap)
        give_back(entries_lent, runs_lent, output);
    return code;
}

static void answers(const char *what, size_t length, uint32_t code)
{
    for (int heap = 0; heap < 2; heap++)
        check(call(what, length, heap) == code, what, "the number returned");
}

/* Refused, with room for every sheet. */
static void refused(const char *what, uint32_t code)
{
    answers(what, JANUS_SHEET_MAX, code);
}

static void start(size_t n, size_t most_rounds)
{
    seats = n;
    limit = most_rounds;
    entries_length = run_count = 0;
}

static void entry(uint8_t kind, uint8_t seat, uint32_t value)
{
    put_entry(entries + entries_length, kind, seat, value);
    entries_length += JANUS_ENTRY_LENGTH;
}

/* So many entries of all kinds. */
static void add_entries(size_t count)
{
    for (size_t i = 0; i < count; i++)
        if (i % 5 == JANUS_CLOSE)
            entry(JANUS_CLOSE, 0, 0);
        else
            entry((uint8_t)(i % 5), (uint8_t)(i / 5), i % 5 == 0 ? 0x01020304u * (uint32_t)i : i % 10 == 1);
}

static void cut(size_t length)
{
    runs[run_count++] = length;
}

static void run(size_t length)
{
    add_entries(length);
    cut(length);
}

/* The sheet that should come out, its offsets counted here. */
static void lay_out(void)
{
    size_t at = JANUS_SHEET_SIZE(run_count, 0);
    header((uint8_t)seats, (uint8_t)run_count, (uint16_t)limit, at + entries_length);
    memcpy(sheet + at, entries, entries_length);
    for (size_t i = 0; i < run_count; i++) {
        put(4 + 4 * i, (uint32_t)at, 2);
        put(6 + 4 * i, (uint32_t)(JANUS_ENTRY_LENGTH * runs[i]), 2);
        at += JANUS_ENTRY_LENGTH * runs[i];
    }
}

static void written(const char *what)
{
    lay_out();
    answers(what, sheet_length, JANUS_FINISHED);
    answers(what, sheet_length + 100, JANUS_FINISHED);
    answers(what, sheet_length - 1, JANUS_BAD_BUFFER);
    answers(what, 0, JANUS_BAD_BUFFER);
}

/* The bytes of three small sheets, by the numbers. */
static void bytes(void)
{
    const uint8_t empty[] = {1, 0, 2, 0};
    const uint8_t close[] = {1, 1, 2, 0, 8, 0, 6, 0, 4, 0, 0, 0, 0, 0};
    const uint8_t two[] = {5, 2, 0, 1, 12, 0, 6, 0, 18, 0, 12, 0, 0, 4, 1, 2, 3, 4, 1, 3, 1, 0, 0, 0, 2, 9, 0, 0, 0, 0};
    start(1, 2);
    written("no runs and no entries");
    check(sheet_length == sizeof empty && memcmp(sheet, empty, sizeof empty) == 0, "no runs and no entries", "4 bytes");
    start(1, 2);
    entry(JANUS_CLOSE, 0, 0);
    cut(1);
    written("a close");
    check(sheet_length == sizeof close && memcmp(sheet, close, sizeof close) == 0, "a close", "14 bytes");
    start(5, 256);
    entry(JANUS_PROPOSE, 4, 0x04030201);
    entry(JANUS_WORK, 3, JANUS_HINT_YES);
    entry(JANUS_LOOK, 9, 0);
    cut(1);
    cut(2);
    written("two runs");
    check(sheet_length == sizeof two && memcmp(sheet, two, sizeof two) == 0, "two runs", "30 bytes");
}

static void cuts(void)
{
    start(2, 3);
    run(0);
    written("one run of no entry");
    run(3);
    run(0);
    run(0);
    run(1);
    run(0);
    written("runs of no entry between others");
    start(64, 16);
    for (int i = 0; i < JANUS_PAIRS_MAX; i++)
        run((size_t)i);
    written("16 runs");
    cut(0);
    refused("16 runs and one of no entry", JANUS_BAD_CUTS);
    start(64, 256);
    for (int i = 0; i < JANUS_PAIRS_MAX + 1; i++)
        cut(0);
    refused("17 runs of no entry", JANUS_BAD_CUTS);
}

/* The most entries, and one more: in one run, in three, in sixteen. */
static void largest(void)
{
    start(64, 256);
    run(JANUS_ENTRIES_MAX);
    written("10,921 entries in one run");
    check(sheet_length == JANUS_SHEET_MAX - 1, "10,921 entries in one run", "65,534 bytes");
    add_entries(1);
    runs[0]++;
    refused("10,922 entries in one run", JANUS_BAD_CUTS);
    start(1, 2);
    add_entries(10919);
    cut(10917);
    cut(1);
    cut(1);
    written("10,919 entries in three runs");
    add_entries(1);
    runs[2]++;
    check(JANUS_SHEET_SIZE(run_count, 10920) == JANUS_SHEET_MAX + 1, "10,920 entries in three runs", "65,536 bytes");
    refused("10,920 entries in three runs", JANUS_BAD_CUTS);
    start(1, 2);
    add_entries(10911);
    for (int i = 1; i < JANUS_PAIRS_MAX; i++)
        cut(700);
    cut(411);
    written("10,911 entries in sixteen runs");
    add_entries(1);
    runs[15]++;
    refused("10,912 entries in sixteen runs", JANUS_BAD_CUTS);
}

/* Three entries, cut into two runs. */
static void sum(const char *what, size_t first, size_t second, uint32_t code)
{
    start(1, 2);
    add_entries(3);
    cut(first);
    cut(second);
    if (code == JANUS_FINISHED)
        written(what);
    else
        refused(what, code);
}

static void sums(void)
{
    const size_t half = SIZE_MAX / 2 + 1;
    sum("two and one", 2, 1, JANUS_FINISHED);
    sum("none and three", 0, 3, JANUS_FINISHED);
    sum("one short", 1, 1, JANUS_BAD_CUTS);
    sum("one over", 2, 2, JANUS_BAD_CUTS);
    sum("a sum of 2^64 + 3", SIZE_MAX, 4, JANUS_BAD_CUTS);
    sum("a sum of 2^64 + 3, the other way", 4, SIZE_MAX, JANUS_BAD_CUTS);
    sum("a sum of 2^64", half, half, JANUS_BAD_CUTS);
    sum("the largest lengths", SIZE_MAX, SIZE_MAX, JANUS_BAD_CUTS);
    sum("bytes that are right in 64 bits", half + 2, 1, JANUS_BAD_CUTS);
    sum("right in 32 bits", ((size_t)1 << 32) + 2, 1, JANUS_BAD_CUTS);
    sum("bytes that are right in 16 bits", 32768 + 2, 1, JANUS_BAD_CUTS);
    start(1, 2);
    cut(SIZE_MAX);
    cut(1);
    refused("a sum of 2^64 and no entry", JANUS_BAD_CUTS);
    start(1, 2);
    add_entries(1);
    refused("an entry and no run", JANUS_BAD_CUTS);
}

static void sizes(void)
{
    const size_t counts[] = {0, 65, 66, 256, 257, 65537, ((size_t)1 << 32) + 1, SIZE_MAX};
    const size_t limits[] = {0, 2, 257, 512, 65536 + 3, ((size_t)1 << 32) + 3, SIZE_MAX};
    for (size_t i = 0; i < sizeof counts / sizeof *counts; i++) {
        start(counts[i], 256);
        refused("seats", JANUS_BAD_SEAT_COUNT);
    }
    for (size_t i = 0; i < sizeof limits / sizeof *limits; i++) {
        start(2, limits[i]);
        refused("a round limit", JANUS_BAD_ROUND_LIMIT);
    }
    for (unsigned n = 1; n <= JANUS_SEATS_MAX; n++) {
        start(n, janus_window(n));
        written("L = W");
        start(n, janus_window(n) - 1);
        refused("L = W - 1", JANUS_BAD_ROUND_LIMIT);
        start(n, JANUS_ROUNDS_MAX);
        written("L = 256");
        start(n, 65);
        written("L = 65, over the cart's rounds");
    }
    for (size_t length = 0; length < 3 * JANUS_ENTRY_LENGTH; length++) {
        start(1, 2);
        add_entries(3);
        cut(length / JANUS_ENTRY_LENGTH);
        entries_length = length;
        if (length % JANUS_ENTRY_LENGTH == 0)
            written("whole entries");
        else
            refused("entries of a length", JANUS_BAD_RUN);
    }
}

static void malformed(void)
{
    const struct { uint8_t kind, seat; uint32_t value; } wrong[] = {
        {5, 0, 0}, {255, 0, 0}, {JANUS_WORK, 0, 2}, {JANUS_WORK, 0, 256}, {JANUS_LOOK, 0, 1}, {JANUS_CRASH, 0, 1},
        {JANUS_CRASH, 0, 1u << 31}, {JANUS_CLOSE, 1, 0}, {JANUS_CLOSE, 64, 0}, {JANUS_CLOSE, 255, 0}, {JANUS_CLOSE, 0, 1},
        {JANUS_CLOSE, 0, 256}, {JANUS_CLOSE, 0, 1u << 31}, {JANUS_CLOSE, 1, 1}};
    for (size_t i = 0; i < sizeof wrong / sizeof *wrong; i++) {
        for (size_t place = 0; place < 5; place++) {
            start(1, 2);
            run(2);
            run(3);
            const size_t length = entries_length;
            entries_length = JANUS_ENTRY_LENGTH * place;
            entry(wrong[i].kind, wrong[i].seat, wrong[i].value);
            entries_length = length;
            refused("a malformed entry", JANUS_BAD_ENTRY);
        }
    }
    start(1, 2);
    entry(JANUS_PROPOSE, 255, 0);
    entry(JANUS_PROPOSE, 0, UINT32_MAX);
    entry(JANUS_WORK, 64, JANUS_HINT_NO);
    entry(JANUS_CLOSE, 0, 0);
    entry(JANUS_PROPOSE, 0, 7);
    cut(5);
    written("entries that are refused when they are run");
}

/* Everything is wrong at first. Each fault is mended when it has been named, and the next one is named. */
static void order(void)
{
    start(0, 1);
    entry(9, 0, 0);
    entry(9, 0, 0);
    cut(3);
    entries_length--;
    answers("every fault", 0, JANUS_BAD_SEAT_COUNT);
    seats = 1;
    answers("L, the length of the entries, cuts, an entry, the output", 0, JANUS_BAD_ROUND_LIMIT);
    limit = 2;
    answers("the length of the entries, cuts, an entry, the output", 0, JANUS_BAD_RUN);
    entries_length++;
    answers("cuts, an entry, the output", 0, JANUS_BAD_CUTS);
    runs[0] = 2;
    answers("an entry, the output", 0, JANUS_BAD_ENTRY);
    entries[0] = entries[JANUS_ENTRY_LENGTH] = JANUS_LOOK;
    written("no fault");
}

static int print_sheet(int words, char **word)
{
    size_t numbers[2 + MOST_RUNS] = {0};
    for (int i = 0; i < words && i < 2 + MOST_RUNS; i++)
        numbers[i] = strtoul(word[i], NULL, 10);
    entries_length = fread(entries, 1, sizeof entries, stdin);
    const uint32_t code = janus_write(numbers[0], numbers[1], entries, entries_length, numbers + 2, (size_t)words - 2,
                                      sheet, sizeof sheet, &sheet_length);
    return fwrite(sheet, 1, sheet_length, stdout) == sheet_length ? (int)code : 255;
}

int main(int argc, char **argv)
{
    if (argc > 3)
        return print_sheet(argc - 2, argv + 2);
    make_fences();
    bytes();
    cuts();
    largest();
    sums();
    sizes();
    malformed();
    order();
    printf("c write: %u checks passed\n", passed);
    return 0;
}
