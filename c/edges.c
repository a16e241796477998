/* Tries what the header says beside what each function answers: slices of 0 elements whose pointer is NULL, windows by name, terms in the author's order, smaller boxes,
 * skewed grids and the rows lent beside them, chains of earlier versions, two kernels on one chain, calls in several threads at the same time, a store of any content, too few
 * output places, the order in which the outcomes are looked at, calls after the end, cells past the grid's, counters past the chain's, and the stack that a call needs (with
 * EDGES_STACK set it prints how much). Prints what does not hold, and last `c/edges: ok` or `c/edges: failed`. */
#define _POSIX_C_SOURCE 200809L
#include "zohmirka.h"

#include <pthread.h>
#include <stdio.h>
#include <stdlib.h>
#include <string.h>

static int failed;

static void expect(int holds, const char *what) {
    if (!holds) {
        printf("%s\n", what);
        failed = 1;
    }
}

static const char *const REQUEST = "010100000005\n020000\n020003\n0400\n";
static const char *const SHEET = "010100000005\n020003\n020000\n0300000003\n0400\n";
/* One reference: no FIFO, so a store of 0 words is enough. */
static const char *const ALONE = "010100000005\n020000\n0400\n";
static const uint32_t CELLS[5] = {1, 2, 3, 4, 5};

static const uint8_t *bytes(const char *text) {
    return (const uint8_t *)text;
}

static int is(struct zohmirka_report r, uint32_t refusal, uint32_t outcome, uint32_t cells, uint32_t firings, uint32_t clocks) {
    return r.refusal == refusal && r.outcome == outcome && r.cells == cells && r.firings == firings && r.clocks == clocks;
}

static void null_slices(void) {
    uint8_t sheet[ZOHMIRKA_SHEET_BYTES];
    uint32_t chain[ZOHMIRKA_CHAIN_WORDS], alone[ZOHMIRKA_CHAIN_WORDS], state[ZOHMIRKA_STATE_WORDS], store[3], out[4];
    size_t n = strlen(SHEET);

    struct zohmirka_sheet planned = zohmirka_plan(NULL, 0, NULL, 0);
    expect(planned.refusal == 2 && planned.bytes == 0, "plan: no request, no output");
    planned = zohmirka_plan(NULL, 0, sheet, sizeof sheet);
    expect(planned.refusal == 2 && planned.bytes == 0, "plan: no request");
    planned = zohmirka_plan(bytes(REQUEST), strlen(REQUEST), NULL, 0);
    expect(planned.refusal == 12 && planned.bytes == 0, "plan: no output");
    expect(zohmirka_judge(NULL, 0) == 2, "judge: no sheet");
    expect(zohmirka_read_chain(NULL, 0, NULL, 0, NULL, 0) == 2, "read: no sheet, no output");
    expect(zohmirka_read_chain(bytes(SHEET), n, NULL, 0, NULL, 0) == 12, "read: no output");
    expect(zohmirka_read_chain(bytes(SHEET), n, chain, ZOHMIRKA_CHAIN_WORDS, NULL, 0) == 0, "read");
    expect(zohmirka_read_chain(bytes(ALONE), strlen(ALONE), alone, ZOHMIRKA_CHAIN_WORDS, NULL, 0) == 0, "read: one reference");
    expect(zohmirka_judge_chain(NULL, 0, NULL, 0) == 3, "judge_chain: no words");
    struct zohmirka_sheet wrote = zohmirka_write_chain(NULL, 0, NULL, 0, NULL, 0);
    expect(wrote.refusal == 3 && wrote.bytes == 0, "write_chain: no words, no output");
    wrote = zohmirka_write_chain(chain, ZOHMIRKA_CHAIN_WORDS, NULL, 0, NULL, 0);
    expect(wrote.refusal == 12 && wrote.bytes == 0, "write_chain: no output");

    expect(is(zohmirka_run(NULL, 0, NULL, 0, NULL, 0, NULL, 0, NULL, 0, 9), 2, ZOHMIRKA_REFUSED, 0, 0, 0), "run: nothing lent");
    expect(is(zohmirka_run_chain(NULL, 0, NULL, 0, NULL, 0, NULL, 0, NULL, 0, NULL, 0, 9), 3, ZOHMIRKA_REFUSED, 0, 0, 0), "run_chain: nothing lent");
    memset(state, 0, sizeof state);
    expect(is(zohmirka_run_chain(chain, ZOHMIRKA_CHAIN_WORDS, NULL, 0, state, ZOHMIRKA_STATE_WORDS, NULL, 0, CELLS, 5, out, 4, 9), 10, ZOHMIRKA_REFUSED, 0, 0, 0),
           "run_chain: no store");
    expect(is(zohmirka_run_chain(chain, ZOHMIRKA_CHAIN_WORDS, NULL, 0, NULL, 0, store, 3, CELLS, 5, out, 4, 9), 11, ZOHMIRKA_REFUSED, 0, 0, 0), "run_chain: no state");
    expect(is(zohmirka_run_chain(chain, ZOHMIRKA_CHAIN_WORDS, NULL, 0, state, ZOHMIRKA_STATE_WORDS, store, 3, NULL, 0, out, 4, 9), 0, ZOHMIRKA_STARVED, 0, 0, 0),
           "run_chain: no cells");
    expect(is(zohmirka_run_chain(chain, ZOHMIRKA_CHAIN_WORDS, NULL, 0, state, ZOHMIRKA_STATE_WORDS, store, 3, CELLS, 5, NULL, 0, 9), 0, ZOHMIRKA_FULL, 3, 0, 3),
           "run_chain: no output");
    /* A run goes on without a store, and ends Done without cells and output. */
    memset(state, 0, sizeof state);
    uint32_t five[5] = {0};
    expect(is(zohmirka_run(bytes(ALONE), strlen(ALONE), state, ZOHMIRKA_STATE_WORDS, NULL, 0, CELLS, 5, five, 5, 9), 0, ZOHMIRKA_DONE, 5, 5, 5), "run: no FIFO, no store");
    expect(memcmp(five, CELLS, sizeof five) == 0, "run: no FIFO, no store: words");
    expect(is(zohmirka_run_chain(alone, ZOHMIRKA_CHAIN_WORDS, NULL, 0, state, ZOHMIRKA_STATE_WORDS, NULL, 0, NULL, 0, NULL, 0, 9), 0, ZOHMIRKA_DONE, 0, 0, 0),
           "run_chain: done, nothing lent");
}

/* A window by its name and by its offsets, and 13. */
static void names(void) {
    const char *name = "01020000000400000005\n0701\n0400\n";
    const char *offsets = "01020000000400000005\n0200010000\n0200000001\n0200000000\n020000FFFF\n02FFFF0000\n0400\n";
    const char *dimensions = "010100000005\n0701\n0400\n";
    uint8_t one[ZOHMIRKA_SHEET_BYTES], other[ZOHMIRKA_SHEET_BYTES], kept[ZOHMIRKA_SHEET_BYTES];
    struct zohmirka_sheet a = zohmirka_plan(bytes(name), strlen(name), one, sizeof one);
    struct zohmirka_sheet b = zohmirka_plan(bytes(offsets), strlen(offsets), other, sizeof other);
    expect(a.refusal == 0 && b.refusal == 0 && a.bytes == b.bytes && memcmp(one, other, a.bytes) == 0, "plan: a name and its offsets");
    memcpy(kept, one, sizeof one);
    a = zohmirka_plan(bytes(dimensions), strlen(dimensions), one, sizeof one);
    expect(a.refusal == 13 && a.bytes == 0 && memcmp(one, kept, sizeof one) == 0, "plan: a name of other dimensions");
    expect(zohmirka_judge(bytes(name), strlen(name)) == 2, "judge: a name in a chain sheet");
}

/* The one word that a chain of three references writes of three cells: 1, 1 and 2 to the 24th. */
static uint32_t sum_of(const uint32_t *chain) {
    static const uint32_t cells[3] = {0x3F800000, 0x3F800000, 0x4B800000};
    uint32_t state[ZOHMIRKA_STATE_WORDS] = {0}, store[2] = {0}, out[1] = {0};
    expect(is(zohmirka_run_chain(chain, ZOHMIRKA_CHAIN_WORDS, NULL, 0, state, ZOHMIRKA_STATE_WORDS, store, 2, cells, 3, out, 1, 9), 0, ZOHMIRKA_DONE, 3, 1, 3), "orders: run");
    return out[0];
}

/* The request's order in a planned chain, the same chain without it, and 14. */
static void orders(void) {
    const char *request = "010100000003\n020000\n020001\n020002\n04023F800000\n";
    const char *sheet = "010100000003\n020002\n020001\n020000\n0300000001\n0300000001\n06020100\n04023F800000\n";
    const char *without = "010100000003\n020002\n020001\n020000\n0300000001\n0300000001\n04023F800000\n";
    uint8_t wrote[ZOHMIRKA_SHEET_BYTES];
    uint32_t chain[ZOHMIRKA_CHAIN_WORDS];
    struct zohmirka_sheet answer = zohmirka_plan(bytes(request), strlen(request), wrote, sizeof wrote);
    expect(answer.refusal == 0 && answer.bytes == strlen(sheet) && memcmp(wrote, sheet, answer.bytes) == 0, "plan: the order");
    expect(zohmirka_read_chain(wrote, answer.bytes, chain, ZOHMIRKA_CHAIN_WORDS, NULL, 0) == 0, "read: the order");
    const uint32_t *order = chain + ZOHMIRKA_CHAIN_ORDER;
    expect(chain[ZOHMIRKA_CHAIN_ORDER_STOOD] == 1 && order[0] == 2 && order[1] == 1 && order[2] == 0 && order[3] == 0, "read: words of the order");
    expect(sum_of(chain) == 0x4B800001, "a sum in the author's order");

    chain[ZOHMIRKA_CHAIN_ORDER + 2] = 256;
    expect(zohmirka_judge_chain(chain, ZOHMIRKA_CHAIN_WORDS, NULL, 0) == 14, "judge_chain: no order");
    expect(is(zohmirka_run_chain(chain, ZOHMIRKA_CHAIN_WORDS, NULL, 0, NULL, 0, NULL, 0, NULL, 0, NULL, 0, 9), 14, ZOHMIRKA_REFUSED, 0, 0, 0), "run_chain: no order");
    answer = zohmirka_write_chain(chain, ZOHMIRKA_CHAIN_WORDS, NULL, 0, NULL, 0);
    expect(answer.refusal == 14 && answer.bytes == 0, "write_chain: no order");
    chain[ZOHMIRKA_CHAIN_ORDER_STOOD] = 0;
    expect(sum_of(chain) == 0x4B800000, "a sum in chain order");
    answer = zohmirka_write_chain(chain, ZOHMIRKA_CHAIN_WORDS, NULL, 0, wrote, sizeof wrote);
    expect(answer.refusal == 0 && answer.bytes == strlen(without) && memcmp(wrote, without, answer.bytes) == 0, "write_chain: an order that did not stand");
    expect(zohmirka_read_chain(bytes(without), strlen(without), chain, ZOHMIRKA_CHAIN_WORDS, NULL, 0) == 0, "read: without an order");
    for (int i = ZOHMIRKA_CHAIN_ORDER_STOOD; i < ZOHMIRKA_CHAIN_WORDS; i++) expect(chain[i] == 0, "read: words of no order and no box");
    /* The sheet of a chain of one reference, and no request. */
    const char *alone = "010100000003\n020000\n0600\n0400\n";
    answer = zohmirka_plan(bytes(alone), strlen(alone), wrote, sizeof wrote);
    expect(answer.refusal == 2 && zohmirka_judge(bytes(alone), strlen(alone)) == 0, "an order in a request sheet");
}

/* A whole run of 20 cells, 1 to 20; the words of its first two firings are these. */
static int runs_to(const uint32_t *chain, uint32_t cells, uint32_t firings, const uint32_t words[10]) {
    uint32_t state[ZOHMIRKA_STATE_WORDS] = {0}, store[10] = {0}, out[30] = {0}, lent[20];
    for (uint32_t i = 0; i < 20; i++) lent[i] = i + 1;
    struct zohmirka_report r = zohmirka_run_chain(chain, ZOHMIRKA_CHAIN_WORDS, NULL, 0, state, ZOHMIRKA_STATE_WORDS, store, 10, lent, 20, out, 30, UINT32_MAX);
    return is(r, 0, ZOHMIRKA_DONE, cells, firings, cells) && memcmp(out, words, 10 * sizeof *words) == 0;
}

/* A request's box in a planned chain, other boxes and none in its words, and 15. */
static void boxes(void) {
    const char *request = "01020000000400000005\n0701\n0800000001000000010000000200000003\n0400\n";
    const char *sheet = "01020000000400000005\n0200010000\n0200000001\n0200000000\n020000FFFF\n02FFFF0000\n0800000001000000010000000200000003\n"
                        "0300000004\n0300000001\n0300000001\n0300000004\n060001020304\n0400\n";
    const char *without = "01020000000400000005\n0200010000\n0200000001\n0200000000\n020000FFFF\n02FFFF0000\n"
                          "0300000004\n0300000001\n0300000001\n0300000004\n060001020304\n0400\n";
    const char *outside = "01020000000400000005\n0701\n0800000001000000010000000200000004\n0400\n";
    static const uint32_t row[10] = {13, 9, 8, 7, 3, 14, 10, 9, 8, 4}, column[10] = {14, 10, 9, 8, 4, 19, 15, 14, 13, 9};
    static const uint32_t all[10] = {12, 8, 7, 6, 2, 13, 9, 8, 7, 3}, words[9] = {1, 1, 2, 0, 0, 1, 3, 0, 0};
    uint8_t wrote[ZOHMIRKA_SHEET_BYTES];
    uint32_t chain[ZOHMIRKA_CHAIN_WORDS];
    struct zohmirka_sheet answer = zohmirka_plan(bytes(request), strlen(request), wrote, sizeof wrote);
    expect(answer.refusal == 0 && answer.bytes == strlen(sheet) && memcmp(wrote, sheet, answer.bytes) == 0, "plan: the box");
    answer = zohmirka_plan(bytes(outside), strlen(outside), wrote, sizeof wrote);
    expect(answer.refusal == 15 && answer.bytes == 0 && memcmp(wrote, sheet, strlen(sheet)) == 0, "plan: a box that reaches outside");
    expect(zohmirka_read_chain(bytes(sheet), strlen(sheet), chain, ZOHMIRKA_CHAIN_WORDS, NULL, 0) == 0, "read: the box");
    expect(memcmp(chain + ZOHMIRKA_CHAIN_BOX_STOOD, words, sizeof words) == 0, "read: words of the box");
    expect(runs_to(chain, 14, 2, row), "a run over a box in one row");

    uint32_t *lowest = chain + ZOHMIRKA_CHAIN_BOX_LOWEST, *highest = chain + ZOHMIRKA_CHAIN_BOX_HIGHEST;
    lowest[1] = highest[1] = 3;
    highest[0] = 2;
    expect(runs_to(chain, 19, 2, column), "a run over a box in one column");
    lowest[1] = 1;
    expect(runs_to(chain, 19, 6, all), "a run over a full box");
    lowest[1] = 0;
    expect(zohmirka_judge_chain(chain, ZOHMIRKA_CHAIN_WORDS, NULL, 0) == 15, "judge_chain: a box that reaches outside");
    lowest[1] = 3;
    highest[1] = 2;
    expect(zohmirka_judge_chain(chain, ZOHMIRKA_CHAIN_WORDS, NULL, 0) == 15, "judge_chain: a lowest above its highest");
    lowest[1] = UINT32_C(0x80000000);
    highest[1] = UINT32_C(0x7FFFFFFF);
    expect(is(zohmirka_run_chain(chain, ZOHMIRKA_CHAIN_WORDS, NULL, 0, NULL, 0, NULL, 0, NULL, 0, NULL, 0, 9), 15, ZOHMIRKA_REFUSED, 0, 0, 0), "run_chain: the widest box");
    answer = zohmirka_write_chain(chain, ZOHMIRKA_CHAIN_WORDS, NULL, 0, NULL, 0);
    expect(answer.refusal == 15 && answer.bytes == 0, "write_chain: the widest box");
    chain[ZOHMIRKA_CHAIN_BOX_STOOD] = 0;
    expect(runs_to(chain, 19, 6, all), "a run without a box, whatever its words hold");
    answer = zohmirka_write_chain(chain, ZOHMIRKA_CHAIN_WORDS, NULL, 0, wrote, sizeof wrote);
    expect(answer.refusal == 0 && answer.bytes == strlen(without) && memcmp(wrote, without, answer.bytes) == 0, "write_chain: a box that did not stand");
}

/* Four rows of 5 cells, each a column further, and the five-point cross. */
static const char *const SKEWED_REQUEST = "09000400000005000100050002000500030005\n0200000000\n020000FFFF\n0200000001\n02FFFF0000\n0200010000\n0400\n";
static const char *const SKEWED = "09000400000005000100050002000500030005\n0200010000\n0200000001\n0200000000\n020000FFFF\n02FFFF0000\n"
                                  "0300000003\n0300000001\n0300000001\n0300000003\n060203010400\n0400\n";
static const uint32_t LENT[8] = {0, 5, 1, 5, 2, 5, 3, 5};

/* The chain of SKEWED with these rows is turned back by 16 in every call, and nothing is written. */
static void refused_rows(const uint32_t *chain, const uint32_t *rows, size_t numbers, const char *what) {
    uint8_t sheet[ZOHMIRKA_SHEET_BYTES];
    uint32_t state[ZOHMIRKA_STATE_WORDS] = {0}, store[8] = {7}, out[5] = {9};
    sheet[0] = 0x5A;
    struct zohmirka_sheet wrote = zohmirka_write_chain(chain, ZOHMIRKA_CHAIN_WORDS, rows, numbers, sheet, sizeof sheet);
    struct zohmirka_report r = zohmirka_run_chain(chain, ZOHMIRKA_CHAIN_WORDS, rows, numbers, state, ZOHMIRKA_STATE_WORDS, store, 8, CELLS, 5, out, 5, 9);
    expect(zohmirka_judge_chain(chain, ZOHMIRKA_CHAIN_WORDS, rows, numbers) == 16 && wrote.refusal == 16 && wrote.bytes == 0 && sheet[0] == 0x5A &&
               is(r, 16, ZOHMIRKA_REFUSED, 0, 0, 0) && state[0] == 0 && store[0] == 7 && out[0] == 9,
           what);
}

/* The chain of SKEWED in calls that lend so many cells: six firings of five words in 18 clocks. */
static void skewed_runs(const uint32_t *chain, const uint32_t *rows, size_t numbers, uint32_t piece) {
    static const uint32_t words[30] = {11, 8, 7, 6, 3, 12, 9, 8, 7, 4, 13, 10, 9, 8, 5, 16, 13, 12, 11, 8, 17, 14, 13, 12, 9, 18, 15, 14, 13, 10};
    uint32_t state[2][ZOHMIRKA_STATE_WORDS] = {{0}}, store[2][8] = {{0}}, out[2][30] = {{0}}, at = 0, fired = 0, cells[20];
    for (uint32_t i = 0; i < 20; i++) cells[i] = i + 1;
    struct zohmirka_report r, other;
    do {
        uint32_t count = 20 - at < piece ? 20 - at : piece;
        r = zohmirka_run_chain(chain, ZOHMIRKA_CHAIN_WORDS, rows, numbers, state[0], ZOHMIRKA_STATE_WORDS, store[0], 8, cells + at, count, out[0] + 5 * fired, 30 - 5 * fired, 4);
        other = zohmirka_run(bytes(SKEWED), strlen(SKEWED), state[1], ZOHMIRKA_STATE_WORDS, store[1], 8, cells + at, count, out[1] + 5 * fired, 30 - 5 * fired, 4);
        expect(is(other, r.refusal, r.outcome, r.cells, r.firings, r.clocks) && memcmp(state[0], state[1], sizeof state[0]) == 0 &&
                   memcmp(store[0], store[1], sizeof store[0]) == 0,
               "rows: a run by words and by the sheet");
        at += r.cells;
        fired += r.firings;
    } while (r.refusal == 0 && (r.outcome == ZOHMIRKA_STARVED || r.outcome == ZOHMIRKA_SPENT));
    expect(r.outcome == ZOHMIRKA_DONE && at == 18 && fired == 6 && memcmp(out[0], words, sizeof words) == 0 && memcmp(out[1], words, sizeof words) == 0, "rows: a run in pieces");
}

/* Skewed grids: a planned chain, its words and its rows, too few rows, rows past the count, runs in pieces, and 16. */
static void skewed(void) {
    /* Rows of 1, 1 and 2 cells, of which the last begins a column before the others: distances 1 and 2, and one place. */
    const char *uneven = "090003000100010001000100000002\n0200000000\n02FFFF0000\n0300000001\n0400\n";
    const char *start = "09000110000001\n0200000000\n0400\n", *none = "090000\n0200000000\n0400\n", *cut = "090002000000010000\n0200000000\n0400\n";
    static const uint32_t sizes[5] = {2, 0, 0, 0, 0};
    uint8_t wrote[ZOHMIRKA_SHEET_BYTES];
    uint32_t chain[ZOHMIRKA_CHAIN_WORDS], rows[ZOHMIRKA_ROW_NUMBERS + 2], state[ZOHMIRKA_STATE_WORDS] = {0}, store[1] = {0}, out[4] = {0};
    size_t n = strlen(SKEWED);
    struct zohmirka_sheet answer = zohmirka_plan(bytes(SKEWED_REQUEST), strlen(SKEWED_REQUEST), wrote, sizeof wrote);
    expect(answer.refusal == 0 && answer.bytes == n && memcmp(wrote, SKEWED, n) == 0, "plan: rows");
    expect(zohmirka_judge(bytes(start), strlen(start)) == 16 && zohmirka_judge(bytes(none), strlen(none)) == 16, "judge: a start and a row count outside their range");
    expect(zohmirka_judge(bytes(cut), strlen(cut)) == 1, "judge: a line of other than its rows");

    memset(chain, 0x5A, sizeof chain);
    memset(rows, 0x5A, sizeof rows);
    expect(zohmirka_read_chain(bytes(SKEWED), n, chain, ZOHMIRKA_CHAIN_WORDS, NULL, 0) == 12 && zohmirka_read_chain(bytes(SKEWED), n, chain, ZOHMIRKA_CHAIN_WORDS, rows, 7) == 12 &&
               zohmirka_read_chain(bytes(SKEWED), n, chain, ZOHMIRKA_CHAIN_WORDS - 1, rows, 8) == 12,
           "read: too few places for the rows");
    for (int i = 0; i < ZOHMIRKA_CHAIN_WORDS; i++) expect(chain[i] == UINT32_C(0x5A5A5A5A), "read: too few places, and words written");
    for (int i = 0; i < 9; i++) expect(rows[i] == UINT32_C(0x5A5A5A5A), "read: too few places, and rows written");
    expect(zohmirka_read_chain(bytes(SKEWED), n, chain, ZOHMIRKA_CHAIN_WORDS, rows, 8) == 0, "read: rows");
    expect(memcmp(rows, LENT, sizeof LENT) == 0 && rows[8] == UINT32_C(0x5A5A5A5A), "read: the numbers of the rows");
    expect(chain[ZOHMIRKA_CHAIN_SKEWED] == 1 && chain[ZOHMIRKA_CHAIN_ROWS] == 4 && memcmp(chain, sizes, sizeof sizes) == 0, "read: words of rows");
    expect(zohmirka_read_chain(bytes(SKEWED), n, chain, ZOHMIRKA_CHAIN_WORDS, rows, ZOHMIRKA_ROW_NUMBERS) == 0 && rows[8] == UINT32_C(0x5A5A5A5A), "read: places past the rows");

    /* Numbers past the count, and words of a rectangle, play no part; any kind but 0 is skewed. */
    expect(zohmirka_judge_chain(chain, ZOHMIRKA_CHAIN_WORDS, rows, ZOHMIRKA_ROW_NUMBERS) == 0, "judge_chain: numbers past the rows");
    for (uint32_t piece = 1; piece <= 20; piece++) skewed_runs(chain, LENT, 8, piece);
    for (int i = 0; i < 5; i++) chain[i] = UINT32_MAX;
    chain[ZOHMIRKA_CHAIN_SKEWED] = UINT32_C(0x80000000);
    skewed_runs(chain, rows, ZOHMIRKA_ROW_NUMBERS, 7);
    answer = zohmirka_write_chain(chain, ZOHMIRKA_CHAIN_WORDS, LENT, 8, wrote, sizeof wrote);
    expect(answer.refusal == 0 && answer.bytes == n && memcmp(wrote, SKEWED, n) == 0, "write_chain: rows");
    expect(zohmirka_write_chain(chain, ZOHMIRKA_CHAIN_WORDS, LENT, 8, wrote, n - 1).refusal == 12, "write_chain: rows, and too few places");

    refused_rows(chain, NULL, 0, "no rows lent");
    refused_rows(chain, LENT, 7, "a number of the rows too few");
    chain[ZOHMIRKA_CHAIN_ROWS] = 5;
    refused_rows(chain, LENT, 8, "a row too few");
    static const uint32_t counts[4] = {0, 513, UINT32_C(0x80000002), UINT32_MAX};
    for (int i = 0; i < ZOHMIRKA_ROW_NUMBERS + 2; i++) rows[i] = i % 2 ? 5 : 1;
    for (int i = 0; i < 4; i++) {
        chain[ZOHMIRKA_CHAIN_ROWS] = counts[i];
        refused_rows(chain, rows, ZOHMIRKA_ROW_NUMBERS + 2, "a row count outside its range");
    }
    chain[ZOHMIRKA_CHAIN_ROWS] = 512;
    expect(zohmirka_judge_chain(chain, ZOHMIRKA_CHAIN_WORDS, rows, ZOHMIRKA_ROW_NUMBERS) == 0, "judge_chain: 512 rows");
    answer = zohmirka_write_chain(chain, ZOHMIRKA_CHAIN_WORDS, rows, ZOHMIRKA_ROW_NUMBERS, wrote, sizeof wrote);
    expect(answer.refusal == 0 && zohmirka_judge(wrote, answer.bytes) == 0, "write_chain: 512 rows");
    rows[1022] = 4096;
    refused_rows(chain, rows, ZOHMIRKA_ROW_NUMBERS, "a start outside its range");
    rows[1022] = 1;
    rows[1023] = 1025;
    refused_rows(chain, rows, ZOHMIRKA_ROW_NUMBERS, "a length outside its range");

    /* What is lent beside a rectangle plays no part, nor does its row count. */
    expect(zohmirka_read_chain(bytes(SHEET), strlen(SHEET), chain, ZOHMIRKA_CHAIN_WORDS, NULL, 0) == 0, "read: a rectangle, and no rows");
    chain[ZOHMIRKA_CHAIN_ROWS] = UINT32_MAX;
    answer = zohmirka_write_chain(chain, ZOHMIRKA_CHAIN_WORDS, rows, ZOHMIRKA_ROW_NUMBERS, wrote, sizeof wrote);
    expect(answer.refusal == 0 && answer.bytes == strlen(SHEET) && memcmp(wrote, SHEET, answer.bytes) == 0, "write_chain: a rectangle beside rows");

    /* A shorter FIFO than the largest distance: the firings before the first that needs more, then Stalled. */
    struct zohmirka_report r = zohmirka_run(bytes(uneven), strlen(uneven), state, ZOHMIRKA_STATE_WORDS, store, 1, CELLS, 4, out, 4, UINT32_MAX);
    expect(r.refusal == 0 && r.outcome == ZOHMIRKA_STALLED && r.firings == 1 && r.clocks == 2 && out[0] == 2 && out[1] == 1, "run: rows whose distances vary");
}

/* Words that earlier versions of the interface took for a chain. */
static void earlier_versions(void) {
    static const size_t lengths[3] = {168, 201, 210};
    uint32_t chain[ZOHMIRKA_CHAIN_WORDS], kept[ZOHMIRKA_CHAIN_WORDS], state[ZOHMIRKA_STATE_WORDS] = {0}, store[3], out[4];
    uint8_t sheet[ZOHMIRKA_SHEET_BYTES];
    expect(zohmirka_read_chain(bytes(SHEET), strlen(SHEET), chain, ZOHMIRKA_CHAIN_WORDS, NULL, 0) == 0, "read");
    for (int i = 0; i < 3; i++) {
        size_t n = lengths[i];
        memset(kept, 0x5A, sizeof kept);
        expect(zohmirka_read_chain(bytes(SHEET), strlen(SHEET), kept, n, NULL, 0) == 12 && kept[0] == UINT32_C(0x5A5A5A5A), "read: places of an earlier version");
        expect(zohmirka_judge_chain(chain, n, NULL, 0) == 3, "judge_chain: words of an earlier version");
        expect(zohmirka_write_chain(chain, n, NULL, 0, sheet, sizeof sheet).refusal == 3, "write_chain: words of an earlier version");
        expect(is(zohmirka_run_chain(chain, n, NULL, 0, state, ZOHMIRKA_STATE_WORDS, store, 3, CELLS, 5, out, 4, 9), 3, ZOHMIRKA_REFUSED, 0, 0, 0),
               "run_chain: words of an earlier version");
    }
}

/* Raw of two references needs two places. */
static void few_places(void) {
    uint32_t state[ZOHMIRKA_STATE_WORDS] = {0}, store[3] = {0xA5A5A5A5, 0x7FC00001, 0xFFFFFFFF}, out[4] = {9, 9, 9, 9};
    uint32_t at = 0;
    for (int call = 0; call < 5; call++) {
        struct zohmirka_report r = zohmirka_run(bytes(SHEET), strlen(SHEET), state, ZOHMIRKA_STATE_WORDS, store, 3, CELLS + at, 5 - at, out, 1, UINT32_MAX);
        expect(r.refusal == 0 && r.outcome == ZOHMIRKA_FULL && r.firings == 0 && out[0] == 9, "one place: Full, and nothing written");
        at += r.cells;
    }
    struct zohmirka_report r = zohmirka_run(bytes(SHEET), strlen(SHEET), state, ZOHMIRKA_STATE_WORDS, store, 3, CELLS + at, 5 - at, out, 4, UINT32_MAX);
    expect(is(r, 0, ZOHMIRKA_DONE, 2, 2, 2) && out[0] == 4 && out[1] == 1 && out[2] == 5 && out[3] == 2, "enough places: the run goes on, whatever the store held at first");
}

/* A run of a chain sheet in calls: its state, its store, and the cells 1 to 9, of which a grid has fewer. */
struct run {
    const char *sheet;
    uint32_t state[ZOHMIRKA_STATE_WORDS], store[16], out[8];
};

static const uint32_t NINE[9] = {1, 2, 3, 4, 5, 6, 7, 8, 9};

/* One more call of it, which is lent so many cells and places and ends so: by its sheet, and by its words the same. */
static int ends(struct run *run, uint32_t cells_lent, uint32_t places, uint32_t allowance, uint32_t outcome, uint32_t cells, uint32_t firings, uint32_t clocks) {
    struct run other = *run;
    uint32_t chain[ZOHMIRKA_CHAIN_WORDS];
    const uint32_t *lent = NINE + run->state[0];
    size_t n = strlen(run->sheet);
    expect(zohmirka_read_chain(bytes(run->sheet), n, chain, ZOHMIRKA_CHAIN_WORDS, NULL, 0) == 0, "outcomes: read");
    struct zohmirka_report r = zohmirka_run(bytes(run->sheet), n, run->state, ZOHMIRKA_STATE_WORDS, run->store, 16, lent, cells_lent, run->out, places, allowance);
    struct zohmirka_report s = zohmirka_run_chain(chain, ZOHMIRKA_CHAIN_WORDS, NULL, 0, other.state, ZOHMIRKA_STATE_WORDS, other.store, 16, lent, cells_lent, other.out,
                                                  places, allowance);
    return is(r, 0, outcome, cells, firings, clocks) && is(s, 0, outcome, cells, firings, clocks) && memcmp(run->state, other.state, sizeof other.state) == 0 &&
           memcmp(run->store, other.store, sizeof other.store) == 0 && memcmp(run->out, other.out, sizeof other.out) == 0;
}

/* The five outcomes: which is looked at first, and calls after the end. */
static void outcomes(void) {
    /* Case 8 of document 01, which never moves; and the chain of SHEET with two places, which moves twice. */
    struct run stuck = {"010100000005\n020000\n020003\n0300000010\n0400\n", {0}, {0}, {0}};
    struct run tight = {"010100000005\n020003\n020000\n0300000002\n0400\n", {0}, {0}, {0}};
    struct run sound = {SHEET, {0}, {0}, {0}}, whole = {SHEET, {0}, {0}, {0}};

    expect(ends(&stuck, 0, 0, 0, ZOHMIRKA_SPENT, 0, 0, 0), "Spent before Starved and Stalled");
    expect(ends(&stuck, 5, 8, 0, ZOHMIRKA_SPENT, 0, 0, 0), "Spent before Stalled");
    expect(ends(&stuck, 0, 8, 9, ZOHMIRKA_STARVED, 0, 0, 0), "Starved before Stalled");
    for (int call = 0; call < 3; call++) {
        expect(ends(&stuck, 1, 8, 1, ZOHMIRKA_STALLED, 0, 0, 0) && ends(&stuck, 9, 0, UINT32_MAX, ZOHMIRKA_STALLED, 0, 0, 0), "Stalled, and Stalled again with zeros");
        expect(ends(&stuck, 0, 8, 9, ZOHMIRKA_STARVED, 0, 0, 0) && ends(&stuck, 9, 8, 0, ZOHMIRKA_SPENT, 0, 0, 0), "after Stalled, no cell and no clock");
    }

    /* Without places: a chain that stalls before it fires is Stalled, and not Full. */
    expect(ends(&tight, 2, 0, 9, ZOHMIRKA_STARVED, 2, 0, 2) && ends(&tight, 0, 0, 9, ZOHMIRKA_STARVED, 0, 0, 0), "no places: Starved before Stalled");
    expect(ends(&tight, 1, 0, 9, ZOHMIRKA_STALLED, 0, 0, 0) && ends(&tight, 7, 8, 9, ZOHMIRKA_STALLED, 0, 0, 0), "no places: Stalled, and no Full");

    /* Three clocks before the first firing need no places; then it is Full as long as there are too few, a cell and a clock. */
    for (int cell = 0; cell < 3; cell++) expect(ends(&sound, 1, 0, 9, ZOHMIRKA_STARVED, 1, 0, 1), "no places: clocks that do not fire");
    for (uint32_t places = 0; places < 2; places++) {
        expect(ends(&sound, 6, places, 9, ZOHMIRKA_FULL, 0, 0, 0) && ends(&sound, 1, places, 1, ZOHMIRKA_FULL, 0, 0, 0), "too few places: Full, and Full again with zeros");
        expect(ends(&sound, 0, places, 9, ZOHMIRKA_STARVED, 0, 0, 0), "too few places: Starved before Full");
        expect(ends(&sound, 6, places, 0, ZOHMIRKA_SPENT, 0, 0, 0) && ends(&sound, 0, places, 0, ZOHMIRKA_SPENT, 0, 0, 0), "too few places: Spent before Full");
    }
    expect(ends(&sound, 1, 2, 9, ZOHMIRKA_STARVED, 1, 1, 1) && sound.out[0] == 4 && sound.out[1] == 1, "enough places: the firing, then Starved before Full");
    expect(ends(&sound, 1, 3, 1, ZOHMIRKA_DONE, 1, 1, 1) && sound.out[0] == 5 && sound.out[1] == 2 && sound.out[2] == 0, "Done before Spent, Starved and Full");

    /* Nine cells are lent and the grid has five. */
    expect(ends(&whole, 9, 8, UINT32_MAX, ZOHMIRKA_DONE, 5, 2, 5) && memcmp(whole.state, sound.state, sizeof whole.state) == 0, "cells past the grid's");
    for (int call = 0; call < 3; call++) {
        expect(ends(&whole, 4, 8, 9, ZOHMIRKA_DONE, 0, 0, 0) && ends(&whole, 0, 0, 0, ZOHMIRKA_DONE, 0, 0, 0), "Done again with zeros, whatever is lent");
        expect(ends(&whole, 0, 8, 9, ZOHMIRKA_DONE, 0, 0, 0) && ends(&whole, 4, 8, 0, ZOHMIRKA_DONE, 0, 0, 0), "Done again before Spent and Starved");
    }
    static const uint32_t words[8] = {4, 1, 5, 2, 0, 0, 0, 0}, store[4] = {4, 5, 3, 0};
    expect(memcmp(whole.out, words, sizeof words) == 0 && memcmp(whole.store, store, sizeof store) == 0, "what is left after Done stays");
    expect(is(zohmirka_run(bytes(SHEET), strlen(SHEET), whole.state, ZOHMIRKA_STATE_WORDS, whole.store, 2, CELLS, 5, whole.out, 8, 9), 10, ZOHMIRKA_REFUSED, 0, 0, 0),
           "after Done, too short a store");
}

/* The chain of SHEET has two filters: counters of others play no part and stay. */
static void other_counters(void) {
    struct run run = {SHEET, {0}, {0}, {0}}, plain = {SHEET, {0}, {0}, {0}};
    for (int k = 2; k < 32; k++) run.state[k] = k % 2 ? UINT32_MAX : (uint32_t)k;
    for (uint32_t places = 0; places < 5; places += 4) {
        uint32_t outcome = places == 0 ? ZOHMIRKA_FULL : ZOHMIRKA_DONE, count = places == 0 ? 3 : 2, firings = places / 2;
        expect(ends(&run, 5, places, 9, outcome, count, firings, count) && ends(&plain, 5, places, 9, outcome, count, firings, count), "counters past the chain's: the call");
        for (int k = 2; k < 32; k++) expect(run.state[k] == (k % 2 ? UINT32_MAX : (uint32_t)k) && plain.state[k] == 0, "counters past the chain's stay");
        expect(run.state[0] == plain.state[0] && run.state[1] == plain.state[1] && run.state[32] == plain.state[32], "counters past the chain's play no part");
        expect(memcmp(run.store, plain.store, sizeof run.store) == 0 && memcmp(run.out, plain.out, sizeof run.out) == 0, "counters past the chain's: store and output");
    }
}

/* Two windows on six cells: offsets 0 and 2, raw, and 1 and 0, whose sum is written. Together they are 2, 1 and 0, with two FIFOs of a place and four firings, in clocks 2 to 5,
 * of which each writes two words to `one` and one to `two`. */
struct pair {
    uint32_t chain[ZOHMIRKA_CHAIN_WORDS + 1], first[ZOHMIRKA_WINDOW_WORDS + 1], second[ZOHMIRKA_WINDOW_WORDS + 1];
    uint32_t state[ZOHMIRKA_STATE_WORDS + 1], store[3], one[9], two[5];
};

/* How much of each is lent. */
struct lengths {
    size_t chain, first, second, state, store, one, two;
};

static const struct lengths ALL = {ZOHMIRKA_CHAIN_WORDS, ZOHMIRKA_WINDOW_WORDS, ZOHMIRKA_WINDOW_WORDS, ZOHMIRKA_STATE_WORDS, 2, 8, 4};
static const uint32_t SIX[6] = {0x3F800000, 0x40000000, 0x40400000, 0x40800000, 0x40A00000, 0x40C00000}; /* 1.0 to 6.0 */
static const uint32_t ONE[8] = {0x40400000, 0x3F800000, 0x40800000, 0x40000000, 0x40A00000, 0x40400000, 0x40C00000, 0x40800000}; /* 3 1, 4 2, 5 3, 6 4 */
static const uint32_t TWO[4] = {0x40400000, 0x40A00000, 0x40E00000, 0x41100000};                                             /* 3, 5, 7, 9 */

/* The pair without its chain: `chain` has the grid alone. Each slice has a word behind it, and outputs and store hold other words. */
static struct pair six(void) {
    struct pair pair;
    memset(&pair, 0, sizeof pair);
    pair.chain[ZOHMIRKA_CHAIN_DIMENSIONS] = 1;
    pair.chain[ZOHMIRKA_CHAIN_SIZES] = 6;
    pair.first[ZOHMIRKA_WINDOW_REFERENCES] = pair.second[ZOHMIRKA_WINDOW_REFERENCES] = 2;
    pair.first[ZOHMIRKA_WINDOW_OFFSETS + 4] = 2;
    pair.second[ZOHMIRKA_WINDOW_OFFSETS] = 1;
    pair.second[ZOHMIRKA_WINDOW_KERNEL] = 2;
    pair.second[ZOHMIRKA_WINDOW_FACTORS] = 0x3F800000;
    pair.chain[ZOHMIRKA_CHAIN_WORDS] = pair.first[ZOHMIRKA_WINDOW_WORDS] = pair.second[ZOHMIRKA_WINDOW_WORDS] = pair.state[ZOHMIRKA_STATE_WORDS] = 0x5A5A5A5A;
    memset(pair.store, 0x5A, sizeof pair.store);
    memset(pair.one, 0x5A, sizeof pair.one);
    memset(pair.two, 0x5A, sizeof pair.two);
    return pair;
}

/* Plans over the grid in it; where that is refused, nothing was written. */
static uint32_t plans(struct pair *pair, struct lengths lent, size_t places) {
    struct pair kept = *pair;
    uint32_t chain[ZOHMIRKA_CHAIN_WORDS + 1];
    memset(chain, 0x5A, sizeof chain);
    uint32_t refusal = zohmirka_plan_pair(pair->chain, lent.chain, NULL, 0, pair->first, lent.first, pair->second, lent.second, chain, places);
    if (refusal == 0) memcpy(pair->chain, chain, ZOHMIRKA_CHAIN_WORDS * sizeof *chain);
    for (size_t i = refusal == 0 ? ZOHMIRKA_CHAIN_WORDS : 0; i <= ZOHMIRKA_CHAIN_WORDS; i++) expect(chain[i] == 0x5A5A5A5A, "plan_pair: places that are not to be written");
    expect(memcmp(pair->first, kept.first, sizeof kept.first) == 0 && memcmp(pair->second, kept.second, sizeof kept.second) == 0, "plan_pair: windows stay");
    return refusal;
}

/* A run call that is lent so many cells of those that are left, or all of them. Where it is refused, nothing was written; what it reads and the words behind what it is lent
 * stay in any case. */
static struct zohmirka_report goes(struct pair *pair, struct lengths lent, uint32_t cells, uint32_t allowance) {
    struct pair kept = *pair;
    uint32_t at = pair->state[0], count = cells < 6 - at ? cells : 6 - at;
    struct zohmirka_report r = zohmirka_run_pair(pair->chain, lent.chain, NULL, 0, pair->first, lent.first, pair->second, lent.second, pair->state, lent.state, pair->store,
                                                 lent.store, SIX + at, count, pair->one, lent.one, pair->two, lent.two, allowance);
    expect((r.refusal != 0) == (r.outcome == ZOHMIRKA_REFUSED), "run_pair: outcome of a refusal");
    if (r.refusal != 0) expect(memcmp(pair, &kept, sizeof kept) == 0 && r.cells == 0 && r.firings == 0 && r.clocks == 0, "run_pair: refused, and nothing written");
    expect(memcmp(pair->chain, kept.chain, sizeof kept.chain) == 0 && memcmp(pair->first, kept.first, sizeof kept.first) == 0 &&
               memcmp(pair->second, kept.second, sizeof kept.second) == 0,
           "run_pair: chain and windows stay");
    expect(pair->state[ZOHMIRKA_STATE_WORDS] == 0x5A5A5A5A && pair->store[2] == 0x5A5A5A5A, "run_pair: words behind state and store stay");
    return r;
}

/* So many firings are in the outputs, and places behind them are as before. */
static int holds(const struct pair *pair, size_t firings) {
    int right = memcmp(pair->one, ONE, 2 * firings * sizeof *ONE) == 0 && memcmp(pair->two, TWO, firings * sizeof *TWO) == 0;
    for (size_t i = 2 * firings; i < 9; i++) right &= pair->one[i] == 0x5A5A5A5A;
    for (size_t i = firings; i < 5; i++) right &= pair->two[i] == 0x5A5A5A5A;
    return right;
}

/* Slices of 0 elements, and of every length about the ones that the header names. */
static void pair_lengths(void) {
    struct pair grid = six(), pair = six();
    struct lengths none = {0, 0, 0, 0, 0, 0, 0};
    expect(zohmirka_plan_pair(NULL, 0, NULL, 0, NULL, 0, NULL, 0, NULL, 0) == 3, "plan_pair: nothing lent");
    expect(zohmirka_plan_pair(grid.chain, ZOHMIRKA_CHAIN_WORDS, NULL, 0, NULL, 0, NULL, 0, NULL, 0) == 4, "plan_pair: no windows");
    expect(zohmirka_plan_pair(grid.chain, ZOHMIRKA_CHAIN_WORDS, NULL, 0, grid.first, ZOHMIRKA_WINDOW_WORDS, grid.second, ZOHMIRKA_WINDOW_WORDS, NULL, 0) == 12,
           "plan_pair: no output");
    expect(is(zohmirka_run_pair(NULL, 0, NULL, 0, NULL, 0, NULL, 0, NULL, 0, NULL, 0, NULL, 0, NULL, 0, NULL, 0, 9), 3, ZOHMIRKA_REFUSED, 0, 0, 0), "run_pair: nothing lent");
    expect(plans(&pair, ALL, ZOHMIRKA_CHAIN_WORDS) == 0, "plan_pair");

    for (size_t n = 0; n <= ZOHMIRKA_CHAIN_WORDS + 1; n++) {
        struct lengths lent = ALL;
        struct pair other = grid, fresh = pair;
        lent.chain = n;
        uint32_t refusal = n < ZOHMIRKA_CHAIN_WORDS ? 3 : 0;
        expect(plans(&other, lent, ZOHMIRKA_CHAIN_WORDS) == refusal && goes(&fresh, lent, 6, 99).refusal == refusal, "a pair: words of the chain");
        other = grid;
        expect(plans(&other, ALL, n) == (n < ZOHMIRKA_CHAIN_WORDS ? 12 : 0), "plan_pair: places for the chain");
    }
    for (size_t n = 0; n <= ZOHMIRKA_WINDOW_WORDS + 1; n++) {
        for (int second = 0; second < 2; second++) {
            struct lengths lent = ALL;
            struct pair other = grid, fresh = pair;
            *(second ? &lent.second : &lent.first) = n;
            uint32_t refusal = n < ZOHMIRKA_WINDOW_WORDS ? 4 : 0;
            expect(plans(&other, lent, ZOHMIRKA_CHAIN_WORDS) == refusal && goes(&fresh, lent, 6, 99).refusal == refusal, "a pair: words of a window");
            lent.chain = ZOHMIRKA_CHAIN_WORDS - 1;
            expect(plans(&other, lent, 0) == 3 && goes(&fresh, lent, 6, 99).refusal == 3, "a pair: the chain before the windows");
        }
    }
    for (size_t n = 0; n <= ZOHMIRKA_STATE_WORDS + 1; n++) {
        struct lengths lent = ALL;
        struct pair fresh = pair;
        lent.state = n;
        expect(goes(&fresh, lent, 6, 99).refusal == (n < ZOHMIRKA_STATE_WORDS ? 11 : 0), "run_pair: words of the state");
    }
    for (size_t n = 0; n <= 3; n++) {
        struct lengths lent = none;
        struct pair fresh = pair;
        lent.chain = ALL.chain;
        lent.first = lent.second = ZOHMIRKA_WINDOW_WORDS;
        lent.store = n;
        expect(goes(&fresh, lent, 6, 99).refusal == (n < 2 ? 10 : 11), "run_pair: words of the store");
    }
    /* Without cells, without outputs. */
    struct pair fresh = pair;
    struct lengths lent = ALL;
    lent.one = lent.two = 0;
    expect(is(goes(&fresh, lent, 0, 9), 0, ZOHMIRKA_STARVED, 0, 0, 0) && is(goes(&fresh, lent, 0, 0), 0, ZOHMIRKA_SPENT, 0, 0, 0), "run_pair: no cells");
    expect(is(goes(&fresh, lent, 6, 9), 0, ZOHMIRKA_FULL, 2, 0, 2) && holds(&fresh, 0), "run_pair: no outputs");
    expect(is(zohmirka_run_pair(fresh.chain, ALL.chain, NULL, 0, fresh.first, ALL.first, fresh.second, ALL.second, fresh.state, ALL.state, fresh.store, 2, SIX + 2, 4, NULL, 0,
                                NULL, 0, 9),
              0, ZOHMIRKA_FULL, 0, 0, 0),
           "run_pair: NULL for outputs");
}

/* The words that are planned and run, places, pieces, windows in other calls, and what plays no part. */
static void pairs(void) {
    struct pair pair = six(), other;
    uint32_t chain[ZOHMIRKA_CHAIN_WORDS] = {0};
    expect(plans(&pair, ALL, ZOHMIRKA_CHAIN_WORDS + 1) == 0, "plan_pair");
    chain[ZOHMIRKA_CHAIN_DIMENSIONS] = chain[ZOHMIRKA_CHAIN_CAPACITIES] = chain[ZOHMIRKA_CHAIN_CAPACITIES + 1] = chain[ZOHMIRKA_CHAIN_ORDER_STOOD] = 1;
    chain[ZOHMIRKA_CHAIN_SIZES] = 6;
    chain[ZOHMIRKA_CHAIN_REFERENCES] = 3;
    chain[ZOHMIRKA_CHAIN_OFFSETS] = chain[ZOHMIRKA_CHAIN_ORDER + 2] = 2;
    chain[ZOHMIRKA_CHAIN_OFFSETS + 4] = chain[ZOHMIRKA_CHAIN_ORDER + 1] = 1;
    expect(memcmp(pair.chain, chain, sizeof chain) == 0, "plan_pair: the chain's words");

    /* Of the grid's words grid and box play a part alone. */
    other = six();
    for (int i = 2; i < ZOHMIRKA_CHAIN_BOX_STOOD; i++) other.chain[i] = UINT32_MAX;
    for (int i = ZOHMIRKA_CHAIN_BOX_LOWEST; i < ZOHMIRKA_CHAIN_WORDS; i++) other.chain[i] = i == ZOHMIRKA_CHAIN_SKEWED ? 0 : UINT32_MAX;
    expect(plans(&other, ALL, ZOHMIRKA_CHAIN_WORDS) == 0 && memcmp(other.chain, chain, sizeof chain) == 0, "plan_pair: words that play no part");
    other = six();
    other.chain[ZOHMIRKA_CHAIN_BOX_STOOD] = UINT32_C(0x80000000);
    other.chain[ZOHMIRKA_CHAIN_BOX_LOWEST] = 1;
    other.chain[ZOHMIRKA_CHAIN_BOX_HIGHEST] = 2;
    other.chain[ZOHMIRKA_CHAIN_BOX_LOWEST + 1] = 9;
    chain[ZOHMIRKA_CHAIN_BOX_STOOD] = chain[ZOHMIRKA_CHAIN_BOX_LOWEST] = 1;
    chain[ZOHMIRKA_CHAIN_BOX_HIGHEST] = 2;
    expect(plans(&other, ALL, ZOHMIRKA_CHAIN_WORDS) == 0 && memcmp(other.chain, chain, sizeof chain) == 0, "plan_pair: the box");
    expect(is(goes(&other, ALL, 6, 99), 0, ZOHMIRKA_DONE, 5, 2, 5) && other.one[0] == 0x40800000 && other.one[1] == 0x40000000, "run_pair: the box");

    /* One call, and a cell a call; then the chain with a kernel, factors and an order that would be refused elsewhere. */
    other = pair;
    expect(is(goes(&other, ALL, 6, UINT32_MAX), 0, ZOHMIRKA_DONE, 6, 4, 6) && holds(&other, 4), "run_pair: a whole run");
    for (int call = 0; call < 3; call++) expect(is(goes(&other, ALL, 0, call), 0, ZOHMIRKA_DONE, 0, 0, 0), "run_pair: Done again with zeros");
    struct pair pieces = pair;
    for (uint32_t cell = 0; cell < 6; cell++) {
        struct zohmirka_report r = goes(&pieces, ALL, 1, 9);
        expect(is(r, 0, cell < 5 ? ZOHMIRKA_STARVED : ZOHMIRKA_DONE, 1, cell < 2 ? 0 : 1, 1), "run_pair: a cell a call");
        if (cell < 2) continue;
        expect(memcmp(pieces.one, ONE + 2 * (cell - 2), 2 * sizeof *ONE) == 0 && pieces.two[0] == TWO[cell - 2] && pieces.one[2] == 0x5A5A5A5A, "run_pair: its words");
    }
    expect(memcmp(pieces.state, other.state, sizeof other.state) == 0 && memcmp(pieces.store, other.store, sizeof other.store) == 0, "run_pair: a cell a call, the end");
    other = pair;
    for (int i = ZOHMIRKA_CHAIN_KERNEL; i < ZOHMIRKA_CHAIN_BOX_STOOD; i++) other.chain[i] = UINT32_MAX;
    expect(is(goes(&other, ALL, 6, UINT32_MAX), 0, ZOHMIRKA_DONE, 6, 4, 6) && holds(&other, 4), "run_pair: the chain's own kernel and order");

    /* Full by either output: the firings before it are in both, and the clock is not made. */
    for (uint32_t places = 0; places < 8; places++) {
        struct lengths lent = ALL;
        other = pair;
        lent.one = places;
        expect(is(goes(&other, lent, 6, 99), 0, ZOHMIRKA_FULL, 2 + places / 2, places / 2, 2 + places / 2) && holds(&other, places / 2), "run_pair: the first output is full");
        expect(is(goes(&other, lent, 0, 99), 0, ZOHMIRKA_STARVED, 0, 0, 0) && is(goes(&other, lent, 6, 0), 0, ZOHMIRKA_SPENT, 0, 0, 0), "run_pair: Starved and Spent before Full");
        other = pair;
        lent.one = 8;
        lent.two = places / 2;
        expect(is(goes(&other, lent, 6, 99), 0, ZOHMIRKA_FULL, 2 + places / 2, places / 2, 2 + places / 2) && holds(&other, places / 2), "run_pair: the second output is full");
    }
    /* The same slice for both windows. */
    struct pair grid = six();
    other = grid;
    expect(zohmirka_plan_pair(grid.chain, ALL.chain, NULL, 0, other.first, ALL.first, other.first, ALL.first, other.chain, ALL.chain) == 0 &&
               other.chain[ZOHMIRKA_CHAIN_REFERENCES] == 2 && other.chain[ZOHMIRKA_CHAIN_CAPACITIES] == 2,
           "plan_pair: the same slice");
    expect(is(zohmirka_run_pair(other.chain, ALL.chain, NULL, 0, other.first, ALL.first, other.first, ALL.first, other.state, ALL.state, other.store, 2, SIX, 6, other.one, 8,
                                other.two, 4, 99),
              0, ZOHMIRKA_FULL, 4, 2, 4) &&
               memcmp(other.one, ONE, 4 * sizeof *ONE) == 0 && memcmp(other.two, ONE, 4 * sizeof *ONE) == 0,
           "run_pair: the same slice");
    /* Other kernels in a later call: the sum of offsets 0 and 2, and raw of 1 and 0. */
    other = pair;
    expect(is(goes(&other, ALL, 3, 99), 0, ZOHMIRKA_STARVED, 3, 1, 3) && holds(&other, 1), "run_pair: before other kernels");
    other.first[ZOHMIRKA_WINDOW_KERNEL] = 2;
    other.first[ZOHMIRKA_WINDOW_FACTORS] = 0x3F800000;
    other.second[ZOHMIRKA_WINDOW_KERNEL] = 0;
    expect(is(goes(&other, ALL, 1, 99), 0, ZOHMIRKA_STARVED, 1, 1, 1) && other.one[0] == 0x40C00000 && other.one[1] == ONE[1] && other.two[0] == SIX[2] && other.two[1] == SIX[1],
           "run_pair: other kernels");
}

/* Everything is wrong with a pair, and put right one by one: the order of the numbers. */
static void pair_refusals(void) {
    struct pair pair = six();
    struct lengths lent = ALL;
    expect(plans(&pair, ALL, ZOHMIRKA_CHAIN_WORDS) == 0, "plan_pair");
    uint32_t *first = pair.first, *second = pair.second, *chain = pair.chain;
    chain[ZOHMIRKA_CHAIN_DIMENSIONS] = 5;
    chain[ZOHMIRKA_CHAIN_SIZES] = 2;
    chain[ZOHMIRKA_CHAIN_OFFSETS + 4] = 5;
    chain[ZOHMIRKA_CHAIN_CAPACITIES] = 16385;
    chain[ZOHMIRKA_CHAIN_BOX_STOOD] = chain[ZOHMIRKA_CHAIN_BOX_LOWEST] = 1;
    first[ZOHMIRKA_WINDOW_REFERENCES] = 33;
    first[ZOHMIRKA_WINDOW_KERNEL] = 4;
    second[ZOHMIRKA_WINDOW_OFFSETS + 4] = 1;
    second[ZOHMIRKA_WINDOW_KERNEL] = 1;
    pair.state[32] = 5;
    lent.store = 1;
    /* The number of both calls, and what is put right then. */
    const struct {
        uint32_t number;
        uint32_t *word;
        uint32_t right;
    } steps[9] = {{3, chain + ZOHMIRKA_CHAIN_DIMENSIONS, 1},
                  {4, first + ZOHMIRKA_WINDOW_REFERENCES, 2},
                  {5, second + ZOHMIRKA_WINDOW_OFFSETS + 4, 2},
                  {6, chain + ZOHMIRKA_CHAIN_SIZES, 6},
                  {15, chain + ZOHMIRKA_CHAIN_BOX_STOOD, 0},
                  {7, second + ZOHMIRKA_WINDOW_OFFSETS + 4, 0},
                  {8, first + ZOHMIRKA_WINDOW_KERNEL, 0},
                  {9, chain + ZOHMIRKA_CHAIN_CAPACITIES, 1},
                  {14, chain + ZOHMIRKA_CHAIN_OFFSETS + 4, 1}};
    for (int i = 0; i < 9; i++) {
        struct pair planned = pair;
        expect(goes(&pair, lent, 6, 99).refusal == steps[i].number, "run_pair: the order of the numbers");
        /* Neither capacities nor references of the grid's words play a part. */
        expect(plans(&planned, ALL, ZOHMIRKA_CHAIN_WORDS) == (i < 7 ? steps[i].number : 0), "plan_pair: the order of the numbers");
        *steps[i].word = steps[i].right;
    }
    expect(goes(&pair, lent, 6, 99).refusal == 10 && goes(&pair, ALL, 6, 99).refusal == 11, "run_pair: 10, then 11");
    pair.state[32] = 0;
    expect(is(goes(&pair, ALL, 6, 99), 0, ZOHMIRKA_DONE, 6, 4, 6), "run_pair: nothing wrong");

    /* 16 in place of 3. */
    pair = six();
    pair.chain[ZOHMIRKA_CHAIN_SKEWED] = 1;
    pair.chain[ZOHMIRKA_CHAIN_ROWS] = 1;
    expect(plans(&pair, ALL, ZOHMIRKA_CHAIN_WORDS) == 16 && goes(&pair, ALL, 6, 99).refusal == 16, "a pair: no rows lent");
}

/* 40 by 40 cells, and a window of 7 rows of 5 references without its corners: 31 of them. All iterations are rows 3 to 36, columns 2 to 37. The same with each row a column
 * further: all iterations are rows 3 to 36, in row y columns y + 4 to y + 35, and a box of them is rows 3 to 18, columns 22 to 38. */
enum { ROWS = 40, FIRINGS = 34 * 36, SKEWED_FIRINGS = 34 * 32, BOX_FIRINGS = 16 * 17 };
static const char *const KERNELS[4] = {"0400\n", "0401\n", "04023D000000\n", "04033F0000003C800000\n"};

static void wide_request(char *text, const char *kernel, int skewed, int boxed) {
    if (skewed) {
        text += sprintf(text, "09%04X", (unsigned)ROWS);
        for (unsigned y = 0; y < ROWS; y++) text += sprintf(text, "%04X%04X", y, (unsigned)ROWS);
        text += sprintf(text, "\n");
    } else {
        text += sprintf(text, "0102%08X%08X\n", (unsigned)ROWS, (unsigned)ROWS);
    }
    for (int y = -3; y <= 3; y++) {
        for (int x = -2; x <= 2; x++) {
            if (x * x + y * y != 13) text += sprintf(text, "02%04X%04X\n", (unsigned)(uint16_t)y, (unsigned)(uint16_t)x);
        }
    }
    if (boxed) text += skewed ? sprintf(text, "08%08X%08X%08X%08X\n", 3u, 18u, 22u, 38u) : sprintf(text, "08%08X%08X%08X%08X\n", 3u, 36u, 2u, 37u);
    strcpy(text, kernel);
}

struct job {
    int kernel, piece, skewed, wrong;
    uint32_t sum;
    /* Where the stack of a function begins that `runs` calls. */
    const char *top;
};

__attribute__((noinline)) static const char *stack_here(void) {
    return (const char *)__builtin_frame_address(0);
}

static int boxed(const struct job *job) {
    return job->piece % 4 >= 2;
}

/* Plans, judges, reads and runs a chain, on a rectangle or on rows, without a box or in one, in pieces, by its sheet or by its words; a sum over the words that it writes. */
static void *runs(void *lent) {
    struct job *job = lent;
    static const uint32_t refused_words[1] = {0};
    char request[1200];
    uint32_t rows[ZOHMIRKA_ROW_NUMBERS];
    uint8_t sheet[ZOHMIRKA_SHEET_BYTES], again[ZOHMIRKA_SHEET_BYTES];
    uint32_t chain[ZOHMIRKA_CHAIN_WORDS], state[ZOHMIRKA_STATE_WORDS] = {0};
    uint32_t *store = malloc(ZOHMIRKA_STORE_WORDS * sizeof *store), *cells = malloc(ROWS * ROWS * sizeof *cells), *out = malloc(4096 * sizeof *out);
    for (uint32_t i = 0; i < ROWS * ROWS; i++) cells[i] = 0x3F800000u + i * 2654435761u % 0x00800000u;
    memset(store, job->piece, ZOHMIRKA_STORE_WORDS * sizeof *store);
    wide_request(request, KERNELS[job->kernel], job->skewed, boxed(job));
    job->top = stack_here();
    struct zohmirka_sheet planned = zohmirka_plan(bytes(request), strlen(request), sheet, sizeof sheet);
    job->wrong |= planned.refusal != 0 || zohmirka_version() != ZOHMIRKA_VERSION;
    job->wrong |= zohmirka_judge(sheet, planned.bytes) != 0 || zohmirka_judge(sheet, planned.bytes - 1) == 0;
    job->wrong |= zohmirka_read_chain(sheet, planned.bytes, chain, ZOHMIRKA_CHAIN_WORDS, rows, ZOHMIRKA_ROW_NUMBERS) != 0;
    size_t numbers = 2 * (size_t)chain[ZOHMIRKA_CHAIN_ROWS];
    job->wrong |= zohmirka_judge_chain(chain, ZOHMIRKA_CHAIN_WORDS, rows, numbers) != 0;
    struct zohmirka_sheet wrote = zohmirka_write_chain(chain, ZOHMIRKA_CHAIN_WORDS, rows, numbers, again, sizeof again);
    job->wrong |= wrote.refusal != 0 || wrote.bytes != planned.bytes || memcmp(again, sheet, planned.bytes) != 0;
    job->wrong |= zohmirka_run_chain(refused_words, 1, NULL, 0, state, ZOHMIRKA_STATE_WORDS, store, 0, cells, 0, out, 0, 1).refusal != 3;
    uint32_t at = 0, sum = 0, firings = 0, lent_cells = (uint32_t)job->piece;
    for (;;) {
        uint32_t count = ROWS * ROWS - at < lent_cells ? ROWS * ROWS - at : lent_cells;
        struct zohmirka_report r = job->piece % 2 ? zohmirka_run(sheet, planned.bytes, state, ZOHMIRKA_STATE_WORDS, store, ZOHMIRKA_STORE_WORDS, cells + at, count, out, 4096, 4000)
                                                  : zohmirka_run_chain(chain, ZOHMIRKA_CHAIN_WORDS, rows, numbers, state, ZOHMIRKA_STATE_WORDS, store, ZOHMIRKA_STORE_WORDS,
                                                                       cells + at, count, out, 4096, 4000);
        for (uint32_t i = 0; i < r.firings * (job->kernel == 0 ? chain[ZOHMIRKA_CHAIN_REFERENCES] : 1); i++) sum = sum * 31 + out[i];
        at += r.cells;
        firings += r.firings;
        job->wrong |= r.refusal != 0 || r.outcome == ZOHMIRKA_STALLED;
        if (r.outcome == ZOHMIRKA_DONE || job->wrong) break;
    }
    job->wrong |= firings != (!job->skewed ? FIRINGS : boxed(job) ? BOX_FIRINGS : SKEWED_FIRINGS);
    job->sum = sum;
    free(store);
    free(cells);
    free(out);
    return NULL;
}

/* A window of the first and then every `step`th of a chain's references, in the order of its author, and with the kernel of this number in KERNELS. */
static void window_of(uint32_t *window, const uint32_t *chain, uint32_t step, int kernel) {
    static const uint32_t kernels[4][3] = {{0, 0, 0}, {1, 0, 0}, {2, 0x3D000000, 0}, {3, 0x3F000000, 0x3C800000}};
    memset(window, 0, ZOHMIRKA_WINDOW_WORDS * sizeof *window);
    for (uint32_t t = 0; t < chain[ZOHMIRKA_CHAIN_REFERENCES]; t += step) {
        uint32_t filter = chain[ZOHMIRKA_CHAIN_ORDER + t];
        memcpy(window + ZOHMIRKA_WINDOW_OFFSETS + 4 * window[0]++, chain + ZOHMIRKA_CHAIN_OFFSETS + 4 * filter, 4 * sizeof *window);
    }
    memcpy(window + ZOHMIRKA_WINDOW_KERNEL, kernels[kernel], sizeof kernels[kernel]);
}

/* Two windows on the chain of `runs`: all its references, and every third of them, with the centre, which is number 15. The first output is what the chain by itself writes. */
static void *pair_runs(void *lent) {
    struct job *job = lent;
    enum { PLACES = 4096, THIRD = 11 };
    char request[1200];
    uint32_t rows[ZOHMIRKA_ROW_NUMBERS], chain[ZOHMIRKA_CHAIN_WORDS], shared[ZOHMIRKA_CHAIN_WORDS], first[ZOHMIRKA_WINDOW_WORDS], second[ZOHMIRKA_WINDOW_WORDS];
    uint8_t sheet[ZOHMIRKA_SHEET_BYTES];
    uint32_t state[2][ZOHMIRKA_STATE_WORDS] = {{0}};
    uint32_t *store = malloc(2 * ZOHMIRKA_STORE_WORDS * sizeof *store), *cells = malloc(ROWS * ROWS * sizeof *cells), *out = malloc((2 + THIRD) * PLACES * sizeof *out);
    uint32_t *alone = out + PLACES, *third = alone + PLACES;
    for (uint32_t i = 0; i < ROWS * ROWS; i++) cells[i] = 0x3F800000u + i * 2654435761u % 0x00800000u;
    memset(store, job->piece, 2 * ZOHMIRKA_STORE_WORDS * sizeof *store);
    wide_request(request, KERNELS[job->kernel], job->skewed, boxed(job));
    struct zohmirka_sheet planned = zohmirka_plan(bytes(request), strlen(request), sheet, sizeof sheet);
    job->wrong |= planned.refusal != 0;
    job->wrong |= zohmirka_read_chain(sheet, planned.bytes, chain, ZOHMIRKA_CHAIN_WORDS, rows, ZOHMIRKA_ROW_NUMBERS) != 0;
    size_t numbers = 2 * (size_t)chain[ZOHMIRKA_CHAIN_ROWS];
    window_of(first, chain, 1, job->kernel);
    window_of(second, chain, 3, (job->kernel + job->piece) % 4);
    uint32_t width = job->kernel == 0 ? first[ZOHMIRKA_WINDOW_REFERENCES] : 1, other_width = second[ZOHMIRKA_WINDOW_KERNEL] == 0 ? THIRD : 1;
    uint32_t at = 0, sum = 0, firings = 0, lent_cells = (uint32_t)job->piece;
    job->top = stack_here();
    uint32_t refusal = zohmirka_plan_pair(chain, ZOHMIRKA_CHAIN_WORDS, rows, numbers, first, ZOHMIRKA_WINDOW_WORDS, second, ZOHMIRKA_WINDOW_WORDS, shared, ZOHMIRKA_CHAIN_WORDS);
    job->wrong |= refusal != 0 || memcmp(shared, chain, ZOHMIRKA_CHAIN_KERNEL * sizeof *chain) != 0 || second[ZOHMIRKA_WINDOW_REFERENCES] != THIRD;
    for (;;) {
        uint32_t count = ROWS * ROWS - at < lent_cells ? ROWS * ROWS - at : lent_cells;
        struct zohmirka_report r = zohmirka_run_pair(shared, ZOHMIRKA_CHAIN_WORDS, rows, numbers, first, ZOHMIRKA_WINDOW_WORDS, second, ZOHMIRKA_WINDOW_WORDS, state[0],
                                                     ZOHMIRKA_STATE_WORDS, store, ZOHMIRKA_STORE_WORDS, cells + at, count, out, PLACES, third, THIRD * PLACES, 4000);
        struct zohmirka_report s = zohmirka_run_chain(chain, ZOHMIRKA_CHAIN_WORDS, rows, numbers, state[1], ZOHMIRKA_STATE_WORDS, store + ZOHMIRKA_STORE_WORDS,
                                                      ZOHMIRKA_STORE_WORDS, cells + at, count, alone, PLACES, 4000);
        job->wrong |= r.refusal != 0 || r.outcome == ZOHMIRKA_STALLED || !is(s, 0, r.outcome, r.cells, r.firings, r.clocks);
        job->wrong |= memcmp(state[0], state[1], sizeof state[0]) != 0 || memcmp(out, alone, r.firings * width * sizeof *out) != 0;
        for (uint32_t i = 0; i < r.firings * width; i++) sum = sum * 31 + out[i];
        for (uint32_t i = 0; i < r.firings * other_width; i++) sum = sum * 31 + third[i];
        at += r.cells;
        firings += r.firings;
        if (r.outcome == ZOHMIRKA_DONE || job->wrong) break;
    }
    job->wrong |= firings != (!job->skewed ? FIRINGS : boxed(job) ? BOX_FIRINGS : SKEWED_FIRINGS);
    job->sum = sum;
    free(store);
    free(cells);
    free(out);
    return NULL;
}

/* Each kernel in pieces of four sizes, on a rectangle and on rows, all at the same time, and each alone: the same words. */
static void threads(void *(*body)(void *), struct job alone[32]) {
    pthread_t started[32];
    struct job together[32];
    for (int i = 0; i < 32; i++) {
        struct job job = {i % 4, i / 4 % 4 * 61 + 7, i / 16, 0, 0, NULL};
        together[i] = alone[i] = job;
        if (pthread_create(&started[i], NULL, body, &together[i]) != 0) exit(2);
    }
    for (int i = 0; i < 32; i++) pthread_join(started[i], NULL);
    for (int i = 0; i < 32; i++) {
        body(&alone[i]);
        expect(!together[i].wrong && !alone[i].wrong && together[i].sum == alone[i].sum, "calls at the same time");
    }
}

/* For one kernel also: the same words in pieces of any size, and a full box runs as none. */
static void threads_of_runs(void) {
    struct job alone[32];
    threads(runs, alone);
    for (int i = 0; i < 32; i++) {
        int first = 0;
        while (alone[first].kernel != alone[i].kernel || alone[first].skewed != alone[i].skewed || (alone[i].skewed && boxed(&alone[first]) != boxed(&alone[i]))) first++;
        expect(alone[i].sum == alone[first].sum, "pieces of other sizes, and a full box");
    }
}

/* The same on a stack that is filled with one byte before: how far down it was written. */
static void stack(void *(*body)(void *), const char *what) {
    enum { SIZE = 1 << 20 };
    size_t most = 0;
    for (int i = 0; i < 32; i++) {
        void *lent;
        if (posix_memalign(&lent, 4096, SIZE) != 0) exit(2);
        char *low = lent;
        memset(low, 0x5A, SIZE);
        pthread_attr_t attributes;
        pthread_t started;
        struct job job = {i % 4, i / 4 % 4 + 800, i / 16, 0, 0, NULL};
        pthread_attr_init(&attributes);
        if (pthread_attr_setstack(&attributes, low, SIZE) != 0 || pthread_create(&started, &attributes, body, &job) != 0) exit(2);
        pthread_join(started, NULL);
        const char *p = low;
        while (*p == 0x5A) p++;
        size_t depth = (size_t)(job.top - p);
        if (depth > most) most = depth;
        expect(!job.wrong, "calls on a lent stack");
        pthread_attr_destroy(&attributes);
        free(low);
    }
    if (getenv("EDGES_STACK") != NULL) printf("%zu bytes of stack: %s\n", most, what);
    expect(most <= ZOHMIRKA_STACK_BYTES, "a call needs more stack than the header says");
}

int main(void) {
    expect(zohmirka_version() == ZOHMIRKA_VERSION, "version");
    null_slices();
    names();
    orders();
    boxes();
    skewed();
    earlier_versions();
    few_places();
    outcomes();
    other_counters();
    pair_lengths();
    pairs();
    pair_refusals();
    struct job jobs[32];
    threads_of_runs();
    threads(pair_runs, jobs);
    stack(runs, "one kernel");
    stack(pair_runs, "two kernels");
    printf(failed ? "c/edges: failed\n" : "c/edges: ok\n");
    return failed;
}
