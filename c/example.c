/* Plans and runs two requests, and prints what `plan` and `run` write for them: the sample of document 01, and three rows that begin in different columns (document 02,
 * request 5). Build and run, from the repository's top:
 *   rust/library && cc -std=c99 -Wall -Wextra -o target/example c/example.c target/staticlib/libzohmirka.a && target/example
 * rust/test compares what it prints with c/example.out. */
#include "zohmirka.h"

#include <stdio.h>
#include <string.h>

static int refused(uint32_t refusal) {
    printf("1F%02X\n", (unsigned)refusal);
    return 1;
}

/* The cells are 1, 2 and so on, and there are so many of them. */
static int plan_and_run(const char *request, uint32_t cells) {
    uint8_t sheet[ZOHMIRKA_SHEET_BYTES];
    struct zohmirka_sheet planned = zohmirka_plan((const uint8_t *)request, strlen(request), sheet, sizeof sheet);
    if (planned.refusal != 0) return refused(planned.refusal);
    fwrite(sheet, 1, planned.bytes, stdout);

    uint32_t chain[ZOHMIRKA_CHAIN_WORDS], rows[ZOHMIRKA_ROW_NUMBERS];
    uint32_t refusal = zohmirka_read_chain(sheet, planned.bytes, chain, ZOHMIRKA_CHAIN_WORDS, rows, ZOHMIRKA_ROW_NUMBERS);
    if (refusal != 0) return refused(refusal);
    /* Raw writes a word for each reference; a row has a start and a length. */
    const uint32_t words = chain[ZOHMIRKA_CHAIN_REFERENCES];
    const size_t numbers = 2 * (size_t)chain[ZOHMIRKA_CHAIN_ROWS];

    uint32_t state[ZOHMIRKA_STATE_WORDS] = {0};
    uint32_t store[ZOHMIRKA_STORE_WORDS];
    uint32_t out[ZOHMIRKA_FIRING_WORDS];
    memset(store, 0, sizeof store);
    uint32_t fired = 0, clocks = 0, cell = 1;
    struct zohmirka_report report;
    do {
        /* One cell a call. */
        report = zohmirka_run_chain(chain, ZOHMIRKA_CHAIN_WORDS, rows, numbers, state, ZOHMIRKA_STATE_WORDS, store, ZOHMIRKA_STORE_WORDS, &cell, 1, out,
                                    ZOHMIRKA_FIRING_WORDS, UINT32_MAX);
        for (uint32_t i = 0; i < report.firings; i++) {
            printf("10%08X", (unsigned)fired++);
            for (uint32_t k = 0; k < words; k++) printf("%08X", (unsigned)out[i * words + k]);
            printf("\n");
        }
        clocks += report.clocks;
        cell += report.cells;
    } while (report.outcome == ZOHMIRKA_STARVED && cell <= cells);
    if (report.refusal != 0) return refused(report.refusal);
    printf("11%02X%08X\n", report.outcome == ZOHMIRKA_DONE ? 0u : report.outcome == ZOHMIRKA_STALLED ? 1u : 2u, (unsigned)clocks);
    return 0;
}

int main(void) {
    if (zohmirka_version() != ZOHMIRKA_VERSION) {
        printf("the library is of another version\n");
        return 1;
    }
    if (plan_and_run("010100000005\n020000\n020003\n0400\n", 5) != 0) return 1;
    return plan_and_run("090003000100010001000100000002\n0200000000\n02FFFF0000\n0400\n", 4);
}
