/* Zohmirka: plans and runs reuse chains. The functions of target/staticlib/libzohmirka.a, which `rust/library` writes, for x86-64 Linux.
 *
 * Rules for all functions:
 * - A slice is a pointer and a number of elements. The pointer is aligned for its type, and so many elements stand there, of any values. The pointer of a slice of
 *   0 elements may be NULL: nothing is read or written through it.
 * - While a call runs, nobody else writes what it is lent to read, nor reads or writes what it is lent to write: no other thread, and no other call. A slice that is
 *   written overlaps no other slice of the call; slices that are only read may overlap, and may be lent to several calls at the same time.
 * - Nothing else is asked: any bytes, words, lengths and allowances are taken. Each function returns, and keeps nothing: what there is to keep is in the slices. The
 *   library has no state of its own, allocates nothing and makes no system call; calls may run in several threads at the same time, by the rule above.
 * - A call needs at most ZOHMIRKA_STACK_BYTES of stack, and the usual floating-point environment: rounding to nearest, subnormals kept (-ffast-math may change it).
 * - `refusal` is the number, of documents 01 and 02, of what turned the input back first, or 0. After a refusal every slice is as before. Later versions of the
 *   library may answer numbers that are not listed here.
 *
 * Numbers: 1 a malformed line, 2 a line out of its order or missing, 3 dimension count, sizes or number of cells, 4 number of references, 5 two equal offsets,
 * 6 no iteration, 7 difference or blend without a centre, 8 a factor that is infinite or not a number, 9 capacities summing above 16,384, 10 a store that is too
 * short, 11 a state that is too short or whose counters do not fit the chain, 12 what is to be written is longer than the slice lent for it, 13 (request sheets) a
 * byte that names no window, or one whose dimensions are not the grid's, 14 (chains; looked at after 9) an order that stood and does not hold each filter number
 * once, or in zohmirka_run_pair, where no order is looked at, references of the chain that are not those of both windows together, 15 (looked at after 6) a box that
 * stood and has a lowest index above its highest, or an iteration that reads outside the grid, 16 (in place of 3 on a skewed grid) a row count, start or length outside
 * its range.
 */
#ifndef ZOHMIRKA_H
#define ZOHMIRKA_H

#include <stddef.h>
#include <stdint.h>

#ifdef __cplusplus
extern "C" {
#endif

/* The version of this interface. */
#define ZOHMIRKA_VERSION 5

/* No call needs more bytes of stack, what it calls included. Measured, not proved. */
#define ZOHMIRKA_STACK_BYTES 75776

/* No chain sheet has more bytes. */
#define ZOHMIRKA_SHEET_BYTES 4919
/* No chain that is accepted needs more words of store. */
#define ZOHMIRKA_STORE_WORDS 16384
/* No firing writes more words. Raw writes as many as there are references, the other kernels write one. */
#define ZOHMIRKA_FIRING_WORDS 32

/* A state is 33 words: the input counters of filters 0 to 31, then the firings made. All are 0 when fresh; counters of filters that the chain does not have play no part
 * and stay. */
#define ZOHMIRKA_STATE_WORDS 33

/* A chain is 212 words:
 *   0           the dimension count, on a skewed grid 2
 *   1 to 4      the sizes, slowest dimension first, on a skewed grid 0
 *   5           the number of references, n
 *   6 to 133    the offsets: entry d of filter k's offset, 16 bits in two's complement, at 6 + 4 * k + d
 *   134 to 164  the capacities, FIFO 0 first
 *   165         the kernel: 0 raw, 1 difference, 2 scaled, 3 blend
 *   166, 167    scaled: the factor's bits, and 0; blend: the bits of a and of b; else 0 and 0
 *   168         1 if the author's order stood, else 0
 *   169 to 200  the author's order: the filter number of each term in turn
 *   201         1 if a box stood, else 0
 *   202 to 205  the lowest index of the box's iterations in each dimension, 32 bits in two's complement
 *   206 to 209  the highest index, the same way
 *   210         1 if the grid is skewed, 0 if it is a rectangle
 *   211         the number of rows of a skewed grid, else 0
 * Words past the counts are 0, and so are those of an order or a box that did not stand: then terms are added in chain order, and a run covers all iterations.
 * Version 1 had the first 168 words, version 2 the first 201, version 3 the first 210. */
#define ZOHMIRKA_CHAIN_WORDS 212

/* The rows of a skewed grid are lent beside the words of its chain: for each row its start, 0 to 4095, then its length, 1 to 1024; 1 to 512 rows. Numbers past the
 * count of word 211 play no part; where there are fewer, the missing ones are 0, and a length of 0 is 16. A rectangle needs none (NULL, 0), and what is lent beside it
 * plays no part. No chain that is accepted has more numbers. */
#define ZOHMIRKA_ROW_NUMBERS 1024

/* Where the parts of a chain begin. */
enum {
    ZOHMIRKA_CHAIN_DIMENSIONS = 0,
    ZOHMIRKA_CHAIN_SIZES = 1,
    ZOHMIRKA_CHAIN_REFERENCES = 5,
    ZOHMIRKA_CHAIN_OFFSETS = 6,
    ZOHMIRKA_CHAIN_CAPACITIES = 134,
    ZOHMIRKA_CHAIN_KERNEL = 165,
    ZOHMIRKA_CHAIN_FACTORS = 166,
    ZOHMIRKA_CHAIN_ORDER_STOOD = 168,
    ZOHMIRKA_CHAIN_ORDER = 169,
    ZOHMIRKA_CHAIN_BOX_STOOD = 201,
    ZOHMIRKA_CHAIN_BOX_LOWEST = 202,
    ZOHMIRKA_CHAIN_BOX_HIGHEST = 206,
    ZOHMIRKA_CHAIN_SKEWED = 210,
    ZOHMIRKA_CHAIN_ROWS = 211
};

/* A window, one of two that share a chain, is 132 words:
 *   0           the number of references, n
 *   1 to 128    the offsets, in the order of the window's author: entry d of reference k's offset, 16 bits in two's complement, at 1 + 4 * k + d
 *   129         the kernel, and
 *   130, 131    its factors, as words 165 to 167 of a chain
 * Any words are a window. Fewer than 132 are one without references, which is refused by 4; later words play no part; a count above 255 counts as 255; of an entry
 * the low 16 bits count; a kernel above 3 is refused by 8. No part play words past the count, entries past the grid's dimensions, and factors that the kernel does not
 * have. */
#define ZOHMIRKA_WINDOW_WORDS 132

/* Where the parts of a window begin. */
enum {
    ZOHMIRKA_WINDOW_REFERENCES = 0,
    ZOHMIRKA_WINDOW_OFFSETS = 1,
    ZOHMIRKA_WINDOW_KERNEL = 129,
    ZOHMIRKA_WINDOW_FACTORS = 130
};

/* How a call ends. Before each clock DONE to FULL are looked at in this order, and the first that holds ends the call. So a call of allowance 0 on a run that is not
 * done ends SPENT, and one that has a clock and is lent no cell ends STARVED, also where the chain is stalled or the next clock would fire. */
enum {
    ZOHMIRKA_DONE = 0,    /* every firing is made: each later call that is not refused ends DONE too, with counts 0, whatever it is lent */
    ZOHMIRKA_SPENT = 1,   /* the call has made as many clocks as its allowance */
    ZOHMIRKA_STARVED = 2, /* every lent cell was taken */
    ZOHMIRKA_STALLED = 3, /* nothing would move: each later call that is not refused and is lent a clock and a cell ends STALLED too, with counts 0 */
    ZOHMIRKA_FULL = 4,    /* the next clock would fire, and fewer output places are left than it writes, of two outputs in either */
    ZOHMIRKA_REFUSED = 5  /* the call was refused */
};

struct zohmirka_sheet {
    uint32_t refusal;
    size_t bytes; /* written; 0 after a refusal */
};

struct zohmirka_report {
    uint32_t refusal;
    uint32_t outcome; /* as above: 5 exactly if `refusal` is not 0 */
    uint32_t cells;   /* taken by this call; 0 after a refusal, as the next two */
    uint32_t firings; /* made by this call */
    uint32_t clocks;  /* made by this call */
};

/* ZOHMIRKA_VERSION of the library. */
uint32_t zohmirka_version(void);

/* Plans: the chain sheet of a request sheet goes to the first places of `sheet`, later places stay. The order of the references in the request goes with it, and
 * the kernel adds its terms in it; the request's rows and its box, where they stood, are copied. Refusals: 1 to 9, 13, 15 and 16 of the request, then 12 if the chain
 * sheet has more bytes than `sheet`. */
struct zohmirka_sheet zohmirka_plan(const uint8_t *request, size_t request_len, uint8_t *sheet, size_t sheet_len);

/* Judges a chain sheet, which ends with its `04` line: 1 to 9, 14, 15 or 16, or 0 if it is accepted. */
uint32_t zohmirka_judge(const uint8_t *sheet, size_t sheet_len);

/* A run call on the chain of a sheet. Refusals: 1 to 9, 14, 15 and 16 of the sheet, then 10, then 11.
 *   state      33 words or more: all 0 before the first call, then as the last call left them; later words play no part and stay
 *   store      as many words as the capacities' sum or more: of any content before the first call, then as the last call left them; later words play no part and stay
 *   cells      cells of the stream, the first one at the position that word 0 of the state says; cells past the grid's last one are never taken
 *   out        gets what the firings of this call write, from the first place on; later places stay. A firing needs as many places as it writes words, raw of n
 *              references n; other clocks need none. A call that is lent fewer makes no firing: where the next clock would fire it ends ZOHMIRKA_FULL, and so does
 *              each later call that is lent as few, but SPENT with no clock left and STARVED with no cell. Before such a clock it goes on, and a chain that stalls ends
 *              ZOHMIRKA_STALLED all the same. ZOHMIRKA_FIRING_WORDS places are enough for a firing of any chain.
 *   allowance  the most clocks that this call may make */
struct zohmirka_report zohmirka_run(const uint8_t *sheet, size_t sheet_len, uint32_t *state, size_t state_len, uint32_t *store, size_t store_len,
                                    const uint32_t *cells, size_t cells_len, uint32_t *out, size_t out_len, uint32_t allowance);

/* Reads a chain sheet: its chain goes to the first 212 places of `chain`, the numbers of its rows, two for each, to the first places of `rows`; later places stay. Of a
 * rectangle nothing goes to `rows`. Refusals: 1 to 9, 14, 15 and 16 of the sheet, then 12 if `chain` or `rows` has fewer places: ZOHMIRKA_ROW_NUMBERS are enough for
 * any sheet. */
uint32_t zohmirka_read_chain(const uint8_t *sheet, size_t sheet_len, uint32_t *chain, size_t chain_len, uint32_t *rows, size_t rows_len);

/* A run call on a chain given as words, with its rows beside them, for many short calls: no sheet is read. On what zohmirka_read_chain wrote of a sheet it does what
 * zohmirka_run does on that sheet. Any other words and numbers are a chain too. Refusals: 3 to 9, 14, 15 and 16 of the chain, then 10, then 11. Fewer than 212 words are
 * refused by 3, the 168, 201 and 210 words of earlier versions too; later words play no part; counts and filter numbers above 255 count as 255; of an entry the low 16
 * bits count; a kernel above 3 is refused by 8; an order stood if word 168 is not 0, and a box if word 201 is not 0, else its words play no part; the grid is skewed if
 * word 210 is not 0, and then words 0 to 4 play no part, else word 211 and the rows do not. */
struct zohmirka_report zohmirka_run_chain(const uint32_t *chain, size_t chain_len, const uint32_t *rows, size_t rows_len, uint32_t *state, size_t state_len,
                                          uint32_t *store, size_t store_len, const uint32_t *cells, size_t cells_len, uint32_t *out, size_t out_len,
                                          uint32_t allowance);

/* Judges a chain given as words and rows, as zohmirka_run_chain takes them: 3 to 9, 14, 15 or 16, or 0 if it is accepted. */
uint32_t zohmirka_judge_chain(const uint32_t *chain, size_t chain_len, const uint32_t *rows, size_t rows_len);

/* Writes the sheet of a chain given as words and rows, as zohmirka_run_chain takes them: it goes to the first places of `sheet`, later places stay. Of what
 * zohmirka_read_chain wrote of a sheet it is that sheet. Refusals: 3 to 9, 14, 15 and 16 of the chain, then 12 if the chain sheet has more bytes than `sheet`. */
struct zohmirka_sheet zohmirka_write_chain(const uint32_t *chain, size_t chain_len, const uint32_t *rows, size_t rows_len, uint8_t *sheet, size_t sheet_len);

/* Plans a chain that two kernels share, each with a window of its own: the chain for all references of both windows goes to the first 212 places of `chain`, later
 * places stay. It has each reference once, in falling order, with the capacities that planning gives them; its kernel is raw, and its order stood and is 0, 1, 2 and so
 * on.
 *   grid    the words of a chain, as zohmirka_run_chain takes them, of which the grid and the box alone play a part: words 0 to 4 and 201 to 211. The chain gets both,
 *           whatever stood in the words with 0 past the counts, in a box that did not stand and in the words of the other kind of grid (on rows word 0 is 2), and with
 *           flags 0 or 1. Fewer than 212 words are refused by 3
 *   rows    the rows of `grid`, where it is skewed; they are the chain's too
 *   first, second    the windows; they may be the same
 * Refusals, in this order: 3 or 16 of the grid; 4 of either window, or of both together, where equal offsets count once; 5 of either window; 6 and 15 of both together;
 * 7 of either window by its own references; 8 of either; 9 of the planned capacities; 12 if `chain` has fewer than 212 places. */
uint32_t zohmirka_plan_pair(const uint32_t *grid, size_t grid_len, const uint32_t *rows, size_t rows_len, const uint32_t *first, size_t first_len,
                            const uint32_t *second, size_t second_len, uint32_t *chain, size_t chain_len);

/* A run call on a chain that two kernels share, given as words and rows, as zohmirka_run_chain takes them: what zohmirka_plan_pair wrote, or any other. Its references
 * are those of both windows together, in any order and with any capacities; its own kernel and order play no part, and are not judged. The iterations are the chain's.
 * State, store, cells and allowance are as in zohmirka_run.
 *   first, second            the windows. They come with every call: a later call of a run may bring other kernels, or the same references shared out otherwise
 *   out_first, out_second    each gets what the kernel of its window gives on the cells of that window's references, terms in the order of the window's author, raw in
 *                            chain order, from the first place on; later places stay. The two are lent apart, as all slices that are written. A firing needs as many
 *                            places of each as that window's kernel writes words: raw one for each of the window's references, the others one. Where either has fewer
 *                            left and the next clock would fire, the call ends ZOHMIRKA_FULL: that clock is not made, and it writes to neither
 * As long as neither output lacks places, the other window's kernel changes no word of an output, and no kernel changes cells, clocks or outcome.
 * Refusals, in this order: 3 or 16 of the grid; 4 of the chain, of either window, or of both together; 5 of the chain or of either window; 6 and 15 of the chain; 7 of
 * either window by its own references; 8 of either; 9 of the capacities; 14 if the chain's references are not those of both windows together; 10; 11. */
struct zohmirka_report zohmirka_run_pair(const uint32_t *chain, size_t chain_len, const uint32_t *rows, size_t rows_len, const uint32_t *first, size_t first_len,
                                         const uint32_t *second, size_t second_len, uint32_t *state, size_t state_len, uint32_t *store, size_t store_len,
                                         const uint32_t *cells, size_t cells_len, uint32_t *out_first, size_t out_first_len, uint32_t *out_second,
                                         size_t out_second_len, uint32_t allowance);

#ifdef __cplusplus
}
#endif

#endif
