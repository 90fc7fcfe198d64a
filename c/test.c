/* Calls every function of the library and compares all that comes back, lent bytes too. The first difference ends it with a message and the status 1. */
#include "belutharin.h"

#include <stdio.h>
#include <stdlib.h>
#include <string.h>

/* What lent bytes hold before a call: no cell has this value. */
#define UNTOUCHED 165

static void same_number(const char *what, unsigned long long got, unsigned long long wanted)
{
    if (got != wanted) {
        fprintf(stderr, "c/test: %s: got %llu, wanted %llu\n", what, got, wanted);
        exit(1);
    }
}

static void same_bytes(const char *what, const uint8_t *got, const uint8_t *wanted, size_t length)
{
    for (size_t at = 0; at < length; at++) {
        if (got[at] != wanted[at]) {
            fprintf(stderr, "c/test: %s: byte %zu: got %u, wanted %u\n", what, at, got[at], wanted[at]);
            exit(1);
        }
    }
}

static void all_untouched(const char *what, const uint8_t *got, size_t length)
{
    for (size_t at = 0; at < length; at++) {
        same_number(what, got[at], UNTOUCHED);
    }
}

/* Twin: two by two cells, one block of one cell in each line. */
static const uint8_t twin_clues[12] = {1, 1, 1, 1, 1, 1, 1, 1, 1, 1, 1, 1};
static const uint8_t twin_open[4] = {3, 3, 3, 3};
static const uint8_t twin_grids[8] = {1, 2, 2, 1, 2, 1, 1, 2};

/* Twin within a budget: its first so many grids, and nothing written after them. */
static void twin_within(uint64_t budget, size_t wanted_grids, uint64_t wanted_steps, uint8_t wanted_limit)
{
    uint8_t cells[4], list[20];
    size_t grids = 99, deepest = 99, written = wanted_grids * sizeof cells;
    uint64_t steps = 99;
    uint8_t limit = 99;
    memcpy(cells, twin_open, sizeof cells);
    memset(list, UNTOUCHED, sizeof list);
    same_number("Twin: number", belutharin_solve(2, 2, 1, twin_clues, sizeof twin_clues, cells, sizeof cells, list, sizeof list, 4, 15, budget, &grids, &steps, &deepest, &limit),
                BELUTHARIN_LISTED);
    same_number("Twin: grids", grids, wanted_grids);
    same_number("Twin: steps", steps, wanted_steps);
    same_number("Twin: deepest", deepest, 1);
    same_number("Twin: limit", limit, wanted_limit);
    same_bytes("Twin: board", cells, twin_open, sizeof cells);
    same_bytes("Twin: list", list, twin_grids, written);
    all_untouched("Twin: rest of the list", list + written, sizeof list - written);
}

/* A longer run only adds: the grid of the short one is the first of the others. */
static void test_twin(void)
{
    twin_within(1, 1, 1, BELUTHARIN_STEPS_LIMIT);
    twin_within(2, 2, 2, BELUTHARIN_STEPS_LIMIT);
    twin_within(100, 2, 8, BELUTHARIN_NO_LIMIT);
}

static void test_solved(void)
{
    const uint8_t clues[2] = {0, 0}, blank[1] = {1};
    uint8_t cells[1] = {3}, list[1] = {UNTOUCHED};
    size_t grids = 99, deepest = 99;
    uint64_t steps = 99;
    uint8_t limit = 99;
    same_number("one blank cell: number", belutharin_solve(1, 1, 1, clues, sizeof clues, cells, sizeof cells, list, sizeof list, 1, 15, 100, &grids, &steps, &deepest, &limit),
                BELUTHARIN_SOLVED);
    same_number("one blank cell: counts", grids + steps + deepest + limit, 0);
    same_bytes("one blank cell: board", cells, blank, sizeof cells);
    all_untouched("one blank cell: list", list, sizeof list);
}

static void test_dead_end(void)
{
    const uint8_t clues[4] = {1, 1, 1, 0}, open[1] = {3};
    uint8_t cells[1] = {3}, list[1] = {UNTOUCHED};
    size_t grids = 99, deepest = 99;
    uint64_t steps = 99;
    uint8_t limit = 99;
    same_number("row against column: number", belutharin_solve(1, 1, 1, clues, sizeof clues, cells, sizeof cells, list, sizeof list, 1, 15, 100, &grids, &steps, &deepest, &limit),
                BELUTHARIN_DEAD_END);
    same_number("row against column: counts", grids + steps + deepest + limit, 0);
    same_bytes("row against column: board", cells, open, sizeof cells);
    all_untouched("row against column: list", list, sizeof list);
}

/* Each refusal, from Twin with one thing wrong. */
static void test_refusals(void)
{
    const struct {
        unsigned number;
        size_t w, k, clues_length, cells_length, list_length, most_grids, most_depth;
        uint64_t budget;
    } wrong[] = {
        {BELUTHARIN_SIZE, 17, 1, 12, 4, 16, 4, 15, 100},
        {BELUTHARIN_SIZE, 0, 9, 0, 0, 0, 999, 999, 0},
        {BELUTHARIN_COLOURS, 2, 4, 12, 4, 16, 4, 15, 100},
        {BELUTHARIN_LIMITS, 2, 1, 12, 4, 16, 129, 15, 100},
        {BELUTHARIN_LIMITS, 2, 1, 12, 4, 16, 4, 16, 100},
        {BELUTHARIN_LIMITS, 2, 1, 12, 4, 16, 4, 15, 1000000001},
        {BELUTHARIN_CLUES, 2, 1, 11, 4, 16, 4, 15, 100},
        {BELUTHARIN_CELLS, 2, 1, 12, 3, 16, 4, 15, 100},
        {BELUTHARIN_LIST, 2, 1, 12, 4, 15, 4, 15, 100},
    };
    for (size_t at = 0; at < sizeof wrong / sizeof wrong[0]; at++) {
        uint8_t cells[4], list[16];
        size_t grids = 99, deepest = 99;
        uint64_t steps = 99;
        uint8_t limit = 99;
        memcpy(cells, twin_open, sizeof cells);
        memset(list, UNTOUCHED, sizeof list);
        same_number("refusal: number",
                    belutharin_solve(wrong[at].w, 2, wrong[at].k, twin_clues, wrong[at].clues_length, cells, wrong[at].cells_length, list, wrong[at].list_length, wrong[at].most_grids,
                                     wrong[at].most_depth, wrong[at].budget, &grids, &steps, &deepest, &limit),
                    wrong[at].number);
        same_number("refusal: counts", grids + steps + deepest + limit, 0);
        same_bytes("refusal: board", cells, twin_open, sizeof cells);
        all_untouched("refusal: list", list, sizeof list);
    }
}

static void test_lines(void)
{
    const uint8_t block_of_3[3] = {1, 1, 3}, reduced[5] = {3, 3, 2, 3, 3};
    uint8_t cells[6] = {3, 3, 3, 3, 3, UNTOUCHED};
    same_number("line: number", belutharin_reduce_line(1, block_of_3, sizeof block_of_3, cells, 5), BELUTHARIN_REDUCED);
    same_bytes("line: cells", cells, reduced, sizeof reduced);
    all_untouched("line: past its cells", cells + 5, 1);

    uint8_t two[2] = {3, 3};
    const uint8_t open[2] = {3, 3};
    same_number("short line: number", belutharin_reduce_line(1, block_of_3, sizeof block_of_3, two, sizeof two), BELUTHARIN_DEAD_END);
    same_number("line without colours: number", belutharin_reduce_line(0, block_of_3, sizeof block_of_3, two, sizeof two), BELUTHARIN_COLOURS);
    same_number("line with half a clue: number", belutharin_reduce_line(1, block_of_3, 2, two, sizeof two), BELUTHARIN_CLUES);
    same_number("line without cells: number", belutharin_reduce_line(1, block_of_3, sizeof block_of_3, two, 0), BELUTHARIN_CELLS);
    same_bytes("refused lines: cells", two, open, sizeof two);
}

/* Two blocks of one cell: those of different colours may touch, those of one colour may not. */
static void test_touching(void)
{
    const uint8_t two_colours[5] = {2, 1, 1, 2, 1}, one_colour[5] = {2, 1, 1, 1, 1};
    const uint8_t side_by_side[2] = {2, 4}, parted[3] = {2, 1, 2};
    uint8_t two[2] = {7, 7}, three[3] = {7, 7, 7};
    same_number("two colours in two cells: number", belutharin_reduce_line(2, two_colours, sizeof two_colours, two, sizeof two), BELUTHARIN_REDUCED);
    same_bytes("two colours in two cells: cells", two, side_by_side, sizeof two);
    same_number("one colour in three cells: number", belutharin_reduce_line(2, one_colour, sizeof one_colour, three, sizeof three), BELUTHARIN_REDUCED);
    same_bytes("one colour in three cells: cells", three, parted, sizeof three);
}

static uint64_t bits(double x)
{
    uint64_t all;
    memcpy(&all, &x, sizeof all);
    return all;
}

static void test_rates(void)
{
    const struct {
        uint64_t max, min, bits;
    } worked[] = {
        {4, 0, 0x4000000000000000},     /* 2.0 */
        {9, 3, 0x4012000000000000},     /* 4.5 */
        {0, 0, 0},                      /* 0.0 */
        {255, 254, 0x406fe00000000000}, /* 255.0 */
        {5, 0, 4612217596255138984},    /* the f64 nearest the root of 5 */
    };
    double rate;
    for (size_t at = 0; at < sizeof worked / sizeof worked[0]; at++) {
        rate = 99;
        same_number("rate: number", belutharin_rate(worked[at].max, worked[at].min, &rate), BELUTHARIN_NONE);
        same_number("rate: bits", bits(rate), worked[at].bits);
    }
    rate = 99;
    same_number("rate of 256: number", belutharin_rate(256, 0, &rate), BELUTHARIN_COUNTS);
    same_number("rate of 256: bits", bits(rate), 0);
    rate = 99;
    same_number("rate with min above max: number", belutharin_rate(3, 4, &rate), BELUTHARIN_COUNTS);
    same_number("rate with min above max: bits", bits(rate), 0);
}

static void test_grids(void)
{
    const struct {
        unsigned number;
        size_t w, n, i, start, size;
    } worked[] = {
        {BELUTHARIN_NONE, 2, 2, 0, 0, 4}, {BELUTHARIN_NONE, 2, 2, 1, 4, 4},          {BELUTHARIN_SIZE, 17, 2, 1, 0, 0},
        {BELUTHARIN_LIST, 2, 3, 1, 0, 0}, {BELUTHARIN_LIST, 2, SIZE_MAX, 1, 0, 0}, {BELUTHARIN_NUMBER, 2, 2, 2, 0, 0},
    };
    for (size_t at = 0; at < sizeof worked / sizeof worked[0]; at++) {
        size_t start = 99, size = 99;
        same_number("grid: number", belutharin_grid(twin_grids, sizeof twin_grids, worked[at].w, 2, worked[at].n, worked[at].i, &start, &size), worked[at].number);
        same_number("grid: start", start, worked[at].start);
        same_number("grid: size", size, worked[at].size);
    }
}

int main(void)
{
    test_twin();
    test_solved();
    test_dead_end();
    test_refusals();
    test_lines();
    test_touching();
    test_rates();
    test_grids();
    puts("c/test: every function gave back what it should");
    return 0;
}
