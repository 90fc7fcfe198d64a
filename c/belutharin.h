/* Belutharin for C: a nonogram search in which every function is proved to meet its contract.
 *
 * The library is libbelutharin.a; it needs nothing but memcpy and memset. The rules and all numbers: docs/RULES.md.
 *
 * Who owns what: all memory is the caller's. A function reads and writes it during the call alone, keeps no pointer,
 * allocates nothing and has no state of its own, so that any thread may call any function at any time. The search takes up to
 * 1 MiB of the caller's stack.
 *
 * What is asked of the caller, and what no function can test:
 *   - no pointer is null, not even one with the length 0;
 *   - a length is the number of bytes that may be read there, or written where the pointer is not to const;
 *   - what a function may write lies apart from all else that the same call is given.
 * All else is tested: where it is not as it should be, a function gives back the number of a refusal. Numbers that come back through
 * pointers are written at every call, refusals too.
 *
 * Bytes: a cell is a set of colours, bit 0 for blank and bit c for colour c; cells stand row by row. The clues are those of the rows from the top, then
 * those of the columns from the left; each is one count, then for each block its colour and its length.
 *
 * What a clue means: a line meets it exactly if the stretches of equal colours other than blank that the line falls into are the clue's blocks, in order.
 * So blocks of different colours may touch, and between two neighbouring blocks of the same colour there is a blank. */
#ifndef BELUTHARIN_H
#define BELUTHARIN_H

#include <stddef.h>
#include <stdint.h>

#ifdef __cplusplus
extern "C" {
#endif

/* The numbers given back. Where several refusals apply, the lowest is given. */
enum {
    BELUTHARIN_NONE = 0,       /* belutharin_rate and belutharin_grid: nothing was refused */
    BELUTHARIN_SOLVED = 1,     /* belutharin_solve: the board is the grid */
    BELUTHARIN_REDUCED = 1,    /* belutharin_reduce_line: the line is reduced */
    BELUTHARIN_LISTED = 2,     /* the search ended, and its grids are in the list */
    BELUTHARIN_DEAD_END = 3,   /* no grid, or no line, fits */
    BELUTHARIN_SIZE = 11,      /* refused: width or height is not 1 to 16 */
    BELUTHARIN_COLOURS = 12,   /* refused: k is not 1 to 3 */
    BELUTHARIN_LIMITS = 13,    /* refused: most_grids > 128, most_depth > 15 or budget > 1,000,000,000 */
    BELUTHARIN_CLUES = 14,     /* refused: the clue bytes break the layout */
    BELUTHARIN_CELLS = 15,     /* refused: wrong number of cells, a cell 0, or a bit above k */
    BELUTHARIN_LIST = 16,      /* refused: the list is too short */
    BELUTHARIN_COUNTS = 19,    /* refused: max > 255 or min > max */
    BELUTHARIN_NUMBER = 20     /* refused: no grid of that number */
};

/* The limit that was met first. */
enum {
    BELUTHARIN_NO_LIMIT = 0,
    BELUTHARIN_GRIDS_LIMIT = 1,
    BELUTHARIN_STEPS_LIMIT = 2,
    BELUTHARIN_DEPTH_LIMIT = 3
};

/* Searches for the grids of a puzzle, w cells wide and h high, with k colours besides blank.
 *
 * Gives back 1, 2 or 3, or 11 to 16. Lent to be written are
 *   cells: after 1 the grid, after 2 what is known of the board; untouched otherwise;
 *   list, of at least most_grids * w * h bytes: after 2 its first *grids * w * h bytes are the grids; all else is untouched;
 *   *grids, *steps, *deepest, *limit: the grids stored, the steps, the deepest depth and the limit met first. They are 0 after 1, after a
 *   refusal, and after a dead end that was seen before the search began.
 * The list has all grids of the puzzle where the number is 2 and *limit is 0.
 *
 * A longer run only adds. Call it again with the same puzzle (the cells as they were given, and not as the first call left them) and the same
 * most_depth, with a larger budget, a larger most_grids or both. If neither call is refused, 1 and 3 stay; after 2 the grids that were listed are the
 * first of the list, and where there were none, 3 may come instead. If *limit was 0, all stays. Nothing is said of a larger most_depth. */
uint8_t belutharin_solve(size_t w, size_t h, size_t k,
                         const uint8_t *clues, size_t clues_length,
                         uint8_t *cells, size_t cells_length,
                         uint8_t *list, size_t list_length,
                         size_t most_grids, size_t most_depth, uint64_t budget,
                         size_t *grids, uint64_t *steps, size_t *deepest, uint8_t *limit);

/* Reduces one line of 1 to 16 cells by its clue: each cell keeps the colours that it has in some line that fits.
 *
 * Gives back 1, or 3 where no line fits, or 12, 14, 15. The cells are written after 1 and untouched otherwise. */
uint8_t belutharin_reduce_line(size_t k, const uint8_t *clue, size_t clue_length, uint8_t *cells, size_t cells_length);

/* The rate of a cell whose colours newly solve max cells at most and min at least: sqrt(max / (min + 1)) + min.
 *
 * Gives back 0 and the rate, or 19 and 0.0. */
uint8_t belutharin_rate(uint64_t max, uint64_t min, double *rate);

/* Where grid number i of n stands in a list, counted from 0.
 *
 * Gives back 0, and the grid is the *size bytes from list + *start on; or 11, 16, 20 with *start and *size 0. The list is not read: its length decides. */
uint8_t belutharin_grid(const uint8_t *list, size_t list_length, size_t w, size_t h, size_t n, size_t i,
                        size_t *start, size_t *size);

#ifdef __cplusplus
}
#endif

#endif
