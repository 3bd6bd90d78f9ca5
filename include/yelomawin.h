/* A two-level preconditioner for matrices of free-standing parts. Link with libyelomawin.a (`scripts/staticlib yelomawin`).
 * compare/c/example.c is a whole program.
 *
 * Every function is total: it checks whatever it is given and answers 0, or the number of the first cause of refusal that it meets:
 *    1 too large: above 1,048,576 rows, columns or nodes, or 16,777,216 entries or neighbours
 *    2 row_ptr is not rows + 1 long              3 col_idx and values differ in length
 *    4 the first row pointer is not 0            5 the last one is not the number of entries
 *    6 a row pointer falls                       7 a column is not below cols
 *    8 a value is NaN or infinite                9 the matrix is not square
 *   10 block size 0 or above 8                  11 group size 0 or above 1,048,576
 *   12 rows are no multiple of the block size   13 a list is too short
 *   14 a block is not symmetric: its first row  15 a block pivot is not usable: the row
 *   16 no node                                  17 coarse dimension above 2,048: the dimension
 *   18 a list is too short for the coarse part: the dimension
 *   19 a row without a diagonal entry: the row  20 a diagonal sum is zero or not finite: the row
 *   21 a diagonal sum is negative: the row      22 the estimate failed: stage 1 to 4
 *   23 the coarse matrix is zero or infinite    24 a coarse pivot is not usable: the coarse row
 *   25 a vector of wrong length: expected and actual length
 *   26 record and lists do not fit              27 bad neighbour offsets
 *   28 a neighbour is no node                   29 the log has fewer than three elements a node
 *  255 a number that is no policy (setup only)
 * What stands after the colon is returned with the number: in `answer`, by a refused setup in `record`. An accepted call returns there
 * the results that are numbers. Either way as many as the list has room for, and zeros after them. Rows count from 0. `answer` and
 * `record` are how a function returns more than one number, and no lists lent to the calculation: they are written after every call,
 * also where a refusal keeps every lent list.
 *
 * A list is a pointer and its length, floats in the machine's order. A pointer is not null, even to no elements, and aligned for its
 * elements; a list lent for writing overlaps no other list of the call. In a list a NaN may come and go with any pattern; in `answer` it is 7FF8000000000000.
 *
 * After a refusal by 14 to 24 the lists lent for writing, `answer` and `record` aside, hold zeros; after any other they keep their
 * contents (grouping alone keeps all after 16 too). An accepted call leaves zeros in its work lists and after its results.
 */
#ifndef YELOMAWIN_H
#define YELOMAWIN_H

#include <stddef.h>
#include <stdint.h>

#ifdef __cplusplus
extern "C" {
#endif

enum { YELOMAWIN_CONTIGUOUS = 0, YELOMAWIN_GRAPH = 1, YELOMAWIN_STRONG_GRAPH = 2 };
enum { YELOMAWIN_PIECEWISE_CONSTANT = 0, YELOMAWIN_JACOBI_SMOOTHED = 1 };
enum { YELOMAWIN_AUTO = 0, YELOMAWIN_FACTOR_SOLVE = 1, YELOMAWIN_EXPLICIT_INVERSE = 2 };

/* The rules of a joining log: the first test that left a single group of those named. */
enum { YELOMAWIN_ONLY_ONE_NAMED = 1, YELOMAWIN_MOST_EDGES = 2, YELOMAWIN_FEWER_MEMBERS = 3, YELOMAWIN_LOWER_ID = 4 };

/* The numbers of a record, in their order. */
enum {
    YELOMAWIN_ROWS, YELOMAWIN_ENTRIES, YELOMAWIN_BLOCK_SIZE, YELOMAWIN_GROUP_SIZE, YELOMAWIN_NODES, YELOMAWIN_GROUPS,
    YELOMAWIN_COARSE_DIMENSION, YELOMAWIN_TRANSFERS, YELOMAWIN_AGGREGATION, YELOMAWIN_BASIS, YELOMAWIN_COARSE_POLICY,
    YELOMAWIN_DAMPING_FACTOR_BITS, YELOMAWIN_COARSE_SCALE_BITS, YELOMAWIN_COMPLEXITY, YELOMAWIN_COMPLEXITY_ENTRIES,
    YELOMAWIN_RECORD /* how many there are */
};

/* The square root, to the nearest value, ties to even; NaN, of whatever pattern, for a NaN or a negative number. */
double yelomawin_root(double x);

/* Causes 1 to 8 of a matrix in compressed rows. */
uint64_t yelomawin_validate(uint64_t rows, uint64_t cols,
    const uint32_t *row_ptr, size_t row_ptr_len, const uint32_t *col_idx, size_t col_idx_len, const double *values, size_t values_len);

/* The diagonal, duplicates added; `diagonal` needs `rows` elements. Causes 1 to 9, 13, 19. */
uint64_t yelomawin_diagonal(uint64_t rows, uint64_t cols,
    const uint32_t *row_ptr, size_t row_ptr_len, const uint32_t *col_idx, size_t col_idx_len, const double *values, size_t values_len,
    double *diagonal, size_t diagonal_len, uint64_t *answer, size_t answer_len);

/* The Cholesky factors of the diagonal blocks, block k at k times the block size squared, row by row with zeros above the diagonal;
 * `factors` needs rows * block_size elements. A smaller last block has its own width. Causes 1 to 10, 13 to 15. */
uint64_t yelomawin_blocks(uint64_t rows, uint64_t cols,
    const uint32_t *row_ptr, size_t row_ptr_len, const uint32_t *col_idx, size_t col_idx_len, const double *values, size_t values_len,
    uint64_t block_size, double *factors, size_t factors_len, uint64_t *answer, size_t answer_len);

/* The solve with these factors. Causes 25 (residual, then correction), 26. */
uint64_t yelomawin_block_apply(uint64_t rows, uint64_t block_size, const double *factors, size_t factors_len,
    const double *residual, size_t residual_len, double *correction, size_t correction_len, uint64_t *answer, size_t answer_len);

/* The groups of nodes by what each lists, neighbours[offsets[v] .. offsets[v + 1]]. `ids` needs `nodes` elements, `work`
 * 8 * nodes + 4 * neighbours_len + 16. answer[0] receives the number of groups. Causes 1, 11, 27, 16, 28, 13 in this order. */
uint64_t yelomawin_group(uint64_t nodes, uint64_t group_size, const uint32_t *offsets, size_t offsets_len,
    const uint32_t *neighbours, size_t neighbours_len, uint32_t *ids, size_t ids_len, uint32_t *work, size_t work_len,
    uint64_t *answer, size_t answer_len);

/* The same groups, with a log of the joinings. Each joining, in order, takes three elements of `log`: the group that moved, its taker
 * (ids as grown: from 0, in the order in which growth made the groups) and the rule that decided, YELOMAWIN_ONLY_ONE_NAMED and so on.
 * The elements after the last joining are zero. `log` needs 3 * nodes elements, `ids` and `work` as above. answer[0] receives the number
 * of groups, answer[1] the number of joinings. Causes 1, 11, 27, 16, 28, 13, 29 in this order. */
uint64_t yelomawin_group_log(uint64_t nodes, uint64_t group_size, const uint32_t *offsets, size_t offsets_len,
    const uint32_t *neighbours, size_t neighbours_len, uint32_t *ids, size_t ids_len, uint32_t *log, size_t log_len,
    uint32_t *work, size_t work_len, uint64_t *answer, size_t answer_len);

/* The spectral radius and the damping factor, by their bits in answer[0] and answer[1]; `work` needs 3 * rows elements.
 * Causes 1 to 9, 25 for the diagonal, 13, 20 to 22. */
uint64_t yelomawin_estimate(uint64_t rows, uint64_t cols,
    const uint32_t *row_ptr, size_t row_ptr_len, const uint32_t *col_idx, size_t col_idx_len, const double *values, size_t values_len,
    const double *diagonal, size_t diagonal_len, double *work, size_t work_len, uint64_t *answer, size_t answer_len);

/* With n rows, e entries, block size b and N = n / b nodes the lists need, before the coarse dimension c is known (cause 13),
 *   setup_ints N + 2 n + e + 1, setup_floats n b + n + e, work_ints 8 n + 4 e + 16, work_floats 8 n + 2 e
 * and for c (cause 18, which returns c) setup_floats c c, work_floats c c + 4 c and work_ints 4 c more.
 * `record` receives the record, in which YELOMAWIN_COMPLEXITY counts the entries and the coarse entries that are not zero; an apply
 * needs all YELOMAWIN_RECORD numbers of it. Causes 1 to 24 in their order, and 255 before them. */
uint64_t yelomawin_setup(uint64_t rows, uint64_t cols,
    const uint32_t *row_ptr, size_t row_ptr_len, const uint32_t *col_idx, size_t col_idx_len, const double *values, size_t values_len,
    uint64_t block_size, uint64_t group_size, uint64_t aggregation, uint64_t basis, uint64_t coarse_policy,
    uint32_t *setup_ints, size_t setup_ints_len, double *setup_floats, size_t setup_floats_len,
    uint32_t *work_ints, size_t work_ints_len, double *work_floats, size_t work_floats_len,
    uint64_t *record, size_t record_len);

/* The correction of a residual, from a setup's record and lists; `work` needs 2 c elements. Causes 25 (residual, then correction), 26,
 * 13; before them 26 for a list that is no record: one of fewer numbers, or with a number that is no policy. Of such a list nothing
 * can be read, not even the rows that 25 would expect. */
uint64_t yelomawin_apply(const uint64_t *record, size_t record_len, const uint32_t *setup_ints, size_t setup_ints_len,
    const double *setup_floats, size_t setup_floats_len, const double *residual, size_t residual_len,
    double *correction, size_t correction_len, double *work, size_t work_len, uint64_t *answer, size_t answer_len);

#ifdef __cplusplus
}
#endif

#endif
