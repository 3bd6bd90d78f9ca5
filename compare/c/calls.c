/* The calls that example.c does without, each once, with document 01's numbers. */
#include "yelomawin.h"
#include <stdio.h>
#include <string.h>

static int wrong = 0;

static void expect(const char *what, double is, double should)
{
    if (is != should) {
        printf("%s: %g and not %g\n", what, is, should);
        wrong = 1;
    }
}

static double of_bits(uint64_t bits)
{
    double x;
    memcpy(&x, &bits, sizeof x);
    return x;
}

/* [4 2; 2 5]: its diagonal is (4, 5), its factor 2, 1, 2, and the residual (8, 10) gives (1.25, 1.5). */
static void block(void)
{
    const uint32_t row_ptr[] = {0, 2, 4}, col_idx[] = {0, 1, 0, 1};
    const double values[] = {4, 2, 2, 5}, residual[] = {8, 10}, lower[] = {2, 0, 1, 2};
    double diagonal[2], factors[4], correction[2];
    uint64_t answer[2] = {7, 7};

    expect("validate", (double)yelomawin_validate(2, 2, row_ptr, 3, col_idx, 4, values, 4), 0);
    expect("validate with a column outside", (double)yelomawin_validate(2, 1, row_ptr, 3, col_idx, 4, values, 4), 7);
    expect("diagonal", (double)yelomawin_diagonal(2, 2, row_ptr, 3, col_idx, 4, values, 4, diagonal, 2, answer, 2), 0);
    expect("diagonal of row 0", diagonal[0], 4);
    expect("diagonal of row 1", diagonal[1], 5);
    expect("blocks", (double)yelomawin_blocks(2, 2, row_ptr, 3, col_idx, 4, values, 4, 2, factors, 4, answer, 2), 0);
    for (int k = 0; k < 4; k++)
        expect("factor", factors[k], lower[k]);
    expect("block apply", (double)yelomawin_block_apply(2, 2, factors, 4, residual, 2, correction, 2, answer, 2), 0);
    expect("correction of row 0", correction[0], 1.25);
    expect("correction of row 1", correction[1], 1.5);
    expect("answer of an accepted call", (double)(answer[0] + answer[1]), 0);
}

/* The path of five nodes in groups of two: 0 0 1 1 2. */
static void path(void)
{
    const uint32_t offsets[] = {0, 1, 3, 5, 7, 8}, neighbours[] = {1, 0, 2, 1, 3, 2, 4, 3}, groups[] = {0, 0, 1, 1, 2};
    uint32_t ids[5], work[8 * 5 + 4 * 8 + 16];
    uint64_t answer[2];

    expect("group", (double)yelomawin_group(5, 2, offsets, 6, neighbours, 8, ids, 5, work, sizeof work / sizeof *work, answer, 2), 0);
    expect("number of groups", (double)answer[0], 3);
    for (int v = 0; v < 5; v++)
        expect("group of a node", ids[v], groups[v]);
}

/* The path of nine nodes in groups of eight: the ninth, grown as group 1, joins group 0, the only one that it names. */
static void joining(void)
{
    const uint32_t offsets[] = {0, 1, 3, 5, 7, 9, 11, 13, 15, 16}, neighbours[] = {1, 0, 2, 1, 3, 2, 4, 3, 5, 4, 6, 5, 7, 6, 8, 7};
    uint32_t ids[9], log[3 * 9], work[8 * 9 + 4 * 16 + 16];
    uint64_t answer[2];

    memset(log, 7, sizeof log);
    expect("a log that is too short", (double)yelomawin_group_log(9, 8, offsets, 10, neighbours, 16, ids, 9, log, 26, work, sizeof work / sizeof *work, answer, 2), 29);
    expect("group with a log", (double)yelomawin_group_log(9, 8, offsets, 10, neighbours, 16, ids, 9, log, 27, work, sizeof work / sizeof *work, answer, 2), 0);
    expect("number of groups", (double)answer[0], 1);
    expect("number of joinings", (double)answer[1], 1);
    expect("group that moved", log[0], 1);
    expect("its taker", log[1], 0);
    expect("rule", log[2], YELOMAWIN_ONLY_ONE_NAMED);
    for (int k = 3; k < 27; k++)
        expect("rest of the log", log[k], 0);
    for (int v = 0; v < 9; v++)
        expect("group of a node", ids[v], 0);
}

/* [4] divided by its diagonal is [1]: rho is 1, and the damping factor 4/(3 rho). */
static void radius(void)
{
    const uint32_t row_ptr[] = {0, 1}, col_idx[] = {0};
    const double values[] = {4}, diagonal[] = {4};
    double work[3];
    uint64_t answer[2];

    expect("estimate", (double)yelomawin_estimate(1, 1, row_ptr, 2, col_idx, 1, values, 1, diagonal, 1, work, 3, answer, 2), 0);
    expect("rho", of_bits(answer[0]), 1);
    expect("damping factor", of_bits(answer[1]), 4.0 / 3.0);
}

int main(void)
{
    block();
    path();
    joining();
    radius();
    return wrong;
}
