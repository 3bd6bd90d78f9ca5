/* The library from C: diag(16, 4), two nodes that nothing links. A load on the second leaves the first node's figure as it was. */
#include "yelomawin.h"
#include <stdio.h>

enum { ROWS = 2, ENTRIES = 2, BLOCK = 1, COARSE = 2 };

static int wrong = 0;

static void expect(const char *what, double is, double should)
{
    if (is != should) {
        printf("%s: %g and not %g\n", what, is, should);
        wrong = 1;
    }
}

int main(void)
{
    const uint32_t row_ptr[] = {0, 1, 2}, col_idx[] = {0, 1};
    const double values[] = {16.0, 4.0};
    /* The lengths of the comment at yelomawin_setup, for a coarse dimension up to 2. */
    uint32_t setup_ints[ROWS / BLOCK + 2 * ROWS + ENTRIES + 1], work_ints[8 * ROWS + 4 * ENTRIES + 16 + 4 * COARSE];
    double setup_floats[ROWS * BLOCK + ROWS + ENTRIES + COARSE * COARSE];
    double work_floats[8 * ROWS + 2 * ENTRIES + COARSE * COARSE + 4 * COARSE];
    uint64_t record[YELOMAWIN_RECORD], answer[2];
    const double loads[][ROWS] = {{16.0, 4.0}, {16.0, 40.0}}, expected[][ROWS] = {{2.0, 2.0}, {2.0, 20.0}};
    double correction[ROWS], work[2 * COARSE];

    expect("root of 2.25", yelomawin_root(2.25), 1.5);
    uint64_t cause = yelomawin_setup(ROWS, ROWS, row_ptr, 3, col_idx, 2, values, 2, BLOCK, 1,
        YELOMAWIN_GRAPH, YELOMAWIN_PIECEWISE_CONSTANT, YELOMAWIN_AUTO,
        setup_ints, sizeof setup_ints / sizeof *setup_ints, setup_floats, sizeof setup_floats / sizeof *setup_floats,
        work_ints, sizeof work_ints / sizeof *work_ints, work_floats, sizeof work_floats / sizeof *work_floats,
        record, YELOMAWIN_RECORD);
    expect("setup", (double)cause, 0);
    expect("groups", (double)record[YELOMAWIN_GROUPS], 2);
    for (int k = 0; k < 2; k++) {
        cause = yelomawin_apply(record, YELOMAWIN_RECORD, setup_ints, sizeof setup_ints / sizeof *setup_ints,
            setup_floats, sizeof setup_floats / sizeof *setup_floats, loads[k], ROWS, correction, ROWS, work, 2 * COARSE, answer, 2);
        expect("apply", (double)cause, 0);
        for (int i = 0; i < ROWS; i++)
            expect("correction", correction[i], expected[k][i]);
        printf("load (%g, %g): correction (%g, %g)\n", loads[k][0], loads[k][1], correction[0], correction[1]);
    }
    cause = yelomawin_apply(record, YELOMAWIN_RECORD, setup_ints, sizeof setup_ints / sizeof *setup_ints,
        setup_floats, sizeof setup_floats / sizeof *setup_floats, loads[0], 1, correction, ROWS, work, 2 * COARSE, answer, 2);
    expect("a residual that is too short", (double)cause, 25);
    expect("expected length", (double)answer[0], 2);
    expect("actual length", (double)answer[1], 1);
    cause = yelomawin_setup(ROWS, ROWS, row_ptr, 3, col_idx, 2, values, 2, BLOCK, 1, 3, 0, 0, setup_ints, 0, setup_floats, 0,
        work_ints, 0, work_floats, 0, record, YELOMAWIN_RECORD);
    expect("no policy", (double)cause, 255);
    return wrong;
}
