/* Reserves the buffers of a plan before its curve is there: 9 is the degree, and the curve will be odd, in the Chebyshev basis, folded. Then plans
 * T_1 + 2 T_3 + 3 T_5 + 4 T_7 + 5 T_9 into them, walks the plan at 2 and prints the value. Then a place too few in each buffer, and refusals.
 * It exits with 1 if an answer is not the one expected. Valid C99 and C++. */
#include "firrozun.h"

#include <stdio.h>
#include <stdlib.h>

static int wrong = 0;

static void expect(int holds, const char *what) {
    if (!holds) {
        fprintf(stderr, "reserve.c: %s\n", what);
        wrong = 1;
    }
}

static int is_refused(firrozun_sizes sizes, uint8_t refusal) {
    return sizes.refusal == refusal && sizes.coefficients == 0 && sizes.lists == 0 && sizes.steps == 0;
}

static firrozun_planned plan(int64_t *out, size_t out_len, uint16_t *bounds, size_t bounds_len, uint16_t *steps, size_t steps_len) {
    static const int64_t curve[10] = {0, 1, 0, 2, 0, 3, 0, 4, 0, 5};
    return firrozun_plan(FIRROZUN_MIN_MULT, FIRROZUN_ODD, FIRROZUN_CHEBYSHEV, FIRROZUN_FOLDED, curve, 10, -1, 1, out, out_len, bounds, bounds_len,
                         steps, steps_len);
}

/* Reserves, plans and walks. */
static void reserve(void) {
    firrozun_sizes sizes = firrozun_plan_sizes(FIRROZUN_MIN_MULT, FIRROZUN_ODD, FIRROZUN_CHEBYSHEV, FIRROZUN_FOLDED, 9);
    expect(sizes.refusal == FIRROZUN_ACCEPTED, "the sizes are refused");
    printf("%zu coefficients, %zu lists, %zu steps\n", sizes.coefficients, sizes.lists, sizes.steps);
    int64_t *out = (int64_t *)malloc(sizes.coefficients * sizeof *out);
    uint16_t *bounds = (uint16_t *)malloc(sizes.lists * sizeof *bounds);
    uint16_t *steps = (uint16_t *)malloc(4 * sizes.steps * sizeof *steps);
    expect(out && bounds && steps, "no memory");
    if (!wrong) {
        size_t n = sizes.coefficients;
        firrozun_planned planned = plan(out, n, bounds, sizes.lists, steps, 4 * sizes.steps);
        firrozun_head head = planned.head;
        expect(planned.refusal == FIRROZUN_ACCEPTED, "the plan is refused");
        expect(head.coefficients == n && head.lists == sizes.lists && head.steps == sizes.steps, "the sizes of the plan");
        firrozun_trial trial = firrozun_trial_walk(head, out, n, bounds, sizes.lists, steps, 4 * sizes.steps, 2, 1000000007);
        expect(trial.refusal == FIRROZUN_ACCEPTED && trial.remainder == 372438, "the walk");
        printf("at 2: %llu\n", (unsigned long long)trial.remainder);

        expect(plan(out, n - 1, bounds, sizes.lists, steps, 4 * sizes.steps).refusal == FIRROZUN_REFUSAL_COEFFICIENT_BUFFER, "a coefficient fewer");
        expect(plan(out, n, bounds, sizes.lists - 1, steps, 4 * sizes.steps).refusal == FIRROZUN_REFUSAL_BOUNDARY_BUFFER, "a boundary fewer");
        expect(plan(out, n, bounds, sizes.lists, steps, 4 * sizes.steps - 1).refusal == FIRROZUN_REFUSAL_STEP_BUFFER, "a step fewer");
    }
    free(out);
    free(bounds);
    free(steps);
}

/* What degree and settings alone refuse. */
static void refusals(void) {
    expect(is_refused(firrozun_plan_sizes(0, 0, 0, 2, 4096), FIRROZUN_REFUSAL_UNKNOWN_KIND), "an unknown fold");
    expect(is_refused(firrozun_plan_sizes(0, 3, 0, 0, 4), FIRROZUN_REFUSAL_UNKNOWN_KIND), "an unknown parity");
    expect(is_refused(firrozun_plan_sizes(0, FIRROZUN_FULL, 0, FIRROZUN_FOLDED, 4096), FIRROZUN_REFUSAL_DEGREE), "degree 4,096");
    expect(is_refused(firrozun_plan_sizes(0, FIRROZUN_FULL, 0, FIRROZUN_FOLDED, 0), FIRROZUN_REFUSAL_NO_DEGREE), "degree 0");
    expect(is_refused(firrozun_plan_sizes(0, FIRROZUN_FULL, 0, FIRROZUN_FOLDED, 1), FIRROZUN_REFUSAL_FOLD_FULL), "a fold of parity full");
    expect(is_refused(firrozun_plan_sizes(0, FIRROZUN_EVEN, 0, FIRROZUN_FOLDED, 1), FIRROZUN_REFUSAL_FOLD_LOW), "a fold of degree 1");
}

int main(void) {
    reserve();
    refusals();
    return wrong;
}
