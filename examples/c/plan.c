/* Plans 1 + 2x + 3x^2 + 4x^3 + 5x^4, prints the plan, walks it at 2 modulo 100 and prints the remainder, weighs its heaviest chain and prints the
 * weight. Then a fold on two intervals, every other call once, and refusals. It exits with 1 if an answer is not the one expected. Valid C99 and
 * C++. */
#include "firrozun.h"

#include <math.h>
#include <stdio.h>
#include <string.h>

static int wrong = 0;

static void expect(int holds, const char *what) {
    if (!holds) {
        fprintf(stderr, "plan.c: %s\n", what);
        wrong = 1;
    }
}

static void print_interval(firrozun_head_interval interval) {
    printf("from %g to %g, u %g, w %g\n", interval.a, interval.b, interval.u, interval.w);
}

static void print_plan(firrozun_head head, const int64_t *out, const uint16_t *bounds, const uint16_t *steps) {
    size_t place = 0;
    printf("degree %zu, base %zu, ct-ct %zu, pt-ct %zu, depth %zu\n", head.degree, head.base, head.ct, head.pt, head.depth);
    print_interval(head.interval);
    for (size_t i = 0; i < head.lists; i++) {
        printf("list %zu:", i);
        for (; place < bounds[i]; place++) {
            printf(" %lld", (long long)out[place]);
        }
        printf("\n");
    }
    for (size_t i = 0; i < head.steps; i++) {
        const uint16_t *step = steps + 4 * i;
        switch (step[0]) {
        case FIRROZUN_STEP_MAKE:
            printf("make power %u from %u and %u\n", step[1], step[2], step[3]);
            break;
        case FIRROZUN_STEP_LOAD:
            printf("load list %u\n", step[1]);
            break;
        default:
            printf("combine at power %u%s\n", step[1], step[0] == FIRROZUN_STEP_COMBINE_PLAIN ? ", high plain" : "");
        }
    }
}

/* The plan of five coefficients, its walk, and its heaviest chain. */
static void plan_and_walk(void) {
    static const int64_t c[5] = {1, 2, 3, 4, 5};
    static const uint16_t expected_bounds[2] = {4, 5};
    static const uint16_t expected_steps[24] = {1, 2, 1, 1, 1, 3, 1, 2, 1, 4, 2, 2, 2, 0, 0, 0, 2, 1, 0, 0, 4, 4, 0, 0};
    int64_t out[5];
    uint16_t bounds[2];
    uint16_t steps[24];
    firrozun_planned planned =
        firrozun_plan(FIRROZUN_MIN_DEPTH, FIRROZUN_FULL, FIRROZUN_MONOMIAL, FIRROZUN_NOT_FOLDED, c, 5, -1, 1, out, 5, bounds, 2, steps, 24);
    firrozun_head head = planned.head;
    expect(planned.refusal == FIRROZUN_ACCEPTED, "the plan is refused");
    if (wrong) {
        return;
    }
    expect(head.degree == 4 && head.base == 4 && head.ct == 3 && head.pt == 4 && head.depth == 3, "the head");
    expect(head.coefficients == 5 && head.lists == 2 && head.steps == 6, "the numbers of coefficients, lists and steps");
    expect(head.interval.a == -1 && head.interval.b == 1 && head.interval.u == 1 && head.interval.w == 0, "the interval");
    expect(memcmp(out, c, sizeof out) == 0, "the lists");
    expect(memcmp(bounds, expected_bounds, sizeof bounds) == 0, "the boundaries");
    expect(memcmp(steps, expected_steps, sizeof steps) == 0, "the steps");
    print_plan(head, out, bounds, steps);

    firrozun_trial trial = firrozun_trial_walk(head, out, head.coefficients, bounds, head.lists, steps, 4 * head.steps, 2, 100);
    expect(trial.refusal == FIRROZUN_ACCEPTED && trial.remainder == 29, "the walk");
    printf("at 2 modulo 100: %llu\n", (unsigned long long)trial.remainder);
    firrozun_chain chain = firrozun_heaviest_chain(head, out, head.coefficients, bounds, head.lists, steps, 4 * head.steps, 30, 20);
    expect(chain.refusal == FIRROZUN_ACCEPTED && chain.weight == 80, "the heaviest chain");
    printf("heaviest chain at scales 30 and 20: %llu\n", (unsigned long long)chain.weight);

    trial = firrozun_trial_walk(head, out, 5, bounds, 2, steps, 24, 2, 1);
    expect(trial.refusal == FIRROZUN_REFUSAL_MODULUS && trial.remainder == 0, "modulus 1");
    trial = firrozun_trial_walk(head, out, 5, bounds, 2, steps, 20, 2, 100);
    expect(trial.refusal == FIRROZUN_REFUSAL_UNWALKABLE, "a step too few");
    chain = firrozun_heaviest_chain(head, out, 5, bounds, 2, steps, 20, 65536, 20);
    expect(chain.refusal == FIRROZUN_REFUSAL_SCALE && chain.weight == 0, "a chain with a scale of 65,536");
    chain = firrozun_heaviest_chain(head, out, 5, bounds, 2, steps, 20, 30, 20);
    expect(chain.refusal == FIRROZUN_REFUSAL_UNWALKABLE && chain.weight == 0, "a chain with a step too few");
    head.transform = 5;
    trial = firrozun_trial_walk(head, out, 5, bounds, 2, steps, 24, 2, 100);
    expect(trial.refusal == FIRROZUN_REFUSAL_UNKNOWN_KIND && trial.remainder == 0, "an unknown transform");
    chain = firrozun_heaviest_chain(head, out, 5, bounds, 2, steps, 24, 65536, 20);
    expect(chain.refusal == FIRROZUN_REFUSAL_UNKNOWN_KIND && chain.weight == 0, "a chain with an unknown transform");
}

/* Plans T_0 + 2 T_2 on an interval, folded: the interval in the head. The walk is the same on every interval, whatever the head has there. */
static firrozun_head_interval plan_on(double a, double b) {
    static const int64_t c[3] = {1, 0, 2};
    static const firrozun_head_interval none = {NAN, NAN, NAN, NAN};
    int64_t out[2];
    uint16_t bounds[1];
    uint16_t steps[4];
    firrozun_planned planned =
        firrozun_plan(FIRROZUN_MIN_DEPTH, FIRROZUN_EVEN, FIRROZUN_CHEBYSHEV, FIRROZUN_FOLDED, c, 3, a, b, out, 2, bounds, 1, steps, 4);
    expect(planned.refusal == FIRROZUN_ACCEPTED, "a plan on an interval is refused");
    firrozun_head head = planned.head;
    firrozun_trial trial = firrozun_trial_walk(head, out, 2, bounds, 1, steps, 4, 3, 1000);
    expect(trial.refusal == FIRROZUN_ACCEPTED && trial.remainder == 35, "T_0 + 2 T_2 at 3");
    head.interval = none;
    trial = firrozun_trial_walk(head, out, 2, bounds, 1, steps, 4, 3, 1000);
    expect(trial.refusal == FIRROZUN_ACCEPTED && trial.remainder == 35, "a walk with another interval in the head");
    return planned.head.interval;
}

/* The head has the interval as firrozun_change_of_basis gives it; that of a fold is the polynomial's own. */
static void plan_intervals(void) {
    static const double ends[2][2] = {{-1, 1}, {0, 4}};
    for (size_t i = 0; i < 2; i++) {
        firrozun_head_interval interval = plan_on(ends[i][0], ends[i][1]);
        firrozun_interval change = firrozun_change_of_basis(FIRROZUN_CHEBYSHEV, ends[i][0], ends[i][1]);
        expect(interval.a == change.a && interval.b == change.b && interval.u == change.u && interval.w == change.w, "the interval of a fold");
        print_interval(interval);
    }
}

/* Refusals of the plan call leave every buffer as it was, beyond the length that is lent too. */
static void plan_refusals(void) {
    static const int64_t c[5] = {1, 2, 3, 4, 5};
    static const struct {
        uint8_t strategy, parity, basis, fold;
        size_t c_len;
        double a, b;
        size_t out_len, bounds_len, steps_len;
        uint8_t refusal;
    } tried[] = {
        {2, 0, 0, 0, 5, -1, 1, 5, 2, 24, FIRROZUN_REFUSAL_UNKNOWN_KIND},
        {0, 3, 0, 0, 5, -1, 1, 5, 2, 24, FIRROZUN_REFUSAL_UNKNOWN_KIND},
        {0, 0, 2, 0, 5, -1, 1, 5, 2, 24, FIRROZUN_REFUSAL_UNKNOWN_KIND},
        {0, 0, 0, 2, 5, -1, 1, 5, 2, 24, FIRROZUN_REFUSAL_UNKNOWN_KIND},
        {0, 0, 255, 0, 0, 1, -1, 0, 0, 0, FIRROZUN_REFUSAL_UNKNOWN_KIND},
        {0, 0, 0, 0, 1, -1, 1, 5, 2, 24, FIRROZUN_REFUSAL_NO_DEGREE},
        {0, 0, 0, 1, 5, -1, 1, 5, 2, 24, FIRROZUN_REFUSAL_FOLD_FULL},
        {0, 2, 0, 1, 3, -1, 1, 5, 2, 24, FIRROZUN_REFUSAL_FOLD_LOW},
        {0, 1, 0, 0, 5, 1, -1, 5, 2, 24, FIRROZUN_REFUSAL_PARITY},
        {0, 0, 0, 0, 5, NAN, 1, 5, 2, 24, FIRROZUN_REFUSAL_INTERVAL},
        {0, 0, 0, 0, 5, -1, NAN, 5, 2, 24, FIRROZUN_REFUSAL_INTERVAL},
        {0, 0, 0, 0, 5, 2, 2, 5, 2, 24, FIRROZUN_REFUSAL_INTERVAL},
        {0, 0, 1, 0, 5, 1, -1, 4, 1, 23, FIRROZUN_REFUSAL_INTERVAL},
        {0, 0, 0, 0, 5, -1, 1, 4, 2, 24, FIRROZUN_REFUSAL_COEFFICIENT_BUFFER},
        {0, 0, 0, 0, 5, -1, 1, 5, 1, 24, FIRROZUN_REFUSAL_BOUNDARY_BUFFER},
        {0, 0, 0, 0, 5, -1, 1, 5, 2, 23, FIRROZUN_REFUSAL_STEP_BUFFER},
    };
    int64_t out[5];
    uint16_t bounds[2];
    uint16_t steps[24];
    int64_t out_before[5];
    uint16_t bounds_before[2];
    uint16_t steps_before[24];
    static const firrozun_head none = {0, 0, 0, 0, 0, 0, 0, 0, 0, 0, 0, 0, {0, 0, 0, 0}};
    memset(out, 7, sizeof out);
    memset(bounds, 7, sizeof bounds);
    memset(steps, 7, sizeof steps);
    memcpy(out_before, out, sizeof out);
    memcpy(bounds_before, bounds, sizeof bounds);
    memcpy(steps_before, steps, sizeof steps);
    for (size_t i = 0; i < sizeof tried / sizeof tried[0]; i++) {
        firrozun_planned planned = firrozun_plan(tried[i].strategy, tried[i].parity, tried[i].basis, tried[i].fold, c, tried[i].c_len, tried[i].a,
                                                 tried[i].b, out, tried[i].out_len, bounds, tried[i].bounds_len, steps, tried[i].steps_len);
        expect(planned.refusal == tried[i].refusal, "a refusal of the plan call");
        expect(planned.head.basis == none.basis && planned.head.parity == none.parity && planned.head.strategy == none.strategy
                   && planned.head.transform == none.transform && memcmp(&planned.head.degree, &none.degree, 8 * sizeof(size_t)) == 0
                   && memcmp(&planned.head.interval, &none.interval, sizeof none.interval) == 0,
               "the head of a refusal");
    }
    expect(memcmp(out, out_before, sizeof out) == 0 && memcmp(bounds, bounds_before, sizeof bounds) == 0
               && memcmp(steps, steps_before, sizeof steps) == 0,
           "a refusal changed a buffer");
    expect(firrozun_plan(0, 0, 0, 0, NULL, 0, -1, 1, NULL, 0, NULL, 0, NULL, 0).refusal == FIRROZUN_REFUSAL_NO_DEGREE, "empty buffers");
}

/* The calls on bare numbers. */
static void bare_numbers(void) {
    firrozun_parts parts = firrozun_split_degree(9);
    expect(parts.refusal == 0 && parts.a == 7 && parts.b == 2 && parts.distance == 5, "the split of 9");
    expect(firrozun_split_degree(1).refusal == FIRROZUN_REFUSAL_INDEX, "the split of 1");
    firrozun_split split = firrozun_min_depth_split(4);
    expect(split.refusal == 0 && split.split == 2, "MinDepth's split of 4");
    expect(firrozun_min_depth_split(0).refusal == FIRROZUN_REFUSAL_NO_DEGREE, "MinDepth's split of 0");
    split = firrozun_min_mult_split(FIRROZUN_FULL, FIRROZUN_MONOMIAL, 1);
    expect(split.refusal == 0 && split.split == 1, "MinMult's split of 1");
    expect(firrozun_min_mult_split(3, 0, 1).refusal == FIRROZUN_REFUSAL_UNKNOWN_KIND, "MinMult's split with an unknown parity");
    expect(firrozun_min_mult_split(0, 0, 4096).refusal == FIRROZUN_REFUSAL_DEGREE, "MinMult's split of 4,096");
    firrozun_counts counts = firrozun_bsgs_op_counts(FIRROZUN_MIN_DEPTH, FIRROZUN_FULL, FIRROZUN_MONOMIAL, 4);
    expect(counts.refusal == 0 && counts.ct == 3 && counts.pt == 4, "the counts of 4");
    expect(firrozun_bsgs_op_counts(2, 0, 0, 4).refusal == FIRROZUN_REFUSAL_UNKNOWN_KIND, "counts with an unknown strategy");
    firrozun_depth depth = firrozun_bsgs_eval_depth(FIRROZUN_MIN_DEPTH, 4);
    expect(depth.refusal == 0 && depth.depth == 3, "the depth of 4");
    expect(firrozun_bsgs_eval_depth(2, 4).refusal == FIRROZUN_REFUSAL_UNKNOWN_KIND, "the depth with an unknown strategy");
    firrozun_bits bits = firrozun_bsgs_consumed_bits(FIRROZUN_MIN_DEPTH, 4, 40, 30);
    expect(bits.refusal == 0 && bits.bits == 110, "the bits of 4");
    expect(firrozun_bsgs_consumed_bits(FIRROZUN_MIN_DEPTH, 4, 65536, 30).refusal == FIRROZUN_REFUSAL_SCALE, "a scale of 65,536");
    expect(firrozun_bsgs_consumed_bits(2, 4, 40, 30).refusal == FIRROZUN_REFUSAL_UNKNOWN_KIND, "the bits with an unknown strategy");
}

/* The calls on coefficients. */
static void coefficients(void) {
    static const int64_t even[3] = {1, 0, 3};
    static const double even_f64[3] = {1, 0, 3};
    static const double nodes[1] = {0};
    static const double values[1] = {5};
    int64_t folded[2] = {7, 7};
    double folded_f64[2] = {7, 7};
    int64_t out[3] = {7, 7, 7};
    double out_f64[3] = {7, 7, 7};
    uint16_t bounds[3] = {7, 7, 7};

    expect(firrozun_detect_parity(even, 3) == FIRROZUN_EVEN && firrozun_detect_parity_f64(even_f64, 3) == FIRROZUN_EVEN, "an even polynomial");
    expect(firrozun_detect_parity(NULL, 0) == FIRROZUN_EVEN, "no coefficient");

    firrozun_folded fold = firrozun_fold_parity(FIRROZUN_EVEN, 2, even, 3, folded, 2);
    expect(fold.refusal == FIRROZUN_REFUSAL_UNKNOWN_KIND && folded[0] == 7 && folded[1] == 7, "a fold with an unknown basis");
    fold = firrozun_fold_parity(FIRROZUN_EVEN, FIRROZUN_MONOMIAL, even, 3, folded, 2);
    expect(fold.refusal == 0 && fold.transform == FIRROZUN_SQUARE && fold.parity == FIRROZUN_FULL && fold.count == 2, "a fold");
    expect(folded[0] == 1 && folded[1] == 3, "the coefficients of a fold");
    fold = firrozun_fold_parity_f64(FIRROZUN_EVEN, FIRROZUN_CHEBYSHEV, even_f64, 3, folded_f64, 2);
    expect(fold.refusal == 0 && fold.transform == FIRROZUN_CHEBYSHEV_T2 && folded_f64[0] == 1 && folded_f64[1] == 3, "a fold of doubles");

    firrozun_value value = firrozun_evaluate_coeffs(FIRROZUN_MONOMIAL, even_f64, 3, 2);
    expect(value.refusal == 0 && value.value == 13, "1 + 3x^2 at 2");
    value = firrozun_evaluate_coeffs(2, even_f64, 3, 2);
    expect(value.refusal == FIRROZUN_REFUSAL_UNKNOWN_KIND && value.value == 0, "a value with an unknown basis");

    firrozun_interval interval = firrozun_change_of_basis(FIRROZUN_CHEBYSHEV, 0, 4);
    expect(interval.refusal == 0 && interval.a == 0 && interval.b == 4 && interval.u == 0.5 && interval.w == -1, "0 to 4 to -1 to 1");
    interval = firrozun_change_of_basis(2, 0, 4);
    expect(interval.refusal == FIRROZUN_REFUSAL_UNKNOWN_KIND && interval.b == 0, "a change to an unknown basis");

    firrozun_interpolated curve = firrozun_chebyshev_interpolate(nodes, 1, values, 1, 0, 4, out_f64, 3);
    expect(curve.refusal == 0 && curve.count == 1 && curve.parity == FIRROZUN_EVEN && curve.u == 0.5 && curve.w == -1, "interpolation");
    expect(out_f64[0] == 5 && out_f64[1] == 7, "the coefficient of interpolation");
    expect(firrozun_chebyshev_interpolate(nodes, 1, values, 1, 4, 4, out_f64, 3).refusal == FIRROZUN_REFUSAL_INTERVAL, "an empty interval");

    firrozun_listed listed = firrozun_decompose_bsgs(FIRROZUN_MIN_DEPTH, FIRROZUN_FULL, 2, even, 3, out, 3, bounds, 3);
    expect(listed.refusal == FIRROZUN_REFUSAL_UNKNOWN_KIND && out[0] == 7 && bounds[0] == 7, "lists with an unknown basis");
    listed = firrozun_decompose_bsgs(FIRROZUN_MIN_DEPTH, FIRROZUN_FULL, FIRROZUN_MONOMIAL, even, 3, out, 3, bounds, 3);
    expect(listed.refusal == 0 && listed.degree == 2 && listed.base == 2 && listed.coefficients == 3 && listed.lists == 2, "lists");
    expect(memcmp(out, even, sizeof out) == 0 && bounds[0] == 2 && bounds[1] == 3 && bounds[2] == 7, "the buffers of lists");
    listed = firrozun_decompose_bsgs_f64(FIRROZUN_MIN_DEPTH, FIRROZUN_FULL, FIRROZUN_MONOMIAL, even_f64, 3, out_f64, 3, bounds, 3);
    expect(listed.refusal == 0 && memcmp(out_f64, even_f64, sizeof out_f64) == 0, "lists of doubles");
}

int main(void) {
    plan_and_walk();
    plan_intervals();
    plan_refusals();
    bare_numbers();
    coefficients();
    return wrong;
}
