/* A grower's package fixes the bits, and the fitter wants the degree: with input scale 40 and coefficient scale 60, prints the largest degree for a few
 * budgets with both strategies, or the refusal. 59 bits are too few for any degree. At 120 bits MinMult has degree 5, though its degree 4 takes 140.
 * Then refusals. It exits with 1 if an answer is not the one expected. Valid C99 and C++. */
#include "firrozun.h"

#include <stdio.h>

#define INPUT 40
#define COEFF 60

static int wrong = 0;

static void expect(int holds, const char *what) {
    if (!holds) {
        fprintf(stderr, "budget.c: %s\n", what);
        wrong = 1;
    }
}

static int is_refused(firrozun_degree answer, uint8_t refusal) {
    return answer.refusal == refusal && answer.degree == 0;
}

static void print(const char *strategy, firrozun_degree answer) {
    if (answer.refusal == FIRROZUN_ACCEPTED) {
        printf("  %s: degree %zu\n", strategy, answer.degree);
    } else {
        printf("  %s: refusal %u\n", strategy, (unsigned)answer.refusal);
    }
}

/* A budget, and the degree expected with each strategy, 0 for refusal 31. */
typedef struct {
    uint64_t bits;
    size_t min_depth;
    size_t min_mult;
} package;

static void search(package p) {
    firrozun_degree min_depth = firrozun_largest_degree(FIRROZUN_MIN_DEPTH, p.bits, INPUT, COEFF);
    firrozun_degree min_mult = firrozun_largest_degree(FIRROZUN_MIN_MULT, p.bits, INPUT, COEFF);
    printf("%llu bits\n", (unsigned long long)p.bits);
    print("MinDepth", min_depth);
    print("MinMult", min_mult);
    expect(min_depth.refusal == (p.min_depth ? FIRROZUN_ACCEPTED : FIRROZUN_REFUSAL_BUDGET), "a refusal with MinDepth");
    expect(min_mult.refusal == (p.min_mult ? FIRROZUN_ACCEPTED : FIRROZUN_REFUSAL_BUDGET), "a refusal with MinMult");
    expect(min_depth.degree == p.min_depth && min_mult.degree == p.min_mult, "a largest degree");
}

static void refusals(void) {
    expect(is_refused(firrozun_largest_degree(2, 0, 65536, 1), FIRROZUN_REFUSAL_UNKNOWN_KIND), "an unknown strategy");
    expect(is_refused(firrozun_largest_degree(FIRROZUN_MIN_MULT, 0, 65536, 1), FIRROZUN_REFUSAL_SCALE), "an input scale of 65,536");
    expect(is_refused(firrozun_largest_degree(FIRROZUN_MIN_MULT, UINT64_MAX, 1, 65536), FIRROZUN_REFUSAL_SCALE), "a coefficient scale of 65,536");
    expect(is_refused(firrozun_largest_degree(FIRROZUN_MIN_MULT, 0, 0, 1), FIRROZUN_REFUSAL_BUDGET), "no bits");
}

int main(void) {
    static const package packages[6] = {{59, 0, 0}, {60, 1, 1}, {120, 3, 5}, {140, 7, 6}, {300, 127, 120}, {600, 4095, 4095}};
    firrozun_bits bits = firrozun_bsgs_consumed_bits(FIRROZUN_MIN_MULT, 4, INPUT, COEFF);
    expect(bits.refusal == FIRROZUN_ACCEPTED && bits.bits == 140, "the bits of degree 4");
    for (size_t i = 0; i < sizeof packages / sizeof *packages; i++) {
        search(packages[i]);
    }
    refusals();
    return wrong;
}
