/* The losses of a pipe and of a filter are planned, each by itself. Their sum needs no further call: its lists are the sums of the lists, and all else is
 * that of either plan. Walks the added plan, and holds it against a plan of the sum. Twice the pipe's loss likewise. Then a sum that is too large is
 * refused with 3. It exits with 1 if an answer is not the one expected. Valid C99 and C++. */
#include "firrozun.h"

#include <stdio.h>
#include <string.h>

#define LENGTH 6
#define LISTS 3
#define STEPS 32

static int wrong = 0;

static void expect(int holds, const char *what) {
    if (!holds) {
        fprintf(stderr, "add.c: %s\n", what);
        wrong = 1;
    }
}

typedef struct {
    firrozun_head head;
    int64_t lists[LENGTH];
    uint16_t bounds[LISTS];
    uint16_t steps[STEPS];
} stored;

static uint8_t plan(const int64_t *curve, stored *to) {
    memset(to, 0, sizeof *to);
    firrozun_planned planned = firrozun_plan(FIRROZUN_MIN_MULT, FIRROZUN_FULL, FIRROZUN_CHEBYSHEV, FIRROZUN_NOT_FOLDED, curve, LENGTH, 0, 4,
                                             to->lists, LENGTH, to->bounds, LISTS, to->steps, STEPS);
    to->head = planned.head;
    return planned.refusal;
}

/* Boundaries, steps and the numbers of the head are those of the other plan. */
static void expect_same_shape(const stored *one, const stored *other) {
    firrozun_head a = one->head, b = other->head;
    expect(memcmp(one->bounds, other->bounds, sizeof one->bounds) == 0, "the boundaries");
    expect(memcmp(one->steps, other->steps, sizeof one->steps) == 0, "the steps");
    expect(a.degree == b.degree && a.base == b.base && a.ct == b.ct && a.pt == b.pt && a.depth == b.depth, "degree, base and counts");
    expect(a.coefficients == b.coefficients && a.lists == b.lists && a.steps == b.steps, "coefficients, lists and steps");
}

static void expect_value(const char *what, const stored *at, uint64_t value) {
    firrozun_trial trial =
        firrozun_trial_walk(at->head, at->lists, at->head.coefficients, at->bounds, at->head.lists, at->steps, 4 * at->head.steps, 2, 1000000);
    expect(trial.refusal == FIRROZUN_ACCEPTED && trial.remainder == value, "the value");
    printf("%s:", what);
    for (size_t j = 0; j < at->head.coefficients; j++) {
        printf(" %lld", (long long)at->lists[j]);
    }
    printf(", at 2: %llu\n", (unsigned long long)trial.remainder);
}

static void add_and_double(void) {
    static const int64_t pipe[LENGTH] = {1, 2, 3, 4, 5, 6};
    static const int64_t filter[LENGTH] = {0, 0, 10, 0, 0, 1};
    static const int64_t both[LENGTH] = {1, 2, 13, 4, 5, 7};
    static const int64_t twice[LENGTH] = {2, 4, 6, 8, 10, 12};
    stored first, second, added, doubled, planned;
    expect(plan(pipe, &first) == FIRROZUN_ACCEPTED && plan(filter, &second) == FIRROZUN_ACCEPTED, "the losses are planned");
    added = first;
    doubled = first;
    for (size_t j = 0; j < LENGTH; j++) {
        added.lists[j] += second.lists[j];
        doubled.lists[j] *= 2;
    }
    expect_same_shape(&first, &second);
    expect_value("pipe", &first, 2787);
    expect_value("filter", &second, 432);
    expect_value("both", &added, 3219);
    expect_value("twice the pipe", &doubled, 5574);

    expect(plan(both, &planned) == FIRROZUN_ACCEPTED, "the sum is planned");
    expect(memcmp(planned.lists, added.lists, sizeof added.lists) == 0, "the lists of the sum");
    expect_same_shape(&planned, &added);
    expect(plan(twice, &planned) == FIRROZUN_ACCEPTED, "the multiple is planned");
    expect(memcmp(planned.lists, doubled.lists, sizeof doubled.lists) == 0, "the lists of the multiple");
    expect_same_shape(&planned, &doubled);
}

/* Two curves whose magnitudes sum to 2^29 and 2^29 + 1: both are planned, and their sum is refused. */
static void too_large(void) {
    static const int64_t half[LENGTH] = {0, 1 << 29, 0, 0, 0, 0};
    static const int64_t more[LENGTH] = {1, 1 << 29, 0, 0, 0, 0};
    static const int64_t sum[LENGTH] = {1, 1 << 30, 0, 0, 0, 0};
    stored to;
    expect(plan(half, &to) == FIRROZUN_ACCEPTED && plan(more, &to) == FIRROZUN_ACCEPTED, "half of the limit");
    uint8_t refusal = plan(sum, &to);
    expect(refusal == FIRROZUN_REFUSAL_MAGNITUDE && to.lists[0] == 0 && to.head.degree == 0, "a sum above the limit");
    printf("a sum above 2^30: refusal %u\n", (unsigned)refusal);
}

int main(void) {
    add_and_double();
    too_large();
    return wrong;
}
