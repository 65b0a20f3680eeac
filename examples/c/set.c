/* Three curves of one flow, read once: the power of a pump, the loss of a filter and the loss of a pipe. Prints what each costs alone, what they cost
 * as a set and what that saves, and the powers that the set makes. Then walks each member at 2 and prints its value. Then a place too few in each buffer,
 * and refusals. It exits with 1 if an answer is not the one expected. Valid C99 and C++. */
#include "firrozun.h"

#include <stdio.h>
#include <string.h>

#define CURVES 3
#define COEFFICIENTS 18
#define LISTS 7
#define STEPS 14

static int wrong = 0;

static void expect(int holds, const char *what) {
    if (!holds) {
        fprintf(stderr, "set.c: %s\n", what);
        wrong = 1;
    }
}

static const char *const names[CURVES] = {"power", "filter", "pipe"};

/* The coefficients of the curves, one curve after another: 8 of the power, 6 of the filter, 4 of the pipe. */
static const int64_t curves[COEFFICIENTS] = {30, 12, 5, 0, 2, 1, 0, 1, 0, 3, 7, 1, 0, 2, 1, 4, 6, 2};

static firrozun_members three_members(void) {
    static const size_t counts[CURVES] = {8, 6, 4};
    firrozun_members members;
    memset(&members, 0, sizeof members);
    members.count = CURVES;
    for (size_t i = 0; i < CURVES; i++) {
        firrozun_member *member = &members.members[i];
        member->strategy = FIRROZUN_MIN_MULT;
        member->parity = FIRROZUN_FULL;
        member->basis = FIRROZUN_MONOMIAL;
        member->fold = FIRROZUN_NOT_FOLDED;
        member->a = 0;
        member->b = 4;
        member->count = counts[i];
    }
    return members;
}

/* A set with the buffers that it fills. */
typedef struct {
    firrozun_curve_set set;
    int64_t lists[COEFFICIENTS];
    uint16_t bounds[LISTS];
    uint16_t steps[4 * STEPS];
} stored;

/* Plans the set with so many places fewer in each buffer. */
static uint8_t plan(firrozun_members members, size_t c_len, size_t fewer_lists, size_t fewer_bounds, size_t fewer_steps, stored *to) {
    firrozun_set_planned planned = firrozun_plan_set(members, curves, c_len, to->lists, COEFFICIENTS - fewer_lists, to->bounds, LISTS - fewer_bounds,
                                                     to->steps, 4 * STEPS - fewer_steps);
    to->set = planned.set;
    return planned.refusal;
}

/* Each curve alone, and all of them by themselves. Answers the sums of both costs. */
static firrozun_counts alone(firrozun_members members) {
    firrozun_counts sum = {FIRROZUN_ACCEPTED, 0, 0};
    const int64_t *c = curves;
    for (size_t i = 0; i < members.count; i++) {
        firrozun_member member = members.members[i];
        int64_t lists[COEFFICIENTS];
        uint16_t bounds[LISTS];
        uint16_t steps[4 * STEPS];
        firrozun_planned planned = firrozun_plan(member.strategy, member.parity, member.basis, member.fold, c, member.count, member.a, member.b, lists,
                                                 COEFFICIENTS, bounds, LISTS, steps, 4 * STEPS);
        expect(planned.refusal == FIRROZUN_ACCEPTED, "a curve alone");
        printf("%s alone: ct-ct %zu, pt-ct %zu\n", names[i], planned.head.ct, planned.head.pt);
        sum.ct += planned.head.ct;
        sum.pt += planned.head.pt;
        c += member.count;
    }
    printf("all by themselves: ct-ct %zu, pt-ct %zu\n", sum.ct, sum.pt);
    return sum;
}

/* The value of member i at a point, modulo a million: its plan is composed of the power steps and its own steps. */
static uint64_t value(const stored *from, size_t i, int64_t point) {
    firrozun_head head = from->set.heads[i];
    size_t powers = from->set.powers;
    size_t lists = 0, bounds = 0, steps = powers;
    for (size_t j = 0; j < i; j++) {
        lists += from->set.heads[j].coefficients;
        bounds += from->set.heads[j].lists;
        steps += from->set.heads[j].steps;
    }
    uint16_t composed[4 * STEPS];
    memcpy(composed, from->steps, 4 * powers * sizeof *composed);
    memcpy(composed + 4 * powers, from->steps + 4 * steps, 4 * head.steps * sizeof *composed);
    head.steps += powers;
    firrozun_trial trial = firrozun_trial_walk(head, from->lists + lists, head.coefficients, from->bounds + bounds, head.lists, composed,
                                               4 * head.steps, point, 1000000);
    expect(trial.refusal == FIRROZUN_ACCEPTED, "a member is not walked");
    return trial.remainder;
}

static void plan_and_walk(firrozun_members members) {
    static const uint64_t at_2[CURVES] = {266, 106, 49};
    static const uint16_t powers[12] = {1, 2, 1, 1, 1, 3, 1, 2, 1, 4, 2, 2};
    static const uint16_t bounds[LISTS] = {4, 8, 2, 4, 6, 2, 4};
    firrozun_sizes sizes = firrozun_set_sizes(members);
    expect(sizes.refusal == FIRROZUN_ACCEPTED, "the sizes are refused");
    expect(sizes.coefficients == COEFFICIENTS && sizes.lists == LISTS && sizes.steps == STEPS, "the sizes");

    firrozun_counts sum = alone(members);
    expect(sum.ct == 10 && sum.pt == 11, "the costs by themselves");
    stored planned;
    uint8_t refusal = plan(members, COEFFICIENTS, 0, 0, 0, &planned);
    firrozun_curve_set set = planned.set;
    expect(refusal == FIRROZUN_ACCEPTED, "the set is refused");
    if (wrong) {
        return;
    }
    printf("as a set: ct-ct %zu, pt-ct %zu\n", set.ct, set.pt);
    printf("saved: %zu multiplications of two ciphertexts\n", sum.ct - set.ct);
    expect(set.ct == 7 && set.pt == 11 && set.powers == 3, "the costs of the set");
    expect(memcmp(planned.lists, curves, sizeof curves) == 0, "the lists");
    expect(memcmp(planned.bounds, bounds, sizeof bounds) == 0, "the boundaries");
    expect(memcmp(planned.steps, powers, sizeof powers) == 0, "the power steps");
    printf("powers:");
    for (size_t i = 0; i < set.powers; i++) {
        printf(" %u", planned.steps[4 * i + 1]);
    }
    printf("\n");
    for (size_t i = 0; i < members.count; i++) {
        uint64_t found = value(&planned, i, 2);
        expect(found == at_2[i], "a value");
        expect(set.heads[i].steps == 2 * set.heads[i].lists - 1 && set.heads[i].interval.b == 4, "a head");
        printf("%s at 2: %llu\n", names[i], (unsigned long long)found);
    }
    for (size_t i = members.count; i < FIRROZUN_SET_MEMBERS; i++) {
        expect(set.heads[i].degree == 0 && set.heads[i].lists == 0 && set.heads[i].interval.b == 0, "a head beyond the members");
    }
}

/* Nothing is written in a refusal, and every number of the answer is 0. */
static void expect_refusal(uint8_t refusal, const stored *to, uint8_t expected, const char *what) {
    stored before;
    memset(&before, 7, sizeof before);
    expect(refusal == expected, what);
    expect(memcmp(to->lists, before.lists, sizeof before.lists) == 0 && memcmp(to->bounds, before.bounds, sizeof before.bounds) == 0
               && memcmp(to->steps, before.steps, sizeof before.steps) == 0,
           "a refusal changed a buffer");
    expect(to->set.ct == 0 && to->set.pt == 0 && to->set.powers == 0, "the numbers of a refusal");
    for (size_t i = 0; i < FIRROZUN_SET_MEMBERS; i++) {
        firrozun_head head = to->set.heads[i];
        expect(head.degree == 0 && head.ct == 0 && head.coefficients == 0 && head.steps == 0 && head.interval.b == 0, "a head of a refusal");
    }
}

static void refusals(firrozun_members members) {
    stored to;
    memset(&to, 7, sizeof to);
    firrozun_members other = members;
    other.members[2].basis = 2;
    expect_refusal(plan(other, 0, 0, 0, 0, &to), &to, FIRROZUN_REFUSAL_UNKNOWN_KIND, "an unknown basis");
    expect(firrozun_set_sizes(other).refusal == FIRROZUN_REFUSAL_UNKNOWN_KIND, "sizes with an unknown basis");
    other = members;
    other.count = 0;
    expect_refusal(plan(other, COEFFICIENTS, 0, 0, 0, &to), &to, FIRROZUN_REFUSAL_MEMBERS, "no member");
    other.count = FIRROZUN_SET_MEMBERS + 1;
    expect_refusal(plan(other, COEFFICIENTS, 0, 0, 0, &to), &to, FIRROZUN_REFUSAL_MEMBERS, "17 members");
    expect(firrozun_set_sizes(other).refusal == FIRROZUN_REFUSAL_MEMBERS, "sizes of 17 members");
    other = members;
    other.members[1].basis = FIRROZUN_CHEBYSHEV;
    expect_refusal(plan(other, COEFFICIENTS - 1, 0, 0, 0, &to), &to, FIRROZUN_REFUSAL_MEMBERS, "a coefficient fewer than the members have");
    expect_refusal(plan(other, COEFFICIENTS, 0, 0, 0, &to), &to, FIRROZUN_REFUSAL_UNLIKE_MEMBERS, "another basis");
    other = members;
    other.members[0].b = 0;
    other.members[1].count = 1;
    expect_refusal(plan(other, COEFFICIENTS, 1, 1, 1, &to), &to, FIRROZUN_REFUSAL_INTERVAL, "the first of two refused members");
    expect(firrozun_set_sizes(other).refusal == FIRROZUN_REFUSAL_NO_DEGREE, "sizes, which have no interval");

    expect_refusal(plan(members, COEFFICIENTS, 1, 1, 1, &to), &to, FIRROZUN_REFUSAL_COEFFICIENT_BUFFER, "a coefficient fewer");
    expect_refusal(plan(members, COEFFICIENTS, 0, 1, 1, &to), &to, FIRROZUN_REFUSAL_BOUNDARY_BUFFER, "a boundary fewer");
    expect_refusal(plan(members, COEFFICIENTS, 0, 0, 1, &to), &to, FIRROZUN_REFUSAL_STEP_BUFFER, "a step fewer");
    expect(firrozun_plan_set(other, NULL, 0, NULL, 0, NULL, 0, NULL, 0).refusal == FIRROZUN_REFUSAL_MEMBERS, "empty buffers");
}

int main(void) {
    firrozun_members members = three_members();
    plan_and_walk(members);
    refusals(members);
    return wrong;
}
