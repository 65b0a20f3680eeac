/* A fitter has lost a curve, and still has its plan: rebuilds the curve from the lists, prints it, and cuts it into the same lists again. Then one number
 * of the lists is damaged, and they are refused with 34. Then the other refusals. It exits with 1 if an answer is not the one expected. Valid C99 and
 * C++. */
#include "firrozun.h"

#include <stdio.h>
#include <string.h>

#define DEGREE 5
#define LISTS 3

static int wrong = 0;

static void expect(int holds, const char *what) {
    if (!holds) {
        fprintf(stderr, "rebuild.c: %s\n", what);
        wrong = 1;
    }
}

/* What was stored of the plan: MinMult, full, Chebyshev, transform identity, and these. */
static const size_t degree = DEGREE;
static const size_t base = 2;
static const int64_t lists[DEGREE + 1] = {1, 4, 3, -4, 5, 12};
static const uint16_t bounds[LISTS] = {2, 4, 6};

static firrozun_rebuilt rebuild(const int64_t *from, int64_t *curve) {
    return firrozun_rebuild(FIRROZUN_MIN_MULT, FIRROZUN_FULL, FIRROZUN_CHEBYSHEV, degree, base, from, DEGREE + 1, bounds, LISTS, curve, DEGREE + 1);
}

/* The lists of the curve are the stored ones again. */
static void list_again(const int64_t *curve) {
    int64_t again[DEGREE + 1];
    uint16_t ends[LISTS];
    firrozun_listed listed =
        firrozun_decompose_bsgs(FIRROZUN_MIN_MULT, FIRROZUN_FULL, FIRROZUN_CHEBYSHEV, curve, DEGREE + 1, again, DEGREE + 1, ends, LISTS);
    expect(listed.refusal == FIRROZUN_ACCEPTED && listed.degree == degree && listed.base == base, "the curve is listed again");
    expect(memcmp(again, lists, sizeof again) == 0 && memcmp(ends, bounds, sizeof ends) == 0, "the lists of the curve");
}

static void find_the_curve(void) {
    static const int64_t lost[DEGREE + 1] = {1, 2, 3, 4, 5, 6};
    int64_t curve[DEGREE + 1];
    firrozun_rebuilt rebuilt = rebuild(lists, curve);
    expect(rebuilt.refusal == FIRROZUN_ACCEPTED && rebuilt.coefficients == DEGREE + 1, "the lists are refused");
    if (wrong) {
        return;
    }
    printf("the curve:");
    for (size_t j = 0; j < rebuilt.coefficients; j++) {
        printf(" %+lld T_%zu", (long long)curve[j], j);
    }
    printf("\n");
    expect(memcmp(curve, lost, sizeof curve) == 0, "the curve");
    list_again(curve);
}

/* The last number belongs to a coefficient that a cut doubled: it was 12, and 13 is nobody's. */
static void damage_a_list(void) {
    int64_t damaged[DEGREE + 1];
    int64_t curve[DEGREE + 1] = {7, 7, 7, 7, 7, 7};
    memcpy(damaged, lists, sizeof damaged);
    damaged[5] = 13;
    firrozun_rebuilt rebuilt = rebuild(damaged, curve);
    printf("with 13 for 12: refusal %u\n", (unsigned)rebuilt.refusal);
    expect(rebuilt.refusal == FIRROZUN_REFUSAL_NO_POLYNOMIAL && rebuilt.coefficients == 0, "a damaged list");
    for (size_t j = 0; j <= DEGREE; j++) {
        expect(curve[j] == 7, "a refusal changed a buffer");
    }
}

/* Each refusal ahead of the later ones. */
static void refusals(void) {
    static const int64_t odd[DEGREE + 1] = {1, 1, 1, 1, 1, 1};
    static const struct {
        uint8_t strategy;
        size_t degree, base;
        const int64_t *lists;
        size_t lists_len, bounds_len, out_len;
        uint8_t refusal;
    } tried[] = {
        {2, 4096, 3, odd, 0, 0, 0, FIRROZUN_REFUSAL_UNKNOWN_KIND},
        {1, 4096, 3, odd, 0, 0, 0, FIRROZUN_REFUSAL_DEGREE},
        {1, 0, 3, odd, 0, 0, 0, FIRROZUN_REFUSAL_NO_DEGREE},
        {1, DEGREE, 3, odd, 6, 3, 0, FIRROZUN_REFUSAL_OTHER_SETTINGS},
        {1, DEGREE, 2, odd, 5, 3, 0, FIRROZUN_REFUSAL_OTHER_SETTINGS},
        {1, DEGREE, 2, odd, 6, 2, 0, FIRROZUN_REFUSAL_OTHER_SETTINGS},
        {0, DEGREE, 2, odd, 6, 3, 0, FIRROZUN_REFUSAL_OTHER_SETTINGS},
        {1, DEGREE, 2, odd, 6, 3, 0, FIRROZUN_REFUSAL_NO_POLYNOMIAL},
        {1, DEGREE, 2, lists, 6, 3, 5, FIRROZUN_REFUSAL_COEFFICIENT_BUFFER},
        {1, DEGREE, 2, lists, 6, 3, 6, FIRROZUN_ACCEPTED},
    };
    int64_t out[DEGREE + 1];
    for (size_t i = 0; i < sizeof tried / sizeof *tried; i++) {
        firrozun_rebuilt rebuilt =
            firrozun_rebuild(tried[i].strategy, FIRROZUN_FULL, FIRROZUN_CHEBYSHEV, tried[i].degree, tried[i].base, tried[i].lists,
                             tried[i].lists_len, bounds, tried[i].bounds_len, out, tried[i].out_len);
        expect(rebuilt.refusal == tried[i].refusal, "a refusal");
        expect(rebuilt.coefficients == (rebuilt.refusal ? 0 : DEGREE + 1), "the number of coefficients");
    }
    expect(firrozun_rebuild(0, 0, 0, 1, 2, NULL, 0, NULL, 0, NULL, 0).refusal == FIRROZUN_REFUSAL_OTHER_SETTINGS, "empty buffers");
}

int main(void) {
    find_the_curve();
    damage_a_list();
    refusals();
    return wrong;
}
