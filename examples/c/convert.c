/* The maker of a pump sends its curves by powers of the flow, and the curves of the block are Chebyshev ones. Converts the pump's head, prints the new
 * coefficients, plans them, and walks the plan to the values of what was sent. Then the power that the pump takes: it would have fractions and is refused
 * with 38, and is converted times 4. Then the other refusals. It exits with 1 if an answer is not the one expected. Valid C99 and C++. */
#include "firrozun.h"

#include <stdio.h>
#include <string.h>

#define HEAD 5
#define POWER 4
#define ROOM 64

static int wrong = 0;

static void expect(int holds, const char *what) {
    if (!holds) {
        fprintf(stderr, "convert.c: %s\n", what);
        wrong = 1;
    }
}

/* The head in centimetres and the power in watts, by the flow in litres a second. */
static const int64_t head[HEAD] = {4200, 15, -26, -12, -8};
static const int64_t power[POWER] = {900, 120, 25, -6};

static void print(const char *what, const int64_t *curve, size_t count, const char *element) {
    printf("%s:", what);
    for (size_t j = 0; j < count; j++) {
        printf(" %+lld %s%zu", (long long)curve[j], element, j);
    }
    printf("\n");
}

/* The value of a curve at a flow, modulo a million, by the walk of its plan. */
static uint64_t value(uint8_t basis, const int64_t *curve, size_t count, int64_t flow) {
    int64_t lists[ROOM];
    uint16_t bounds[ROOM];
    uint16_t steps[4 * ROOM];
    firrozun_planned planned = firrozun_plan(FIRROZUN_MIN_MULT, FIRROZUN_FULL, basis, FIRROZUN_NOT_FOLDED, curve, count, -1, 1, lists, ROOM, bounds,
                                             ROOM, steps, 4 * ROOM);
    expect(planned.refusal == FIRROZUN_ACCEPTED, "a curve is not planned");
    firrozun_trial trial = firrozun_trial_walk(planned.head, lists, ROOM, bounds, ROOM, steps, 4 * ROOM, flow, 1000000);
    expect(trial.refusal == FIRROZUN_ACCEPTED, "a plan is not walked");
    return trial.remainder;
}

static void convert_the_head(void) {
    static const int64_t expected[HEAD] = {4184, 6, -17, -3, -1};
    static const uint64_t values[] = {4200, 4169, 3902, 3039, 1028};
    int64_t converted[HEAD];
    int64_t back[HEAD];
    firrozun_converted there = firrozun_convert_coeffs(FIRROZUN_CHEBYSHEV, head, HEAD, converted, HEAD);
    expect(there.refusal == FIRROZUN_ACCEPTED && there.count == HEAD, "the head is not converted");
    if (wrong) {
        return;
    }
    print("the head by powers", head, HEAD, "x^");
    print("converted", converted, there.count, "T_");
    expect(memcmp(converted, expected, sizeof expected) == 0, "the head converted");
    for (int64_t flow = 0; flow < 5; flow++) {
        uint64_t planned = value(FIRROZUN_CHEBYSHEV, converted, HEAD, flow);
        printf("at %lld: %llu cm\n", (long long)flow, (unsigned long long)planned);
        expect(planned == values[flow] && planned == value(FIRROZUN_MONOMIAL, head, HEAD, flow), "a value");
    }
    firrozun_converted again = firrozun_convert_coeffs(FIRROZUN_MONOMIAL, converted, HEAD, back, HEAD);
    expect(again.refusal == FIRROZUN_ACCEPTED && again.count == HEAD, "the way back");
    expect(memcmp(back, head, sizeof back) == 0, "there and back");
}

/* The 25 of x^2 is odd, and x^2 is half of T_0 + T_2. Times 2^(degree - 1) every coefficient is whole, and the value so many times as large. */
static void convert_the_power(void) {
    static const int64_t expected[POWER] = {3650, 462, 50, -6};
    int64_t fourfold[POWER];
    int64_t converted[POWER] = {7, 7, 7, 7};
    firrozun_converted refused = firrozun_convert_coeffs(FIRROZUN_CHEBYSHEV, power, POWER, converted, POWER);
    printf("the power: refusal %u\n", (unsigned)refused.refusal);
    expect(refused.refusal == FIRROZUN_REFUSAL_NOT_WHOLE && refused.count == 0, "a curve with fractions");
    for (size_t j = 0; j < POWER; j++) {
        expect(converted[j] == 7, "a refusal changed a buffer");
        fourfold[j] = 4 * power[j];
    }
    firrozun_converted there = firrozun_convert_coeffs(FIRROZUN_CHEBYSHEV, fourfold, POWER, converted, POWER);
    expect(there.refusal == FIRROZUN_ACCEPTED && there.count == POWER, "the power is not converted");
    expect(memcmp(converted, expected, sizeof expected) == 0, "the power converted");
    print("4 times the power", converted, POWER, "T_");
    uint64_t planned = value(FIRROZUN_CHEBYSHEV, converted, POWER, 2);
    uint64_t sent = value(FIRROZUN_MONOMIAL, power, POWER, 2);
    printf("at 2: %llu W, 4 times %llu W\n", (unsigned long long)planned, (unsigned long long)sent);
    expect(planned == 4768 && sent == 1192, "the value of the power");
}

/* Each refusal ahead of the later ones: what is refused with one number would be refused with those behind it, too, as far as `to` has them. */
static void refusals(void) {
    static const int64_t limit = (int64_t)1 << 30;
    static const int64_t zeros[FIRROZUN_CONVERT_LIMIT + 1] = {0};
    int64_t many[FIRROZUN_CONVERT_LIMIT + 2];
    int64_t large[3] = {limit, 0, 1};
    int64_t odd[3] = {limit - 1, 0, 1};
    /* 2x^2 - 1 has three times the magnitude of T_2: together 2^30 + 1, and 2^30. */
    int64_t grown[3] = {0, 2, limit / 3};
    int64_t last[3] = {0, 1, limit / 3};
    for (size_t j = 0; j < FIRROZUN_CONVERT_LIMIT + 2; j++) {
        many[j] = limit + 1;
    }
    const struct {
        uint8_t to;
        const int64_t *c;
        size_t c_len, out_len;
        uint8_t refusal;
    } tried[] = {
        {2, many, FIRROZUN_CONVERT_LIMIT + 2, 0, FIRROZUN_REFUSAL_UNKNOWN_KIND},
        {255, zeros, 0, ROOM, FIRROZUN_REFUSAL_UNKNOWN_KIND},
        {FIRROZUN_CHEBYSHEV, many, FIRROZUN_CONVERT_LIMIT + 2, 0, FIRROZUN_REFUSAL_CONVERT_DEGREE},
        {FIRROZUN_MONOMIAL, many, FIRROZUN_CONVERT_LIMIT + 2, 0, FIRROZUN_REFUSAL_CONVERT_DEGREE},
        {FIRROZUN_CHEBYSHEV, large, 3, 0, FIRROZUN_REFUSAL_MAGNITUDE},
        {FIRROZUN_CHEBYSHEV, odd, 3, 0, FIRROZUN_REFUSAL_NOT_WHOLE},
        {FIRROZUN_MONOMIAL, grown, 3, 0, FIRROZUN_REFUSAL_MAGNITUDE},
        {FIRROZUN_MONOMIAL, last, 3, 2, FIRROZUN_REFUSAL_COEFFICIENT_BUFFER},
        {FIRROZUN_MONOMIAL, last, 3, 3, FIRROZUN_ACCEPTED},
        {FIRROZUN_CHEBYSHEV, zeros, FIRROZUN_CONVERT_LIMIT + 1, ROOM, FIRROZUN_ACCEPTED},
    };
    for (size_t i = 0; i < sizeof tried / sizeof *tried; i++) {
        int64_t out[ROOM];
        for (size_t j = 0; j < ROOM; j++) {
            out[j] = 7;
        }
        firrozun_converted answer = firrozun_convert_coeffs(tried[i].to, tried[i].c, tried[i].c_len, out, tried[i].out_len);
        expect(answer.refusal == tried[i].refusal, "a refusal");
        expect(answer.count == (tried[i].refusal ? 0 : tried[i].c_len), "the number of coefficients");
        for (size_t j = answer.count; j < ROOM; j++) {
            expect(out[j] == 7, "a place beyond the coefficients");
        }
    }
    firrozun_converted empty = firrozun_convert_coeffs(FIRROZUN_CHEBYSHEV, NULL, 0, NULL, 0);
    expect(empty.refusal == FIRROZUN_ACCEPTED && empty.count == 0, "the empty curve");
}

int main(void) {
    convert_the_head();
    convert_the_power();
    refusals();
    return wrong;
}
