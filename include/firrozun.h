/* Firrozun for C and C++: planning the evaluation of polynomials by baby steps and giant steps.
 *
 * Each function is proved to answer, and to leave in its buffers, what crates/exports/specs says, for every input. docs/RULES.md has the rules
 * in words. Link with crates/exports/out/libexports.a, which tools/build library brings up to date (x86-64 Linux).
 *
 * "Undefined reference to firrozun_layout_10" at linking says that the library is older or newer than this header, and has other structs or arguments.
 * Build it anew: run `tools/build library` in the repository that this header is from, and link with what it writes. The same says an undefined reference
 * to another function: what is only added keeps the number, so an older library of the same number may lack it.
 *
 * Kinds go by number (FIRROZUN_MONOMIAL and so on). A number that is no kind's is refusal 43, ahead of every other test.
 *
 * Refusals: the answer's first field is 0, or the number of the first test that holds, in the order given with each function. After a refusal
 * every other field is 0 and no buffer is changed.
 *
 * Buffers come as a pointer and a length, which counts elements and not bytes. A call fills the first places of a buffer, and leaves the places
 * beyond as they were. An empty one may be NULL. The caller sees to it that a buffer has the elements that its length says, and that a buffer that
 * is written overlaps no other of the same call. No function keeps a pointer, asks for memory or changes anything else, so calls may run at the
 * same time on buffers that they don't share. */
#ifndef FIRROZUN_H
#define FIRROZUN_H

#include <stddef.h>
#include <stdint.h>

#define FIRROZUN_VERSION "0.10.0"

#ifdef __cplusplus
extern "C" {
#endif

/* ---- the layouts */

/* The number of the layouts, 10, which stands in the name too: it is raised with each change of a struct or of a function's arguments, and kept where
 * one is only added. The pointer behind it makes every program that includes this header ask the linker for this name, so that it does not link with a
 * library of other layouts. The attribute retain keeps the pointer with --gc-sections too; gcc has it from 11 on, and clang from 13 on. */
uint32_t firrozun_layout_10(void);

#define FIRROZUN_KEPT __attribute__((used))
#ifdef __has_attribute
#if __has_attribute(retain)
#undef FIRROZUN_KEPT
#define FIRROZUN_KEPT __attribute__((used, retain))
#endif
#endif
FIRROZUN_KEPT static uint32_t (*const firrozun_layout)(void) = firrozun_layout_10;
#undef FIRROZUN_KEPT

/* ---- kinds */

/* The basis: x^n, or T_n. */
#define FIRROZUN_MONOMIAL 0
#define FIRROZUN_CHEBYSHEV 1

/* The parity: which powers a polynomial may have. */
#define FIRROZUN_FULL 0
#define FIRROZUN_EVEN 1
#define FIRROZUN_ODD 2

/* The strategy: least depth, or fewest multiplications. */
#define FIRROZUN_MIN_DEPTH 0
#define FIRROZUN_MIN_MULT 1

/* The transform: what the input goes through before a folded polynomial is evaluated. TIMES_INPUT multiplies the result by the input. */
#define FIRROZUN_IDENTITY 0
#define FIRROZUN_SQUARE 1
#define FIRROZUN_SQUARE_TIMES_INPUT 2
#define FIRROZUN_CHEBYSHEV_T2 3
#define FIRROZUN_CHEBYSHEV_T2_TIMES_INPUT 4

/* Whether a plan is of the polynomial's fold. */
#define FIRROZUN_NOT_FOLDED 0
#define FIRROZUN_FOLDED 1

/* The kinds of a step, its first number. */
#define FIRROZUN_STEP_MAKE 1          /* 1 n a b: makes power n from powers a and b */
#define FIRROZUN_STEP_LOAD 2          /* 2 i 0 0: pushes the value of list i, counted from 0 */
#define FIRROZUN_STEP_COMBINE 3       /* 3 p 0 0: takes high, then low, and pushes high * (power p) + low; see below how it counts */
#define FIRROZUN_STEP_COMBINE_PLAIN 4 /* 4 p 0 0: the same, where high is the last list alone and that a constant: a plaintext */

/* A step of kind 3 counts as a multiplication of two ciphertexts, even where high is plain. High is plain where the parity leaves its list nothing but
 * a constant: the even polynomial 1 0 2 0 3 0 with FIRROZUN_MIN_DEPTH has the last list 3 0, of value 3, and a step of kind 3 behind its load. */

/* ---- refusals */

#define FIRROZUN_ACCEPTED 0
#define FIRROZUN_REFUSAL_NO_DEGREE 1           /* the degree is 0: no coefficient, or one */
#define FIRROZUN_REFUSAL_DEGREE 2              /* the degree is above the limit of the call */
#define FIRROZUN_REFUSAL_MAGNITUDE 3           /* the magnitudes of the whole coefficients, or of converted ones, sum above 2^30 */
#define FIRROZUN_REFUSAL_PARITY 4              /* a coefficient that is not zero stands where the parity allows none */
#define FIRROZUN_REFUSAL_FOLD_FULL 5           /* folding is asked for with parity full */
#define FIRROZUN_REFUSAL_FOLD_LOW 6            /* folding is asked for with even and degree below 2, or with odd and degree below 3 */
#define FIRROZUN_REFUSAL_INTERVAL 7            /* a < b does not hold, as with a NaN */
#define FIRROZUN_REFUSAL_NODES 8               /* nodes and values differ in number, or there are none, or more than 4,096 */
#define FIRROZUN_REFUSAL_INDEX 9               /* the index to split is below 2 or above 4,294,967,295 */
#define FIRROZUN_REFUSAL_SCALE 10              /* a bit scale is above 65,535 */
#define FIRROZUN_REFUSAL_MODULUS 11            /* the modulus is below 2 or above 2,147,483,647 */
#define FIRROZUN_REFUSAL_LINE 12               /* a line of the program planlines does not have its form; no function answers it */
#define FIRROZUN_REFUSAL_COEFFICIENT_BUFFER 21 /* the coefficient buffer is too short */
#define FIRROZUN_REFUSAL_BOUNDARY_BUFFER 22    /* the boundary buffer has fewer places than there are lists */
#define FIRROZUN_REFUSAL_STEP_BUFFER 23        /* the step buffer has fewer than four places for each step */
#define FIRROZUN_REFUSAL_UNWALKABLE 24         /* the plan that is lent cannot be walked */
#define FIRROZUN_REFUSAL_BUDGET 31             /* no degree from 1 to 4,095 has bits within the budget */
#define FIRROZUN_REFUSAL_OTHER_SETTINGS 33     /* base or list lengths are not those of the settings, or lists or boundaries end too early */
#define FIRROZUN_REFUSAL_NO_POLYNOMIAL 34      /* no whole polynomial has the lists: a doubled coefficient is odd, or a rebuilt one is beyond 64 bits */
#define FIRROZUN_REFUSAL_MEMBERS 35            /* no member, more than 16, or members whose lengths together pass the coefficients that are lent */
#define FIRROZUN_REFUSAL_UNLIKE_MEMBERS 36     /* a member's basis, its fold or, with folding, its parity is not the first member's */
#define FIRROZUN_REFUSAL_CONVERT_DEGREE 37     /* the degree is above 20, the greatest that is converted to the other basis */
#define FIRROZUN_REFUSAL_NOT_WHOLE 38          /* converted to the Chebyshev basis, a coefficient would not be a whole number */
#define FIRROZUN_REFUSAL_UNKNOWN_KIND 43       /* a basis, parity, strategy, transform or fold goes by a number that is none of its kinds' */

/* ---- room that is enough for every plan */

#define FIRROZUN_COEFFICIENT_ROOM 4096
#define FIRROZUN_BOUNDARY_ROOM 4096
#define FIRROZUN_STEP_ROOM 49152

/* ---- the most members of a set, and room that is enough for every set */

#define FIRROZUN_SET_MEMBERS 16
#define FIRROZUN_SET_COEFFICIENT_ROOM 65536
#define FIRROZUN_SET_BOUNDARY_ROOM 65536
#define FIRROZUN_SET_STEP_ROOM 786432

/* ---- the greatest degree that is converted to the other basis */

#define FIRROZUN_CONVERT_LIMIT 20

/* ---- answers */

typedef struct {
    uint8_t refusal;
    size_t a;
    size_t b;
    size_t distance; /* of a and b */
} firrozun_parts;

typedef struct {
    uint8_t refusal;
    size_t split;
} firrozun_split;

typedef struct {
    uint8_t refusal;
    size_t ct; /* multiplications of two ciphertexts */
    size_t pt; /* multiplications of a plaintext and a ciphertext */
} firrozun_counts;

typedef struct {
    uint8_t refusal;
    size_t depth;
} firrozun_depth;

typedef struct {
    uint8_t refusal;
    size_t bits;
} firrozun_bits;

typedef struct {
    uint8_t refusal;
    size_t degree;
} firrozun_degree;

typedef struct {
    uint8_t refusal;
    uint8_t transform;
    uint8_t parity; /* of the fold: full */
    size_t count;   /* coefficients written */
} firrozun_folded;

typedef struct {
    uint8_t refusal;
    double value;
} firrozun_value;

typedef struct {
    uint8_t refusal;
    size_t count; /* coefficients written: as many as were handed in */
} firrozun_converted;

/* From a to b, with y = u * x + w. */
typedef struct {
    uint8_t refusal;
    double a;
    double b;
    double u;
    double w;
} firrozun_interval;

typedef struct {
    uint8_t refusal;
    size_t count; /* coefficients written */
    uint8_t parity;
    double a;
    double b;
    double u;
    double w;
} firrozun_interpolated;

typedef struct {
    uint8_t refusal;
    size_t degree;
    size_t base;
    size_t coefficients; /* written to `out` */
    size_t lists;        /* boundaries written to `bounds` */
} firrozun_listed;

typedef struct {
    uint8_t refusal;
    size_t coefficients; /* written to `out`: degree + 1 */
} firrozun_rebuilt;

/* How many coefficients, lists and steps a plan or a set has: its buffers take `coefficients`, `lists` and 4 * `steps` places. */
typedef struct {
    uint8_t refusal;
    size_t coefficients;
    size_t lists;
    size_t steps;
} firrozun_sizes;

/* From a to b, with y = u * x + w, as firrozun_change_of_basis gives them. */
typedef struct {
    double a;
    double b;
    double u;
    double w;
} firrozun_head_interval;

/* What a plan is of, its costs, how many coefficients, lists and steps it has, and the interval that it was planned on. Parity and degree are those of
 * what is planned: with folding the fold, of parity full. The interval stays that of the polynomial. Neither the trial walk nor the heaviest chain
 * reads its four numbers.
 *
 * The interval came with request Q-7: 32 bytes at the end of the head, and so of firrozun_planned; the fields before it are where they were. Programs
 * that plan, walk or weigh must be compiled anew. To a head that was stored before, add any four numbers. */
typedef struct {
    uint8_t basis;
    uint8_t parity;
    uint8_t strategy;
    uint8_t transform;
    size_t degree;
    size_t base;
    size_t ct;
    size_t pt;
    size_t depth;
    size_t coefficients;
    size_t lists;
    size_t steps;
    firrozun_head_interval interval;
} firrozun_head;

typedef struct {
    uint8_t refusal;
    firrozun_head head;
} firrozun_planned;

/* A curve of a set: its settings, its interval from a to b, and how many coefficients it has. The coefficients themselves are lent apart. */
typedef struct {
    uint8_t strategy;
    uint8_t parity;
    uint8_t basis;
    uint8_t fold;
    double a;
    double b;
    size_t count;
} firrozun_member;

/* The first `count` members are the set, and there are 1 to 16 of them. Members beyond the count are not read. */
typedef struct {
    size_t count;
    firrozun_member members[FIRROZUN_SET_MEMBERS];
} firrozun_members;

/* What a set of curves costs, how many power steps its members have in common, and each member's head. A head is that of the member planned alone, its
 * costs too, but its `steps` are counted without power steps: 2 * `lists` - 1. Heads beyond the members are all 0, and a member's degree never is. */
typedef struct {
    size_t ct;     /* multiplications of two ciphertexts, over all members */
    size_t pt;     /* multiplications of a plaintext and a ciphertext, over all members */
    size_t powers; /* power steps, which stand ahead of all other steps */
    firrozun_head heads[FIRROZUN_SET_MEMBERS];
} firrozun_curve_set;

typedef struct {
    uint8_t refusal;
    firrozun_curve_set set;
} firrozun_set_planned;

typedef struct {
    uint8_t refusal;
    uint64_t remainder;
} firrozun_trial;

typedef struct {
    uint8_t refusal;
    uint64_t weight;
} firrozun_chain;

/* ---- calls on bare numbers */

/* The two parts of the power n, a + b = n, and their distance, |a - b|: x^n = x^a * x^b, T_n = 2 * T_a * T_b - T_distance. Refusal 9. */
firrozun_parts firrozun_split_degree(size_t n);

/* MinDepth's split of a degree: the base is 2^split. Refusals 2 (above 4,294,967,295), 1. */
firrozun_split firrozun_min_depth_split(size_t degree);

/* MinMult's split of a degree. Refusals 43, 2 (above 4,095). */
firrozun_split firrozun_min_mult_split(uint8_t parity, uint8_t basis, size_t degree);

/* The counts of multiplications at the split that the strategy chooses, as poulpy estimates them; none at degree 0. A plan's head has the
   counts of its own steps, which may be others (degree 12). Refusals 43, 2 (above 4,095). */
firrozun_counts firrozun_bsgs_op_counts(uint8_t strategy, uint8_t parity, uint8_t basis, size_t degree);

/* The depth of an evaluation; 0 at degree 0. Refusals 43, 2 (above 4,294,967,295). */
firrozun_depth firrozun_bsgs_eval_depth(uint8_t strategy, size_t degree);

/* The bits that an evaluation consumes, by the bit scales of input and coefficients; 0 at degree 0. Refusals 43, 2 (above 4,294,967,295), 10. */
firrozun_bits firrozun_bsgs_consumed_bits(uint8_t strategy, size_t degree, size_t input, size_t coeff);

/* The largest degree for a budget of bits: the greatest from 1 to 4,095 for which firrozun_bsgs_consumed_bits answers at most `budget`. Bits need not
 * rise with the degree, so a lower one may take more bits than the budget has. At degree 5 with MinMult an even plan's heaviest chain is above these
 * bits if the input scale is from 1 up and below the coefficient scale: ask firrozun_heaviest_chain there. Refusals 43, 10, 31 (the budget is below
 * the coefficient scale). */
firrozun_degree firrozun_largest_degree(uint8_t strategy, uint64_t budget, size_t input, size_t coeff);

/* ---- calls on coefficients: coefficient j stands at place j */

/* Folds a whole polynomial of parity even or odd into one of about half the degree, behind a transform. `out` takes c_len - c_len / 2 coefficients
 * for even and c_len / 2 for odd. Refusals 43, 2 (above 4,095), 5, 6, 4, 3, 21. */
firrozun_folded firrozun_fold_parity(uint8_t parity, uint8_t basis, const int64_t *c, size_t c_len, int64_t *out, size_t out_len);

/* The same of doubles, where -0 counts as zero and a NaN does not. Refusals 43, 2 (above 4,095), 5, 6, 4, 21. */
firrozun_folded firrozun_fold_parity_f64(uint8_t parity, uint8_t basis, const double *c, size_t c_len, double *out, size_t out_len);

/* The value at x, by Horner's rule or by Clenshaw's; 0 of no coefficient. Refusal 43. */
firrozun_value firrozun_evaluate_coeffs(uint8_t basis, const double *coeffs, size_t coeffs_len, double x);

/* Converts whole coefficients from one basis to the other, so that the value at every whole number is the same, and so at every x. `to` is the basis of
 * the new coefficients; `c` is given in the basis that is not `to`. `out` takes c_len coefficients, as many as there are in `c`; places beyond them are
 * unchanged. The empty polynomial becomes the empty one. Refusals 43, 37 (above degree 20: more than 21 coefficients), 3 (on `c`), 38, 3 (on the new
 * coefficients), 21.
 *
 * To FIRROZUN_MONOMIAL every new coefficient is whole, and 38 never comes. To FIRROZUN_CHEBYSHEV all of them are whole exactly if 2^(j - 1) divides
 * coefficient j for each j from 1 up, and the second 3 never comes: 2x^2 is T_0 + T_2, but x^2 is half of that and is refused with 38. Where the magnitudes
 * allow it, multiply what is refused with 38 by 2^(c_len - 2): then every new coefficient is whole, and the value so many times as large.
 *
 * There and back gives the first coefficients again where both calls accept. A polynomial that is even or odd in one basis is so in the other. The interval
 * has no part in it: the value is the same at the same x. But only the pair of FIRROZUN_CHEBYSHEV takes an interval to -1 to 1 (firrozun_change_of_basis),
 * so that on any other interval the two polynomials differ at u * x + w. */
firrozun_converted firrozun_convert_coeffs(uint8_t to, const int64_t *c, size_t c_len, int64_t *out, size_t out_len);

/* The number of the parity that the coefficients have: even, else odd, else full. It refuses nothing. */
uint8_t firrozun_detect_parity(const int64_t *c, size_t c_len);

/* The same of doubles. It refuses nothing. */
uint8_t firrozun_detect_parity_f64(const double *c, size_t c_len);

/* The interval from a to b with its change pair, which for Chebyshev takes a to -1 and b to 1. Refusal 43. */
firrozun_interval firrozun_change_of_basis(uint8_t basis, double a, double b);

/* Interpolates in the Chebyshev basis: `out` takes a coefficient for each node. Nodes and values stand in the order k = n down to 1.
 * Refusals 8, 7, 21. */
firrozun_interpolated firrozun_chebyshev_interpolate(const double *nodes, size_t nodes_len, const double *values, size_t values_len, double a,
                                                     double b, double *out, size_t out_len);

/* The lists of coefficients of a plan, one after another in `out`, which takes c_len coefficients. `bounds` takes for each list the place just past
 * it; there are at most c_len. Refusals 43, 2 (above 4,095), 1, 3, 21, 22. */
firrozun_listed firrozun_decompose_bsgs(uint8_t strategy, uint8_t parity, uint8_t basis, const int64_t *c, size_t c_len, int64_t *out,
                                        size_t out_len, uint16_t *bounds, size_t bounds_len);

/* The same of doubles. Refusals 43, 2 (above 4,095), 1, 21, 22. */
firrozun_listed firrozun_decompose_bsgs_f64(uint8_t strategy, uint8_t parity, uint8_t basis, const double *c, size_t c_len, double *out,
                                            size_t out_len, uint16_t *bounds, size_t bounds_len);

/* Rebuilds the whole coefficients that were cut into lists: it is firrozun_decompose_bsgs the other way around. `lists` has the lists one after another,
 * and `bounds` the place just past each, as firrozun_decompose_bsgs or firrozun_plan left them; degree and base are those of its answer or of the plan's
 * head. `out` takes degree + 1 coefficients. Places of `lists` and `bounds` beyond these lists are not read.
 * Refusals 43, 2 (above 4,095), 1, 33, 34, 21.
 *
 * The lists of a folded plan, whose transform is not FIRROZUN_IDENTITY, give the coefficients of the fold, with parity full as in the head. These are
 * not the polynomial that was folded: they belong to y, which the transform makes from x.
 *
 * Lists that were damaged may still be those of another polynomial, which is then the answer: in the monomial basis every number is taken. A degree
 * that is named too low may be taken, too, because places beyond its lists are not read. Nor is the parity of the coefficients tested: plan what was
 * rebuilt to test parity and magnitudes. */
firrozun_rebuilt firrozun_rebuild(uint8_t strategy, uint8_t parity, uint8_t basis, size_t degree, size_t base, const int64_t *lists,
                                  size_t lists_len, const uint16_t *bounds, size_t bounds_len, int64_t *out, size_t out_len);

/* ---- the sizes of a plan, the plan call, the trial walk and the heaviest chain */

/* The sizes of every plan of this degree with these settings, before there are coefficients and an interval. What passes the tests ahead of 21, the
 * interval's among them, is planned exactly if the three buffers have at least so many places. Refusals 43, 2 (above 4,095), 1, with folding 5, 6: then
 * firrozun_plan, too, refuses with this number every polynomial of this degree, on every interval. */
firrozun_sizes firrozun_plan_sizes(uint8_t strategy, uint8_t parity, uint8_t basis, uint8_t fold, size_t degree);

/* Plans a whole polynomial on the interval from a to b, or with `fold` its fold: the head in the answer, the lists in `out` and `bounds` as
 * firrozun_decompose_bsgs leaves them, and in `steps` four numbers for each step. The interval goes into the head alone; lists and steps are the same
 * on every interval. firrozun_plan_sizes tells how many places the buffers need; FIRROZUN_COEFFICIENT_ROOM, FIRROZUN_BOUNDARY_ROOM and
 * FIRROZUN_STEP_ROOM are always enough.
 * Plans add: if two polynomials have one length and the same settings, and both and their sum are accepted, then the lists of the sum are the sums of the
 * lists, place by place, with equal boundaries and steps. The same holds for a polynomial times a whole number.
 * Refusals 43, 2 (above 4,095), 1, with folding 5, 6, then 4, 3, 7, 21, 22, 23. */
firrozun_planned firrozun_plan(uint8_t strategy, uint8_t parity, uint8_t basis, uint8_t fold, const int64_t *c, size_t c_len, double a, double b,
                               int64_t *out, size_t out_len, uint16_t *bounds, size_t bounds_len, uint16_t *steps, size_t steps_len);

/* Walks a plan at a point: the value's remainder modulo `modulus`, from 0 up. Head and buffers may be any, damaged ones too. Refusals 43, 11, 24. */
firrozun_trial firrozun_trial_walk(firrozun_head head, const int64_t *coefficients, size_t coefficients_len, const uint16_t *bounds,
                                   size_t bounds_len, const uint16_t *steps, size_t steps_len, int64_t point, uint64_t modulus);

/* The heaviest chain of a plan, by the bit scales of input and coefficients: the greatest weight over all paths of multiplications that end in the
 * plan's value. Each ct-ct multiplication weighs the input scale, each pt-ct one the coefficient scale. The weight is exact for every
 * plan that can be walked, and at most 30 times the greater scale. Head and buffers may be any, damaged ones too. Refusals 43, 10, 24. */
firrozun_chain firrozun_heaviest_chain(firrozun_head head, const int64_t *coefficients, size_t coefficients_len, const uint16_t *bounds,
                                       size_t bounds_len, const uint16_t *steps, size_t steps_len, size_t input, size_t coeff);

/* ---- sets: up to 16 curves of one reading, planned together */

/* The sizes of every set of curves with these settings and lengths, before there are coefficients and intervals: a and b of the members are not read.
 * `steps` counts the common power steps once, and the other steps of all members. What passes the tests ahead of 21 is planned exactly if the three
 * buffers have at least so many places. Refusals 43 (as below), 35 (no member, or more than 16), 36, then of each member, in their order, 2 (above
 * 4,095), 1, with folding 5, 6: then firrozun_plan_set, too, refuses every set with these settings and lengths, though it may be by the number of an
 * earlier test. */
firrozun_sizes firrozun_set_sizes(firrozun_members members);

/* Plans a set of 1 to 16 curves of one reading. Each power that a member needs is made once for all of them, and so is the transform of folded ones. So
 * the set never costs more multiplications of two ciphertexts than the plans of its members by themselves, and fewer if two members need the same power
 * or are folded. The members have one basis, all are folded or none, and folded ones have one parity; strategies and intervals may differ, and so may
 * the parities of members that are not folded.
 *
 * `c` has the coefficients of the members one after another, `count` of each; places beyond are not read. The call leaves
 * - in `out` the lists of the first member, then those of the second, and so on;
 * - in `bounds` the boundaries of the members, one member's after another's. Each member's are counted from the beginning of its own part of `out`;
 * - in `steps` four numbers for each step: first the power steps, by rising powers, then the loads and combines of the first member, then those of the
 *   second, and so on. The list numbers of each member begin at 0.
 *
 * `ct` is the number of power steps and of all members' steps of kind 3, with folding one more for the common transform, and with a transform of
 * TIMES_INPUT one more for each member. `pt` is the sum over all members: each member has as many as alone.
 *
 * firrozun_set_sizes tells how many places the buffers need; FIRROZUN_SET_COEFFICIENT_ROOM, FIRROZUN_SET_BOUNDARY_ROOM and FIRROZUN_SET_STEP_ROOM are
 * always enough.
 *
 * To walk or to weigh member i, compose its plan. The head is heads[i] with its `steps` raised by `powers`. The coefficients begin behind those of the
 * members before it, at the sum of their heads' `coefficients`, and the boundaries at the sum of their `lists`. The steps are the first 4 * `powers`
 * numbers of `steps`, followed by the 4 * heads[i].steps numbers of the member's own, which begin at 4 * (`powers` + the sum of `steps` in the heads
 * before). firrozun_trial_walk then gives the value of this member. Powers that only other members need are there too; neither call minds them.
 *
 * Refusals 43 (of one of the first `count` members, or of any of the 16 if `count` is above 16), 35 (no member, more than 16, or lengths that together
 * pass c_len, which are added without overflow), 36, then of each member, in their order, 2 (above 4,095), 1, with folding 5, 6, then 4, 3, 7; then for
 * all members together 21, 22, 23. */
firrozun_set_planned firrozun_plan_set(firrozun_members members, const int64_t *c, size_t c_len, int64_t *out, size_t out_len, uint16_t *bounds,
                                       size_t bounds_len, uint16_t *steps, size_t steps_len);

#ifdef __cplusplus
}
#endif

#endif
