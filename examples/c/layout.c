/* Compiles only if every struct of the header has its size, and every field its place. The numbers are worked out by hand from the rules of C on
 * x86-64: a byte stands at any place, and what has 8 bytes at a multiple of 8. bindings/rust/src/ffi/tests.rs has the same. Valid C11
 * and C++11. */
#include "firrozun.h"

#include <assert.h>
#include <stddef.h>

#define SIZE(type, size) static_assert(sizeof(type) == (size), "size of " #type)
#define PLACE(type, field, place) static_assert(offsetof(type, field) == (place), "place of " #field " in " #type)

/* ---- answers on numbers */

SIZE(firrozun_parts, 32);
PLACE(firrozun_parts, refusal, 0);
PLACE(firrozun_parts, a, 8);
PLACE(firrozun_parts, b, 16);
PLACE(firrozun_parts, distance, 24);

SIZE(firrozun_split, 16);
PLACE(firrozun_split, refusal, 0);
PLACE(firrozun_split, split, 8);

SIZE(firrozun_counts, 24);
PLACE(firrozun_counts, refusal, 0);
PLACE(firrozun_counts, ct, 8);
PLACE(firrozun_counts, pt, 16);

SIZE(firrozun_depth, 16);
PLACE(firrozun_depth, refusal, 0);
PLACE(firrozun_depth, depth, 8);

SIZE(firrozun_bits, 16);
PLACE(firrozun_bits, refusal, 0);
PLACE(firrozun_bits, bits, 8);

SIZE(firrozun_degree, 16);
PLACE(firrozun_degree, refusal, 0);
PLACE(firrozun_degree, degree, 8);

SIZE(firrozun_sizes, 32);
PLACE(firrozun_sizes, refusal, 0);
PLACE(firrozun_sizes, coefficients, 8);
PLACE(firrozun_sizes, lists, 16);
PLACE(firrozun_sizes, steps, 24);

/* ---- answers on coefficients */

SIZE(firrozun_folded, 16);
PLACE(firrozun_folded, refusal, 0);
PLACE(firrozun_folded, transform, 1);
PLACE(firrozun_folded, parity, 2);
PLACE(firrozun_folded, count, 8);

SIZE(firrozun_value, 16);
PLACE(firrozun_value, refusal, 0);
PLACE(firrozun_value, value, 8);

SIZE(firrozun_converted, 16);
PLACE(firrozun_converted, refusal, 0);
PLACE(firrozun_converted, count, 8);

SIZE(firrozun_interval, 40);
PLACE(firrozun_interval, refusal, 0);
PLACE(firrozun_interval, a, 8);
PLACE(firrozun_interval, b, 16);
PLACE(firrozun_interval, u, 24);
PLACE(firrozun_interval, w, 32);

SIZE(firrozun_interpolated, 56);
PLACE(firrozun_interpolated, refusal, 0);
PLACE(firrozun_interpolated, count, 8);
PLACE(firrozun_interpolated, parity, 16);
PLACE(firrozun_interpolated, a, 24);
PLACE(firrozun_interpolated, b, 32);
PLACE(firrozun_interpolated, u, 40);
PLACE(firrozun_interpolated, w, 48);

SIZE(firrozun_listed, 40);
PLACE(firrozun_listed, refusal, 0);
PLACE(firrozun_listed, degree, 8);
PLACE(firrozun_listed, base, 16);
PLACE(firrozun_listed, coefficients, 24);
PLACE(firrozun_listed, lists, 32);

SIZE(firrozun_rebuilt, 16);
PLACE(firrozun_rebuilt, refusal, 0);
PLACE(firrozun_rebuilt, coefficients, 8);

/* ---- a plan, its walk and its chain */

SIZE(firrozun_head_interval, 32);
PLACE(firrozun_head_interval, a, 0);
PLACE(firrozun_head_interval, b, 8);
PLACE(firrozun_head_interval, u, 16);
PLACE(firrozun_head_interval, w, 24);

SIZE(firrozun_head, 104);
PLACE(firrozun_head, basis, 0);
PLACE(firrozun_head, parity, 1);
PLACE(firrozun_head, strategy, 2);
PLACE(firrozun_head, transform, 3);
PLACE(firrozun_head, degree, 8);
PLACE(firrozun_head, base, 16);
PLACE(firrozun_head, ct, 24);
PLACE(firrozun_head, pt, 32);
PLACE(firrozun_head, depth, 40);
PLACE(firrozun_head, coefficients, 48);
PLACE(firrozun_head, lists, 56);
PLACE(firrozun_head, steps, 64);
PLACE(firrozun_head, interval, 72);

SIZE(firrozun_planned, 112);
PLACE(firrozun_planned, refusal, 0);
PLACE(firrozun_planned, head, 8);

SIZE(firrozun_trial, 16);
PLACE(firrozun_trial, refusal, 0);
PLACE(firrozun_trial, remainder, 8);

SIZE(firrozun_chain, 16);
PLACE(firrozun_chain, refusal, 0);
PLACE(firrozun_chain, weight, 8);

/* ---- a set */

SIZE(firrozun_member, 32);
PLACE(firrozun_member, strategy, 0);
PLACE(firrozun_member, parity, 1);
PLACE(firrozun_member, basis, 2);
PLACE(firrozun_member, fold, 3);
PLACE(firrozun_member, a, 8);
PLACE(firrozun_member, b, 16);
PLACE(firrozun_member, count, 24);

SIZE(firrozun_members, 520);
PLACE(firrozun_members, count, 0);
PLACE(firrozun_members, members, 8);

SIZE(firrozun_curve_set, 1688);
PLACE(firrozun_curve_set, ct, 0);
PLACE(firrozun_curve_set, pt, 8);
PLACE(firrozun_curve_set, powers, 16);
PLACE(firrozun_curve_set, heads, 24);

SIZE(firrozun_set_planned, 1696);
PLACE(firrozun_set_planned, refusal, 0);
PLACE(firrozun_set_planned, set, 8);
