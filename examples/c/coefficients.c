/*
 * For hardware people: every coefficient of the constraint polynomials of key A of docs/specification.md, the values at the
 * challenge 2, and the polynomials at 2 worked out by products and sums in K. Coordinate 0 is printed; the others are zero here.
 *
 *   gcc -I../../include coefficients.c ../../crates/perk/out/libperk.a -o coefficients && ./coefficients
 */
#include <stdio.h>
#include <string.h>
#include "perk.h"

enum { N = 2, M = 1, D = PERK_DIGITS(N), W = PERK_ELEMENT_WORDS };

/* result becomes the polynomial with D + 1 coefficients, lowest first, at delta: from the highest coefficient down */
static uint32_t at(uint16_t polynomial[D + 1][W], const uint16_t *delta, uint16_t *result) {
    uint16_t product[W];
    uint32_t refusal = PERK_DONE;
    memcpy(result, polynomial[D], W * sizeof *result);
    for (int k = D - 1; k >= 0 && refusal == PERK_DONE; k--) {
        refusal = perk_product(result, W, delta, W, product, W);
        if (refusal == PERK_DONE) refusal = perk_sum(product, W, polynomial[k], W, result, W);
    }
    return refusal;
}

int main(void) {
    const uint16_t h[PERK_H_WORDS(N, M)] = {2, 1}, x[PERK_X_WORDS(N)] = {1, 2}, y[PERK_Y_WORDS(M)] = {0};
    const uint8_t positions[PERK_POSITIONS_BYTES(N)] = {0, 1}, u[PERK_U_BYTES(N)] = {1, 0};
    const uint16_t v[N * D][W] = {{1}, {4}}, q[N * D][W] = {{3}, {4}}, delta[W] = {2};
    uint8_t t[PERK_T_BYTES(N)];
    uint16_t polynomials[N + M][D + 1][W], values[N + M][W], result[W];

    uint32_t refusal = perk_constraints(N, M, h, PERK_H_WORDS(N, M), x, PERK_X_WORDS(N), y, PERK_Y_WORDS(M), positions,
                                        PERK_POSITIONS_BYTES(N), u, PERK_U_BYTES(N), v[0], PERK_V_WORDS(N), t, PERK_T_BYTES(N), polynomials[0][0],
                                        PERK_POLYNOMIALS_WORDS(N, M));
    if (refusal == PERK_DONE)
        refusal = perk_values(N, M, h, PERK_H_WORDS(N, M), x, PERK_X_WORDS(N), y, PERK_Y_WORDS(M), t, PERK_T_BYTES(N), q[0],
                              PERK_Q_WORDS(N), delta, PERK_DELTA_WORDS, values[0], PERK_VALUES_WORDS(N, M));
    for (int j = 0; j < N + M && refusal == PERK_DONE; j++) {
        refusal = at(polynomials[j], delta, result);
        printf("polynomial %d: %u + %u X, at 2: %u, value: %u\n", j, (unsigned)polynomials[j][0][0], (unsigned)polynomials[j][1][0],
               (unsigned)result[0], (unsigned)values[j][0]);
    }
    if (refusal != PERK_DONE) printf("refused %u: %s\n", (unsigned)refusal, perk_refusal_text(refusal));
    return refusal == PERK_DONE ? 0 : 1;
}
