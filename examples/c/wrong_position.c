/*
 * For card makers: what a card hears of one position. The key has n = 50, so that d is 6 and the positions 50 to 63 are spare codes,
 * and every order of its columns solves it. The order is 0 to 49 with one position changed.
 *
 *   gcc -I../../include wrong_position.c ../../crates/perk/out/libperk.a -o wrong_position
 *   ./wrong_position 7 7      (done)           ./wrong_position 7 53     (refused 16: no column)
 *   ./wrong_position 7 8      (refused 8)      ./wrong_position 7 64     (refused 7: too large)
 */
#include <stdio.h>
#include <stdlib.h>
#include "perk.h"

enum { N = 50, M = 1 };

int main(int argc, char **argv) {
    /* entries 0 and 1 of x' have the sum zero, since x is all one; there is no target */
    static const uint16_t h[PERK_H_WORDS(N, M)] = {1, 1}, y[PERK_Y_WORDS(M)] = {0};
    static uint16_t x[PERK_X_WORDS(N)];
    /* secrets of the card; here the mask bits, the offsets and the masks are all zero */
    static uint8_t positions[PERK_POSITIONS_BYTES(N)], u[PERK_U_BYTES(N)];
    static uint16_t v[PERK_V_WORDS(N)], r[PERK_R_WORDS(N)], s[PERK_S_WORDS(N)];
    static uint16_t alpha[PERK_ALPHA_WORDS(N, M)];
    static uint8_t t[PERK_T_BYTES(N)];
    static uint16_t a[PERK_A_WORDS(N)];

    unsigned long index = argc == 3 ? strtoul(argv[1], NULL, 10) : N, position = argc == 3 ? strtoul(argv[2], NULL, 10) : 0;
    if (index >= N || position > UINT8_MAX) {
        fprintf(stderr, "usage: wrong_position INDEX POSITION\n");
        return 2;
    }
    for (size_t i = 0; i < N; i++) {
        x[i] = 1;
        positions[i] = (uint8_t)i;
    }
    positions[index] = (uint8_t)position;

    uint32_t result = perk_prove(N, M, h, PERK_H_WORDS(N, M), x, PERK_X_WORDS(N), y, PERK_Y_WORDS(M), positions,
                                 PERK_POSITIONS_BYTES(N), u, PERK_U_BYTES(N), v, PERK_V_WORDS(N), r, PERK_R_WORDS(N), s, PERK_S_WORDS(N), alpha,
                                 PERK_ALPHA_WORDS(N, M), t, PERK_T_BYTES(N), a, PERK_A_WORDS(N));
    switch (result) {
    case PERK_DONE: printf("done\n"); break;
    case PERK_SPARE_CODE: printf("position %lu is no column, which are 0 to %d\n", position, N - 1); break;
    default: printf("refused %u: %s\n", (unsigned)result, perk_refusal_text(result));
    }
    return result == PERK_DONE ? 0 : 1;
}
