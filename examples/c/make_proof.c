/*
 * For card makers: proves key A of docs/specification.md with the positions given, and writes the package to standard output,
 * with the serial 7 or another one. A card that cannot prove says what was wrong.
 *
 *   gcc -I../../include make_proof.c ../../crates/perk/out/libperk.a -o make_proof
 *   ./make_proof 0 1 > key_a.package         ./make_proof 1 0        (refused 8)
 *   ./make_proof 0 1 65536 > long.package    (a serial of four bytes)
 */
#include <stdio.h>
#include <stdlib.h>
#include "perk.h"

enum { N = 2, M = 1, SERIAL = 7 };

/* room for a serial of four bytes; without a target */
static uint8_t package[PERK_PACKAGE_BYTES(N, M, 0, UINT32_MAX)];

int main(int argc, char **argv) {
    /* the key: H, x and y, which is zero, since this key has no target */
    const uint16_t h[PERK_H_WORDS(N, M)] = {2, 1}, x[PERK_X_WORDS(N)] = {1, 2}, y[PERK_Y_WORDS(M)] = {0};
    /* the card's secrets: the positions, and its side (u, v) of the correlations; d is 1, so there are no masks */
    uint8_t positions[PERK_POSITIONS_BYTES(N)];
    const uint8_t u[PERK_U_BYTES(N)] = {1, 0};
    const uint16_t v[PERK_V_WORDS(N)] = {[0] = 1, [12] = 4};
    /* the weights, which the card's host takes after the commitment to the correlations */
    const uint16_t alpha[PERK_ALPHA_WORDS(N, M)] = {[0] = 1, [12] = 2, [24] = 1};

    char *end = NULL;
    unsigned long serial = argc == 2 + N ? strtoul(argv[1 + N], &end, 10) : SERIAL;
    int number = end == NULL || (end != argv[1 + N] && *end == '\0');
    if (argc < 1 + N || argc > 2 + N || !number || serial > UINT32_MAX) {
        fprintf(stderr, "usage: make_proof POSITION POSITION [SERIAL]\n");
        return 2;
    }
    for (int i = 0; i < N; i++) {
        unsigned long position = strtoul(argv[1 + i], NULL, 10);
        positions[i] = position < 255 ? (uint8_t)position : 255;
    }

    uint8_t t[PERK_T_BYTES(N)];
    uint16_t a[PERK_A_WORDS(N)];
    uint32_t result = perk_prove(N, M, h, PERK_H_WORDS(N, M), x, PERK_X_WORDS(N), y, PERK_Y_WORDS(M), positions,
                                 PERK_POSITIONS_BYTES(N), u, PERK_U_BYTES(N), v, PERK_V_WORDS(N), NULL, PERK_R_WORDS(N), NULL, PERK_S_WORDS(N), alpha, PERK_ALPHA_WORDS(N, M),
                                 t, PERK_T_BYTES(N), a, PERK_A_WORDS(N));
    /* the package has no field of y, which is zero, and two or four bytes of the serial */
    size_t length = 0;
    if (result == PERK_DONE)
        result = perk_write_package(N, M, h, PERK_H_WORDS(N, M), x, PERK_X_WORDS(N), y, PERK_Y_WORDS(M), (uint32_t)serial, t, PERK_T_BYTES(N),
                                    a, PERK_A_WORDS(N), package, sizeof package, &length);
    if (result != PERK_DONE) {
        fprintf(stderr, "refused %u: %s\n", (unsigned)result, perk_refusal_text(result));
        return 1;
    }
    return fwrite(package, 1, length, stdout) == length && fflush(stdout) == 0 ? 0 : 1;
}
