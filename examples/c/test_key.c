/*
 * For checking offices: whether the rows of a key lean on each other, before the office takes it. The key has n = 4 and two rows, of
 * which the first is 1024 1 3 7 and the second is given. Prints the cleared form and the rank, and what the library does with such a key.
 * Exit status 0 only where the rows do not lean.
 *
 *   gcc -I../../include test_key.c ../../crates/perk/out/libperk.a -o test_key
 *   ./test_key 0 2 5 1       (rank 2: no row leans)
 *   ./test_key 5 2 6 14      (rank 1: the second row is 2 times the first, since 1024 times 2 is 5; refused 15 from then on)
 */
#include <stdio.h>
#include <stdlib.h>
#include "perk.h"

enum { N = 4, M = 2 };

/* a row of the cleared form; one of zeros leans on rows above it */
static void print_row(int e, const uint16_t *row) {
    int zero = 1;
    printf("row %d:", e);
    for (int i = 0; i < N; i++) {
        printf(" %u", (unsigned)row[i]);
        zero &= row[i] == 0;
    }
    puts(zero ? ", leans on the rows above it" : "");
}

int main(int argc, char **argv) {
    uint16_t h[PERK_H_WORDS(N, M)] = {1024, 1, 3, 7}, matrix[PERK_MATRIX_WORDS(N, M)];
    if (argc != 1 + N) {
        fprintf(stderr, "usage: test_key ENTRY ENTRY ENTRY ENTRY\n");
        return 2;
    }
    for (int i = 0; i < N; i++) {
        unsigned long entry = strtoul(argv[1 + i], NULL, 10);
        h[N + i] = entry < UINT16_MAX ? (uint16_t)entry : UINT16_MAX;
    }

    /* the office's own test: it needs no x and no y, and writes to a matrix as long as H */
    size_t rank;
    uint32_t result = perk_rank(N, M, h, PERK_H_WORDS(N, M), matrix, PERK_MATRIX_WORDS(N, M), &rank);
    if (result != PERK_DONE) {
        printf("rank: refused %u: %s\n", (unsigned)result, perk_refusal_text(result));
        return 2;
    }
    for (int e = 0; e < M; e++) print_row(e, matrix + e * N);
    printf("rank %lu of %d: %s\n", (unsigned long)rank, M,
           rank < M ? "this key asks less of an order than it seems to" : "no row leans on the others");

    /* every function that takes a key makes the same test by itself; here x and y are zero, as are the mask bits and the offsets */
    static const uint16_t x[PERK_X_WORDS(N)], y[PERK_Y_WORDS(M)], v[PERK_V_WORDS(N)];
    static const uint8_t positions[PERK_POSITIONS_BYTES(N)] = {0, 1, 2, 3}, u[PERK_U_BYTES(N)];
    static uint8_t t[PERK_T_BYTES(N)];
    static uint16_t polynomials[PERK_POLYNOMIALS_WORDS(N, M)];
    result = perk_constraints(N, M, h, PERK_H_WORDS(N, M), x, PERK_X_WORDS(N), y, PERK_Y_WORDS(M), positions, PERK_POSITIONS_BYTES(N), u,
                              PERK_U_BYTES(N), v, PERK_V_WORDS(N), t, PERK_T_BYTES(N), polynomials, PERK_POLYNOMIALS_WORDS(N, M));
    if (result == PERK_DONE)
        printf("constraints: done\n");
    else
        printf("constraints: refused %u: %s\n", (unsigned)result, perk_refusal_text(result));
    return result == PERK_DONE ? 0 : 1;
}
