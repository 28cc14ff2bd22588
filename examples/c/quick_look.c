/*
 * For drivers: a quick look at positions before correlations are fetched for them. The key has n = 5, so that d is 3, the columns are 0 to 4, the
 * spare codes 5 to 7, and every order of the columns solves it. A list that is an order gets its correlations and a proof; of any other the first
 * offender is told, and nothing is fetched. Exit status 0 only where each list was answered as stated beside it.
 *
 * The time of a look tells the index of the offender. A driver that must hide the positions leaves the look out: perk_prove refuses the same lists.
 *
 *   gcc -I../../include quick_look.c ../../crates/perk/out/libperk.a -o quick_look
 *   ./quick_look
 */
#include <stdio.h>
#include "perk.h"

enum { N = 5, M = 1 };

/* lists as they come to the driver, with what it answers and the index of the offender, N where none is told; the last is the others corrected */
static const struct {
    uint8_t positions[N];
    size_t count;
    uint32_t result;
    size_t index;
} lists[] = {
    {{2, 0, 1, 4, 3}, 5, PERK_DONE, N},
    {{4, 0, 2, 0, 3}, 5, PERK_OFFENDER, 3},  /* 0 came before */
    {{4, 0, 6, 0, 3}, 5, PERK_OFFENDER, 2},  /* 6 is a spare code; the second 0 comes later */
    {{4, 0, 2, 1, 8}, 5, PERK_OFFENDER, 4},  /* 8 is too large */
    {{4, 0, 2, 1}, 4, PERK_SLICE_LENGTH, N}, /* one is missing */
    {{4, 0, 2, 1, 3}, 5, PERK_DONE, N},
};

/* fetches correlations and makes a proof for an order; here the mask bits, the offsets, the masks and the weights are all zero */
static uint32_t fetch_and_prove(const uint8_t *positions) {
    /* entries 0 and 1 of x' have the sum zero, since x is all one; there is no target */
    static const uint16_t h[PERK_H_WORDS(N, M)] = {1, 1}, x[PERK_X_WORDS(N)] = {1, 1, 1, 1, 1}, y[PERK_Y_WORDS(M)];
    static const uint8_t u[PERK_U_BYTES(N)];
    static const uint16_t v[PERK_V_WORDS(N)], r[PERK_R_WORDS(N)], s[PERK_S_WORDS(N)], alpha[PERK_ALPHA_WORDS(N, M)];
    static uint8_t t[PERK_T_BYTES(N)];
    static uint16_t a[PERK_A_WORDS(N)];
    return perk_prove(N, M, h, PERK_H_WORDS(N, M), x, PERK_X_WORDS(N), y, PERK_Y_WORDS(M), positions, PERK_POSITIONS_BYTES(N), u,
                      PERK_U_BYTES(N), v, PERK_V_WORDS(N), r, PERK_R_WORDS(N), s, PERK_S_WORDS(N), alpha, PERK_ALPHA_WORDS(N, M), t,
                      PERK_T_BYTES(N), a, PERK_A_WORDS(N));
}

/* looks at a list, and goes on with one that is an order: the last result, with index where it is an offender */
static uint32_t drive(const uint8_t *positions, size_t count, size_t *index) {
    for (size_t i = 0; i < count; i++) printf("%u ", (unsigned)positions[i]);
    uint32_t result = perk_quick_look(N, positions, count, index);
    if (result == PERK_OFFENDER) {
        unsigned offender = positions[*index];
        printf("- position %lu is %u, which %s\n", (unsigned long)*index, offender, offender < N ? "came before" : "is no column");
        return result;
    }
    printf(result == PERK_DONE ? "- all is well, " : "- ");
    if (result == PERK_DONE) result = fetch_and_prove(positions);
    if (result == PERK_DONE)
        printf("proved\n");
    else
        printf("refused %u: %s\n", (unsigned)result, perk_refusal_text(result));
    return result;
}

int main(void) {
    int failed = 0;
    for (size_t i = 0; i < sizeof lists / sizeof *lists; i++) {
        size_t index = N;
        if (drive(lists[i].positions, lists[i].count, &index) != lists[i].result || index != lists[i].index) failed = 1;
    }
    return failed;
}
