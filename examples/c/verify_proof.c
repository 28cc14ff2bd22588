/*
 * For checking offices: verifies the proof of the package on standard input for key A of docs/specification.md, with the
 * office's own share of the correlations. Exit status 0 only where the proof is accepted.
 *
 *   gcc -I../../include verify_proof.c ../../crates/perk/out/libperk.a -o verify_proof
 *   head -c 56 ../../vectors/key_a.check | ./verify_proof
 */
#include <stdio.h>
#include <string.h>
#include "perk.h"

enum { N = 2, M = 1 };

static uint8_t package[PERK_LARGEST_PACKAGE_BYTES + 1];
static size_t package_len;

/* the content of a field as numbers of two bytes; its length is that of the table in perk.h, since the reader took the package */
static void words(uint8_t tag, uint16_t *out) {
    size_t start, length = perk_field(package, package_len, tag, &start);
    for (size_t i = 0; i < length / 2; i++) out[i] = (uint16_t)(package[start + 2 * i] << 8 | package[start + 2 * i + 1]);
}

int main(void) {
    /* what the office has itself: the signer's key, and its side (q, delta) of the correlations and the weights; d is 1, so
     * there are no mask numbers */
    const uint16_t h[PERK_H_WORDS(N, M)] = {2, 1}, x[PERK_X_WORDS(N)] = {1, 2}, y[PERK_Y_WORDS(M)] = {0};
    const uint16_t q[PERK_Q_WORDS(N)] = {[0] = 3, [12] = 4}, delta[PERK_DELTA_WORDS] = {2};
    const uint16_t alpha[PERK_ALPHA_WORDS(N, M)] = {[0] = 1, [12] = 2, [24] = 1};

    package_len = fread(package, 1, sizeof package, stdin);
    uint32_t n, m, serial, result = perk_read_package(package, package_len, &n, &m, &serial);
    if (result != PERK_DONE) {
        printf("refused %u: %s\n", (unsigned)result, perk_refusal_text(result));
        return 2;
    }

    /* a proof for another key says nothing of this signer */
    uint16_t package_h[PERK_H_WORDS(N, M)], package_x[PERK_X_WORDS(N)], a[PERK_A_WORDS(N)];
    /* zero where the package has no field y */
    uint16_t package_y[PERK_Y_WORDS(M)] = {0};
    if (n != N || m != M) {
        puts("another key");
        return 2;
    }
    words(PERK_TAG_H, package_h);
    words(PERK_TAG_X, package_x);
    words(PERK_TAG_Y, package_y);
    if (memcmp(package_h, h, sizeof h) != 0 || memcmp(package_x, x, sizeof x) != 0 || memcmp(package_y, y, sizeof y) != 0) {
        puts("another key");
        return 2;
    }

    size_t start, t_len = perk_field(package, package_len, PERK_TAG_T, &start);
    words(PERK_TAG_A, a);
    result = perk_verify(N, M, h, PERK_H_WORDS(N, M), x, PERK_X_WORDS(N), y, PERK_Y_WORDS(M), package + start, t_len, q, PERK_Q_WORDS(N),
                         delta, PERK_DELTA_WORDS, NULL, PERK_MASKS_WORDS(N), alpha, PERK_ALPHA_WORDS(N, M), a, PERK_A_WORDS(N));
    if (result == PERK_ACCEPTED) {
        printf("serial %lu accepted\n", (unsigned long)serial);
        return 0;
    }
    if (result == PERK_REJECTED)
        printf("serial %lu rejected\n", (unsigned long)serial);
    else
        printf("refused %u: %s\n", (unsigned)result, perk_refusal_text(result));
    return 1;
}
