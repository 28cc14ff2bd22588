/*
 * Calls perk_constraints or perk_prove with secret slices marked as undefined for valgrind's memcheck, which then reports each
 * jump and each address that depends on them. The key, the positions and the other numbers are made from a fixed seed; the
 * positions solve the key, so that no refusal applies unless a fault is asked for. Prints the result, or 254 where a refusal has
 * left something else in an output than before.
 *
 * usage: secrets ENTRY N M SLICE CASE
 *   ENTRY  constraints or prove
 *   SLICE  positions, u, v, r or s: the one that is marked; or all
 *   CASE   plain; fault: the last element of the slice is too large; order: one position is there twice, so that the positions do not
 *          solve the key; spare: one position is n, below 2^d; bit: the last byte of u is 2, and the first position n or, where no
 *          code is spare, 255; leaning: the last row of H is zero, and a bit, an offset and a position are too large;
 *          jump or index: before the call, a jump or an address that depends on the first byte of the slice
 */
#include <stdint.h>
#include <stdio.h>
#include <stdlib.h>
#include <string.h>
#include <valgrind/memcheck.h>
#include "perk.h"

enum { N = 64, D = 6, W = 12 };

/* the key, as both functions take it */
#define KEY n, m, h, m * n, x, n, y, m

static uint16_t h[(N - 1) * N], x[N], y[N - 1], v[W * N * D], r[W * D], s[W * D], alpha[W * 2 * N];
static uint16_t a[W * D], polynomials[W * 2 * N * (D + 1)];
static uint8_t positions[N], u[N * D], t[N * D];
static uint32_t state = 2463534242u;
static volatile unsigned sink;
static const uint8_t table[256] = {1};

static unsigned below(unsigned limit) {
    state ^= state << 13;
    state ^= state >> 17;
    state ^= state << 5;
    return state % limit;
}

static void fill(uint16_t *words, size_t count) {
    for (size_t i = 0; i < count; i++) words[i] = (uint16_t)below(2048);
}

/*
 * x is all one and y(e) the sum of row e of H, zero where e is odd: every order solves the key. Row e has no entry but zero before column
 * e, and one that is not zero there, so no row is a sum of multiples of the others; e is below n - 1.
 */
static void make_key(size_t n, size_t m) {
    for (size_t e = 0; e < m; e++) {
        uint16_t *row = h + e * n, sum;
        row[e] = sum = (uint16_t)(1 + below(2047));
        fill(row + e + 1, n - e - 2);
        for (size_t i = e + 1; i + 1 < n; i++) sum ^= row[i];
        y[e] = (uint16_t)(e % 2 == 0 ? 1 + below(2047) : 0);
        row[n - 1] = sum ^ y[e];
    }
    for (size_t i = 0; i < n; i++) x[i] = 1;
}

static void make_order(size_t n) {
    for (size_t i = 0; i < n; i++) positions[i] = (uint8_t)i;
    for (size_t i = n - 1; i > 0; i--) {
        size_t j = below((unsigned)i + 1);
        uint8_t other = positions[i];
        positions[i] = positions[j];
        positions[j] = other;
    }
}

/* whether all bytes are zero, as they are before a call */
static int untouched(const void *output, size_t size) {
    const uint8_t *bytes = output;
    for (size_t i = 0; i < size; i++)
        if (bytes[i]) return 0;
    return 1;
}

int main(int argc, char **argv) {
    if (argc != 6) return 2;
    const char *entry = argv[1], *slice = argv[4], *kind = argv[5];
    size_t n = (size_t)atoi(argv[2]), m = (size_t)atoi(argv[3]), d = 0;
    if (n < 2 || n > N || m < 1 || m >= n) return 2;
    while (((n - 1) >> d) != 0) d++;
    size_t bits = n * d, masks = W * (d - 1), weights = W * (n + m);
    make_key(n, m);
    make_order(n);
    for (size_t i = 0; i < bits; i++) u[i] = (uint8_t)below(2);
    fill(v, W * bits);
    fill(r, masks);
    fill(s, masks);
    fill(alpha, weights);

    if (strcmp(kind, "order") == 0) positions[0] = positions[1];
    if (strcmp(kind, "spare") == 0) positions[0] = (uint8_t)n;
    if (strcmp(kind, "bit") == 0) {
        u[bits - 1] = 2;
        positions[0] = (uint8_t)(n >> d == 0 ? n : 255);
    }
    if (strcmp(kind, "leaning") == 0) {
        memset(h + (m - 1) * n, 0, n * sizeof *h);
        u[bits - 1] = 2;
        v[W * bits - 1] = 2048;
        positions[0] = 255;
    }
    struct { const char *name; uint8_t *start; size_t size; } secrets[] = {{"positions", positions, n},
                                                                           {"u", u, bits},
                                                                           {"v", (uint8_t *)v, 2 * W * bits},
                                                                           {"r", (uint8_t *)r, 2 * masks},
                                                                           {"s", (uint8_t *)s, 2 * masks}};
    const uint8_t *first = NULL;
    for (size_t i = 0; i < sizeof secrets / sizeof *secrets; i++) {
        if (strcmp(slice, "all") != 0 && strcmp(slice, secrets[i].name) != 0) continue;
        if (secrets[i].size == 0) continue;
        /* the last byte is the high one of a word: 8 makes it at least 2048 */
        if (strcmp(kind, "fault") == 0) secrets[i].start[secrets[i].size - 1] |= i == 0 ? 0x80 : i == 1 ? 0x02 : 0x08;
        VALGRIND_MAKE_MEM_UNDEFINED(secrets[i].start, secrets[i].size);
        first = secrets[i].start;
    }
    if (first == NULL) return 2;
    if (strcmp(kind, "jump") == 0 && *first) sink = sink + 1;
    if (strcmp(kind, "index") == 0) sink = sink + table[*first];

    uint32_t result = 255;
    if (strcmp(entry, "constraints") == 0)
        result = perk_constraints(KEY, positions, n, u, bits, v, W * bits, t, bits, polynomials, W * (n + m) * (d + 1));
    if (strcmp(entry, "prove") == 0)
        result = perk_prove(KEY, positions, n, u, bits, v, W * bits, r, masks, s, masks, alpha, weights, t, bits, a, W * d);
    VALGRIND_MAKE_MEM_DEFINED(&result, sizeof result);
    if (result != 0 && !(untouched(t, sizeof t) && untouched(a, sizeof a) && untouched(polynomials, sizeof polynomials))) result = 254;
    printf("%u\n", (unsigned)result);
    return 0;
}
