/*
 * A whole run at n = 64 and m = 27, with masks: makes a key with a target that a random order solves, makes honest correlations,
 * proves, writes the package and the check file, checks it, changes a byte, and reads fields back.
 *
 *   gcc -I../../include whole_run.c ../../crates/perk/out/libperk.a -o whole_run
 *   ./whole_run run.check && ../../bin/perkcheck < run.check
 *
 * A host takes its random numbers from the operating system, and the challenge and the weights after the prover's commitment.
 * Here all of them come from a generator with a fixed start, so that the output repeats.
 */
#include <stdio.h>
#include <stdlib.h>
#include <string.h>
#include "perk.h"

enum { N = 64, M = 27, D = PERK_DIGITS(N), W = PERK_ELEMENT_WORDS };

/* above 65535, so that it takes four bytes; a smaller one takes two */
#define SERIAL 3000004711

/* y is not all zero, so that the files have a field of it */
enum { TARGET = 1 };

static uint16_t h[PERK_H_WORDS(N, M)], x[PERK_X_WORDS(N)], y[PERK_Y_WORDS(M)], v[N * D][W], r[D - 1][W], s[D - 1][W], alpha[PERK_ALPHA_WORDS(N, M)];
static uint16_t q[N * D][W], delta[W], masks[D - 1][W], a[PERK_A_WORDS(N)];
static uint8_t positions[N], u[N * D], t[PERK_T_BYTES(N)], file[PERK_CHECK_FILE_BYTES(N, M, TARGET, SERIAL)];
static size_t file_len, package_len;

/* stops the program where a call is not done */
static void done(const char *what, uint32_t result) {
    if (result == PERK_DONE) return;
    printf("%s: refused %u, %s\n", what, (unsigned)result, perk_refusal_text(result));
    exit(1);
}

/* numbers below 2^bits (xorshift; not for secrets) */
static unsigned random_bits(int bits) {
    static uint64_t state = 0x9E3779B97F4A7C15;
    state ^= state << 13;
    state ^= state >> 7;
    state ^= state << 17;
    return (unsigned)(state >> (64 - bits));
}

static void random_words(uint16_t *words, size_t count) {
    for (size_t i = 0; i < count; i++) words[i] = (uint16_t)random_bits(11);
}

/* in F: products of polynomials in z over two elements, with z^11 = z^2 + 1 */
static unsigned product(unsigned b, unsigned c) {
    unsigned sum = 0;
    for (; c != 0; c >>= 1) {
        if (c & 1) sum ^= b;
        b <<= 1;
        if (b & 2048) b ^= 2048 | 5;
    }
    return sum;
}

/* H = (1 | random), row e with a 1 in column e, so that the rows are independent; y = H x' */
static void make_key(void) {
    random_words(x, N);
    for (int i = 0; i < N; i++) positions[i] = (uint8_t)i;
    for (int i = N - 1; i > 0; i--) {
        unsigned j = random_bits(16) % (unsigned)(i + 1);
        uint8_t other = positions[j];
        positions[j] = positions[i];
        positions[i] = other;
    }
    for (int e = 0; e < M; e++) {
        unsigned sum = 0;
        for (int i = 0; i < N; i++) {
            h[e * N + i] = (uint16_t)(i < M ? i == e : random_bits(11));
            sum ^= product(h[e * N + i], x[positions[i]]);
        }
        y[e] = (uint16_t)sum;
    }
}

/* the verifier's numbers: q(i,k) = u(i,k) delta + v(i,k), masks(k) = s(k) delta + r(k) */
static void make_correlations(void) {
    uint16_t element[W];
    for (int i = 0; i < N * D; i++) u[i] = (uint8_t)random_bits(1);
    random_words(v[0], PERK_V_WORDS(N));
    random_words(r[0], PERK_R_WORDS(N));
    random_words(s[0], PERK_S_WORDS(N));
    random_words(delta, W);
    random_words(alpha, PERK_ALPHA_WORDS(N, M));
    for (int i = 0; i < N * D; i++) {
        memcpy(q[i], v[i], sizeof q[i]);
        if (u[i]) done("sum", perk_sum(delta, W, v[i], W, q[i], W));
    }
    for (int k = 0; k < D - 1; k++) {
        done("product", perk_product(s[k], W, delta, W, element, W));
        done("sum", perk_sum(element, W, r[k], W, masks[k], W));
    }
}

static uint32_t prove(void) {
    return perk_prove(N, M, h, PERK_H_WORDS(N, M), x, PERK_X_WORDS(N), y, PERK_Y_WORDS(M), positions, sizeof positions, u, sizeof u,
                      v[0], PERK_V_WORDS(N), r[0], PERK_R_WORDS(N), s[0], PERK_S_WORDS(N), alpha, PERK_ALPHA_WORDS(N, M), t,
                      sizeof t, a, PERK_A_WORDS(N));
}

/* a field of numbers of two bytes */
static void put_words(unsigned tag, const uint16_t *words, size_t count) {
    file[file_len++] = (uint8_t)tag;
    file[file_len++] = (uint8_t)(2 * count >> 8);
    file[file_len++] = (uint8_t)(2 * count & 255);
    for (size_t i = 0; i < count; i++) {
        file[file_len++] = (uint8_t)(words[i] >> 8);
        file[file_len++] = (uint8_t)(words[i] & 255);
    }
}

/* the package, and after it the verifier's fields */
static void make_file(void) {
    done("write package", perk_write_package(N, M, h, PERK_H_WORDS(N, M), x, PERK_X_WORDS(N), y, PERK_Y_WORDS(M), SERIAL, t, sizeof t, a,
                                             PERK_A_WORDS(N), file, sizeof file, &package_len));
    file_len = package_len;
    put_words(PERK_TAG_Q, q[0], PERK_Q_WORDS(N));
    put_words(PERK_TAG_MASKS, masks[0], PERK_MASKS_WORDS(N));
    put_words(PERK_TAG_DELTA, delta, PERK_DELTA_WORDS);
    put_words(PERK_TAG_ALPHA, alpha, PERK_ALPHA_WORDS(N, M));
}

static void check(const char *what) {
    uint32_t result = perk_check(file, file_len);
    if (result == PERK_ACCEPTED)
        printf("%s: accepted\n", what);
    else if (result == PERK_REJECTED)
        printf("%s: rejected\n", what);
    else
        printf("%s: refused %u, %s\n", what, (unsigned)result, perk_refusal_text(result));
}

/* checks the file with one byte changed, and changes it back */
static void tamper(const char *what, size_t at, unsigned change) {
    file[at] ^= (uint8_t)change;
    check(what);
    file[at] ^= (uint8_t)change;
}

int main(int argc, char **argv) {
    if (argc != 2) {
        fprintf(stderr, "usage: whole_run FILE\n");
        return 2;
    }
    make_key();
    make_correlations();
    done("prove", prove());
    make_file();
    check("the check file");

    FILE *output = fopen(argv[1], "wb");
    if (output == NULL || fwrite(file, 1, file_len, output) != file_len || fclose(output) != 0) {
        perror(argv[1]);
        return 1;
    }

    /* the package is the first part of the check file */
    uint32_t n, m, serial;
    size_t start, length;
    done("read check file", perk_read_check_file(file, file_len, &n, &m, &serial));
    printf("n %u m %u serial %lu, %lu bytes, of which %lu are the package\n", (unsigned)n, (unsigned)m, (unsigned long)serial,
           (unsigned long)file_len, (unsigned long)package_len);
    length = perk_field(file, package_len, PERK_TAG_T, &start);
    printf("field 06: %lu bytes, %s\n", (unsigned long)length, memcmp(file + start, t, sizeof t) == 0 ? "those of t" : "others");

    length = perk_field(file, package_len, PERK_TAG_Y, &start);
    printf("field 04: %lu bytes\n", (unsigned long)length);
    tamper("another target", start + length - 1, 1);
    length = perk_field(file, package_len, PERK_TAG_A, &start);
    tamper("one bit of a changed", start + length - 1, 1);
    tamper("a coordinate of a above 2047", start, 8);
    length = perk_field(file, package_len, PERK_TAG_SERIAL, &start);
    printf("field 05: %lu bytes\n", (unsigned long)length);
    tamper("another serial", start + length - 1, 1);
    /* the number would be one that fits two bytes, and such a number has two */
    uint8_t bytes[2] = {file[start], file[start + 1]};
    file[start] = file[start + 1] = 0;
    check("a small serial in four bytes");
    memcpy(file + start, bytes, 2);
    tamper("another tag", 0, 2);

    /* two positions exchanged: another order does not solve the key */
    uint8_t first = positions[0];
    positions[0] = positions[1];
    positions[1] = first;
    uint32_t result = prove();
    printf("another order: refused %u, %s\n", (unsigned)result, perk_refusal_text(result));
    return 0;
}
