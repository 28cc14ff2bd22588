/*
 * The stack that each function of perk.h takes at the largest sizes, by painting a thread's stack before the call: prints it, and
 * fails where it is above what perk.h states. Files are taken with y and a serial of four bytes, then with one of two, and without y;
 * bundles have the key of the file and many groups.
 *
 * usage: stack CHECK_FILE    (an accepted check file with n = 64, m = 63, y and a serial of four bytes)
 */
#include <pthread.h>
#include <stdio.h>
#include <stdlib.h>
#include <string.h>
#include "perk.h"

enum { N = 64, M = 63, D = 6, W = 12, SIZE = 1 << 20, PAINT = 0xA5, GROUPS = 100 };

static uint16_t h[M * N], x[N], y[M], v[W * N * D], r[W * (D - 1)], s[W * (D - 1)], alpha[W * (N + M)], a[W * D], q[W * N * D];
static uint16_t matrix[M * N], delta[W], masks[W * (D - 1)], polynomials[W * (N + M) * (D + 1)], values[W * (N + M)], out[W];
/* a y that is not all zero, so that a package has a field of it */
static uint16_t target[M] = {1};
static uint8_t positions[N], u[N * D], t[N * D], package[PERK_LARGEST_PACKAGE_BYTES], file[32768];
static size_t file_len, package_len;
/* bundles whose serials are even and odd, and what they are joined to */
static uint8_t even[PERK_KEY_BYTES(N, M, 1) + GROUPS * PERK_GROUP_BYTES(N, 65536)], odd[sizeof even], joined[2 * sizeof even];
static size_t bundle_len;

/* the key, as every function with a key takes it */
#define KEY N, M, h, M * N, x, N, y, M

static uint32_t nothing(void) { return 0; }
static uint32_t sum(void) { return perk_sum(delta, W, delta, W, out, W); }
static uint32_t product(void) { return perk_product(delta, W, delta, W, out, W); }
static uint32_t rank(void) {
    size_t number;
    return perk_rank(N, M, h, M * N, matrix, M * N, &number);
}
static uint32_t quick_look(void) {
    size_t index;
    return perk_quick_look(N, positions, N, &index);
}
static uint32_t constraints(void) {
    return perk_constraints(KEY, positions, N, u, N * D, v, W * N * D, t, N * D, polynomials, W * (N + M) * (D + 1));
}
static uint32_t value(void) {
    return perk_values(KEY, t, N * D, q, W * N * D, delta, W, values, W * (N + M));
}
static uint32_t prove(void) {
    return perk_prove(KEY, positions, N, u, N * D, v, W * N * D, r, W * (D - 1), s, W * (D - 1), alpha, W * (N + M), t, N * D, a, W * D);
}
static uint32_t verify(void) {
    return perk_verify(KEY, t, N * D, q, W * N * D, delta, W, masks, W * (D - 1), alpha, W * (N + M), a, W * D);
}
static uint32_t write_package(void) {
    size_t length;
    return perk_write_package(N, M, h, M * N, x, N, target, M, UINT32_MAX, t, N * D, a, W * D, package, sizeof package, &length);
}
static uint32_t read_package(void) {
    uint32_t n, m, serial;
    return perk_read_package(file, package_len, &n, &m, &serial);
}
static uint32_t read_check_file(void) {
    uint32_t n, m, serial;
    return perk_read_check_file(file, file_len, &n, &m, &serial);
}
static uint32_t field(void) {
    size_t start;
    return perk_field(file, package_len, 7, &start) == 0;
}
static uint32_t check(void) { return perk_check(file, file_len); }
static uint32_t read_bundle(void) {
    uint32_t n, m;
    size_t groups;
    return perk_read_bundle(even, bundle_len, &n, &m, &groups);
}
static uint32_t join_bundles(void) {
    size_t length, groups;
    return perk_join_bundles(even, bundle_len, odd, bundle_len, joined, sizeof joined, &length, &groups);
}
static uint32_t look_before_join(void) {
    size_t length, groups;
    return perk_look_before_join(even, bundle_len, odd, bundle_len, SIZE_MAX, &length, &groups);
}

static uint32_t (*function)(void);
static uint32_t result;

static void *run(void *unused) {
    result = function();
    return unused;
}

/* the bytes of a painted stack that a call has changed */
static size_t used(uint32_t (*f)(void)) {
    unsigned char *stack;
    pthread_attr_t attributes;
    pthread_t thread;
    function = f;
    if (posix_memalign((void **)&stack, 4096, SIZE) != 0) exit(2);
    memset(stack, PAINT, SIZE);
    if (pthread_attr_init(&attributes) != 0 || pthread_attr_setstack(&attributes, stack, SIZE) != 0 ||
        pthread_create(&thread, &attributes, run, NULL) != 0 || pthread_join(thread, NULL) != 0)
        exit(2);
    size_t free_bytes = 0;
    while (free_bytes < SIZE && stack[free_bytes] == PAINT) free_bytes++;
    free(stack);
    return SIZE - free_bytes;
}

/* where the field with a tag starts in the file; its length where there is none */
static size_t head_of(uint8_t tag) {
    size_t at = 0;
    while (at + 3 < file_len && file[at] != tag) at += 3 + 256 * (size_t)file[at + 1] + file[at + 2];
    return at + 3 < file_len ? at : file_len;
}

/* takes bytes from the file */
static void take(size_t at, size_t count) {
    memmove(file + at, file + at + count, file_len - at - count);
    file_len -= count;
}

/* takes two bytes from the serial */
static void shorten_serial(void) {
    size_t at = head_of(PERK_TAG_SERIAL);
    if (at == file_len || file[at + 2] != 4) exit(2);
    file[at + 2] = 2;
    take(at + 3, 2);
}

/* takes the field y, so that the file is rejected */
static void remove_y(void) {
    size_t at = head_of(PERK_TAG_Y);
    if (at == file_len) exit(2);
    take(at, 3 + 2 * M);
}

/* makes a bundle of the package in the file: its key, and its group with every second serial from this one on; the length */
static size_t bundle(uint8_t *to, uint8_t first) {
    size_t key_len = head_of(PERK_TAG_SERIAL), group_len = package_len - key_len, at = key_len;
    /* the place in a group of the serial's last byte, which alone is changed */
    size_t last = 2 + (size_t)file[key_len + 2];
    memcpy(to, file, key_len);
    for (size_t i = 0; i < GROUPS; i++, at += group_len) {
        memcpy(to + at, file + key_len, group_len);
        to[at + last] = (uint8_t)(first + 2 * i);
    }
    return at;
}

/* H has unit rows, x and y are zero, so that every order solves the key; the other numbers are any within the limit, and a and the masks
   are zero */
static void fill(void) {
    for (int e = 0; e < M; e++) h[e * N + e] = 1;
    for (int i = 0; i < N; i++) positions[i] = (uint8_t)i;
    for (int i = 0; i < W * N * D; i++) v[i] = q[i] = (uint16_t)(i * 37 % 2048);
    for (int i = 0; i < W * (N + M); i++) alpha[i] = (uint16_t)(i % 2048);
}

/* makes the file shorter, but for the first time, and the package and the bundles of it */
static void prepare(int shorter) {
    if (shorter == 1) shorten_serial();
    if (shorter == 2) remove_y();
    /* the package ends where the field with the tag of q starts */
    package_len = head_of(PERK_TAG_Q);
    bundle_len = bundle(even, 0);
    if (bundle(odd, 1) != bundle_len) exit(2);
}

int main(int argc, char **argv) {
    /* the first of the functions that take a file */
    enum { FILES = 9 };
    static const struct {
        const char *name;
        uint32_t (*call)(void);
        size_t most;
    } calls[] = {{"perk_sum", sum, 2048},
                 {"perk_product", product, 2048},
                 {"perk_rank", rank, 6 * 1024},
                 {"perk_quick_look", quick_look, 256},
                 {"perk_constraints", constraints, 20 * 1024},
                 {"perk_values", value, 14 * 1024},
                 {"perk_prove", prove, 24 * 1024},
                 {"perk_verify", verify, 20 * 1024},
                 {"perk_write_package", write_package, 12 * 1024},
                 {"perk_read_package", read_package, 12 * 1024},
                 {"perk_read_check_file", read_check_file, 12 * 1024},
                 {"perk_field", field, 12 * 1024},
                 {"perk_check", check, 40 * 1024},
                 {"perk_read_bundle", read_bundle, 12 * 1024},
                 {"perk_join_bundles", join_bundles, 12 * 1024},
                 {"perk_look_before_join", look_before_join, 12 * 1024}};
    FILE *input = argc == 2 ? fopen(argv[1], "rb") : NULL;
    if (input == NULL) return 2;
    file_len = fread(file, 1, sizeof file, input);
    fclose(input);
    fill();
    int failed = 0;
    size_t base = used(nothing);
    for (int shorter = 0; shorter < 3; shorter++) {
        prepare(shorter);
        for (size_t i = shorter ? FILES : 0; i < sizeof calls / sizeof *calls; i++) {
            size_t bytes = used(calls[i].call) - base;
            printf("%s: %lu bytes of stack, stated: under %lu\n", calls[i].name, (unsigned long)bytes, (unsigned long)calls[i].most);
            if (bytes >= calls[i].most || (result != 0 && result != 255)) failed = 1;
        }
    }
    return failed;
}
