/*
 * For records rooms: two offices have packages of one key. The packages of each office are joined to a bundle, and the two bundles to one, which
 * is read back group by group. Joined with one of the two again, it stays as it is. Then the refusals: another proof with a serial that is there
 * already, another key, and an output that is one byte too short. It ends with 1 where something is not as stated.
 *
 *   gcc -I../../include join_bundles.c ../../crates/perk/out/libperk.a -o join_bundles
 *   ./join_bundles
 */
#include <stdio.h>
#include <stdlib.h>
#include <string.h>
#include "perk.h"

enum { N = 2, M = 1, KEPT = 0xA5 };

/* a bundle in memory of its own */
struct bundle {
    uint8_t *bytes;
    size_t len, groups;
};

/* stops the program where something is not as stated */
static void must(int right, const char *what) {
    if (right) return;
    printf("%s: not as stated\n", what);
    exit(1);
}

/* stops the program where a call is not done */
static void done(const char *what, uint32_t result) {
    if (result == PERK_DONE) return;
    printf("%s: refused %u: %s\n", what, (unsigned)result, perk_refusal_text(result));
    exit(1);
}

/* memory for a bundle */
static uint8_t *room(size_t len) {
    uint8_t *bytes = malloc(len);
    if (bytes == NULL) exit(2);
    memset(bytes, KEPT, len);
    return bytes;
}

/* a package, which is a bundle of one group: of key A of docs/specification.md, or of the same key with the target 5, which the order 1 0 solves;
   another offset gives another proof */
static struct bundle package(uint16_t target, uint32_t serial, uint16_t offset) {
    static const uint16_t h[PERK_H_WORDS(N, M)] = {2, 1}, x[PERK_X_WORDS(N)] = {1, 2}, alpha[PERK_ALPHA_WORDS(N, M)] = {[0] = 1, [12] = 2, [24] = 1};
    const uint8_t positions[PERK_POSITIONS_BYTES(N)] = {target != 0, target == 0}, u[PERK_U_BYTES(N)] = {1, 0};
    const uint16_t y[PERK_Y_WORDS(M)] = {target}, v[PERK_V_WORDS(N)] = {[0] = offset, [12] = 4};
    uint8_t t[PERK_T_BYTES(N)];
    uint16_t a[PERK_A_WORDS(N)];
    struct bundle made = {room(PERK_LARGEST_PACKAGE_BYTES), 0, 1};
    done("prove", perk_prove(N, M, h, PERK_H_WORDS(N, M), x, PERK_X_WORDS(N), y, PERK_Y_WORDS(M), positions, PERK_POSITIONS_BYTES(N), u,
                             PERK_U_BYTES(N), v, PERK_V_WORDS(N), NULL, PERK_R_WORDS(N), NULL, PERK_S_WORDS(N), alpha, PERK_ALPHA_WORDS(N, M), t,
                             PERK_T_BYTES(N), a, PERK_A_WORDS(N)));
    done("write package", perk_write_package(N, M, h, PERK_H_WORDS(N, M), x, PERK_X_WORDS(N), y, PERK_Y_WORDS(M), serial, t, PERK_T_BYTES(N), a,
                                             PERK_A_WORDS(N), made.bytes, PERK_LARGEST_PACKAGE_BYTES, &made.len));
    return made;
}

/* the two joined: both lengths together are always room enough */
static struct bundle join(const char *what, struct bundle first, struct bundle second) {
    size_t len = first.len + second.len;
    struct bundle joined = {room(len), 0, 0};
    done(what, perk_join_bundles(first.bytes, first.len, second.bytes, second.len, joined.bytes, len, &joined.len, &joined.groups));
    printf("%s: %lu groups, %lu bytes\n", what, (unsigned long)joined.groups, (unsigned long)joined.len);
    return joined;
}

/* the bundle's groups: each of them, after the key's fields, is a package */
static void read_back(struct bundle bundle, const uint32_t *serials, size_t count) {
    uint8_t one[PERK_PACKAGE_BYTES(N, M, 0, 65536)];
    uint32_t n, m, serial;
    size_t groups, key = PERK_KEY_BYTES(N, M, 0), at = key;
    done("read bundle", perk_read_bundle(bundle.bytes, bundle.len, &n, &m, &groups));
    printf("n %u m %u, %lu groups\n", (unsigned)n, (unsigned)m, (unsigned long)groups);
    must(n == N && m == M && groups == count, "sizes and number of groups");
    memcpy(one, bundle.bytes, key);
    for (size_t i = 0; i < count; i++) {
        size_t len = PERK_GROUP_BYTES(N, serials[i]);
        must(len <= bundle.len - at, "length of a group");
        memcpy(one + key, bundle.bytes + at, len);
        done("read package", perk_read_package(one, key + len, &n, &m, &serial));
        printf("serial %lu: a package of %lu bytes\n", (unsigned long)serial, (unsigned long)(key + len));
        must(serial == serials[i], "order of serials");
        at += len;
    }
    must(at == bundle.len, "length of the bundle");
}

/* the two are refused with this number, and the output, of this length, and both numbers stay as they are */
static void refused(const char *what, struct bundle first, struct bundle second, size_t len, uint32_t stated) {
    size_t length = 1, groups = 2, kept = 0;
    uint8_t *out = room(len);
    uint32_t result = perk_join_bundles(first.bytes, first.len, second.bytes, second.len, out, len, &length, &groups);
    printf("%s: refused %u: %s\n", what, (unsigned)result, perk_refusal_text(result));
    while (kept < len && out[kept] == KEPT) kept++;
    must(result == stated && length == 1 && groups == 2 && kept == len, what);
    free(out);
}

int main(void) {
    static const uint32_t serials[] = {7, 8, 65536};
    struct bundle shared = package(0, 65536, 1), seven = package(0, 7, 1), eight = package(0, 8, 1);
    struct bundle first = join("the first office", seven, shared), second = join("the second office", shared, eight);
    struct bundle both = join("both offices", first, second), again = join("with the second again", both, second);
    must(both.groups == 3 && both.len == first.len + PERK_GROUP_BYTES(N, 8), "groups of both offices");
    must(again.groups == 3 && again.len == both.len && memcmp(again.bytes, both.bytes, both.len) == 0, "joined with the second again");
    read_back(both, serials, 3);

    struct bundle other_proof = package(0, 8, 2), other_key = package(5, 9, 1);
    refused("another proof with the serial 8", both, other_proof, both.len + other_proof.len, PERK_GROUPS_DIFFER);
    refused("another key", both, other_key, both.len + other_key.len, PERK_OTHER_KEY);
    refused("one byte too short", first, second, both.len - 1, PERK_SHORT_OUTPUT);

    struct bundle made[] = {shared, seven, eight, first, second, both, again, other_proof, other_key};
    for (size_t i = 0; i < sizeof made / sizeof *made; i++) free(made[i].bytes);
    return 0;
}
