/*
 * For card makers and records rooms: proves key A of docs/specification.md, or the same key with a target, writes the package with the serial
 * that is given, and reads it back field by field. Then the output that is lent is one byte too short.
 *
 *   gcc -I../../include write_package.c ../../crates/perk/out/libperk.a -o write_package
 *   ./write_package 7            (key A: 56 bytes)
 *   ./write_package 65536 5      (the target 5, so that there is a field 04, and a serial of four bytes: 63 bytes)
 */
#include <stdio.h>
#include <stdlib.h>
#include "perk.h"

enum { N = 2, M = 1 };

/* the key; y stays zero where no target is given */
static const uint16_t h[PERK_H_WORDS(N, M)] = {2, 1}, x[PERK_X_WORDS(N)] = {1, 2};
static uint16_t y[PERK_Y_WORDS(M)];
/* the masked witness and the proof */
static uint8_t t[PERK_T_BYTES(N)];
static uint16_t a[PERK_A_WORDS(N)];

/* stops the program where a call is not done */
static void done(const char *what, uint32_t result) {
    if (result == PERK_DONE) return;
    printf("%s: refused %u: %s\n", what, (unsigned)result, perk_refusal_text(result));
    exit(1);
}

/* the card: the order 0 1 solves key A, and 1 0 solves it with the target 5; other targets have no order */
static uint32_t prove(void) {
    const uint8_t positions[PERK_POSITIONS_BYTES(N)] = {y[0] != 0, y[0] == 0}, u[PERK_U_BYTES(N)] = {1, 0};
    const uint16_t v[PERK_V_WORDS(N)] = {[0] = 1, [12] = 4}, alpha[PERK_ALPHA_WORDS(N, M)] = {[0] = 1, [12] = 2, [24] = 1};
    return perk_prove(N, M, h, PERK_H_WORDS(N, M), x, PERK_X_WORDS(N), y, PERK_Y_WORDS(M), positions, PERK_POSITIONS_BYTES(N), u,
                      PERK_U_BYTES(N), v, PERK_V_WORDS(N), NULL, PERK_R_WORDS(N), NULL, PERK_S_WORDS(N), alpha, PERK_ALPHA_WORDS(N, M), t,
                      PERK_T_BYTES(N), a, PERK_A_WORDS(N));
}

static uint32_t write_to(uint8_t *out, size_t out_len, uint32_t serial, size_t *length) {
    return perk_write_package(N, M, h, PERK_H_WORDS(N, M), x, PERK_X_WORDS(N), y, PERK_Y_WORDS(M), serial, t, PERK_T_BYTES(N), a,
                              PERK_A_WORDS(N), out, out_len, length);
}

/* what a records room finds in the package */
static void read_back(const uint8_t *package, size_t len) {
    static const struct {
        uint8_t tag;
        const char *name;
    } fields[] = {{PERK_TAG_SIZES, "sizes"}, {PERK_TAG_H, "H"}, {PERK_TAG_X, "x"}, {PERK_TAG_Y, "y"}, {PERK_TAG_SERIAL, "serial"}, {PERK_TAG_T, "t"}, {PERK_TAG_A, "a"}};
    uint32_t n, m, serial;
    done("read package", perk_read_package(package, len, &n, &m, &serial));
    printf("n %u m %u serial %lu\n", (unsigned)n, (unsigned)m, (unsigned long)serial);
    for (size_t i = 0; i < sizeof fields / sizeof *fields; i++) {
        size_t start, length = perk_field(package, len, fields[i].tag, &start);
        /* y is left out where it is all zero */
        if (length == 0) continue;
        printf("%s:", fields[i].name);
        for (size_t k = 0; k < length; k++) printf(" %02x", (unsigned)package[start + k]);
        printf("\n");
    }
}

/* whether a text is a number, and not above the most */
static int number(const char *text, unsigned long most, unsigned long *value) {
    char *end;
    *value = strtoul(text, &end, 10);
    return end != text && *end == '\0' && *value <= most;
}

int main(int argc, char **argv) {
    /* room for every package; this one needs PERK_PACKAGE_BYTES(N, M, target != 0, serial) bytes */
    static uint8_t package[PERK_LARGEST_PACKAGE_BYTES];
    unsigned long serial = 0, target = 0;
    if (argc < 2 || argc > 3 || !number(argv[1], UINT32_MAX, &serial) || (argc == 3 && !number(argv[2], UINT16_MAX, &target))) {
        fprintf(stderr, "usage: write_package SERIAL [TARGET]\n");
        return 2;
    }
    y[0] = (uint16_t)target;

    size_t length;
    done("prove", prove());
    done("write package", write_to(package, sizeof package, (uint32_t)serial, &length));
    printf("a package of %lu bytes\n", (unsigned long)length);
    read_back(package, length);

    /* too short by one byte: the output and the length stay as they are */
    uint32_t result = write_to(package, length - 1, (uint32_t)serial, &length);
    printf("into %lu bytes: refused %u: %s\n", (unsigned long)(length - 1), (unsigned)result, perk_refusal_text(result));
    return result == PERK_SHORT_OUTPUT ? 0 : 1;
}
