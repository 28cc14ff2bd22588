/*
 * For records rooms: opens the package on standard input and prints n, m, the serial and each field's content, or says why
 * the package is turned down.
 *
 *   gcc -I../../include open_package.c ../../crates/perk/out/libperk.a -o open_package
 *   head -c 56 ../../vectors/key_a.check | ./open_package
 */
#include <stdio.h>
#include "perk.h"

int main(void) {
    static const struct {
        uint8_t tag;
        const char *name;
    } fields[] = {{PERK_TAG_SIZES, "sizes"}, {PERK_TAG_H, "H"}, {PERK_TAG_X, "x"}, {PERK_TAG_Y, "y"}, {PERK_TAG_SERIAL, "serial"}, {PERK_TAG_T, "t"}, {PERK_TAG_A, "a"}};
    /* one byte more than the largest, so that a longer input is turned down */
    static uint8_t bytes[PERK_LARGEST_PACKAGE_BYTES + 1];
    size_t len = fread(bytes, 1, sizeof bytes, stdin);
    uint32_t n, m, serial, result = perk_read_package(bytes, len, &n, &m, &serial);
    if (result != PERK_DONE) {
        printf("refused %u: %s\n", (unsigned)result, perk_refusal_text(result));
        return 1;
    }
    /* the serial is a number of 32 bits; its field has two bytes or four */
    printf("n %u m %u serial %lu\n", (unsigned)n, (unsigned)m, (unsigned long)serial);
    for (size_t i = 0; i < sizeof fields / sizeof *fields; i++) {
        size_t start, length = perk_field(bytes, len, fields[i].tag, &start);
        /* y is absent where it is all zero; no other field is */
        if (length == 0) continue;
        printf("%s:", fields[i].name);
        for (size_t k = 0; k < length; k++) printf(" %02x", (unsigned)bytes[start + k]);
        printf("\n");
    }
    return 0;
}
