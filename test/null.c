/* NULL with length 0, in every slice of every function: a slice of length 0, which is refused where another length is stated. */
#include <stdio.h>
#include "perk.h"

/* a slice of length 0, and a key of such slices */
#define NONE NULL, 0
#define KEY n, 1, NONE, NONE, NONE

static int failed;

static void expect(const char *call, uint32_t result, uint32_t stated) {
    if (result == stated) return;
    printf("%s: %u, not %u\n", call, (unsigned)result, (unsigned)stated);
    failed = 1;
}

int main(void) {
    expect("sum", perk_sum(NONE, NONE, NONE), 3);
    expect("product", perk_product(NONE, NONE, NONE), 3);
    for (size_t n = 0; n < 4; n++) {
        uint32_t stated = n < 2 ? 1 : 3;
        size_t rank = 5;
        expect("rank", perk_rank(n, 1, NONE, NONE, &rank), stated);
        expect("the rank kept", rank == 5, 1);
        size_t index = 5;
        expect("quick look", perk_quick_look(n, NONE, &index), stated);
        expect("the index kept", index == 5, 1);
        expect("constraints", perk_constraints(KEY, NONE, NONE, NONE, NONE, NONE), stated);
        expect("values", perk_values(KEY, NONE, NONE, NONE, NONE), stated);
        expect("prove", perk_prove(KEY, NONE, NONE, NONE, NONE, NONE, NONE, NONE, NONE), stated);
        expect("verify", perk_verify(KEY, NONE, NONE, NONE, NONE, NONE, NONE), stated);
        size_t length = 5;
        expect("write package", perk_write_package(KEY, 7, NONE, NONE, NONE, &length), stated);
        expect("the length kept", length == 5, 1);
    }
    uint32_t kept[3] = {7, 8, 9};
    size_t start = 5;
    expect("read package", perk_read_package(NONE, &kept[0], &kept[1], &kept[2]), 9);
    expect("read check file", perk_read_check_file(NONE, &kept[0], &kept[1], &kept[2]), 9);
    expect("n, m and serial kept", kept[0] == 7 && kept[1] == 8 && kept[2] == 9, 1);
    expect("field", (uint32_t)perk_field(NONE, 2, &start), 0);
    expect("its start", (uint32_t)start, 0);
    expect("check", perk_check(NONE), 9);
    size_t groups = 6;
    expect("read bundle", perk_read_bundle(NONE, &kept[0], &kept[1], &groups), 9);
    expect("n, m and groups kept", kept[0] == 7 && kept[1] == 8 && groups == 6, 1);
    /* no length is stated for the output of a package: it is too short */
    static const uint16_t row[2] = {1, 0}, zeros[12];
    static const uint8_t bits[2];
    size_t length = 5;
    expect("write package to nothing", perk_write_package(2, 1, row, 2, zeros, 2, zeros, 1, 7, bits, 2, zeros, 12, NONE, &length), 13);
    expect("the length kept", length == 5, 1);
    /* none of the slices of a join has a stated length: no bytes are no bundle, and an output of none is too short */
    uint8_t bundle[PERK_PACKAGE_BYTES(2, 1, 0, 7)];
    expect("write package", perk_write_package(2, 1, row, 2, zeros, 2, zeros, 1, 7, bits, 2, zeros, 12, bundle, sizeof bundle, &length), 0);
    length = 5;
    expect("join nothing", perk_join_bundles(NONE, NONE, NONE, &length, &groups), 9);
    expect("join nothing with a bundle", perk_join_bundles(NONE, bundle, sizeof bundle, NONE, &length, &groups), 9);
    expect("join a bundle with nothing", perk_join_bundles(bundle, sizeof bundle, NONE, NONE, &length, &groups), 9);
    expect("join bundles to nothing", perk_join_bundles(bundle, sizeof bundle, bundle, sizeof bundle, NONE, &length, &groups), 13);
    /* the room of a look is a number, and none of its slices has a stated length */
    expect("look at nothing", perk_look_before_join(NONE, NONE, 0, &length, &groups), 9);
    expect("look at nothing and a bundle", perk_look_before_join(NONE, bundle, sizeof bundle, SIZE_MAX, &length, &groups), 9);
    expect("look at a bundle and nothing", perk_look_before_join(bundle, sizeof bundle, NONE, SIZE_MAX, &length, &groups), 9);
    expect("look with no room", perk_look_before_join(bundle, sizeof bundle, bundle, sizeof bundle, 0, &length, &groups), 13);
    expect("length and groups kept", length == 5 && groups == 6, 1);
    return failed;
}
