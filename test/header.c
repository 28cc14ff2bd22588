/*
 * The lengths and names of perk.h are those of the library, at every n: no function finds a slice or a file of another length,
 * and each refusal has its name's number and a text of its own.
 */
#include <stdio.h>
#include <string.h>
#include "perk.h"

enum { N = 64, M = 63 };

/* constant expressions */
static uint16_t h[PERK_H_WORDS(N, M)], matrix[PERK_MATRIX_WORDS(N, M)], x[PERK_X_WORDS(N)], y[PERK_Y_WORDS(M)], v[PERK_V_WORDS(N)], r[PERK_R_WORDS(N)], s[PERK_S_WORDS(N)];
static uint16_t alpha[PERK_ALPHA_WORDS(N, M)], polynomials[PERK_POLYNOMIALS_WORDS(N, M)], a[PERK_A_WORDS(N)], q[PERK_Q_WORDS(N)];
static uint16_t delta[PERK_DELTA_WORDS], masks[PERK_MASKS_WORDS(N)], values[PERK_VALUES_WORDS(N, M)];
static uint8_t positions[PERK_POSITIONS_BYTES(N)], u[PERK_U_BYTES(N)], t[PERK_T_BYTES(N)], bytes[PERK_LARGEST_CHECK_FILE_BYTES + 1];
static uint8_t out[PERK_LARGEST_PACKAGE_BYTES + 2];
/* the masked witness and the proof in the files */
static const uint8_t no_bits[PERK_T_BYTES(N)];
static const uint16_t no_words[PERK_A_WORDS(N)];
/* bundles of up to five groups, what they are joined to, and the output */
enum { BUNDLE = PERK_KEY_BYTES(N, M, 1) + 5 * PERK_GROUP_BYTES(N, 65536) };
static uint8_t first[BUNDLE], second[BUNDLE], both[BUNDLE], joined[BUNDLE + 2];
typedef char largest[PERK_PACKAGE_BYTES(N, M, 1, 65536) == PERK_LARGEST_PACKAGE_BYTES &&
                     PERK_CHECK_FILE_BYTES(N, M, 1, 65536) == sizeof bytes - 1 ? 1 : -1];
typedef char lengths[PERK_SERIAL_BYTES(0) == 2 && PERK_SERIAL_BYTES(65535) == 2 && PERK_SERIAL_BYTES(65536) == 4 &&
                     PERK_SERIAL_BYTES(4294967295) == 4 ? 1 : -1];

static int failed;

static void expect(const char *what, size_t n, size_t m, uint32_t result, uint32_t stated) {
    if (result == stated) return;
    printf("%s at n = %lu, m = %lu: %s\n", what, (unsigned long)n, (unsigned long)m, perk_refusal_text(result));
    failed = 1;
}

/* a field of zeros */
static size_t field(size_t at, uint8_t tag, size_t length) {
    bytes[at] = tag;
    bytes[at + 1] = (uint8_t)(length >> 8);
    bytes[at + 2] = (uint8_t)(length & 255);
    memset(bytes + at + 3, 0, length);
    return at + 3 + length;
}

/* the first m unit rows as H, which do not lean on each other */
static void unit_rows(size_t n, size_t m) {
    memset(h, 0, sizeof h);
    for (size_t e = 0; e < m; e++) h[e * n + e] = 1;
}

/* the fields of a group with a proof of zeros, with the serial in this many bytes */
static size_t group(size_t n, size_t at, uint32_t serial, size_t serial_bytes) {
    at = field(at, PERK_TAG_SERIAL, serial_bytes);
    for (size_t i = 1; i <= serial_bytes; i++, serial >>= 8) bytes[at - i] = (uint8_t)(serial & 255);
    at = field(at, PERK_TAG_T, PERK_T_BYTES(n));
    return field(at, PERK_TAG_A, 2 * PERK_A_WORDS(n));
}

/* the fields of a key with the unit rows; where there is a target y is (0, .., 0, 256), and else it is absent */
static size_t key(size_t n, size_t m, int target) {
    size_t at = field(0, PERK_TAG_SIZES, 2);
    bytes[at - 2] = (uint8_t)n;
    bytes[at - 1] = (uint8_t)m;
    size_t of_h = at + 3;
    at = field(at, PERK_TAG_H, 2 * PERK_H_WORDS(n, m));
    for (size_t e = 0; e < m; e++) bytes[of_h + 2 * (e * n + e) + 1] = 1;
    at = field(at, PERK_TAG_X, 2 * PERK_X_WORDS(n));
    if (target) {
        at = field(at, PERK_TAG_Y, 2 * PERK_Y_WORDS(m));
        bytes[at - 2] = 1;
    }
    return at;
}

/* the package of such a key and such a group */
static size_t package(size_t n, size_t m, int target, uint32_t serial, size_t serial_bytes) {
    return group(n, key(n, m, target), serial, serial_bytes);
}

/* the check file of a package that ends there: the proof is zero, and so are all weights */
static size_t check_file(size_t n, size_t m, size_t at) {
    at = field(at, PERK_TAG_Q, 2 * PERK_Q_WORDS(n));
    at = field(at, PERK_TAG_MASKS, 2 * PERK_MASKS_WORDS(n));
    at = field(at, PERK_TAG_DELTA, 2 * PERK_DELTA_WORDS);
    return field(at, PERK_TAG_ALPHA, 2 * PERK_ALPHA_WORDS(n, m));
}

/* whether out has 7 in its bytes from this one on */
static int kept_from(size_t at) {
    while (at < sizeof out && out[at] == 7) at++;
    return at == sizeof out;
}

/* the package in bytes is what perk_write_package writes to outputs of its length, of one byte more and of two; one byte less is refused */
static void writes(size_t n, size_t m, int target, uint32_t serial, size_t of_package) {
    size_t length;
    y[m - 1] = target ? 256 : 0;
    for (size_t room = of_package + 2; room >= of_package - 1; room--) {
        memset(out, 7, sizeof out);
        length = 5;
        expect("write package", n, m, perk_write_package(n, m, h, PERK_H_WORDS(n, m), x, PERK_X_WORDS(n), y, PERK_Y_WORDS(m), serial, no_bits,
               PERK_T_BYTES(n), no_words, PERK_A_WORDS(n), out, room, &length), room < of_package ? PERK_SHORT_OUTPUT : PERK_DONE);
        if (room < of_package)
            expect("length and output kept", n, m, length == 5 && kept_from(0) ? PERK_DONE : PERK_REJECTED, PERK_DONE);
        else
            expect("the package written", n, m, length == of_package && memcmp(out, bytes, length) == 0 && kept_from(length) ? PERK_DONE : PERK_REJECTED,
                   PERK_DONE);
    }
    y[m - 1] = 0;
}

/* PERK_DONE where these bytes are a bundle with these sizes and so many groups; on a refusal the three numbers are kept */
static uint32_t reads(const uint8_t *bundle, size_t len, size_t n, size_t m, size_t count) {
    uint32_t read_n = 97, read_m = 98;
    size_t groups = 99;
    uint32_t result = perk_read_bundle(bundle, len, &read_n, &read_m, &groups);
    if (result != PERK_DONE) return read_n == 97 && read_m == 98 && groups == 99 ? result : PERK_REJECTED;
    return read_n == n && read_m == m && groups == count ? PERK_DONE : PERK_REJECTED;
}

/* PERK_DONE where a look at the two with this room tells this length and so many groups; on a refusal both numbers are kept */
static uint32_t looks(const uint8_t *one, size_t one_len, const uint8_t *two, size_t two_len, size_t room, size_t stated, size_t count) {
    size_t length = 98, groups = 99;
    uint32_t result = perk_look_before_join(one, one_len, two, two_len, room, &length, &groups);
    if (result != PERK_DONE) return length == 98 && groups == 99 ? result : PERK_REJECTED;
    return length == stated && groups == count ? PERK_DONE : PERK_REJECTED;
}

/* PERK_DONE where the first two are joined to the bundle in both, of this length and so many groups, in an output of this length; on a refusal
   the output and both numbers are kept. A look before must have told the same */
static uint32_t joins(const uint8_t *one, size_t one_len, const uint8_t *two, size_t two_len, size_t room, size_t stated, size_t count) {
    size_t length = 98, groups = 99, at = 0;
    memset(joined, 7, sizeof joined);
    uint32_t told = looks(one, one_len, two, two_len, room, stated, count);
    uint32_t result = perk_join_bundles(one, one_len, two, two_len, joined, room, &length, &groups);
    if (result == PERK_DONE) {
        if (length != stated || groups != count || memcmp(joined, both, stated) != 0) return PERK_REJECTED;
        at = stated;
    } else if (length != 98 || groups != 99) return PERK_REJECTED;
    while (at < sizeof joined && joined[at] == 7) at++;
    return at == sizeof joined && told == result ? result : PERK_REJECTED;
}

/* the bundle of these sizes with these serials, copied from bytes */
static size_t bundle(uint8_t *to, size_t n, size_t m, int target, const uint32_t *serials, size_t count) {
    size_t at = key(n, m, target), stated = PERK_KEY_BYTES(n, m, target);
    for (size_t i = 0; i < count; i++) {
        at = group(n, at, serials[i], PERK_SERIAL_BYTES(serials[i]));
        stated += PERK_GROUP_BYTES(n, serials[i]);
    }
    expect("length of a bundle", n, m, at == stated ? PERK_DONE : PERK_SLICE_LENGTH, PERK_DONE);
    memcpy(to, bytes, at);
    return at;
}

/* two bundles of these sizes, read and joined, and their refusals, each by its name */
static void bundles(size_t n, size_t m, int target) {
    static const uint32_t all[] = {1, 2, 65535, 65536, 4294967295}, some[] = {1, 65535, 65536}, others[] = {1, 2, 65536, 4294967295};
    size_t first_len = bundle(first, n, m, target, some, 3), second_len = bundle(second, n, m, target, others, 4), len = bundle(both, n, m, target, all, 5);
    expect("read bundle", n, m, reads(first, first_len, n, m, 3), PERK_DONE);
    expect("read bundle", n, m, reads(second, second_len, n, m, 4), PERK_DONE);
    expect("38", n, m, reads(first, first_len - 1, n, m, 0), PERK_BYTES_MISSING);
    expect("39", n, m, reads(first, PERK_KEY_BYTES(n, m, target), n, m, 0), PERK_BYTES_MISSING);
    for (size_t room = len + 2; room >= len - 1; room--) {
        uint32_t stated = room < len ? PERK_SHORT_OUTPUT : PERK_DONE;
        expect("join bundles", n, m, joins(first, first_len, second, second_len, room, len, 5), stated);
        expect("in the other order", n, m, joins(second, second_len, first, first_len, room, len, 5), stated);
        expect("a bundle with itself", n, m, joins(both, len, both, len, room, len, 5), stated);
        expect("with a part of itself", n, m, joins(first, first_len, both, len, room, len, 5), stated);
    }
    /* rooms that no output has, and none */
    expect("the largest room", n, m, looks(first, first_len, second, second_len, SIZE_MAX, len, 5), PERK_DONE);
    expect("a room of 2^63", n, m, looks(second, second_len, first, first_len, SIZE_MAX / 2 + 1, len, 5), PERK_DONE);
    expect("no room", n, m, looks(first, first_len, second, second_len, 0, len, 5), PERK_SHORT_OUTPUT);
    /* 21 and 22, also where the output is too short, and 20 */
    second[second_len - 1] = 1;
    expect("40", n, m, joins(both, len, second, second_len, BUNDLE, len, 5), PERK_GROUPS_DIFFER);
    expect("41", n, m, joins(second, second_len, both, len, 0, len, 5), PERK_GROUPS_DIFFER);
    expect("56", n, m, looks(second, second_len, both, len, SIZE_MAX, len, 5), PERK_GROUPS_DIFFER);
    second_len = bundle(second, n, m, !target, others, 4);
    expect("42", n, m, joins(first, first_len, second, second_len, BUNDLE, len, 5), PERK_OTHER_KEY);
    expect("43", n, m, joins(second, second_len, first, first_len, 0, len, 5), PERK_OTHER_KEY);
    expect("57", n, m, looks(second, second_len, first, first_len, SIZE_MAX, len, 5), PERK_OTHER_KEY);
    first_len = bundle(first, n, m, target, (const uint32_t[]){65536, 65535}, 2);
    expect("44", n, m, reads(first, first_len, n, m, 0), PERK_SERIAL_ORDER);
    expect("45", n, m, joins(second, second_len, first, first_len, BUNDLE, len, 5), PERK_SERIAL_ORDER);
    first_len = bundle(first, n, m, target, (const uint32_t[]){7, 7}, 2);
    expect("46", n, m, reads(first, first_len, n, m, 0), PERK_SERIAL_ORDER);
}

/* the files of these sizes with and without a target and with this serial, as they are written and as they are read */
static void files(size_t n, size_t m, int target, uint32_t written) {
    uint32_t read_n = 0, read_m = 0, serial = ~written;
    size_t start, of_package = package(n, m, target, written, PERK_SERIAL_BYTES(written));
    expect("length of a package", n, m, of_package == PERK_PACKAGE_BYTES(n, m, target, written) ? PERK_DONE : PERK_SLICE_LENGTH, PERK_DONE);
    writes(n, m, target, written, of_package);
    expect("read package", n, m, perk_read_package(bytes, of_package, &read_n, &read_m, &serial), PERK_DONE);
    expect("sizes", n, m, read_n == n && read_m == m && serial == written ? PERK_DONE : PERK_REJECTED, PERK_DONE);
    expect("a package as a bundle", n, m, reads(bytes, of_package, n, m, 1), PERK_DONE);
    size_t length = perk_field(bytes, of_package, PERK_TAG_SERIAL, &start);
    expect("field of the serial", n, m, length == PERK_SERIAL_BYTES(written) ? PERK_DONE : PERK_REJECTED, PERK_DONE);
    uint32_t found = 0;
    for (size_t i = 0; i < length; i++) found = found << 8 | bytes[start + i];
    expect("bytes of the serial", n, m, found == written ? PERK_DONE : PERK_REJECTED, PERK_DONE);
    length = perk_field(bytes, of_package, PERK_TAG_Y, &start);
    expect("field y", n, m, length == (target ? 2 * PERK_Y_WORDS(m) : 0) && (start == 0) == !target ? PERK_DONE : PERK_REJECTED, PERK_DONE);
    size_t after_x = 11 + 2 * m * n + 2 * n;
    expect("byte after x", n, m, bytes[after_x] == (target ? PERK_TAG_Y : PERK_TAG_SERIAL) ? PERK_DONE : PERK_REJECTED, PERK_DONE);
    length = perk_field(bytes, of_package, PERK_TAG_A, &start);
    expect("field", n, m, length == 2 * PERK_A_WORDS(n) && start + length == of_package ? PERK_DONE : PERK_REJECTED, PERK_DONE);

    size_t at = check_file(n, m, of_package);
    serial = ~written;
    expect("length of a check file", n, m, at == PERK_CHECK_FILE_BYTES(n, m, target, written) ? PERK_DONE : PERK_SLICE_LENGTH, PERK_DONE);
    expect("read check file", n, m, perk_read_check_file(bytes, at, &read_n, &read_m, &serial), PERK_DONE);
    expect("its serial", n, m, serial == written ? PERK_DONE : PERK_REJECTED, PERK_DONE);
    expect("check", n, m, perk_check(bytes, at), PERK_ACCEPTED);

    /* refusals, each by its name */
    expect("1", n, m, perk_read_package(bytes, at, &read_n, &read_m, &serial), PERK_BYTES_FOLLOW);
    expect("a check file as a bundle", n, m, reads(bytes, at, n, m, 0), PERK_TAG);
    expect("2", n, m, perk_check(bytes, at - 1), PERK_BYTES_MISSING);
    bytes[0] = PERK_TAG_H;
    expect("3", n, m, perk_check(bytes, at), PERK_TAG);
    bytes[0] = PERK_TAG_SIZES;
    bytes[2] = 3;
    expect("4", n, m, perk_check(bytes, at), PERK_FIELD_LENGTH);
}

/* a serial that fits two bytes, in four: a file has no second form */
static void long_form(size_t n, size_t m, uint32_t written) {
    uint32_t kept[3] = {7, 8, 9};
    size_t start = 5, of_package = package(n, m, 0, written, 4);
    expect("13", n, m, perk_read_package(bytes, of_package, &kept[0], &kept[1], &kept[2]), PERK_LONG_SERIAL);
    expect("its field", n, m, perk_field(bytes, of_package, PERK_TAG_SERIAL, &start) == 0 && start == 0 ? PERK_DONE : PERK_REJECTED, PERK_DONE);
    size_t at = check_file(n, m, of_package);
    expect("14", n, m, perk_read_check_file(bytes, at, &kept[0], &kept[1], &kept[2]), PERK_LONG_SERIAL);
    expect("15", n, m, perk_check(bytes, at), PERK_LONG_SERIAL);
    expect("of a bundle", n, m, reads(bytes, of_package, n, m, 0), PERK_LONG_SERIAL);
    expect("n, m and serial kept", n, m, kept[0] == 7 && kept[1] == 8 && kept[2] == 9 ? PERK_DONE : PERK_REJECTED, PERK_DONE);
}

/* a field y of zeros, and one with an element above 2047 */
static void wrong_targets(size_t n, size_t m) {
    uint32_t kept[3] = {7, 8, 9};
    size_t start = 5, of_package = package(n, m, 1, 7, 2), last = 11 + 2 * m * n + 2 * n + 3 + 2 * m - 2;
    bytes[last] = 0;
    expect("16", n, m, perk_read_package(bytes, of_package, &kept[0], &kept[1], &kept[2]), PERK_ZERO_TARGET);
    expect("its field y", n, m, perk_field(bytes, of_package, PERK_TAG_Y, &start) == 0 && start == 0 ? PERK_DONE : PERK_REJECTED, PERK_DONE);
    size_t at = check_file(n, m, of_package);
    expect("17", n, m, perk_check(bytes, at), PERK_ZERO_TARGET);
    expect("of a bundle", n, m, reads(bytes, of_package, n, m, 0), PERK_ZERO_TARGET);
    bytes[last] = 8;
    expect("18", n, m, perk_read_check_file(bytes, at, &kept[0], &kept[1], &kept[2]), PERK_KEY_ELEMENT);
    expect("n, m and serial kept", n, m, kept[0] == 7 && kept[1] == 8 && kept[2] == 9 ? PERK_DONE : PERK_REJECTED, PERK_DONE);
}

/* the order 0, 1, .. with its last position changed: spare codes, which constraints takes, and one that is too large */
static void codes(size_t n, size_t m) {
    size_t most = (size_t)1 << PERK_DIGITS(n);
    for (size_t last = n; last <= most; last++) {
        positions[n - 1] = (uint8_t)last;
        expect("21", n, m, perk_constraints(n, m, h, PERK_H_WORDS(n, m), x, PERK_X_WORDS(n), y, PERK_Y_WORDS(m), positions, PERK_POSITIONS_BYTES(n), u,
               PERK_U_BYTES(n), v, PERK_V_WORDS(n), t, PERK_T_BYTES(n), polynomials, PERK_POLYNOMIALS_WORDS(n, m)), last < most ? PERK_DONE : PERK_POSITION);
        expect("22", n, m, perk_prove(n, m, h, PERK_H_WORDS(n, m), x, PERK_X_WORDS(n), y, PERK_Y_WORDS(m), positions, PERK_POSITIONS_BYTES(n), u,
               PERK_U_BYTES(n), v, PERK_V_WORDS(n), r, PERK_R_WORDS(n), s, PERK_S_WORDS(n), alpha, PERK_ALPHA_WORDS(n, m), t,
               PERK_T_BYTES(n), a, PERK_A_WORDS(n)), last < most ? PERK_SPARE_CODE : PERK_POSITION);
    }
    positions[n - 1] = (uint8_t)(n - 1);
}

/* a quick look at so many of the positions has this result: index becomes this where it is an offender, and else keeps what it holds */
static void looked(const char *what, size_t n, size_t len, uint32_t stated, size_t offender) {
    static const size_t before[] = {0, 1, SIZE_MAX};
    for (size_t i = 0; i < sizeof before / sizeof *before; i++) {
        size_t index = before[i];
        expect(what, n, 0, perk_quick_look(n, positions, len, &index), stated);
        expect("index", n, 0, index == (stated == PERK_OFFENDER ? offender : before[i]) ? PERK_DONE : PERK_REJECTED, PERK_DONE);
    }
}

/* quick looks at the order 0, 1, .. with one position changed, each to every byte, and with a second offender after the first */
static void one_changed(size_t n) {
    for (size_t i = 0; i < n; i++) {
        for (size_t byte = 0; byte < 256; byte++) {
            positions[i] = (uint8_t)byte;
            /* a column from further on is met again at its own place */
            looked("one position changed", n, n, byte == i ? PERK_DONE : PERK_OFFENDER, byte > i && byte < n ? byte : i);
        }
        for (size_t j = i + 1; j < n; j++) {
            positions[j] = (uint8_t)(j % 2 ? n : 255);
            positions[i] = (uint8_t)(j % 2 ? 255 : n);
            looked("two offenders", n, n, PERK_OFFENDER, i);
            positions[j] = (uint8_t)j;
        }
        positions[i] = (uint8_t)i;
    }
}

/* quick looks at this n: orders, offenders and the refusals, each of which comes before an offender */
static void quick_looks(size_t n) {
    looked("the order 0, 1, ..", n, n, PERK_DONE, 0);
    for (size_t i = 0; i < n; i++) positions[i] = (uint8_t)(n - 1 - i);
    looked("the order from n - 1 down", n, n, PERK_DONE, 0);
    for (size_t i = 0; i < n; i++) positions[i] = (uint8_t)i;
    one_changed(n);
    for (int offends = 0; offends < 2; offends++) {
        positions[0] = offends ? 255 : 0;
        looked("58", n, n - 1, PERK_SLICE_LENGTH, 0);
        looked("59", n, 0, PERK_SLICE_LENGTH, 0);
        if (n < N) looked("60", n, n + 1, PERK_SLICE_LENGTH, 0);
        looked("61", 65, n, PERK_SIZE_N, 0);
        looked("62", 1, n, PERK_SIZE_N, 0);
    }
    looked("63", 1, 1, PERK_SIZE_N, 0);
    looked("64", 0, 0, PERK_SIZE_N, 0);
    looked("65", SIZE_MAX, n, PERK_SIZE_N, 0);
    positions[0] = 0;
}

/* PERK_DONE where H in h has this rank and the cleared form has as many rows of zeros as the rank is below m */
static uint32_t ranked(size_t n, size_t m, size_t stated) {
    size_t rank = m + 1;
    memset(matrix, 255, sizeof matrix);
    uint32_t result = perk_rank(n, m, h, PERK_H_WORDS(n, m), matrix, PERK_MATRIX_WORDS(n, m), &rank);
    if (result != PERK_DONE) return result;
    size_t zeros = 0;
    for (size_t e = 0; e < m; e++) {
        size_t i = 0;
        while (i < n && matrix[e * n + i] == 0) i++;
        zeros += i == n;
    }
    return rank == stated && zeros == m - rank ? PERK_DONE : PERK_REJECTED;
}

/* every function that reads a file refuses the key whose H stands in h, with and without a target, and keeps its outputs */
static void dependent_files(const char *what, size_t n, size_t m) {
    uint32_t kept[3] = {7, 8, 9};
    size_t start = 5;
    for (int target = 0; target < 2; target++) {
        size_t of_package = package(n, m, target, 7, 2), after_x = 11 + 2 * m * n + 2 * n, after_y = after_x + 3 + 2 * m;
        for (size_t i = 0; i < PERK_H_WORDS(n, m); i++) {
            bytes[8 + 2 * i] = (uint8_t)(h[i] >> 8);
            bytes[8 + 2 * i + 1] = (uint8_t)(h[i] & 255);
        }
        expect(what, n, m, perk_read_package(bytes, of_package, &kept[0], &kept[1], &kept[2]), PERK_DEPENDENT_ROWS);
        expect(what, n, m, perk_field(bytes, of_package, PERK_TAG_H, &start) == 0 && start == 0 ? PERK_DONE : PERK_REJECTED, PERK_DONE);
        size_t at = check_file(n, m, of_package);
        expect(what, n, m, perk_read_check_file(bytes, at, &kept[0], &kept[1], &kept[2]), PERK_DEPENDENT_ROWS);
        expect(what, n, m, perk_check(bytes, at), PERK_DEPENDENT_ROWS);
        /* nothing after the key is looked at; a lone byte 04 begins a field that is cut */
        expect(what, n, m, perk_check(bytes, after_x), PERK_DEPENDENT_ROWS);
        expect(what, n, m, perk_check(bytes, after_x + 1), target ? PERK_BYTES_MISSING : PERK_DEPENDENT_ROWS);
        if (target) expect(what, n, m, perk_check(bytes, after_y), PERK_DEPENDENT_ROWS);
        expect(what, n, m, reads(bytes, PERK_KEY_BYTES(n, m, target), n, m, 0), PERK_DEPENDENT_ROWS);
        expect(what, n, m, joins(bytes, of_package, bytes, of_package, 0, of_package, 0), PERK_DEPENDENT_ROWS);
    }
    expect("n, m and serial kept", n, m, kept[0] == 7 && kept[1] == 8 && kept[2] == 9 ? PERK_DONE : PERK_REJECTED, PERK_DONE);
}

/* every function that takes a key refuses the one whose H stands in h, and keeps its outputs */
static void dependent(const char *what, size_t n, size_t m) {
    size_t start = 5;
    memset(t, 7, sizeof t);
    memset(a, 7, sizeof a);
    memset(polynomials, 7, sizeof polynomials);
    memset(values, 7, sizeof values);
    /* a bit above 1 comes later */
    u[0] = 2;
    expect(what, n, m, perk_constraints(n, m, h, PERK_H_WORDS(n, m), x, PERK_X_WORDS(n), y, PERK_Y_WORDS(m), positions, PERK_POSITIONS_BYTES(n), u,
           PERK_U_BYTES(n), v, PERK_V_WORDS(n), t, PERK_T_BYTES(n), polynomials, PERK_POLYNOMIALS_WORDS(n, m)), PERK_DEPENDENT_ROWS);
    expect(what, n, m, perk_prove(n, m, h, PERK_H_WORDS(n, m), x, PERK_X_WORDS(n), y, PERK_Y_WORDS(m), positions, PERK_POSITIONS_BYTES(n), u,
           PERK_U_BYTES(n), v, PERK_V_WORDS(n), r, PERK_R_WORDS(n), s, PERK_S_WORDS(n), alpha, PERK_ALPHA_WORDS(n, m), t,
           PERK_T_BYTES(n), a, PERK_A_WORDS(n)), PERK_DEPENDENT_ROWS);
    u[0] = 0;
    expect(what, n, m, perk_values(n, m, h, PERK_H_WORDS(n, m), x, PERK_X_WORDS(n), y, PERK_Y_WORDS(m), t, PERK_T_BYTES(n), q, PERK_Q_WORDS(n), delta,
           PERK_DELTA_WORDS, values, PERK_VALUES_WORDS(n, m)), PERK_DEPENDENT_ROWS);
    expect(what, n, m, perk_verify(n, m, h, PERK_H_WORDS(n, m), x, PERK_X_WORDS(n), y, PERK_Y_WORDS(m), t, PERK_T_BYTES(n), q, PERK_Q_WORDS(n), delta,
           PERK_DELTA_WORDS, masks, PERK_MASKS_WORDS(n), alpha, PERK_ALPHA_WORDS(n, m), a, PERK_A_WORDS(n)), PERK_DEPENDENT_ROWS);
    /* t with bytes above 1 and an output that is too short come later as well */
    memset(out, 7, sizeof out);
    expect(what, n, m, perk_write_package(n, m, h, PERK_H_WORDS(n, m), x, PERK_X_WORDS(n), y, PERK_Y_WORDS(m), 7, t, PERK_T_BYTES(n), no_words,
           PERK_A_WORDS(n), out, 5, &start), PERK_DEPENDENT_ROWS);
    expect("length and output kept", n, m, start == 5 && kept_from(0) ? PERK_DONE : PERK_REJECTED, PERK_DONE);
    for (size_t i = 0; i < PERK_T_BYTES(n); i++)
        if (t[i] != 7) failed = 1;
    for (size_t i = 0; i < PERK_A_WORDS(n); i++)
        if (a[i] != 0x0707) failed = 1;
    for (size_t i = 0; i < PERK_POLYNOMIALS_WORDS(n, m); i++)
        if (polynomials[i] != 0x0707) failed = 1;
    for (size_t i = 0; i < PERK_VALUES_WORDS(n, m); i++)
        if (values[i] != 0x0707) failed = 1;
    memset(t, 0, sizeof t);
    memset(a, 0, sizeof a);
    dependent_files(what, n, m);
}

/* the rank of the unit rows and of rows that lean: the last is zero, the last is the first times 5, all are zero */
static void rows(size_t n, size_t m) {
    expect("rank of unit rows", n, m, ranked(n, m, m), PERK_DONE);
    expect("their cleared form", n, m, memcmp(matrix, h, 2 * PERK_H_WORDS(n, m)) == 0 ? PERK_DONE : PERK_REJECTED, PERK_DONE);
    h[(m - 1) * n + m - 1] = 0;
    expect("rank with a row of zeros", n, m, ranked(n, m, m - 1), PERK_DONE);
    dependent("a row of zeros", n, m);
    if (m > 1) {
        h[(m - 1) * n] = 5;
        expect("rank with a multiple", n, m, ranked(n, m, m - 1), PERK_DONE);
        dependent("a multiple", n, m);
    }
    memset(h, 0, sizeof h);
    expect("rank of zeros", n, m, ranked(n, m, 0), PERK_DONE);
    dependent("zeros", n, m);
    unit_rows(n, m);

    /* the refusals of rank, each of which leaves the number and the matrix */
    size_t rank = 5, words = PERK_H_WORDS(n, m);
    memset(matrix, 7, sizeof matrix);
    expect("23", n, m, perk_rank(65, m, h, words, matrix, words, &rank), PERK_SIZE_N);
    expect("24", n, m, perk_rank(n, n, h, words, matrix, words, &rank), PERK_SIZE_M);
    expect("25", n, m, perk_rank(n, m, h, words - 1, matrix, words, &rank), PERK_SLICE_LENGTH);
    expect("26", n, m, perk_rank(n, m, h, words, matrix, words - 1, &rank), PERK_SLICE_LENGTH);
    h[words - 1] = 2048;
    expect("27", n, m, perk_rank(n, m, h, words, matrix, words, &rank), PERK_KEY_ELEMENT);
    unit_rows(n, m);
    expect("the rank kept", n, m, rank == 5 ? PERK_DONE : PERK_REJECTED, PERK_DONE);
    for (size_t i = 0; i < words; i++)
        if (matrix[i] != 0x0707) failed = 1;
}

static void sizes(size_t n, size_t m) {
    static const uint32_t serials[] = {0, 1, 255, 256, 65535, 65536, 65537, 16777216, 4294967295};
    /* H has unit rows, x and y are zero, so that the order 0, 1, .. solves the key */
    unit_rows(n, m);
    expect("constraints", n, m, perk_constraints(n, m, h, PERK_H_WORDS(n, m), x, PERK_X_WORDS(n), y, PERK_Y_WORDS(m), positions, PERK_POSITIONS_BYTES(n), u,
           PERK_U_BYTES(n), v, PERK_V_WORDS(n), t, PERK_T_BYTES(n), polynomials, PERK_POLYNOMIALS_WORDS(n, m)), PERK_DONE);
    expect("values", n, m, perk_values(n, m, h, PERK_H_WORDS(n, m), x, PERK_X_WORDS(n), y, PERK_Y_WORDS(m), t, PERK_T_BYTES(n), q, PERK_Q_WORDS(n), delta,
           PERK_DELTA_WORDS, values, PERK_VALUES_WORDS(n, m)), PERK_DONE);
    expect("prove", n, m, perk_prove(n, m, h, PERK_H_WORDS(n, m), x, PERK_X_WORDS(n), y, PERK_Y_WORDS(m), positions, PERK_POSITIONS_BYTES(n), u,
           PERK_U_BYTES(n), v, PERK_V_WORDS(n), r, PERK_R_WORDS(n), s, PERK_S_WORDS(n), alpha, PERK_ALPHA_WORDS(n, m), t,
           PERK_T_BYTES(n), a, PERK_A_WORDS(n)), PERK_DONE);
    expect("verify", n, m, perk_verify(n, m, h, PERK_H_WORDS(n, m), x, PERK_X_WORDS(n), y, PERK_Y_WORDS(m), t, PERK_T_BYTES(n), q, PERK_Q_WORDS(n), delta,
           PERK_DELTA_WORDS, masks, PERK_MASKS_WORDS(n), alpha, PERK_ALPHA_WORDS(n, m), a, PERK_A_WORDS(n)), PERK_ACCEPTED);

    for (size_t i = 0; i < sizeof serials / sizeof *serials; i++) {
        files(n, m, 0, serials[i]);
        files(n, m, 1, serials[i]);
        if (PERK_SERIAL_BYTES(serials[i]) < 4) long_form(n, m, serials[i]);
    }

    bundles(n, m, 0);
    bundles(n, m, 1);
    wrong_targets(n, m);
    codes(n, m);
    rows(n, m);

    expect("5", n, m, perk_values(65, m, h, 0, x, 0, y, 0, t, 0, q, 0, delta, 0, values, 0), PERK_SIZE_N);
    expect("6", n, m, perk_values(n, n, h, 0, x, 0, y, 0, t, 0, q, 0, delta, 0, values, 0), PERK_SIZE_M);
    expect("7", n, m, perk_values(n, m, h, 0, x, 0, y, 0, t, 0, q, 0, delta, 0, values, 0), PERK_SLICE_LENGTH);
}

/* constraints and prove at n = 2, m = 1 with one number changed */
static void material(void) {
    static const uint8_t order[2] = {0, 1}, twice[2] = {0, 0}, large[2] = {0, 2}, bits[2] = {0, 2};
    static const uint16_t row[2] = {1, 0}, small[2] = {0, 0}, one[1] = {1}, above[24] = {2048}, element[24] = {0};
    uint8_t out[2];
    uint16_t proof[12];
    expect("8", 2, 1, perk_prove(2, 1, above, 2, small, 2, small, 1, order, 2, order, 2, element, 24, r, 0, s, 0, alpha, 36, out, 2, proof, 12),
           PERK_KEY_ELEMENT);
    expect("9", 2, 1, perk_prove(2, 1, row, 2, small, 2, small, 1, order, 2, bits, 2, element, 24, r, 0, s, 0, alpha, 36, out, 2, proof, 12),
           PERK_BIT);
    expect("10", 2, 1, perk_prove(2, 1, row, 2, small, 2, small, 1, order, 2, order, 2, above, 24, r, 0, s, 0, alpha, 36, out, 2, proof, 12),
           PERK_COORDINATE);
    expect("11", 2, 1, perk_prove(2, 1, row, 2, small, 2, small, 1, large, 2, order, 2, element, 24, r, 0, s, 0, alpha, 36, out, 2, proof, 12),
           PERK_POSITION);
    expect("12", 2, 1, perk_prove(2, 1, row, 2, small, 2, small, 1, twice, 2, order, 2, element, 24, r, 0, s, 0, alpha, 36, out, 2, proof, 12),
           PERK_TOP);
    /* y above 2047, and one that no order reaches */
    expect("19", 2, 1, perk_prove(2, 1, row, 2, small, 2, above, 1, order, 2, order, 2, element, 24, r, 0, s, 0, alpha, 36, out, 2, proof, 12),
           PERK_KEY_ELEMENT);
    expect("20", 2, 1, perk_prove(2, 1, row, 2, small, 2, one, 1, order, 2, order, 2, element, 24, r, 0, s, 0, alpha, 36, out, 2, proof, 12),
           PERK_TOP);
    /* the one row is zero, which comes after an element of x above 2047 and before a bit above 1 */
    expect("28", 2, 1, perk_prove(2, 1, small, 2, small, 2, small, 1, order, 2, bits, 2, element, 24, r, 0, s, 0, alpha, 36, out, 2, proof, 12),
           PERK_DEPENDENT_ROWS);
    expect("29", 2, 1, perk_prove(2, 1, small, 2, above, 2, small, 1, order, 2, bits, 2, element, 24, r, 0, s, 0, alpha, 36, out, 2, proof, 12),
           PERK_KEY_ELEMENT);
}

/* writing a package at n = 2, m = 1: the refusals in their order, each together with faults of all that come later */
static void writer(void) {
    static const uint16_t row[2] = {1, 0}, small[2] = {0, 0}, above[12] = {2048}, element[12] = {0};
    static const uint8_t bits[2] = {0, 1}, large[2] = {0, 2};
    size_t length = 5;
    memset(out, 7, sizeof out);
    expect("30", 2, 1, perk_write_package(1, 1, above, 1, above, 2, above, 1, 7, large, 2, above, 12, out, 0, &length), PERK_SIZE_N);
    expect("31", 2, 1, perk_write_package(2, 2, above, 1, above, 2, above, 1, 7, large, 2, above, 12, out, 0, &length), PERK_SIZE_M);
    expect("32", 2, 1, perk_write_package(2, 1, above, 1, above, 2, above, 1, 7, large, 2, above, 12, out, 0, &length), PERK_SLICE_LENGTH);
    expect("33", 2, 1, perk_write_package(2, 1, small, 2, small, 2, above, 1, 7, large, 2, above, 12, out, 0, &length), PERK_KEY_ELEMENT);
    expect("34", 2, 1, perk_write_package(2, 1, small, 2, small, 2, small, 1, 7, large, 2, above, 12, out, 0, &length), PERK_DEPENDENT_ROWS);
    expect("35", 2, 1, perk_write_package(2, 1, row, 2, small, 2, small, 1, 7, large, 2, above, 12, out, 0, &length), PERK_BIT);
    expect("36", 2, 1, perk_write_package(2, 1, row, 2, small, 2, small, 1, 7, bits, 2, above, 12, out, 0, &length), PERK_COORDINATE);
    expect("37", 2, 1, perk_write_package(2, 1, row, 2, small, 2, small, 1, 7, bits, 2, element, 12, out, 0, &length), PERK_SHORT_OUTPUT);
    expect("length and output kept", 2, 1, length == 5 && kept_from(0) ? PERK_DONE : PERK_REJECTED, PERK_DONE);
}

/* joining at n = 2, m = 1: the refusals of the first bundle, of the second, 21, 22 and 13, each together with faults of all that come later */
static void joiner(void) {
    static const uint32_t serials[] = {7, 8}, falling[] = {8, 7};
    size_t len = bundle(both, 2, 1, 0, serials, 2), other = bundle(second, 2, 1, 1, serials, 2);
    /* another key, with a group that differs; then that group alone */
    second[other - 1] = 1;
    expect("47", 2, 1, joins(both, len, second, other, 0, len, 2), PERK_OTHER_KEY);
    memcpy(first, both, len);
    first[len - 1] = 1;
    expect("48", 2, 1, joins(both, len, first, len, 0, len, 2), PERK_GROUPS_DIFFER);
    expect("49", 2, 1, joins(both, len, both, len, len - 1, len, 2), PERK_SHORT_OUTPUT);
    expect("50", 2, 1, joins(both, len, both, len, len, len, 2), PERK_DONE);
    /* the other key with serials that fall */
    bundle(second, 2, 1, 1, falling, 2);
    expect("51", 2, 1, joins(both, len, second, other, 0, len, 2), PERK_SERIAL_ORDER);
    /* a byte of the last t above 1, in one bundle that is whole and one that is cut after it */
    first[len - PERK_GROUP_BYTES(2, 8) + 8] = 2;
    expect("52", 2, 1, joins(first, len, second, other, 0, len, 2), PERK_BIT);
    expect("53", 2, 1, joins(second, other, first, len, 0, len, 2), PERK_SERIAL_ORDER);
    expect("54", 2, 1, joins(first, len - 1, second, other, 0, len, 2), PERK_BIT);
    expect("55", 2, 1, joins(both, len - 1, first, len, 0, len, 2), PERK_BYTES_MISSING);
}

/* each of 0 to 16, 19 to 22 and 255 has a text, and no two the same; every other number has one text. 255 has that of a rejected proof */
static void texts(void) {
    static const uint32_t numbers[] = {0, 1, 2, 3, 4, 5, 6, 7, 8, 9, 10, 11, 12, 13, 14, 15, 16, 19, 20, 21, 22, 255, 17};
    static const uint32_t others[] = {18, 23, 254, 256, UINT32_MAX};
    size_t count = sizeof numbers / sizeof *numbers;
    for (size_t i = 0; i < count; i++)
        for (size_t j = 0; j < i; j++)
            if (strcmp(perk_refusal_text(numbers[i]), perk_refusal_text(numbers[j])) == 0) failed = 1;
    for (size_t i = 0; i < sizeof others / sizeof *others; i++)
        if (strcmp(perk_refusal_text(others[i]), perk_refusal_text(17)) != 0) failed = 1;
    if (strcmp(perk_refusal_text(PERK_REJECTED), "rejected") != 0) failed = 1;
}

int main(void) {
    for (int i = 0; i < N; i++) positions[i] = (uint8_t)i;
    for (size_t n = 2; n <= N; n++) {
        sizes(n, 1);
        if (n > 2) sizes(n, n - 1);
        quick_looks(n);
    }
    material();
    writer();
    joiner();
    texts();
    return failed;
}
