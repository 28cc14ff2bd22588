/*
 * Lengths are decided before a slice is read: each slice ends where memory ends, and where its stated length is too long, as a length in bytes
 * for one in words is, the answer is 3 and nothing past the end is read. The readers take files that end where memory ends, whole and cut at
 * every byte, and a package is written to outputs that end there, from none to its length. Bundles that are joined, or looked at before, whole
 * and cut at every byte, and the output end where memory ends, or begin where memory begins; a look is told a room that no memory has, too.
 * Positions that are looked at, and the index, begin and end so at every n. Prints how many calls were made.
 */
#include <stdint.h>
#include <stdio.h>
#include <stdlib.h>
#include <string.h>
#include <sys/mman.h>
#include <unistd.h>
#include "perk.h"

enum { N = 5, M = 2, D = 3, W = 12, MOST = 11, LENGTH = 3 };

/* a slice: how many elements of which size it has, and the length that is told */
struct slice {
    size_t count, size;
    void *start;
    size_t told;
};

#define WORDS(s) (const uint16_t *)(s).start, (s).told
#define BYTES(s) (const uint8_t *)(s).start, (s).told
#define WORDS_OUT(s) (uint16_t *)(s).start, (s).told
#define BYTES_OUT(s) (uint8_t *)(s).start, (s).told
/* the slices of a key, which come first */
#define KEY(s) WORDS(s[0]), WORDS(s[1]), WORDS(s[2])

static uint32_t sum(struct slice *s) { return perk_sum(WORDS(s[0]), WORDS(s[1]), WORDS_OUT(s[2])); }
static uint32_t product(struct slice *s) { return perk_product(WORDS(s[0]), WORDS(s[1]), WORDS_OUT(s[2])); }
static uint32_t rank(struct slice *s) {
    size_t rank;
    return perk_rank(N, M, WORDS(s[0]), WORDS_OUT(s[1]), &rank);
}
static uint32_t quick_look(struct slice *s) {
    size_t index;
    return perk_quick_look(N, BYTES(s[0]), &index);
}
static uint32_t constraints(struct slice *s) {
    return perk_constraints(N, M, KEY(s), BYTES(s[3]), BYTES(s[4]), WORDS(s[5]), BYTES_OUT(s[6]), WORDS_OUT(s[7]));
}
static uint32_t values(struct slice *s) {
    return perk_values(N, M, KEY(s), BYTES(s[3]), WORDS(s[4]), WORDS(s[5]), WORDS_OUT(s[6]));
}
static uint32_t prove(struct slice *s) {
    return perk_prove(N, M, KEY(s), BYTES(s[3]), BYTES(s[4]), WORDS(s[5]), WORDS(s[6]), WORDS(s[7]), WORDS(s[8]), BYTES_OUT(s[9]),
                      WORDS_OUT(s[10]));
}
static uint32_t verify(struct slice *s) {
    return perk_verify(N, M, KEY(s), BYTES(s[3]), WORDS(s[4]), WORDS(s[5]), WORDS(s[6]), WORDS(s[7]), WORDS(s[8]));
}
static uint32_t write_package(struct slice *s) {
    static uint8_t out[PERK_PACKAGE_BYTES(N, M, 0, 7)];
    size_t length;
    return perk_write_package(N, M, KEY(s), 7, BYTES(s[3]), WORDS(s[4]), out, sizeof out, &length);
}

#define F(count) {count, 2, NULL, 0}
#define K(count) {W * (count), 2, NULL, 0}
#define B(count) {count, 1, NULL, 0}
#define OF_KEY F(M * N), F(N), F(M)

static struct {
    const char *name;
    uint32_t (*call)(struct slice *);
    struct slice slices[MOST];
} entries[] = {
    {"perk_sum", sum, {K(1), K(1), K(1)}},
    {"perk_product", product, {K(1), K(1), K(1)}},
    {"perk_rank", rank, {F(M * N), F(M * N)}},
    {"perk_quick_look", quick_look, {B(N)}},
    {"perk_constraints", constraints, {OF_KEY, B(N), B(N * D), K(N * D), B(N * D), K((N + M) * (D + 1))}},
    {"perk_values", values, {OF_KEY, B(N * D), K(N * D), K(1), K(N + M)}},
    {"perk_prove", prove, {OF_KEY, B(N), B(N * D), K(N * D), K(D - 1), K(D - 1), K(N + M), B(N * D), K(D)}},
    {"perk_verify", verify, {OF_KEY, B(N * D), K(N * D), K(1), K(D - 1), K(N + M), K(D)}},
    {"perk_write_package", write_package, {OF_KEY, B(N * D), K(D)}},
};

/* zeros that end where a page begins that cannot be read */
static void place(struct slice *s) {
    size_t page = (size_t)sysconf(_SC_PAGESIZE), bytes = s->count * s->size, pages = (bytes + page - 1) / page;
    uint8_t *start = mmap(NULL, (pages + 1) * page, PROT_READ | PROT_WRITE, MAP_PRIVATE | MAP_ANONYMOUS, -1, 0);
    if (start == MAP_FAILED || mprotect(start + pages * page, page, PROT_NONE) != 0) exit(2);
    s->start = start + pages * page - bytes;
    s->told = s->count;
}

static unsigned calls, failed;

/* one call with bytes that end where memory ends */
static void at_end(const char *name, size_t len, uint32_t found, uint32_t stated) {
    calls++;
    if (found == stated) return;
    printf("%s: %u for %zu bytes\n", name, (unsigned)found, len);
    failed++;
}

/* the check file of n = 2, m = 1, H = (1 0) and x = (0 0) with this field of y or none, and this field of a serial; the fields after it are
   zero, weights and a too, so that it is accepted */
static void file(const uint8_t *y, size_t y_len, const uint8_t *serial, size_t serial_len) {
    static const uint8_t key[] = {PERK_TAG_SIZES, 0, 2, 2, 1, PERK_TAG_H, 0, 4, 0, 1, 0, 0, PERK_TAG_X, 0, 4, 0, 0, 0, 0};
    static const struct {
        uint8_t tag, length;
    } after[] = {{PERK_TAG_T, 2}, {PERK_TAG_A, 24}, {PERK_TAG_Q, 48}, {PERK_TAG_MASKS, 0}, {PERK_TAG_DELTA, 24}, {PERK_TAG_ALPHA, 72}};
    uint8_t bytes[PERK_CHECK_FILE_BYTES(2, 1, 1, 65536)] = {0};
    size_t len = sizeof key, package_len = 0;
    memcpy(bytes, key, len);
    if (y_len > 0) memcpy(bytes + len, y, y_len);
    len += y_len;
    memcpy(bytes + len, serial, serial_len);
    len += serial_len;
    for (size_t i = 0; i < sizeof after / sizeof *after; i++) {
        if (after[i].tag == PERK_TAG_Q) package_len = len;
        bytes[len] = after[i].tag;
        bytes[len + 2] = after[i].length;
        len += 3 + after[i].length;
    }
    struct slice s = {len, 1, NULL, 0};
    place(&s);
    for (size_t part = 0; part <= len; part++) {
        uint32_t n, m, number;
        size_t start, groups;
        uint8_t *end = (uint8_t *)s.start + len, *from = end - part;
        memcpy(from, bytes, part);
        uint32_t stated = part < len ? PERK_BYTES_MISSING : PERK_DONE;
        at_end("perk_read_check_file", part, perk_read_check_file(from, part, &n, &m, &number), stated);
        at_end("perk_check", part, perk_check(from, part), stated);
        stated = part < package_len ? PERK_BYTES_MISSING : part > package_len ? PERK_BYTES_FOLLOW : PERK_DONE;
        at_end("perk_read_package", part, perk_read_package(from, part, &n, &m, &number), stated);
        /* a package is a bundle of one group; the tag of q begins no second one */
        stated = part == package_len ? PERK_DONE : part < package_len + 3 ? PERK_BYTES_MISSING : PERK_TAG;
        at_end("perk_read_bundle", part, perk_read_bundle(from, part, &n, &m, &groups), stated);
        uint32_t length = (uint32_t)perk_field(from, part, PERK_TAG_SERIAL, &start);
        at_end("perk_field", part, length, part == package_len ? (uint32_t)(serial_len - 3) : 0);
        length = (uint32_t)perk_field(from, part, PERK_TAG_Y, &start);
        at_end("perk_field", part, length, part == package_len && y_len > 0 ? (uint32_t)(y_len - 3) : 0);
    }
}

/* the package of a key with unit rows, this last element of y and zeros, with this serial, to outputs that end where memory ends: nothing is
   written to one that is too short, and one of the package's length is read back */
static void output(uint16_t last, uint32_t serial) {
    static const uint16_t x[N], a[W * D];
    static const uint8_t t[N * D];
    uint16_t h[M * N] = {0}, y[M] = {0};
    for (size_t i = 0; i < M; i++) h[i * N + i] = 1;
    y[M - 1] = last;
    size_t exact = PERK_PACKAGE_BYTES(N, M, last != 0, serial);
    struct slice s = {exact, 1, NULL, 0};
    place(&s);
    uint8_t *start = s.start;
    for (size_t room = 0; room <= exact; room++) {
        size_t length = SIZE_MAX, kept = 0;
        memset(start, 0xA5, exact);
        at_end("perk_write_package", room, perk_write_package(N, M, h, M * N, x, N, y, M, serial, t, N * D, a, W * D, start + exact - room, room, &length),
               room < exact ? PERK_SHORT_OUTPUT : PERK_DONE);
        while (kept < exact && start[kept] == 0xA5) kept++;
        if (room < exact ? kept == exact && length == SIZE_MAX : length == exact) continue;
        printf("perk_write_package: output or length for %zu bytes\n", room);
        failed++;
    }
    uint32_t n, m, number;
    at_end("perk_read_package", exact, perk_read_package(start, exact, &n, &m, &number), PERK_DONE);
}

/* bytes, and memory that has a page before it and one after it that cannot be read: of the first bundle, the second and the output */
struct bytes {
    uint8_t *start;
    size_t len;
};
static struct bytes rooms[3];

static void make_rooms(void) {
    size_t page = (size_t)sysconf(_SC_PAGESIZE);
    for (size_t i = 0; i < 3; i++) {
        uint8_t *start = mmap(NULL, 3 * page, PROT_NONE, MAP_PRIVATE | MAP_ANONYMOUS, -1, 0);
        if (start == MAP_FAILED || mprotect(start + page, page, PROT_READ | PROT_WRITE) != 0) exit(2);
        rooms[i] = (struct bytes){start + page, page};
    }
}

/* the place of so many bytes that begin where a room begins, or end where it ends */
static uint8_t *at_edge(size_t of, size_t len, int begins) { return rooms[of].start + (begins ? 0 : rooms[of].len - len); }

/* looks at two bundles at an edge of their rooms, for an output of this length: the answer is the one stated, and the two numbers are these where it
   is done, and else kept */
static void look(struct bytes first, struct bytes second, int begins, size_t out_len, size_t joined_len, size_t count, uint32_t stated) {
    size_t length = SIZE_MAX / 2, groups = SIZE_MAX / 3;
    at_end("perk_look_before_join", first.len, perk_look_before_join(at_edge(0, first.len, begins), first.len, at_edge(1, second.len, begins),
           second.len, out_len, &length, &groups), stated);
    if (stated == PERK_DONE ? length == joined_len && groups == count : length == SIZE_MAX / 2 && groups == SIZE_MAX / 3) return;
    printf("perk_look_before_join: length or groups for %zu and %zu bytes to %zu\n", first.len, second.len, out_len);
    failed++;
}

/* joins two bundles to an output of this length, all at an edge of their rooms: the answer is the one stated, the output begins with these bytes
   where it is done, and the rest of its room stays. Looks before with this length, and with the largest, for which the answer is never 13 */
static void join(struct bytes first, struct bytes second, size_t out_len, struct bytes joined, size_t count, uint32_t stated) {
    for (int begins = 0; begins < 2; begins++) {
        uint8_t *out = at_edge(2, out_len, begins), *end = rooms[2].start + rooms[2].len;
        size_t length = SIZE_MAX, groups = SIZE_MAX, written = stated == PERK_DONE ? joined.len : 0;
        if (first.len > 0) memcpy(at_edge(0, first.len, begins), first.start, first.len);
        if (second.len > 0) memcpy(at_edge(1, second.len, begins), second.start, second.len);
        look(first, second, begins, out_len, joined.len, count, stated);
        look(first, second, begins, SIZE_MAX, joined.len, count, stated == PERK_SHORT_OUTPUT ? PERK_DONE : stated);
        memset(rooms[2].start, 0xA5, rooms[2].len);
        at_end("perk_join_bundles", first.len, perk_join_bundles(at_edge(0, first.len, begins), first.len, at_edge(1, second.len, begins), second.len,
               out, out_len, &length, &groups), stated);
        int right = stated == PERK_DONE ? length == joined.len && groups == count : length == SIZE_MAX && groups == SIZE_MAX;
        if (written > 0) right = right && memcmp(out, joined.start, written) == 0;
        for (uint8_t *byte = rooms[2].start; byte < end; byte++) right = right && (*byte == 0xA5 || (byte >= out && byte < out + written));
        if (right) continue;
        printf("perk_join_bundles: output, length or groups for %zu and %zu bytes to %zu\n", first.len, second.len, out_len);
        failed++;
    }
}

enum { BUNDLE = PERK_KEY_BYTES(2, 1, 1) + 3 * PERK_GROUP_BYTES(2, 65536) };

/* the bundle of n = 2, m = 1, H = (1 0) and x = (0 0) with this y, or without a field of it where it is 0, and these serials; t and a are zero */
static struct bytes bundle(uint8_t *to, uint16_t y, const uint32_t *serials, size_t count) {
    static const uint16_t h[2] = {1, 0}, zeros[W];
    static const uint8_t t[2];
    uint8_t package[PERK_PACKAGE_BYTES(2, 1, 1, 65536)];
    size_t length, key = PERK_KEY_BYTES(2, 1, y != 0), len = key;
    for (size_t i = 0; i < count; i++) {
        if (perk_write_package(2, 1, h, 2, zeros, 2, &y, 1, serials[i], t, 2, zeros, W, package, sizeof package, &length) != PERK_DONE) exit(2);
        memcpy(to, package, key);
        memcpy(to + len, package + key, length - key);
        len += length - key;
    }
    return (struct bytes){to, len};
}

/* every part of one bundle with the whole other, in either order: a part is a bundle where it ends with a group */
static void parts(uint16_t y) {
    static const uint32_t serials[3] = {7, 8, 65536};
    uint8_t whole[BUNDLE], other[BUNDLE], joined[BUNDLE];
    size_t end = bundle(whole, y, serials + 1, 1).len, ends = bundle(whole, y, serials + 1, 2).len;
    for (size_t others = 1; others <= 2; others++) {
        struct bytes second = bundle(other, y, serials, others);
        for (size_t len = 0; len <= ends; len++) {
            size_t count = len == end ? 1 : len == ends ? 2 : 0;
            struct bytes part = {whole, len}, both = bundle(joined, y, serials, count + 1);
            join(part, second, BUNDLE, both, count + 1, count > 0 ? PERK_DONE : PERK_BYTES_MISSING);
            join(second, part, BUNDLE, both, count + 1, count > 0 ? PERK_DONE : PERK_BYTES_MISSING);
        }
    }
}

/* outputs from none to two bytes more than the joined bundle has; 20, 21 and 22, which come before 13 */
static void outputs(uint16_t y) {
    static const uint32_t serials[3] = {7, 8, 65536}, twice[2] = {7, 7};
    uint8_t low[BUNDLE], high[BUNDLE], joined[BUNDLE], wrong[BUNDLE];
    struct bytes first = bundle(low, y, serials, 2), second = bundle(high, y, serials + 1, 2), both = bundle(joined, y, serials, 3);
    for (size_t room = 0; room <= both.len + 2; room++) {
        join(first, second, room, both, 3, room < both.len ? PERK_SHORT_OUTPUT : PERK_DONE);
        join(second, first, room, both, 3, room < both.len ? PERK_SHORT_OUTPUT : PERK_DONE);
        join(both, both, room, both, 3, room < both.len ? PERK_SHORT_OUTPUT : PERK_DONE);
        struct bytes other = bundle(wrong, y, twice, 2);
        join(other, first, room, both, 3, PERK_SERIAL_ORDER);
        join(first, other, room, both, 3, PERK_SERIAL_ORDER);
        other = bundle(wrong, y ^ 1, serials, 3);
        join(first, other, room, both, 3, PERK_OTHER_KEY);
        join(other, first, room, both, 3, PERK_OTHER_KEY);
        /* the last byte of a */
        other = bundle(wrong, y, serials, 2);
        wrong[other.len - 1] = 1;
        join(first, other, room, both, 3, PERK_GROUPS_DIFFER);
        join(other, second, room, both, 3, PERK_GROUPS_DIFFER);
    }
}

/* a quick look at positions of this n at an edge of their room, with an index at an edge of its own: the answer is the one stated, index is this
   where it is an offender, and everything else in both rooms stays */
static void look_quickly(size_t n, size_t told, int begins, uint32_t stated, size_t offender) {
    uint8_t positions[64], *from = at_edge(0, n, begins), *place = at_edge(2, sizeof offender, begins), *end = rooms[2].start + rooms[2].len;
    size_t index;
    memcpy(positions, from, n);
    memset(rooms[2].start, 0xA5, rooms[2].len);
    memcpy(&index, place, sizeof index);
    if (stated == PERK_OFFENDER) index = offender;
    at_end("perk_quick_look", told, perk_quick_look(n, from, told, (size_t *)(void *)place), stated);
    int right = memcmp(place, &index, sizeof index) == 0 && memcmp(positions, from, n) == 0;
    for (uint8_t *byte = rooms[2].start; byte < end; byte++)
        right = right && (*byte == 0xA5 || (byte >= place && byte < place + sizeof index));
    if (right) return;
    printf("perk_quick_look: index or positions for %zu bytes at n = %zu\n", told, n);
    failed++;
}

/* quick looks at an order, at lists with each index as that of the offender, the last too, and at lengths that are too long or too short */
static void orders(size_t n, int begins) {
    const size_t wrong[] = {n + 1, 2 * n, n + 4096, SIZE_MAX / 2, n - 1, 0};
    uint8_t *positions = at_edge(0, n, begins);
    for (size_t i = 0; i < n; i++) positions[i] = (uint8_t)(n - 1 - i);
    look_quickly(n, n, begins, PERK_DONE, 0);
    for (size_t k = 0; k < sizeof wrong / sizeof *wrong; k++) look_quickly(n, wrong[k], begins, PERK_SLICE_LENGTH, 0);
    for (size_t i = 0; i < n; i++) {
        positions[i] = 255;
        look_quickly(n, n, begins, PERK_OFFENDER, i);
        positions[i] = (uint8_t)n;
        look_quickly(n, n, begins, PERK_OFFENDER, i);
        /* the first position once more; at its own place it is all well */
        positions[i] = (uint8_t)(n - 1);
        look_quickly(n, n, begins, i > 0 ? PERK_OFFENDER : PERK_DONE, i);
        positions[i] = (uint8_t)(n - 1 - i);
    }
}

/* every entry with right lengths, and with one wrong */
static void lengths(void) {
    for (size_t e = 0; e < sizeof entries / sizeof *entries; e++) {
        struct slice *s = entries[e].slices;
        size_t slices = 0;
        while (slices < MOST && s[slices].count > 0) place(&s[slices++]);
        /* the rows of H, the first slice of rank too, are unit rows, so that none leans on another; x and y are zero, so every order solves
           such a key; the slices of n bytes hold the positions */
        if (s[0].count == M * N)
            for (size_t i = 0; i < M; i++) ((uint16_t *)s[0].start)[i * N + i] = 1;
        for (size_t i = 0; i < slices; i++)
            for (size_t k = 0; s[i].count == N && s[i].size == 1 && k < N; k++) ((uint8_t *)s[i].start)[k] = (uint8_t)k;
        uint32_t right = entries[e].call(s);
        calls++;
        if (right != 0 && right != 255) {
            printf("%s: %u for right lengths\n", entries[e].name, (unsigned)right);
            failed++;
        }
        for (size_t i = 0; i < slices; i++) {
            const size_t wrong[] = {s[i].count + 1, 2 * s[i].count, s[i].count + 4096, SIZE_MAX / 2, s[i].count - 1, 0};
            for (size_t k = 0; k < sizeof wrong / sizeof *wrong; k++) {
                s[i].told = wrong[k];
                uint32_t found = entries[e].call(s);
                calls++;
                if (found != LENGTH) {
                    printf("%s: %u for length %zu of slice %zu\n", entries[e].name, (unsigned)found, wrong[k], i);
                    failed++;
                }
            }
            s[i].told = s[i].count;
        }
    }
}

int main(void) {
    static const uint8_t short_serial[] = {PERK_TAG_SERIAL, 0, 2, 255, 255}, long_serial[] = {PERK_TAG_SERIAL, 0, 4, 0, 1, 0, 0};
    static const uint8_t y[] = {PERK_TAG_Y, 0, 2, 7, 0};
    make_rooms();
    for (size_t y_len = 0; y_len <= sizeof y; y_len += sizeof y) {
        file(y, y_len, short_serial, sizeof short_serial);
        file(y, y_len, long_serial, sizeof long_serial);
    }
    for (uint16_t last = 0; last <= 2047; last += 2047) {
        output(last, 65535);
        output(last, 65536);
        parts(last);
        outputs(last);
    }
    for (size_t n = 2; n <= 64; n++) {
        orders(n, 0);
        orders(n, 1);
    }
    lengths();
    printf("%u calls, %u failed\n", calls, failed);
    return failed != 0;
}
