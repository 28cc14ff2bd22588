/*
 * For records rooms: joins the bundles in two files to one in a third. It looks before it lends an output: a joined bundle that fits the buffer at
 * hand is written there, and a longer one to memory of exactly its length. What is refused is told before memory is taken or a file is made, and
 * ends the program with 1.
 *
 *   gcc -I../../include look_before_join.c ../../crates/perk/out/libperk.a -o look_before_join
 *   ./look_before_join FIRST SECOND JOINED
 */
#include <stdio.h>
#include <stdlib.h>
#include "perk.h"

/* the length of the buffer at hand */
enum { AT_HAND = 128 };

struct bytes {
    uint8_t *start;
    size_t len;
};

/* stops the program where memory or a file fails */
static void must(int right, const char *what) {
    if (right) return;
    fprintf(stderr, "%s: failed\n", what);
    exit(2);
}

/* the bytes of a file */
static struct bytes contents(const char *name) {
    struct bytes read = {NULL, 0};
    size_t room = 0, count;
    FILE *file = fopen(name, "rb");
    must(file != NULL, name);
    do {
        if (read.len == room) {
            room = 2 * room + 4096;
            read.start = realloc(read.start, room);
            must(read.start != NULL, name);
        }
        count = fread(read.start + read.len, 1, room - read.len, file);
        read.len += count;
    } while (count > 0);
    must(!ferror(file), name);
    fclose(file);
    return read;
}

/* what the join would answer with an output of this length, printed; length is written where it is done */
static uint32_t look(struct bytes first, struct bytes second, size_t room, size_t *length) {
    size_t groups;
    uint32_t result = perk_look_before_join(first.start, first.len, second.start, second.len, room, length, &groups);
    if (result == PERK_DONE)
        printf("%lu groups, %lu bytes\n", (unsigned long)groups, (unsigned long)*length);
    else
        printf("refused %u: %s\n", (unsigned)result, perk_refusal_text(result));
    return result;
}

/* joins the two and stores the joined bundle, of the length that a look has told for this output */
static void join(struct bytes first, struct bytes second, struct bytes out, size_t told, const char *name) {
    size_t length, groups;
    uint32_t result = perk_join_bundles(first.start, first.len, second.start, second.len, out.start, out.len, &length, &groups);
    must(result == PERK_DONE && length == told, "join");
    FILE *file = fopen(name, "wb");
    must(file != NULL && fwrite(out.start, 1, length, file) == length && fclose(file) == 0, name);
}

int main(int argc, char **argv) {
    if (argc != 4) {
        fprintf(stderr, "usage: look_before_join FIRST SECOND JOINED\n");
        return 2;
    }
    struct bytes first = contents(argv[1]), second = contents(argv[2]);
    uint8_t buffer[AT_HAND], *taken = NULL;
    struct bytes out = {buffer, AT_HAND};
    size_t length;
    printf("the buffer of %d bytes: ", AT_HAND);
    uint32_t result = look(first, second, out.len, &length);
    if (result == PERK_SHORT_OUTPUT) {
        /* 13 tells no length: with the largest room it is told */
        printf("memory of its length: ");
        result = look(first, second, SIZE_MAX, &length);
        if (result == PERK_DONE) {
            taken = malloc(length);
            must(taken != NULL, "memory");
            out = (struct bytes){taken, length};
        }
    }
    if (result == PERK_DONE) join(first, second, out, length, argv[3]);
    free(taken);
    free(first.start);
    free(second.start);
    return result == PERK_DONE ? 0 : 1;
}
