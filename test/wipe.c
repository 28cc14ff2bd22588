/*
 * What perk.h says of secrets on the stack: perk_prove leaves bytes below its caller, and a function called directly after it that
 * writes zeros over a local array of the stated size leaves none. Both run on a thread's stack of zeros.
 */
#include <pthread.h>
#include <stdio.h>
#include <stdlib.h>
#include <string.h>
#include "perk.h"

/* ROOM is the stack that perk.h states for perk_prove; FRAME is room for the caller's own frame */
enum { N = 64, M = 27, SIZE = 1 << 18, ROOM = 24 * 1024, FRAME = 256 };

static uint16_t h[PERK_H_WORDS(N, M)], x[PERK_X_WORDS(N)], y[PERK_Y_WORDS(M)], v[PERK_V_WORDS(N)], r[PERK_R_WORDS(N)], s[PERK_S_WORDS(N)];
static uint16_t alpha[PERK_ALPHA_WORDS(N, M)], a[PERK_A_WORDS(N)];
static uint8_t positions[N], u[PERK_U_BYTES(N)], t[PERK_T_BYTES(N)];
static int wiping;
static uint32_t result;
static unsigned char *caller;

static void __attribute__((noinline)) wipe(void) {
    unsigned char room[ROOM];
    volatile unsigned char *at = room;
    for (size_t i = 0; i < sizeof room; i++) at[i] = 0;
}

static void *run(void *unused) {
    caller = __builtin_frame_address(0);
    result = perk_prove(N, M, h, PERK_H_WORDS(N, M), x, N, y, M, positions, N, u, sizeof u, v, PERK_V_WORDS(N), r, PERK_R_WORDS(N), s,
                        PERK_S_WORDS(N), alpha, PERK_ALPHA_WORDS(N, M), t, sizeof t, a, PERK_A_WORDS(N));
    if (wiping) wipe();
    return unused;
}

/* the bytes below the caller's frame that are not zero */
static size_t left(int wiped) {
    unsigned char *stack;
    pthread_attr_t attributes;
    pthread_t thread;
    wiping = wiped;
    if (posix_memalign((void **)&stack, 4096, SIZE) != 0) exit(2);
    memset(stack, 0, SIZE);
    if (pthread_attr_init(&attributes) != 0 || pthread_attr_setstack(&attributes, stack, SIZE) != 0 ||
        pthread_create(&thread, &attributes, run, NULL) != 0 || pthread_join(thread, NULL) != 0 || result != PERK_DONE)
        exit(2);
    size_t bytes = 0;
    for (unsigned char *at = stack; at < caller - FRAME; at++) bytes += *at != 0;
    free(stack);
    return bytes;
}

int main(void) {
    /* H has unit rows, x and y are zero, so that the order 0, 1, .. solves the key */
    for (int e = 0; e < M; e++) h[e * N + e] = 1;
    for (int i = 0; i < N; i++) positions[i] = (uint8_t)i;
    for (int i = 0; i < PERK_V_WORDS(N); i++) v[i] = (uint16_t)(1 + i * 37 % 2047);
    for (int i = 0; i < PERK_ALPHA_WORDS(N, M); i++) alpha[i] = (uint16_t)(1 + i * 91 % 2047);
    size_t before = left(0), after = left(1);
    printf("bytes left: %lu, after wiping: %lu\n", (unsigned long)before, (unsigned long)after);
    return before > 0 && after == 0 ? 0 : 1;
}
