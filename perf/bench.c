/* Times each implementation over one buffer of 16 MiB, in turns, and prints the best of them.
   bench            times all;  bench count NAME BLOCKS runs one function, for an instruction count. */
#include <stdint.h>
#include <stdio.h>
#include <stdlib.h>
#include <string.h>
#include <time.h>
#include "ciphers.h"

#define SIZE (16u << 20)
#define ROUNDS 9

typedef void call(const uint32_t *, uint32_t *);

struct one { const char *name; call *go; double best; };

/* NAME OPERATION by rattle, gcc, clang */
#define ROW(o) { { "rattle_" #o, rattle_##o, 0 }, GCC(o), CLANG(o) }
#ifdef WITH_GCC
#define GCC(o) { "gcc_" #o, gcc_##o, 0 }
#else
#define GCC(o) { "gcc_" #o, 0, 0 }
#endif
#ifdef WITH_CLANG
#define CLANG(o) { "clang_" #o, clang_##o, 0 }
#else
#define CLANG(o) { "clang_" #o, 0, 0 }
#endif

static struct one table[][3] = {
    ROW(shacal1_enc), ROW(shacal1_dec), ROW(shacal1_feed),
    ROW(shacal2_enc), ROW(shacal2_dec), ROW(shacal2_feed),
};
#define ROWS (sizeof table / sizeof table[0])

static double now(void)
{
    struct timespec t;
    clock_gettime(CLOCK_MONOTONIC, &t);
    return t.tv_sec + t.tv_nsec * 1e-9;
}

/* The buffer's blocks are the keys, one after the other; the state goes through all of them. */
static void run(call *go, const uint32_t *buffer, size_t blocks, uint32_t *state)
{
    for (size_t i = 0; i < blocks; i++)
        go(buffer + 16 * i, state);
}

static void begin(uint32_t *state)
{
    for (uint32_t i = 0; i < 8; i++)
        state[i] = 0x01234567u * (i + 1);
}

int main(int argc, char **argv)
{
    uint32_t *buffer = malloc(SIZE);
    uint32_t x = 1;
    if (!buffer)
        return 2;
    for (size_t i = 0; i < SIZE / 4; i++) {
        x = x * 1664525u + 1013904223u;
        buffer[i] = x;
    }
    uint32_t state[8], first[8];
    if (argc == 4 && !strcmp(argv[1], "count")) {
        for (size_t r = 0; r < ROWS; r++)
            for (int c = 0; c < 3; c++)
                if (table[r][c].go && !strcmp(argv[2], table[r][c].name)) {
                    begin(state);
                    run(table[r][c].go, buffer, strtoul(argv[3], 0, 10), state);
                    return 0;
                }
        return 1;
    }
    for (size_t r = 0; r < ROWS; r++) {
        for (int round = 0; round < ROUNDS; round++)
            for (int c = 0; c < 3; c++) {
                struct one *o = &table[r][c];
                if (!o->go)
                    continue;
                begin(state);
                double t = now();
                run(o->go, buffer, SIZE / 64, state);
                t = SIZE / 1e6 / (now() - t);
                if (t > o->best)
                    o->best = t;
                if (c == 0)
                    memcpy(first, state, sizeof first);
                else if (memcmp(first, state, sizeof first)) {
                    printf("%s differs\n", o->name);
                    return 1;
                }
            }
        double c_best = table[r][1].best > table[r][2].best ? table[r][1].best : table[r][2].best;
        for (int c = 0; c < 3; c++)
            if (table[r][c].go)
                printf("%s %.1f MB/s ratio %.3f\n", table[r][c].name, table[r][c].best, table[r][c].best / c_best);
    }
    free(buffer);
    return 0;
}
