/* Times whole-message hashing over 16 MiB by processor time, in turns, and prints the best of them; then the proved code at 1, 4 and
   16 MiB. All have to make the same digest. With the argument 'openssl' OpenSSL alone is timed. */
#include <stdbool.h>
#include <stdint.h>
#include <stdio.h>
#include <stdlib.h>
#include <string.h>
#include <time.h>
#ifdef WITH_OPENSSL
#include <openssl/sha.h>
#endif

#define SIZE ((size_t)16 << 20)
#define ROUNDS 25

typedef void call(const uint8_t *, size_t, uint32_t *);

bool rattle_sha1(const uint8_t *, size_t, uint32_t *);
bool rattle_sha256(const uint8_t *, size_t, uint32_t *);
call gcc_sha1, gcc_sha256, clang_sha1, clang_sha256;

static void proved1(const uint8_t *bytes, size_t n, uint32_t *digest) { if (!rattle_sha1(bytes, n, digest)) exit(2); }
static void proved2(const uint8_t *bytes, size_t n, uint32_t *digest) { if (!rattle_sha256(bytes, n, digest)) exit(2); }

#ifdef WITH_OPENSSL
static void swap(uint32_t *digest, int n) { for (int i = 0; i < n; i++) digest[i] = __builtin_bswap32(digest[i]); }
static void openssl1(const uint8_t *bytes, size_t n, uint32_t *digest) { SHA1(bytes, n, (uint8_t *)digest); swap(digest, 5); }
static void openssl2(const uint8_t *bytes, size_t n, uint32_t *digest) { SHA256(bytes, n, (uint8_t *)digest); swap(digest, 8); }
#else
#define openssl1 0
#define openssl2 0
#endif
#ifndef WITH_GCC
#define gcc_sha1 0
#define gcc_sha256 0
#endif
#ifndef WITH_CLANG
#define clang_sha1 0
#define clang_sha256 0
#endif

static const char *names[] = { "rattle", "gcc", "clang", "openssl" };
static struct { const char *name; int words; call *by[4]; } table[] = {
    { "sha1", 5, { proved1, gcc_sha1, clang_sha1, openssl1 } },
    { "sha256", 8, { proved2, gcc_sha256, clang_sha256, openssl2 } },
};

static double rate(call *go, const uint8_t *bytes, size_t n, uint32_t *digest)
{
    struct timespec a, b;
    clock_gettime(CLOCK_PROCESS_CPUTIME_ID, &a);
    go(bytes, n, digest);
    clock_gettime(CLOCK_PROCESS_CPUTIME_ID, &b);
    return n / 1e6 / (b.tv_sec - a.tv_sec + (b.tv_nsec - a.tv_nsec) * 1e-9);
}

int main(int argc, char **argv)
{
    uint8_t *bytes = malloc(SIZE);
    uint32_t x = 1, first[8], digest[8];
    int alone = argc > 1 && !strcmp(argv[1], "openssl");
    if (!bytes)
        return 2;
    for (size_t i = 0; i < SIZE; i++) {
        x = x * 1664525u + 1013904223u;
        bytes[i] = x >> 24;
    }
    for (int r = 0; r < 2; r++) {
        double best[4] = { 0 }, by_size[3] = { 0 };
        for (int round = 0; round < ROUNDS; round++) {
            for (int c = alone ? 3 : 0; c < 4; c++) {
                if (!table[r].by[c])
                    continue;
                double t = rate(table[r].by[c], bytes, SIZE, digest);
                if (t > best[c])
                    best[c] = t;
                if (c == 0)
                    memcpy(first, digest, sizeof first);
                else if (!alone && memcmp(first, digest, 4 * table[r].words)) {
                    printf("%s_%s differs\n", names[c], table[r].name);
                    return 1;
                }
            }
            for (int s = 0; !alone && s < 3; s++)
                for (int again = 0; again < 16 >> 2 * s; again++) {
                    double t = rate(table[r].by[0], bytes, SIZE >> 2 * (2 - s), digest);
                    if (t > by_size[s])
                        by_size[s] = t;
                }
        }
        double plain = best[1] > best[2] ? best[1] : best[2];
        for (int c = 0; c < 4; c++)
            if (best[c] > 0) {
                printf("%s_%s %.1f MB/s", names[c], table[r].name, best[c]);
                printf(alone ? "\n" : " ratio %.3f\n", best[c] / plain);
            }
        if (!alone)
            printf("rattle_%s at 1, 4 and 16 MiB: %.1f %.1f %.1f MB/s\n", table[r].name, by_size[0], by_size[1], by_size[2]);
    }
    free(bytes);
    return 0;
}
