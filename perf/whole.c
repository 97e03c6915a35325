/* Whole messages in plain C to measure against: each block read as sixteen words and fed forward by unrolled.c, which is
   compiled in here, so that the compiler sees both. */
#include <stddef.h>
#include <string.h>
#include "unrolled.c"

static inline void load(const uint8_t *bytes, uint32_t *words)
{
    for (int i = 0; i < 16; i++) {
        uint32_t w;
        memcpy(&w, bytes + 4 * i, 4);
        words[i] = __builtin_bswap32(w);
    }
}

/* The last bytes with the mark and the length behind them: one block or two. */
static size_t end(const uint8_t *bytes, size_t n, uint8_t *last)
{
    size_t rest = n % 64, size = rest < 56 ? 64 : 128;
    memset(last, 0, size);
    memcpy(last, bytes + n - rest, rest);
    last[rest] = 0x80;
    for (int i = 0; i < 8; i++)
        last[size - 1 - i] = (uint8_t)((uint64_t)n * 8 >> 8 * i);
    return size;
}

#define WHOLE(name, feed, count, ...) \
    void NAME(name)(const uint8_t *bytes, size_t n, uint32_t *digest) \
    { \
        static const uint32_t start[count] = { __VA_ARGS__ }; \
        uint32_t words[16]; \
        uint8_t last[128]; \
        memcpy(digest, start, sizeof start); \
        for (size_t i = 0; i < n / 64; i++) { \
            load(bytes + 64 * i, words); \
            NAME(feed)(words, digest); \
        } \
        size_t size = end(bytes, n, last); \
        for (size_t i = 0; i < size; i += 64) { \
            load(last + i, words); \
            NAME(feed)(words, digest); \
        } \
    }

WHOLE(_sha1, _shacal1_feed, 5, 0x67452301, 0xEFCDAB89, 0x98BADCFE, 0x10325476, 0xC3D2E1F0)
WHOLE(_sha256, _shacal2_feed, 8, 0x6A09E667, 0xBB67AE85, 0x3C6EF372, 0xA54FF53A, 0x510E527F, 0x9B05688C, 0x1F83D9AB, 0x5BE0CD19)
