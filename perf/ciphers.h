/* One call a block: sixteen key words, and the words of the block in place. */
#include <stdint.h>

#define DECLARE(p) \
    void p##_shacal1_enc(const uint32_t *, uint32_t *); \
    void p##_shacal1_dec(const uint32_t *, uint32_t *); \
    void p##_shacal1_feed(const uint32_t *, uint32_t *); \
    void p##_shacal2_enc(const uint32_t *, uint32_t *); \
    void p##_shacal2_dec(const uint32_t *, uint32_t *); \
    void p##_shacal2_feed(const uint32_t *, uint32_t *);

DECLARE(rattle)
DECLARE(gcc)
DECLARE(clang)
