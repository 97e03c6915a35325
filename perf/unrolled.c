/* Plain C to measure against: every step written out, the schedule rolling in sixteen words.
   PREFIX names the compiler, so that two builds of this file can be linked into one program. */
#include <stdint.h>
#include "ciphers.h"

#define JOIN2(a, b) a##b
#define JOIN(a, b) JOIN2(a, b)
#define NAME(f) JOIN(PREFIX, f)

#define ROTL(x, n) (((x) << (n)) | ((x) >> (32 - (n))))
#define ROTR(x, n) (((x) >> (n)) | ((x) << (32 - (n))))
#define CH(x, y, z) ((z) ^ ((x) & ((y) ^ (z))))
#define PAR(x, y, z) ((x) ^ (y) ^ (z))
#define MAJ(x, y, z) ((y) ^ (((x) ^ (y)) & ((y) ^ (z))))

/* ---- SHACAL-1: 80 steps over five words */

#define W1(t) (w[(t) & 15] = ROTL(w[((t) + 13) & 15] ^ w[((t) + 8) & 15] ^ w[((t) + 2) & 15] ^ w[(t) & 15], 1))
#define S1(f, k, a, b, c, d, e, x) e += ROTL(a, 5) + f(b, c, d) + (k) + (x); b = ROTL(b, 30);
#define U1(f, k, a, b, c, d, e, x) b = ROTR(b, 30); e -= ROTL(a, 5) + f(b, c, d) + (k) + (x);

static inline __attribute__((always_inline)) void enc1(const uint32_t *key, uint32_t *s, const uint32_t *add)
{
    uint32_t w[16];
    uint32_t a = s[0], b = s[1], c = s[2], d = s[3], e = s[4];
    for (int i = 0; i < 16; i++)
        w[i] = key[i];
    S1(CH, 0x5A827999, a, b, c, d, e, w[0])
    S1(CH, 0x5A827999, e, a, b, c, d, w[1])
    S1(CH, 0x5A827999, d, e, a, b, c, w[2])
    S1(CH, 0x5A827999, c, d, e, a, b, w[3])
    S1(CH, 0x5A827999, b, c, d, e, a, w[4])
    S1(CH, 0x5A827999, a, b, c, d, e, w[5])
    S1(CH, 0x5A827999, e, a, b, c, d, w[6])
    S1(CH, 0x5A827999, d, e, a, b, c, w[7])
    S1(CH, 0x5A827999, c, d, e, a, b, w[8])
    S1(CH, 0x5A827999, b, c, d, e, a, w[9])
    S1(CH, 0x5A827999, a, b, c, d, e, w[10])
    S1(CH, 0x5A827999, e, a, b, c, d, w[11])
    S1(CH, 0x5A827999, d, e, a, b, c, w[12])
    S1(CH, 0x5A827999, c, d, e, a, b, w[13])
    S1(CH, 0x5A827999, b, c, d, e, a, w[14])
    S1(CH, 0x5A827999, a, b, c, d, e, w[15])
    S1(CH, 0x5A827999, e, a, b, c, d, W1(16))
    S1(CH, 0x5A827999, d, e, a, b, c, W1(17))
    S1(CH, 0x5A827999, c, d, e, a, b, W1(18))
    S1(CH, 0x5A827999, b, c, d, e, a, W1(19))
    S1(PAR, 0x6ED9EBA1, a, b, c, d, e, W1(20))
    S1(PAR, 0x6ED9EBA1, e, a, b, c, d, W1(21))
    S1(PAR, 0x6ED9EBA1, d, e, a, b, c, W1(22))
    S1(PAR, 0x6ED9EBA1, c, d, e, a, b, W1(23))
    S1(PAR, 0x6ED9EBA1, b, c, d, e, a, W1(24))
    S1(PAR, 0x6ED9EBA1, a, b, c, d, e, W1(25))
    S1(PAR, 0x6ED9EBA1, e, a, b, c, d, W1(26))
    S1(PAR, 0x6ED9EBA1, d, e, a, b, c, W1(27))
    S1(PAR, 0x6ED9EBA1, c, d, e, a, b, W1(28))
    S1(PAR, 0x6ED9EBA1, b, c, d, e, a, W1(29))
    S1(PAR, 0x6ED9EBA1, a, b, c, d, e, W1(30))
    S1(PAR, 0x6ED9EBA1, e, a, b, c, d, W1(31))
    S1(PAR, 0x6ED9EBA1, d, e, a, b, c, W1(32))
    S1(PAR, 0x6ED9EBA1, c, d, e, a, b, W1(33))
    S1(PAR, 0x6ED9EBA1, b, c, d, e, a, W1(34))
    S1(PAR, 0x6ED9EBA1, a, b, c, d, e, W1(35))
    S1(PAR, 0x6ED9EBA1, e, a, b, c, d, W1(36))
    S1(PAR, 0x6ED9EBA1, d, e, a, b, c, W1(37))
    S1(PAR, 0x6ED9EBA1, c, d, e, a, b, W1(38))
    S1(PAR, 0x6ED9EBA1, b, c, d, e, a, W1(39))
    S1(MAJ, 0x8F1BBCDC, a, b, c, d, e, W1(40))
    S1(MAJ, 0x8F1BBCDC, e, a, b, c, d, W1(41))
    S1(MAJ, 0x8F1BBCDC, d, e, a, b, c, W1(42))
    S1(MAJ, 0x8F1BBCDC, c, d, e, a, b, W1(43))
    S1(MAJ, 0x8F1BBCDC, b, c, d, e, a, W1(44))
    S1(MAJ, 0x8F1BBCDC, a, b, c, d, e, W1(45))
    S1(MAJ, 0x8F1BBCDC, e, a, b, c, d, W1(46))
    S1(MAJ, 0x8F1BBCDC, d, e, a, b, c, W1(47))
    S1(MAJ, 0x8F1BBCDC, c, d, e, a, b, W1(48))
    S1(MAJ, 0x8F1BBCDC, b, c, d, e, a, W1(49))
    S1(MAJ, 0x8F1BBCDC, a, b, c, d, e, W1(50))
    S1(MAJ, 0x8F1BBCDC, e, a, b, c, d, W1(51))
    S1(MAJ, 0x8F1BBCDC, d, e, a, b, c, W1(52))
    S1(MAJ, 0x8F1BBCDC, c, d, e, a, b, W1(53))
    S1(MAJ, 0x8F1BBCDC, b, c, d, e, a, W1(54))
    S1(MAJ, 0x8F1BBCDC, a, b, c, d, e, W1(55))
    S1(MAJ, 0x8F1BBCDC, e, a, b, c, d, W1(56))
    S1(MAJ, 0x8F1BBCDC, d, e, a, b, c, W1(57))
    S1(MAJ, 0x8F1BBCDC, c, d, e, a, b, W1(58))
    S1(MAJ, 0x8F1BBCDC, b, c, d, e, a, W1(59))
    S1(PAR, 0xCA62C1D6, a, b, c, d, e, W1(60))
    S1(PAR, 0xCA62C1D6, e, a, b, c, d, W1(61))
    S1(PAR, 0xCA62C1D6, d, e, a, b, c, W1(62))
    S1(PAR, 0xCA62C1D6, c, d, e, a, b, W1(63))
    S1(PAR, 0xCA62C1D6, b, c, d, e, a, W1(64))
    S1(PAR, 0xCA62C1D6, a, b, c, d, e, W1(65))
    S1(PAR, 0xCA62C1D6, e, a, b, c, d, W1(66))
    S1(PAR, 0xCA62C1D6, d, e, a, b, c, W1(67))
    S1(PAR, 0xCA62C1D6, c, d, e, a, b, W1(68))
    S1(PAR, 0xCA62C1D6, b, c, d, e, a, W1(69))
    S1(PAR, 0xCA62C1D6, a, b, c, d, e, W1(70))
    S1(PAR, 0xCA62C1D6, e, a, b, c, d, W1(71))
    S1(PAR, 0xCA62C1D6, d, e, a, b, c, W1(72))
    S1(PAR, 0xCA62C1D6, c, d, e, a, b, W1(73))
    S1(PAR, 0xCA62C1D6, b, c, d, e, a, W1(74))
    S1(PAR, 0xCA62C1D6, a, b, c, d, e, W1(75))
    S1(PAR, 0xCA62C1D6, e, a, b, c, d, W1(76))
    S1(PAR, 0xCA62C1D6, d, e, a, b, c, W1(77))
    S1(PAR, 0xCA62C1D6, c, d, e, a, b, W1(78))
    S1(PAR, 0xCA62C1D6, b, c, d, e, a, W1(79))
    s[0] = a + add[0]; s[1] = b + add[1]; s[2] = c + add[2]; s[3] = d + add[3]; s[4] = e + add[4];
}

void NAME(_shacal1_dec)(const uint32_t *key, uint32_t *s)
{
    uint32_t w[80];
    uint32_t a = s[0], b = s[1], c = s[2], d = s[3], e = s[4];
    for (int i = 0; i < 16; i++)
        w[i] = key[i];
    w[16] = ROTL(w[13] ^ w[8] ^ w[2] ^ w[0], 1);
    w[17] = ROTL(w[14] ^ w[9] ^ w[3] ^ w[1], 1);
    w[18] = ROTL(w[15] ^ w[10] ^ w[4] ^ w[2], 1);
    w[19] = ROTL(w[16] ^ w[11] ^ w[5] ^ w[3], 1);
    w[20] = ROTL(w[17] ^ w[12] ^ w[6] ^ w[4], 1);
    w[21] = ROTL(w[18] ^ w[13] ^ w[7] ^ w[5], 1);
    w[22] = ROTL(w[19] ^ w[14] ^ w[8] ^ w[6], 1);
    w[23] = ROTL(w[20] ^ w[15] ^ w[9] ^ w[7], 1);
    w[24] = ROTL(w[21] ^ w[16] ^ w[10] ^ w[8], 1);
    w[25] = ROTL(w[22] ^ w[17] ^ w[11] ^ w[9], 1);
    w[26] = ROTL(w[23] ^ w[18] ^ w[12] ^ w[10], 1);
    w[27] = ROTL(w[24] ^ w[19] ^ w[13] ^ w[11], 1);
    w[28] = ROTL(w[25] ^ w[20] ^ w[14] ^ w[12], 1);
    w[29] = ROTL(w[26] ^ w[21] ^ w[15] ^ w[13], 1);
    w[30] = ROTL(w[27] ^ w[22] ^ w[16] ^ w[14], 1);
    w[31] = ROTL(w[28] ^ w[23] ^ w[17] ^ w[15], 1);
    w[32] = ROTL(w[29] ^ w[24] ^ w[18] ^ w[16], 1);
    w[33] = ROTL(w[30] ^ w[25] ^ w[19] ^ w[17], 1);
    w[34] = ROTL(w[31] ^ w[26] ^ w[20] ^ w[18], 1);
    w[35] = ROTL(w[32] ^ w[27] ^ w[21] ^ w[19], 1);
    w[36] = ROTL(w[33] ^ w[28] ^ w[22] ^ w[20], 1);
    w[37] = ROTL(w[34] ^ w[29] ^ w[23] ^ w[21], 1);
    w[38] = ROTL(w[35] ^ w[30] ^ w[24] ^ w[22], 1);
    w[39] = ROTL(w[36] ^ w[31] ^ w[25] ^ w[23], 1);
    w[40] = ROTL(w[37] ^ w[32] ^ w[26] ^ w[24], 1);
    w[41] = ROTL(w[38] ^ w[33] ^ w[27] ^ w[25], 1);
    w[42] = ROTL(w[39] ^ w[34] ^ w[28] ^ w[26], 1);
    w[43] = ROTL(w[40] ^ w[35] ^ w[29] ^ w[27], 1);
    w[44] = ROTL(w[41] ^ w[36] ^ w[30] ^ w[28], 1);
    w[45] = ROTL(w[42] ^ w[37] ^ w[31] ^ w[29], 1);
    w[46] = ROTL(w[43] ^ w[38] ^ w[32] ^ w[30], 1);
    w[47] = ROTL(w[44] ^ w[39] ^ w[33] ^ w[31], 1);
    w[48] = ROTL(w[45] ^ w[40] ^ w[34] ^ w[32], 1);
    w[49] = ROTL(w[46] ^ w[41] ^ w[35] ^ w[33], 1);
    w[50] = ROTL(w[47] ^ w[42] ^ w[36] ^ w[34], 1);
    w[51] = ROTL(w[48] ^ w[43] ^ w[37] ^ w[35], 1);
    w[52] = ROTL(w[49] ^ w[44] ^ w[38] ^ w[36], 1);
    w[53] = ROTL(w[50] ^ w[45] ^ w[39] ^ w[37], 1);
    w[54] = ROTL(w[51] ^ w[46] ^ w[40] ^ w[38], 1);
    w[55] = ROTL(w[52] ^ w[47] ^ w[41] ^ w[39], 1);
    w[56] = ROTL(w[53] ^ w[48] ^ w[42] ^ w[40], 1);
    w[57] = ROTL(w[54] ^ w[49] ^ w[43] ^ w[41], 1);
    w[58] = ROTL(w[55] ^ w[50] ^ w[44] ^ w[42], 1);
    w[59] = ROTL(w[56] ^ w[51] ^ w[45] ^ w[43], 1);
    w[60] = ROTL(w[57] ^ w[52] ^ w[46] ^ w[44], 1);
    w[61] = ROTL(w[58] ^ w[53] ^ w[47] ^ w[45], 1);
    w[62] = ROTL(w[59] ^ w[54] ^ w[48] ^ w[46], 1);
    w[63] = ROTL(w[60] ^ w[55] ^ w[49] ^ w[47], 1);
    w[64] = ROTL(w[61] ^ w[56] ^ w[50] ^ w[48], 1);
    w[65] = ROTL(w[62] ^ w[57] ^ w[51] ^ w[49], 1);
    w[66] = ROTL(w[63] ^ w[58] ^ w[52] ^ w[50], 1);
    w[67] = ROTL(w[64] ^ w[59] ^ w[53] ^ w[51], 1);
    w[68] = ROTL(w[65] ^ w[60] ^ w[54] ^ w[52], 1);
    w[69] = ROTL(w[66] ^ w[61] ^ w[55] ^ w[53], 1);
    w[70] = ROTL(w[67] ^ w[62] ^ w[56] ^ w[54], 1);
    w[71] = ROTL(w[68] ^ w[63] ^ w[57] ^ w[55], 1);
    w[72] = ROTL(w[69] ^ w[64] ^ w[58] ^ w[56], 1);
    w[73] = ROTL(w[70] ^ w[65] ^ w[59] ^ w[57], 1);
    w[74] = ROTL(w[71] ^ w[66] ^ w[60] ^ w[58], 1);
    w[75] = ROTL(w[72] ^ w[67] ^ w[61] ^ w[59], 1);
    w[76] = ROTL(w[73] ^ w[68] ^ w[62] ^ w[60], 1);
    w[77] = ROTL(w[74] ^ w[69] ^ w[63] ^ w[61], 1);
    w[78] = ROTL(w[75] ^ w[70] ^ w[64] ^ w[62], 1);
    w[79] = ROTL(w[76] ^ w[71] ^ w[65] ^ w[63], 1);
    U1(PAR, 0xCA62C1D6, b, c, d, e, a, w[79])
    U1(PAR, 0xCA62C1D6, c, d, e, a, b, w[78])
    U1(PAR, 0xCA62C1D6, d, e, a, b, c, w[77])
    U1(PAR, 0xCA62C1D6, e, a, b, c, d, w[76])
    U1(PAR, 0xCA62C1D6, a, b, c, d, e, w[75])
    U1(PAR, 0xCA62C1D6, b, c, d, e, a, w[74])
    U1(PAR, 0xCA62C1D6, c, d, e, a, b, w[73])
    U1(PAR, 0xCA62C1D6, d, e, a, b, c, w[72])
    U1(PAR, 0xCA62C1D6, e, a, b, c, d, w[71])
    U1(PAR, 0xCA62C1D6, a, b, c, d, e, w[70])
    U1(PAR, 0xCA62C1D6, b, c, d, e, a, w[69])
    U1(PAR, 0xCA62C1D6, c, d, e, a, b, w[68])
    U1(PAR, 0xCA62C1D6, d, e, a, b, c, w[67])
    U1(PAR, 0xCA62C1D6, e, a, b, c, d, w[66])
    U1(PAR, 0xCA62C1D6, a, b, c, d, e, w[65])
    U1(PAR, 0xCA62C1D6, b, c, d, e, a, w[64])
    U1(PAR, 0xCA62C1D6, c, d, e, a, b, w[63])
    U1(PAR, 0xCA62C1D6, d, e, a, b, c, w[62])
    U1(PAR, 0xCA62C1D6, e, a, b, c, d, w[61])
    U1(PAR, 0xCA62C1D6, a, b, c, d, e, w[60])
    U1(MAJ, 0x8F1BBCDC, b, c, d, e, a, w[59])
    U1(MAJ, 0x8F1BBCDC, c, d, e, a, b, w[58])
    U1(MAJ, 0x8F1BBCDC, d, e, a, b, c, w[57])
    U1(MAJ, 0x8F1BBCDC, e, a, b, c, d, w[56])
    U1(MAJ, 0x8F1BBCDC, a, b, c, d, e, w[55])
    U1(MAJ, 0x8F1BBCDC, b, c, d, e, a, w[54])
    U1(MAJ, 0x8F1BBCDC, c, d, e, a, b, w[53])
    U1(MAJ, 0x8F1BBCDC, d, e, a, b, c, w[52])
    U1(MAJ, 0x8F1BBCDC, e, a, b, c, d, w[51])
    U1(MAJ, 0x8F1BBCDC, a, b, c, d, e, w[50])
    U1(MAJ, 0x8F1BBCDC, b, c, d, e, a, w[49])
    U1(MAJ, 0x8F1BBCDC, c, d, e, a, b, w[48])
    U1(MAJ, 0x8F1BBCDC, d, e, a, b, c, w[47])
    U1(MAJ, 0x8F1BBCDC, e, a, b, c, d, w[46])
    U1(MAJ, 0x8F1BBCDC, a, b, c, d, e, w[45])
    U1(MAJ, 0x8F1BBCDC, b, c, d, e, a, w[44])
    U1(MAJ, 0x8F1BBCDC, c, d, e, a, b, w[43])
    U1(MAJ, 0x8F1BBCDC, d, e, a, b, c, w[42])
    U1(MAJ, 0x8F1BBCDC, e, a, b, c, d, w[41])
    U1(MAJ, 0x8F1BBCDC, a, b, c, d, e, w[40])
    U1(PAR, 0x6ED9EBA1, b, c, d, e, a, w[39])
    U1(PAR, 0x6ED9EBA1, c, d, e, a, b, w[38])
    U1(PAR, 0x6ED9EBA1, d, e, a, b, c, w[37])
    U1(PAR, 0x6ED9EBA1, e, a, b, c, d, w[36])
    U1(PAR, 0x6ED9EBA1, a, b, c, d, e, w[35])
    U1(PAR, 0x6ED9EBA1, b, c, d, e, a, w[34])
    U1(PAR, 0x6ED9EBA1, c, d, e, a, b, w[33])
    U1(PAR, 0x6ED9EBA1, d, e, a, b, c, w[32])
    U1(PAR, 0x6ED9EBA1, e, a, b, c, d, w[31])
    U1(PAR, 0x6ED9EBA1, a, b, c, d, e, w[30])
    U1(PAR, 0x6ED9EBA1, b, c, d, e, a, w[29])
    U1(PAR, 0x6ED9EBA1, c, d, e, a, b, w[28])
    U1(PAR, 0x6ED9EBA1, d, e, a, b, c, w[27])
    U1(PAR, 0x6ED9EBA1, e, a, b, c, d, w[26])
    U1(PAR, 0x6ED9EBA1, a, b, c, d, e, w[25])
    U1(PAR, 0x6ED9EBA1, b, c, d, e, a, w[24])
    U1(PAR, 0x6ED9EBA1, c, d, e, a, b, w[23])
    U1(PAR, 0x6ED9EBA1, d, e, a, b, c, w[22])
    U1(PAR, 0x6ED9EBA1, e, a, b, c, d, w[21])
    U1(PAR, 0x6ED9EBA1, a, b, c, d, e, w[20])
    U1(CH, 0x5A827999, b, c, d, e, a, w[19])
    U1(CH, 0x5A827999, c, d, e, a, b, w[18])
    U1(CH, 0x5A827999, d, e, a, b, c, w[17])
    U1(CH, 0x5A827999, e, a, b, c, d, w[16])
    U1(CH, 0x5A827999, a, b, c, d, e, w[15])
    U1(CH, 0x5A827999, b, c, d, e, a, w[14])
    U1(CH, 0x5A827999, c, d, e, a, b, w[13])
    U1(CH, 0x5A827999, d, e, a, b, c, w[12])
    U1(CH, 0x5A827999, e, a, b, c, d, w[11])
    U1(CH, 0x5A827999, a, b, c, d, e, w[10])
    U1(CH, 0x5A827999, b, c, d, e, a, w[9])
    U1(CH, 0x5A827999, c, d, e, a, b, w[8])
    U1(CH, 0x5A827999, d, e, a, b, c, w[7])
    U1(CH, 0x5A827999, e, a, b, c, d, w[6])
    U1(CH, 0x5A827999, a, b, c, d, e, w[5])
    U1(CH, 0x5A827999, b, c, d, e, a, w[4])
    U1(CH, 0x5A827999, c, d, e, a, b, w[3])
    U1(CH, 0x5A827999, d, e, a, b, c, w[2])
    U1(CH, 0x5A827999, e, a, b, c, d, w[1])
    U1(CH, 0x5A827999, a, b, c, d, e, w[0])
    s[0] = a; s[1] = b; s[2] = c; s[3] = d; s[4] = e;
}

void NAME(_shacal1_enc)(const uint32_t *key, uint32_t *s)
{
    static const uint32_t none[5];
    enc1(key, s, none);
}

void NAME(_shacal1_feed)(const uint32_t *key, uint32_t *s)
{
    uint32_t old[5] = { s[0], s[1], s[2], s[3], s[4] };
    enc1(key, s, old);
}

/* ---- SHACAL-2: 64 steps over eight words */

#define BIG0(x) (ROTR(x, 2) ^ ROTR(x, 13) ^ ROTR(x, 22))
#define BIG1(x) (ROTR(x, 6) ^ ROTR(x, 11) ^ ROTR(x, 25))
#define SMALL0(x) (ROTR(x, 7) ^ ROTR(x, 18) ^ ((x) >> 3))
#define SMALL1(x) (ROTR(x, 17) ^ ROTR(x, 19) ^ ((x) >> 10))
#define W2(t) (w[(t) & 15] += SMALL0(w[((t) + 1) & 15]) + w[((t) + 9) & 15] + SMALL1(w[((t) + 14) & 15]))
#define S2(k, a, b, c, d, e, f, g, h, x) h += BIG1(e) + CH(e, f, g) + (k) + (x); d += h; h += BIG0(a) + MAJ(a, b, c);
#define U2(k, a, b, c, d, e, f, g, h, x) h -= BIG0(a) + MAJ(a, b, c); d -= h; h -= BIG1(e) + CH(e, f, g) + (k) + (x);

static inline __attribute__((always_inline)) void enc2(const uint32_t *key, uint32_t *s, const uint32_t *add)
{
    uint32_t w[16];
    uint32_t a = s[0], b = s[1], c = s[2], d = s[3], e = s[4], f = s[5], g = s[6], h = s[7];
    for (int i = 0; i < 16; i++)
        w[i] = key[i];
    S2(0x428A2F98, a, b, c, d, e, f, g, h, w[0])
    S2(0x71374491, h, a, b, c, d, e, f, g, w[1])
    S2(0xB5C0FBCF, g, h, a, b, c, d, e, f, w[2])
    S2(0xE9B5DBA5, f, g, h, a, b, c, d, e, w[3])
    S2(0x3956C25B, e, f, g, h, a, b, c, d, w[4])
    S2(0x59F111F1, d, e, f, g, h, a, b, c, w[5])
    S2(0x923F82A4, c, d, e, f, g, h, a, b, w[6])
    S2(0xAB1C5ED5, b, c, d, e, f, g, h, a, w[7])
    S2(0xD807AA98, a, b, c, d, e, f, g, h, w[8])
    S2(0x12835B01, h, a, b, c, d, e, f, g, w[9])
    S2(0x243185BE, g, h, a, b, c, d, e, f, w[10])
    S2(0x550C7DC3, f, g, h, a, b, c, d, e, w[11])
    S2(0x72BE5D74, e, f, g, h, a, b, c, d, w[12])
    S2(0x80DEB1FE, d, e, f, g, h, a, b, c, w[13])
    S2(0x9BDC06A7, c, d, e, f, g, h, a, b, w[14])
    S2(0xC19BF174, b, c, d, e, f, g, h, a, w[15])
    S2(0xE49B69C1, a, b, c, d, e, f, g, h, W2(16))
    S2(0xEFBE4786, h, a, b, c, d, e, f, g, W2(17))
    S2(0x0FC19DC6, g, h, a, b, c, d, e, f, W2(18))
    S2(0x240CA1CC, f, g, h, a, b, c, d, e, W2(19))
    S2(0x2DE92C6F, e, f, g, h, a, b, c, d, W2(20))
    S2(0x4A7484AA, d, e, f, g, h, a, b, c, W2(21))
    S2(0x5CB0A9DC, c, d, e, f, g, h, a, b, W2(22))
    S2(0x76F988DA, b, c, d, e, f, g, h, a, W2(23))
    S2(0x983E5152, a, b, c, d, e, f, g, h, W2(24))
    S2(0xA831C66D, h, a, b, c, d, e, f, g, W2(25))
    S2(0xB00327C8, g, h, a, b, c, d, e, f, W2(26))
    S2(0xBF597FC7, f, g, h, a, b, c, d, e, W2(27))
    S2(0xC6E00BF3, e, f, g, h, a, b, c, d, W2(28))
    S2(0xD5A79147, d, e, f, g, h, a, b, c, W2(29))
    S2(0x06CA6351, c, d, e, f, g, h, a, b, W2(30))
    S2(0x14292967, b, c, d, e, f, g, h, a, W2(31))
    S2(0x27B70A85, a, b, c, d, e, f, g, h, W2(32))
    S2(0x2E1B2138, h, a, b, c, d, e, f, g, W2(33))
    S2(0x4D2C6DFC, g, h, a, b, c, d, e, f, W2(34))
    S2(0x53380D13, f, g, h, a, b, c, d, e, W2(35))
    S2(0x650A7354, e, f, g, h, a, b, c, d, W2(36))
    S2(0x766A0ABB, d, e, f, g, h, a, b, c, W2(37))
    S2(0x81C2C92E, c, d, e, f, g, h, a, b, W2(38))
    S2(0x92722C85, b, c, d, e, f, g, h, a, W2(39))
    S2(0xA2BFE8A1, a, b, c, d, e, f, g, h, W2(40))
    S2(0xA81A664B, h, a, b, c, d, e, f, g, W2(41))
    S2(0xC24B8B70, g, h, a, b, c, d, e, f, W2(42))
    S2(0xC76C51A3, f, g, h, a, b, c, d, e, W2(43))
    S2(0xD192E819, e, f, g, h, a, b, c, d, W2(44))
    S2(0xD6990624, d, e, f, g, h, a, b, c, W2(45))
    S2(0xF40E3585, c, d, e, f, g, h, a, b, W2(46))
    S2(0x106AA070, b, c, d, e, f, g, h, a, W2(47))
    S2(0x19A4C116, a, b, c, d, e, f, g, h, W2(48))
    S2(0x1E376C08, h, a, b, c, d, e, f, g, W2(49))
    S2(0x2748774C, g, h, a, b, c, d, e, f, W2(50))
    S2(0x34B0BCB5, f, g, h, a, b, c, d, e, W2(51))
    S2(0x391C0CB3, e, f, g, h, a, b, c, d, W2(52))
    S2(0x4ED8AA4A, d, e, f, g, h, a, b, c, W2(53))
    S2(0x5B9CCA4F, c, d, e, f, g, h, a, b, W2(54))
    S2(0x682E6FF3, b, c, d, e, f, g, h, a, W2(55))
    S2(0x748F82EE, a, b, c, d, e, f, g, h, W2(56))
    S2(0x78A5636F, h, a, b, c, d, e, f, g, W2(57))
    S2(0x84C87814, g, h, a, b, c, d, e, f, W2(58))
    S2(0x8CC70208, f, g, h, a, b, c, d, e, W2(59))
    S2(0x90BEFFFA, e, f, g, h, a, b, c, d, W2(60))
    S2(0xA4506CEB, d, e, f, g, h, a, b, c, W2(61))
    S2(0xBEF9A3F7, c, d, e, f, g, h, a, b, W2(62))
    S2(0xC67178F2, b, c, d, e, f, g, h, a, W2(63))
    s[0] = a + add[0]; s[1] = b + add[1]; s[2] = c + add[2]; s[3] = d + add[3];
    s[4] = e + add[4]; s[5] = f + add[5]; s[6] = g + add[6]; s[7] = h + add[7];
}

void NAME(_shacal2_dec)(const uint32_t *key, uint32_t *s)
{
    uint32_t w[64];
    uint32_t a = s[0], b = s[1], c = s[2], d = s[3], e = s[4], f = s[5], g = s[6], h = s[7];
    for (int i = 0; i < 16; i++)
        w[i] = key[i];
    w[16] = w[0] + SMALL0(w[1]) + w[9] + SMALL1(w[14]);
    w[17] = w[1] + SMALL0(w[2]) + w[10] + SMALL1(w[15]);
    w[18] = w[2] + SMALL0(w[3]) + w[11] + SMALL1(w[16]);
    w[19] = w[3] + SMALL0(w[4]) + w[12] + SMALL1(w[17]);
    w[20] = w[4] + SMALL0(w[5]) + w[13] + SMALL1(w[18]);
    w[21] = w[5] + SMALL0(w[6]) + w[14] + SMALL1(w[19]);
    w[22] = w[6] + SMALL0(w[7]) + w[15] + SMALL1(w[20]);
    w[23] = w[7] + SMALL0(w[8]) + w[16] + SMALL1(w[21]);
    w[24] = w[8] + SMALL0(w[9]) + w[17] + SMALL1(w[22]);
    w[25] = w[9] + SMALL0(w[10]) + w[18] + SMALL1(w[23]);
    w[26] = w[10] + SMALL0(w[11]) + w[19] + SMALL1(w[24]);
    w[27] = w[11] + SMALL0(w[12]) + w[20] + SMALL1(w[25]);
    w[28] = w[12] + SMALL0(w[13]) + w[21] + SMALL1(w[26]);
    w[29] = w[13] + SMALL0(w[14]) + w[22] + SMALL1(w[27]);
    w[30] = w[14] + SMALL0(w[15]) + w[23] + SMALL1(w[28]);
    w[31] = w[15] + SMALL0(w[16]) + w[24] + SMALL1(w[29]);
    w[32] = w[16] + SMALL0(w[17]) + w[25] + SMALL1(w[30]);
    w[33] = w[17] + SMALL0(w[18]) + w[26] + SMALL1(w[31]);
    w[34] = w[18] + SMALL0(w[19]) + w[27] + SMALL1(w[32]);
    w[35] = w[19] + SMALL0(w[20]) + w[28] + SMALL1(w[33]);
    w[36] = w[20] + SMALL0(w[21]) + w[29] + SMALL1(w[34]);
    w[37] = w[21] + SMALL0(w[22]) + w[30] + SMALL1(w[35]);
    w[38] = w[22] + SMALL0(w[23]) + w[31] + SMALL1(w[36]);
    w[39] = w[23] + SMALL0(w[24]) + w[32] + SMALL1(w[37]);
    w[40] = w[24] + SMALL0(w[25]) + w[33] + SMALL1(w[38]);
    w[41] = w[25] + SMALL0(w[26]) + w[34] + SMALL1(w[39]);
    w[42] = w[26] + SMALL0(w[27]) + w[35] + SMALL1(w[40]);
    w[43] = w[27] + SMALL0(w[28]) + w[36] + SMALL1(w[41]);
    w[44] = w[28] + SMALL0(w[29]) + w[37] + SMALL1(w[42]);
    w[45] = w[29] + SMALL0(w[30]) + w[38] + SMALL1(w[43]);
    w[46] = w[30] + SMALL0(w[31]) + w[39] + SMALL1(w[44]);
    w[47] = w[31] + SMALL0(w[32]) + w[40] + SMALL1(w[45]);
    w[48] = w[32] + SMALL0(w[33]) + w[41] + SMALL1(w[46]);
    w[49] = w[33] + SMALL0(w[34]) + w[42] + SMALL1(w[47]);
    w[50] = w[34] + SMALL0(w[35]) + w[43] + SMALL1(w[48]);
    w[51] = w[35] + SMALL0(w[36]) + w[44] + SMALL1(w[49]);
    w[52] = w[36] + SMALL0(w[37]) + w[45] + SMALL1(w[50]);
    w[53] = w[37] + SMALL0(w[38]) + w[46] + SMALL1(w[51]);
    w[54] = w[38] + SMALL0(w[39]) + w[47] + SMALL1(w[52]);
    w[55] = w[39] + SMALL0(w[40]) + w[48] + SMALL1(w[53]);
    w[56] = w[40] + SMALL0(w[41]) + w[49] + SMALL1(w[54]);
    w[57] = w[41] + SMALL0(w[42]) + w[50] + SMALL1(w[55]);
    w[58] = w[42] + SMALL0(w[43]) + w[51] + SMALL1(w[56]);
    w[59] = w[43] + SMALL0(w[44]) + w[52] + SMALL1(w[57]);
    w[60] = w[44] + SMALL0(w[45]) + w[53] + SMALL1(w[58]);
    w[61] = w[45] + SMALL0(w[46]) + w[54] + SMALL1(w[59]);
    w[62] = w[46] + SMALL0(w[47]) + w[55] + SMALL1(w[60]);
    w[63] = w[47] + SMALL0(w[48]) + w[56] + SMALL1(w[61]);
    U2(0xC67178F2, b, c, d, e, f, g, h, a, w[63])
    U2(0xBEF9A3F7, c, d, e, f, g, h, a, b, w[62])
    U2(0xA4506CEB, d, e, f, g, h, a, b, c, w[61])
    U2(0x90BEFFFA, e, f, g, h, a, b, c, d, w[60])
    U2(0x8CC70208, f, g, h, a, b, c, d, e, w[59])
    U2(0x84C87814, g, h, a, b, c, d, e, f, w[58])
    U2(0x78A5636F, h, a, b, c, d, e, f, g, w[57])
    U2(0x748F82EE, a, b, c, d, e, f, g, h, w[56])
    U2(0x682E6FF3, b, c, d, e, f, g, h, a, w[55])
    U2(0x5B9CCA4F, c, d, e, f, g, h, a, b, w[54])
    U2(0x4ED8AA4A, d, e, f, g, h, a, b, c, w[53])
    U2(0x391C0CB3, e, f, g, h, a, b, c, d, w[52])
    U2(0x34B0BCB5, f, g, h, a, b, c, d, e, w[51])
    U2(0x2748774C, g, h, a, b, c, d, e, f, w[50])
    U2(0x1E376C08, h, a, b, c, d, e, f, g, w[49])
    U2(0x19A4C116, a, b, c, d, e, f, g, h, w[48])
    U2(0x106AA070, b, c, d, e, f, g, h, a, w[47])
    U2(0xF40E3585, c, d, e, f, g, h, a, b, w[46])
    U2(0xD6990624, d, e, f, g, h, a, b, c, w[45])
    U2(0xD192E819, e, f, g, h, a, b, c, d, w[44])
    U2(0xC76C51A3, f, g, h, a, b, c, d, e, w[43])
    U2(0xC24B8B70, g, h, a, b, c, d, e, f, w[42])
    U2(0xA81A664B, h, a, b, c, d, e, f, g, w[41])
    U2(0xA2BFE8A1, a, b, c, d, e, f, g, h, w[40])
    U2(0x92722C85, b, c, d, e, f, g, h, a, w[39])
    U2(0x81C2C92E, c, d, e, f, g, h, a, b, w[38])
    U2(0x766A0ABB, d, e, f, g, h, a, b, c, w[37])
    U2(0x650A7354, e, f, g, h, a, b, c, d, w[36])
    U2(0x53380D13, f, g, h, a, b, c, d, e, w[35])
    U2(0x4D2C6DFC, g, h, a, b, c, d, e, f, w[34])
    U2(0x2E1B2138, h, a, b, c, d, e, f, g, w[33])
    U2(0x27B70A85, a, b, c, d, e, f, g, h, w[32])
    U2(0x14292967, b, c, d, e, f, g, h, a, w[31])
    U2(0x06CA6351, c, d, e, f, g, h, a, b, w[30])
    U2(0xD5A79147, d, e, f, g, h, a, b, c, w[29])
    U2(0xC6E00BF3, e, f, g, h, a, b, c, d, w[28])
    U2(0xBF597FC7, f, g, h, a, b, c, d, e, w[27])
    U2(0xB00327C8, g, h, a, b, c, d, e, f, w[26])
    U2(0xA831C66D, h, a, b, c, d, e, f, g, w[25])
    U2(0x983E5152, a, b, c, d, e, f, g, h, w[24])
    U2(0x76F988DA, b, c, d, e, f, g, h, a, w[23])
    U2(0x5CB0A9DC, c, d, e, f, g, h, a, b, w[22])
    U2(0x4A7484AA, d, e, f, g, h, a, b, c, w[21])
    U2(0x2DE92C6F, e, f, g, h, a, b, c, d, w[20])
    U2(0x240CA1CC, f, g, h, a, b, c, d, e, w[19])
    U2(0x0FC19DC6, g, h, a, b, c, d, e, f, w[18])
    U2(0xEFBE4786, h, a, b, c, d, e, f, g, w[17])
    U2(0xE49B69C1, a, b, c, d, e, f, g, h, w[16])
    U2(0xC19BF174, b, c, d, e, f, g, h, a, w[15])
    U2(0x9BDC06A7, c, d, e, f, g, h, a, b, w[14])
    U2(0x80DEB1FE, d, e, f, g, h, a, b, c, w[13])
    U2(0x72BE5D74, e, f, g, h, a, b, c, d, w[12])
    U2(0x550C7DC3, f, g, h, a, b, c, d, e, w[11])
    U2(0x243185BE, g, h, a, b, c, d, e, f, w[10])
    U2(0x12835B01, h, a, b, c, d, e, f, g, w[9])
    U2(0xD807AA98, a, b, c, d, e, f, g, h, w[8])
    U2(0xAB1C5ED5, b, c, d, e, f, g, h, a, w[7])
    U2(0x923F82A4, c, d, e, f, g, h, a, b, w[6])
    U2(0x59F111F1, d, e, f, g, h, a, b, c, w[5])
    U2(0x3956C25B, e, f, g, h, a, b, c, d, w[4])
    U2(0xE9B5DBA5, f, g, h, a, b, c, d, e, w[3])
    U2(0xB5C0FBCF, g, h, a, b, c, d, e, f, w[2])
    U2(0x71374491, h, a, b, c, d, e, f, g, w[1])
    U2(0x428A2F98, a, b, c, d, e, f, g, h, w[0])
    s[0] = a; s[1] = b; s[2] = c; s[3] = d; s[4] = e; s[5] = f; s[6] = g; s[7] = h;
}

void NAME(_shacal2_enc)(const uint32_t *key, uint32_t *s)
{
    static const uint32_t none[8];
    enc2(key, s, none);
}

void NAME(_shacal2_feed)(const uint32_t *key, uint32_t *s)
{
    uint32_t old[8] = { s[0], s[1], s[2], s[3], s[4], s[5], s[6], s[7] };
    enc2(key, s, old);
}
