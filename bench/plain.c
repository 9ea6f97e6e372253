/* RFC 1320, FIPS 180-4, RFC 2104, FIPS 46-3, RC4, RFC 3078 and 3079 in plain portable C. */
#include "plain.h"
#include <string.h>

static uint32_t rotl(uint32_t x, int n)
{
    return x << n | x >> (32 - n);
}

static uint32_t rotr(uint32_t x, int n)
{
    return x >> n | x << (32 - n);
}

static uint32_t word_le(const octet *p)
{
    return p[0] | p[1] << 8 | p[2] << 16 | (uint32_t)p[3] << 24;
}

static uint32_t word_be(const octet *p)
{
    return (uint32_t)p[0] << 24 | p[1] << 16 | p[2] << 8 | p[3];
}

static void put_be(uint32_t x, octet *p)
{
    p[0] = x >> 24;
    p[1] = x >> 16;
    p[2] = x >> 8;
    p[3] = x;
}

/* ---- A text in blocks of 64 octets, padded ---- */

typedef void compress(uint32_t *state, const octet *block);

/* All blocks of a text that stands behind `before` octets hashed already. */
static void hash(compress *f, uint32_t *state, uint64_t before, const octet *text, size_t n, int lowest_first)
{
    octet tail[128] = {0};
    uint64_t bits = 8 * (before + n);
    size_t rest, end;

    while (n >= 64) {
        f(state, text);
        text += 64;
        n -= 64;
    }
    rest = n;
    memcpy(tail, text, rest);
    tail[rest] = 0x80;
    end = rest < 56 ? 64 : 128;
    for (int k = 0; k < 8; k++)
        tail[lowest_first ? end - 8 + k : end - 1 - k] = bits >> 8 * k;
    for (size_t k = 0; k < end; k += 64)
        f(state, tail + k);
}

/* ---- MD4 (RFC 1320) ---- */

#define F(x, y, z) (((x) & (y)) | (~(x) & (z)))
#define G(x, y, z) (((x) & (y)) | ((x) & (z)) | ((y) & (z)))
#define H(x, y, z) ((x) ^ (y) ^ (z))
#define FF(a, b, c, d, k, s) a = rotl(a + F(b, c, d) + x[k], s)
#define GG(a, b, c, d, k, s) a = rotl(a + G(b, c, d) + x[k] + 0x5a827999, s)
#define HH(a, b, c, d, k, s) a = rotl(a + H(b, c, d) + x[k] + 0x6ed9eba1, s)

static void md4_block(uint32_t *s, const octet *block)
{
    uint32_t a = s[0], b = s[1], c = s[2], d = s[3], x[16];

    for (int k = 0; k < 16; k++)
        x[k] = word_le(block + 4 * k);
    for (int k = 0; k < 16; k += 4) {
        FF(a, b, c, d, k, 3);
        FF(d, a, b, c, k + 1, 7);
        FF(c, d, a, b, k + 2, 11);
        FF(b, c, d, a, k + 3, 19);
    }
    for (int k = 0; k < 4; k++) {
        GG(a, b, c, d, k, 3);
        GG(d, a, b, c, k + 4, 5);
        GG(c, d, a, b, k + 8, 9);
        GG(b, c, d, a, k + 12, 13);
    }
    for (int k = 0; k < 4; k++) {
        static const int order[4] = {0, 2, 1, 3};
        HH(a, b, c, d, order[k], 3);
        HH(d, a, b, c, order[k] + 8, 9);
        HH(c, d, a, b, order[k] + 4, 11);
        HH(b, c, d, a, order[k] + 12, 15);
    }
    s[0] += a;
    s[1] += b;
    s[2] += c;
    s[3] += d;
}

void plain_md4(const octet *text, size_t n, octet *out)
{
    uint32_t s[4] = {0x67452301, 0xefcdab89, 0x98badcfe, 0x10325476};

    hash(md4_block, s, 0, text, n, 1);
    for (int k = 0; k < 16; k++)
        out[k] = s[k / 4] >> 8 * (k % 4);
}

/* ---- SHA-1 and SHA-256 (FIPS 180-4) ---- */

#define CH(x, y, z) (((x) & (y)) ^ (~(x) & (z)))
#define PARITY(x, y, z) ((x) ^ (y) ^ (z))
#define MAJ(x, y, z) (((x) & (y)) ^ ((x) & (z)) ^ ((y) & (z)))

/* A round whose words change their names, not their places; five of them, and the names are back. */
#define ROUND(a, b, c, d, e, f, k, t) e += rotl(a, 5) + f(b, c, d) + k + w[t], b = rotl(b, 30)
#define FIVE(f, k, t)                \
    ROUND(a, b, c, d, e, f, k, t);     \
    ROUND(e, a, b, c, d, f, k, t + 1); \
    ROUND(d, e, a, b, c, f, k, t + 2); \
    ROUND(c, d, e, a, b, f, k, t + 3); \
    ROUND(b, c, d, e, a, f, k, t + 4)

static void sha1_block(uint32_t *s, const octet *block)
{
    uint32_t a = s[0], b = s[1], c = s[2], d = s[3], e = s[4], w[80];
    int t;

    for (t = 0; t < 16; t++)
        w[t] = word_be(block + 4 * t);
    for (t = 16; t < 80; t++)
        w[t] = rotl(w[t - 3] ^ w[t - 8] ^ w[t - 14] ^ w[t - 16], 1);
    for (t = 0; t < 20; t += 5) {
        FIVE(CH, 0x5a827999, t);
    }
    for (; t < 40; t += 5) {
        FIVE(PARITY, 0x6ed9eba1, t);
    }
    for (; t < 60; t += 5) {
        FIVE(MAJ, 0x8f1bbcdc, t);
    }
    for (; t < 80; t += 5) {
        FIVE(PARITY, 0xca62c1d6, t);
    }
    s[0] += a;
    s[1] += b;
    s[2] += c;
    s[3] += d;
    s[4] += e;
}

void plain_sha1(const octet *text, size_t n, octet *out)
{
    uint32_t s[5] = {0x67452301, 0xefcdab89, 0x98badcfe, 0x10325476, 0xc3d2e1f0};

    hash(sha1_block, s, 0, text, n, 0);
    for (int k = 0; k < 5; k++)
        put_be(s[k], out + 4 * k);
}

static void sha256_block(uint32_t *s, const octet *block)
{
    static const uint32_t k[64] = {
        0x428a2f98, 0x71374491, 0xb5c0fbcf, 0xe9b5dba5, 0x3956c25b, 0x59f111f1, 0x923f82a4, 0xab1c5ed5, 0xd807aa98, 0x12835b01, 0x243185be,
        0x550c7dc3, 0x72be5d74, 0x80deb1fe, 0x9bdc06a7, 0xc19bf174, 0xe49b69c1, 0xefbe4786, 0x0fc19dc6, 0x240ca1cc, 0x2de92c6f, 0x4a7484aa,
        0x5cb0a9dc, 0x76f988da, 0x983e5152, 0xa831c66d, 0xb00327c8, 0xbf597fc7, 0xc6e00bf3, 0xd5a79147, 0x06ca6351, 0x14292967, 0x27b70a85,
        0x2e1b2138, 0x4d2c6dfc, 0x53380d13, 0x650a7354, 0x766a0abb, 0x81c2c92e, 0x92722c85, 0xa2bfe8a1, 0xa81a664b, 0xc24b8b70, 0xc76c51a3,
        0xd192e819, 0xd6990624, 0xf40e3585, 0x106aa070, 0x19a4c116, 0x1e376c08, 0x2748774c, 0x34b0bcb5, 0x391c0cb3, 0x4ed8aa4a, 0x5b9cca4f,
        0x682e6ff3, 0x748f82ee, 0x78a5636f, 0x84c87814, 0x8cc70208, 0x90befffa, 0xa4506ceb, 0xbef9a3f7, 0xc67178f2};
    uint32_t w[64], v[8];

    for (int t = 0; t < 16; t++)
        w[t] = word_be(block + 4 * t);
    for (int t = 16; t < 64; t++) {
        uint32_t x = w[t - 2], y = w[t - 15];
        w[t] = (rotr(x, 17) ^ rotr(x, 19) ^ x >> 10) + w[t - 7] + (rotr(y, 7) ^ rotr(y, 18) ^ y >> 3) + w[t - 16];
    }
    memcpy(v, s, sizeof v);
    for (int t = 0; t < 64; t++) {
        uint32_t a = v[0], b = v[1], c = v[2], e = v[4], f = v[5], g = v[6];
        uint32_t t1 = v[7] + (rotr(e, 6) ^ rotr(e, 11) ^ rotr(e, 25)) + ((e & f) ^ (~e & g)) + k[t] + w[t];
        uint32_t t2 = (rotr(a, 2) ^ rotr(a, 13) ^ rotr(a, 22)) + ((a & b) ^ (a & c) ^ (b & c));
        v[7] = g;
        v[6] = f;
        v[5] = e;
        v[4] = v[3] + t1;
        v[3] = c;
        v[2] = b;
        v[1] = a;
        v[0] = t1 + t2;
    }
    for (int n = 0; n < 8; n++)
        s[n] += v[n];
}

static void sha256_behind(const octet *block, const octet *text, size_t n, octet *out)
{
    uint32_t s[8] = {0x6a09e667, 0xbb67ae85, 0x3c6ef372, 0xa54ff53a, 0x510e527f, 0x9b05688c, 0x1f83d9ab, 0x5be0cd19};

    if (block)
        sha256_block(s, block);
    hash(sha256_block, s, block ? 64 : 0, text, n, 0);
    for (int k = 0; k < 8; k++)
        put_be(s[k], out + 4 * k);
}

void plain_sha256(const octet *text, size_t n, octet *out)
{
    sha256_behind(NULL, text, n, out);
}

/* ---- HMAC (RFC 2104) ---- */

void plain_hmac_sha256(const octet *key, size_t k, const octet *text, size_t n, octet *out)
{
    octet block[64] = {0}, inner[32];

    if (k > 64)
        plain_sha256(key, k, block);
    else
        memcpy(block, key, k);
    for (int i = 0; i < 64; i++)
        block[i] ^= 0x36;
    sha256_behind(block, text, n, inner);
    for (int i = 0; i < 64; i++)
        block[i] ^= 0x36 ^ 0x5c;
    sha256_behind(block, inner, 32, out);
}

/* ---- DES (FIPS 46-3), the key without its parity bits ---- */

static const octet choice_1[56] = {57, 49, 41, 33, 25, 17, 9,  1, 58, 50, 42, 34, 26, 18, 10, 2, 59, 51, 43, 35, 27, 19, 11, 3,
                                    60, 52, 44, 36,
                                   63, 55, 47, 39, 31, 23, 15, 7, 62, 54, 46, 38, 30, 22, 14, 6, 61, 53, 45, 37, 29, 21, 13, 5,
                                    28, 20, 12, 4};
static const octet choice_2[48] = {14, 17, 11, 24, 1,  5,  3,  28, 15, 6,  21, 10, 23, 19, 12, 4,  26, 8,  16, 7,  27, 20, 13, 2,
                                   41, 52, 31, 37, 47, 55, 30, 40, 51, 45, 33, 48, 44, 49, 39, 56, 34, 53, 46, 42, 50, 36, 29, 32};
static const octet permutation[32] = {16, 7, 20, 21, 29, 12, 28, 17, 1, 15, 23, 26, 5, 18, 31, 10, 2, 8, 24, 14, 32, 27, 3, 9,
                                    19, 13, 30, 6, 22, 11, 4, 25};
static const octet boxes[8][64] = {
    {14, 4, 13, 1, 2, 15, 11, 8, 3, 10, 6, 12, 5, 9, 0, 7, 0, 15, 7, 4, 14, 2, 13, 1, 10, 6, 12, 11, 9, 5, 3, 8,
     4, 1, 14, 8, 13, 6, 2, 11, 15, 12, 9, 7, 3, 10, 5, 0, 15, 12, 8, 2, 4, 9, 1, 7, 5, 11, 3, 14, 10, 0, 6, 13},
    {15, 1, 8, 14, 6, 11, 3, 4, 9, 7, 2, 13, 12, 0, 5, 10, 3, 13, 4, 7, 15, 2, 8, 14, 12, 0, 1, 10, 6, 9, 11, 5,
     0, 14, 7, 11, 10, 4, 13, 1, 5, 8, 12, 6, 9, 3, 2, 15, 13, 8, 10, 1, 3, 15, 4, 2, 11, 6, 7, 12, 0, 5, 14, 9},
    {10, 0, 9, 14, 6, 3, 15, 5, 1, 13, 12, 7, 11, 4, 2, 8, 13, 7, 0, 9, 3, 4, 6, 10, 2, 8, 5, 14, 12, 11, 15, 1,
     13, 6, 4, 9, 8, 15, 3, 0, 11, 1, 2, 12, 5, 10, 14, 7, 1, 10, 13, 0, 6, 9, 8, 7, 4, 15, 14, 3, 11, 5, 2, 12},
    {7, 13, 14, 3, 0, 6, 9, 10, 1, 2, 8, 5, 11, 12, 4, 15, 13, 8, 11, 5, 6, 15, 0, 3, 4, 7, 2, 12, 1, 10, 14, 9,
     10, 6, 9, 0, 12, 11, 7, 13, 15, 1, 3, 14, 5, 2, 8, 4, 3, 15, 0, 6, 10, 1, 13, 8, 9, 4, 5, 11, 12, 7, 2, 14},
    {2, 12, 4, 1, 7, 10, 11, 6, 8, 5, 3, 15, 13, 0, 14, 9, 14, 11, 2, 12, 4, 7, 13, 1, 5, 0, 15, 10, 3, 9, 8, 6,
     4, 2, 1, 11, 10, 13, 7, 8, 15, 9, 12, 5, 6, 3, 0, 14, 11, 8, 12, 7, 1, 14, 2, 13, 6, 15, 0, 9, 10, 4, 5, 3},
    {12, 1, 10, 15, 9, 2, 6, 8, 0, 13, 3, 4, 14, 7, 5, 11, 10, 15, 4, 2, 7, 12, 9, 5, 6, 1, 13, 14, 0, 11, 3, 8,
     9, 14, 15, 5, 2, 8, 12, 3, 7, 0, 4, 10, 1, 13, 11, 6, 4, 3, 2, 12, 9, 5, 15, 10, 11, 14, 1, 7, 6, 0, 8, 13},
    {4, 11, 2, 14, 15, 0, 8, 13, 3, 12, 9, 7, 5, 10, 6, 1, 13, 0, 11, 7, 4, 9, 1, 10, 14, 3, 5, 12, 2, 15, 8, 6,
     1, 4, 11, 13, 12, 3, 7, 14, 10, 15, 6, 8, 0, 5, 9, 2, 6, 11, 13, 8, 1, 4, 10, 7, 9, 5, 0, 15, 14, 2, 3, 12},
    {13, 2, 8, 4, 6, 15, 11, 1, 10, 9, 3, 14, 5, 0, 12, 7, 1, 15, 13, 8, 10, 3, 7, 4, 12, 5, 6, 11, 0, 14, 9, 2,
     7, 11, 4, 1, 9, 12, 14, 2, 0, 6, 10, 13, 15, 3, 5, 8, 2, 1, 14, 7, 4, 10, 8, 13, 15, 12, 9, 0, 3, 5, 6, 11}};

/* Bits of a number of `width` bits, picked by a table of the standard, which counts from 1 at the highest. */
static uint64_t picked(const octet *table, int n, uint64_t x, int width)
{
    uint64_t out = 0;

    for (int k = 0; k < n; k++)
        out = out << 1 | (x >> (width - table[k]) & 1);
    return out;
}

/* The S-boxes with P behind them, made at the first use. */
static const uint32_t (*joined(void))[64]
{
    static uint32_t table[8][64];
    static int made;

    if (!made) {
        for (int b = 0; b < 8; b++)
            for (int x = 0; x < 64; x++) {
                int row = (x >> 4 & 2) | (x & 1), column = x >> 1 & 15;
                table[b][x] = picked(permutation, 32, (uint64_t)boxes[b][16 * row + column] << (28 - 4 * b), 32);
            }
        made = 1;
    }
    return (const uint32_t(*)[64])table;
}

/* Bit n of a key of 64 bits among the 56 without parity. */
static uint64_t key_bits(const octet *key)
{
    uint64_t k = 0, out = 0;

    for (int i = 0; i < 7; i++)
        k = k << 8 | key[i];
    for (int i = 0; i < 56; i++) {
        int n = choice_1[i];
        out = out << 1 | (k >> (56 - (n - n / 8)) & 1);
    }
    return out;
}

static uint32_t rotated(uint32_t half, int n)
{
    return (half << n | half >> (28 - n)) & 0xfffffff;
}

/* The block's two halves out of IP, and IP's inverse, by five exchanges of bits. */
static void exchange(uint32_t *a, uint32_t *b, int shift, uint32_t mask)
{
    uint32_t t = (*a >> shift ^ *b) & mask;
    *b ^= t;
    *a ^= t << shift;
}

void plain_des(const octet *key, const octet *block, octet *out)
{
    static const octet shifts[16] = {1, 1, 2, 2, 2, 2, 2, 2, 1, 2, 2, 2, 2, 2, 2, 1};
    const uint32_t(*sp)[64] = joined();
    uint64_t k = key_bits(key), in = (uint64_t)word_be(block) << 32 | word_be(block + 4);
    uint32_t c = k >> 28, d = k & 0xfffffff, l = in >> 32, r = in;

    exchange(&l, &r, 4, 0x0f0f0f0f);
    exchange(&l, &r, 16, 0x0000ffff);
    exchange(&r, &l, 2, 0x33333333);
    exchange(&r, &l, 8, 0x00ff00ff);
    exchange(&l, &r, 1, 0x55555555);
    for (int n = 0; n < 16; n++) {
        uint64_t subkey;
        uint32_t f = 0, t;
        c = rotated(c, shifts[n]);
        d = rotated(d, shifts[n]);
        subkey = picked(choice_2, 48, (uint64_t)c << 28 | d, 56);
        for (int b = 0; b < 8; b++) {
            uint32_t six = rotl(r, (4 * b + 5) % 32) & 63;
            f |= sp[b][six ^ (subkey >> (42 - 6 * b) & 63)];
        }
        t = l ^ f;
        l = r;
        r = t;
    }
    exchange(&r, &l, 1, 0x55555555);
    exchange(&l, &r, 8, 0x00ff00ff);
    exchange(&l, &r, 2, 0x33333333);
    exchange(&r, &l, 16, 0x0000ffff);
    exchange(&r, &l, 4, 0x0f0f0f0f);
    put_be(r, out);
    put_be(l, out + 4);
}

/* ---- RC4 ---- */

static void rc4_key(struct plain_rc4 *g, const octet *key, size_t k)
{
    octet j = 0;

    for (int i = 0; i < 256; i++)
        g->box[i] = i;
    for (size_t i = 0, p = 0; i < 256; i++, p = p + 1 == k ? 0 : p + 1) {
        octet x = g->box[i];
        j += x + key[p];
        g->box[i] = g->box[j];
        g->box[j] = x;
    }
    g->i = g->j = 0;
}

static void rc4_run(struct plain_rc4 *g, const octet *text, size_t n, octet *out)
{
    octet i = g->i, j = g->j;

    for (size_t p = 0; p < n; p++) {
        octet x = g->box[++i], y;
        j += x;
        y = g->box[j];
        g->box[i] = y;
        g->box[j] = x;
        out[p] = text[p] ^ g->box[(octet)(x + y)];
    }
    g->i = i;
    g->j = j;
}

void plain_rc4(const octet *key, size_t k, const octet *text, size_t n, octet *out)
{
    struct plain_rc4 g;

    rc4_key(&g, key, k);
    rc4_run(&g, text, n, out);
}

/* ---- MPPE (RFC 3078, 3079) ---- */

static void reduce(int bits, octet *key)
{
    static const octet head[3] = {0xd1, 0x26, 0x9e};
    memcpy(key, head, bits == 40 ? 3 : bits == 56 ? 1 : 0);
}

void plain_key_changes(int bits, const octet *start, const octet *session, size_t n, octet *out)
{
    size_t k = bits == 128 ? 16 : 8;
    octet text[112], interim[20];

    memcpy(text, start, k);
    memset(text + k, 0x00, 40);
    memcpy(text + k + 40, session, k);
    memset(text + 2 * k + 40, 0xf2, 40);
    while (n-- > 0) {
        plain_sha1(text, 2 * k + 80, interim);
        plain_rc4(interim, k, interim, k, text + k + 40);
        reduce(bits, text + k + 40);
    }
    memcpy(out, text + k + 40, k);
}

/* A permutation; in stateless mode 0 to 255 in order, with both indices 0 and no mark. */
static int box_fits(const struct plain_link *l)
{
    octet seen[256] = {0}, all = 1;
    int rest = l->state.i == 0 && l->state.j == 0 && !l->waiting;

    if (!l->stateful) {
        for (int k = 0; k < 256; k++)
            rest &= l->state.box[k] == k;
        return rest;
    }
    for (int k = 0; k < 256; k++)
        seen[l->state.box[k]] = 1;
    for (int k = 0; k < 256; k++)
        all &= seen[k];
    return all;
}

static int well_formed(const struct plain_link *l)
{
    octet reduced[16];
    int ok = l->count <= 4095;

    memcpy(reduced, l->session, 16);
    reduce(l->bits, reduced);
    for (int k = 8; l->bits != 128 && k < 16; k++)
        ok = ok && l->start[k] == 0 && l->session[k] == 0;
    return ok && memcmp(reduced, l->session, 16) == 0 && box_fits(l);
}

static int wrong_protocol(const octet *p)
{
    return p[0] != 0 || p[1] < 0x21 || p[1] > 0xfa;
}

/* The key changes that so many counts after the last one bring. */
static unsigned changes_over(const struct plain_link *l, unsigned away)
{
    return l->stateful ? (l->count + away + 1) / 256 - (l->count + 1) / 256 : away;
}

/* RC4 keyed with a link's session key. */
static void key_afresh(const struct plain_link *l, struct plain_rc4 *g)
{
    rc4_key(g, l->session, l->bits == 128 ? 16 : 8);
}

/* A link after a packet: a stateful one draws on from here, and neither waits. */
static void settle(struct plain_link *l, const struct plain_rc4 *g)
{
    if (l->stateful)
        l->state = *g;
    l->waiting = 0;
}

struct plain_outcome plain_seal(struct plain_link link, const octet *plain, size_t n, octet *out, size_t room)
{
    struct plain_outcome o = {0, 0, link};
    struct plain_rc4 g = link.state;
    int fresh;

    if (!well_formed(&link))
        o.answer = 7;
    else if (n < 2 || n > LONGEST_PLAIN)
        o.answer = 3;
    else if (wrong_protocol(plain))
        o.answer = 4;
    else if (room < n + 4)
        o.answer = 2;
    if (o.answer)
        return o;
    o.changes = changes_over(&link, 1);
    o.link.count = (link.count + 1) % 4096;
    if (o.changes)
        plain_key_changes(link.bits, link.start, link.session, o.changes, o.link.session);
    fresh = o.changes || link.waiting;
    if (fresh)
        key_afresh(&o.link, &g);
    out[0] = 0x00;
    out[1] = 0xfd;
    out[2] = (fresh ? 0x90 : 0x10) | o.link.count >> 8;
    out[3] = o.link.count;
    rc4_run(&g, plain, n, out + 4);
    settle(&o.link, &g);
    return o;
}

struct plain_outcome plain_open(struct plain_link link, const octet *packet, size_t n, octet *out, size_t room)
{
    struct plain_outcome o = {0, 0, link};
    struct plain_rc4 g = link.state;
    octet first[2];
    unsigned arrived, distance;
    int fresh;

    if (!well_formed(&link))
        o.answer = 7;
    else if (n < 6 || n > LONGEST_PLAIN + 4 || packet[0] != 0x00 || packet[1] != 0xfd)
        o.answer = 1;
    else if ((packet[2] & 0x10) == 0 || (!link.stateful && (packet[2] & 0x80) == 0))
        o.answer = 5;
    if (o.answer)
        return o;
    arrived = (packet[2] & 15) << 8 | packet[3];
    distance = (arrived + 4096 - link.count) % 4096;
    fresh = packet[2] >> 7;
    if (distance == 0)
        o.answer = 6;
    else if (distance > 2048)
        o.answer = 10;
    else if (!fresh && (distance != 1 || link.waiting))
        o.answer = 11;
    else if (room < n - 4)
        o.answer = 2;
    if (o.answer && o.answer != 11)
        return o;
    o.changes = changes_over(&link, distance);
    if (o.changes)
        plain_key_changes(link.bits, link.start, link.session, o.changes, o.link.session);
    if (o.changes || fresh)
        key_afresh(&o.link, &g);
    o.link.count = arrived;
    if (o.answer) {
        o.link.state = g;
        o.link.waiting = 1;
        return o;
    }
    rc4_run(&g, packet + 4, 2, first);
    if (wrong_protocol(first))
        return (struct plain_outcome){4, 0, link};
    out[0] = first[0];
    out[1] = first[1];
    rc4_run(&g, packet + 6, n - 6, out + 2);
    settle(&o.link, &g);
    return o;
}
