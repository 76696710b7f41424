/* The yardstick: the same chains as the program `chain`, in plain C. From a block of zeros under a key of zeros, each result is the
 * next block. Prints the last block on standard output and the time on standard error, in the program's own form.
 *
 *     ciphers COUNT [CIPHER...]
 *
 * AES by four tables of 256 words; PRESENT by one table of 256 words that holds both layers; LED and TWINE in the layout of the
 * library (LED: four columns, two tables of 256; TWINE: bytes, one table of 256).
 */
#include <stdint.h>
#include <stdio.h>
#include <stdlib.h>
#include <string.h>
#include <time.h>

static const uint8_t PS[16] = {0xC, 5, 6, 0xB, 9, 0, 0xA, 0xD, 3, 0xE, 0xF, 8, 4, 7, 1, 2};

/* ---- AES-128 */
static uint8_t S[256];
static uint32_t T0[256], T1[256], T2[256], T3[256], W[44];

static uint8_t xt(uint8_t x) { return (uint8_t)((x << 1) ^ ((x >> 7) * 0x1b)); }
static uint8_t gmul(uint8_t a, uint8_t b) {
    uint8_t r = 0;
    for (; b; b >>= 1, a = xt(a)) if (b & 1) r ^= a;
    return r;
}
static void aes_tables(void) {
    for (int x = 0; x < 256; x++) {
        uint8_t y = 0;
        for (int k = 1; k < 256 && x; k++) if (gmul((uint8_t)x, (uint8_t)k) == 1) y = (uint8_t)k;
        uint8_t s = 0x63;
        for (int i = 0; i < 5; i++) s ^= (uint8_t)((y << i) | (y >> (8 - i)));
        S[x] = s;
        uint32_t a = xt(s), b = s, c = a ^ b;
        T0[x] = a << 24 | b << 16 | b << 8 | c;
        T1[x] = c << 24 | a << 16 | b << 8 | b;
        T2[x] = b << 24 | c << 16 | a << 8 | b;
        T3[x] = b << 24 | b << 16 | c << 8 | a;
    }
}
static void aes_key(const uint8_t *k) {
    static const uint8_t rc[10] = {1, 2, 4, 8, 16, 32, 64, 128, 0x1b, 0x36};
    for (int i = 0; i < 4; i++) W[i] = (uint32_t)k[4*i] << 24 | (uint32_t)k[4*i+1] << 16 | (uint32_t)k[4*i+2] << 8 | k[4*i+3];
    for (int i = 4; i < 44; i++) {
        uint32_t t = W[i-1];
        if (i % 4 == 0) {
            t = t << 8 | t >> 24;
            t = (uint32_t)S[t >> 24] << 24 | (uint32_t)S[t >> 16 & 255] << 16 | (uint32_t)S[t >> 8 & 255] << 8 | S[t & 255];
            t ^= (uint32_t)rc[i/4-1] << 24;
        }
        W[i] = W[i-4] ^ t;
    }
}
static uint32_t ld(const uint8_t *p) { return (uint32_t)p[0] << 24 | (uint32_t)p[1] << 16 | (uint32_t)p[2] << 8 | p[3]; }
static void st(uint8_t *p, uint32_t v) { p[0] = (uint8_t)(v >> 24); p[1] = (uint8_t)(v >> 16); p[2] = (uint8_t)(v >> 8); p[3] = (uint8_t)v; }
#define COL(a, b, c, d, k) (T0[(a) >> 24] ^ T1[(b) >> 16 & 255] ^ T2[(c) >> 8 & 255] ^ T3[(d) & 255] ^ (k))
#define LAST(a, b, c, d, k) (((uint32_t)S[(a) >> 24] << 24 | (uint32_t)S[(b) >> 16 & 255] << 16 | (uint32_t)S[(c) >> 8 & 255] << 8 | S[(d) & 255]) ^ (k))
__attribute__((noinline)) static void aes_run(uint8_t *p) {
    uint32_t a = ld(p) ^ W[0], b = ld(p+4) ^ W[1], c = ld(p+8) ^ W[2], d = ld(p+12) ^ W[3];
    for (int i = 1; i < 10; i++) {
        const uint32_t *k = W + 4*i;
        uint32_t e = COL(a, b, c, d, k[0]), f = COL(b, c, d, a, k[1]), g = COL(c, d, a, b, k[2]), h = COL(d, a, b, c, k[3]);
        a = e; b = f; c = g; d = h;
    }
    st(p, LAST(a, b, c, d, W[40])); st(p+4, LAST(b, c, d, a, W[41])); st(p+8, LAST(c, d, a, b, W[42])); st(p+12, LAST(d, a, b, c, W[43]));
}

/* ---- 64-bit blocks */
static uint64_t ld8(const uint8_t *p) { uint64_t v = 0; for (int i = 0; i < 8; i++) v = v << 8 | p[i]; return v; }
static void st8(uint8_t *p, uint64_t v) { for (int i = 7; i >= 0; i--, v >>= 8) p[i] = (uint8_t)v; }

/* ---- PRESENT-80: one table holds the S-boxes of a byte with their bits moved to the places of byte 0 */
static uint64_t PT[256], PK[32];
static void present_key(const uint8_t *key) {
    unsigned __int128 r = 0, mask = ((unsigned __int128)1 << 80) - 1;
    for (int i = 0; i < 10; i++) r = r << 8 | key[i];
    for (int i = 1; i <= 32; i++) {
        PK[i-1] = (uint64_t)(r >> 16);
        r = (r << 61 | r >> 19) & mask;
        r = (r & (((unsigned __int128)1 << 76) - 1)) | (unsigned __int128)PS[(int)(r >> 76)] << 76;
        r ^= (unsigned __int128)i << 15;
    }
    for (int x = 0; x < 256; x++) {
        uint64_t s = (uint64_t)(PS[x >> 4] << 4 | PS[x & 15]), t = 0;
        for (int i = 0; i < 8; i++) t |= (s >> i & 1) << (i % 4 * 16 + i / 4);
        PT[x] = t;
    }
}
__attribute__((noinline)) static void present_run(uint8_t *p) {
    uint64_t x = ld8(p);
    for (int i = 0; i < 31; i++) {
        uint64_t y = x ^ PK[i], z = 0;
        for (int j = 0; j < 8; j++) z |= PT[y >> 8*j & 255] << 2*j;
        x = z;
    }
    st8(p, x ^ PK[31]);
}

/* ---- LED-80: four columns of 16 bits, row 0 in the highest nibble */
static uint16_t LU[256], LL[256], LC[48][4], LK[2][4];
static uint8_t mul4(uint8_t a, uint8_t b) { uint8_t r = 0; for (; b; b >>= 1) { if (b & 1) r ^= a; a = (uint8_t)(a << 1 ^ (a >> 3) * 0x13); } return r & 15; }
static void led_key(const uint8_t *key) {
    static const uint8_t M[4][4] = {{4,1,2,2},{8,6,5,6},{0xB,0xE,0xA,9},{2,2,0xF,0xB}};
    static const uint8_t RC[48] = {1,3,7,0xF,0x1F,0x3E,0x3D,0x3B,0x37,0x2F,0x1E,0x3C,0x39,0x33,0x27,0xE,0x1D,0x3A,0x35,0x2B,0x16,0x2C,0x18,0x30,
        0x21,2,5,0xB,0x17,0x2E,0x1C,0x38,0x31,0x23,6,0xD,0x1B,0x36,0x2D,0x1A,0x34,0x29,0x12,0x24,8,0x11,0x22,4};
    uint16_t part[4][16];
    for (int k = 0; k < 4; k++) for (int x = 0; x < 16; x++) {
        part[k][x] = 0;
        for (int r = 0; r < 4; r++) part[k][x] = (uint16_t)(part[k][x] << 4 | mul4(PS[x], M[r][k]));
    }
    for (int x = 0; x < 256; x++) { LU[x] = part[0][x >> 4] ^ part[1][x & 15]; LL[x] = part[2][x >> 4] ^ part[3][x & 15]; }
    for (int n = 0; n < 48; n++) {
        LC[n][0] = 0x5 << 12 | (1 ^ 5) << 8 | 2 << 4 | 3;
        LC[n][1] = (uint16_t)((RC[n] >> 3) << 12 | (RC[n] & 7) << 8 | (RC[n] >> 3) << 4 | (RC[n] & 7));
        LC[n][2] = LC[n][3] = 0;
    }
    uint8_t full[16] = {0};
    memcpy(full, key, 10);
    for (int s = 0; s < 2; s++) for (int c = 0; c < 4; c++) {
        LK[s][c] = 0;
        for (int r = 0; r < 4; r++) { int i = 4*r + c; uint8_t b = full[8*s + i/2]; LK[s][c] = (uint16_t)(LK[s][c] << 4 | (i % 2 ? b & 15 : b >> 4)); }
    }
}
#define LCOL(a, b, c, d) (uint16_t)(LU[((a) >> 8 & 0xf0) | ((b) >> 8 & 15)] ^ LL[((c) & 0xf0) | ((d) & 15)])
__attribute__((noinline)) static void led_run(uint8_t *p) {
    uint16_t m[4];
    for (int c = 0; c < 4; c++) { m[c] = 0; for (int r = 0; r < 4; r++) { int i = 4*r + c; m[c] = (uint16_t)(m[c] << 4 | (i % 2 ? p[i/2] & 15 : p[i/2] >> 4)); } }
    uint16_t a = m[0], b = m[1], c = m[2], d = m[3];
    for (int n = 0; n < 48; n++) {
        if (n % 4 == 0) { const uint16_t *k = LK[n / 4 % 2]; a ^= k[0]; b ^= k[1]; c ^= k[2]; d ^= k[3]; }
        a ^= LC[n][0]; b ^= LC[n][1];
        uint16_t e = LCOL(a, b, c, d), f = LCOL(b, c, d, a), g = LCOL(c, d, a, b), h = LCOL(d, a, b, c);
        a = e; b = f; c = g; d = h;
    }
    m[0] = a ^ LK[0][0]; m[1] = b ^ LK[0][1]; m[2] = c ^ LK[0][2]; m[3] = d ^ LK[0][3];
    for (int r = 0; r < 4; r++) { int s = 12 - 4*r; p[2*r] = (uint8_t)((m[0] >> s & 15) << 4 | (m[1] >> s & 15)); p[2*r+1] = (uint8_t)((m[2] >> s & 15) << 4 | (m[3] >> s & 15)); }
}

/* ---- TWINE-80 */
static const uint8_t TS[16] = {0xC,0,0xF,0xA,2,0xB,9,5,8,3,0xD,7,1,0xE,6,4};
static uint8_t TM[256];
static uint64_t TK[36];
static void twine_key(const uint8_t *key) {
    uint8_t w[20], con = 1;
    for (int i = 0; i < 20; i++) w[i] = i % 2 ? key[i/2] & 15 : key[i/2] >> 4;
    for (int x = 0; x < 256; x++) TM[x] = TS[x >> 4] ^ (x & 15);
    static const int at[8] = {1,3,4,6,13,14,15,16};
    for (int r = 0; r < 36; r++) {
        TK[r] = 0;
        for (int j = 0; j < 8; j++) TK[r] |= (uint64_t)w[at[j]] << (60 - 8*j);
        w[1] ^= TS[w[0]]; w[4] ^= TS[w[16]]; w[7] ^= con >> 3; w[19] ^= con & 7;
        uint8_t t[20], f = w[0];
        w[0] = w[1]; w[1] = w[2]; w[2] = w[3]; w[3] = f;
        for (int i = 0; i < 20; i++) t[i] = w[(i + 4) % 20];
        memcpy(w, t, 20);
        con = (uint8_t)(con < 32 ? con << 1 : (con << 1) ^ 0x43);
    }
}
__attribute__((noinline)) static void twine_run(uint8_t *p) {
    static const int se[8] = {40,56,32,48,8,24,0,16}, so[8] = {60,44,12,28,36,52,20,4};
    uint64_t x = ld8(p);
    for (int r = 0; r < 35; r++) {
        uint64_t k = x ^ TK[r], y = 0;
        for (int j = 0; j < 8; j++) {
            y += (x >> (60 - 8*j) & 15) << se[j];
            y += (uint64_t)TM[k >> (56 - 8*j) & 255] << so[j];
        }
        x = y;
    }
    uint64_t k = x ^ TK[35], y = 0;
    for (int j = 0; j < 8; j++) y |= (uint64_t)((x >> (60 - 8*j) & 15) << 4 | TM[k >> (56 - 8*j) & 255]) << (56 - 8*j);
    st8(p, y);
}

static void chain(const char *name, void (*run)(uint8_t *), int width, unsigned long count) {
    uint8_t block[16] = {0};
    struct timespec a, b;
    clock_gettime(CLOCK_MONOTONIC, &a);
    for (unsigned long i = 0; i < count; i++) run(block);
    clock_gettime(CLOCK_MONOTONIC, &b);
    printf("%s %lu ", name, count);
    for (int i = 0; i < width; i++) printf("%02x", block[i]);
    printf(" 0 refused\n");
    long long ns = (b.tv_sec - a.tv_sec) * 1000000000LL + (b.tv_nsec - a.tv_nsec);
    fprintf(stderr, "%s %lld ns, %lld ns a block\n", name, ns, ns / (long long)(count ? count : 1));
}

int main(int argc, char **argv) {
    static const uint8_t key[16] = {0};
    unsigned long count = argc > 1 ? strtoul(argv[1], 0, 10) : 0;
    aes_tables(); aes_key(key); present_key(key); led_key(key); twine_key(key);
    for (int i = 2; i < argc; i++) {
        if (!strcmp(argv[i], "AES-128")) chain(argv[i], aes_run, 16, count);
        else if (!strcmp(argv[i], "PRESENT-80")) chain(argv[i], present_run, 8, count);
        else if (!strcmp(argv[i], "LED-80")) chain(argv[i], led_run, 8, count);
        else if (!strcmp(argv[i], "TWINE-80")) chain(argv[i], twine_run, 8, count);
        else { fprintf(stderr, "no such cipher: %s\n", argv[i]); return 1; }
    }
    return 0;
}
