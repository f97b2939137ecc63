// What crates/kernel_bench is compared with: pixman's composites, plain loops, memset and memcpy, each for a row of
// 1,024 pixels (pixman, from a picture of 8 rows) or bytes (the others), in tenths of a nanosecond of processor time.
#include <pixman.h>
#include <stdint.h>
#include <stdio.h>
#include <string.h>
#include <time.h>

enum { LENGTH = 1024, ROWS = 8, ROUNDS = 2000 };
#define LOOP __attribute__((noipa)) static void
typedef uint8_t *restrict row;
typedef const uint8_t *restrict source;

static inline uint8_t mul(uint8_t x, uint8_t y) { return (x * y + x) >> 8; }

LOOP over_solid(row d, uint8_t s, uint8_t sa, size_t n) {
    for (size_t i = 0; i < n; i++) d[i] = s + (d[i] - mul(d[i], sa));
}
LOOP over_row(row d, source s, source sa, size_t n) {
    for (size_t i = 0; i < n; i++) d[i] = s[i] + (d[i] - mul(d[i], sa[i]));
}
LOOP scale_by(row d, uint8_t c, size_t n) {
    for (size_t i = 0; i < n; i++) d[i] = mul(d[i], c);
}
LOOP scale_row(row d, source c, size_t n) {
    for (size_t i = 0; i < n; i++) d[i] = mul(d[i], c[i]);
}
LOOP weave_row(source b, source g, source r, source a, row out, size_t n) {
    for (size_t i = 0; i < n; i++) {
        out[4 * i] = b[i];
        out[4 * i + 1] = g[i];
        out[4 * i + 2] = r[i];
        out[4 * i + 3] = a[i];
    }
}

static double now(void) {
    struct timespec t;
    clock_gettime(CLOCK_PROCESS_CPUTIME_ID, &t);
    return t.tv_sec * 1e9 + t.tv_nsec;
}

static void tell(const char *name, double start, double rows) { printf("%s %.0f\n", name, (now() - start) * 10 / rows); }

#define TIME(name, call) { \
    double start = now(); \
    for (int k = 0; k < ROUNDS; k++) { call; __asm__ volatile("" ::: "memory"); } \
    tell(name, start, ROUNDS); }

static uint32_t from[ROWS * LENGTH], onto[ROWS * LENGTH];

static void composite(const char *name, pixman_op_t op, int solid, int rounds) {
    for (int i = 0; i < ROWS * LENGTH; i++) from[i] = 0x80646464, onto[i] = 0xff070707;
    pixman_color_t colour = {0x6464, 0x6464, 0x6464, 0x8080};
    pixman_image_t *s = solid ? pixman_image_create_solid_fill(&colour)
                              : pixman_image_create_bits(PIXMAN_a8r8g8b8, LENGTH, ROWS, from, 4 * LENGTH);
    pixman_image_t *d = pixman_image_create_bits(PIXMAN_a8r8g8b8, LENGTH, ROWS, onto, 4 * LENGTH);
    pixman_image_composite32(op, s, NULL, d, 0, 0, 0, 0, 0, 0, LENGTH, ROWS);
    double start = now();
    for (int k = 0; k < rounds; k++) pixman_image_composite32(op, s, NULL, d, 0, 0, 0, 0, 0, 0, LENGTH, ROWS);
    tell(name, start, (double)rounds * ROWS);
    pixman_image_unref(s);
    pixman_image_unref(d);
}

int main(void) {
    static uint8_t d[LENGTH], s[LENGTH], sa[LENGTH], out[4 * LENGTH];
    memset(d, 7, LENGTH), memset(s, 100, LENGTH), memset(sa, 128, LENGTH);
    TIME("fill", memset(d, k % 251, LENGTH))
    TIME("over_solid", over_solid(d, k % 100, 128 + k % 120, LENGTH))
    TIME("over_row", over_row(d, s, sa, LENGTH))
    TIME("scale_by", scale_by(d, k % 251, LENGTH))
    TIME("scale_row", scale_row(d, sa, LENGTH))
    TIME("weave_row", weave_row(s, s, sa, sa, out, LENGTH))
    TIME("copy", memcpy(d, s, LENGTH))
    composite("pixman_over", PIXMAN_OP_OVER, 0, 250);
    composite("pixman_over_solid", PIXMAN_OP_OVER, 1, 250);
    composite("multiply", PIXMAN_OP_MULTIPLY, 0, 20);
    composite("screen", PIXMAN_OP_SCREEN, 0, 20);
    composite("overlay", PIXMAN_OP_OVERLAY, 0, 20);
    composite("darken", PIXMAN_OP_DARKEN, 0, 20);
    composite("lighten", PIXMAN_OP_LIGHTEN, 0, 20);
    composite("hard_light", PIXMAN_OP_HARD_LIGHT, 0, 20);
    composite("difference", PIXMAN_OP_DIFFERENCE, 0, 20);
    composite("exclusion", PIXMAN_OP_EXCLUSION, 0, 20);
}
