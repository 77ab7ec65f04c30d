/*
 * The inputs of the measurements, on standard output:
 *
 *     inputs ROW CALLS     what the row takes, for so many calls
 *     inputs trace BYTES   a trace of that length, always the same one
 */
#include <stdint.h>
#include <stdio.h>
#include <stdlib.h>
#include <string.h>

static uint8_t bytes[1 << 20];
static size_t length;

/* A number as in the trace: seven-bit groups, low first. */
static void put(uint64_t v) {
    for (; v > 127; v >>= 7) bytes[length++] = (uint8_t)(v & 127) | 128;
    bytes[length++] = (uint8_t)v;
}

/* A signed number is written 2v, or -2v - 1 below zero. */
static void put_signed(int64_t v) { put(v < 0 ? (uint64_t)(-2 * v - 1) : (uint64_t)(2 * v)); }

static void head(uint64_t row, uint64_t calls) {
    put(row);
    put(calls);
}

static void report(uint64_t time, unsigned keys, unsigned count) {
    put(1);
    put(time);
    put(keys);
    put(count);
}

static void point(unsigned x, unsigned y) {
    put(x);
    put(y);
}

static void one(uint64_t time, unsigned x, unsigned y) {
    report(time, 0, 1);
    point(x, y);
}

static void two(uint64_t time, unsigned x, unsigned y, unsigned span) {
    report(time, 0, 2);
    point(x, y);
    point(x + span, y + 2);
}

static void none(uint64_t time) { report(time, 0, 0); }

static void tick(uint64_t time) {
    put(2);
    put(time);
}

/* A drag that ends in a swipe, and a tap. */
static void one_finger(void) {
    one(0, 100, 50);
    one(10, 104, 50);
    one(20, 112, 51);
    one(30, 117, 52);
    one(40, 128, 53);
    one(50, 142, 54);
    one(60, 160, 55);
    one(70, 171, 56);
    one(80, 180, 56);
    none(90);
    one(1000, 300, 200);
    one(1020, 301, 201);
    none(1060);
}

static void pinch(void) {
    two(0, 100, 50, 100);
    two(10, 98, 50, 104);
    two(20, 94, 51, 112);
    two(30, 88, 51, 124);
    two(40, 80, 52, 140);
    two(50, 72, 52, 156);
    two(60, 66, 52, 168);
    none(70);
}

static void keys(void) {
    static const unsigned masks[] = {1, 3, 2, 0, 4, 12, 8, 0};
    for (unsigned i = 0; i < 8; i++) report(10 * i, masks[i], 0);
}

/* While the finger of the first report is down, before its long press is due: that report's time too is a tick's. */
static void ticks(void) {
    one(0, 100, 50);
    for (unsigned i = 1; i < 7; i++) tick(100 * i);
}

static void all_signed(const int64_t *v, size_t n) {
    for (size_t i = 0; i < n; i++) put_signed(v[i]);
}

static void apply16(void) {
    static const int64_t v[] = {655,  -120, 98304, 200, -300, -65536, 3,   5,   100, 50, 479,
                                319,  0,    0,     240, 160,  17,     301, 456, 24,  333, 99};
    all_signed(v, sizeof v / sizeof *v);
}

static void isqrt(void) {
    static const uint64_t v[] = {9, 2500, 160801, 1000000, 58982400, 4294967296, 1000000000000, 4611686018427387904};
    for (unsigned i = 0; i < 8; i++) put(v[i]);
}

/* In thousandths. */
static void q16(void) {
    static const int64_t v[] = {20, -15, 1000, -40000, 12345, -3, 0, 500};
    all_signed(v, 8);
}

/* Nine taps, where they should have been, and the check points. The taps are such that the means and the largest are the
   same by the Rust's tenths and by ours, in each of the four places of the first tap, so that the sums can be compared. */
static void fit(void) {
    static const int64_t off[] = {2, -1, 3, 0, 1, 2, -1, 0, 2, 2, 0, -2, 1, 0, 3, 1, 2, -1};
    static const unsigned xs[] = {24, 240, 456}, ys[] = {24, 160, 296};
    for (unsigned i = 0; i < 9; i++) {
        put_signed((int64_t)xs[i % 3] + off[2 * i]);
        put_signed((int64_t)ys[i / 3] + off[2 * i + 1]);
    }
    for (unsigned i = 0; i < 9; i++) {
        put_signed(xs[i % 3]);
        put_signed(ys[i / 3]);
    }
    for (unsigned i = 0; i < 9; i++) point(xs[i % 3], ys[i / 3]);
}

/* Numbers that look random and are the same in each run (splitmix64). */
static uint64_t seed = 1;

static unsigned under(unsigned n) {
    uint64_t z = seed += 0x9E3779B97F4A7C15;
    z = (z ^ (z >> 30)) * 0xBF58476D1CE4E5B9;
    z = (z ^ (z >> 27)) * 0x94D049BB133111EB;
    return (unsigned)((z ^ (z >> 31)) % n);
}

static uint64_t now;

static uint64_t later(unsigned least, unsigned spread) { return now += least + under(spread); }

/* What a hand does in one touch, or a key. */
static void touch(void) {
    unsigned x = 40 + under(250), y = 40 + under(150), n = 3 + under(8);
    int dx = (int)under(25) - 8, dy = (int)under(9) - 4;
    switch (under(6)) {
    case 0: /* a tap */
        one(later(400, 400), x, y);
        one(later(10, 20), x + 1, y);
        none(later(10, 60));
        break;
    case 1: /* a long press */
        one(later(400, 400), x, y);
        for (unsigned i = 0; i < 9; i++) tick(later(90, 20));
        none(later(10, 60));
        break;
    case 2: /* a pinch */
        one(later(400, 400), x, y);
        for (unsigned i = 0; i < n; i++) two(later(10, 10), x, y, 60 + i * under(16));
        none(later(10, 20));
        break;
    case 3: /* a key */
        report(later(100, 100), 1u << under(4), 0);
        none(later(30, 100));
        break;
    case 4: /* a drag that the app takes */
        one(later(400, 400), x, y);
        put(3);
        for (unsigned i = 1; i < n; i++) one(later(10, 10), x + i * 6, y + i);
        none(later(10, 20));
        break;
    default: /* a drag or a swipe */
        one(later(400, 400), x, y);
        for (unsigned i = 1; i < n; i++) one(later(10, 10), (unsigned)((int)x + (int)i * dx / 2), (unsigned)((int)y + (int)i * dy));
        tick(later(10, 10));
        none(later(10, 20));
    }
}

/* Whole touches, then captures of no touch up to the length. */
static void trace(size_t n) {
    put(1);
    for (size_t before = length; length <= n; before = length) {
        touch();
        if (length > n) {
            length = before;
            break;
        }
    }
    while (length < n) put(3);
}

static const struct {
    const char *name;
    uint64_t row;
    void (*body)(void);
} rows[] = {
    {"one", 1, one_finger}, {"pinch", 1, pinch}, {"keys", 1, keys}, {"apply16", 2, apply16},
    {"isqrt", 3, isqrt}, {"q16", 4, q16}, {"fit", 5, fit}, {"tick", 6, ticks},
};

int main(int argc, char **argv) {
    if (argc != 3) return 2;
    uint64_t n = strtoull(argv[2], NULL, 10);
    if (strcmp(argv[1], "trace") == 0) {
        trace(n);
    } else {
        for (size_t i = 0; i < sizeof rows / sizeof *rows; i++)
            if (strcmp(argv[1], rows[i].name) == 0) {
                head(rows[i].row, n);
                rows[i].body();
            }
    }
    return length == 0 || fwrite(bytes, 1, length, stdout) != length;
}
