/*
 * The calls of a row on the tracker's byte image, by the functions that a C main loop calls: reads what `inputs` writes
 * and prints the same number as the other sides. A call's log line is stored into a ring, as theirs is.
 */
#include "touch.h"

#include <inttypes.h>
#include <stdio.h>
#include <unistd.h>

#define CALLS_MOST 16
#define POINTS 5
#define LINES 160
#define TICKS 6 /* the number of the row of ticks */

static uint8_t in[4096];
static size_t length, at;

static uint64_t number(void) {
    uint64_t v = 0;
    for (unsigned shift = 0; at < length; shift += 7) {
        uint8_t b = in[at++];
        v |= (uint64_t)(b & 127) << shift;
        if (b < 128) break;
    }
    return v;
}

struct call {
    uint64_t time;
    uint8_t keys, count;
    uint16_t px, py, x[POINTS], y[POINTS];
};

static struct call calls[CALLS_MOST];

static inline void event(uint8_t *image, const struct call *c, uint64_t *out) {
    touch_event(image, TOUCH_IMAGE_BYTES, c->time, c->keys, c->count, c->px, c->py, c->x[0], c->y[0], c->x[1], c->y[1], c->x[2],
                c->y[2], c->x[3], c->y[3], c->x[4], c->y[4], out);
}

static struct {
    uint32_t time;
    uint8_t letter, argument;
    uint16_t x, y;
} ring[LINES];

static uint32_t lines;

static inline void store(const uint64_t *out) {
    if (out[TOUCH_OUT_LETTER] == 0) return;
    ring[lines % LINES].time = (uint32_t)out[TOUCH_OUT_LOG_TIME];
    ring[lines % LINES].letter = (uint8_t)out[TOUCH_OUT_LETTER];
    ring[lines % LINES].argument = (uint8_t)out[TOUCH_OUT_ARGUMENT];
    ring[lines % LINES].x = (uint16_t)out[TOUCH_OUT_LOG_X];
    ring[lines % LINES].y = (uint16_t)out[TOUCH_OUT_LOG_Y];
    lines++;
}

int main(void) {
    ssize_t got;
    while (length < sizeof in && (got = read(0, in + length, sizeof in - length)) > 0) length += (size_t)got;
    uint64_t row = number(), n = number();
    size_t held = 0;
    for (; at < length && held < CALLS_MOST; held++) {
        int is_tick = number() != 1;
        calls[held].time = number();
        if (is_tick) continue;
        calls[held].keys = (uint8_t)number();
        calls[held].count = (uint8_t)number();
        for (unsigned i = 0; i < calls[held].count && i < POINTS; i++) {
            calls[held].x[i] = (uint16_t)number();
            calls[held].y[i] = (uint16_t)number();
        }
        calls[held].px = calls[held].x[0];
        calls[held].py = calls[held].y[0];
    }
    uint8_t image[TOUCH_IMAGE_BYTES];
    uint64_t out[TOUCH_OUT], sum = 0;
    size_t k = 0;
    touch_fresh(image, sizeof image);
    if (row == TICKS) {
        event(image, &calls[0], out); /* the finger that is down meanwhile */
        for (uint64_t i = 0; i < n; i++) {
            touch_tick(image, sizeof image, calls[k].time, out);
            sum += out[TOUCH_OUT_GESTURE];
            store(out);
            k = k + 1 < held ? k + 1 : 0;
        }
    } else {
        for (uint64_t i = 0; i < n; i++) {
            event(image, &calls[k], out);
            sum += out[TOUCH_OUT_GESTURE];
            store(out);
            k = k + 1 < held ? k + 1 : 0;
        }
    }
    for (unsigned i = 0; i < LINES; i++) sum += ring[i].time + ring[i].letter + ring[i].argument + ring[i].x + ring[i].y;
    printf("%" PRIu64, sum);
    return 0;
}
