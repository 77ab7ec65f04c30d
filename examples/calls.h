/*
 * A call on a lent area, made so that whatever it writes besides the area and its own numbers is seen: the area
 * stands between guard bytes, and the numbers between guard numbers.
 */
#ifndef CALLS_H
#define CALLS_H

#include "touch.h"

#include <stdarg.h>
#include <stdio.h>
#include <stdlib.h>
#include <string.h>

/* The calls on an area, in the order of the kinds of docs/PROBE.md. */
enum which { FRESH, EVENT, TICK, CAPTURE, CAPTURE_DIRECT, RAW_NEXT, SET_GRAB_MS, GRAB_MS, CALLS };

static const char *const call_names[] = {
    [FRESH] = "touch_fresh",
    [EVENT] = "touch_event",
    [TICK] = "touch_tick",
    [CAPTURE] = "touch_capture",
    [CAPTURE_DIRECT] = "touch_capture_direct",
    [RAW_NEXT] = "touch_raw_next",
    [SET_GRAB_MS] = "touch_set_grab_ms",
    [GRAB_MS] = "touch_grab_ms",
};

/* The points of a report: p, then five. */
enum { POINTS = 6 };

struct call {
    enum which which;
    uint64_t time;
    uint8_t keys, count;
    uint16_t x[POINTS], y[POINTS];
    uint8_t on;
    uint16_t ms;
};

/* An area is lent from one room, at any of eight alignments. */
enum { GUARD = 64, ALIGNMENTS = 8, AREA_MOST = 65535, GUARD_BYTE = 0xA5 };

static union {
    uint64_t aligns;
    uint8_t bytes[GUARD + ALIGNMENTS + AREA_MOST + GUARD];
} room;

/* The room's area at this alignment, with the bytes in it and guards on both sides. */
static inline uint8_t *lend(const uint8_t *bytes, size_t count, unsigned alignment)
{
    uint8_t *area = room.bytes + GUARD + alignment;
    memset(area - GUARD, GUARD_BYTE, GUARD);
    memcpy(area, bytes, count);
    memset(area + count, GUARD_BYTE, GUARD);
    return area;
}

static inline int guards_stand(const uint8_t *area, size_t count)
{
    for (int i = 0; i < GUARD; i++)
        if (area[-1 - i] != GUARD_BYTE || area[count + i] != GUARD_BYTE)
            return 0;
    return 1;
}

/* The numbers of an answer, with one before them and all behind them that the call does not tell as guards. */
#define GUARD_NUMBER UINT64_C(0x5AC35AC35AC35AC3)

struct told {
    uint64_t before;
    uint64_t out[TOUCH_OUT];
    uint64_t behind;
};

static inline int numbers_told(enum which which)
{
    return which == FRESH ? 0 : which == GRAB_MS ? 1 : TOUCH_OUT;
}

static inline int numbers_stand(const struct told *told, enum which which)
{
    if (told->before != GUARD_NUMBER || told->behind != GUARD_NUMBER)
        return 0;
    for (int i = numbers_told(which); i < TOUCH_OUT; i++)
        if (told->out[i] != GUARD_NUMBER)
            return 0;
    return 1;
}

/* Makes the call on an area of so many bytes. */
static inline uint32_t make(const struct call *c, uint8_t *area, size_t bytes, struct told *told)
{
    told->before = told->behind = GUARD_NUMBER;
    for (int i = 0; i < TOUCH_OUT; i++)
        told->out[i] = GUARD_NUMBER;
    switch (c->which) {
    case FRESH:
        return touch_fresh(area, bytes);
    case EVENT:
        return touch_event(area, bytes, c->time, c->keys, c->count, c->x[0], c->y[0], c->x[1], c->y[1],
                           c->x[2], c->y[2], c->x[3], c->y[3], c->x[4], c->y[4], c->x[5], c->y[5], told->out);
    case TICK:
        return touch_tick(area, bytes, c->time, told->out);
    case CAPTURE:
        return touch_capture(area, bytes, told->out);
    case CAPTURE_DIRECT:
        return touch_capture_direct(area, bytes, told->out);
    case RAW_NEXT:
        return touch_raw_next(area, bytes, c->on, told->out);
    case SET_GRAB_MS:
        return touch_set_grab_ms(area, bytes, c->ms, told->out);
    default:
        return touch_grab_ms(area, bytes, told->out);
    }
}

/* What a refused call must leave: the area, the guards, and zeros in all its numbers. */
static inline int refused_rightly(const struct call *c, const uint8_t *area, const uint8_t *was, size_t bytes,
                                  const struct told *told)
{
    for (int i = 0; i < numbers_told(c->which); i++)
        if (told->out[i] != 0)
            return 0;
    return memcmp(area, was, bytes) == 0 && guards_stand(area, bytes) && numbers_stand(told, c->which);
}

/* Differences: each is said, up to some, and counted. */
enum { SAID_MOST = 20 };

static unsigned long differences;

static inline void differs(const char *format, ...)
{
    va_list words;
    if (differences++ >= SAID_MOST)
        return;
    va_start(words, format);
    vfprintf(stderr, format, words);
    va_end(words);
    fputc('\n', stderr);
}

/* A file whole, with a 0 behind it. */
static inline uint8_t *file_bytes(const char *path, size_t *size)
{
    FILE *file = fopen(path, "rb");
    uint8_t *bytes = NULL;
    size_t room_for = 1 << 16, have = 0, got;
    if (!file) {
        perror(path);
        exit(2);
    }
    do {
        room_for *= 2;
        bytes = realloc(bytes, room_for + 1);
        if (!bytes) {
            fprintf(stderr, "%s: no memory\n", path);
            exit(2);
        }
        got = fread(bytes + have, 1, room_for - have, file);
        have += got;
    } while (have == room_for);
    if (ferror(file)) {
        perror(path);
        exit(2);
    }
    fclose(file);
    bytes[have] = 0;
    *size = have;
    return bytes;
}

/* A byte for each two hex digits, up to the first other character: how many. */
static inline size_t unhex(const char *hex, uint8_t *bytes, size_t most)
{
    static const char digits[] = "0123456789abcdef";
    size_t n = 0;
    while (n < most && hex[2 * n] && hex[2 * n + 1]) {
        const char *high = strchr(digits, hex[2 * n]), *low = strchr(digits, hex[2 * n + 1]);
        if (!high || !low)
            break;
        bytes[n++] = (uint8_t)((high - digits) << 4 | (low - digits));
    }
    return n;
}

/* A count with commas, in one of a few places that the next calls do not use. */
static inline const char *commas(unsigned long n)
{
    static char places[8][32];
    static int next;
    char *at = places[next++ % 8] + 31;
    int digits = 0;
    *at = 0;
    do {
        if (digits && digits % 3 == 0)
            *--at = ',';
        *--at = (char)('0' + n % 10);
        digits++;
        n /= 10;
    } while (n);
    return at;
}

#endif
