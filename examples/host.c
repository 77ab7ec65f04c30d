/*
 * A host's main loop: it plays the example trace of document 01 through the proved archive, one call for
 * each record, and prints a line for each gesture, as the trace program does. On a panel the records
 * would come from the touch controller.
 */
#include "gestures.h"
#include "touch.h"

#include <stdio.h>

/* The trace: a version, then records. Each number is in seven-bit groups, low first. */
static const uint8_t trace[] = {
    0x01,                                                       /* version */
    0x01, 0x00, 0x00, 0x01, 0x64, 0x32,                         /* a report: time, keys, count, points */
    0x01, 0x0A, 0x00, 0x01, 0x73, 0x32,                         /* moves by 15 */
    0x01, 0x14, 0x00, 0x01, 0x74, 0x32,                         /* moves by 16 */
    0x01, 0x1E, 0x00, 0x02, 0x74, 0x32, 0xB0, 0x01, 0x32,       /* a second finger */
    0x02, 0xE8, 0x07,                                           /* a tick */
    0x01, 0xF2, 0x07, 0x00, 0x00,                               /* all up */
    0x01, 0x9D, 0x0A, 0x00, 0x01, 0x64, 0x32,                   /* 299 ms later: residual */
    0x01, 0x9E, 0x0A, 0x00, 0x00,                               /* up */
    0x01, 0x9E, 0x0A, 0x00, 0x01, 0x64, 0x32,                   /* 300 ms later: a new touch */
    0x01, 0xF8, 0x0A, 0x00, 0x00,                               /* up */
};

/* The kinds of a record. */
enum { REPORT = 1, TICK, CAPTURE, CAPTURE_DIRECT, RAW_NEXT, GRAB };

#define MAX_POINTS 5

static size_t at;

/* The next number of the trace, which is known to be well formed. */
static uint64_t next(void)
{
    uint64_t value = 0;
    int shift = 0;
    while (trace[at] >= 0x80) {
        value |= (uint64_t)(trace[at++] & 0x7F) << shift;
        shift += 7;
    }
    return value | (uint64_t)trace[at++] << shift;
}

static uint32_t report(uint8_t *image, uint64_t *out)
{
    uint16_t p[2 * MAX_POINTS] = {0};
    uint64_t time = next();
    uint8_t keys = (uint8_t)next();
    uint8_t count = (uint8_t)next();
    for (int i = 0; i < count && i < MAX_POINTS; i++) {
        p[2 * i] = (uint16_t)next();
        p[2 * i + 1] = (uint16_t)next();
    }
    return touch_event(image, TOUCH_IMAGE_BYTES, time, keys, count, p[0], p[1], p[0], p[1], p[2], p[3],
                       p[4], p[5], p[6], p[7], p[8], p[9], out);
}

/* One record of the trace is one call. */
static uint32_t play(uint8_t *image, uint64_t *out)
{
    switch (next()) {
    case REPORT:
        return report(image, out);
    case TICK:
        return touch_tick(image, TOUCH_IMAGE_BYTES, next(), out);
    case CAPTURE:
        return touch_capture(image, TOUCH_IMAGE_BYTES, out);
    case CAPTURE_DIRECT:
        return touch_capture_direct(image, TOUCH_IMAGE_BYTES, out);
    case RAW_NEXT:
        return touch_raw_next(image, TOUCH_IMAGE_BYTES, (uint8_t)next(), out);
    default:
        return touch_set_grab_ms(image, TOUCH_IMAGE_BYTES, (uint16_t)next(), out);
    }
}

static void print(unsigned record, const uint64_t *out)
{
    uint64_t g = out[TOUCH_OUT_GESTURE];
    if (g == TOUCH_NONE)
        return;
    printf("%u %s", record, gestures[g].name);
    for (int i = 0; i < gestures[g].numbers; i++) {
        uint64_t n = out[TOUCH_OUT_NUMBERS + i];
        if (i == gestures[g].axis)
            printf(" %c", n == TOUCH_AXIS_H ? 'H' : 'V');
        else
            printf(" %u", (unsigned)n);
    }
    printf("\n");
}

int main(void)
{
    uint8_t image[TOUCH_IMAGE_BYTES];
    uint64_t out[TOUCH_OUT];
    unsigned record = 0;

    if (touch_fresh(image, sizeof image) != TOUCH_ANSWERED)
        return 1;
    next(); /* the version */
    while (at < sizeof trace) {
        uint32_t refusal = play(image, out);
        record++;
        if (refusal != TOUCH_ANSWERED)
            printf("%u refused %u\n", record, (unsigned)refusal);
        print(record, out);
    }
    printf("end %u\n", record);
    return 0;
}
