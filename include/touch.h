/*
 * The touch tracker and the calibration for a C main loop.
 *
 * The tracker lives in one area of TOUCH_IMAGE_BYTES bytes that the caller lends to each call:
 * docs/IMAGE.md has its layout. touch_fresh makes it; after that only these functions write it. It has
 * no pointers in it, so it can be copied, stored and compared.
 *
 * Every function returns 0 if it answered, else the number of its refusal. A refused call has set all
 * numbers of `out` to zero and has left every byte of the area as it was.
 *
 * Link with crates/host/out/libhost.a, which `rt lib` writes in crates/host. It is for x86-64. examples/host.c is a main loop.
 */
#ifndef MOSTAVELURG_TOUCH_H
#define MOSTAVELURG_TOUCH_H

#include <stddef.h>
#include <stdint.h>

#ifdef __cplusplus
extern "C" {
#endif

/* The bytes of the area; of any other length it is refused. */
#define TOUCH_IMAGE_BYTES 83

/* Refusals. */
#define TOUCH_ANSWERED 0
#define TOUCH_STATE 1 /* the area is no tracker's image */
#define TOUCH_PANEL 2 /* a point in use is off the panel, x 0..479, y 0..319 */
#define TOUCH_WIDE 3  /* touch_apply16: a value or a sum does not fit */

/* The numbers of an answer. */
#define TOUCH_OUT 11

#define TOUCH_OUT_GESTURE 0 /* which gesture, or TOUCH_NONE */
#define TOUCH_OUT_NUMBERS 1 /* here and in the four after it: its numbers, zero where it has no more */
#define TOUCH_OUT_LETTER 6  /* the log line: its letter in ASCII, 0 for no line */
#define TOUCH_OUT_ARGUMENT 7
#define TOUCH_OUT_LOG_X 8
#define TOUCH_OUT_LOG_Y 9
#define TOUCH_OUT_LOG_TIME 10

/* Gestures, each with its numbers. An axis is TOUCH_AXIS_H or TOUCH_AXIS_V; a truth is 1 or 0. */
#define TOUCH_NONE 0
#define TOUCH_DOWN 1             /* x y */
#define TOUCH_TAP 2              /* x y */
#define TOUCH_LONG_PRESS 3       /* x y */
#define TOUCH_DRAG 4             /* x y of the start, x y now, axis */
#define TOUCH_GRAB 5             /* x y */
#define TOUCH_UP 6               /* x y */
#define TOUCH_SWIPE_LEFT 7       /* none, as the three after it */
#define TOUCH_SWIPE_RIGHT 8
#define TOUCH_SWIPE_UP 9
#define TOUCH_SWIPE_DOWN 10
#define TOUCH_CANCEL 11          /* none */
#define TOUCH_MULTI_SWIPE_DOWN 12 /* the most fingers seen */
#define TOUCH_KEY_DOWN 13        /* the key's code */
#define TOUCH_KEY_UP 14          /* the key's code */
#define TOUCH_MOVE 15            /* x y before, x y now */
#define TOUCH_PINCH 16           /* axis, span at the start, span now */
#define TOUCH_PINCH_END 17       /* whether released */

#define TOUCH_AXIS_H 0
#define TOUCH_AXIS_V 1

/* Makes the area a fresh tracker's, whatever it held. */
uint32_t touch_fresh(uint8_t *image, size_t bytes);

/*
 * A report of the controller: its time in ms, the mask of its keys, its count of fingers (over 5 means
 * 5), and its points: px py for one finger, the first `count` of x0 y0 .. x4 y4 for several. A point
 * that the count does not use is not looked at.
 */
uint32_t touch_event(uint8_t *image, size_t bytes, uint64_t time, uint8_t keys, uint8_t count,
                     uint16_t px, uint16_t py, uint16_t x0, uint16_t y0, uint16_t x1, uint16_t y1,
                     uint16_t x2, uint16_t y2, uint16_t x3, uint16_t y3, uint16_t x4, uint16_t y4,
                     uint64_t out[TOUCH_OUT]);

/* To be called periodically, between the reports. */
uint32_t touch_tick(uint8_t *image, size_t bytes, uint64_t time, uint64_t out[TOUCH_OUT]);

/*
 * docs/GESTURES.md has which of these calls and the tick may come in another order. In short: a capture of either kind may be
 * made again without effect; a raw wish comes before the capture that is to use it up; of two wishes, and of two grab times,
 * the later stands; touch_tick may come before touch_capture or behind it.
 */

/* The app took the current touch: the release of its one finger is then no swipe and no tap. */
uint32_t touch_capture(uint8_t *image, size_t bytes, uint64_t out[TOUCH_OUT]);

/*
 * The app took the current touch, which has no hold before a drag from here on. The raw wish is cleared, and no
 * log line is told.
 */
uint32_t touch_capture_direct(uint8_t *image, size_t bytes, uint64_t out[TOUCH_OUT]);

/* Ask for raw moves on the touch that the app is about to capture: 0 is off, any other number on. */
uint32_t touch_raw_next(uint8_t *image, size_t bytes, uint8_t on, uint64_t out[TOUCH_OUT]);

/* Hold-to-grab time in ms, at most 5000 (a longer one is cut to it); 0 for direct drags. */
uint32_t touch_set_grab_ms(uint8_t *image, size_t bytes, uint16_t ms, uint64_t out[TOUCH_OUT]);
uint32_t touch_grab_ms(const uint8_t *image, size_t bytes, uint64_t out[1]);

/*
 * The calibration c0 .. c5, in steps of 1/65536, at the raw point (x, y): the point on the screen in
 * sixteenths of a pixel.
 */
uint32_t touch_apply16(int32_t c0, int32_t c1, int32_t c2, int32_t c3, int32_t c4, int32_t c5, int32_t x,
                       int32_t y, int32_t out[2]);

#ifdef __cplusplus
}
#endif

#endif
