/*
 * Two calls in either order, as a C host makes them on one area: request [10]. From every tracker of the recorded run each
 * pair of touch_capture, touch_capture_direct, touch_raw_next, touch_set_grab_ms and touch_tick is made in both orders, and
 * whether the areas are the same in the end is held to the table of docs/GESTURES.md, read here from the bytes of the area
 * (rows.h is made of docs/IMAGE.md) and the numbers that the tick told.
 *
 *     orders LINES     crates/probe/stdout (docs/PROBE.md)
 */
#include "calls.h"
#include "rows.h"

enum { GESTURE_NUMBERS = TOUCH_OUT_LETTER };

/* What two calls on a copy of an area leave, and what each told. */
struct run {
    uint8_t area[TOUCH_IMAGE_BYTES];
    struct told told[2];
};

static unsigned long pairs, apart;

/* The second may be left out. */
static struct run run(const uint8_t *image, const struct call *first, const struct call *second)
{
    const struct call *calls[] = {first, second};
    struct run r;
    uint8_t *area = lend(image, TOUCH_IMAGE_BYTES, pairs % ALIGNMENTS);
    for (int i = 0; i < 2 && calls[i]; i++) {
        if (make(calls[i], area, TOUCH_IMAGE_BYTES, &r.told[i]))
            differs("pair %lu, %s: refused", pairs, call_names[calls[i]->which]);
        if (!guards_stand(area, TOUCH_IMAGE_BYTES) || !numbers_stand(&r.told[i], calls[i]->which))
            differs("pair %lu, %s: writes beside its area or numbers", pairs, call_names[calls[i]->which]);
    }
    memcpy(r.area, area, TOUCH_IMAGE_BYTES);
    return r;
}

/* The gesture and its numbers; the log line is not compared. */
static int same_gesture(const struct told *a, const struct told *b)
{
    return memcmp(a->out, b->out, GESTURE_NUMBERS * sizeof a->out[0]) == 0;
}

/* "unless an uncaptured touch is active and the raw wish is on" */
static int wish_meets_touch(const uint8_t *image)
{
    return image[AT_touch_number] && !image[AT_app_captured] && image[AT_settings_raw_next];
}

static unsigned cut(unsigned ms)
{
    return ms < 5000 ? ms : 5000;
}

/* Whether the two leave the same area in either order: a line of the table for each pair. */
static int commute(const uint8_t *image, const struct call *c, const struct call *d, const struct run *there, const struct run *back)
{
    int wish = wish_meets_touch(image);
    switch (c->which * CALLS + d->which) {
    case CAPTURE * CALLS + CAPTURE_DIRECT:
        return !wish;
    case CAPTURE * CALLS + RAW_NEXT:
        return !d->on && !wish;
    case CAPTURE_DIRECT * CALLS + RAW_NEXT:
        return !d->on;
    case RAW_NEXT * CALLS + RAW_NEXT:
        return c->on == d->on;
    case SET_GRAB_MS * CALLS + SET_GRAB_MS:
        return cut(c->ms) == cut(d->ms);
    case CAPTURE_DIRECT * CALLS + TICK:
        return back->told[0].out[TOUCH_OUT_GESTURE] != TOUCH_GRAB;
    case SET_GRAB_MS * CALLS + TICK:
        return same_gesture(&there->told[1], &back->told[0]);
    case TICK * CALLS + TICK:
        return (same_gesture(&there->told[0], &back->told[0]) && same_gesture(&there->told[1], &back->told[1]))
               || (same_gesture(&there->told[0], &back->told[1]) && same_gesture(&there->told[1], &back->told[0]));
    default:
        return 1;
    }
}

static void hold_pair(const uint8_t *image, const struct call *c, const struct call *d)
{
    struct run there = run(image, c, d), back = run(image, d, c);
    int same = memcmp(there.area, back.area, TOUCH_IMAGE_BYTES) == 0;
    const char *first = call_names[c->which], *second = call_names[d->which];
    if (same != commute(image, c, d, &there, &back))
        differs("pair %lu, %s and %s: in either order %s", pairs, first, second, same ? "the same area" : "not the same area");
    /* behind a capture or a setting the tick gives the same gesture exactly if the same is left */
    if (d->which == TICK && c->which != TICK && same_gesture(&there.told[1], &back.told[0]) != same)
        differs("pair %lu, %s and %s: the tick answers otherwise", pairs, first, second);
    /* of a capture or a setting made twice the later stands */
    if (c->which == d->which && c->which != TICK) {
        struct run later = run(image, d, NULL);
        if (memcmp(there.area, later.area, TOUCH_IMAGE_BYTES))
            differs("pair %lu, %s twice: the later does not stand", pairs, first);
    }
    pairs++;
    apart += !same;
}

/* Times and numbers that differ from one tracker to the next, around a finger that has been down for a while. */
static struct call some_call(enum which which, const uint8_t *image, unsigned long turn)
{
    static const uint16_t waits[] = {0, 1, 100, 200, 699, 700, 701, 1199, 1200, 5000};
    static const uint16_t grabs[] = {0, 1, 100, 200, 700, 4999, 5000, 5001, 65535};
    struct call c = {.which = which, .on = turn % 2, .ms = grabs[turn % (sizeof grabs / sizeof grabs[0])]};
    for (int i = 7; i >= 0; i--)
        c.time = c.time << 8 | image[AT_since + i];
    c.time += waits[turn % (sizeof waits / sizeof waits[0])];
    return c;
}

static void hold_tracker(const uint8_t *image, unsigned long turn)
{
    static const enum which order[] = {CAPTURE, CAPTURE_DIRECT, RAW_NEXT, SET_GRAB_MS, TICK};
    for (int i = 0; i < 5; i++)
        for (int j = i; j < 5; j++) {
            struct call c = some_call(order[i], image, turn + (unsigned)i), d = some_call(order[j], image, turn / 3 + (unsigned)j);
            hold_pair(image, &c, &d);
        }
}

int main(int words, char **word)
{
    size_t size;
    uint8_t *text;
    unsigned long trackers = 0;
    if (words != 2) {
        fprintf(stderr, "orders LINES\n");
        return 2;
    }
    text = file_bytes(word[1], &size);
    for (char *line = strtok((char *)text, "\n"); line; line = strtok(NULL, "\n")) {
        uint8_t image[TOUCH_IMAGE_BYTES];
        char *bar = strrchr(line, '|');
        if (bar && bar[1] == ' ' && unhex(bar + 2, image, sizeof image) == sizeof image)
            hold_tracker(image, trackers++);
    }
    free(text);
    if (!trackers || !apart)
        differs("no trackers in the record, or none on which an order counts");
    if (differences) {
        printf("orders: %s differences from the table\n", commas(differences));
        return 1;
    }
    printf("orders: %s pairs of calls on %s trackers in either order, %s of them not the same: as docs/GESTURES.md has it\n",
           commas(pairs), commas(trackers), commas(apart));
    return 0;
}
