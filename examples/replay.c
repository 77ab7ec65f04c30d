/*
 * Makes the recorded calls of the probe again, through the proved archive as a C host has it: each call on the
 * tracker and each apply16 of the record. Held to the record: the refusal, every number of the answer, every byte of
 * the area; and the guards around both. The whole record at each of eight alignments of the area.
 *
 *     replay CALLS LINES     crates/probe/stdin and crates/probe/stdout (docs/PROBE.md)
 */
#include "calls.h"
#include "gestures.h"

/* The calls of the record: the bytes not yet read. */
static const uint8_t *at, *end;

static uint64_t next(void)
{
    uint64_t value = 0;
    for (int shift = 0; shift < 70 && at < end; shift += 7) {
        value |= (uint64_t)(*at & 0x7F) << shift;
        if (*at++ < 0x80)
            return value;
    }
    fprintf(stderr, "replay: the recorded calls are cut\n");
    exit(2);
}

/* A signed v is written 2v, or -2v - 1 below zero. */
static int32_t next_signed(void)
{
    uint64_t v = next();
    return (int32_t)(v & 1 ? -(int64_t)(v >> 1) - 1 : (int64_t)(v >> 1));
}

/* Kinds of call. Those on the tracker are as `which`, from FIRST on. */
enum { APPLY16 = 10, FIRST = 30, LOAD = 38, KINDS = 50 };

/* The arguments of the kinds that C has no call for: n is a number, p a count and so many points. */
static const char *const skipped[KINDS] = {
    [1] = "nnnn",  [2] = "nnnn",      [3] = "nnnnnnnnnnn", [4] = "nn",  [11] = "nnnnnnnn", [12] = "n",
    [13] = "nnnn", [14] = "nnnnnnpp", [15] = "nnnnnnp",    [16] = "n",  [17] = "nnnnnn",   [18] = "nnnnnn",
    [19] = "ppp",  [20] = "nnnnnn",   [21] = "",           [43] = "nnnn", [44] = "nnnnnnpp", [49] = "ppp",
};

static void skip(const char *arguments)
{
    for (; *arguments; arguments++) {
        uint64_t numbers = *arguments == 'p' ? 2 * next() : 1;
        while (numbers--)
            next();
    }
}

/* The lines of the record: the text not yet read, and what a line says. */
static char *lines;

struct line {
    unsigned long number;
    uint32_t refusal;
    char *rest; /* behind the refusal's number, with no space before it */
};

static void not_a_line(unsigned long number, const char *what)
{
    fprintf(stderr, "replay: recorded line %lu: %s\n", number, what);
    exit(2);
}

static struct line next_line(unsigned long number)
{
    struct line line;
    char *newline = strchr(lines, '\n');
    if (!newline)
        not_a_line(number, "missing");
    *newline = 0;
    line.number = strtoul(lines, &lines, 10);
    if (line.number != number || *lines != ' ')
        not_a_line(number, "not the call's number");
    if (lines[1] < '0' || lines[1] > '9')
        not_a_line(number, "no refusal's number");
    line.refusal = (uint32_t)strtoul(lines + 1, &line.rest, 10);
    if (*line.rest == ' ')
        line.rest++;
    else if (*line.rest)
        not_a_line(number, "no refusal's number");
    lines = newline + 1;
    return line;
}

/* What a tracker line says of a call: its numbers, and the image. */
struct recorded {
    uint64_t out[TOUCH_OUT];
    uint8_t image[TOUCH_IMAGE_BYTES];
};

/* So many numbers, each behind one space; of them the place `axis` is H or V. What is behind them. */
static char *numbers(unsigned long number, char *text, int count, int axis, uint64_t *to)
{
    for (int i = 0; i < count; i++) {
        char *behind = text + 2;
        if (*text != ' ')
            not_a_line(number, "a number is missing");
        if (i == axis && text[1] == 'H')
            to[i] = TOUCH_AXIS_H;
        else if (i == axis && text[1] == 'V')
            to[i] = TOUCH_AXIS_V;
        else if (i != axis && text[1] >= '0' && text[1] <= '9')
            to[i] = strtoull(text + 1, &behind, 10);
        else
            not_a_line(number, "not a number");
        text = behind;
    }
    return text;
}

/* The next part of a line, which ends at a bar or at its end. */
static char *part(char **rest)
{
    char *start = *rest, *bar = strstr(start, " | ");
    if (bar) {
        *bar = 0;
        *rest = bar + 3;
    } else {
        *rest = start + strlen(start);
    }
    return start;
}

/* Of grab_ms the line has the time in the gesture's place: it is the first number. */
static struct recorded tracker_line(struct line line, enum which which)
{
    struct recorded r = {{0}, {0}};
    char *gesture = part(&line.rest), *log = part(&line.rest), *hex = part(&line.rest);
    size_t length = strcspn(gesture, " ");
    char *behind = gesture + length;
    if (which == GRAB_MS && line.refusal == TOUCH_ANSWERED) {
        r.out[0] = strtoull(gesture, &behind, 10);
    } else {
        unsigned code = 0;
        while (code < GESTURES &&
               (strlen(gestures[code].name) != length || strncmp(gestures[code].name, gesture, length)))
            code++;
        if (code == GESTURES)
            not_a_line(line.number, "no gesture");
        r.out[TOUCH_OUT_GESTURE] = code;
        behind = numbers(line.number, behind, gestures[code].numbers, gestures[code].axis,
                         r.out + TOUCH_OUT_NUMBERS);
    }
    if (*behind)
        not_a_line(line.number, "more than a gesture");
    if (strcmp(log, "-") != 0) {
        uint64_t told[4];
        if (!*log || *numbers(line.number, log + 1, 4, -1, told))
            not_a_line(line.number, "no log line");
        r.out[TOUCH_OUT_LETTER] = (uint8_t)*log;
        r.out[TOUCH_OUT_ARGUMENT] = told[0];
        r.out[TOUCH_OUT_LOG_X] = told[1];
        r.out[TOUCH_OUT_LOG_Y] = told[2];
        r.out[TOUCH_OUT_LOG_TIME] = told[3];
    }
    if (strlen(hex) != 2 * TOUCH_IMAGE_BYTES || unhex(hex, r.image, sizeof r.image) != sizeof r.image)
        not_a_line(line.number, "no image");
    return r;
}

/* What was made, over all alignments. */
static unsigned long made[CALLS], loads, applied, refused[TOUCH_WIDE + 1];

static void count_refusal(uint32_t refusal)
{
    if (refusal != TOUCH_ANSWERED && refusal <= TOUCH_WIDE)
        refused[refusal]++;
}

static void apply16(unsigned long number)
{
    enum { BEFORE, X, Y, BEHIND, PLACES };
    const int32_t guard = 0x5AC35AC3;
    int32_t c[6], x, y, out[PLACES] = {guard, guard, guard, guard};
    long recorded[2] = {0, 0};
    int length = 0;
    uint32_t refusal;
    struct line line = next_line(number);
    for (int i = 0; i < 6; i++)
        c[i] = next_signed();
    x = next_signed();
    y = next_signed();
    if (line.refusal == TOUCH_ANSWERED)
        sscanf(line.rest, "%ld %ld%n", &recorded[0], &recorded[1], &length);
    if (line.rest[length])
        not_a_line(number, "no point");
    refusal = touch_apply16(c[0], c[1], c[2], c[3], c[4], c[5], x, y, out + X);
    if (refusal != line.refusal)
        differs("call %lu, touch_apply16: refusal %u, recorded %u", number, refusal, line.refusal);
    if (out[X] != recorded[0] || out[Y] != recorded[1])
        differs("call %lu, touch_apply16: %ld %ld, recorded %ld %ld", number, (long)out[X], (long)out[Y],
                recorded[0], recorded[1]);
    if (out[BEFORE] != guard || out[BEHIND] != guard)
        differs("call %lu, touch_apply16: writes beside its numbers", number);
    count_refusal(refusal);
    applied++;
}

static struct call next_call(enum which which)
{
    struct call c = {.which = which};
    if (which == EVENT || which == TICK)
        c.time = next();
    if (which == EVENT) {
        c.keys = (uint8_t)next();
        c.count = (uint8_t)next();
        for (int i = 0; i < POINTS; i++) {
            c.x[i] = (uint16_t)next();
            c.y[i] = (uint16_t)next();
        }
    }
    if (which == RAW_NEXT)
        c.on = (uint8_t)next();
    if (which == SET_GRAB_MS)
        c.ms = (uint16_t)next();
    return c;
}

/* The area as recorded, and its guards. */
static void hold_area(unsigned long number, const char *name, const uint8_t *area, const uint8_t *recorded)
{
    for (int i = 0; i < TOUCH_IMAGE_BYTES; i++)
        if (area[i] != recorded[i]) {
            differs("call %lu, %s: byte %d of the area is %u, recorded %u", number, name, i, area[i], recorded[i]);
            break;
        }
    if (!guards_stand(area, TOUCH_IMAGE_BYTES))
        differs("call %lu, %s: writes beside the area", number, name);
}

/* The numbers as recorded; of those that the call does not tell, the record has none. */
static void hold_numbers(unsigned long number, enum which which, const uint64_t *out, const uint64_t *recorded)
{
    for (int i = 0; i < TOUCH_OUT; i++) {
        uint64_t n = i < numbers_told(which) ? out[i] : 0;
        if (n != recorded[i])
            differs("call %lu, %s: number %d is %llu, recorded %llu", number, call_names[which], i,
                    (unsigned long long)n, (unsigned long long)recorded[i]);
    }
}

static void tracker_call(unsigned long number, enum which which, uint8_t *area)
{
    struct call c = next_call(which);
    struct line line = next_line(number);
    struct recorded r = tracker_line(line, which);
    const char *name = call_names[which];
    struct told told;
    uint32_t refusal;
    if (which == FRESH) /* it makes the area a fresh tracker's, whatever it held */
        memset(area, 0xFF, TOUCH_IMAGE_BYTES);
    refusal = make(&c, area, TOUCH_IMAGE_BYTES, &told);
    if (refusal != line.refusal)
        differs("call %lu, %s: refusal %u, recorded %u", number, name, refusal, line.refusal);
    hold_numbers(number, which, told.out, r.out);
    if (!numbers_stand(&told, which))
        differs("call %lu, %s: writes beside its numbers", number, name);
    hold_area(number, name, area, r.image);
    count_refusal(refusal);
    made[which]++;
}

/*
 * C has no call that only takes an area as the tracker: every call looks at the area that it is lent. So each of them is
 * made on a copy, and says what the record says; then the area is the tracker's, or the tracker is as before.
 */
static void load(unsigned long number, uint8_t **area, unsigned alignment)
{
    static uint8_t bytes[AREA_MOST];
    uint8_t tracker[TOUCH_IMAGE_BYTES];
    uint64_t count = next();
    struct line line = next_line(number);
    struct recorded r = tracker_line(line, FRESH);
    if (count > AREA_MOST)
        not_a_line(number, "too many bytes");
    for (uint64_t i = 0; i < count; i++)
        bytes[i] = (uint8_t)next();
    memcpy(tracker, *area, sizeof tracker);
    for (enum which which = EVENT; which < CALLS; which++) {
        struct call c = {.which = which};
        struct told told;
        uint8_t *copy = lend(bytes, count, alignment);
        uint32_t refusal = make(&c, copy, count, &told);
        if (refusal != line.refusal)
            differs("call %lu, a load, %s: refusal %u, recorded %u", number, call_names[which], refusal, line.refusal);
        if (refusal != TOUCH_ANSWERED && !refused_rightly(&c, copy, bytes, count, &told))
            differs("call %lu, a load, %s: refused, and alters something", number, call_names[which]);
        if (which == GRAB_MS && refusal == TOUCH_ANSWERED && memcmp(copy, bytes, count))
            differs("call %lu, a load, %s: alters the area", number, call_names[which]);
        if (!guards_stand(copy, count) || !numbers_stand(&told, which))
            differs("call %lu, a load, %s: writes beside its area or numbers", number, call_names[which]);
    }
    if (line.refusal == TOUCH_ANSWERED && count == TOUCH_IMAGE_BYTES)
        *area = lend(bytes, count, alignment);
    else
        *area = lend(tracker, sizeof tracker, alignment);
    hold_numbers(number, FRESH, NULL, r.out); /* the record of a load has none */
    hold_area(number, "a load", *area, r.image);
    count_refusal(line.refusal);
    loads++;
}

/* The whole record with the area at this alignment: how many calls it has. */
static unsigned long replay(unsigned alignment)
{
    uint8_t fresh[TOUCH_IMAGE_BYTES] = {0};
    uint8_t *area = lend(fresh, sizeof fresh, alignment);
    unsigned long number = 0;
    char last[64];
    if (touch_fresh(area, TOUCH_IMAGE_BYTES) != TOUCH_ANSWERED)
        differs("touch_fresh: refused");
    while (at < end) {
        uint64_t kind = next();
        number++;
        if (kind == APPLY16) {
            apply16(number);
        } else if (kind >= FIRST && kind < LOAD) {
            tracker_call(number, (enum which)(kind - FIRST), area);
        } else if (kind == LOAD) {
            load(number, &area, alignment);
        } else if (kind < KINDS && skipped[kind]) {
            skip(skipped[kind]);
            next_line(number);
        } else {
            fprintf(stderr, "replay: call %lu: no kind %llu\n", number, (unsigned long long)kind);
            exit(2);
        }
    }
    snprintf(last, sizeof last, "end %lu\n", number);
    if (strcmp(lines, last) != 0)
        differs("the last line is not as recorded: %s", last);
    return number;
}

int main(int words, char **word)
{
    size_t calls_size, lines_size;
    uint8_t *calls, *text;
    char *copy;
    unsigned long tracker_calls = 0;
    unsigned alignment;
    if (words != 3) {
        fprintf(stderr, "replay CALLS LINES\n");
        return 2;
    }
    calls = file_bytes(word[1], &calls_size);
    text = file_bytes(word[2], &lines_size);
    copy = malloc(lines_size + 1);
    if (!copy)
        return 2;
    for (alignment = 0; alignment < ALIGNMENTS && !differences; alignment++) {
        at = calls;
        end = calls + calls_size;
        lines = memcpy(copy, text, lines_size + 1);
        replay(alignment);
    }
    if (differences)
        fprintf(stderr, "replay: with the area at %u behind a multiple of eight\n", (alignment - 1) % ALIGNMENTS);
    for (int which = FRESH; which < CALLS; which++) {
        if (!made[which])
            differs("no recorded call of %s", call_names[which]);
        tracker_calls += made[which] / ALIGNMENTS;
    }
    if (!applied)
        differs("no recorded call of touch_apply16");
    for (int refusal = TOUCH_STATE; refusal <= TOUCH_WIDE; refusal++)
        if (!refused[refusal])
            differs("no recorded refusal %d", refusal);
    if (differences) {
        printf("replay: %s differences from the record\n", commas(differences));
        return 1;
    }
    printf("replay: %s tracker calls, %s loads, %s apply16 calls", commas(tracker_calls),
           commas(loads / ALIGNMENTS), commas(applied / ALIGNMENTS));
    printf(" (refused: %s STATE, %s PANEL, %s WIDE)", commas(refused[TOUCH_STATE] / ALIGNMENTS),
           commas(refused[TOUCH_PANEL] / ALIGNMENTS), commas(refused[TOUCH_WIDE] / ALIGNMENTS));
    printf(", at %d alignments of the area: as recorded\n", ALIGNMENTS);
    free(copy);
    free(text);
    free(calls);
    return 0;
}
