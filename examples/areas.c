/*
 * Areas that are no tracker's image, and reports off the panel, as a C host can hand them over. Which areas are images is
 * read here a second time, from the table of docs/IMAGE.md (rows.h is made of it) and document 01's rule of states, and the
 * archive's verdict is held to that reading: for the areas of the recorded run with each byte set to each other value and each
 * number to its bounds, for areas joined of two of them, and for wrong lengths. A refused call alters nothing and tells
 * zeros; an answered one leaves an image.
 *
 *     areas LINES     crates/probe/stdout (docs/PROBE.md)
 */
#include "calls.h"
#include "rows.h"

/* The image, read a second time. */

enum part { ALWAYS, DOWN, MULTI, PAIR, MULTI_END };

#define WIDTH 480
#define HEIGHT 320

/* Each row of the table: where, how many bytes, the values it may have, and the part that it belongs to. */
static const struct row {
    unsigned at, bytes;
    uint64_t least, most;
    enum part part;
} table[] = {IMAGE_ROWS};

enum { ROWS = sizeof table / sizeof table[0] };

static uint64_t number_at(const uint8_t *area, unsigned at, unsigned bytes)
{
    uint64_t n = 0;
    while (bytes--)
        n = n << 8 | area[at + bytes];
    return n;
}

static int is_there(const uint8_t *area, enum part part)
{
    switch (part) {
    case DOWN:
        return area[AT_touch_number] == 1;
    case MULTI:
        return area[AT_touch_number] == 2;
    case PAIR:
        return area[AT_touch_number] == 2 && area[AT_pair_number] == 1;
    case MULTI_END:
        return area[AT_end_number] == 1;
    default:
        return 1;
    }
}

/* Each row of a part that is there has a value that it may have; a part that is absent is zero; raw needs captured. */
static int is_image(const uint8_t *area)
{
    for (int i = 0; i < ROWS; i++) {
        uint64_t n = number_at(area, table[i].at, table[i].bytes);
        if (is_there(area, table[i].part) ? n < table[i].least || n > table[i].most : n != 0)
            return 0;
    }
    return area[AT_app_captured] || !area[AT_app_raw];
}

/* The rows follow each other and are the whole area. */
static int table_is_whole(void)
{
    unsigned at = 0;
    for (int i = 0; i < ROWS; i++) {
        if (table[i].at != at)
            return 0;
        at += table[i].bytes;
    }
    return at == TOUCH_IMAGE_BYTES;
}

/* The areas of the run: of each kind of tracker the first. */

enum { SAMPLES_MOST = 128 };

static uint8_t samples[SAMPLES_MOST][TOUCH_IMAGE_BYTES];
static int sample_count;

/* Of one kind are those in which these bytes are the same. */
static int same_kind(const uint8_t *a, const uint8_t *b)
{
    static const int places[] = {AT_touch_number, AT_pair_number, AT_pair_state, AT_app_captured, AT_app_raw, AT_end_number};
    for (unsigned i = 0; i < sizeof places / sizeof places[0]; i++)
        if (a[places[i]] != b[places[i]])
            return 0;
    return 1;
}

static void take_sample(const uint8_t *image)
{
    for (int i = 0; i < sample_count; i++)
        if (same_kind(samples[i], image))
            return;
    if (sample_count == SAMPLES_MOST) {
        fprintf(stderr, "areas: more kinds of tracker than there is room for\n");
        exit(2);
    }
    memcpy(samples[sample_count++], image, TOUCH_IMAGE_BYTES);
}

static void take_samples(char *text)
{
    for (char *line = strtok(text, "\n"); line; line = strtok(NULL, "\n")) {
        uint8_t image[TOUCH_IMAGE_BYTES];
        char *bar = strrchr(line, '|');
        if (bar && bar[1] == ' ' && unhex(bar + 2, image, sizeof image) == sizeof image) {
            if (!is_image(image))
                differs("the image of the recorded line %.12s.. is none by this reading", line);
            take_sample(image);
        }
    }
}

/* The calls. */

static unsigned long calls_made, images, others, lengths, reports;

/* A call with arguments that differ from one area to the next; a report's points are on the panel. */
static struct call some_call(enum which which, unsigned long turn)
{
    struct call c = {.which = which, .time = 37 * (turn % 211), .on = turn % 3 == 0, .ms = (uint16_t)(turn * 131)};
    c.keys = (uint8_t)(turn % 5 == 0 ? turn : 0);
    c.count = (uint8_t)(turn % 7);
    for (int i = 0; i < POINTS; i++) {
        c.x[i] = (uint16_t)((turn * 17 + 101 * (unsigned)i) % WIDTH);
        c.y[i] = (uint16_t)((turn * 29 + 67 * (unsigned)i) % HEIGHT);
    }
    return c;
}

/* Makes the call on a copy of the area and holds it to the expected refusal. */
static void hold(const struct call *c, const uint8_t *bytes, size_t count, uint32_t expected, unsigned long turn)
{
    struct told told;
    uint8_t *area = lend(bytes, count, turn % ALIGNMENTS);
    uint32_t refusal = make(c, area, count, &told);
    const char *name = call_names[c->which];
    calls_made++;
    if (refusal != expected)
        differs("area %lu, %s: refusal %u, by this reading %u", turn, name, refusal, expected);
    if (expected != TOUCH_ANSWERED) {
        if (!refused_rightly(c, area, bytes, count, &told))
            differs("area %lu, %s: refused, and alters something", turn, name);
        return;
    }
    if (!guards_stand(area, count) || !numbers_stand(&told, c->which))
        differs("area %lu, %s: writes beside its area or numbers", turn, name);
    if (!is_image(area))
        differs("area %lu, %s: what it leaves is no image by this reading", turn, name);
    if (c->which == GRAB_MS && (memcmp(area, bytes, count) || told.out[0] != number_at(bytes, AT_settings_grab_ms, 2)))
        differs("area %lu, %s: not the time, or the area altered", turn, name);
    if (c->which == FRESH)
        for (size_t i = 0; i < count; i++)
            if (area[i])
                differs("area %lu, %s: byte %u is not zero", turn, name, (unsigned)i);
}

/* Every call on an area of the right length. A report off the panel is refused for the state first. */
static void hold_area(const uint8_t *bytes)
{
    unsigned long turn = images + others;
    int image = is_image(bytes);
    struct call off = some_call(EVENT, turn);
    for (enum which which = FRESH; which < CALLS; which++) {
        struct call c = some_call(which, turn);
        hold(&c, bytes, TOUCH_IMAGE_BYTES, image || which == FRESH ? TOUCH_ANSWERED : TOUCH_STATE, turn);
    }
    off.count = 1;
    off.x[0] = WIDTH;
    hold(&off, bytes, TOUCH_IMAGE_BYTES, image ? TOUCH_PANEL : TOUCH_STATE, turn);
    if (image)
        images++;
    else
        others++;
}

/* Each byte set to each other value. */
static void altered(const uint8_t *sample)
{
    uint8_t area[TOUCH_IMAGE_BYTES];
    memcpy(area, sample, sizeof area);
    for (int i = 0; i < TOUCH_IMAGE_BYTES; i++) {
        for (int by = 1; by < 256; by++) {
            area[i] = (uint8_t)(sample[i] + by);
            hold_area(area);
        }
        area[i] = sample[i];
    }
}

/* Each number set to its bounds, to one past them, and to the most that its bytes hold. */
static void bounds(const uint8_t *sample)
{
    for (int i = 0; i < ROWS; i++) {
        const struct row *row = &table[i];
        uint64_t values[] = {row->least - 1, row->least, row->most, row->most + 1, 0, UINT64_MAX};
        for (unsigned j = 0; j < sizeof values / sizeof values[0]; j++) {
            uint8_t area[TOUCH_IMAGE_BYTES];
            memcpy(area, sample, sizeof area);
            for (unsigned k = 0; k < row->bytes; k++)
                area[row->at + k] = (uint8_t)(values[j] >> 8 * k);
            hold_area(area);
        }
    }
}

/* The first bytes of one and the others of another. */
static void joined(const uint8_t *a, const uint8_t *b)
{
    uint8_t area[TOUCH_IMAGE_BYTES];
    memcpy(area, b, sizeof area);
    for (int cut = 1; cut < TOUCH_IMAGE_BYTES; cut++) {
        area[cut - 1] = a[cut - 1];
        hold_area(area);
    }
}

/* The sample in an area that is too short or too long. */
static void wrong_lengths(const uint8_t *sample)
{
    static const size_t wrong[] = {0, 1, TOUCH_IMAGE_BYTES - 1, TOUCH_IMAGE_BYTES + 1, 2 * TOUCH_IMAGE_BYTES};
    uint8_t bytes[2 * TOUCH_IMAGE_BYTES] = {0};
    memcpy(bytes, sample, TOUCH_IMAGE_BYTES);
    for (unsigned i = 0; i < sizeof wrong / sizeof wrong[0]; i++)
        for (enum which which = FRESH; which < CALLS; which++) {
            struct call c = some_call(which, lengths);
            hold(&c, bytes, wrong[i], TOUCH_STATE, lengths);
            lengths++;
        }
}

/* One point off the panel, in use or not: p for one finger, the first five at most for several. */
static void off_panel(const uint8_t *sample)
{
    static const uint16_t off[][2] = {{WIDTH, 0}, {0, HEIGHT}, {UINT16_MAX, 0}, {0, UINT16_MAX}};
    static const uint8_t counts[] = {0, 1, 2, 3, 4, 5, 6, 255};
    for (unsigned n = 0; n < sizeof counts; n++)
        for (int which = 0; which < POINTS; which++)
            for (unsigned i = 0; i < sizeof off / sizeof off[0]; i++) {
                struct call c = some_call(EVENT, reports);
                int used = which == 0 ? counts[n] == 1 : counts[n] >= 2 && which <= counts[n];
                c.count = counts[n];
                c.x[which] = off[i][0];
                c.y[which] = off[i][1];
                hold(&c, sample, TOUCH_IMAGE_BYTES, used ? TOUCH_PANEL : TOUCH_ANSWERED, reports);
                reports++;
            }
}

int main(int words, char **word)
{
    size_t size;
    uint8_t *text;
    if (words != 2) {
        fprintf(stderr, "areas LINES\n");
        return 2;
    }
    if (!table_is_whole())
        differs("the table here is not whole");
    text = file_bytes(word[1], &size);
    take_samples((char *)text);
    free(text);
    for (int i = 0; i < sample_count; i++) {
        wrong_lengths(samples[i]);
        off_panel(samples[i]);
        altered(samples[i]);
        bounds(samples[i]);
        for (int j = 0; j < sample_count; j++)
            joined(samples[i], samples[j]);
    }
    if (!images || !others || !lengths || !reports)
        differs("no areas in the record");
    if (differences) {
        printf("areas: %s differences from the second reading\n", commas(differences));
        return 1;
    }
    printf("areas: of %s kinds of tracker, %s altered areas (%s images, %s refused)", commas((unsigned long)sample_count),
           commas(images + others), commas(images), commas(others));
    printf(", %s calls of a wrong length, %s reports off the panel or beside it: as read a second time (%s calls)\n",
           commas(lengths), commas(reports), commas(calls_made));
    return 0;
}
