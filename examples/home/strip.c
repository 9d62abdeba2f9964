#include "strip.h"

#include "home.h"
#include "motors.h"

#include <inttypes.h>

/* In pixels. */
#define FIRST_LANE 38 /* below the top */
#define LANE       48 /* from one to the next */
#define BAR        16 /* the height of what lasts, on a lane */
#define PLACE      18 /* the width of a played place */
#define WORDS      80 /* the width of what is said of a leader */
#define FULL       36 /* the height of drive 1.0 */
#define NUMBER     14 /* the width of a motor's number */

static int x_of(const struct strip *strip, uint32_t moment)
{
    return STRIP_LEFT + STRIP_MOMENT * ((int)moment - (int)strip->from);
}

static int y_of(const struct strip *strip, uint32_t hub)
{
    return strip->top + FIRST_LANE + LANE * ((int)hub - 1);
}

/* The ground of the motors' lane. */
static int ground_of(const struct strip *strip)
{
    return y_of(strip, HUBS) + LANE + BAR;
}

/* ---- The ground. */

static void draw_seconds(const struct strip *strip)
{
    for (uint32_t moment = strip->from; moment <= strip->to; moment += MOMENTS_A_SECOND) {
        int x = x_of(strip, moment);

        fprintf(strip->file, "<path class=\"second\" d=\"M%d %dV%d\"/>", x, strip->top + 8, ground_of(strip));
        fprintf(strip->file, "<text class=\"small\" x=\"%d\" y=\"%d\">%" PRIu32 " s</text>\n", x, strip->top + 4,
                moment / MOMENTS_A_SECOND);
    }
}

static void draw_lanes(const struct strip *strip)
{
    for (uint32_t hub = 1; hub <= HUBS; hub++) {
        int y = y_of(strip, hub);

        fprintf(strip->file, "<text class=\"name\" x=\"4\" y=\"%d\">hub %" PRIu32 "</text>", y + 4, hub);
        fprintf(strip->file, "<path class=\"lane\" d=\"M%d %dH%d\"/>\n", STRIP_LEFT, y, x_of(strip, strip->to));
    }
    fprintf(strip->file, "<text class=\"name\" x=\"4\" y=\"%d\">drive</text>", ground_of(strip));
    fprintf(strip->file, "<path class=\"lane\" d=\"M%d %dH%d\"/>\n", STRIP_LEFT, ground_of(strip), x_of(strip, strip->to));
}

/* ---- Messages. */

static void draw_arrival(const struct strip *strip, const struct fact *fact)
{
    fprintf(strip->file, "<path class=\"message\" d=\"M%d %dL%d %d\"/>\n", x_of(strip, fact->sent), y_of(strip, fact->hub),
            x_of(strip, fact->moment), y_of(strip, fact->number));
}

/* A cross stands where it is lost: early on its way, or near a hub that can't take it. */
static void draw_loss(const struct strip *strip, const struct fact *fact)
{
    int x = x_of(strip, fact->sent);
    int y = y_of(strip, fact->hub);
    int down = y_of(strip, fact->number) - y;
    bool early = fact->moment == fact->sent;
    int across = early ? STRIP_MOMENT : x_of(strip, fact->moment) - x;
    int reached = early ? (down > 0 ? LANE / 2 : -LANE / 2) : down * 3 / 4;

    fprintf(strip->file, "<path class=\"lost\" d=\"M%d %dl%d %dm-3 -3l6 6m0 -6l-6 6\"/>\n", x, y, across, reached);
}

/* A message may leave in one strip and come in the next: each shows its part. */
static void draw_messages(const struct strip *strip)
{
    int width = x_of(strip, strip->to) - STRIP_LEFT;

    fprintf(strip->file, "<clipPath id=\"from%" PRIu32 "\"><path d=\"M%d %dh%dv%dh-%dz\"/></clipPath>\n", strip->from, STRIP_LEFT,
            strip->top, width, STRIP_HEIGHT, width);
    fprintf(strip->file, "<g clip-path=\"url(#from%" PRIu32 ")\">\n", strip->from);
    for (size_t index = 0; index < strip->record->count; index++) {
        const struct fact *fact = &strip->record->facts[index];
        bool touches = fact->sent < strip->to && fact->moment >= strip->from;

        if (fact->what == ARRIVES && touches) {
            draw_arrival(strip, fact);
        } else if (fact->what == LOST && touches) {
            draw_loss(strip, fact);
        }
    }
    fprintf(strip->file, "</g>\n");
}

/* ---- What lasts: to lead, to have no power, to be cut off. */

/* Whether one fact ends what another began. */
static bool ends(enum what what, enum what began)
{
    switch (began) {
    case LEADS:
        return what == FOLLOWS || what == DIES;
    case DIES:
        return what == RETURNS;
    case IS_CUT_OFF:
        return what == IS_HEARD;
    default:
        return true;
    }
}

/* When that ends which began with the fact at an index. */
static uint32_t end_of(const struct strip *strip, size_t index)
{
    const struct fact *began = &strip->record->facts[index];

    while (++index < strip->record->count) {
        const struct fact *fact = &strip->record->facts[index];

        if (fact->hub == began->hub && ends(fact->what, began->what)) {
            return fact->moment;
        }
    }
    return strip->night;
}

/* ---- What the motors are driven at. */

static float drive_at(const struct fact *fact, uint32_t moment)
{
    int64_t left;
    float drive;

    motors_play(fact->command, fact->moment, moment, &left, &drive);
    return drive;
}

/* When a motor's command ends that began with the fact at an index: at its next one, if that comes. */
static uint32_t next_of(const struct strip *strip, size_t index)
{
    const struct fact *began = &strip->record->facts[index];

    while (++index < strip->record->count) {
        const struct fact *fact = &strip->record->facts[index];

        if (fact->what == PLAYS_FIRST && motors_number(fact->command) == motors_number(began->command)) {
            return fact->moment;
        }
    }
    return strip->night;
}

/* The first moment of some at which a command drives its motor; the end of them if none does. */
static uint32_t driven_from(const struct fact *fact, uint32_t from, uint32_t to)
{
    while (from < to && drive_at(fact, from) == 0) {
        from++;
    }
    return from;
}

/* Its drives, moment by moment, as long as they are above 0. */
static void draw_drives(const struct strip *strip, const struct fact *fact, uint32_t from, uint32_t to)
{
    int ground = ground_of(strip);

    fprintf(strip->file, "<path class=\"drive\" d=\"M%d %d", x_of(strip, from), ground);
    for (uint32_t moment = from; moment < to && drive_at(fact, moment) > 0; moment++) {
        fprintf(strip->file, "V%dh%d", ground - (int)(FULL * drive_at(fact, moment)), STRIP_MOMENT);
    }
    fprintf(strip->file, "V%dz\"/>\n", ground);
}

/* The drives of the command that is first played at an index, and its motor's number, from x on at least. Hands back the least x for the
 * next number: those of motors that are driven from one moment on stand side by side. */
static int draw_motor(const struct strip *strip, size_t index, int least)
{
    const struct fact *fact = &strip->record->facts[index];
    uint32_t next = next_of(strip, index);
    uint32_t to = next < strip->to ? next : strip->to;
    uint32_t from = driven_from(fact, fact->moment < strip->from ? strip->from : fact->moment, to);
    int x = x_of(strip, from) + NUMBER / 2;

    if (from >= to) {
        return least;
    }
    x = x < least ? least : x;
    draw_drives(strip, fact, from, to);
    fprintf(strip->file, "<text class=\"small\" x=\"%d\" y=\"%d\">%" PRIu32 "</text>\n", x, ground_of(strip) + 12,
            motors_number(fact->command));
    return x + NUMBER;
}

static void draw_motors(const struct strip *strip)
{
    int least = 0;

    for (size_t index = 0; index < strip->record->count; index++) {
        if (strip->record->facts[index].what == PLAYS_FIRST) {
            least = draw_motor(strip, index, least);
        }
    }
}

static void draw_bar(FILE *file, const char *class, int x, int y, int width, int height)
{
    fprintf(file, "<rect class=\"%s\" x=\"%d\" y=\"%d\" width=\"%d\" height=\"%d\"/>\n", class, x, y - height / 2, width, height);
}

static void draw_leading(FILE *file, int x, int y, int width, uint32_t term)
{
    draw_bar(file, "leads", x, y, width, BAR);
    if (width >= WORDS) {
        fprintf(file, "<text class=\"term over\" x=\"%d\" y=\"%d\">leads, term %" PRIu32 "</text>\n", x, y + 23, term);
    }
}

static void draw_lasting(const struct strip *strip, const struct fact *fact, int x, int width)
{
    int y = y_of(strip, fact->hub);

    if (fact->what == LEADS) {
        draw_leading(strip->file, x, y, width, fact->number);
    } else if (fact->what == DIES) {
        draw_bar(strip->file, "dead", x, y, width, BAR);
        fprintf(strip->file, "<text class=\"power over\" x=\"%d\" y=\"%d\">no power</text>\n", x + width / 2, y + 4);
    } else {
        draw_bar(strip->file, "cut-off", x, y, width, 2 * BAR - 6);
    }
}

static void draw_all_lasting(const struct strip *strip, enum what what)
{
    for (size_t index = 0; index < strip->record->count; index++) {
        const struct fact *fact = &strip->record->facts[index];

        if (fact->what == what) {
            uint32_t end = end_of(strip, index);
            int x = x_of(strip, fact->moment < strip->from ? strip->from : fact->moment);
            int width = x_of(strip, end < strip->to ? end : strip->to) - x;

            if (width > 0) {
                draw_lasting(strip, fact, x, width);
            }
        }
    }
}

/* ---- What happens at a moment. */

void strip_draw_mark(FILE *file, const struct fact *fact, int x, int y)
{
    static const char *const marks[] = {
        [ASKS] = "<path class=\"asks\" d=\"M0 -8L8 0L0 8L-8 0z\"/><text class=\"small over\" y=\"-12\">term %" PRIu32 "</text>",
        [TAKES] = "<path class=\"takes\" d=\"M-6 -21H6L0 -10z\"/>",
        [PLAYS_FIRST] = "<circle class=\"chosen\" r=\"8\"/><text class=\"number light\" y=\"4\">%" PRIu32 "</text>",
        [PLAYS] = "<circle class=\"played\" r=\"8\"/><text class=\"number\" y=\"4\">%" PRIu32 "</text>",
        [NOT_STORED] = "<path class=\"not-stored\" d=\"M-7 -7H7V7H-7z\"/><text class=\"number\" y=\"4\">!</text>",
        [ARRIVES] = NULL,
    };

    if (marks[fact->what] != NULL) {
        fprintf(file, "<g transform=\"translate(%d %d)\">", x, y);
        fprintf(file, marks[fact->what], fact->number);
        fprintf(file, "</g>\n");
    }
}

/* Places that a hub plays at one moment stand side by side. */
static void draw_marks(const struct strip *strip)
{
    int least[HUBS + 1] = {0}; /* x for the next place, by hub */

    for (size_t index = 0; index < strip->record->count; index++) {
        const struct fact *fact = &strip->record->facts[index];
        bool plays = fact->what == PLAYS || fact->what == PLAYS_FIRST;
        int x = x_of(strip, fact->moment);

        if (strip->from <= fact->moment && fact->moment < strip->to) {
            x = plays && x < least[fact->hub] ? least[fact->hub] : x;
            least[fact->hub] = plays ? x + PLACE : least[fact->hub];
            strip_draw_mark(strip->file, fact, x, y_of(strip, fact->hub));
        }
    }
}

void strip_draw(const struct strip *strip)
{
    draw_seconds(strip);
    draw_motors(strip);
    draw_messages(strip);
    draw_lanes(strip);
    draw_all_lasting(strip, LEADS);
    draw_all_lasting(strip, DIES);
    draw_all_lasting(strip, IS_CUT_OFF);
    draw_marks(strip);
}
