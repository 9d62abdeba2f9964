#include "picture.h"

#include "strip.h"
#include "words.h"

#include <inttypes.h>

#define STRIP_MOMENTS 140u

/* In pixels. */
#define WIDTH         900
#define MARGIN        4
#define LEGEND_TOP    62
#define LEGEND_ROW    28
#define LEGEND_COLUMN 216
#define STRIPS_TOP    152
#define PLACES_ABOVE  46 /* room before the first place */
#define PLACE_ROW     20
#define PLACE_COLUMN  284

#define LEGEND_COLUMNS 4u
#define PLACE_COLUMNS  3u

/* The colours are those of Okabe and Ito, which people see apart who don't see all colours; and no two things have one form. */
static const char style[] = "text{font:12px Helvetica,Arial,sans-serif}"
                            ".title{font-size:18px;font-weight:bold}"
                            ".name{font-weight:bold}"
                            ".small{font-size:10px;text-anchor:middle}"
                            ".number{font-size:10px;font-weight:bold;text-anchor:middle}"
                            ".light{fill:#fff}"
                            ".power{text-anchor:middle}"
                            ".term{fill:#0072b2;font-weight:bold}"
                            ".over{paint-order:stroke;stroke:#fff;stroke-width:4px}"
                            ".hint{text-anchor:end}"
                            ".second{stroke:#ddd}"
                            ".lane{stroke:#000;stroke-width:1.5}"
                            ".message{stroke:#56b4e9;fill:none}"
                            ".lost{stroke:#d55e00;stroke-width:1.3;fill:none}"
                            ".leads{fill:#0072b2}"
                            ".dead{fill:url(#hatch);stroke:#000}"
                            ".cut-off{fill:none;stroke:#000;stroke-width:1.5;stroke-dasharray:5 3}"
                            ".asks{fill:#e69f00;stroke:#000}"
                            ".takes{fill:#009e73;stroke:#000}"
                            ".chosen{fill:#000;stroke:#fff;stroke-width:1.5}"
                            ".played{fill:#fff;stroke:#000;stroke-width:1.3}"
                            ".not-stored{fill:#cc79a7;stroke:#000}"
                            ".drive{fill:#e69f00;fill-opacity:.5;stroke:#000}";

static void draw_head(FILE *file, int height)
{
    fprintf(file, "<svg xmlns=\"http://www.w3.org/2000/svg\" viewBox=\"0 0 %d %d\" width=\"%d\" height=\"%d\">\n", WIDTH, height, WIDTH,
            height);
    fprintf(file, "<title>A night of three hubs</title>\n<style>%s</style>\n", style);
    fprintf(file, "<pattern id=\"hatch\" width=\"6\" height=\"6\" patternUnits=\"userSpaceOnUse\" patternTransform=\"rotate(45)\">"
                  "<path fill=\"#fff\" d=\"M0 0h6v6H0z\"/><path fill=\"#888\" d=\"M0 0h2v6H0z\"/></pattern>\n");
    fprintf(file, "<path fill=\"#fff\" d=\"M0 0h%dv%dH0z\"/>\n", WIDTH, height);
    fprintf(file, "<text class=\"title\" x=\"%d\" y=\"24\">A night of three hubs that keep one log</text>\n", MARGIN);
    fprintf(file, "<text class=\"hint\" x=\"%d\" y=\"24\">time runs from left to right, row by row</text>\n", WIDTH - MARGIN);
}

/* ---- The legend. */

/* What is drawn, and what it means. A mark stands on a lane, and one above its lane is shown lower here. */
static const struct meaning {
    const char *words;
    const char *sample; /* null for a fact's mark */
    struct fact fact;
    int lower;
} meanings[] = {
    {"asks for votes", NULL, {.what = ASKS, .number = 2}, 0},
    {"leads", "<rect class=\"leads\" x=\"-12\" y=\"-8\" width=\"24\" height=\"16\"/>", {0}, 0},
    {"a message", "<path class=\"message\" d=\"M-8 -10L8 10\"/>", {0}, 0},
    {"a message that is lost", "<path class=\"lost\" d=\"M-8 -10l8 12m-3 -3l6 6m0 -6l-6 6\"/>", {0}, 0},
    {"takes a command", NULL, {.what = TAKES}, 15},
    {"plays place 3, just chosen", NULL, {.what = PLAYS_FIRST, .number = 3}, 0},
    {"plays place 3 after that", NULL, {.what = PLAYS, .number = 3}, 0},
    {"has no power", "<rect class=\"dead\" x=\"-12\" y=\"-8\" width=\"24\" height=\"16\"/>", {0}, 0},
    {"can't store a step", NULL, {.what = NOT_STORED}, 0},
    {"motor 7 is driven", "<path class=\"drive\" d=\"M-12 5V1h6V-3h6V-7h6V-11h6V5z\"/><text class=\"small\" y=\"15\">7</text>", {0}, 0},
    {"is cut off from the network", "<rect class=\"cut-off\" x=\"-14\" y=\"-9\" width=\"28\" height=\"18\"/>", {0}, 0},
};

static void draw_legend(FILE *file)
{
    for (size_t index = 0; index < sizeof meanings / sizeof meanings[0]; index++) {
        const struct meaning *meaning = &meanings[index];
        int x = STRIP_LEFT + LEGEND_COLUMN * (int)(index % LEGEND_COLUMNS);
        int y = LEGEND_TOP + LEGEND_ROW * (int)(index / LEGEND_COLUMNS);

        if (meaning->sample == NULL) {
            strip_draw_mark(file, &meaning->fact, x, y + meaning->lower);
        } else {
            fprintf(file, "<g transform=\"translate(%d %d)\">%s</g>\n", x, y, meaning->sample);
        }
        fprintf(file, "<text x=\"%d\" y=\"%d\">%s</text>\n", x + 22, y + 4, meaning->words);
    }
}

/* ---- The places. */

static uint32_t places_of(const struct record *record)
{
    uint32_t places = 0;

    for (size_t index = 0; index < record->count; index++) {
        places += record->facts[index].what == PLAYS_FIRST;
    }
    return places;
}

static uint32_t rows_of(const struct record *record)
{
    return (places_of(record) + PLACE_COLUMNS - 1) / PLACE_COLUMNS;
}

/* They are chosen in order, and stand column by column. */
static void draw_places(FILE *file, const struct record *record, int top)
{
    uint32_t drawn = 0;

    fprintf(file, "<text class=\"name\" x=\"%d\" y=\"%d\">What every hub plays, place by place</text>\n", MARGIN,
            top + PLACES_ABOVE - 22);
    for (size_t index = 0; index < record->count; index++) {
        const struct fact *fact = &record->facts[index];

        if (fact->what == PLAYS_FIRST) {
            int x = STRIP_LEFT + PLACE_COLUMN * (int)(drawn / rows_of(record));
            int y = top + PLACES_ABOVE + PLACE_ROW * (int)(drawn % rows_of(record));

            strip_draw_mark(file, fact, x, y);
            fprintf(file, "<text x=\"%d\" y=\"%d\">%s</text>\n", x + 16, y + 4, words_of(fact->command));
            drawn++;
        }
    }
}

/* ---- The whole. */

void picture_draw(FILE *file, const struct record *record, uint32_t night)
{
    int strips = (int)((night + STRIP_MOMENTS - 1) / STRIP_MOMENTS);
    int places_top = STRIPS_TOP + strips * STRIP_HEIGHT;

    draw_head(file, places_top + PLACES_ABOVE + PLACE_ROW * (int)rows_of(record));
    draw_legend(file);
    for (int index = 0; index < strips; index++) {
        uint32_t from = STRIP_MOMENTS * (uint32_t)index;

        strip_draw(&(struct strip){file, record, from, from + STRIP_MOMENTS, night, STRIPS_TOP + index * STRIP_HEIGHT});
    }
    draw_places(file, record, places_top);
    fprintf(file, "</svg>\n");
}
