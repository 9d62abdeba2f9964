/* A night in a care home: three hubs, a network that loses, repeats and reorders, hubs that die and come back. It is the same night on
 * every machine. Tells it on standard output, and draws it if that is asked for:
 *
 *     night [--picture FILE]
 *
 * Ends with 1 if two hubs play different commands at one place, or if a call is refused as none is in an honest home. */
#include "home/picture.h"
#include "home/script.h"
#include "home/story.h"

#include <inttypes.h>
#include <stdio.h>
#include <stdlib.h>
#include <string.h>

static bool is_header_of_library(void)
{
    return kritnamon_state_size() == KRITNAMON_STATE_SIZE && kritnamon_output_size() == KRITNAMON_TEXT_MOST;
}

/* Whether the whole picture was written. */
static bool draw(const char *name)
{
    FILE *file = fopen(name, "w");
    bool written;

    if (file == NULL) {
        return false;
    }
    picture_draw(file, &home.record, NIGHT);
    written = !ferror(file);
    return fclose(file) == 0 && written;
}

static bool is_honest(void)
{
    if (home.objection.what == NULL) {
        return true;
    }
    fprintf(stderr, "hub %" PRIu32 ": %s %" PRIu32 "\n", home.objection.hub, home.objection.what, home.objection.number);
    return false;
}

int main(int count, char **arguments)
{
    bool draws = count == 3 && strcmp(arguments[1], "--picture") == 0;

    if (count != 1 && !draws) {
        fprintf(stderr, "usage: night [--picture FILE]\n");
        return EXIT_FAILURE;
    }
    if (!is_header_of_library()) {
        fprintf(stderr, "the header is not that of the library\n");
        return EXIT_FAILURE;
    }
    script_live(NIGHT, NULL);
    story_tell();
    story_sum_up();
    if (draws && !draw(arguments[2])) {
        perror(arguments[2]);
        return EXIT_FAILURE;
    }
    return is_honest() ? EXIT_SUCCESS : EXIT_FAILURE;
}
