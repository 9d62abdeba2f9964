#include "story.h"

#include "words.h"

#include <inttypes.h>
#include <stdio.h>

#define COLUMN 33 /* the width of a hub's reports, side by side */

/* How each fact is told: # is the hub, @ the number, $ the command, % the drive, & how much of it is left. Messages are not told one by
 * one. */
static const char *const tellings[] = {
    [ASKS] = "hub # asks for votes, term @",
    [LEADS] = "hub # leads, term @",
    [FOLLOWS] = "hub # follows again, term @",
    [TAKES] = "hub # takes $",
    [WAITS] = "no hub takes $ yet",
    [PLAYS_FIRST] = "hub # plays place @, now chosen: $, drive %",
    [PLAYS] = "hub # plays place @, &",
    [DIES] = "hub # dies",
    [RETURNS] = "hub # comes back, term @",
    [IS_CUT_OFF] = "hub # is cut off from the network",
    [IS_HEARD] = "hub # is on the network again",
    [NOT_STORED] = "hub # can't store a step, and goes back to what it stored last",
    [STAYS_OUT] = "hub # stays out for the night: what it stored is damaged",
    [LOST] = NULL,
    [ARRIVES] = NULL,
};

/* A command that another hub has begun to play. */
static void print_left(const struct fact *fact)
{
    if (fact->left > 0) {
        printf("%" PRId64 " ms left, drive %.2f", fact->left, (double)fact->drive);
    } else {
        printf("overdue by %" PRId64 " ms", -fact->left);
    }
}

static void print_part(const struct fact *fact, char part)
{
    switch (part) {
    case '#':
        printf("%" PRIu32, fact->hub);
        break;
    case '@':
        printf("%" PRIu32, fact->number);
        break;
    case '$':
        fputs(words_of(fact->command), stdout);
        break;
    case '%':
        printf("%.2f", (double)fact->drive);
        break;
    case '&':
        print_left(fact);
        break;
    default:
        putchar(part);
    }
}

static void tell(const struct fact *fact)
{
    printf("%3" PRIu32 ".%" PRIu32 " s  ", fact->moment / MOMENTS_A_SECOND, fact->moment % MOMENTS_A_SECOND);
    for (const char *part = tellings[fact->what]; *part != '\0'; part++) {
        print_part(fact, *part);
    }
    putchar('\n');
}

void story_tell(void)
{
    printf("%u hubs, seed %u\n", HUBS, SEED);
    for (size_t index = 0; index < home.record.count; index++) {
        if (tellings[home.record.facts[index].what] != NULL) {
            tell(&home.record.facts[index]);
        }
    }
}

/* What a hub reports at a place, in words. */
static const char *report(const struct hub *hub, uint32_t place)
{
    uint8_t command[KRITNAMON_COMMAND_SIZE];

    if (kritnamon_reported(hub->state, sizeof hub->state, place, command, sizeof command) != KRITNAMON_DONE) {
        return "-";
    }
    return words_of(command);
}

static void print_reports(void)
{
    printf("\nplace  %-*s%-*s%s\n", COLUMN, "hub 1", COLUMN, "hub 2", "hub 3");
    for (uint32_t place = 1; place <= home.places; place++) {
        printf("%5" PRIu32 "  ", place);
        for (size_t index = 0; index < HUBS; index++) {
            printf("%-*s", index + 1 < HUBS ? COLUMN : 0, report(&home.hubs[index], place));
        }
        printf("\n");
    }
}

void story_sum_up(void)
{
    const struct network *network = &home.network;

    print_reports();
    printf("\n%" PRIu32 " messages: %" PRIu32 " lost, %" PRIu32 " repeated, %" PRIu32 " overtaken\n", network->sent,
           network->lost, network->repeated, network->overtaken);
    printf("outcomes: %" PRIu32 " done, %" PRIu32 " stale, %" PRIu32 " wrong role, %" PRIu32 " nothing new\n",
           home.outcomes[KRITNAMON_DONE], home.outcomes[KRITNAMON_STALE], home.outcomes[KRITNAMON_WRONG_ROLE],
           home.outcomes[KRITNAMON_NOTHING_NEW]);
    printf("stored: %" PRIu32 " states, %" PRIu32 " counts of what was played\n", home.stores, home.counts);
}
