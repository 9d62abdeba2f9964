#include "check.h"

#include <string.h>

/* Of a state: docs/LAYOUT.md. */
#define KEPT_HEAD 16u
#define TABLE     56u

#define ANYTHING 0xa5 /* in bytes that nobody may look at */

/* What is known of each hub, by its number. */
static struct {
    uint32_t last;    /* place that it played, or that its count said when it came back */
    uint32_t most;    /* place that it ever played */
    uint32_t muted;   /* the call in which a state of it could not be stored */
    bool count_fails; /* the last time that it was to be stored */
} known[HUBS + 1];

static uint32_t repeated;

void check_begin(void)
{
    memset(known, 0, sizeof known);
    repeated = 0;
}

/* ---- States. */

static size_t log_size(const uint8_t *state)
{
    return KRITNAMON_ROW_SIZE * (size_t)((uint32_t)state[KRITNAMON_STATE_LENGTH + 2] << 8 | state[KRITNAMON_STATE_LENGTH + 3]);
}

/* Whether two states agree in all that is kept over a restart. */
static bool are_kept_equal(const uint8_t *one, const uint8_t *other)
{
    return memcmp(one, other, KEPT_HEAD) == 0 && memcmp(one + TABLE, other + TABLE, log_size(one)) == 0;
}

/* What a restart doesn't look at may hold anything: it need not be stored. */
static void spoil_lost(uint8_t *state)
{
    size_t end = TABLE + log_size(state);

    memset(state + KEPT_HEAD, ANYTHING, TABLE - KEPT_HEAD);
    memset(state + end, ANYTHING, KRITNAMON_STATE_SIZE - end);
}

static struct storage *storage_of(const struct hub *hub)
{
    return &home.storage[hub->own - 1];
}

/* ---- Before a deed. */

/* What a hub says rests on what it has stored. */
static void check_send(const struct hub *hub)
{
    if (!are_kept_equal(hub->state, storage_of(hub)->state)) {
        home_object(hub->own, "a message of a state that is not stored, at term", hub_term(hub));
    }
    if (known[hub->own].muted == home.calls) {
        home_object(hub->own, "a message of a step that could not be stored, at term", hub_term(hub));
    }
}

/* So does what it plays, and place follows place. */
static void check_play(const struct hub *hub, uint32_t place, const uint8_t *command)
{
    uint8_t stored[KRITNAMON_COMMAND_SIZE];
    uint32_t outcome = kritnamon_reported(storage_of(hub)->state, KRITNAMON_STATE_SIZE, place, stored, sizeof stored);

    if (outcome != KRITNAMON_DONE || memcmp(stored, command, sizeof stored) != 0) {
        home_object(hub->own, "a command that the stored state does not report, at place", place);
    }
    if (place != known[hub->own].last + 1) {
        home_object(hub->own, "out of order: place", place);
    }
}

/* Flash is not written for what stands in it. */
static void check_store(const struct hub *hub)
{
    if (storage_of(hub)->begun && are_kept_equal(hub->state, storage_of(hub)->state)) {
        home_object(hub->own, "stored already: a state of term", hub_term(hub));
    }
}

/* Nothing is counted before it is played. */
static void check_count(const struct hub *hub)
{
    if (hub->played > known[hub->own].last) {
        home_object(hub->own, "counted before it is played: place", hub->played);
    }
    if (storage_of(hub)->begun && hub->played == storage_of(hub)->played && !known[hub->own].count_fails) {
        home_object(hub->own, "stored already: the count", hub->played);
    }
}

void check_before(const struct hub *hub, const struct deed *deed)
{
    if (home.out[hub->own - 1]) {
        home_object(hub->own, "out for the night, and does something of kind", deed->kind);
    }
    switch (deed->kind) {
    case STORE:
        check_store(hub);
        break;
    case STORE_PLAYED:
        check_count(hub);
        break;
    case SEND:
        check_send(hub);
        break;
    case PLAY:
        check_play(hub, deed->place, deed->command);
        break;
    }
}

/* ---- After a deed, and after a loss of power. */

static void note_play(uint32_t own, uint32_t place)
{
    known[own].last = place;
    if (place > known[own].most) {
        known[own].most = place;
    } else {
        repeated++;
    }
}

void check_after(const struct hub *hub, const struct deed *deed, enum luck luck)
{
    switch (deed->kind) {
    case STORE:
        if (luck != GOES_WELL) {
            known[hub->own].muted = home.calls;
        }
        spoil_lost(storage_of(hub)->state);
        break;
    case STORE_PLAYED:
        known[hub->own].count_fails = luck != GOES_WELL;
        break;
    case SEND:
        break;
    case PLAY:
        note_play(hub->own, deed->place);
        break;
    }
}

/* Whether the count that is stored can be one of this hub's. */
static bool is_count_good(const struct storage *storage)
{
    uint32_t reported = KRITNAMON_SECOND(kritnamon_chosen(storage->state, sizeof storage->state));

    return !storage->played_unreadable && storage->played <= reported;
}

/* A hub goes on from its count, which may lack the last command that it played, and more only if counts could not be stored. */
void check_returns(uint32_t own)
{
    const struct storage *storage = &home.storage[own - 1];
    bool good = is_count_good(storage);

    known[own].last = good ? storage->played : 0;
    if (known[own].last > known[own].most) {
        home_object(own, "counted and never played: place", known[own].last);
    }
    if (good && !known[own].count_fails && known[own].last + 1 < known[own].most) {
        home_object(own, "played and not counted: place", known[own].most - 1);
    }
}

void check_end(uint32_t own, bool counts)
{
    const struct hub *hub = &home.hubs[own - 1];

    if (known[own].last != home.places) {
        home_object(own, "not played: what stands behind place", known[own].last);
    }
    if (!are_kept_equal(hub->state, storage_of(hub)->state)) {
        home_object(own, "not stored: a state of term", hub_term(hub));
    }
    if (counts && storage_of(hub)->played != home.places) {
        home_object(own, "not counted: what stands behind place", storage_of(hub)->played);
    }
}

uint32_t check_repeated(void)
{
    return repeated;
}
