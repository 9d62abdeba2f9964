/* The hubs' devices, in memory. Without power a call runs to its end all the same, but nothing comes of it, as if it had stopped. */
#include "home.h"
#include "motors.h"

#include <string.h>

static bool is_powered(const struct hub *hub)
{
    return home.powered[hub->own - 1];
}

static struct storage *storage_of(const struct hub *hub)
{
    return &home.storage[hub->own - 1];
}

static enum luck before(const struct hub *hub, const struct deed *deed)
{
    return home.watch != NULL && is_powered(hub) ? home.watch->before(hub, deed) : GOES_WELL;
}

static void after(const struct hub *hub, const struct deed *deed, enum luck luck)
{
    if (home.watch != NULL && is_powered(hub)) {
        home.watch->after(hub, deed, luck);
    }
}

/* ---- Storage. */

bool device_store(const struct hub *hub)
{
    struct storage *storage = storage_of(hub);
    struct deed deed = {.kind = STORE};
    enum luck luck = before(hub, &deed);

    luck = storage->fails ? FAILS : luck;
    storage->fails = false;
    if (is_powered(hub) && luck != FAILS) {
        memcpy(storage->state, hub->state, sizeof storage->state);
        storage->begun = true;
        home.stores++;
    }
    after(hub, &deed, luck);
    return luck == GOES_WELL;
}

bool device_store_played(const struct hub *hub)
{
    struct deed deed = {.kind = STORE_PLAYED};
    enum luck luck = before(hub, &deed);

    if (is_powered(hub) && luck != FAILS) {
        storage_of(hub)->played = hub->played;
        home.counts++;
    }
    after(hub, &deed, luck);
    return luck == GOES_WELL;
}

bool device_load(struct hub *hub)
{
    memcpy(hub->state, storage_of(hub)->state, sizeof hub->state);
    return !storage_of(hub)->unreadable;
}

bool device_load_played(struct hub *hub)
{
    hub->played = storage_of(hub)->played;
    return !storage_of(hub)->played_unreadable;
}

/* ---- The network and the motors. */

void device_send(const struct hub *hub, uint32_t to, const uint8_t *text, size_t length)
{
    struct deed deed = {.kind = SEND};

    before(hub, &deed);
    if (is_powered(hub)) {
        network_send(&home.network, home.now, hub->own, to, text, length);
    }
    after(hub, &deed, GOES_WELL);
}

/* How the motor takes it: from the beginning, or from where it is by now. */
static void note_drive(const struct hub *hub, uint32_t place, const uint8_t *command, bool first)
{
    struct fact fact = {.what = first ? PLAYS_FIRST : PLAYS, .moment = home.now, .hub = hub->own, .number = place};
    uint32_t outcome = motors_play(command, home.begun[place - 1], home.now, &fact.left, &fact.drive);

    if (outcome != KRITNAMON_DONE) {
        home_object(hub->own, "played with outcome", outcome);
    }
    memcpy(fact.command, command, sizeof fact.command);
    record_add(&home.record, fact);
}

/* All hubs have to play what the first one did. */
static void note_play(const struct hub *hub, uint32_t place, const uint8_t *command)
{
    bool first = place > home.places;

    if (first) {
        home.places = place;
        home.begun[place - 1] = home.now;
        memcpy(home.chosen[place - 1], command, KRITNAMON_COMMAND_SIZE);
    } else if (memcmp(home.chosen[place - 1], command, KRITNAMON_COMMAND_SIZE) != 0) {
        home_object(hub->own, "another command at place", place);
    }
    note_drive(hub, place, command, first);
}

void device_play(const struct hub *hub, uint32_t place, const uint8_t *command)
{
    struct deed deed = {.kind = PLAY, .place = place, .command = command};

    before(hub, &deed);
    if (is_powered(hub)) {
        note_play(hub, place, command);
    }
    after(hub, &deed, GOES_WELL);
}

/* ---- The clock, and what is heard of the calls. */

void device_wait(const struct hub *hub)
{
    home_wait(hub->own);
}

/* Only these occur among honest hubs whose messages and stored bytes are not altered, at a log that is not full. */
static bool is_honest(uint32_t outcome)
{
    return outcome == KRITNAMON_DONE || outcome == KRITNAMON_STALE || outcome == KRITNAMON_WRONG_ROLE
           || outcome == KRITNAMON_NOTHING_NEW;
}

static void note_role(const struct hub *hub)
{
    bool leads = hub_leads(hub);

    if (leads != home.led[hub->own - 1]) {
        home.led[hub->own - 1] = leads;
        home_note(leads ? LEADS : FOLLOWS, hub->own, hub_term(hub), NULL);
        home_wait(hub->own);
    }
}

/* It is out at every event to come; that is put down once. */
static void note_out(const struct hub *hub)
{
    if (!home.out[hub->own - 1]) {
        home.out[hub->own - 1] = true;
        home_note(STAYS_OUT, hub->own, 0, NULL);
    }
}

void device_note(const struct hub *hub, uint32_t outcome)
{
    if (!is_powered(hub)) {
        return;
    }
    home.outcomes[outcome]++;
    if (outcome == HUB_NOT_STORED) {
        home_note(NOT_STORED, hub->own, 0, NULL);
    } else if (outcome == KRITNAMON_BAD_STATE) {
        note_out(hub);
    } else if (is_honest(outcome)) {
        note_role(hub);
    } else {
        home_object(hub->own, "outcome", outcome);
    }
}
