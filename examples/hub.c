#include "hub.h"

#include <string.h>

#define NUMBER_SIZE 4u
#define NO_STATE    0xff /* bytes of this are no hub's state */

/* The input of an event that has none. */
static const uint8_t nothing[1];

/* ---- What stands in a state. */

static uint32_t log_length(const struct hub *hub)
{
    return kritnamon_number(hub->state + KRITNAMON_STATE_LENGTH);
}

/* How many places a peer has confirmed to this leader. */
static uint32_t confirmed(const struct hub *hub, uint32_t peer)
{
    return kritnamon_number(hub->state + KRITNAMON_STATE_CONFIRMED + NUMBER_SIZE * (peer - 1));
}

static uint32_t reported(const struct hub *hub)
{
    return KRITNAMON_SECOND(kritnamon_chosen(hub->state, sizeof hub->state));
}

bool hub_leads(const struct hub *hub)
{
    return hub->state[KRITNAMON_STATE_ROLE] == KRITNAMON_LEADER;
}

uint32_t hub_term(const struct hub *hub)
{
    return kritnamon_number(hub->state + KRITNAMON_STATE_TERM);
}

/* ---- The motors. */

/* A count that could not be stored is tried again at the next event. Until then a loss of power costs a repetition; to stop playing
 * would cost a fire call. */
static void count_played(struct hub *hub)
{
    if (hub->counted < hub->played && device_store_played(hub)) {
        hub->counted = hub->played;
    }
}

/* Plays what the hub reports and has not played yet, in the order of the places. None of these places is refused.
 * Each is counted after it was played, never before: if power is lost between the two, the restart plays the command again. The other
 * way round it would not be played at all, and it may be the fire call. */
static void play_new(struct hub *hub)
{
    uint8_t command[KRITNAMON_COMMAND_SIZE];

    count_played(hub);
    while (hub->played < reported(hub)) {
        kritnamon_reported(hub->state, sizeof hub->state, hub->played + 1, command, sizeof command);
        device_play(hub, hub->played + 1, command);
        hub->played++;
        count_played(hub);
    }
}

/* ---- A call, and what is owed after it. */

static uint64_t step(struct hub *hub, uint32_t event, uint32_t a, uint32_t b, const uint8_t *input, size_t length)
{
    return kritnamon_step(hub->n, hub->own, event, a, b, hub->state, sizeof hub->state, input, length, hub->out,
                          sizeof hub->out);
}

/* Back to the state that was stored last. It is stored already, and a restart writes no message.
 * A hub whose storage is damaged no longer knows what it promised to others. It gets bytes that are no state, at which the library
 * refuses every event, and so it stays out. */
static uint32_t go_back(struct hub *hub)
{
    uint32_t outcome = KRITNAMON_BAD_STATE;

    if (device_load(hub)) {
        outcome = KRITNAMON_OUTCOME(step(hub, KRITNAMON_RESTART, 0, 0, nothing, 0));
    }
    if (outcome != KRITNAMON_DONE) {
        memset(hub->state, NO_STATE, sizeof hub->state);
    }
    device_note(hub, outcome);
    return outcome;
}

/* Sends the message that a call has written to whom it names. What the library wrote, it reads. Who has given its vote waits for what
 * becomes of it. */
static void post(const struct hub *hub, size_t length)
{
    uint32_t numbers[KRITNAMON_MESSAGE_NUMBERS] = {0};

    kritnamon_read_message(hub->out, length, numbers, KRITNAMON_MESSAGE_NUMBERS);
    if (numbers[KRITNAMON_TYPE] == KRITNAMON_VOTE_YES) {
        device_wait(hub);
    }
    for (uint32_t peer = 1; peer <= hub->n; peer++) {
        bool meant = numbers[KRITNAMON_TO] == peer || numbers[KRITNAMON_TO] == KRITNAMON_ALL;

        if (meant && peer != hub->own) {
            device_send(hub, peer, hub->out, length);
        }
    }
}

/* The order is what safety rests on: nobody may hear of a state, and no motor move by it, before it is stored.
 * A restart looks at term, ballot, chosen, length and the log, so these have to be stored; the log never changes without its length or the
 * ballot (docs/STORAGE.md), so the first four tell whether there is anything new. Most calls have nothing: neither a send nor a refusal changes them, nor a
 * vote or a confirmed length that is merely counted. */
static uint32_t take(struct hub *hub, uint32_t event, uint32_t a, uint32_t b, const uint8_t *input, size_t length)
{
    uint8_t stored[KRITNAMON_STATE_KEPT]; /* term, ballot, chosen, length */
    uint64_t answer;

    memcpy(stored, hub->state, sizeof stored);
    answer = step(hub, event, a, b, input, length);
    if (memcmp(stored, hub->state, sizeof stored) != 0 && !device_store(hub)) {
        device_note(hub, HUB_NOT_STORED);
        go_back(hub);
        return HUB_NOT_STORED;
    }
    /* Whatever the outcome: KRITNAMON_STALE answers too, and so tells a hub that fell behind the present term. */
    if (KRITNAMON_SECOND(answer) > 0) {
        post(hub, KRITNAMON_SECOND(answer));
    }
    play_new(hub);
    device_note(hub, KRITNAMON_OUTCOME(answer));
    return KRITNAMON_OUTCOME(answer);
}

/* ---- The events. */

static void set_up(struct hub *hub, uint32_t n, uint32_t own)
{
    memset(hub, 0, sizeof *hub);
    hub->n = n;
    hub->own = own;
}

/* The state is stored last: a hub that has one for this night has been set up. */
uint32_t hub_begin(struct hub *hub, uint32_t n, uint32_t own)
{
    set_up(hub, n, own);
    return device_store_played(hub) && device_store(hub) ? KRITNAMON_DONE : HUB_NOT_STORED;
}

/* Goes on from the count, so what was played and not yet counted is played again. A count that can't be read, or is above what the hub
 * reports, is none: then everything is. */
uint32_t hub_restart(struct hub *hub, uint32_t n, uint32_t own)
{
    uint32_t outcome;

    set_up(hub, n, own);
    outcome = go_back(hub);
    if (!device_load_played(hub) || hub->played > reported(hub)) {
        hub->played = 0;
    }
    hub->counted = hub->played;
    play_new(hub);
    return outcome;
}

uint32_t hub_start(struct hub *hub)
{
    return take(hub, KRITNAMON_START, 0, 0, nothing, 0);
}

/* A peer gets everything that it has not confirmed; what it has already does no harm. */
uint32_t hub_send(struct hub *hub)
{
    uint32_t outcome = KRITNAMON_DONE;

    for (uint32_t peer = 1; peer <= hub->n && outcome == KRITNAMON_DONE; peer++) {
        if (peer != hub->own) {
            outcome = take(hub, KRITNAMON_SEND, peer, confirmed(hub, peer), nothing, 0);
        }
    }
    return outcome;
}

uint32_t hub_propose(struct hub *hub, const uint8_t *command)
{
    uint32_t outcome = take(hub, KRITNAMON_PROPOSE, 0, 0, command, KRITNAMON_COMMAND_SIZE);

    if (outcome == KRITNAMON_DONE) {
        hub_send(hub);
    }
    return outcome;
}

/* Whether a message tells this leader that a peer's log is longer. The peer won't shorten it, and takes the leader's once that is as long. */
static bool is_outgrown(const struct hub *hub, const uint32_t *numbers)
{
    return hub_leads(hub) && numbers[KRITNAMON_TYPE] == KRITNAMON_APPEND_NO && numbers[KRITNAMON_TERM] == hub_term(hub)
           && numbers[KRITNAMON_OWN_1] > log_length(hub);
}

/* A leader whose log is too short for a peer adds to it what does nothing. */
static void lengthen(struct hub *hub)
{
    uint8_t stop[KRITNAMON_COMMAND_SIZE];

    kritnamon_write_command(HUB_UNUSED_MOTOR, KRITNAMON_STOP, 0, 0, 0, stop, sizeof stop);
    hub_propose(hub, stop);
}

/* A text that is refused leaves the zeros, which are of no type. */
uint32_t hub_receive(struct hub *hub, const uint8_t *text, size_t length)
{
    uint32_t numbers[KRITNAMON_MESSAGE_NUMBERS] = {0};
    uint32_t outcome = take(hub, KRITNAMON_RECEIVE, 0, 0, text, length);

    kritnamon_read_message(text, length, numbers, KRITNAMON_MESSAGE_NUMBERS);
    if (outcome == KRITNAMON_DONE && numbers[KRITNAMON_TYPE] == KRITNAMON_APPEND) {
        device_wait(hub);
    }
    if (is_outgrown(hub, numbers)) {
        lengthen(hub);
    }
    return outcome;
}
