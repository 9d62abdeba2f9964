#include "home.h"

#include <string.h>

#define SEND_EVERY     5u
#define PATIENCE_LEAST 15u /* how long a hub waits to hear of a leader */
#define PATIENCE_MORE  20u /* and by how much longer, at most */

#define LEFT_IN_MEMORY 0xa5 /* in every byte, after a loss of power */

struct home home;

void home_note(enum what what, uint32_t own, uint32_t number, const uint8_t *command)
{
    struct fact fact = {.what = what, .moment = home.now, .hub = own, .number = number};

    if (command != NULL) {
        memcpy(fact.command, command, sizeof fact.command);
    }
    record_add(&home.record, fact);
}

void home_object(uint32_t own, const char *what, uint32_t number)
{
    if (home.objection.what == NULL) {
        home.objection.what = what;
        home.objection.hub = own;
        home.objection.number = number;
    }
}

/* ---- Power and the network. */

static void plug(uint32_t own)
{
    home.network.unplugged[own] = !home.powered[own - 1] || home.cut_off[own - 1];
}

void home_cut_off(uint32_t own, bool cut_off)
{
    home.cut_off[own - 1] = cut_off;
    plug(own);
}

void home_lose_power(uint32_t own, uint32_t returns)
{
    if (home.powered[own - 1]) {
        home_note(DIES, own, 0, NULL);
    }
    home.powered[own - 1] = false;
    home.led[own - 1] = false;
    home.power_returns[own - 1] = returns;
    plug(own);
}

/* The hub, about to be called. */
static struct hub *called(uint32_t own)
{
    home.calls++;
    return &home.hubs[own - 1];
}

void home_wait(uint32_t own)
{
    home.patience_ends[own - 1] = home.now + PATIENCE_LEAST + network_chance(&home.network, PATIENCE_MORE);
}

/* A hub that could not be set up is tried again at the next moment. */
static void set_up(uint32_t own)
{
    home.powered[own - 1] = true;
    plug(own);
    if (hub_begin(called(own), HUBS, own) != KRITNAMON_DONE) {
        home_lose_power(own, home.now + 1);
    }
    home_wait(own);
}

/* Nothing is left of what stood in the hub's memory. */
void home_return_power(uint32_t own)
{
    struct hub *hub = &home.hubs[own - 1];

    if (home.powered[own - 1]) {
        return;
    }
    memset(hub, LEFT_IN_MEMORY, sizeof *hub);
    if (!home.storage[own - 1].begun) {
        set_up(own);
        return;
    }
    home.powered[own - 1] = true;
    plug(own);
    if (home.watch != NULL) {
        home.watch->returns(own);
    }
    if (hub_restart(called(own), HUBS, own) == KRITNAMON_DONE) {
        home_note(RETURNS, own, hub_term(hub), NULL);
    }
    home_wait(own);
}

/* ---- A moment. */

static bool leads(size_t index)
{
    return home.powered[index] && hub_leads(&home.hubs[index]);
}

static void receive_all(uint32_t own)
{
    static uint8_t text[KRITNAMON_TEXT_MOST];
    size_t length;

    while ((length = network_take(&home.network, home.now, own, text)) > 0) {
        hub_receive(called(own), text, length);
    }
}

static void ask_for_votes(uint32_t own)
{
    if (hub_start(called(own)) == KRITNAMON_DONE && home.powered[own - 1]) {
        home_note(ASKS, own, hub_term(&home.hubs[own - 1]), NULL);
    }
    home_wait(own);
}

static void live(uint32_t own)
{
    receive_all(own);
    if (leads(own - 1)) {
        if (home.now % SEND_EVERY == 0) {
            hub_send(called(own));
        }
    } else if (home.powered[own - 1] && home.now >= home.patience_ends[own - 1]) {
        ask_for_votes(own);
    }
}

void home_moment(void)
{
    for (uint32_t own = 1; own <= HUBS; own++) {
        if (home.power_returns[own - 1] == home.now) {
            home_return_power(own);
        }
        live(own);
    }
}

/* ---- What is asked from outside. */

void home_begin(const struct watch *watch)
{
    memset(&home, 0, sizeof home);
    home.watch = watch;
    home.network.chance = SEED;
    home.network.record = &home.record;
    for (uint32_t own = 1; own <= HUBS; own++) {
        set_up(own);
    }
}

bool home_offer(uint32_t own, const uint8_t *command)
{
    bool taken = home.powered[own - 1] && hub_propose(called(own), command) == KRITNAMON_DONE && home.powered[own - 1];

    if (taken) {
        home_note(TAKES, own, 0, command);
    }
    return taken;
}

uint32_t home_leader(void)
{
    size_t found = 0;

    for (size_t index = 1; index < HUBS; index++) {
        if (leads(index) && (!leads(found) || hub_term(&home.hubs[index]) > hub_term(&home.hubs[found]))) {
            found = index;
        }
    }
    return (uint32_t)found + 1;
}
