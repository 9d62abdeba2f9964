/* One hub around the proved library: what firmware does with each answer. To be copied, with the device functions written for the hub's
 * own flash, network and motors. */
#ifndef HUB_H
#define HUB_H

#include "kritnamon_inline.h"

#include <stdbool.h>

/* A motor that no bed has. A stop of it does nothing but take a place in the log. */
#define HUB_UNUSED_MOTOR 64u

/* What a call may answer beside the library's outcomes: the step could not be stored. Nothing of it was sent or played, and the hub has
 * gone on from what it stored last, as after a loss of power. */
#define HUB_NOT_STORED (KRITNAMON_BAD_ELAPSED + 1u)

struct hub {
    uint32_t n;                          /* hubs in the group */
    uint32_t own;                        /* this hub's number */
    uint32_t played;                     /* places whose commands have gone to the motors */
    uint32_t counted;                    /* the count of them that is stored */
    uint8_t state[KRITNAMON_STATE_SIZE]; /* the state that the library works on */
    uint8_t out[KRITNAMON_TEXT_MOST];    /* room for the message of a call */
};

/* Sets a hub up for the night: KRITNAMON_DONE, or HUB_NOT_STORED, and then it has to be tried again before anything else. Once only: a hub
 * that has been set up comes back by hub_restart. */
uint32_t hub_begin(struct hub *hub, uint32_t n, uint32_t own);

/* After a loss of power, before any other event: from what was stored last. A hub whose storage is damaged gets KRITNAMON_BAD_STATE, here
 * and from every event to come: it stays out for the night. */
uint32_t hub_restart(struct hub *hub, uint32_t n, uint32_t own);

/* Each of the following takes events of the library and returns the outcome, or HUB_NOT_STORED. */
uint32_t hub_start(struct hub *hub); /* no leader was heard of for a while */
uint32_t hub_propose(struct hub *hub, const uint8_t *command);
uint32_t hub_receive(struct hub *hub, const uint8_t *text, size_t length);
uint32_t hub_send(struct hub *hub); /* an append to every peer: at a leader, again and again */

bool hub_leads(const struct hub *hub);
uint32_t hub_term(const struct hub *hub);

/* ---- What the device gives.
 *
 * Two things are stored, the state and the count of played places, each as a whole: if power is lost on the way, or storing fails, either
 * the old one is there or the new one. */

/* Stores hub->state. When it returns true, the bytes are there after a loss of power. Those that docs/LAYOUT.md calls kept are enough. */
bool device_store(const struct hub *hub);

/* Reads the bytes stored last into hub->state; what was not stored may be anything. False if that can't be done. The library refuses bytes
 * that are no state, but can't tell those of another state from the right ones, so a checksum belongs here. */
bool device_load(struct hub *hub);

/* The same for hub->played. */
bool device_store_played(const struct hub *hub);
bool device_load_played(struct hub *hub);

/* Sends a text to a peer. It may be lost. */
void device_send(const struct hub *hub, uint32_t to, const uint8_t *text, size_t length);

/* Gives the command at a place to its motor, which has it when this returns. What the motor is driven at from then on is told by
 * kritnamon_play, from the time since the command began. After a loss of power, the last one may come again. */
void device_play(const struct hub *hub, uint32_t place, const uint8_t *command);

/* Puts the timer for hub_start back: the hub has heard of a leader, or given its vote. Nothing else it hears is a reason to. A hub that has
 * just taken hub_start, or leads no longer, is to wait from then on too. */
void device_wait(const struct hub *hub);

/* Hears of every call's outcome, and of HUB_NOT_STORED. KRITNAMON_BAD_STATE is the one to be shown to people: this hub is out. */
void device_note(const struct hub *hub, uint32_t outcome);

#endif
