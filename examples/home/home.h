/* A home: three hubs of hub.c, with storage, power and a network for each, all in memory. What becomes of them is the same on every machine. */
#ifndef HOME_H
#define HOME_H

#include "../hub.h"
#include "network.h"
#include "record.h"

#define HUBS     NETWORK_HUBS
#define SEED     1u
#define OUTCOMES (HUB_NOT_STORED + 1u)

/* A moment is a tenth of a second. */
#define MOMENTS_A_SECOND 10u
#define MOMENT_MS        100

/* What is there after a loss of power. */
struct storage {
    bool begun; /* a state of this night is there */
    bool fails; /* the next time that a state is to be stored */
    bool unreadable, played_unreadable;
    uint8_t state[KRITNAMON_STATE_SIZE];
    uint32_t played;
};

/* What a hub asks of its device. */
struct deed {
    enum { STORE, STORE_PLAYED, SEND, PLAY } kind;
    uint32_t place; /* of a play, as is the command */
    const uint8_t *command;
};

/* How a deed goes. If it fails, a store answers so; whether it was done all the same can't be known. */
enum luck { GOES_WELL, FAILS, FAILS_DONE };

/* Somebody who looks on, and may let things go wrong: power may be taken in each of these. */
struct watch {
    enum luck (*before)(const struct hub *hub, const struct deed *deed);
    void (*after)(const struct hub *hub, const struct deed *deed, enum luck luck);
    void (*returns)(uint32_t own); /* power has come back; the hub has not been called yet */
};

struct home {
    struct hub hubs[HUBS];
    struct storage storage[HUBS];
    bool powered[HUBS];
    bool cut_off[HUBS];
    bool out[HUBS]; /* for the night: what was stored is damaged */
    bool led[HUBS]; /* whether the hub led when last looked at */
    uint32_t patience_ends[HUBS];
    uint32_t power_returns[HUBS]; /* at which moment, if it has been lost; 0 if that is left open */
    uint32_t now;
    uint32_t calls; /* of hubs, up to now */
    uint32_t outcomes[OUTCOMES];
    uint32_t stores, counts; /* how often a state was stored, and how often a count of what was played */
    uint32_t places;         /* how many have been played */
    uint32_t begun[KRITNAMON_PLACES]; /* at which moment each was, by the first hub */
    uint8_t chosen[KRITNAMON_PLACES][KRITNAMON_COMMAND_SIZE]; /* and what was */
    struct network network;
    struct record record;
    const struct watch *watch;
    struct {
        const char *what; /* null if there is none */
        uint32_t hub;
        uint32_t number;
    } objection; /* the first thing that a hub did and none may do */
};

/* The one home: a device function is handed its hub and nothing else. */
extern struct home home;

/* A fresh home at moment 0, its hubs set up. `watch` may be null. */
void home_begin(const struct watch *watch);

/* One moment: who has lost power may come back, then each hub receives what has come for it, and sends or asks for votes if it is time. */
void home_moment(void);

/* Offers a command to a hub. Whether it takes it. */
bool home_offer(uint32_t own, const uint8_t *command);

/* A hub waits from now on: for how long is left to chance. */
void home_wait(uint32_t own);

/* The number of the hub that leads at the greatest term; 1 if none does. */
uint32_t home_leader(void);

/* Power is lost until it is returned, at the latest at the moment `returns`; 0 leaves that open. */
void home_lose_power(uint32_t own, uint32_t returns);
void home_return_power(uint32_t own);
void home_cut_off(uint32_t own, bool cut_off);

/* Puts down a fact about a hub, with the number that its kind asks for and the command, or null. */
void home_note(enum what what, uint32_t own, uint32_t number, const uint8_t *command);

/* Objects to what a hub did. */
void home_object(uint32_t own, const char *what, uint32_t number);

#endif
