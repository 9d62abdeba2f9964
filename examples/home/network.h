/* A network in memory that loses, repeats and reorders messages, the same way on every machine: chance comes from a seeded generator. */
#ifndef NETWORK_H
#define NETWORK_H

#include "kritnamon.h"
#include "record.h"

#include <stdbool.h>

#define NETWORK_HUBS    3u
#define NETWORK_LETTERS 64u /* on the way at one time; what is more is lost */

/* A message on its way; one without bytes is a free place. */
struct letter {
    uint32_t from;
    uint32_t to;
    uint32_t sent;   /* the moment */
    uint32_t due;    /* the moment from which it may be taken */
    uint32_t number; /* letters are numbered as they are sent */
    size_t length;
    uint8_t text[KRITNAMON_TEXT_MOST];
};

struct network {
    uint64_t chance;
    struct record *record;                              /* where the fate of each message is put down */
    bool unplugged[NETWORK_HUBS + 1];                   /* by hub number, as is latest */
    uint32_t latest[NETWORK_HUBS + 1][NETWORK_HUBS + 1]; /* the latest letter taken, by from and to */
    uint32_t sent, lost, repeated, overtaken;
    struct letter letters[NETWORK_LETTERS];
};

/* A number below `end`. */
uint32_t network_chance(struct network *network, uint32_t end);

/* Takes a text at the moment `now`. It comes later, perhaps twice, perhaps never. */
void network_send(struct network *network, uint32_t now, uint32_t from, uint32_t to, const uint8_t *text, size_t length);

/* Hands over a text for a hub that has come by now: the number of its bytes, or 0 if there is none. */
size_t network_take(struct network *network, uint32_t now, uint32_t to, uint8_t text[KRITNAMON_TEXT_MOST]);

#endif
