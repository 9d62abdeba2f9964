/* What happens in a night, fact by fact and in the order of time. The story tells it, the picture draws it. */
#ifndef RECORD_H
#define RECORD_H

#include "kritnamon.h"

#define RECORD_MOST 4096u

enum what {
    ASKS,        /* for votes; number: the term */
    LEADS,       /* number: the term */
    FOLLOWS,     /* after having led; number: the term */
    TAKES,       /* a command */
    WAITS,       /* a command that no hub takes yet; hub: 0 */
    PLAYS_FIRST, /* a command that nobody played before, so it has just been chosen; number: the place */
    PLAYS,       /* number: the place */
    DIES,
    RETURNS,     /* number: the term */
    IS_CUT_OFF,  /* from the network */
    IS_HEARD,    /* again */
    NOT_STORED,  /* a step, which is thus undone */
    STAYS_OUT,
    LOST,        /* a message; number: to whom; moment: when it was lost */
    ARRIVES,     /* a message; number: to whom */
};

struct fact {
    enum what what;
    uint32_t moment;
    uint32_t hub; /* of a message, the one that sent it */
    uint32_t number;
    uint32_t sent;                           /* when a message was sent */
    int64_t left;                            /* in ms, of a command that is played: below zero, overdue */
    float drive;                             /* of its motor */
    uint8_t command[KRITNAMON_COMMAND_SIZE]; /* zero where there is none */
};

/* The facts of the night, `count` of them. */
struct record {
    size_t count;
    struct fact facts[RECORD_MOST];
};

/* Adds a fact. What is too much for the record is left out. */
void record_add(struct record *record, struct fact fact);

#endif
