#include "network.h"

#include <string.h>

#define LOST_ONE_IN     6u
#define REPEATED_ONE_IN 8u
#define DELAY_MOST      4u

/* splitmix64 */
uint32_t network_chance(struct network *network, uint32_t end)
{
    uint64_t mixed = network->chance += 0x9e3779b97f4a7c15u;

    mixed = (mixed ^ mixed >> 30) * 0xbf58476d1ce4e5b9u;
    mixed = (mixed ^ mixed >> 27) * 0x94d049bb133111ebu;
    return (uint32_t)((mixed ^ mixed >> 31) % end);
}

static bool one_in(struct network *network, uint32_t chances)
{
    return network_chance(network, chances) == 0;
}

static void note(struct network *network, enum what what, uint32_t now, uint32_t from, uint32_t to, uint32_t sent)
{
    record_add(network->record, (struct fact){.what = what, .moment = now, .hub = from, .number = to, .sent = sent});
}

static void lose(struct network *network, uint32_t now, uint32_t from, uint32_t to, uint32_t sent)
{
    network->lost++;
    note(network, LOST, now, from, to, sent);
}

static struct letter *free_place(struct network *network)
{
    for (size_t index = 0; index < NETWORK_LETTERS; index++) {
        if (network->letters[index].length == 0) {
            return &network->letters[index];
        }
    }
    return NULL;
}

static void put_on_the_way(struct network *network, uint32_t now, uint32_t from, uint32_t to, const uint8_t *text,
                           size_t length)
{
    struct letter *letter = free_place(network);

    if (letter == NULL) {
        lose(network, now, from, to, now);
        return;
    }
    letter->from = from;
    letter->to = to;
    letter->sent = now;
    letter->due = now + 1 + network_chance(network, DELAY_MOST);
    letter->number = network->sent;
    letter->length = length;
    memcpy(letter->text, text, length);
}

void network_send(struct network *network, uint32_t now, uint32_t from, uint32_t to, const uint8_t *text, size_t length)
{
    network->sent++;
    if (network->unplugged[from] || one_in(network, LOST_ONE_IN)) {
        lose(network, now, from, to, now);
        return;
    }
    put_on_the_way(network, now, from, to, text, length);
    if (one_in(network, REPEATED_ONE_IN)) {
        network->repeated++;
        put_on_the_way(network, now, from, to, text, length);
    }
}

static struct letter *due_letter(struct network *network, uint32_t now, uint32_t to)
{
    for (size_t index = 0; index < NETWORK_LETTERS; index++) {
        struct letter *letter = &network->letters[index];

        if (letter->length > 0 && letter->to == to && letter->due <= now) {
            return letter;
        }
    }
    return NULL;
}

/* Whether a letter comes after one that was sent later is kept for the count alone. */
static size_t hand_over(struct network *network, uint32_t now, struct letter *letter, uint8_t text[KRITNAMON_TEXT_MOST])
{
    uint32_t *latest = &network->latest[letter->from][letter->to];
    size_t length = letter->length;

    if (letter->number < *latest) {
        network->overtaken++;
    } else {
        *latest = letter->number;
    }
    note(network, ARRIVES, now, letter->from, letter->to, letter->sent);
    memcpy(text, letter->text, length);
    letter->length = 0;
    return length;
}

size_t network_take(struct network *network, uint32_t now, uint32_t to, uint8_t text[KRITNAMON_TEXT_MOST])
{
    struct letter *letter = due_letter(network, now, to);

    while (letter != NULL && network->unplugged[to]) {
        lose(network, now, letter->from, letter->to, letter->sent);
        letter->length = 0;
        letter = due_letter(network, now, to);
    }
    return letter == NULL ? 0 : hand_over(network, now, letter, text);
}
