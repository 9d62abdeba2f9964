/* Three hubs elect a leader and choose a command; messages are passed by hand. */
#include "kritnamon_inline.h"

#include <stdio.h>

static uint8_t state[4][KRITNAMON_STATE_SIZE]; /* by hub number; a fresh hub's is all zero */
static uint8_t said[4][KRITNAMON_TEXT_MOST];   /* the message that each hub wrote last */
static size_t length[4];

/* One event at a hub. Firmware stores the state after it, before anybody hears what the hub said. */
static void take(unsigned own, uint32_t event, uint32_t peer, const uint8_t *input, size_t size)
{
    length[own] = KRITNAMON_SECOND(kritnamon_step(3, own, event, peer, 0, state[own], sizeof state[own], input, size,
                                                  said[own], sizeof said[own]));
}

static void pass(unsigned from, unsigned to)
{
    take(to, KRITNAMON_RECEIVE, 0, said[from], length[from]);
}

static void print_report(unsigned own)
{
    uint8_t command[KRITNAMON_COMMAND_SIZE] = {0};
    uint32_t is[KRITNAMON_COMMAND_NUMBERS] = {0};

    kritnamon_reported(state[own], sizeof state[own], 1, command, sizeof command);
    kritnamon_read_command(command, sizeof command, is, KRITNAMON_COMMAND_NUMBERS);
    printf("hub %u reports: motor %u, %u ms\n", own, (unsigned)is[KRITNAMON_MOTOR], (unsigned)is[KRITNAMON_DURATION]);
}

int main(void)
{
    uint8_t buzz[KRITNAMON_COMMAND_SIZE];

    kritnamon_write_command(3, KRITNAMON_BUZZ, 250, kritnamon_gain_bits(0.5f), 0, buzz, sizeof buzz);
    take(1, KRITNAMON_START, 0, buzz, 0);
    pass(1, 2); /* hub 1 asks for votes */
    pass(2, 1); /* hub 2 gives its vote: with two of three, hub 1 leads */
    take(1, KRITNAMON_PROPOSE, 0, buzz, sizeof buzz);
    take(1, KRITNAMON_SEND, 2, buzz, 0);
    pass(1, 2); /* the command goes to hub 2 */
    pass(2, 1); /* which confirms it: with two of three, it is chosen */
    print_report(1);
    take(1, KRITNAMON_SEND, 2, buzz, 0);
    pass(1, 2); /* hub 2 hears of that */
    print_report(2);
    return 0;
}
