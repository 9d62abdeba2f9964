/* What the headers tell firmware beside what each function promises, tried from C: `firmware NAME` makes one check. */
#define _XOPEN_SOURCE 700 /* for ucontext.h */

#include "kritnamon_inline.h"

#include <stdio.h>
#include <stdlib.h>
#include <ucontext.h>

#define CHECK(holds) ((holds) ? (void)0 : fail(#holds, __LINE__))

static void fail(const char *what, int line)
{
    fprintf(stderr, "firmware.c:%d: %s\n", line, what);
    exit(1);
}

/* ---- A group of five. */

#define HUBS 5u

static uint8_t states[HUBS + 1][KRITNAMON_STATE_SIZE]; /* by a hub's number; all fresh */
static uint8_t out[KRITNAMON_TEXT_MOST];
static const uint8_t nothing[1];

/* An event that has to take effect. Hands back the length of the message, which stands in `out`. */
static uint32_t take(uint32_t hub, uint32_t event, uint32_t a, const uint8_t *input, size_t length)
{
    uint64_t answer = kritnamon_step(HUBS, hub, event, a, 0, states[hub], KRITNAMON_STATE_SIZE, input, length, out, sizeof out);

    CHECK(KRITNAMON_OUTCOME(answer) == KRITNAMON_DONE);
    return KRITNAMON_SECOND(answer);
}

/* A hub receives what stands in `out`; its answer takes the place. */
static uint32_t hear(uint32_t hub, uint32_t length)
{
    static uint8_t in[KRITNAMON_TEXT_MOST];

    memcpy(in, out, length);
    return take(hub, KRITNAMON_RECEIVE, 0, in, length);
}

/* A hub asks for votes, and leads with those of two others. */
static void elect(uint32_t hub, uint32_t first, uint32_t second)
{
    static uint8_t request[KRITNAMON_TEXT_MOST];
    uint32_t length = take(hub, KRITNAMON_START, 0, nothing, 0);

    memcpy(request, out, length);
    hear(hub, take(first, KRITNAMON_RECEIVE, 0, request, length));
    hear(hub, take(second, KRITNAMON_RECEIVE, 0, request, length));
    CHECK(states[hub][KRITNAMON_STATE_ROLE] == KRITNAMON_LEADER);
}

/* A leader sends all that it has to a peer, and hears the answer. */
static void send_to(uint32_t leader, uint32_t peer)
{
    hear(leader, hear(peer, take(leader, KRITNAMON_SEND, peer, nothing, 0)));
}

/* A leader takes a command; hands back the place that firmware is to remember. */
static uint32_t propose(uint32_t leader, const uint8_t *command)
{
    take(leader, KRITNAMON_PROPOSE, 0, command, KRITNAMON_COMMAND_SIZE);
    return kritnamon_number(states[leader] + KRITNAMON_STATE_LENGTH);
}

static void stop(uint32_t motor, uint8_t command[KRITNAMON_COMMAND_SIZE])
{
    CHECK(kritnamon_write_command(motor, KRITNAMON_STOP, 0, 0, 0, command, KRITNAMON_COMMAND_SIZE) == KRITNAMON_DONE);
}

/* ---- What a hub holds and reports. */

static const uint8_t *row(uint32_t hub, uint32_t place)
{
    return states[hub] + KRITNAMON_STATE_ROWS + KRITNAMON_ROW_SIZE * (place - 1);
}

static int holds(uint32_t hub, uint32_t place, const uint8_t *command)
{
    return memcmp(row(hub, place) + 4, command, KRITNAMON_COMMAND_SIZE) == 0;
}

static uint32_t chosen(uint32_t hub)
{
    return KRITNAMON_SECOND(kritnamon_chosen(states[hub], KRITNAMON_STATE_SIZE));
}

static int reports(uint32_t hub, uint32_t place, const uint8_t *command)
{
    uint8_t told[KRITNAMON_COMMAND_SIZE];

    CHECK(kritnamon_reported(states[hub], KRITNAMON_STATE_SIZE, place, told, sizeof told) == KRITNAMON_DONE);
    return memcmp(told, command, sizeof told) == 0;
}

/* ---- The checks. */

static void version(void)
{
    CHECK(kritnamon_version() == KRITNAMON_VERSION);
}

static void numbers(void)
{
    static const uint8_t bytes[] = {0xfe, 0xdc, 0xba, 0x98};

    CHECK(kritnamon_number(bytes) == 0xfedcba98u);
    CHECK(kritnamon_gain_bits(0.5f) == 0x3f000000u && kritnamon_gain_bits(1.0f) == 0x3f800000u);
    CHECK(kritnamon_gain(0x3f000000u) == 0.5f && kritnamon_gain(0) == 0.0f);
}

/* One line for each outcome, and one more. */
static void outcomes(void)
{
    for (uint32_t outcome = 0; outcome <= KRITNAMON_BAD_ELAPSED + 1; outcome++) {
        printf("%s\n", kritnamon_outcome_name(outcome));
    }
}

/* Hub 1's proposal is held by hub 2 alone when hub 3, elected without these two, puts another one into hub 1's log. It is chosen all the
 * same, by hub 2. */
static void replaced_proposal(void)
{
    uint8_t ours[KRITNAMON_COMMAND_SIZE], other[KRITNAMON_COMMAND_SIZE];

    stop(1, ours);
    stop(2, other);
    elect(1, 2, 3);
    CHECK(propose(1, ours) == 1);
    send_to(1, 2);
    elect(3, 4, 5);
    propose(3, other);
    send_to(3, 1);
    CHECK(holds(1, 1, other) && chosen(1) == 0);
    take(2, KRITNAMON_START, 0, nothing, 0); /* at the term of hub 3, and nobody hears of it */
    elect(2, 4, 5);
    send_to(2, 4);
    send_to(2, 5);
    send_to(2, 1);
    CHECK(chosen(1) == 1 && reports(1, 1, ours));
}

/* A later leader takes a command over with its own term; one that is offered to it again is chosen twice. */
static void repeated_proposal(void)
{
    uint8_t ours[KRITNAMON_COMMAND_SIZE];

    stop(1, ours);
    elect(1, 2, 3);
    hear(3, take(1, KRITNAMON_SEND, 3, nothing, 0)); /* or its ballot would be too low for the vote of hub 2 */
    CHECK(propose(1, ours) == 1);
    CHECK(kritnamon_number(row(1, 1)) == 1);
    send_to(1, 2);
    elect(3, 2, 4);
    CHECK(holds(3, 1, ours) && kritnamon_number(row(3, 1)) == 2);
    CHECK(propose(3, ours) == 2);
    send_to(3, 2);
    send_to(3, 4);
    CHECK(chosen(3) == 2 && reports(3, 1, ours) && reports(3, 2, ours));
}

/* Hub 3 does not know of hub 1's proposal, and takes an equal one: one place answers both. */
static void equal_proposals(void)
{
    uint8_t equal[KRITNAMON_COMMAND_SIZE];

    stop(1, equal);
    elect(1, 2, 3);
    CHECK(propose(1, equal) == 1);
    elect(3, 4, 5);
    CHECK(propose(3, equal) == 1);
    send_to(3, 4);
    send_to(3, 5);
    send_to(3, 1);
    CHECK(chosen(1) == 1 && reports(1, 1, equal) && kritnamon_number(states[1] + KRITNAMON_STATE_LENGTH) == 1);
}

/* A leader of two entries, one of them chosen, whose other bytes are overwritten, comes back as it does without. */
static void kept_parts(void)
{
    static uint8_t spoilt[KRITNAMON_STATE_SIZE];
    const size_t end = KRITNAMON_STATE_ROWS + 2 * KRITNAMON_ROW_SIZE;
    uint8_t command[KRITNAMON_COMMAND_SIZE];

    stop(1, command);
    elect(1, 2, 3);
    propose(1, command);
    send_to(1, 2);
    send_to(1, 3);
    propose(1, command);
    memcpy(spoilt, states[1], sizeof spoilt);
    memset(spoilt + KRITNAMON_STATE_KEPT, 0xa5, KRITNAMON_STATE_ROWS - KRITNAMON_STATE_KEPT);
    memset(spoilt + end, 0xa5, sizeof spoilt - end);
    CHECK(kritnamon_chosen(spoilt, sizeof spoilt) == kritnamon_chosen(states[1], sizeof states[1]) && chosen(1) == 1);
    take(1, KRITNAMON_RESTART, 0, nothing, 0);
    memcpy(states[2], spoilt, sizeof spoilt);
    take(2, KRITNAMON_RESTART, 0, nothing, 0);
    CHECK(memcmp(states[1], states[2], sizeof states[1]) == 0);
}

static void buzz(int32_t duration, uint8_t *command)
{
    CHECK(kritnamon_write_command(3, KRITNAMON_BUZZ, duration, 0, 0, command, KRITNAMON_COMMAND_SIZE) == KRITNAMON_DONE);
}

/* Hub 1 gets a command that is too short to be proposed, in an append of hub 5: it keeps it, reports it, leads with it and sends it, and
 * takes none such from a client. */
static void short_command(void)
{
    const uint32_t append[] = {KRITNAMON_APPEND, 1, 5, 1, 0, 0, 1, 1};
    uint8_t entry[KRITNAMON_ROW_SIZE] = {0, 0, 0, 1}, felt[KRITNAMON_COMMAND_SIZE];
    uint8_t *brief = entry + 4;

    buzz(KRITNAMON_FELT_LEAST - 1, brief);
    hear(1, KRITNAMON_SECOND(kritnamon_write_message(append, KRITNAMON_MESSAGE_NUMBERS, entry, sizeof entry, out, sizeof out)));
    CHECK(chosen(1) == 1 && reports(1, 1, brief));
    elect(1, 2, 3);
    CHECK(kritnamon_step(HUBS, 1, KRITNAMON_PROPOSE, 0, 0, states[1], KRITNAMON_STATE_SIZE, brief, KRITNAMON_COMMAND_SIZE, out, sizeof out)
          == KRITNAMON_BAD_COMMAND);
    buzz(KRITNAMON_FELT_LEAST, felt);
    CHECK(propose(1, felt) == 2);
    send_to(1, 2);
    CHECK(holds(2, 1, brief) && holds(2, 2, felt));
}

/* Hub 1 leads, stores nothing and loses power. Hub 4 is elected with its vote, though the ballot of hub 1 is higher. Once hub 1 holds an
 * entry it compares, and hub 5 does not get its vote. */
static void empty_hub(void)
{
    uint32_t length, numbers[KRITNAMON_MESSAGE_NUMBERS] = {0};
    uint8_t command[KRITNAMON_COMMAND_SIZE];

    stop(1, command);
    elect(1, 2, 3);
    take(1, KRITNAMON_RESTART, 0, nothing, 0);
    take(4, KRITNAMON_START, 0, nothing, 0); /* at the term of hub 1, and nobody hears of it */
    elect(4, 1, 5);
    CHECK(propose(4, command) == 1);
    send_to(4, 1);
    length = hear(1, take(5, KRITNAMON_START, 0, nothing, 0));
    CHECK(KRITNAMON_OUTCOME(kritnamon_read_message(out, length, numbers, KRITNAMON_MESSAGE_NUMBERS)) == KRITNAMON_DONE);
    CHECK(numbers[KRITNAMON_TYPE] == KRITNAMON_VOTE_NO && numbers[KRITNAMON_TO] == 5);
}

/* What a hub of version 1 has stored when its log is full, all its 256 places, is the same state here with zero bytes behind it; and the log
 * goes on behind them. */
static void carried_over(void)
{
    static const uint8_t zeros[KRITNAMON_STATE_SIZE];
    const uint32_t older = 5176, places = 256;
    uint8_t command[KRITNAMON_COMMAND_SIZE];

    CHECK(older == KRITNAMON_STATE_ROWS + places * KRITNAMON_ROW_SIZE);
    stop(1, command);
    elect(1, 2, 3);
    while (propose(1, command) < places) {
    }
    CHECK(memcmp(states[1] + older, zeros, KRITNAMON_STATE_SIZE - older) == 0);
    memcpy(states[5], states[1], older);
    CHECK(memcmp(states[5], states[1], KRITNAMON_STATE_SIZE) == 0);
    take(1, KRITNAMON_RESTART, 0, nothing, 0);
    elect(1, 2, 3);
    CHECK(propose(1, command) == places + 1);
    send_to(1, 2);
    send_to(1, 3);
    CHECK(chosen(1) == places + 1 && reports(1, places + 1, command));
}

/* Hub 2 receives what is no message: it is told where that is wrong, writes nothing, and its state stays. */
static void refuse(const uint8_t *text, uint32_t length, uint32_t wrong_at)
{
    static uint8_t before[KRITNAMON_STATE_SIZE];
    uint64_t answer;

    memcpy(before, states[2], sizeof before);
    answer = kritnamon_step(HUBS, 2, KRITNAMON_RECEIVE, 0, 0, states[2], KRITNAMON_STATE_SIZE, text, length, out, sizeof out);
    CHECK(KRITNAMON_OUTCOME(answer) == KRITNAMON_BAD_MESSAGE);
    CHECK(KRITNAMON_WRONG_AT(answer) == wrong_at && KRITNAMON_SECOND(answer) == 0);
    CHECK(memcmp(states[2], before, sizeof before) == 0);
}

/* A leader's append comes cut, then from a hub that there is not, and then as it was written. */
static void damaged_message(void)
{
    static uint8_t text[KRITNAMON_TEXT_MOST];
    const uint32_t from = sizeof "type=append\nterm=1\nfrom=" - 1;
    uint32_t length;

    elect(1, 2, 3);
    length = take(1, KRITNAMON_SEND, 2, nothing, 0);
    memcpy(text, out, length);
    refuse(text, length - 1, length - 1);
    text[from] = '8';
    refuse(text, length, from);
    text[from] = '1';
    take(2, KRITNAMON_RECEIVE, 0, text, length);
}

/* A ramp played with floats: within its time, at its end, overdue, and not at all. */
static void played_command(void)
{
    const struct kritnamon_calibration motor = {0.5f, 1.0f}, turned = {1.0f, 0.5f};
    uint8_t ramp[KRITNAMON_COMMAND_SIZE];
    int64_t left;
    float drive;

    CHECK(kritnamon_write_command(3, KRITNAMON_RAMP, 1000, 0, kritnamon_gain_bits(1.0f), ramp, sizeof ramp) == KRITNAMON_DONE);
    CHECK(kritnamon_play_motor(ramp, sizeof ramp, 250, motor, &left, &drive) == KRITNAMON_DONE && left == 750 && drive == 0.625f);
    CHECK(kritnamon_play_motor(ramp, sizeof ramp, 1000, motor, &left, &drive) == KRITNAMON_DONE && left == 0 && drive == 0.0f);
    CHECK(kritnamon_play_motor(ramp, sizeof ramp, 1250, motor, &left, &drive) == KRITNAMON_DONE && left == -250 && drive == 0.0f);
    left = 1;
    drive = 1.0f;
    CHECK(kritnamon_play_motor(ramp, sizeof ramp, 250, turned, &left, &drive) == KRITNAMON_BAD_CALIBRATION);
    CHECK(left == 0 && kritnamon_gain_bits(drive) == 0);
}

/* ---- The stack. */

#define STACK_MOST 2048u /* as kritnamon.h has it */
#define PATTERN 0xc3

static uint8_t stack[1 << 16];
static ucontext_t here, there;

/* The deepest calls: logs of 1,024 sent, taken, gathered and written. */
static void long_logs(void)
{
    uint8_t command[KRITNAMON_COMMAND_SIZE];
    const uint32_t append[] = {KRITNAMON_APPEND, 1, 1, 2, 0, 0, 0, KRITNAMON_PLACES};

    stop(1, command);
    elect(1, 2, 3);
    propose(1, command);
    send_to(1, 3);
    while (propose(1, command) < KRITNAMON_PLACES) {
    }
    send_to(1, 2);
    elect(3, 2, 4);
    CHECK(kritnamon_number(states[3] + KRITNAMON_STATE_LENGTH) == KRITNAMON_PLACES);
    CHECK(KRITNAMON_OUTCOME(kritnamon_write_message(append, KRITNAMON_MESSAGE_NUMBERS, row(1, 1), KRITNAMON_PLACES * KRITNAMON_ROW_SIZE,
                                                    out, sizeof out)) == KRITNAMON_DONE);
}

/* Makes the calls on a stack of our own. */
static void make_calls(void)
{
    CHECK(getcontext(&there) == 0);
    there.uc_stack.ss_sp = stack;
    there.uc_stack.ss_size = sizeof stack;
    there.uc_link = &here;
    makecontext(&there, long_logs, 0);
    CHECK(swapcontext(&here, &there) == 0);
}

/* The stack is filled with a pattern before; what is left of it tells how deep the calls went. */
static void stack_use(void)
{
    size_t left = 0;

    memset(stack, PATTERN, sizeof stack);
    make_calls();
    while (stack[left] == PATTERN) {
        left++;
    }
    CHECK(sizeof stack - left < STACK_MOST);
}

static const struct {
    const char *name;
    void (*check)(void);
} checks[] = {
    {"version", version},
    {"numbers", numbers},
    {"outcomes", outcomes},
    {"replaced-proposal", replaced_proposal},
    {"repeated-proposal", repeated_proposal},
    {"equal-proposals", equal_proposals},
    {"kept-parts", kept_parts},
    {"short-command", short_command},
    {"empty-hub", empty_hub},
    {"carried-over", carried_over},
    {"damaged-message", damaged_message},
    {"played-command", played_command},
    {"stack-use", stack_use},
};

int main(int count, char **words)
{
    for (size_t i = 0; i < sizeof checks / sizeof checks[0]; i++) {
        if (count == 2 && strcmp(words[1], checks[i].name) == 0) {
            checks[i].check();
            return 0;
        }
    }
    fail("no such check", __LINE__);
    return 1;
}
