/* Kritnamon: the proved core of a bedside alarm's hub.
 *
 * Three, five or seven hubs keep one log of motor commands. This library is one hub's step: from the
 * hub's state and one event to the next state, an outcome and at most one message. Beside it there
 * are the reading and writing of commands and messages, what a hub reports, and what a motor is driven
 * at while a command is played. README.md has the words, docs/RULES.md the rules, docs/STORAGE.md what
 * has to be stored; "The step" below says what firmware does with it all, and examples/hub.c shows it.
 *
 * The library has no state of its own, allocates nothing, reads no clock, does no input or output,
 * and never stops half-way. The same arguments give the same answer and leave the same bytes. Of
 * the C library it needs `memset` and nothing else. A call takes less than 2,048 bytes of stack. A hub
 * lends its state and an output, 86,072 bytes together, and the text that it has received.
 *
 * Nothing is asked of the numbers and bytes that are handed in: any of them get an answer. A refusal,
 * which is every outcome but KRITNAMON_DONE, leaves every lent byte and number as it was, with two
 * exceptions: KRITNAMON_STALE leaves the state and may still write a reply to `out`, a vote-no for a
 * vote-request or an append-no for an append; and kritnamon_play puts 0 into both of its numbers.
 *
 * What C itself asks is the caller's to keep:
 *   - A pointer is good for as many elements as the length beside it says. It is never null, not
 *     even with length 0, where any other pointer will do.
 *   - A pointer to uint32_t or int64_t is aligned as C has it.
 *   - What is lent for writing overlaps nothing else that is lent with it. Until the call returns,
 *     nobody else (a thread, an interrupt, a device) writes what is lent, or reads what is lent for
 *     writing.
 *   - kritnamon_play works in float: it is called with floats rounded to the nearest and kept when they
 *     are small (subnormal), as C begins; not in a mode that rounds another way or flushes to zero.
 * Apart from that all functions may be called at any time, from any thread, also at the same time.
 */
#ifndef KRITNAMON_H
#define KRITNAMON_H

#include <stddef.h>
#include <stdint.h>

#ifdef __cplusplus
extern "C" {
#endif

/* ---- Version: 10,000 for each major version, 100 for each minor one, 1 for each patch. */

#define KRITNAMON_VERSION 30100u  /* 3.1.0 */

/* The version of the library that was linked. Firmware compares it with KRITNAMON_VERSION, that of
 * the header, once when it starts. Proved: kritnamon_version in crates/kritnamon. */
uint32_t kritnamon_version(void);

/* Since 3.0.0 an answer has the place of a wrong byte beside its outcome (KRITNAMON_WRONG_AT): firmware
 * that was built with an older header reads another outcome where a message is damaged, and is to be
 * built again. States and texts are those of 2.0.0. Since 3.1.0 there is kritnamon_play, with three
 * outcomes of its own: firmware that has given 14 to 16 a meaning beside these takes other numbers. */

/* ---- Outcomes. They are tested in this order; the first that applies is given. */

#define KRITNAMON_DONE             0u  /* done */
#define KRITNAMON_NOT_KNOWN        1u  /* n not 3, 5 or 7, own number not in 1..n, or no such event */
#define KRITNAMON_BAD_STATE        2u  /* state bytes not of the layout's length, or state not legal */
#define KRITNAMON_SHORT_OUTPUT     3u  /* what is lent for the answer is too short */
#define KRITNAMON_BAD_MESSAGE      4u  /* message not legal, or its text too long */
#define KRITNAMON_NOT_ADDRESSED    5u  /* message from a number above n or the hub's own, or to another */
#define KRITNAMON_STALE            6u  /* message of a term below the hub's, or vote-request at its term */
#define KRITNAMON_CONTRADICTING    7u  /* a message of the hub's term that no hub of its group sends it */
#define KRITNAMON_WRONG_ROLE       8u  /* start at a leader; propose or send at another role */
#define KRITNAMON_NO_TERM_LEFT     9u  /* start at the last term */
#define KRITNAMON_BAD_COMMAND     10u  /* command not 16 bytes or not legal; propose: also one that is
                                          shorter than KRITNAMON_FELT_LEAST and no stop */
#define KRITNAMON_LOG_FULL        11u  /* propose at a full log */
#define KRITNAMON_OUT_OF_RANGE    12u  /* send to a number outside 1..n or to itself, or prev above the
                                          log's length; kritnamon_reported: no such place is reported */
#define KRITNAMON_NOTHING_NEW     13u  /* message of the hub's term that changes nothing, not answered */
#define KRITNAMON_NOT_PLAYABLE    14u  /* kritnamon_play: not 16 bytes, or no legal command */
#define KRITNAMON_BAD_CALIBRATION 15u  /* kritnamon_play: no gains, or floor above ceiling */
#define KRITNAMON_BAD_ELAPSED     16u  /* kritnamon_play: elapsed not 0 to KRITNAMON_ELAPSED_MOST */

/* What they say of a running home, where kritnamon_step gives them:
 *
 *   DONE                        The state is to be stored, then the message sent, if there is one.
 *   STALE, NOTHING_NEW          Normal: messages come late and twice. A reply that STALE has written
 *                               is to be sent.
 *   WRONG_ROLE                  Normal. Propose, send: the hub doesn't lead, or no longer; the
 *                               command is to be offered to the one that does, the hub whose append
 *                               was taken last. Start: it leads, and needs no election.
 *   LOG_FULL, NO_TERM_LEFT      The group has served its night; a fresh one is to be started.
 *   NOT_ADDRESSED               Normal where all hubs hear all messages. Elsewhere it went astray.
 *   BAD_MESSAGE, CONTRADICTING  No hub of this group wrote this: it was damaged on its way, or is a
 *                               stranger's. To be dropped and counted. KRITNAMON_WRONG_AT tells where a
 *                               BAD_MESSAGE is wrong.
 *   NOT_KNOWN, SHORT_OUTPUT, BAD_COMMAND, OUT_OF_RANGE
 *                               The caller's fault.
 *   BAD_STATE                   These are not the bytes of this hub as its last call left them, or
 *                               n or own is another. Take KRITNAMON_RESTART on the bytes stored
 *                               last. If that is refused too, the storage is at fault, and the hub
 *                               has to stay out for the night: cleared bytes in their place would
 *                               forget what it promised to others. The group goes on without it as
 *                               long as a majority is left, 2 hubs of 3, 3 of 5, 4 of 7; with two
 *                               of three out nothing more is chosen that night.
 */

/* ---- Commands: 16 bytes, big-endian: motor (2), kind (2), duration in ms, signed (4), a (4), b (4). */

#define KRITNAMON_COMMAND_SIZE 16u

/* Kinds. A legal command has a motor of 1 to 64, and one of these kinds with its numbers. */
#define KRITNAMON_STOP 0u  /* duration, a and b zero */
#define KRITNAMON_BUZZ 1u  /* duration 1 to 600,000, a the gain, b zero */
#define KRITNAMON_RAMP 2u  /* duration 1 to 600,000, a the gain at its start, b at its end */

/* The least duration, in ms, of a buzz or ramp that is proposed: in less a motor doesn't spin up.
 * KRITNAMON_PROPOSE refuses a shorter one with KRITNAMON_BAD_COMMAND, and nothing else does. It is
 * legal all the same: one that a state or a message holds, from a hub of version 1.0.0 say, is kept,
 * sent and reported, and any is read and written, as other commands are. */
#define KRITNAMON_FELT_LEAST 20u

/* Where a command's numbers stand, and how many there are. A gain is given by the bits of its float,
 * as a number at most 3f800000: 0 to 1.0, and neither -0 nor NaN. kritnamon_inline.h converts. */
#define KRITNAMON_MOTOR    0u
#define KRITNAMON_KIND     1u
#define KRITNAMON_DURATION 2u
#define KRITNAMON_A        3u
#define KRITNAMON_B        4u
#define KRITNAMON_COMMAND_NUMBERS 5u

/* Reads the command in `bytes` into the first five of `numbers`; those behind them stay.
 * Returns KRITNAMON_SHORT_OUTPUT if count is below 5, then KRITNAMON_BAD_COMMAND if the bytes are not
 * 16 or no legal command; either leaves all numbers. Else KRITNAMON_DONE.
 * Proved: kritnamon_read_command in crates/kritnamon. */
uint32_t kritnamon_read_command(const uint8_t *bytes, size_t length, uint32_t *numbers, size_t count);

/* Writes the 16 bytes of a command at the start of `out`; the bytes behind them stay.
 * Returns KRITNAMON_SHORT_OUTPUT if length is below 16, then KRITNAMON_BAD_COMMAND if the command is
 * not legal; either leaves all bytes. Else KRITNAMON_DONE. A duration below zero is never legal.
 * Proved: kritnamon_write_command in crates/kritnamon. */
uint32_t kritnamon_write_command(uint32_t motor, uint32_t kind, int32_t duration, uint32_t a, uint32_t b,
                                 uint8_t *out, size_t length);

/* ---- Playing: the time left of a command and the drive of its motor, so long after it began.
 *
 * The library has no clock. While a command lasts firmware asks, every few ms or whenever the motor can
 * take another drive, with the time since the command began, and is told the same for the same time. A
 * command that comes late, at a hub that was without power say, is asked for like any other: one that
 * is over drives nothing, and its time left, below zero, is by how much it is overdue.
 *
 * A motor's calibration is two gains, its floor and its ceiling. The level of a buzz is its gain;
 * that of a ramp is from + (to - from) * (elapsed / duration), which begins at from, lies between
 * from and to, and does not turn back. Where the level is above 0 the drive is floor + (ceiling -
 * floor) * level; at level 0, at the end of the duration and past it, and for a stop it is 0. Each
 * of these operations is one of float, rounded once, in this order, so that all hubs drive alike to
 * the last bit. The drive is never below the floor where the level is above 0; its rounding may lift
 * it above the ceiling, and never above 1.0. */

#define KRITNAMON_ELAPSED_MOST 2147483647u  /* ms */

/* Plays the command in `bytes`, `elapsed` ms after it began.
 *   floor, ceiling  the calibration, each by the bits of its float, as a command's gains
 *   left            the time left in ms, which is duration - elapsed: below zero the command is overdue by
 *                   that much, which is no refusal
 *   drive           the bits of the drive: those of a gain, whatever comes in
 * Returns KRITNAMON_NOT_PLAYABLE if the bytes are not 16 or no legal command, then
 * KRITNAMON_BAD_CALIBRATION if floor or ceiling is no gain or floor is above ceiling, then
 * KRITNAMON_BAD_ELAPSED if elapsed is not 0 to 2,147,483,647; each puts 0 into `left` and 0, the bits of
 * +0, into `drive`. Else KRITNAMON_DONE. A command shorter than KRITNAMON_FELT_LEAST is played like
 * any other. kritnamon_inline.h has the same with floats. Proved: kritnamon_play in crates/kritnamon. */
uint32_t kritnamon_play(const uint8_t *bytes, size_t length, int64_t elapsed, uint32_t floor,
                        uint32_t ceiling, int64_t *left, uint32_t *drive);

/* ---- Messages: lines `key=value`, each ended by LF, at most 65,536 bytes. */

#define KRITNAMON_TEXT_MOST 65536u

/* Types, in the order of the rules. */
#define KRITNAMON_VOTE_REQUEST 1u  /* own numbers: last, ballot */
#define KRITNAMON_VOTE_YES     2u  /* own numbers: last, ballot (0 from an empty log); entries */
#define KRITNAMON_VOTE_NO      3u
#define KRITNAMON_APPEND       4u  /* own numbers: prev, prevterm, chosen; entries */
#define KRITNAMON_APPEND_YES   5u  /* own number: end */
#define KRITNAMON_APPEND_NO    6u  /* own number: length */

/* The "to" of a vote-request: all other hubs. */
#define KRITNAMON_ALL 0u

/* Where a message's numbers stand, and how many there are. A number that the type does not have is 0. */
#define KRITNAMON_TYPE   0u
#define KRITNAMON_TERM   1u
#define KRITNAMON_FROM   2u
#define KRITNAMON_TO     3u
#define KRITNAMON_OWN_1  4u
#define KRITNAMON_OWN_2  5u
#define KRITNAMON_OWN_3  6u
#define KRITNAMON_COUNT  7u  /* of the entries */
#define KRITNAMON_MESSAGE_NUMBERS 8u

/* An answer of 64 bits has up to three numbers, each with bits of its own: the outcome; the place of the
 * first wrong byte of a text, which is 0 with every outcome but KRITNAMON_BAD_MESSAGE; and a second
 * number, which each function below names. Proved: each comes back as it was put in (parts_back in
 * crates/kinds; answer_parts in crates/promise, of a step). */
#define KRITNAMON_OUTCOME(answer)  ((uint32_t)((answer) & 0xffu))
#define KRITNAMON_WRONG_AT(answer) ((uint32_t)((answer) >> 8) & 0xffffffu)
#define KRITNAMON_SECOND(answer)   ((uint32_t)((answer) >> 32))

/* Where a message is wrong. A text begins a legal message if some legal message's text starts with it.
 * KRITNAMON_WRONG_AT, an offset from 0, is that of the first byte with which the text so far begins
 * none: the bytes before it are a good beginning, and with this one no message goes on so. A text that
 * ends too soon is wrong at its length, one with more behind a whole message at the first byte behind
 * it, one of more than KRITNAMON_TEXT_MOST bytes at KRITNAMON_TEXT_MOST, whatever it holds. So it is at
 * most the text's length, and `text[KRITNAMON_WRONG_AT(answer)]` is the byte to look at if it is less.
 * It tells what a tester has to look at, and a hub nothing: to firmware a damaged message is a
 * damaged message. */

/* Reads the message in `text` into the first eight of `numbers`; those behind them stay.
 * KRITNAMON_OUTCOME of what is returned is KRITNAMON_SHORT_OUTPUT if count is below 8, then
 * KRITNAMON_BAD_MESSAGE, with KRITNAMON_WRONG_AT, if the text is not that of a legal message; either
 * leaves all numbers, with 0 as KRITNAMON_SECOND. Else it is KRITNAMON_DONE, and KRITNAMON_SECOND is the
 * offset in `text` at which the entry lines begin; they go to its end, and without entry lines the
 * offset is the text's length. Proved: kritnamon_read_message in crates/kritnamon. */
uint64_t kritnamon_read_message(const uint8_t *text, size_t length, uint32_t *numbers, size_t count);

/* An entry as a row: its term (4, big-endian) and its command (16). */
#define KRITNAMON_ROW_SIZE 20u

/* Writes the text of a message at the start of `out`; the bytes behind it stay. A hub doesn't need it,
 * for kritnamon_step writes what a hub has to say: it is for test benches and tools.
 *   numbers  eight, as kritnamon_read_message gives them
 *   rows     as many rows as KRITNAMON_COUNT says, and no other bytes
 *   out      at least KRITNAMON_TEXT_MOST bytes
 * KRITNAMON_OUTCOME of what is returned is KRITNAMON_SHORT_OUTPUT if out_length is below 65,536, then
 * KRITNAMON_BAD_MESSAGE if count is not 8, the type is none of the six, a number that the type does
 * not have is not 0, rows_length is not that of the rows, or the message is not legal; either leaves
 * all bytes, with 0 as KRITNAMON_SECOND and as KRITNAMON_WRONG_AT. Else it is KRITNAMON_DONE, and
 * KRITNAMON_SECOND is the text's length. Proved: kritnamon_write_message in crates/kritnamon. */
uint64_t kritnamon_write_message(const uint32_t *numbers, size_t count, const uint8_t *rows,
                                 size_t rows_length, uint8_t *out, size_t out_length);

/* ---- States: bytes that the caller keeps and lends. A fresh hub's are all zero. docs/LAYOUT.md says
 * what they hold, and which are legal. */

#define KRITNAMON_STATE_SIZE 20536u
#define KRITNAMON_PLACES     1024u  /* of the log: as many commands in a night */

/* A state of the versions before 2.0.0 has 5,176 bytes, for 256 places. All that it holds stands where it
 * stands now: with zero bytes behind it, up to KRITNAMON_STATE_SIZE, it is the same state here. A hub of
 * those versions refuses with KRITNAMON_BAD_MESSAGE what tells of a place above 256, so all hubs of a
 * group are to have one version before a log grows beyond that. */

/* Where in a state firmware may look, to read and never to write. Numbers have four bytes, big-endian;
 * the role is one byte. */
#define KRITNAMON_STATE_TERM       0u
#define KRITNAMON_STATE_LENGTH    12u  /* of the log */
#define KRITNAMON_STATE_ROLE      20u
#define KRITNAMON_STATE_CONFIRMED 28u  /* at a leader: seven numbers, the length that each of hubs 1
                                          to 7 has confirmed */
#define KRITNAMON_STATE_ROWS      56u  /* the log: a row for each place, place 1 first */

#define KRITNAMON_FOLLOWER  0u
#define KRITNAMON_CANDIDATE 1u
#define KRITNAMON_LEADER    2u

/* The kept parts of a state, which outlive a loss of power: its first KRITNAMON_STATE_KEPT bytes, and
 * the rows of the log, as many as KRITNAMON_STATE_LENGTH says. KRITNAMON_RESTART, kritnamon_chosen
 * and kritnamon_reported look at nothing else; the other bytes, which have to be there, may hold
 * anything. A state whose kept parts are stored already need not be stored again; the first
 * KRITNAMON_STATE_KEPT bytes tell, since the log never changes without its length or the ballot. */
#define KRITNAMON_STATE_KEPT 16u

/* The numbers KRITNAMON_STATE_SIZE, KRITNAMON_PLACES and KRITNAMON_TEXT_MOST, as this library has
 * them: a caller may compare. The last is also the least size of an output for a message. */
size_t kritnamon_state_size(void);
uint32_t kritnamon_places(void);
size_t kritnamon_output_size(void);

/* How many commands the hub of this state reports: KRITNAMON_SECOND of what is returned, with
 * KRITNAMON_DONE as KRITNAMON_OUTCOME; or KRITNAMON_BAD_STATE and 0 if length is not
 * KRITNAMON_STATE_SIZE or the kept parts are not legal. Proved: kritnamon_chosen in crates/kritnamon. */
uint64_t kritnamon_chosen(const uint8_t *state, size_t length);

/* Writes the 16 bytes of the command that the hub reports at a place, counted from 1, at the start of
 * `out`; the bytes behind them stay. Returns KRITNAMON_BAD_STATE as kritnamon_chosen does, then
 * KRITNAMON_SHORT_OUTPUT if out_length is below 16, then KRITNAMON_OUT_OF_RANGE if the hub reports
 * nothing at that place; each leaves all bytes. Else KRITNAMON_DONE.
 * Proved: kritnamon_reported in crates/kritnamon. */
uint32_t kritnamon_reported(const uint8_t *state, size_t length, uint32_t place, uint8_t *out,
                            size_t out_length);

/* ---- The step: one event at one hub.
 *
 * To begin a night, clear KRITNAMON_STATE_SIZE bytes and store them. That is done once for each hub of
 * the group; each hub has a number of its own.
 *
 * For each event, in this order:
 *   1. Call kritnamon_step.
 *   2. On KRITNAMON_DONE store the state, so that its kept parts are there after a loss of power.
 *   3. If a message was written, whatever the outcome, send it to the hub that it names, KRITNAMON_TO of
 *      kritnamon_read_message; KRITNAMON_ALL is every other hub of the group. It may be lost, come
 *      late, come twice, or overtake others.
 *   4. Play the commands at the places that kritnamon_chosen newly counts, in order, each as
 *      kritnamon_reported gives it (kritnamon_play tells the drive); then store, beside the state, how
 *      many places were played. What is reported at a place is so for good: no hub of the group ever
 *      reports another command there.
 * That a message leaves only after its state is stored is what the home's safety rests on: a message is
 * a promise, and a hub that forgot one could undo what others have played. If storing fails, send
 * nothing, play nothing, and take KRITNAMON_RESTART on the bytes stored last.
 *
 * After a loss of power, take KRITNAMON_RESTART on the bytes stored last, before any other event, and
 * go on playing behind the places that are stored as played. A command may so be played again, and is
 * never left out.
 *
 * The safety rests also on what is received: each text was written by a hub of this group, in this
 * night, and is as it was written. A text has neither a checksum nor the name of its group, so where
 * messages can be damaged, forged, or kept from one night to the next, firmware adds what tells.
 *
 * When to do what is left to firmware, which alone has a clock. Too early, too late or too often may
 * cost time, and never agreement.
 *   - A hub that has heard of no leader for a while takes KRITNAMON_START. It has heard of one when it
 *     took an append (KRITNAMON_DONE, whatever it answered), or gave its vote (it wrote a vote-yes).
 *     Nothing else counts: a hub that asks and can't win would keep the others from asking. The while
 *     should differ from hub to hub and from time to time, or hubs that ask at the same moment keep
 *     each other from a majority.
 *   - A hub that is asked at a term above its own gives its vote if its log is empty, whatever ballot
 *     it has reached, and else if its ballot is not above the asker's. So one that led and stored
 *     nothing keeps nobody from being elected.
 *   - A leader (KRITNAMON_STATE_ROLE says so) takes KRITNAMON_SEND for each peer, again and again, also
 *     when there is nothing new: it tells the peers that it leads, and what is chosen. A good prev is
 *     the length that the peer has confirmed, KRITNAMON_STATE_CONFIRMED; 0 is always good too. To
 *     take a message of a higher term ends its lead.
 *   - A majority whose hubs hear each other gets there, whatever legal states they are in, if one of
 *     them asks that does not lead, its term is not below any of theirs, and not the last, its ballot is
 *     not below that of any that holds an entry, and each of their logs has a place left. That one
 *     takes KRITNAMON_START, each of the others its message, and it each answer; then
 *     KRITNAMON_PROPOSE of a command that may be proposed, KRITNAMON_SEND with prev 0 for each, each of
 *     them that, and it each answer. With nothing else between, each of these calls gives
 *     KRITNAMON_DONE, and after the last the hub reports the command: 7 calls for 2 hubs of 3, 12 for 3
 *     of 5, 17 for 4 of 7. The others report it once they take an append sent after that. A hub whose
 *     term is too low is answered with the other's term, and may ask again above that.
 *   - A log is never shortened. A peer whose log is longer than the leader's answers
 *     KRITNAMON_APPEND_NO with its length, and takes the leader's log once that is as long. A leader
 *     that has nothing to propose may propose a stop of a motor that no bed has.
 *
 * What became of a proposal. One that was taken stands at the place that KRITNAMON_STATE_LENGTH counts
 * after the call, with the hub's term: remember the place and the command.
 *   - Once kritnamon_chosen counts that place, here or at any other hub, it is settled. Either
 *     kritnamon_reported gives the same 16 bytes, and the command was chosen; or it gives others, and
 *     that proposal is lost for good and may be offered again. Compare the bytes and not the term of
 *     the row: a later leader that takes a command over puts it there with its own term.
 *   - Until then it may still be chosen, also when this hub no longer leads, and even when its own log
 *     has another command at that place. Offered again meanwhile, it may be chosen at both places, and
 *     then it is played twice.
 *   - Commands are bytes and nothing more: one place may answer two hubs that offered equal ones.
 */

/* Events. 0 is none, so that a call whose numbers were never filled in is refused. */
#define KRITNAMON_START   1u  /* follower or candidate: asks all hubs for their votes at the next term */
#define KRITNAMON_PROPOSE 2u  /* leader: adds the command in `input`, a stop or one of at least
                                 KRITNAMON_FELT_LEAST ms, to its log; writes no message */
#define KRITNAMON_SEND    3u  /* leader: writes an append for peer `a` with all entries behind prev `b`,
                                 0 to the log's length */
#define KRITNAMON_RESTART 4u  /* any: follower again, as after a loss of power; of the state only the
                                 kept parts are looked at */
#define KRITNAMON_RECEIVE 5u  /* any: takes the message in `input` */

/* Takes one event at hub `own` of a group of n hubs.
 *   n, own  3, 5 or 7; 1 to n. The same at every call for this state
 *   a, b    the numbers of KRITNAMON_SEND; other events don't look at them
 *   state   KRITNAMON_STATE_SIZE bytes; the next state takes its place
 *   input   a command's 16 bytes for KRITNAMON_PROPOSE, a text for KRITNAMON_RECEIVE; other events don't
 *           look at it, and its length may be 0 (but the pointer is not null)
 *   out     at least KRITNAMON_TEXT_MOST bytes, whatever the event; a message is written at its start
 * KRITNAMON_OUTCOME of what is returned is one of the outcomes above, KRITNAMON_SECOND the length of the
 * message, or 0 if none was written, KRITNAMON_WRONG_AT the place of the first wrong byte of a text that
 * is refused with KRITNAMON_BAD_MESSAGE. Every outcome but KRITNAMON_DONE leaves the state, and so does
 * KRITNAMON_SEND. The bytes of `out` behind a message stay, and all of them without one. Of the refusals
 * KRITNAMON_STALE alone writes: a vote-no for a vote-request, an append-no for an append. They tell a
 * hub that fell behind the present term, and are to be sent as any other message.
 * Proved: kritnamon_step in crates/kritnamon. */
uint64_t kritnamon_step(uint32_t n, uint32_t own, uint32_t event, uint32_t a, uint32_t b,
                        uint8_t *state, size_t state_length, const uint8_t *input, size_t input_length,
                        uint8_t *out, size_t out_length);

#ifdef __cplusplus
}
#endif

#endif
