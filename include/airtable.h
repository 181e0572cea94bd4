/*
 * airtable.h: the rule engine for C. Build the library with `rt lib` in crates/capi and link crates/capi/out/libcapi.a.
 *
 * The station has i inputs, named a, b, c, d, and o outputs, named p, q, r, s; i and o are 0 to 4. In each step the
 * outside sets the inputs and the station then sets the outputs. An input number has bit 0 for a, bit 1 for b and so
 * on; an output number has bit 0 for p. The letter of a step is one byte: input + 2^i * output.
 *
 * First use: can the station bring about a rule, and what does it do on input 1? The first call lends nothing, so it is
 * refused and tells how many states the rule has; the second lends just what they need.
 *
 *     const uint8_t *rule = (const uint8_t *)"pUa", *condition = (const uint8_t *)"a";
 *     uint8_t can, reached = 0, row, output;
 *     size_t n, round, place, state = 0;
 *     if (airtable_solve_rule(1, 1, AIRTABLE_FAIR, rule, 3, condition, 1, NULL, 0, NULL, 0, NULL, 0, NULL, 0,
 *             &can, &n, &round, &place) != AIRTABLE_REFUSED_BUFFER)
 *         return 1;                                                                // refused for another reason
 *     size_t moves_size = AIRTABLE_MOVES_SIZE(1, 1, n), marks_size = AIRTABLE_MARKS_SIZE(1, 1, n); // i = 1, o = 1
 *     size_t station_size = AIRTABLE_STATION_SIZE(1, 1, n), outside_size = AIRTABLE_OUTSIDE_SIZE(1, 1, n);
 *     uint8_t *moves = malloc(moves_size), *marks = malloc(marks_size);
 *     uint8_t *station = malloc(station_size), *outside = malloc(outside_size);
 *     if (moves && marks && station && outside
 *         && airtable_solve_rule(1, 1, AIRTABLE_FAIR, rule, 3, condition, 1,
 *             moves, moves_size, marks, marks_size, station, station_size, outside, outside_size,
 *             &can, &n, &round, &place) == 0 && can
 *         && airtable_follow(1, 1, n, moves, moves_size, marks, marks_size, station, station_size,
 *             1, &state, &reached, &row, &output, &place) == 0 && row)
 *         printf("output %u, goal %s\n", output, reached ? "entered" : "still ahead");
 *
 * It prints "output 0, goal entered". examples/follow.c is a whole program.
 *
 * What a call returns. 0: it was served. Any other number: it was refused, for the first of these reasons that holds
 * in the order that stands at the call. `place` is the place or index where one is named here, and 0 in all other
 * cases, also when the call was served. The numbers have names, AIRTABLE_REFUSED_.. below.
 *
 *      1  i or o is above 4
 *      2  the rule or the condition has more than 255 bytes
 *      3  a buffer is too short for n states; the rule call then writes this number to n
 *      4  the rule's text is bad; place: the number of bytes that are still a good beginning
 *      5  the rule has more than 64 names, constants and operators together
 *      6  the rule has more than 5 temporal operators (X N F G U R)
 *      7  the condition's text is bad; place: as for 4
 *      8  the condition has more than 64 names, constants and operators together
 *      9  the rule's automaton has more than 128 states
 *     10  n is 0 or above 128
 *     11  a move leads to no state; place: its index in `moves`
 *     12  the start or the state is n or more
 *     13  the mask has a bit that stands for no input, or the input or a letter is too large; place: for a letter its
 *         index in `letters`
 *     15  no input number meets the condition, or the mask is 0: the outside could not keep its promise
 *
 * What a call writes. Every single value (can, n, round, place, satisfied, row, output) is written by every call: on a
 * refusal it is 0, with two exceptions: `place`; and `n` with refusal 3 of a rule, which is the number of states that
 * the buffers must have room for. `state` and `reached` change only when a step is taken. A refused call leaves every
 * byte of the buffers as it was. A served one writes n states' share of those that it is lent for writing, and no byte
 * beyond.
 *
 * What a caller owes. A buffer is a pointer and its length in bytes, and all those bytes must be there, readable and,
 * unless the pointer is const, writable. A length of 0 may come with any pointer, also null, since nothing is then
 * read or written through it. A pointer to a single value must not be null. What a call may write must not overlap
 * anything else that the same call gets; what it only reads may overlap. Texts need no 0 byte at their end. Nobody
 * else may change these bytes during the call. Given that, every value of every argument is served or refused.
 *
 * A call keeps nothing and allocates nothing, so several threads may call at once, each with its own memory. The
 * deepest texts, with 127 parentheses inside one another, take just under 180 KB of stack, and ordinary ones less
 * than 40 KB. The library is for x86-64 Linux. Of the C library it needs memcpy and memset and nothing else.
 */
#ifndef AIRTABLE_H
#define AIRTABLE_H

#include <stddef.h>
#include <stdint.h>

#ifdef __cplusplus
extern "C" {
#endif

/*
 * The version of this interface. It is 0 before the first release, and until then anything here may change without a
 * new number. From 1 on it grows by 1 with every change after which a program written for the version before might not
 * compile or might get other answers.
 */
#define AIRTABLE_VERSION 0

/* The modes: what the outside promises of the condition. Every number but 1 means fair. */
#define AIRTABLE_FAIR 0   /* it holds again and again */
#define AIRTABLE_STABLE 1 /* from some step on it holds always */

/* What a call returns: served, or the number of the refusal in the table above. 14 is the program's alone. */
#define AIRTABLE_SERVED 0
#define AIRTABLE_REFUSED_ALPHABET 1
#define AIRTABLE_REFUSED_TEXT_LENGTH 2
#define AIRTABLE_REFUSED_BUFFER 3
#define AIRTABLE_REFUSED_RULE_TEXT 4
#define AIRTABLE_REFUSED_RULE_NODES 5
#define AIRTABLE_REFUSED_RULE_OPERATORS 6
#define AIRTABLE_REFUSED_CONDITION_TEXT 7
#define AIRTABLE_REFUSED_CONDITION_NODES 8
#define AIRTABLE_REFUSED_STATE_COUNT 9
#define AIRTABLE_REFUSED_GIVEN_COUNT 10
#define AIRTABLE_REFUSED_MOVE 11
#define AIRTABLE_REFUSED_STATE 12
#define AIRTABLE_REFUSED_VALUE 13
#define AIRTABLE_REFUSED_UNSATISFIABLE 15

/* The most states that an automaton has. */
#define AIRTABLE_STATES 128

/*
 * The bytes of each buffer for n states, for i and o from 0 to 4 and n from 0 to AIRTABLE_STATES; constant where these
 * are. With AIRTABLE_STATES for n they do for every call: so one who wants fixed arrays need not ask for n.
 */
#define AIRTABLE_MOVES_SIZE(i, o, n) ((size_t)(n) << ((i) + (o)))
#define AIRTABLE_MARKS_SIZE(i, o, n) ((size_t)(n))
#define AIRTABLE_STATION_SIZE(i, o, n) ((size_t)(n) << (i))
#define AIRTABLE_OUTSIDE_SIZE(i, o, n) ((size_t)(n))

/*
 * Solves the game of a rule. Refusals in this order: 1, 2, 4, 5, 6, 7, 8, 15, 9, 3.
 *
 * Lend at least n * 2^(i+o) bytes for moves, n for marks, n * 2^i for station and n for outside (the sizes above); n is
 * the number of the rule's states. Where one of them is shorter the call is refused by 3 and tells n. Every rule has at
 * least one state, so a call with four lengths of 0 is never served: it is the way to ask for n. When served:
 *   can      1 if the station wins from state 0, else 0
 *   n        the number of states; they are 0 to n - 1, and state 0 is the start
 *   round    1 to n if can is 1: by the table, every play from state 0 satisfies the rule at the latest with the round-th
 *            step that has the condition (stable: the round-th in a row), and no way of answering, with any memory, does
 *            with less; else 0
 *   moves    byte s * 2^(i+o) + letter: the state after that letter in state s
 *   marks    byte s: 1 if state s is a goal, else 0
 *   station  byte s * 2^i + input: the output to set, the lowest that serves; 255 all over the rows of states that the
 *            outside wins
 *   outside  byte s: the input that keeps the station from its goal, the lowest that serves; 255 for states that the
 *            station wins
 * These bytes, n states' share of each buffer, are all that is written, and every one is determined by the arguments:
 * docs/SPECIFICATION.md, "Tables", says which output and which input serve.
 */
uint8_t airtable_solve_rule(size_t i, size_t o, uint8_t mode,
    const uint8_t *rule, size_t rule_length, const uint8_t *condition, size_t condition_length,
    uint8_t *moves, size_t moves_length, uint8_t *marks, size_t marks_length,
    uint8_t *station, size_t station_length, uint8_t *outside, size_t outside_length,
    uint8_t *can, size_t *n, size_t *round, size_t *place);

/*
 * Solves the game on an automaton of your own, with n states from 1 to 128. Refusals in this order: 1, 10, 3, 12, 11, 13,
 * 15.
 *
 * Give at least n * 2^(i+o) bytes of moves and n of marks (any mark but 0 is a goal), laid out as above; they are only
 * read. Lend at least n * 2^i bytes for station and n for outside; can, round and the two tables are written as above,
 * with `start` for state 0 and "enters a goal" for "satisfies the rule". Bit x of mask says whether input number x has
 * the condition; at least one of its lowest 2^i bits must be set, and none above. A mark on the start has no effect before
 * a step leads back to it.
 */
uint8_t airtable_solve_given(size_t i, size_t o, uint8_t mode, size_t n,
    const uint8_t *moves, size_t moves_length, const uint8_t *marks, size_t marks_length,
    size_t start, uint16_t mask,
    uint8_t *station, size_t station_length, uint8_t *outside, size_t outside_length,
    uint8_t *can, size_t *round, size_t *place);

/*
 * Takes one step by the station's table: the outside has chosen `input`. Refusals in this order: 1, 10, 3, 12, 13, then
 * "no row", 11.
 *
 * Give at least n * 2^(i+o) bytes of moves, n of marks and n * 2^i of station. `state` and `reached` hold the position:
 * at the beginning the start and 0. When the call returns 0:
 *   row 1    a step was taken: output is what to set; state is the next state; reached is 1 if it was not 0 before or
 *            the new state is a goal, else 0
 *   row 0    the table has no output for this state and input: output is 0, and state and reached are as before
 */
uint8_t airtable_follow(size_t i, size_t o, size_t n,
    const uint8_t *moves, size_t moves_length, const uint8_t *marks, size_t marks_length,
    const uint8_t *station, size_t station_length,
    size_t input, size_t *state, uint8_t *reached, uint8_t *row, uint8_t *output, size_t *place);

/*
 * Tries a rule on a list of letters, one a byte, of any length. Refusals in this order: 1, 2, 4, 5, 6, 13.
 *
 * When served, satisfied is 1 if the list satisfies the rule, else 0. The empty list satisfies no rule.
 */
uint8_t airtable_try_rule(size_t i, size_t o, const uint8_t *rule, size_t rule_length,
    const uint8_t *letters, size_t letters_length, uint8_t *satisfied, size_t *place);

#ifdef __cplusplus
}
#endif

#endif
