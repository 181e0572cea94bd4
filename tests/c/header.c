/* Calls the library through include/airtable.h and checks the numbers and bytes that come back. Neighbouring arguments
 * differ in value, contents and length, so that a call whose parameters stand in another order comes to something else.
 * Prints what differs and ends with 1, or says how many values were as expected. Valid as C99 and as C++.
 */
#include <stdio.h>
#include <string.h>
#include "airtable.h"

#if AIRTABLE_VERSION != 0
#error "this test is for the interface before its first release"
#endif

/* Room for the largest buffer, and more. */
enum { ROOM = (AIRTABLE_STATES << 8) + 100 };

/* What each buffer holds before a call. */
enum { OLD_MOVES = 0xA1, OLD_MARKS = 0xB2, OLD_STATION = 0xC3, OLD_OUTSIDE = 0xD4 };

static uint8_t moves[ROOM], marks[ROOM], station[ROOM], outside[ROOM];

/* The single values of all calls. */
static uint8_t can, satisfied, reached, row, output;
static size_t n, round_number, place, state;

static unsigned long checked, differing;

/* Compares one value. */
static void check(int line, const char *what, size_t value, size_t wanted)
{
    checked++;
    if (value != wanted) {
        differing++;
        fprintf(stderr, "tests/c/header.c:%d: %s is %lu, wanted %lu\n", line, what, (unsigned long)value, (unsigned long)wanted);
    }
}

#define CHECK(value, wanted) check(__LINE__, #value, (size_t)(value), (size_t)(wanted))

/* Compares the bytes of a buffer from one index up to another with one value. */
static void check_bytes(int line, const char *what, const uint8_t *bytes, size_t from, size_t to, uint8_t wanted)
{
    while (from < to && bytes[from] == wanted)
        from++;
    check(line, what, from, to);
}

#define CHECK_BYTES(bytes, from, to, wanted) check_bytes(__LINE__, #bytes, bytes, from, to, wanted)

/* Gives every buffer and every value that is only written an old content that no call would leave. */
static void reset(void)
{
    memset(moves, OLD_MOVES, ROOM);
    memset(marks, OLD_MARKS, ROOM);
    memset(station, OLD_STATION, ROOM);
    memset(outside, OLD_OUTSIDE, ROOM);
    can = satisfied = row = output = 0x5A;
    n = round_number = place = 7777;
}

/* The rule call on texts that end in a 0 byte, with more room than it needs, of a different size in each buffer. */
static uint8_t solve(size_t i, size_t o, uint8_t mode, const char *rule, const char *condition)
{
    reset();
    return airtable_solve_rule(i, o, mode,
        (const uint8_t *)rule, strlen(rule), (const uint8_t *)condition, strlen(condition),
        moves, ROOM, marks, ROOM - 1, station, ROOM - 2, outside, ROOM - 3, &can, &n, &round_number, &place);
}

/* The rule call on such texts with no room at all, which asks for n. */
static uint8_t ask(size_t i, size_t o, const char *rule, const char *condition)
{
    reset();
    return airtable_solve_rule(i, o, AIRTABLE_FAIR,
        (const uint8_t *)rule, strlen(rule), (const uint8_t *)condition, strlen(condition),
        NULL, 0, NULL, 0, NULL, 0, NULL, 0, &can, &n, &round_number, &place);
}

/* Play the filler p, and not q, until the studio is ready (a) and goes live (q). State 1 is lost, 3 the goal. */
static const char rule[] = "(p&!q)U(a&q&!p)";
static const uint8_t rule_moves[4][8] = {
    {1, 1, 2, 2, 1, 3, 1, 1}, {1, 1, 1, 1, 1, 1, 1, 1}, {1, 1, 2, 2, 1, 3, 1, 1}, {3, 3, 3, 3, 3, 3, 3, 3}};

/* Everything that the rule call writes: one input, two outputs, four states. */
static void served_rule(void)
{
    CHECK(solve(1, 2, AIRTABLE_FAIR, rule, "a"), AIRTABLE_SERVED);
    CHECK(can, 1);
    CHECK(n, 4);
    CHECK(round_number, 1);
    CHECK(place, 0);
    CHECK(memcmp(moves, rule_moves, sizeof rule_moves), 0);
    CHECK(AIRTABLE_MOVES_SIZE(1, 2, 4), 32);
    CHECK_BYTES(moves, 32, ROOM, OLD_MOVES);
    CHECK_BYTES(marks, 0, 3, 0);
    CHECK(marks[3], 1);
    CHECK(AIRTABLE_MARKS_SIZE(1, 2, 4), 4);
    CHECK_BYTES(marks, 4, ROOM, OLD_MARKS);
    CHECK(memcmp(station, "\1\2\377\377\1\2\0\0", 8), 0);
    CHECK(AIRTABLE_STATION_SIZE(1, 2, 4), 8);
    CHECK_BYTES(station, 8, ROOM, OLD_STATION);
    CHECK(memcmp(outside, "\377\1\377\377", 4), 0);
    CHECK(AIRTABLE_OUTSIDE_SIZE(1, 2, 4), 4);
    CHECK_BYTES(outside, 4, ROOM, OLD_OUTSIDE);
}

/* The sizes are constant where i, o and n are. */
static uint8_t fixed[AIRTABLE_MOVES_SIZE(1, 1, AIRTABLE_STATES) + AIRTABLE_MARKS_SIZE(1, 1, AIRTABLE_STATES)
    + AIRTABLE_STATION_SIZE(1, 1, AIRTABLE_STATES) + AIRTABLE_OUTSIDE_SIZE(1, 1, AIRTABLE_STATES)];

/* The call on a rule for every i and o, `Fp` or `F1` where there is no p, with lengths for so many states, less a byte of
 * the k-th buffer. */
static uint8_t solve_short(size_t i, size_t o, size_t states, size_t k)
{
    reset();
    return airtable_solve_rule(i, o, AIRTABLE_FAIR, (const uint8_t *)(o > 0 ? "Fp" : "F1"), 2, (const uint8_t *)"1", 1,
        moves, AIRTABLE_MOVES_SIZE(i, o, states) - (k == 1), marks, AIRTABLE_MARKS_SIZE(i, o, states) - (k == 2),
        station, AIRTABLE_STATION_SIZE(i, o, states) - (k == 3), outside, AIRTABLE_OUTSIDE_SIZE(i, o, states) - (k == 4),
        &can, &n, &round_number, &place);
}

/* No byte of the buffers has changed. */
static void check_untouched(int line)
{
    check_bytes(line, "moves", moves, 0, ROOM, OLD_MOVES);
    check_bytes(line, "marks", marks, 0, ROOM, OLD_MARKS);
    check_bytes(line, "station", station, 0, ROOM, OLD_STATION);
    check_bytes(line, "outside", outside, 0, ROOM, OLD_OUTSIDE);
}

/* The sizes of the header for n states are enough, and none is too large; with less the call tells n. So it does where
 * nothing is lent. */
static void sizes(void)
{
    size_t i, o, k;
    for (i = 0; i <= 4; i++)
        for (o = 0; o <= 4; o++) {
            size_t states = o > 0 ? 3 : 2;
            reset();
            CHECK(airtable_solve_rule(i, o, AIRTABLE_FAIR, (const uint8_t *)(o > 0 ? "Fp" : "F1"), 2, (const uint8_t *)"1", 1,
                NULL, 0, NULL, 0, NULL, 0, NULL, 0, &can, &n, &round_number, &place), AIRTABLE_REFUSED_BUFFER);
            CHECK(can, 0);
            CHECK(n, states);
            CHECK(round_number, 0);
            CHECK(place, 0);
            for (k = 0; k < 5; k++) {
                CHECK(solve_short(i, o, states, k), k == 0 ? AIRTABLE_SERVED : AIRTABLE_REFUSED_BUFFER);
                CHECK(can, k == 0);
                CHECK(n, states);
                CHECK(round_number, k == 0);
                CHECK(place, 0);
                if (k > 0)
                    check_untouched(__LINE__);
            }
            CHECK(solve_short(i, o, states - 1, 0), AIRTABLE_REFUSED_BUFFER);
            CHECK(n, states);
            CHECK(solve_short(i, o, AIRTABLE_STATES, 0), AIRTABLE_SERVED);
            CHECK(n, states);
        }
    CHECK(sizeof fixed, 128 * 4 + 128 + 128 * 2 + 128);
}

/* 1 is stable, and every other number fair: the rule asks for two closed contacts in a row. */
static void modes(void)
{
    unsigned mode;
    for (mode = 0; mode < 256; mode++) {
        CHECK(solve(1, 1, (uint8_t)mode, "F(a&Xa)", "a"), AIRTABLE_SERVED);
        CHECK(can, mode == AIRTABLE_STABLE);
        CHECK(n, 4);
        CHECK(round_number, mode == AIRTABLE_STABLE ? 2 : 0);
    }
    CHECK(AIRTABLE_FAIR == AIRTABLE_STABLE, 0);
}

/* The round number: any two steps with a closed contact, and any three or two in a row. */
static void rounds(void)
{
    CHECK(solve(1, 1, AIRTABLE_FAIR, "F(a&XFa)", "a"), AIRTABLE_SERVED);
    CHECK(n, 5);
    CHECK(round_number, 2);
    CHECK(solve(1, 1, AIRTABLE_FAIR, "F(a&X(a|F(a&XFa)))", "a"), AIRTABLE_SERVED);
    CHECK(n, 7);
    CHECK(round_number, 3);
    CHECK(solve(1, 1, AIRTABLE_STABLE, "F(a&X(a|F(a&XFa)))", "a"), AIRTABLE_SERVED);
    CHECK(n, 7);
    CHECK(round_number, 2);
    /* By p in the first step two closed contacts in a row do, by !p three. */
    CHECK(solve(1, 1, AIRTABLE_STABLE, "!p&F(a&X(a&Xa))|p&F(a&Xa)", "a"), AIRTABLE_SERVED);
    CHECK(n, 7);
    CHECK(round_number, 2);
    CHECK(memcmp(station, "\1\1", 2), 0);
}

/* What a rule call leaves that is refused by another number than 3. */
static void check_refused(int line, size_t wanted_place)
{
    check(line, "place", place, wanted_place);
    check(line, "can", can, 0);
    check(line, "n", n, 0);
    check(line, "round_number", round_number, 0);
    check_untouched(line);
}

/* A rule call that is refused so with all the room, and again where nothing is lent. */
#define REFUSED(i, o, rule, condition, number, wanted_place)                                   \
    do {                                                                                       \
        CHECK(solve(i, o, 0, rule, condition), number);                                        \
        check_refused(__LINE__, wanted_place);                                                 \
        CHECK(ask(i, o, rule, condition), number);                                             \
        check_refused(__LINE__, wanted_place);                                                 \
    } while (0)

/* The refusals of the rule call, each by its name, and the place; and some at once. */
static void refused_rules(void)
{
    char many[65 + 1], longer[256 + 1];
    memset(many, '!', 64);
    strcpy(many + 64, "1");
    memset(longer, ' ', 256);
    longer[256] = 0;
    REFUSED(5, 2, rule, "a", AIRTABLE_REFUSED_ALPHABET, 0);
    REFUSED(1, 5, rule, "a", AIRTABLE_REFUSED_ALPHABET, 0);
    REFUSED(1, 2, longer, "a", AIRTABLE_REFUSED_TEXT_LENGTH, 0);
    REFUSED(1, 2, rule, longer, AIRTABLE_REFUSED_TEXT_LENGTH, 0);
    REFUSED(1, 2, "a&q&", "a", AIRTABLE_REFUSED_RULE_TEXT, 4);
    REFUSED(1, 2, many, "a", AIRTABLE_REFUSED_RULE_NODES, 0);
    REFUSED(1, 2, "XXXXXXa", "a", AIRTABLE_REFUSED_RULE_OPERATORS, 0);
    REFUSED(1, 2, rule, "a|p", AIRTABLE_REFUSED_CONDITION_TEXT, 2);
    REFUSED(1, 2, rule, many, AIRTABLE_REFUSED_CONDITION_NODES, 0);
    REFUSED(1, 2, rule, "a&!a", AIRTABLE_REFUSED_UNSATISFIABLE, 0);
    REFUSED(0, 2, "Fp", "0", AIRTABLE_REFUSED_UNSATISFIABLE, 0);
    REFUSED(1, 2, "a&q&", "a&!a", AIRTABLE_REFUSED_RULE_TEXT, 4);
    REFUSED(1, 2, rule, "a&!a&", AIRTABLE_REFUSED_CONDITION_TEXT, 5);
    REFUSED(4, 4, "F((a|Gp)&(b|Gq)&(c|Gr)&(d|Gs))", "0", AIRTABLE_REFUSED_UNSATISFIABLE, 0);
    REFUSED(4, 4, "F((a|Gp)&(b|Gq)&(c|Gr)&(d|Gs))", "1", AIRTABLE_REFUSED_STATE_COUNT, 0);
    CHECK(ask(1, 2, rule, "a"), AIRTABLE_REFUSED_BUFFER);
    CHECK(n, 4);
    CHECK(can, 0);
    CHECK(round_number, 0);
    CHECK(place, 0);
    check_untouched(__LINE__);
}

/* An automaton with three states, two inputs and one output. From state 2 the goal, 0, is entered on input 1 by output 1
 * and on input 2 by output 0; the two other inputs lack the condition and stay on output 0. All else goes to 1 for good. */
static const uint8_t given_moves[29] = {
    1, 1, 1, 1, 1, 1, 1, 1, 1, 1, 1, 1, 1, 1, 1, 1, 2, 1, 0, 2, 1, 0, 1, 1, 99, 99, 99, 99, 99};
static const uint8_t given_marks[35] = {3, 0, 0, 44};
enum { GIVEN_MASK = 6, GIVEN_STATES = 3 };

/* The call on that automaton, but for the number of states, the start and the mask. */
static uint8_t solve_given(size_t states, size_t start, uint16_t mask)
{
    reset();
    return airtable_solve_given(2, 1, AIRTABLE_FAIR, states,
        given_moves, sizeof given_moves, given_marks, sizeof given_marks, start, mask,
        station, ROOM - 4, outside, ROOM - 5, &can, &round_number, &place);
}

/* Everything that the call for a given automaton writes. */
static void served_given(void)
{
    CHECK(solve_given(GIVEN_STATES, 2, GIVEN_MASK), AIRTABLE_SERVED);
    CHECK(can, 1);
    CHECK(round_number, 1);
    CHECK(place, 0);
    CHECK_BYTES(station, 0, 8, 255);
    CHECK(memcmp(station + 8, "\0\1\0\0", 4), 0);
    CHECK_BYTES(station, 12, ROOM, OLD_STATION);
    CHECK(memcmp(outside, "\1\1\377", 3), 0);
    CHECK_BYTES(outside, 3, ROOM, OLD_OUTSIDE);
    CHECK(solve_given(GIVEN_STATES, 1, GIVEN_MASK), AIRTABLE_SERVED);
    CHECK(can, 0);
    CHECK(round_number, 0);
}

/* A ring of three states without inputs and outputs: the goal, 1, is entered from itself by the third step. */
static void given_rounds(void)
{
    static const uint8_t ring_moves[3] = {1, 2, 0}, ring_marks[3] = {0, 7, 0};
    uint8_t mode;
    for (mode = AIRTABLE_FAIR; mode <= AIRTABLE_STABLE; mode++) {
        size_t start;
        for (start = 0; start < 3; start++) {
            reset();
            CHECK(airtable_solve_given(0, 0, mode, 3, ring_moves, 3, ring_marks, 3, start, 1,
                station, AIRTABLE_STATION_SIZE(0, 0, 3), outside, AIRTABLE_OUTSIDE_SIZE(0, 0, 3), &can, &round_number, &place), AIRTABLE_SERVED);
            CHECK(can, 1);
            CHECK(round_number, start == 0 ? 1 : start == 1 ? 3 : 2);
        }
    }
}

/* The exact lengths are enough for a given automaton, and one byte less is too short. */
static void given_sizes(void)
{
    size_t k;
    for (k = 0; k < 5; k++) {
        reset();
        CHECK(airtable_solve_given(2, 1, AIRTABLE_FAIR, GIVEN_STATES,
            given_moves, (size_t)24 - (k == 1), given_marks, (size_t)3 - (k == 2), 2, GIVEN_MASK,
            station, AIRTABLE_STATION_SIZE(2, 1, GIVEN_STATES) - (k == 3), outside, AIRTABLE_OUTSIDE_SIZE(2, 1, GIVEN_STATES) - (k == 4),
            &can, &round_number, &place), k == 0 ? AIRTABLE_SERVED : AIRTABLE_REFUSED_BUFFER);
        CHECK(can, k == 0);
        CHECK(round_number, k == 0);
        CHECK(place, 0);
        if (k > 0)
            check_untouched(__LINE__);
    }
}

/* What a refused call for a given automaton leaves. */
static void check_refused_given(int line, size_t wanted_place)
{
    check(line, "place", place, wanted_place);
    check(line, "can", can, 0);
    check(line, "round_number", round_number, 0);
    check_bytes(line, "station", station, 0, ROOM, OLD_STATION);
    check_bytes(line, "outside", outside, 0, ROOM, OLD_OUTSIDE);
}

/* The refusals of a given automaton: the count, a buffer, the start, the mask and a move; and two at once. */
static void refused_given(void)
{
    uint8_t wrong_moves[24];
    CHECK(solve_given(0, 2, GIVEN_MASK), AIRTABLE_REFUSED_GIVEN_COUNT);
    check_refused_given(__LINE__, 0);
    CHECK(solve_given(129, 2, GIVEN_MASK), AIRTABLE_REFUSED_GIVEN_COUNT);
    check_refused_given(__LINE__, 0);
    CHECK(solve_given(4, 2, GIVEN_MASK), AIRTABLE_REFUSED_BUFFER);
    check_refused_given(__LINE__, 0);
    CHECK(solve_given(GIVEN_STATES, 3, GIVEN_MASK), AIRTABLE_REFUSED_STATE);
    check_refused_given(__LINE__, 0);
    CHECK(solve_given(GIVEN_STATES, 2, 16 + GIVEN_MASK), AIRTABLE_REFUSED_VALUE);
    check_refused_given(__LINE__, 0);
    CHECK(solve_given(GIVEN_STATES, 2, 16), AIRTABLE_REFUSED_VALUE);
    check_refused_given(__LINE__, 0);
    CHECK(solve_given(GIVEN_STATES, 2, 0), AIRTABLE_REFUSED_UNSATISFIABLE);
    check_refused_given(__LINE__, 0);
    CHECK(solve_given(GIVEN_STATES, 3, 0), AIRTABLE_REFUSED_STATE);
    check_refused_given(__LINE__, 0);

    memcpy(wrong_moves, given_moves, sizeof wrong_moves);
    wrong_moves[21] = GIVEN_STATES;
    reset();
    CHECK(airtable_solve_given(2, 1, AIRTABLE_STABLE, GIVEN_STATES, wrong_moves, sizeof wrong_moves,
        given_marks, sizeof given_marks, 2, GIVEN_MASK, station, ROOM, outside, ROOM - 1, &can, &round_number, &place), AIRTABLE_REFUSED_MOVE);
    check_refused_given(__LINE__, 21);
}

/* One step by the rule's table from a position; what the call may write has an old content. */
static uint8_t follow(size_t input, size_t from, uint8_t reached_before)
{
    state = from;
    reached = reached_before;
    row = output = 0x5A;
    place = 7777;
    return airtable_follow(1, 2, 4, moves, 4 * 8 + 9, marks, 4 + 50, station, 4 * 2 + 70, input,
        &state, &reached, &row, &output, &place);
}

/* What a step leaves. */
static void check_step(int line, size_t wanted_state, uint8_t wanted_reached, uint8_t wanted_row, uint8_t wanted_output, size_t wanted_place)
{
    check(line, "state", state, wanted_state);
    check(line, "reached", reached, wanted_reached);
    check(line, "row", row, wanted_row);
    check(line, "output", output, wanted_output);
    check(line, "place", place, wanted_place);
}

/* Steps by the rule's table: on, into the goal, without a row, and refused. */
static void followed(void)
{
    CHECK(solve(1, 2, AIRTABLE_FAIR, rule, "a"), AIRTABLE_SERVED);
    CHECK(follow(0, 0, 0), AIRTABLE_SERVED);
    check_step(__LINE__, 2, 0, 1, 1, 0);
    CHECK(follow(1, 2, 0), AIRTABLE_SERVED);
    check_step(__LINE__, 3, 1, 1, 2, 0);
    CHECK(follow(0, 0, 9), AIRTABLE_SERVED);
    check_step(__LINE__, 2, 1, 1, 1, 0);
    CHECK(follow(0, 1, 9), AIRTABLE_SERVED);
    check_step(__LINE__, 1, 9, 0, 0, 0);
    CHECK(follow(0, 4, 9), AIRTABLE_REFUSED_STATE);
    check_step(__LINE__, 4, 9, 0, 0, 0);
    CHECK(follow(2, 0, 9), AIRTABLE_REFUSED_VALUE);
    check_step(__LINE__, 0, 9, 0, 0, 0);
    moves[2 * 8 + 1 + 2 * 2] = 200;
    CHECK(follow(1, 2, 9), AIRTABLE_REFUSED_MOVE);
    check_step(__LINE__, 2, 9, 0, 0, 2 * 8 + 1 + 2 * 2);
}

/* The exact lengths are enough for a step, and one byte less is too short. */
static void follow_sizes(void)
{
    size_t k;
    CHECK(solve(1, 2, AIRTABLE_FAIR, rule, "a"), AIRTABLE_SERVED);
    for (k = 0; k < 4; k++) {
        state = reached = 0;
        CHECK(airtable_follow(1, 2, 4, moves, (size_t)32 - (k == 1), marks, (size_t)4 - (k == 2), station, (size_t)8 - (k == 3), 1,
            &state, &reached, &row, &output, &place), k == 0 ? AIRTABLE_SERVED : AIRTABLE_REFUSED_BUFFER);
        CHECK(state, k == 0 ? 3 : 0);
        CHECK(row, k == 0);
    }
}

/* A trial with one input and two outputs, of a text that ends in a 0 byte. */
static uint8_t try_rule(const char *text, const uint8_t *letters, size_t letters_length)
{
    reset();
    return airtable_try_rule(1, 2, (const uint8_t *)text, strlen(text), letters, letters_length, &satisfied, &place);
}

/* Trials: satisfied, not satisfied, refused; and pointers to nothing. */
static void tried(void)
{
    static const uint8_t letters[3] = {2, 5, 8};
    CHECK(try_rule("X(a&q)", letters, 2), AIRTABLE_SERVED);
    CHECK(satisfied, 1);
    CHECK(place, 0);
    CHECK(try_rule("X(a&p)", letters, 2), AIRTABLE_SERVED);
    CHECK(satisfied, 0);
    CHECK(place, 0);
    CHECK(try_rule("X(a&q)", letters, 3), AIRTABLE_REFUSED_VALUE);
    CHECK(satisfied, 0);
    CHECK(place, 2);
    CHECK(try_rule("X(a&r)", letters, 2), AIRTABLE_REFUSED_RULE_TEXT);
    CHECK(satisfied, 0);
    CHECK(place, 4);
    CHECK(try_rule("1", NULL, 0), AIRTABLE_SERVED);
    CHECK(satisfied, 0);
    CHECK(airtable_try_rule(1, 2, NULL, 0, letters, 2, &satisfied, &place), AIRTABLE_REFUSED_RULE_TEXT);
    CHECK(place, 0);
}

int main(void)
{
    served_rule();
    sizes();
    modes();
    rounds();
    refused_rules();
    served_given();
    given_rounds();
    given_sizes();
    refused_given();
    followed();
    follow_sizes();
    tried();
    if (differing > 0)
        return 1;
    printf("include/airtable.h: %lu values as expected\n", checked);
    return 0;
}
