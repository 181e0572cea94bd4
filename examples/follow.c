/* Solves a rule, then follows the station's table on cues from standard input: one input number a line, in decimal.
 * Prints the output number of each step and stops at the first goal. The rule is solved in two calls: the first lends
 * nothing and so asks how many states the rule has, and the second lends just what they need.
 *
 *   (cd crates/capi && rt lib)
 *   cc examples/follow.c -Iinclude crates/capi/out/libcapi.a -o follow
 *   ./follow < examples/follow.input
 */
#include <stdio.h>
#include <stdlib.h>
#include <string.h>
#include "airtable.h"

/* One input: a, the studio is ready. Two outputs: p, play the filler; q, go live. */
enum { INPUTS = 1, OUTPUTS = 2 };

/* Play the filler, and not the studio, until the studio is ready; then go live and stop the filler. */
static const char rule[] = "(p&!q) U (a&q&!p)";

/* The studio is ready again and again. */
static const char condition[] = "a";

/* A buffer and its length. */
struct buffer {
    uint8_t *bytes;
    size_t length;
};

static struct buffer moves, marks, station, outside;

/* What the rule call tells besides. */
static uint8_t can;
static size_t n, round_number, place;

/* Solves the rule with the buffers as they are. */
static uint8_t solve(void)
{
    return airtable_solve_rule(INPUTS, OUTPUTS, AIRTABLE_FAIR,
        (const uint8_t *)rule, strlen(rule), (const uint8_t *)condition, strlen(condition),
        moves.bytes, moves.length, marks.bytes, marks.length,
        station.bytes, station.length, outside.bytes, outside.length,
        &can, &n, &round_number, &place);
}

/* A buffer of so many bytes. */
static struct buffer space(size_t length)
{
    struct buffer buffer;
    buffer.bytes = malloc(length);
    buffer.length = length;
    if (buffer.bytes == NULL) {
        fputs("no memory\n", stderr);
        exit(1);
    }
    return buffer;
}

/* Says which refusal a call came to. */
static int refused(uint8_t number)
{
    fprintf(stderr, "refused %u %zu\n", (unsigned)number, place);
    return 1;
}

int main(void)
{
    uint8_t reached = 0, row, output, number;
    size_t state = 0, input;

    number = solve(); /* nothing is lent yet */
    if (number != AIRTABLE_REFUSED_BUFFER)
        return refused(number);
    moves = space(AIRTABLE_MOVES_SIZE(INPUTS, OUTPUTS, n));
    marks = space(AIRTABLE_MARKS_SIZE(INPUTS, OUTPUTS, n));
    station = space(AIRTABLE_STATION_SIZE(INPUTS, OUTPUTS, n));
    outside = space(AIRTABLE_OUTSIDE_SIZE(INPUTS, OUTPUTS, n));
    number = solve();
    if (number != AIRTABLE_SERVED)
        return refused(number);
    printf("%s %zu %zu\n", can ? "can" : "cannot", n, round_number);
    if (!can)
        return 0;

    while (!reached && scanf("%zu", &input) == 1) {
        number = airtable_follow(INPUTS, OUTPUTS, n,
            moves.bytes, moves.length, marks.bytes, marks.length, station.bytes, station.length,
            input, &state, &reached, &row, &output, &place);
        if (number != AIRTABLE_SERVED)
            return refused(number);
        if (!row) {
            puts("no row");
            return 1;
        }
        printf("%u\n", (unsigned)output);
    }
    puts(reached ? "goal" : "no goal yet");
    return 0;
}
