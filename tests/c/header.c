/* The header by itself: the layout of what is lent, as the library has it, and the numbers of documents 01 and 02. */
#include "monuvaleck.h"

#include <stdalign.h>
#include <stdio.h>
#include <string.h>

_Static_assert(sizeof(charts_run) == 188, "size of charts_run");
_Static_assert(alignof(charts_run) == 4, "alignment of charts_run");
_Static_assert(offsetof(charts_run, states) == 0, "states");
_Static_assert(offsetof(charts_run, ages) == 16, "ages");
_Static_assert(offsetof(charts_run, variables) == 48, "variables");
_Static_assert(offsetof(charts_run, events) == 176, "events");
_Static_assert(offsetof(charts_run, position) == 180, "position");
_Static_assert(offsetof(charts_run, cycles) == 184, "cycles");

_Static_assert(sizeof(automata_run) == 924, "size of automata_run");
_Static_assert(alignof(automata_run) == 4, "alignment of automata_run");
_Static_assert(offsetof(automata_run, locations) == 0, "locations");
_Static_assert(offsetof(automata_run, clocks) == 16, "clocks");
_Static_assert(offsetof(automata_run, variables) == 784, "variables");
_Static_assert(offsetof(automata_run, events) == 912, "events");
_Static_assert(offsetof(automata_run, position) == 916, "position");
_Static_assert(offsetof(automata_run, cycles) == 920, "cycles");

_Static_assert(sizeof(size_t) == 8, "lengths of 64 bits");
_Static_assert(MONUVALECK_LONGEST_SET == 16 * (8 + 128 + 256 + 64 + 1024 + 512), "the most of each kind of a set");
_Static_assert(MONUVALECK_LONGEST_TWIN == 16 * (8 + 128 + 512 + 2944 + 384 + 64 + 1024 + 7168 + 4352), "the most of each kind of a table");
_Static_assert(MONUVALECK_ODD_LENGTH == 1 && MONUVALECK_ZERO_TICKS == 9 && MONUVALECK_SHORT_BUFFER == 10 && MONUVALECK_BAD_TABLE == 11, "a file's numbers");
_Static_assert(MONUVALECK_IMPOSSIBLE_RUN == 12 && MONUVALECK_CYCLES_DONE == 14 && MONUVALECK_MANY_OPEN == 19 && MONUVALECK_SHORT_ROWS == 21, "the other numbers");

_Static_assert(MONUVALECK_UNEQUAL_TIMES == 25, "a set's number after 9");
_Static_assert(MONUVALECK_BROKEN_LINE == 22 && MONUVALECK_WRONG_SORT == 23 && MONUVALECK_SHORT_SPACE == 24, "a guard's numbers");
_Static_assert(MONUVALECK_LONGEST_LINE == 256 && MONUVALECK_MOST_NODES == 1024, "a guard's limits");

/* A set with one chart of two states and a variable, which starts at -3, and what the library writes into each field. */
static const uint8_t set[] = {
    1, 0, 1, 0, 0, 0, 0, 0, 0, 0, 0, 0, 0, 0, 0, 0,             /* chart, initial state 1 */
    2, 0, 0, 0, 0, 0, 0, 0, 0, 0, 0, 0, 0, 0, 0, 0,             /* state 0 */
    2, 0, 0, 0, 0, 0, 0, 0, 0, 0, 0, 0, 0, 0, 0, 0,             /* state 1 */
    3, 1, 1, 0, 0, 0, 0, 0, 0, 0, 0, 0, 255, 255, 0, 0,         /* transition 0, 1 to 0 */
    3, 1, 0, 0, 0, 0, 3, 0, 44, 1, 0, 0, 255, 255, 0, 0,        /* transition 1, 0 to 0, every 300 ms */
    4, 0, 156, 255, 100, 0, 253, 255, 0, 0, 0, 0, 0, 0, 0, 0,   /* variable, -100 to 100, start -3 */
};

static int fields_of_charts(void)
{
    charts_run run;
    int fine = charts_start(set, sizeof set, &run) == 0 && run.states[0] == 1 && run.ages[0] == 0 && run.variables[0] == -3 && run.variables[63] == 0 &&
               run.events == 0 && run.position == 1 && run.cycles == 0;
    fine = fine && charts_turn(set, sizeof set, &run, 5) == 0 && run.states[0] == 0 && run.events == 5 && run.position == 2;
    fine = fine && charts_turn(set, sizeof set, &run, 0) == MONUVALECK_TIME && run.ages[0] == 1 && run.events == 0 && run.position == 1 && run.cycles == 1;
    return fine && charts_turn(set, sizeof set, &run, 0) == MONUVALECK_IDLE;
}

static int fields_of_automata(void)
{
    static uint8_t table[4096];
    automata_run run;
    int32_t len = charts_translate(set, sizeof set, table, sizeof table);
    int fine = len > 0 && automata_start(table, (size_t)len, &run) == 0 && run.locations[0] == 1 && run.clocks[0] == 0 && run.variables[0] == -3 && run.position == 1;
    fine = fine && automata_turn(table, (size_t)len, &run, 5) == 0 && run.locations[0] == 0 && run.events == 5 && run.position == 2;
    fine = fine && automata_turn(table, (size_t)len, &run, 0) == MONUVALECK_TIME && run.clocks[0] == 1 && run.cycles == 1;
    return fine && automata_turn(table, (size_t)len, &run, 0) == 2;
}

/* The two functions of guards, by the types that they are declared with; the nodes are records of a set. */
static int32_t (*const read_guard)(const uint8_t *text, size_t text_len, uint8_t *nodes, size_t nodes_len) = guard_read;
static int32_t (*const write_guard)(const uint8_t *nodes, size_t nodes_len, uint8_t *text, size_t text_len) = guard_write;

static const uint8_t below_zero[] = {
    5, 2, 7, 0, 0, 0, 0, 0, 0, 0, 0, 0, 0, 0, 0, 0,             /* variable 7 */
    5, 1, 0, 0, 0, 0, 0, 0, 253, 255, 255, 255, 0, 0, 0, 0,     /* constant -3 */
    5, 17, 0, 0, 1, 0, 0, 0, 0, 0, 0, 0, 0, 0, 0, 0,            /* node 0 less than node 1 */
};

static int nodes_of_a_line(void)
{
    static const uint8_t typed[] = {'v', '7', ' ', '<', ' ', '-', '3'};
    uint8_t nodes[sizeof below_zero], text[] = "........";
    int fine = read_guard(typed, sizeof typed, nodes, sizeof nodes) == 3 && memcmp(nodes, below_zero, sizeof nodes) == 0;
    return fine && write_guard(nodes, sizeof nodes, text, sizeof text) == 5 && memcmp(text, "v7<-3...", sizeof text) == 0;
}

int main(void)
{
    int charts = fields_of_charts(), automata = fields_of_automata(), guards = nodes_of_a_line();
    printf("%s: the fields of charts_run\n", charts ? "ok" : "FAILED");
    printf("%s: the fields of automata_run\n", automata ? "ok" : "FAILED");
    printf("%s: the nodes of a line\n", guards ? "ok" : "FAILED");
    return charts && automata && guards ? 0 : 1;
}
