/* What a control unit does with Monuvaleck: loads a chart set, checks it, plays cycles, meets refusals, sees raised events, starts anew at the end of a run,
 * translates the set into its twin, plays both side by side, and leads the twin's path back to the transitions that it came from. Last it reads guards typed as a
 * line into nodes, and writes them back.
 *
 *   cc -std=c11 -Iinclude examples/control_unit.c crates/monuvaleck/out/libmonuvaleck.a -o target/control_unit
 *   target/control_unit crates/replay/data/set.bin
 */
#include "monuvaleck.h"

#include <stdbool.h>
#include <stdio.h>
#include <string.h>

#define CYCLES 5
#define MOST_STEPS (CYCLES * 9) /* eight charts and time */

static const uint32_t masks[CYCLES] = {0, 1, 1, 2, 0};

static uint8_t set[MONUVALECK_LONGEST_SET];
static uint8_t twin[MONUVALECK_LONGEST_TWIN];
static uint16_t path[MOST_STEPS];
static uint32_t rows[3 * MOST_STEPS];

/* A set of two charts that talk by events, built into the program. Chart 0 raises event 5 whenever event 0 comes; chart 1, later in the cycle, answers event 5 by
 * raising event 6, which chart 0 waits for in vain: it has had its turn, and in the next cycle the event is gone. */
static const uint8_t relay[] = {
    1, 0, 0, 0, 0, 0, 0, 0, 0, 0, 0, 0, 0,   0,   0, 0, /* chart 0: initial state 0 */
    1, 0, 2, 0, 0, 0, 0, 0, 0, 0, 0, 0, 0,   0,   0, 0, /* chart 1: initial state 2 */
    2, 0, 0, 0, 0, 0, 0, 0, 0, 0, 0, 0, 0,   0,   0, 0, /* state 0, of chart 0 */
    2, 0, 0, 0, 0, 0, 0, 0, 0, 0, 0, 0, 0,   0,   0, 0, /* state 1, of chart 0 */
    2, 1, 0, 0, 0, 0, 0, 0, 0, 0, 0, 0, 0,   0,   0, 0, /* state 2, of chart 1 */
    2, 1, 0, 0, 0, 0, 0, 0, 0, 0, 0, 0, 0,   0,   0, 0, /* state 3, of chart 1 */
    3, 1, 0, 0, 1, 0, 0, 0, 0, 0, 0, 0, 255, 255, 0, 0, /* transition 0: state 0 to 1, always */
    3, 2, 1, 0, 1, 0, 1, 0, 0, 0, 0, 0, 255, 255, 0, 0, /* transition 1: state 1 to 1, priority 2, event 0 */
    3, 1, 1, 0, 1, 0, 1, 6, 0, 0, 0, 0, 255, 255, 0, 0, /* transition 2: state 1 to 1, priority 1, event 6 */
    3, 1, 2, 0, 3, 0, 0, 0, 0, 0, 0, 0, 255, 255, 0, 0, /* transition 3: state 2 to 3, always */
    3, 1, 3, 0, 3, 0, 1, 5, 0, 0, 0, 0, 255, 255, 0, 0, /* transition 4: state 3 to 3, event 5 */
    6, 3, 1, 0, 2, 5, 0, 0, 0, 0, 0, 0, 0,   0,   0, 0, /* transition 1 raises event 5 */
    6, 3, 4, 0, 2, 6, 0, 0, 0, 0, 0, 0, 0,   0,   0, 0, /* transition 4 raises event 6 */
};

static const char *meaning(int32_t answer)
{
    switch (-answer) {
    case MONUVALECK_ODD_LENGTH: return "length no multiple of 16";
    case MONUVALECK_UNORDERED_KINDS: return "kind unknown or descending";
    case MONUVALECK_WRONG_AMOUNTS: return "no chart, or too many of a kind";
    case MONUVALECK_STRAY_BYTE: return "an unnamed or unused byte not zero";
    case MONUVALECK_BROKEN_CODE: return "a code or range broken";
    case MONUVALECK_DANGLING_NUMBER: return "a number naming nothing";
    case MONUVALECK_BROKEN_STRUCTURE: return "broken structure of charts, initial states, priorities or actions";
    case MONUVALECK_BROKEN_NODE: return "a node of the wrong order or sort, or not used exactly once";
    case MONUVALECK_ZERO_TICKS: return "timing trigger or waiting action of 0 ticks";
    case MONUVALECK_UNEQUAL_TIMES: return "waiting actions of one state with different milliseconds";
    case MONUVALECK_SHORT_BUFFER: return "result longer than the buffer";
    case MONUVALECK_BAD_TABLE: return "automata table refused";
    case MONUVALECK_IMPOSSIBLE_RUN: return "state impossible for the file";
    case MONUVALECK_MISPLACED_EVENTS: return "events given elsewhere than at position 1";
    case MONUVALECK_CYCLES_DONE: return "1,000,000 cycles done";
    case MONUVALECK_OUT_OF_RANGE: return "number out of range";
    case MONUVALECK_ZERO_DIVISOR: return "zero divisor";
    case MONUVALECK_OUT_OF_BOUNDS: return "assigned value outside its variable";
    case MONUVALECK_NONE_OPEN: return "no edge open";
    case MONUVALECK_MANY_OPEN: return "two or more edges open";
    case MONUVALECK_BROKEN_PATH: return "the path is none of the twin";
    case MONUVALECK_SHORT_ROWS: return "more rows than lent";
    case MONUVALECK_BROKEN_LINE: return "a line outside the grammar, or a constant outside 32 bits";
    case MONUVALECK_WRONG_SORT: return "an operand of the wrong sort, or a number as the whole line";
    case MONUVALECK_SHORT_SPACE: return "too little space for nodes or text";
    default: return "no refusal";
    }
}

/* Tells a refusal or fault, and whether there was one. */
static bool refused(const char *what, int32_t answer)
{
    if (answer < 0) {
        printf("%s: refusal %d: %s\n", what, (int)-answer, meaning(answer));
    }
    return answer < 0;
}

/* The length of the set, or 0 where it cannot be read or is longer than any set. */
static size_t load(const char *name)
{
    FILE *file = fopen(name, "rb");
    if (file == NULL) {
        return 0;
    }
    size_t length = fread(set, 1, sizeof set, file);
    bool whole = !ferror(file) && fgetc(file) == EOF;
    fclose(file);
    return whole ? length : 0;
}

/* What a chart's turn answered. */
static void tell(int32_t answer)
{
    if (answer == MONUVALECK_IDLE) {
        printf("idle");
    } else {
        printf("transition %d", (int)answer);
    }
}

/* A cycle, turn by turn, with a line for each chart. */
static bool show_cycle(size_t length, charts_run *run, uint32_t events)
{
    for (;;) {
        unsigned chart = run->position - 1;
        int32_t answer = charts_turn(set, length, run, events);
        if (refused("turn", answer)) {
            return false;
        }
        if (answer == MONUVALECK_TIME) {
            return true;
        }
        events = 0; /* given at position 1 alone */
        printf("cycle %u, chart %u: ", (unsigned)run->cycles, chart);
        tell(answer);
        printf(", state %u, variable 0 is %d\n", run->states[chart], run->variables[0]);
    }
}

/* Events in the middle of a cycle are refused, and the run is as it was. */
static void show_refusal(size_t length, charts_run run)
{
    charts_turn(set, length, &run, 0);
    charts_run before = run;
    refused("events at position 2", charts_turn(set, length, &run, 1));
    printf("the run is %s\n", memcmp(&before, &run, sizeof run) == 0 ? "unchanged" : "changed");
}

/* A cycle of the relay by turns, with the events that each turn raised. A call of charts_cycle would leave none to see: time, its last turn, empties them. */
static bool show_events(charts_run *run, uint32_t events)
{
    for (;;) {
        unsigned chart = run->position - 1;
        uint32_t before = run->events | events; /* at position 1 those given become the present ones; elsewhere none are given */
        int32_t answer = charts_turn(relay, sizeof relay, run, events);
        if (refused("relay", answer)) {
            return false;
        }
        if (answer == MONUVALECK_TIME) {
            printf("relay, time: present %#x\n", (unsigned)run->events);
            return true;
        }
        events = 0;
        printf("relay, cycle %u, chart %u: ", (unsigned)run->cycles, chart);
        tell(answer);
        printf(", raised %#x, present %#x\n", (unsigned)(run->events & ~before), (unsigned)run->events);
    }
}

static bool play_relay(void)
{
    charts_run run;
    return !refused("relay", charts_start(relay, sizeof relay, &run)) && !refused("relay", charts_cycle(relay, sizeof relay, &run, 0)) &&
           show_events(&run, 1) && show_events(&run, 0);
}

/* The last cycle of a run, and what follows: the unit stops in a safe state, and only then starts a fresh run. */
static bool end_of_run(size_t length, charts_run run)
{
    run.cycles = MONUVALECK_MOST_CYCLES - 1; /* a cycle before 27 h 46 min 40 s; no age is above that, so the run is possible */
    for (int i = 0; i < 3; i++) {
        int32_t answer = charts_cycle(set, length, &run, 0);
        if (answer == -MONUVALECK_CYCLES_DONE) {
            refused("cycle", answer);
            puts("stopped in a safe state; starting anew"); /* here a unit halts its drives */
            answer = charts_start(set, length, &run);
        }
        if (refused("cycle", answer)) {
            return false;
        }
        printf("%u cycles done, state %u\n", (unsigned)run.cycles, run.states[0]);
    }
    return true;
}

/* A cycle of the twin, its steps added to the path. */
static bool twin_cycle(size_t length, automata_run *run, uint32_t events, size_t *steps)
{
    int32_t answer;
    do {
        answer = automata_turn(twin, length, run, events);
        if (refused("twin", answer)) {
            return false;
        }
        events = 0;
        path[*steps] = (uint16_t)answer;
        *steps += 1;
    } while (answer != MONUVALECK_TIME);
    return true;
}

static bool alike(const charts_run *charts, const automata_run *automata)
{
    return memcmp(charts->states, automata->locations, sizeof charts->states) == 0 &&
           memcmp(charts->variables, automata->variables, sizeof charts->variables) == 0 && charts->events == automata->events &&
           charts->position == automata->position && charts->cycles == automata->cycles;
}

/* Charts and twin from fresh runs, compared after each cycle; the number of steps of the twin's path, or 0. */
static size_t side_by_side(size_t length, size_t twin_length)
{
    charts_run charts;
    automata_run automata;
    size_t steps = 0;
    if (refused("start", charts_start(set, length, &charts)) || refused("start", automata_start(twin, twin_length, &automata))) {
        return 0;
    }
    for (size_t i = 0; i < CYCLES; i++) {
        if (refused("cycle", charts_cycle(set, length, &charts, masks[i])) || !twin_cycle(twin_length, &automata, masks[i], &steps)) {
            return 0;
        }
        if (!alike(&charts, &automata)) {
            printf("after cycle %zu charts and twin differ\n", i);
            return 0;
        }
    }
    printf("charts and twin alike through %d cycles, %zu steps\n", CYCLES, steps);
    return steps;
}

/* The same cycles in one call. */
static void play(size_t length)
{
    charts_run run;
    charts_start(set, length, &run);
    int32_t played = charts_play(set, length, &run, masks, CYCLES);
    if (!refused("play", played)) {
        printf("played: %d cycles in one call, state %u\n", (int)played, run.states[0]);
    }
}

static void lead_back(size_t length, size_t steps)
{
    int32_t count = path_back(set, length, path, steps, rows, sizeof rows / sizeof rows[0]);
    if (refused("path", count)) {
        return;
    }
    for (int32_t i = 0; i < count; i++) {
        const uint32_t *row = rows + 3 * i;
        printf("row %d: cycle %u, chart %u, transition %u\n", (int)i, (unsigned)row[0], (unsigned)row[1], (unsigned)row[2]);
    }
}

/* A guard typed as a line: its nodes, records of a set, and the line that is written of them. */
static void show_guard(const char *typed)
{
    static uint8_t nodes[16 * MONUVALECK_LONGEST_LINE]; /* a line has no more nodes than bytes */
    static uint8_t text[MONUVALECK_LONGEST_LINE];       /* and is written back no longer than it was */
    printf("guard '%s'", typed);
    int32_t count = guard_read((const uint8_t *)typed, strlen(typed), nodes, sizeof nodes);
    if (refused("", count)) {
        return;
    }
    int32_t length = guard_write(nodes, 16 * (size_t)count, text, sizeof text);
    if (!refused("", length)) {
        printf(": %d nodes, written back as %.*s\n", (int)count, (int)length, (const char *)text);
    }
}

int main(int argc, char **argv)
{
    size_t length = argc == 2 ? load(argv[1]) : 0;
    charts_run run;
    if (length == 0) {
        fputs("control_unit SET: reads a chart set\n", stderr);
        return 2;
    }
    if (refused("set", charts_check(set, length))) {
        return 1;
    }
    printf("set: %zu bytes, accepted\n", length);
    refused("set without its last byte", charts_check(set, length - 1));
    charts_start(set, length, &run);
    for (size_t i = 0; i < CYCLES; i++) {
        if (!show_cycle(length, &run, masks[i])) {
            return 1;
        }
    }
    show_refusal(length, run);
    play(length);
    if (!play_relay() || !end_of_run(length, run)) {
        return 1;
    }
    int32_t twin_length = charts_translate(set, length, twin, sizeof twin);
    if (refused("translation", twin_length)) {
        return 1;
    }
    printf("twin: %d bytes\n", (int)twin_length);
    refused("twin into one byte less", charts_translate(set, length, twin, (size_t)twin_length - 1));
    size_t steps = side_by_side(length, (size_t)twin_length);
    lead_back(length, steps);
    show_guard("v0 < 0");
    show_guard("(v0 < 10) && !((v1 - 2) == 0)");
    show_guard("v0 =< 0");
    show_guard("v0 - 2");
    return steps == 0;
}
