/* Every refusal and fault of every function, with all that is lent between canaries and pages that cannot be touched, and unchanged afterwards.
 * Where several things are wrong at once the number that comes first in the table is answered. With an argument all is lent on the heap. */
#include "lent.h"
#include "monuvaleck.h"
#include "records.h"

#include <stdio.h>
#include <stdlib.h>
#include <string.h>

enum { IN_FILE, IN_RUN, IN_LIST, IN_OUT };
enum { MOST_NUMBER = 25, MANY_STEPS = 2 * MONUVALECK_MOST_CYCLES + 1 };

/* What a call is given; each call lends copies of it. */
static struct {
    const file *f;
    charts_run charts;
    automata_run automata;
    uint32_t events;
    uint32_t masks[4];
    size_t masks_len;
    const uint16_t *path;
    size_t path_len;
    size_t out_len, rows_len;
} given;

static uint8_t filler[MONUVALECK_LONGEST_TWIN];

/* ---- the calls */

#define LENT_FILE areas[IN_FILE].bytes, areas[IN_FILE].len
#define LENT_RUN ((void *)areas[IN_RUN].bytes)
#define LENT_LIST ((void *)areas[IN_LIST].bytes)
#define LENT_OUT ((void *)areas[IN_OUT].bytes)

static int32_t check_charts(void) { return charts_check(LENT_FILE); }
static int32_t start_charts(void) { return charts_start(LENT_FILE, LENT_RUN); }
static int32_t turn_charts(void) { return charts_turn(LENT_FILE, LENT_RUN, given.events); }
static int32_t cycle_charts(void) { return charts_cycle(LENT_FILE, LENT_RUN, given.events); }
static int32_t play_charts(void) { return charts_play(LENT_FILE, LENT_RUN, LENT_LIST, given.masks_len); }
static int32_t translate(void) { return charts_translate(LENT_FILE, LENT_OUT, given.out_len); }
static int32_t lead_back(void) { return path_back(LENT_FILE, LENT_LIST, given.path_len, LENT_OUT, given.rows_len); }
static int32_t check_automata(void) { return automata_check(LENT_FILE); }
static int32_t start_automata(void) { return automata_start(LENT_FILE, LENT_RUN); }
static int32_t turn_automata(void) { return automata_turn(LENT_FILE, LENT_RUN, given.events); }
static int32_t cycle_automata(void) { return automata_cycle(LENT_FILE, LENT_RUN, given.events); }
static int32_t play_automata(void) { return automata_play(LENT_FILE, LENT_RUN, LENT_LIST, given.masks_len); }
static int32_t read_guard(void) { return guard_read(LENT_FILE, LENT_OUT, given.out_len); }
static int32_t write_guard(void) { return guard_write(LENT_FILE, LENT_OUT, given.out_len); }

enum { CHECK_C, START_C, TURN_C, CYCLE_C, PLAY_C, TRANSLATE, BACK, CHECK_A, START_A, TURN_A, CYCLE_A, PLAY_A, READ, WRITE, CALLS };

/* Each function with the numbers that it can answer, as bits. Lines and lists of nodes are lent as files are, and what is made of them as a translation is. */
#define FROM_TO(a, b) ((2u << (b)) - (1u << (a)))
#define OF_A_SET (FROM_TO(1, 9) | FROM_TO(25, 25))
static const struct {
    const char *name;
    int32_t (*call)(void);
    uint32_t numbers;
} calls[CALLS] = {
    {"charts_check", check_charts, OF_A_SET},
    {"charts_start", start_charts, OF_A_SET},
    {"charts_turn", turn_charts, OF_A_SET | FROM_TO(12, 17)},
    {"charts_cycle", cycle_charts, OF_A_SET | FROM_TO(12, 17)},
    {"charts_play", play_charts, OF_A_SET | FROM_TO(12, 17)},
    {"charts_translate", translate, OF_A_SET | FROM_TO(10, 10)},
    {"path_back", lead_back, OF_A_SET | FROM_TO(20, 21)},
    {"automata_check", check_automata, FROM_TO(11, 11)},
    {"automata_start", start_automata, FROM_TO(11, 11)},
    {"automata_turn", turn_automata, FROM_TO(11, 19)},
    {"automata_cycle", cycle_automata, FROM_TO(11, 19)},
    {"automata_play", play_automata, FROM_TO(11, 19)},
    {"guard_read", read_guard, FROM_TO(22, 24)},
    {"guard_write", write_guard, FROM_TO(3, 3) | FROM_TO(5, 6) | FROM_TO(8, 8) | FROM_TO(24, 24)},
};

static unsigned met[CALLS][MOST_NUMBER + 1], wrong[CALLS][MOST_NUMBER + 1];

static void must(bool holds, const char *what)
{
    if (!holds) {
        printf("FAILED: %s\n", what);
        exit(1);
    }
}

static void lend_given(unsigned call, bool low)
{
    bool of_automata = call >= CHECK_A, of_path = call == BACK;
    lend(IN_FILE, given.f->bytes, given.f->len, low);
    if (of_automata) {
        lend(IN_RUN, &given.automata, sizeof given.automata, low);
    } else {
        lend(IN_RUN, &given.charts, sizeof given.charts, low);
    }
    if (of_path) {
        lend(IN_LIST, given.path, given.path_len * sizeof *given.path, low);
        lend(IN_OUT, filler, given.rows_len * sizeof(uint32_t), low);
    } else {
        lend(IN_LIST, given.masks, given.masks_len * sizeof *given.masks, low);
        lend(IN_OUT, filler, given.out_len, low);
    }
}

/* The call answers minus the number and changes nothing. */
static void refuses(unsigned call, unsigned number, const char *what)
{
    for (unsigned low = 0; low < 2; low++) {
        lend_given(call, low != 0);
        int32_t answer = calls[call].call();
        bool unchanged = kept(IN_FILE) && kept(IN_RUN) && kept(IN_LIST) && kept(IN_OUT);
        met[call][number]++;
        if (answer != -(int32_t)number || !unchanged) {
            wrong[call][number]++;
            printf("%s: %s: answer %d, not %d%s\n", calls[call].name, what, (int)answer, -(int)number, unchanged ? "" : "; something lent has changed");
        }
    }
}

static void all_refuse(unsigned first, unsigned last, unsigned number, const char *what)
{
    for (unsigned call = first; call <= last; call++) {
        refuses(call, number, what);
    }
}

/* ---- chart sets: two charts with every kind of trigger, each kind of node and action, an action with a guard, state 4 with two waiting actions */

enum { AT_STATES = 2, AT_TRANSITIONS = 7, AT_NODES = 15, AT_ACTIONS = 25, AT_WAITING = 28, RECORDS = 30 };

static void make_set(file *f)
{
    f->len = 0;
    add_chart(f, 0);
    add_chart(f, 3);
    for (unsigned state = 0; state < 5; state++) {
        add_state(f, state >= 3);
    }
    add_transition(f, 1, 0, 1, NO_TRIGGER, 0, NONE);
    add_transition(f, 1, 1, 2, ON_EVENT, 3, 2);
    add_transition(f, 2, 1, 1, AFTER, 300, NONE);
    add_transition(f, 1, 2, 1, EVERY, 200, NONE);
    add_transition(f, 1, 3, 4, NO_TRIGGER, 0, NONE);
    add_transition(f, 3, 4, 4, ON_EVENT, 5, NONE);
    add_variable(f, VARIABLE, -100, 100, 1);
    add_variable(f, VARIABLE, 0, 10, 0);
    add_node(f, NODE, VALUE, 0, 0, 0);
    add_constant(f, NODE, 5);
    add_node(f, NODE, LESS, 0, 1, 0);
    add_constant(f, NODE, 7);
    add_node(f, NODE, VALUE, 0, 0, 0);
    add_constant(f, NODE, 2);
    add_node(f, NODE, QUOTIENT, 4, 5, 0);
    add_node(f, NODE, VALUE, 1, 0, 0);
    add_constant(f, NODE, 9);
    add_node(f, NODE, AT_MOST, 7, 8, 0);
    add_action(f, ENTRY, 1, ASSIGN, 1, 3);
    guard_last(f, 9);
    add_action(f, ON_TRANSITION, 1, ASSIGN, 0, 6);
    add_action(f, EXIT, 2, RAISE, 5, 0);
    add_waiting(f, 4, 200, RAISE, 6, 0);
    add_waiting(f, 4, 200, RAISE, 7, 0);
}

static uint8_t *record(file *f, size_t number)
{
    return f->bytes + number * RECORD;
}

/* Breaks the set by each number; whatever else is broken too, the lowest stays the lowest. */
static void break_set(file *f, unsigned number)
{
    switch (number) {
    case 1: f->bytes[f->len++] = 0; break;
    case 2: record(f, 0)[0] = 0; break;
    case 3: for (unsigned i = 0; i < 512; i++) { add_action(f, EXIT, 2, RAISE, 5, 0); } break;
    case 4: record(f, AT_STATES)[15] = 1; break;
    case 5: record(f, AT_TRANSITIONS + 5)[1] = 17; break;
    case 6: set_two(record(f, AT_TRANSITIONS + 4), 4, 99); break;
    case 7: record(f, AT_TRANSITIONS + 2)[1] = 1; break;
    case 8: set_two(record(f, AT_NODES + 6), 4, 4); break;
    case 9: set_four(record(f, AT_TRANSITIONS + 2), 8, 50); break;
    case 25: set_four(record(f, AT_WAITING), 12, 300); break;
    default: abort();
    }
}

static file work, table;

/* All 1,023 choices of what is broken, from the last that is asked to the first; the length comes last since it moves the end. */
static void broken_sets(void)
{
    static const unsigned numbers[] = {25, 9, 8, 7, 6, 5, 4, 3, 2, 1};
    for (unsigned broken = 1; broken < 1024; broken++) {
        unsigned lowest = 0;
        make_set(&work);
        for (unsigned i = 0; i < 10; i++) {
            if (broken >> i & 1) {
                break_set(&work, numbers[i]);
                lowest = numbers[i];
            }
        }
        all_refuse(CHECK_C, BACK, lowest, "a broken set");
    }
}

/* One change of a file's bytes, of the last value's width. */
typedef struct {
    const char *what;
    size_t record, byte, width;
    uint32_t value;
    unsigned number;
} change;

static void apply(file *f, const change *c)
{
    uint8_t *r = record(f, c->record);
    if (c->width == 1) {
        r[c->byte] = (uint8_t)c->value;
    } else if (c->width == 2) {
        set_two(r, c->byte, c->value);
    } else {
        set_four(r, c->byte, c->value);
    }
}

static const change set_changes[] = {
    {"an unknown kind", RECORDS - 1, 0, 1, 7, 2},
    {"a descending kind", 3, 0, 1, 1, 2},
    {"an unnamed byte of a chart", 0, 1, 1, 1, 4},
    {"an unused event", 7, 7, 1, 1, 4},
    {"unused milliseconds", 8, 8, 4, 100, 4},
    {"an unused operand", 16, 2, 2, 1, 4},
    {"an unused node", AT_ACTIONS + 2, 6, 2, 1, 4},
    {"an unnamed byte behind an action's guard", AT_ACTIONS, 10, 1, 1, 4},
    {"an unnamed byte of an action without guard", AT_ACTIONS + 1, 10, 1, 1, 4},
    {"milliseconds of an entry action", AT_ACTIONS, 12, 4, 200, 4},
    {"milliseconds of a transition's action", AT_ACTIONS + 1, 12, 4, 200, 4},
    {"the last byte of an exit action", AT_ACTIONS + 2, 15, 1, 1, 4},
    {"an unnamed byte of a waiting action", AT_WAITING, 11, 1, 1, 4},
    {"a waiting action that becomes an exit action", AT_WAITING, 1, 1, EXIT, 4},
    {"priority 0", 7, 1, 1, 0, 5},
    {"an unknown trigger", 7, 6, 1, 4, 5},
    {"event 32", 8, 7, 1, 32, 5},
    {"0 ms", 9, 8, 4, 0, 5},
    {"3,600,001 ms", 9, 8, 4, 3600001, 5},
    {"a start below the lowest", 14, 6, 2, 65535, 5},
    {"an unknown operator", 16, 1, 1, 9, 5},
    {"an unknown place", AT_ACTIONS + 2, 1, 1, 5, 5},
    {"an unknown place of a guarded action", AT_ACTIONS, 1, 1, 0, 5},
    {"an unknown place of a waiting action", AT_WAITING, 1, 1, 5, 5},
    {"a waiting action without milliseconds", AT_WAITING, 12, 4, 0, 5},
    {"an exit action that becomes a waiting one", AT_ACTIONS + 2, 1, 1, WAITING, 5},
    {"a waiting action of 3,600,001 ms", AT_WAITING + 1, 12, 4, 3600001, 5},
    {"a waiting action of the most milliseconds that there are", AT_WAITING, 12, 4, UINT32_MAX, 5},
    {"an unknown deed", AT_ACTIONS + 2, 4, 1, 3, 5},
    {"an unknown deed of a guarded action", AT_ACTIONS, 4, 1, 3, 5},
    {"raised event 32", AT_ACTIONS + 2, 5, 1, 32, 5},
    {"an initial state that is not there", 0, 2, 2, 5, 6},
    {"a chart that is not there", 6, 1, 1, 2, 6},
    {"a guard that is not there", 8, 12, 2, 10, 6},
    {"an action's guard that is not there", AT_ACTIONS, 8, 2, 10 + 1, 6},
    {"guard 65,534 of a raise", AT_ACTIONS + 2, 8, 2, 65535, 6},
    {"a variable that is not there", 15, 2, 2, 2, 6},
    {"an operand that is not there", 17, 2, 2, 65535, 6},
    {"an owner that is not there", AT_ACTIONS + 1, 2, 2, 6, 6},
    {"a waiting action whose owner is a transition's number", AT_WAITING, 2, 2, 5, 6},
    {"a waiting action's guard that is not there", AT_WAITING, 8, 2, 10 + 1, 6},
    {"an assigned variable that is not there", AT_ACTIONS, 5, 1, 2, 6},
    {"a transition across charts", 8, 4, 2, 4, 7},
    {"an initial state of another chart", 1, 2, 2, 1, 7},
    {"an initial state with trigger", 11, 6, 1, 1, 7},
    {"an initial state entered", 12, 4, 2, 3, 7},
    {"an initial state with an entry action", AT_ACTIONS, 2, 2, 0, 7},
    {"an operand that is not lower", 17, 2, 2, 2, 8},
    {"a truth where a number stands", 21, 2, 2, 2, 8},
    {"a guard that is no truth", 8, 12, 2, 6, 8},
    {"an action's guard that is no truth", AT_ACTIONS, 8, 2, 8 + 1, 8},
    {"a raise's guard that is a number of another action", AT_ACTIONS + 2, 8, 2, 3 + 1, 8},
    {"an action's guard twice", AT_ACTIONS + 1, 8, 2, 9 + 1, 8},
    {"an action's guard that is a transition's", AT_ACTIONS + 2, 8, 2, 2 + 1, 8},
    {"the node of a guard that is taken away", AT_ACTIONS, 8, 2, 0, 8},
    {"a waiting action's guard that is another's", AT_WAITING, 8, 2, 9 + 1, 8},
    {"after 49 ms", 9, 8, 4, 49, 9},
    {"after 50 ms, an exact half", 9, 8, 4, 50, 9},
    {"every 50 ms, an exact half", 10, 8, 4, 50, 9},
    {"a waiting action of 50 ms, an exact half", AT_WAITING, 12, 4, 50, 9},
    {"a waiting action of 49 ms", AT_WAITING + 1, 12, 4, 49, 9},
    {"waiting actions of 300 and 200 ms", AT_WAITING, 12, 4, 300, 25},
    {"waiting actions of 200 and 201 ms, both 2 ticks", AT_WAITING + 1, 12, 4, 201, 25},
};

static void changed_sets(void)
{
    for (size_t i = 0; i < sizeof set_changes / sizeof set_changes[0]; i++) {
        make_set(&work);
        apply(&work, &set_changes[i]);
        all_refuse(CHECK_C, BACK, set_changes[i].number, set_changes[i].what);
    }
    work.len = 0;
    all_refuse(CHECK_C, BACK, 3, "no bytes");
    make_set(&work);
    work.len = AT_STATES * RECORD;
    memmove(work.bytes, work.bytes + work.len, RECORD * (RECORDS - AT_STATES));
    work.len = RECORD * (RECORDS - AT_STATES);
    all_refuse(CHECK_C, BACK, 3, "no chart");
    make_set(&work);
    for (unsigned i = 0; i < 8; i++) {
        add_action(&work, EXIT, 2, RAISE, 5, 0);
    }
    all_refuse(CHECK_C, BACK, 7, "a ninth action");
    make_set(&work);
    for (unsigned i = 0; i < 8; i++) {
        add_waiting(&work, 2, 200, RAISE, 5, 0);
    }
    all_refuse(CHECK_C, BACK, 7, "an exit action and eight waiting ones");
    work.len -= RECORD;
    add_waiting(&work, 0, 100, RAISE, 5, 0);
    must(charts_check(work.bytes, work.len) == 0, "eight actions of a state, waiting ones among them, and a waiting one of an initial state");
    make_set(&work);
    for (size_t cut = 1; cut < RECORD; cut++) {
        work.len = RECORD * RECORDS - cut;
        all_refuse(CHECK_C, BACK, 1, "an odd length");
    }
}

/* ---- automata tables: the twin of the set, with 12 edges, 3 clocks */

static void make_twin(const file *of)
{
    int32_t len = charts_translate(of->bytes, of->len, table.bytes, sizeof table.bytes);
    must(len > 0 && automata_check(table.bytes, (size_t)len) == 0, "a twin to break");
    table.len = (size_t)len;
}

/* The ticks of the twin's clock for a time: the nearest, and of an exact half the even ones. */
static void rounded_times(void)
{
    static const struct {
        uint32_t milliseconds;
        unsigned ticks;
    } times[] = {{51, 1}, {149, 1}, {150, 2}, {249, 2}, {250, 2}, {251, 3}, {350, 4}, {3599950, 36000}, {3600000, 36000}};
    for (size_t i = 0; i < sizeof times / sizeof times[0]; i++) {
        make_set(&work);
        set_four(record(&work, AT_TRANSITIONS + 2), 8, times[i].milliseconds);
        make_twin(&work);
        must(two_at(table.bytes, first_of(table.bytes, table.len, CLOCK) + 2) == times[i].ticks, "the ticks of a time");
        make_set(&work);
        set_four(record(&work, AT_WAITING), 12, times[i].milliseconds);
        set_four(record(&work, AT_WAITING + 1), 12, times[i].milliseconds);
        make_twin(&work);
        must(two_at(table.bytes, first_of(table.bytes, table.len, CLOCK) + 2 * RECORD + 2) == times[i].ticks, "the ticks of waiting actions");
    }
    puts("ok: times are rounded to the nearest tick, exact halves to the even one");
}

/* A change counts records from the first of its kind. */
static const struct {
    uint8_t kind;
    change change;
} table_changes[] = {
    {AUTOMATON, {"an unknown kind", 0, 0, 1, 32, 11}},
    {RESET, {"a kind past the last", 0, 0, 1, 42, 11}},
    {EDGE, {"a descending kind", 1, 0, 1, 34, 11}},
    {LOCATION, {"an unnamed byte", 0, 9, 1, 1, 11}},
    {LITERAL, {"an unused clock", 1, 6, 2, 1, 11}},
    {EDGE, {"an idle mark of 2", 0, 6, 1, 2, 11}},
    {LITERAL, {"an unknown sign", 0, 1, 1, 3, 11}},
    {LITERAL, {"an unknown trigger", 0, 4, 1, 3, 11}},
    {CLOCK, {"an unknown timing", 0, 1, 1, 1, 11}},
    {CLOCK, {"0 ticks", 0, 2, 2, 0, 11}},
    {CLOCK, {"36,001 ticks", 0, 2, 2, 36001, 11}},
    {TWIN_VARIABLE, {"a lowest above the start", 0, 2, 2, 2, 11}},
    {TWIN_NODE, {"an unknown operator", 1, 1, 1, 15, 11}},
    {UPDATE, {"an unknown deed", 0, 1, 1, 0, 11}},
    {UPDATE, {"an unnamed byte behind an update's guard", 0, 10, 1, 1, 11}},
    {UPDATE, {"the last byte of an update", 0, 15, 1, 1, 11}},
    {AUTOMATON, {"an initial location that is not there", 0, 2, 2, 5, 11}},
    {LOCATION, {"an automaton that is not there", 4, 1, 1, 2, 11}},
    {EDGE, {"a target that is not there", 0, 4, 2, 5, 11}},
    {LITERAL, {"an edge that is not there", 0, 2, 2, 12, 11}},
    {LITERAL, {"a node that is not there", 0, 8, 2, 10, 11}},
    {UPDATE, {"an update's guard that is not there", 0, 8, 2, 10 + 1, 11}},
    {UPDATE, {"guard 65,534 of an update", 1, 8, 2, 65535, 11}},
    {UPDATE, {"an updated variable that is not there", 0, 4, 1, 64, 11}},
    {RESET, {"a clock that is not there", 0, 4, 2, 3, 11}},
    {AUTOMATON, {"an initial location of another automaton", 0, 2, 2, 4, 11}},
    {EDGE, {"an edge across automata", 0, 4, 2, 4, 11}},
    {EDGE, {"an idle edge with two ends", 0, 6, 1, 1, 11}},
    {TWIN_NODE, {"an operand that is not lower", 2, 2, 2, 2, 11}},
    {TWIN_NODE, {"an operand twice", 6, 4, 2, 4, 11}},
    {LITERAL, {"a guard that is no truth", 1, 8, 2, 3, 11}},
    {UPDATE, {"an updating node that is a truth", 0, 6, 2, 2, 11}},
    {UPDATE, {"an update's guard that is no truth", 0, 8, 2, 3 + 1, 11}},
};

static void broken_tables(void)
{
    make_set(&work);
    make_twin(&work);
    file *whole = malloc(sizeof *whole);
    must(whole != NULL, "memory");
    *whole = table;
    for (size_t i = 0; i < sizeof table_changes / sizeof table_changes[0]; i++) {
        table = *whole;
        change c = table_changes[i].change;
        c.record += first_of(whole->bytes, whole->len, table_changes[i].kind) / RECORD;
        apply(&table, &c);
        all_refuse(CHECK_A, PLAY_A, 11, c.what);
    }
    table = *whole;
    table.len -= 1;
    all_refuse(CHECK_A, PLAY_A, 11, "an odd length");
    table.len = 0;
    all_refuse(CHECK_A, PLAY_A, 11, "no bytes");
    table = *whole;
    table.bytes[table.len - 1] = 1;
    table.len += 1;
    all_refuse(CHECK_A, PLAY_A, 11, "many things at once");
    free(whole);
}

/* ---- tables with the most of a kind, and with one more */

static const struct {
    uint8_t kind;
    unsigned most;
    const char *one_more;
} limits[] = {
    {AUTOMATON, 8, "9 automata"}, {LOCATION, 128, "129 locations"}, {EDGE, 512, "513 edges"}, {LITERAL, 2944, "2,945 literals"}, {CLOCK, 384, "385 clocks"},
    {TWIN_VARIABLE, 64, "65 variables"}, {TWIN_NODE, 1024, "1,025 nodes"}, {UPDATE, 7168, "7,169 updates"}, {RESET, 4352, "4,353 resets"},
};
enum { LIMITS = sizeof limits / sizeof limits[0] };

/* The record of a kind in a table of so many of each kind: each has its number wherever that can be, updates share one guard. */
static void add_some(file *f, uint8_t kind, unsigned i, const unsigned counts[LIMITS])
{
    unsigned edge = i % counts[EDGE - AUTOMATON], clock = i % counts[CLOCK - AUTOMATON], nodes = counts[TWIN_NODE - AUTOMATON];
    switch (kind) {
    case AUTOMATON: add_automaton(f, i); break;
    case LOCATION: add_location(f, i % counts[0]); break;
    case EDGE: add_edge(f, 0, 0, 0, i % 2); break;
    case LITERAL: add_literal(f, MUST_HOLD, edge, ON_CLOCK, clock, nodes - 1); break;
    case CLOCK: add_clock(f, AFTER, 1); break;
    case TWIN_VARIABLE: add_variable(f, kind, 0, 0, 0); break;
    case TWIN_NODE: i + 1 < nodes ? add_constant(f, kind, 0) : add_node(f, kind, LESS, 0, 1, 0); break;
    case UPDATE: add_update(f, ASSIGN, edge, i % counts[TWIN_VARIABLE - AUTOMATON], i % (nodes - 1)); guard_last(f, nodes - 1); break;
    default: add_reset(f, edge, clock);
    }
}

static void make_table(file *f, const unsigned counts[LIMITS])
{
    f->len = 0;
    for (unsigned k = 0; k < LIMITS; k++) {
        for (unsigned i = 0; i < counts[k]; i++) {
            add_some(f, limits[k].kind, i, counts);
        }
    }
}

/* Each kind's most alone, and the most of all kinds, the longest table, are accepted; with one more of a kind neither is. */
static void most_of_each(void)
{
    for (unsigned k = 0; k < LIMITS; k++) {
        unsigned few[LIMITS], most[LIMITS];
        for (unsigned other = 0; other < LIMITS; other++) {
            few[other] = other == 0 ? 1 : 9;
            most[other] = limits[other].most;
        }
        few[k] = limits[k].most;
        make_table(&table, few);
        must(automata_check(table.bytes, table.len) == 0, "the most of a kind");
        few[k]++;
        make_table(&table, few);
        all_refuse(CHECK_A, PLAY_A, 11, limits[k].one_more);
        make_table(&table, most);
        must(automata_check(table.bytes, table.len) == 0 && table.len == MONUVALECK_LONGEST_TWIN, "the longest table");
        most[k]++;
        make_table(&table, most);
        all_refuse(CHECK_A, PLAY_A, 11, limits[k].one_more);
    }
    puts("ok: tables with the most of each kind");
}

/* ---- runs: 12 to 14 */

/* A change of a field; the width is its size. */
typedef struct {
    const char *what;
    size_t offset, width;
    uint32_t value;
} poke;

static void poke_run(void *run, const poke *p)
{
    uint16_t two = (uint16_t)p->value;
    memcpy((uint8_t *)run + p->offset, p->width == 2 ? (const void *)&two : (const void *)&p->value, p->width);
}

#define PLACE(type, field) offsetof(type, field), sizeof(((type *)0)->field)
#define SHARED_POKES(type)                                                                                            \
    {"a variable above its range", PLACE(type, variables[0]), 101},                                                   \
        {"a variable below its range", PLACE(type, variables[1]), 65535},                                             \
        {"an unused variable", PLACE(type, variables[2]), 1}, {"the last variable", PLACE(type, variables[63]), 1},   \
        {"an event present at position 1", PLACE(type, events), 1u << 31}, {"position 0", PLACE(type, position), 0},  \
        {"position n + 2", PLACE(type, position), 4}, {"the highest position", PLACE(type, position), UINT32_MAX},    \
        {"a count of 1,000,001", PLACE(type, cycles), 1000001}, {"the highest count", PLACE(type, cycles), UINT32_MAX}

static const poke charts_pokes[] = {
    SHARED_POKES(charts_run),
    {"a state of another chart", PLACE(charts_run, states[0]), 4},
    {"a state that is not there", PLACE(charts_run, states[1]), 5},
    {"an unused state", PLACE(charts_run, states[2]), 1},
    {"the last state", PLACE(charts_run, states[7]), 65535},
    {"an age over the count", PLACE(charts_run, ages[0]), 1},
    {"the highest age", PLACE(charts_run, ages[1]), UINT32_MAX},
    {"an unused age", PLACE(charts_run, ages[7]), 1},
};

static const poke automata_pokes[] = {
    SHARED_POKES(automata_run),
    {"a location of another automaton", PLACE(automata_run, locations[0]), 4},
    {"a location that is not there", PLACE(automata_run, locations[1]), 5},
    {"an unused location", PLACE(automata_run, locations[2]), 1},
    {"an after-clock over its top", PLACE(automata_run, clocks[0]), 4},
    {"an every-clock over its top", PLACE(automata_run, clocks[1]), 3},
    {"a waiting clock over its top", PLACE(automata_run, clocks[2]), 3},
    {"an unused clock", PLACE(automata_run, clocks[3]), 1},
    {"the last clock", PLACE(automata_run, clocks[383]), 65535},
};

static void fresh_runs(void)
{
    must(charts_start(work.bytes, work.len, &given.charts) == 0, "a run to break");
    must(automata_start(table.bytes, table.len, &given.automata) == 0, "a twin's run to break");
}

/* Turn, cycle and play of charts, or of automata, given the events, refuse by the number. */
static void moves_refuse(bool automata, uint32_t events, unsigned number, const char *what)
{
    given.f = automata ? &table : &work;
    given.events = events;
    given.masks[0] = events;
    all_refuse(automata ? TURN_A : TURN_C, automata ? PLAY_A : PLAY_C, number, what);
}

static void impossible_runs(void)
{
    for (size_t i = 0; i < sizeof charts_pokes / sizeof charts_pokes[0]; i++) {
        fresh_runs();
        poke_run(&given.charts, &charts_pokes[i]);
        moves_refuse(false, 0, 12, charts_pokes[i].what);
        moves_refuse(false, 8, 12, "an impossible run and events");
    }
    for (size_t i = 0; i < sizeof automata_pokes / sizeof automata_pokes[0]; i++) {
        fresh_runs();
        poke_run(&given.automata, &automata_pokes[i]);
        moves_refuse(true, 0, 12, automata_pokes[i].what);
        moves_refuse(true, 8, 12, "an impossible run and events");
    }
    fresh_runs();
    given.automata.clocks[0] = 3;
    given.automata.clocks[1] = given.automata.clocks[2] = 2;
    must(automata_cycle(table.bytes, table.len, &given.automata, 0) == 0, "clocks at their tops");
}

/* Both runs at a position and a count. */
static void set_time(uint32_t position, uint32_t cycles)
{
    given.charts.position = given.automata.position = position;
    given.charts.cycles = given.automata.cycles = cycles;
}

static void times(void)
{
    for (unsigned automata = 0; automata < 2; automata++) {
        fresh_runs();
        for (uint32_t position = 2; position <= 3; position++) {
            set_time(position, 0);
            moves_refuse(automata, 1, 13, "events past position 1");
            moves_refuse(automata, UINT32_MAX, 13, "all events past position 1");
            set_time(position, 999999);
            moves_refuse(automata, 1, 13, "events past position 1 in the last cycle");
            set_time(position, 1000000);
            moves_refuse(automata, 0, 12, "1,000,000 cycles past position 1");
        }
        set_time(1, 1000000);
        moves_refuse(automata, 0, 14, "1,000,000 cycles done");
        moves_refuse(automata, 8, 14, "1,000,000 cycles done, with events");
        given.charts.variables[0] = given.automata.variables[0] = 101;
        moves_refuse(automata, 0, 12, "1,000,000 cycles done, with a variable out of its range");
    }
}

/* ---- faults: the second chart assigns to its variable, -100 to 100, as it leaves its initial state */

static void begin_faulting(file *f)
{
    f->len = 0;
    add_chart(f, 0);
    add_chart(f, 2);
    for (unsigned state = 0; state < 4; state++) {
        add_state(f, state >= 2);
    }
    add_transition(f, 1, 0, 1, NO_TRIGGER, 0, NONE);
    add_transition(f, 1, 2, 3, NO_TRIGGER, 0, NONE);
    add_variable(f, VARIABLE, -100, 100, 0);
}

static const struct {
    const char *what;
    int32_t a, b, c;
    unsigned first, second; /* (a first b) second c; where there is no second, a first b; where there is no first, a */
    unsigned number;
} faults[] = {
    {"a sum above 32 bits", INT32_MAX, 1, 0, SUM, 0, 15},
    {"a difference below 32 bits", INT32_MIN, 1, 0, DIFFERENCE, 0, 15},
    {"a product above 32 bits", 65536, 32768, 0, PRODUCT, 0, 15},
    {"the quotient of the lowest and -1", INT32_MIN, -1, 0, QUOTIENT, 0, 15},
    {"a quotient by 0", 1, 0, 0, QUOTIENT, 0, 16},
    {"a remainder by 0", INT32_MIN, 0, 0, REMAINDER, 0, 16},
    {"the range before the divisor", INT32_MAX, 1, 0, SUM, QUOTIENT, 15},
    {"the divisor before the range", 1, 0, INT32_MAX, REMAINDER, PRODUCT, 16},
    {"101", 101, 0, 0, 0, 0, 17},
    {"-101", -101, 0, 0, 0, 0, 17},
    {"100 + 1", 100, 1, 0, SUM, 0, 17},
};

static void make_faulting(file *f, size_t fault)
{
    begin_faulting(f);
    add_constant(f, NODE, faults[fault].a);
    unsigned root = 0;
    if (faults[fault].first != 0) {
        add_constant(f, NODE, faults[fault].b);
        add_node(f, NODE, faults[fault].first, 0, 1, 0);
        root = 2;
    }
    if (faults[fault].second != 0) {
        add_constant(f, NODE, faults[fault].c);
        add_node(f, NODE, faults[fault].second, 2, 3, 0);
        root = 4;
    }
    add_action(f, ON_TRANSITION, 1, ASSIGN, 0, root);
}

/* A turn of the second chart faults; a cycle faults as a whole, also the first chart's turn in it. */
static void faulting_sets(void)
{
    for (size_t i = 0; i < sizeof faults / sizeof faults[0]; i++) {
        make_faulting(&work, i);
        make_twin(&work);
        fresh_runs();
        must(charts_turn(work.bytes, work.len, &given.charts, 7) == 0, "the first chart's turn");
        must(automata_turn(table.bytes, table.len, &given.automata, 7) == 0, "the first automaton's turn");
        for (unsigned automata = 0; automata < 2; automata++) {
            moves_refuse(automata, 0, faults[i].number, faults[i].what);
            moves_refuse(automata, 1, 13, "events before a fault");
        }
        fresh_runs();
        for (unsigned automata = 0; automata < 2; automata++) {
            given.f = automata ? &table : &work;
            given.masks[0] = given.events = 7;
            all_refuse(automata ? CYCLE_A : CYCLE_C, automata ? PLAY_A : PLAY_C, faults[i].number, "a fault in a cycle's second turn");
        }
    }
}

/* ---- guards of actions */

/* A guard behind the nodes of a fault by a number, which is false, or faults by another number. */
static unsigned add_condition(file *f, bool faults_too, unsigned number)
{
    unsigned n = (unsigned)count_of(f->bytes, f->len, NODE);
    add_constant(f, NODE, INT32_MAX);
    add_constant(f, NODE, number == 16 ? 1 : 0);
    if (faults_too) {
        add_node(f, NODE, number == 16 ? SUM : QUOTIENT, n, n + 1, 0);
        add_constant(f, NODE, 0);
        n += 2;
    }
    add_node(f, NODE, EQUAL, n, n + 1, 0);
    return n + 2;
}

/* The assignment of a fault with a guard that is false: nothing faults. With one that faults: the guard's fault, which is another, comes first. */
static void guarded_faults(void)
{
    for (size_t i = 0; i < sizeof faults / sizeof faults[0]; i++) {
        for (unsigned faults_too = 0; faults_too < 2; faults_too++) {
            uint8_t assignment[RECORD];
            make_faulting(&work, i);
            work.len -= RECORD;
            memcpy(assignment, work.bytes + work.len, RECORD);
            unsigned guard = add_condition(&work, faults_too, faults[i].number);
            memcpy(work.bytes + work.len, assignment, RECORD);
            work.len += RECORD;
            guard_last(&work, guard);
            make_twin(&work);
            fresh_runs();
            given.f = &work;
            given.masks[0] = given.events = 7;
            if (faults_too) {
                all_refuse(CYCLE_C, PLAY_C, faults[i].number == 16 ? 15 : 16, "a guard's fault before its number's");
                given.f = &table;
                all_refuse(CYCLE_A, PLAY_A, faults[i].number == 16 ? 15 : 16, "a guard's fault before its number's");
            } else {
                must(charts_cycle(work.bytes, work.len, &given.charts, 7) == 0 && given.charts.variables[0] == 0 &&
                         automata_cycle(table.bytes, table.len, &given.automata, 7) == 0 && given.automata.variables[0] == 0,
                     "an assignment whose guard is false");
            }
        }
    }
    puts("ok: an action whose guard is false is skipped, its number not worked out");
}

/* v0 := 1; v0 := 2 if v0 is 1; v0 := 3 if v0 is 1; raise 5 if v0 is 2; raise 6 if v0 is 1: each guard sees what the actions before it did. */
static void guards_in_sequence(void)
{
    static const int compared[] = {0, 1, 1, 2, 1};
    begin_faulting(&work);
    for (unsigned i = 0; i < 3; i++) {
        add_constant(&work, NODE, (int32_t)i + 1);
    }
    for (unsigned i = 1; i < 5; i++) {
        add_node(&work, NODE, VALUE, 0, 0, 0);
        add_constant(&work, NODE, compared[i]);
        add_node(&work, NODE, EQUAL, 3 * i, 3 * i + 1, 0);
    }
    for (unsigned i = 0; i < 5; i++) {
        add_action(&work, ON_TRANSITION, 0, i < 3 ? ASSIGN : RAISE, i < 3 ? 0 : i + 2, i < 3 ? i : 0);
        if (i > 0) {
            guard_last(&work, 3 * i + 2);
        }
    }
    make_twin(&work);
    fresh_runs();
    must(charts_turn(work.bytes, work.len, &given.charts, 1) == 0 && given.charts.variables[0] == 2 && given.charts.events == (1 | 1u << 5) &&
             automata_turn(table.bytes, table.len, &given.automata, 1) == 0 && given.automata.variables[0] == 2 && given.automata.events == (1 | 1u << 5),
         "guards in sequence");
    puts("ok: an action's guard sees what the actions before it did");
}

/* ---- waiting actions */

/* Chart 0 enters state 1 and, while it idles there, every 2 ticks adds 1 to v0, which goes to 100, and raises event 5 where v0 is even; event 0 enters it anew. Chart 1
 * counts in v1 the events 5 that it meets. */
static void make_waiting(file *f)
{
    f->len = 0;
    add_chart(f, 0);
    add_chart(f, 2);
    for (unsigned state = 0; state < 4; state++) {
        add_state(f, state >= 2);
    }
    add_transition(f, 1, 0, 1, NO_TRIGGER, 0, NONE);
    add_transition(f, 1, 1, 1, ON_EVENT, 0, NONE);
    add_transition(f, 1, 2, 3, NO_TRIGGER, 0, NONE);
    add_transition(f, 1, 3, 3, ON_EVENT, 5, NONE);
    add_variable(f, VARIABLE, -100, 100, 0);
    add_variable(f, VARIABLE, -100, 100, 0);
    for (unsigned v = 0; v < 2; v++) {
        add_node(f, NODE, VALUE, v, 0, 0);
        add_constant(f, NODE, 1);
        add_node(f, NODE, SUM, 3 * v, 3 * v + 1, 0);
    }
    add_node(f, NODE, VALUE, 0, 0, 0);
    add_constant(f, NODE, 2);
    add_node(f, NODE, REMAINDER, 6, 7, 0);
    add_constant(f, NODE, 0);
    add_node(f, NODE, EQUAL, 8, 9, 0);
    add_waiting(f, 1, 250, ASSIGN, 0, 2);
    add_action(f, ON_TRANSITION, 3, ASSIGN, 1, 5);
    add_waiting(f, 1, 250, RAISE, 5, 0);
    guard_last(f, 10);
}

/* Both sides through a cycle turn by turn: the transition or idle edge of chart 0, and the values after the cycle. */
static void waited(uint32_t events, int32_t answer, int32_t edge, int v0, int v1)
{
    must(charts_turn(work.bytes, work.len, &given.charts, events) == answer && automata_turn(table.bytes, table.len, &given.automata, events) == edge,
         "what a chart that waits answers");
    must(charts_cycle(work.bytes, work.len, &given.charts, 0) == 0 && automata_cycle(table.bytes, table.len, &given.automata, 0) == 0, "a cycle with waiting actions");
    must(given.charts.variables[0] == v0 && given.charts.variables[1] == v1 && given.automata.variables[0] == v0 && given.automata.variables[1] == v1,
         "what waiting actions do");
}

/* Idle edges: 4 of state 0; 5, 6 of state 1, due and not due; 7 and 8. */
static void waiting_actions(void)
{
    make_waiting(&work);
    make_twin(&work);
    fresh_runs();
    waited(0, 0, 0, 0, 0);
    waited(0, MONUVALECK_IDLE, 6, 0, 0);
    waited(0, MONUVALECK_IDLE, 5, 1, 0);
    waited(0, MONUVALECK_IDLE, 6, 1, 0);
    waited(0, MONUVALECK_IDLE, 5, 2, 1);
    must(given.charts.ages[0] == 5 && given.automata.clocks[0] == 1, "the age goes on");
    waited(0, MONUVALECK_IDLE, 6, 2, 1);
    waited(1, 1, 1, 2, 1); /* due, but a transition is taken; age 0 again */
    waited(0, MONUVALECK_IDLE, 6, 2, 1);
    waited(0, MONUVALECK_IDLE, 5, 3, 1);
    given.charts.variables[0] = given.automata.variables[0] = 100;
    waited(0, MONUVALECK_IDLE, 6, 100, 1);
    moves_refuse(false, 0, 17, "a waiting action that faults");
    moves_refuse(true, 0, 17, "a waiting action that faults");
    moves_refuse(false, 8, 17, "a waiting action that faults, with events");
    waited(1, 1, 1, 100, 1);
    static const uint16_t both[] = {0, 2, 65535, 5, 8, 65535, 6, 8};
    uint32_t back[6];
    must(path_back(work.bytes, work.len, both, 8, back, 6) == 2, "due and not-due edges, which give no row");
    puts("ok: waiting actions of charts and twins");
}

/* All of 128 states wait, and all of 256 transitions enter a state that 16 timed ones leave: as many edges and resets as a table may have. */
static void widest_twin(void)
{
    work.len = 0;
    add_chart(&work, 0);
    for (unsigned state = 0; state < 128; state++) {
        add_state(&work, 0);
    }
    add_transition(&work, 1, 0, 1, NO_TRIGGER, 0, NONE);
    for (unsigned t = 0; t < 255; t++) {
        add_transition(&work, 1 + t % 16, 1 + t / 16, 1, t % 2 == 0 ? AFTER : EVERY, 100 * (t + 1), NONE);
    }
    for (unsigned state = 0; state < 128; state++) {
        add_waiting(&work, state, 100 * (state + 1), RAISE, 0, 0);
    }
    make_twin(&work);
    must(count_of(table.bytes, table.len, EDGE) == 512 && count_of(table.bytes, table.len, RESET) == 4352 && count_of(table.bytes, table.len, CLOCK) == 255 + 128 &&
             count_of(table.bytes, table.len, UPDATE) == 128,
         "the most edges and resets of a twin");
    fresh_runs();
    for (unsigned cycle = 0; cycle < 40; cycle++) {
        must(charts_cycle(work.bytes, work.len, &given.charts, 0) == 0 && automata_cycle(table.bytes, table.len, &given.automata, 0) == 0 &&
                 given.charts.states[0] == given.automata.locations[0],
             "a cycle of the most edges and resets");
    }
    puts("ok: a twin of 512 edges and 4,352 resets");
}

/* One automaton, one location, so many idle edges without literals; a literal that faults at the last edge if asked. */
static void make_open(file *f, unsigned edges, bool fault)
{
    f->len = 0;
    add_automaton(f, 0);
    add_location(f, 0);
    for (unsigned edge = 0; edge < edges; edge++) {
        add_edge(f, 0, 0, 0, 1);
    }
    if (fault) {
        add_literal(f, MUST_HOLD, edges - 1, NO_TRIGGER, 0, 4);
        add_constant(f, TWIN_NODE, 1);
        add_constant(f, TWIN_NODE, 0);
        add_node(f, TWIN_NODE, QUOTIENT, 0, 1, 0);
        add_constant(f, TWIN_NODE, 0);
        add_node(f, TWIN_NODE, EQUAL, 2, 3, 0);
    }
}

static void open_edges(void)
{
    static const struct {
        unsigned edges;
        bool fault;
        unsigned number;
    } cases[] = {{0, false, 18}, {2, false, 19}, {512, false, 19}, {1, true, 16}, {3, true, 16}};
    for (size_t i = 0; i < sizeof cases / sizeof cases[0]; i++) {
        make_open(&table, cases[i].edges, cases[i].fault);
        must(automata_start(table.bytes, table.len, &given.automata) == 0, "a table of open edges");
        moves_refuse(true, 5, cases[i].number, "open edges");
    }
}

/* ---- lent buffers, paths and rows */

/* Every length that is too short, and some that are not. */
static void buffers(void)
{
    make_set(&work);
    make_twin(&work);
    given.f = &work;
    for (given.out_len = 0; given.out_len < table.len; given.out_len++) {
        refuses(TRANSLATE, 10, "a short buffer");
    }
    for (; given.out_len < table.len + 40; given.out_len++) {
        lend_given(TRANSLATE, given.out_len % 2 == 0);
        must(translate() == (int32_t)table.len && memcmp(LENT_OUT, table.bytes, table.len) == 0 && kept_from(IN_OUT, table.len) && kept(IN_FILE),
             "a translation into its length and more");
    }
    puts("ok: a translation into its length and more");
}

static uint16_t steps[MANY_STEPS];
static uint32_t rows[12]; /* apart from the filler, which stays as it is */

static void path_refused(const uint16_t *path, size_t len, size_t rows_len, unsigned number, const char *what)
{
    given.path = path;
    given.path_len = len;
    given.rows_len = rows_len;
    refuses(BACK, number, what);
}

/* Paths of the set's twin: edges 0 to 5 of the transitions, 6 to 9 of the idle states 0 to 3, 10 and 11 of state 4, which waits. */
static void paths(void)
{
    static const uint16_t no_edge[] = {0, 4, 65535, 12}, time_first[] = {65535}, time_second[] = {0, 65535}, late[] = {0, 4, 7}, another[] = {4},
                          elsewhere[] = {3}, idle_elsewhere[] = {0, 4, 65535, 6}, due_elsewhere[] = {0, 10}, high[] = {65534}, good[] = {0, 4, 65535, 2, 11, 65535, 7, 5};
    given.f = &work;
    path_refused(no_edge, 4, 30, 20, "an edge that is not there");
    path_refused(high, 1, 30, 20, "65,534");
    path_refused(time_first, 1, 30, 20, "time at position 1");
    path_refused(time_second, 2, 30, 20, "time at position 2");
    path_refused(late, 3, 30, 20, "an edge where time is due");
    path_refused(another, 1, 30, 20, "an edge of another automaton");
    path_refused(elsewhere, 1, 30, 20, "an edge of another location");
    path_refused(idle_elsewhere, 4, 30, 20, "an idle edge of another location");
    path_refused(due_elsewhere, 2, 30, 20, "a due edge of another location");
    path_refused(late, 3, 0, 20, "a broken path, and no rows");
    must(path_back(work.bytes, work.len, good, 8, rows, 12) == 4, "a path of four rows");
    for (size_t rows_len = 0; rows_len < 12; rows_len++) {
        path_refused(good, 8, rows_len, 21, "short rows");
    }
}

/* A chart that stays in its second state, through a whole run and one step more. */
static void longest_path(void)
{
    work.len = 0;
    add_chart(&work, 0);
    add_state(&work, 0);
    add_state(&work, 0);
    add_transition(&work, 1, 0, 1, NO_TRIGGER, 0, NONE);
    for (size_t i = 0; i < MANY_STEPS; i++) {
        steps[i] = i % 2 == 1 ? 65535 : 2;
    }
    steps[0] = 0;
    must(path_back(work.bytes, work.len, steps, MANY_STEPS - 1, rows, 3) == 1, "a path of 1,000,000 cycles");
    path_refused(steps, MANY_STEPS, 3, 20, "a step after 1,000,000 cycles");
    path_refused(steps, MANY_STEPS - 1, 2, 21, "a long path, and short rows");
}

/* ---- guards typed as a line */

static file line, list;

/* Lines that are read; their nodes, as the words of add_guard; how these are written, null for as they were read. */
static const struct {
    const char *line, *words, *written;
} guards[] = {
    {"v0<0", "v0 0 <", NULL},
    {"v0 < 0", "v0 0 <", "v0<0"},
    {"  v62<=v63   ", "v62 v63 <=", "v62<=v63"},
    {"((v9)) == ( (10) )", "v9 10 ==", "v9==10"},
    {"(v0<0)", "v0 0 <", "v0<0"},
    /* constants, and whose a minus is */
    {"-2147483648<2147483647", "-2147483648 2147483647 <", NULL},
    {"-0==v0", "0 v0 ==", "0==v0"},
    {"( -3)<-1", "-3 -1 <", "-3<-1"},
    {"v0-3<0", "v0 3 - 0 <", NULL},
    {"v0 -3<0", "v0 3 - 0 <", "v0-3<0"},
    {"(v0)-3<0", "v0 3 - 0 <", "v0-3<0"},
    {"v0--3<0", "v0 -3 - 0 <", NULL},
    {"v0- -3<0", "v0 -3 - 0 <", "v0--3<0"},
    {"v0--2147483648<0", "v0 -2147483648 - 0 <", NULL},
    {"-1-1--1<v0*-2", "-1 1 - -1 - v0 -2 * <", NULL},
    /* levels, and how equal ones group */
    {"1-2-3<4", "1 2 - 3 - 4 <", NULL},
    {"1-(2-3)<4", "1 2 3 - - 4 <", NULL},
    {"1+(2+3)<4", "1 2 3 + + 4 <", NULL},
    {"(1+2)+3<4", "1 2 + 3 + 4 <", "1+2+3<4"},
    {"1+2*3<4", "1 2 3 * + 4 <", NULL},
    {"(1+2)*3<4", "1 2 + 3 * 4 <", NULL},
    {"8/4%3*2<=4", "8 4 / 3 % 2 * 4 <=", NULL},
    {"8/(4%(3*2))==4", "8 4 3 2 * % / 4 ==", NULL},
    {"4<(1-2)", "4 1 2 - <", "4<1-2"},
    {"!(v0<3)", "v0 3 < !", NULL},
    {"! !( v0<3 )", "v0 3 < ! !", "!!(v0<3)"},
    {"!(!(v0<3)||v1<4)", "v0 3 < ! v1 4 < || !", NULL},
    {"v0<1&&v1<2&&v2<3", "v0 1 < v1 2 < && v2 3 < &&", NULL},
    {"v0<1&&(v1<2&&v2<3)", "v0 1 < v1 2 < v2 3 < && &&", NULL},
    {"v0<1||v1<2&&v2<3", "v0 1 < v1 2 < v2 3 < && ||", NULL},
    {"(v0<1||v1<2)&&v2<3", "v0 1 < v1 2 < || v2 3 < &&", NULL},
    {"v0<1||(v1<2||v2<3)", "v0 1 < v1 2 < v2 3 < || ||", NULL},
    {"(v0<1)||(v1<2)", "v0 1 < v1 2 < ||", "v0<1||v1<2"},
    /* choices: to the right, bare between ? and :, in parentheses under every operator */
    {"(v0<1?2:3)<4", "v0 1 < 2 3 ? 4 <", NULL},
    {"4<(v0<1 ? -2 : -3)", "4 v0 1 < -2 -3 ? <", "4<(v0<1?-2:-3)"},
    {"(v0<1?2:v1<2?3:4)==0", "v0 1 < 2 v1 2 < 3 4 ? ? 0 ==", NULL},
    {"(v0<1?v1<2?3:4:5)==0", "v0 1 < v1 2 < 3 4 ? 5 ? 0 ==", NULL},
    {"(v0<1?(v1<2?3:4):(v1<2?3:4))==0", "v0 1 < v1 2 < 3 4 ? v1 2 < 3 4 ? ? 0 ==", "(v0<1?v1<2?3:4:v1<2?3:4)==0"},
    {"((v0<1||v1<2)?2+3:(4-5))*6<7", "v0 1 < v1 2 < || 2 3 + 4 5 - ? 6 * 7 <", "(v0<1||v1<2?2+3:4-5)*6<7"},
    {"-1-(!(v0<1)?2:3)<0", "-1 v0 1 < ! 2 3 ? - 0 <", NULL},
};

/* Lines that are refused, whatever the buffer. */
static const struct {
    unsigned number;
    const char *line;
} no_guards[] = {
    /* numbers: leading zeros, ranges, also past what a register holds; a minus that is nobody's */
    {22, "00<1"}, {22, "01<2"}, {22, "-00<1"}, {22, "-01<1"}, {22, "v00<1"}, {22, "v01<1"}, {22, "v64<0"}, {22, "v100<0"}, {22, "v<0"}, {22, "v-1<0"}, {22, "V0<0"},
    {22, "2147483648<0"}, {22, "-2147483649<0"}, {22, "v0-2147483648<0"}, {22, "4294967296<0"}, {22, "18446744073709551616<0"}, {22, "v4294967296<0"},
    {22, "v18446744073709551616<0"}, {22, "v0<99999999999999999999999999"}, {22, "-"}, {22, "- 3<0"}, {22, "-v0<0"}, {22, "-(3)<0"}, {22, "--3<0"}, {22, "v0---3<0"},
    {22, "v0-- 3<0"}, {22, "+3<0"}, {22, "v0<+3"},
    /* spaces inside, and operators that are none */
    {22, " "}, {22, "    "}, {22, "v 0<0"}, {22, "v0 0<1"}, {22, "1 2<3"}, {22, "v0< =0"}, {22, "v0= =0"}, {22, "v0<1& &v1<2"}, {22, "v0<1| |v1<2"},
    {22, "v0=0"}, {22, "v0===0"}, {22, "v0=<0"}, {22, "v0!=0"}, {22, "v0>0"}, {22, "v0>=0"}, {22, "v0<<0"}, {22, "v0**2<0"}, {22, "v0<1&v1<2"}, {22, "v0<1&&&v1<2"},
    {22, "v0<1|v1<2"}, {22, "v0<1|||v1<2"}, {22, "v0<0;"}, {22, "v0.0<1"}, {22, "\tv0<0"}, {22, "v0<0\n"}, {22, "v0\r<0"}, {22, "v0<0\x7f"}, {22, "v0\xc2\xa0<0"},
    /* what is missing, or too much */
    {22, "v0<"}, {22, "<0"}, {22, "v0<1&&"}, {22, "!"}, {22, "v0!"}, {22, "v0<0!"}, {22, "v0<0 v1<0"}, {22, "("}, {22, ")"}, {22, "()"}, {22, "()<0"}, {22, "(v0<0"}, {22, "v0<0)"},
    {22, "((v0<0)"}, {22, "(v0<0))"}, {22, "v0(<0)"}, {22, "v0(1)<0"}, {22, "?1:2"}, {22, "v0<0?"}, {22, "v0<0?1"}, {22, "(v0<0?1)<2"}, {22, "(v0<0:1)<2"}, {22, "(v0<0?:1)<2"},
    {22, "(v0<0?1:)<2"}, {22, "(v0<0?1:2:3)<4"}, {22, "(v0<0?1?2:3)<4"},
    /* 22 before 23 */
    {22, "v0<1<2)"}, {22, "!v0+64-v64"}, {22, "v0&&00"},
    /* sorts: a number as the whole line, numbers for truths, truths for numbers */
    {23, "v0"}, {23, "3"}, {23, "-3"}, {23, " (v0) "}, {23, "v0+1"}, {23, "v0<1?2:3"}, {23, "!v0"}, {23, "!-3"}, {23, "!v0<3"}, {23, "!(v0)"}, {23, "!(v0<1?2:3)"}, {23, "v0<1<2"},
    {23, "v0==1==1"}, {23, "v0<1==v1<2"}, {23, "(v0<1)==(v1<2)"}, {23, "v0&&v1"}, {23, "v0<1&&v1"}, {23, "v0&&v1<1"}, {23, "v0<1||1"}, {23, "v0||v1<2"}, {23, "(v0<1)+1<2"},
    {23, "1*(v0<1)<2"}, {23, "1-!(v0<1)<2"}, {23, "(v0?1:2)<3"}, {23, "(v0<1?v1<2:3)<4"}, {23, "(v0<1?3:v1<2)<4"}, {23, "v0<1?v1<2:v2<3"}, {23, "v0<1?2:3<4"}, {23, "1<v0<1?2:3"},
};

static void set_bytes(file *f, const char *text, size_t len)
{
    memcpy(f->bytes, text, len);
    f->len = len;
}

static void set_words(file *f, const char *words)
{
    f->len = 0;
    add_guard(f, words);
}

/* The call answers the number, writes the bytes and changes nothing else. */
static void gives(unsigned call, int32_t number, const uint8_t *bytes, size_t len, const char *what)
{
    for (unsigned low = 0; low < 2; low++) {
        lend_given(call, low != 0);
        int32_t answer = calls[call].call();
        bool fine = answer == number && memcmp(areas[IN_OUT].bytes, bytes, len) == 0 && kept_from(IN_OUT, len) && kept(IN_FILE);
        if (!fine) {
            printf("%s: %s: answer %d, not %d\n", calls[call].name, what, (int)answer, (int)number);
        }
        must(fine, "a guard's answer, or what was written");
    }
}

/* Into every length that is too short, and into some that are not. */
static void fills(unsigned call, const file *from, int32_t number, const uint8_t *bytes, size_t len, const char *what)
{
    given.f = from;
    for (given.out_len = 0; given.out_len < len; given.out_len++) {
        refuses(call, 24, what);
    }
    for (; given.out_len < len + 40; given.out_len++) {
        gives(call, number, bytes, len, what);
    }
}

/* Lent lengths about those of no node, one and two; and more than any line needs. */
static void refuses_in_all(unsigned call, const file *from, unsigned number, const char *what)
{
    static const size_t lens[] = {0, 1, 15, 16, 17, 32, 8192};
    given.f = from;
    for (size_t i = 0; i < sizeof lens / sizeof lens[0]; i++) {
        given.out_len = lens[i];
        refuses(call, number, what);
    }
}

static void read_lines(void)
{
    for (size_t i = 0; i < sizeof guards / sizeof guards[0]; i++) {
        set_bytes(&line, guards[i].line, strlen(guards[i].line));
        set_words(&list, guards[i].words);
        fills(READ, &line, (int32_t)(list.len / RECORD), list.bytes, list.len, guards[i].line);
    }
    puts("ok: lines read into their nodes and more");
    for (size_t i = 0; i < sizeof no_guards / sizeof no_guards[0]; i++) {
        set_bytes(&line, no_guards[i].line, strlen(no_guards[i].line));
        refuses_in_all(READ, &line, no_guards[i].number, no_guards[i].line);
    }
    line.len = 0;
    refuses_in_all(READ, &line, 22, "no bytes");
}

/* Bytes that no line has, at every place of one. */
static void foreign_bytes(void)
{
    static const char known[] = "v0123456789!*/%+-<=&|?:() ", whole[] = "v0<10";
    for (unsigned byte = 0; byte < 256; byte++) {
        if (byte != 0 && byte < 128 && strchr(known, (int)byte) != NULL) {
            continue;
        }
        for (size_t at = 0; at <= strlen(whole); at++) {
            set_bytes(&line, whole, at);
            line.bytes[line.len++] = (uint8_t)byte;
            memcpy(line.bytes + line.len, whole + at, strlen(whole) - at);
            line.len += strlen(whole) - at;
            refuses_in_all(READ, &line, 22, "a byte that no line has");
        }
    }
}

/* A line of so many bytes, with its spaces before, behind, or between. */
static void spaced_line(size_t len, unsigned where)
{
    static const char whole[] = {'v', '0', '<', '0'};
    static const size_t fronts[] = {0, sizeof whole, 2};
    size_t front = fronts[where], rest = sizeof whole - front;
    memset(line.bytes, ' ', len);
    memcpy(line.bytes, whole, front);
    memcpy(line.bytes + len - rest, whole + front, rest);
    line.len = len;
}

/* 256 bytes are a line and 257 are none, spaces and all. */
static void longest_lines(void)
{
    set_words(&list, "v0 0 <");
    for (unsigned where = 0; where < 3; where++) {
        spaced_line(MONUVALECK_LONGEST_LINE, where);
        fills(READ, &line, 3, list.bytes, list.len, "a line of 256 bytes");
        spaced_line(MONUVALECK_LONGEST_LINE + 1, where);
        refuses_in_all(READ, &line, 22, "a line of 257 bytes");
    }
    /* 126 pairs of parentheses, which leave no node; 250 negations, which are one each */
    memset(line.bytes, '(', 126);
    memcpy(line.bytes + 126, "v0<0", 4);
    memset(line.bytes + 130, ')', 126);
    line.len = 256;
    fills(READ, &line, 3, list.bytes, list.len, "126 pairs of parentheses");
    memset(line.bytes, '!', 250);
    memcpy(line.bytes + 250, "(v0<0)", 6);
    for (unsigned i = 0; i < 250; i++) {
        add_node(&list, NODE, NOT, 2 + i, 0, 0);
    }
    fills(READ, &line, 253, list.bytes, list.len, "250 negations");
    memset(line.bytes, '(', 256);
    refuses_in_all(READ, &line, 22, "256 parentheses");
    memset(line.bytes, '!', 256);
    refuses_in_all(READ, &line, 22, "256 negations of nothing");
    puts("ok: lines of 256 bytes");
}

/* Whatever the kind and the bytes that an operator does not use. */
static void soil(file *f)
{
    for (uint8_t *r = f->bytes; r < f->bytes + f->len; r += RECORD) {
        unsigned used = r[1] == VALUE ? 1 : operands_of(r[1]);
        r[0] = 0xEE;
        memset(r + 2 + 2 * used, 0xFF, 6 - 2 * used);
        memset(r + 8 + (r[1] == CONSTANT ? 4 : 0), 0xEE, r[1] == CONSTANT ? 4 : 8);
    }
}

/* A list that is written: as it is, soiled, and with less than a record behind it. */
static void is_written(const char *text, const char *what)
{
    size_t len = list.len;
    fills(WRITE, &list, (int32_t)strlen(text), (const uint8_t *)text, strlen(text), what);
    soil(&list);
    memset(list.bytes + len, 0x5A, RECORD - 1);
    given.out_len = strlen(text);
    for (; list.len < len + RECORD; list.len += 5) {
        gives(WRITE, (int32_t)strlen(text), (const uint8_t *)text, strlen(text), what);
    }
}

static void written_lists(void)
{
    for (size_t i = 0; i < sizeof guards / sizeof guards[0]; i++) {
        set_words(&list, guards[i].words);
        is_written(guards[i].written == NULL ? guards[i].line : guards[i].written, guards[i].words);
    }
    /* operands in another order than the reader's: v1 < v0 - 3 */
    list.len = 0;
    add_constant(&list, NODE, 3);
    add_node(&list, NODE, VALUE, 0, 0, 0);
    add_node(&list, NODE, DIFFERENCE, 1, 0, 0);
    add_node(&list, NODE, VALUE, 1, 0, 0);
    add_node(&list, NODE, LESS, 3, 2, 0);
    is_written("v1<v0-3", "another order");
    puts("ok: lists written into their length and more");
}

/* Lists with one change. */
static const struct {
    const char *words;
    change change;
} list_changes[] = {
    {"v0 0 <", {"operator 0", 0, 1, 1, 0, 5}},
    {"v0 0 <", {"operator 9", 1, 1, 1, 9, 5}},
    {"v0 0 <", {"operator 15", 2, 1, 1, 15, 5}},
    {"v0 0 <", {"operator 22", 2, 1, 1, 22, 5}},
    {"v0 0 <", {"operator 255", 0, 1, 1, 255, 5}},
    {"v0 0 <", {"variable 64", 0, 2, 2, 64, 6}},
    {"v0 0 <", {"variable 65,535", 0, 2, 2, 65535, 6}},
    {"v0 0 <", {"a first operand that is not there", 2, 2, 2, 3, 6}},
    {"v0 0 <", {"a second operand that is not there", 2, 4, 2, 3, 6}},
    {"v0 0 < !", {"the operand of a negation that is not there", 3, 2, 2, 65535, 6}},
    {"v0 0 < 1 2 ? 3 <", {"a third operand that is not there", 5, 6, 2, 8, 6}},
    {"v0 0 <", {"the node itself as first operand", 2, 2, 2, 2, 8}},
    {"v0 0 <", {"the node itself as second operand", 2, 4, 2, 2, 8}},
    {"v0 0 < !", {"the negation of itself", 3, 2, 2, 3, 8}},
    {"v0 0 < 1 2 ? 3 <", {"a later third operand", 5, 6, 2, 6, 8}},
    {"v0 0 < v1 1 < &&", {"a ring with the root", 5, 2, 2, 6, 8}},
    {"v0 0 <", {"an operand twice", 2, 4, 2, 0, 8}},
    {"v0 0 < v1 1 < &&", {"a truth twice", 6, 4, 2, 2, 8}},
    {"v0 0 < !", {"the negation of a number", 3, 2, 2, 1, 8}},
    {"v0 0 < v1 1 < &&", {"the sum of truths", 6, 1, 1, SUM, 8}},
    {"v0 0 < v1 1 < &&", {"truths compared", 6, 1, 1, EQUAL, 8}},
    {"v0 0 <", {"both of two numbers", 2, 1, 1, AND, 8}},
    {"v0 0 <", {"a root that is a number", 2, 1, 1, DIFFERENCE, 8}},
    {"v0 0 < 1 2 ? 3 <", {"a choice between a truth and a number", 5, 4, 2, 2, 8}},
    {"v0 0 < 1 2 ? 3 <", {"a choice by a number", 5, 2, 2, 0, 8}},
};

static void broken_lists(void)
{
    static const char *const no_trees[] = {"3", "v0", "v0 3 +", "v0 0 < 1 2 ?", "v0 0 < v1 1 <", "7 v0 0 <"};
    for (size_t i = 0; i < sizeof list_changes / sizeof list_changes[0]; i++) {
        set_words(&list, list_changes[i].words);
        apply(&list, &list_changes[i].change);
        refuses_in_all(WRITE, &list, list_changes[i].change.number, list_changes[i].change.what);
    }
    for (size_t i = 0; i < sizeof no_trees / sizeof no_trees[0]; i++) {
        set_words(&list, no_trees[i]);
        refuses_in_all(WRITE, &list, 8, no_trees[i]);
    }
    /* rings of so many negations beside a whole guard: each is used once, and only the order is broken */
    for (unsigned ring = 1; ring < 4; ring++) {
        list.len = 0;
        for (unsigned i = 0; i < ring; i++) {
            add_node(&list, NODE, NOT, (i + 1) % ring, 0, 0);
        }
        add_node(&list, NODE, VALUE, 0, 0, 0);
        add_constant(&list, NODE, 0);
        add_node(&list, NODE, LESS, ring, ring + 1, 0);
        refuses_in_all(WRITE, &list, 8, "a ring");
    }
    set_words(&list, "v0 0 <");
    memmove(list.bytes + RECORD, list.bytes, 2 * RECORD);
    list.len = 0;
    add_node(&list, NODE, LESS, 1, 2, 0);
    list.len = 3 * RECORD;
    refuses_in_all(WRITE, &list, 8, "a list right in all but its order");
    for (list.len = 0; list.len < RECORD; list.len++) {
        refuses_in_all(WRITE, &list, 8, "no whole record");
    }
}

/* All choices of what is broken: the lowest number is answered, and 24 comes last. */
static void lists_broken_at_once(void)
{
    static const change changes[] = {{"", 7, 2, 2, 5, 8}, {"", 0, 2, 2, 64, 6}, {"", 3, 1, 1, 9, 5}};
    for (unsigned broken = 1; broken < 16; broken++) {
        unsigned lowest = 0;
        set_words(&list, "v0 1 < v1 2 < && !");
        for (unsigned i = 0; i < 3; i++) {
            if (broken >> i & 1) {
                apply(&list, &changes[i]);
                lowest = changes[i].number;
            }
        }
        if (broken >> 3) {
            while (list.len <= RECORD * MONUVALECK_MOST_NODES) {
                add_node(&list, NODE, NOT, (unsigned)(list.len / RECORD - 1), 0, 0);
            }
            lowest = 3;
        }
        refuses_in_all(WRITE, &list, lowest, "a list broken in several ways");
    }
}

/* 1,024 nodes are a list and 1,025 are none. Longer lines than are read are written. */
static void longest_lists(void)
{
    static char text[2048];
    set_words(&list, "v0 0 <");
    while (list.len < RECORD * MONUVALECK_MOST_NODES) {
        text[list.len / RECORD - 3] = '!';
        add_node(&list, NODE, NOT, (unsigned)(list.len / RECORD - 1), 0, 0);
    }
    memcpy(text + MONUVALECK_MOST_NODES - 3, "(v0<0)", 6);
    is_written(text, "1,024 nodes");
    set_bytes(&line, text, strlen(text));
    refuses_in_all(READ, &line, 22, "a line of 1,024 nodes");
    list.len = RECORD * MONUVALECK_MOST_NODES;
    add_node(&list, NODE, NOT, MONUVALECK_MOST_NODES - 1, 0, 0);
    refuses_in_all(WRITE, &list, 3, "1,025 nodes");
    list.len += 5;
    refuses_in_all(WRITE, &list, 3, "1,025 nodes and a part");
    puts("ok: a list of 1,024 nodes");
}

static void all_guards(void)
{
    read_lines();
    foreign_bytes();
    longest_lines();
    written_lists();
    broken_lists();
    lists_broken_at_once();
    longest_lists();
}

/* ---- what is no refusal, at the same edges */

/* Lengths above 32 bits, in memory that is mapped and hardly touched: none of them is cut. */
static void vast_lengths(void)
{
    static const uint16_t good[] = {0, 4, 65535, 2};
    size_t over = (size_t)UINT32_MAX + 1;
    uint8_t *zeros = vast(sizeof(uint32_t) * (over + 2));
    if (zeros == NULL) {
        puts("skipped: lengths above 32 bits, which cannot be lent here");
        return;
    }
    make_set(&work);
    make_twin(&work);
    fresh_runs();
    void *words = zeros;
    bool fine = charts_play(work.bytes, work.len, &given.charts, words, over) == MONUVALECK_MOST_CYCLES &&
                automata_play(table.bytes, table.len, &given.automata, words, over) == MONUVALECK_MOST_CYCLES &&
                path_back(work.bytes, work.len, words, over, NULL, 0) == -20 && path_back(work.bytes, work.len, good, 4, words, over + 2) == 3 &&
                charts_translate(work.bytes, work.len, zeros, over) == (int32_t)table.len && automata_check(zeros, over + table.len) == -11;
    memcpy(zeros, work.bytes, work.len);
    memset(zeros + work.len, 0, table.len);
    fine = fine && charts_check(zeros, over + work.len) == -2 && charts_check(zeros, over + work.len + 1) == -1;
    set_bytes(&line, "v0<0", 4);
    memcpy(zeros, line.bytes, line.len);
    fine = fine && guard_read(zeros, over + line.len, filler, sizeof filler) == -22 && guard_read(line.bytes, line.len, zeros, over) == 3 &&
           guard_write(zeros, over + 3 * RECORD, filler, sizeof filler) == -3 && guard_write(zeros, 3 * RECORD, zeros + 3 * RECORD, over) == 4;
    must(fine, "lengths above 32 bits");
    puts("ok: lengths above 32 bits");
}

/* Nothing is read where a length is 0, so the pointer may be null; with no masks the run is not looked at. */
static void no_lengths(void)
{
    charts_run run;
    automata_run twin_run;
    memset(&run, 255, sizeof run);
    memset(&twin_run, 255, sizeof twin_run);
    make_set(&work);
    make_twin(&work);
    bool fine = charts_check(NULL, 0) == -3 && automata_check(NULL, 0) == -11 && charts_start(NULL, 0, &run) == -3 && charts_turn(NULL, 0, &run, 1) == -3 &&
                charts_cycle(NULL, 0, &run, 1) == -3 && charts_play(NULL, 0, &run, NULL, 0) == -3 && automata_start(NULL, 0, &twin_run) == -11 &&
                automata_turn(NULL, 0, &twin_run, 1) == -11 && automata_cycle(NULL, 0, &twin_run, 1) == -11 &&
                automata_play(NULL, 0, &twin_run, NULL, 0) == -11 && charts_translate(NULL, 0, NULL, 0) == -3 && path_back(NULL, 0, NULL, 0, NULL, 0) == -3 &&
                charts_play(work.bytes, work.len, &run, NULL, 0) == 0 && automata_play(table.bytes, table.len, &twin_run, NULL, 0) == 0 &&
                charts_translate(work.bytes, work.len, NULL, 0) == -10 && path_back(work.bytes, work.len, NULL, 0, NULL, 0) == 0;
    set_bytes(&line, "v0<0", 4);
    set_words(&list, "v0 0 <");
    fine = fine && guard_read(NULL, 0, NULL, 0) == -22 && guard_read(line.bytes, line.len, NULL, 0) == -24 && guard_write(NULL, 0, NULL, 0) == -8 &&
           guard_write(list.bytes, list.len, NULL, 0) == -24;
    for (size_t i = 0; i < sizeof run; i++) {
        fine = fine && ((const uint8_t *)&run)[i] == 255;
    }
    for (size_t i = 0; i < sizeof twin_run; i++) {
        fine = fine && ((const uint8_t *)&twin_run)[i] == 255;
    }
    must(fine, "lengths of 0 with null pointers");
    puts("ok: lengths of 0 with null pointers");
}

/* A play that stops keeps the cycles before: the winding variable is 99, 100, then out of its range. */
static void stopped_play(void)
{
    static const uint32_t masks[5] = {0, 0, 0, 0, 0};
    work.len = 0;
    add_chart(&work, 0);
    add_state(&work, 0);
    add_state(&work, 0);
    add_transition(&work, 1, 0, 1, NO_TRIGGER, 0, NONE);
    add_transition(&work, 1, 1, 1, NO_TRIGGER, 0, NONE);
    add_variable(&work, VARIABLE, -100, 100, 98);
    add_node(&work, NODE, VALUE, 0, 0, 0);
    add_constant(&work, NODE, 1);
    add_node(&work, NODE, SUM, 0, 1, 0);
    add_action(&work, ON_TRANSITION, 1, ASSIGN, 0, 2);
    make_twin(&work);
    fresh_runs();
    must(charts_play(work.bytes, work.len, &given.charts, masks, 5) == 3 && given.charts.cycles == 3 && given.charts.variables[0] == 100 &&
             automata_play(table.bytes, table.len, &given.automata, masks, 5) == 3 && given.automata.cycles == 3 && given.automata.variables[0] == 100,
         "a play that stops at a fault");
    moves_refuse(false, 0, 17, "the cycle after a stopped play");
    moves_refuse(true, 0, 17, "the cycle after a stopped play");
    set_time(1, 999999);
    given.charts.variables[0] = given.automata.variables[0] = 0;
    must(charts_play(work.bytes, work.len, &given.charts, masks, 5) == 1 && given.charts.cycles == 1000000 &&
             automata_play(table.bytes, table.len, &given.automata, masks, 5) == 1 && given.automata.cycles == 1000000,
         "a play that stops at 1,000,000 cycles");
    puts("ok: a play that stops keeps the cycles before");
}

/* A line for each function and number; a number that no call was to meet counts as a failure. */
static int report(void)
{
    int failures = 0;
    for (unsigned call = 0; call < CALLS; call++) {
        for (unsigned number = 1; number <= MOST_NUMBER; number++) {
            bool can = calls[call].numbers >> number & 1;
            if (can || met[call][number] > 0) {
                bool fine = can && met[call][number] > 0 && wrong[call][number] == 0;
                printf("%s: %s refuses by %u (%u calls)\n", fine ? "ok" : "FAILED", calls[call].name, number, met[call][number]);
                failures += !fine;
            }
        }
    }
    return failures;
}

int main(int argc, char **argv)
{
    (void)argv;
    on_heap = argc > 1;
    make_areas(sizeof steps + 4096);
    memset(filler, 0xA5, sizeof filler);
    static const uint16_t wild[] = {1, 2, 3};
    given.path = wild;
    given.path_len = 3;
    given.rows_len = 7;
    given.out_len = 100;
    given.masks_len = 1;
    /* a run that no file has, so that the file's refusal is seen to come first */
    memset(&given.charts, 0xFF, sizeof given.charts);
    memset(&given.automata, 0xFF, sizeof given.automata);
    given.f = &work;
    given.events = 1;
    broken_sets();
    changed_sets();
    rounded_times();
    given.f = &table;
    broken_tables();
    most_of_each();
    make_set(&work);
    make_twin(&work);
    impossible_runs();
    times();
    faulting_sets();
    guarded_faults();
    guards_in_sequence();
    waiting_actions();
    widest_twin();
    open_edges();
    buffers();
    paths();
    longest_path();
    all_guards();
    no_lengths();
    vast_lengths();
    stopped_play();
    return report() == 0 ? 0 : 1;
}
