/* Seeded fuzzing: fuzz FOLDER SEED COUNT [heap]. The folder holds sample files. Sets, tables, runs, masks, paths and buffers, valid, damaged and random, stand directly after
 * or before pages that cannot be touched (or on the heap, for a checker of memory). After a refusal all that was lent is unchanged; after an answer only what
 * may change has changed. No reference is asked: a cycle equals its turns, a play its cycles, twin and charts move alike, a path leads back to what was taken,
 * a guard's line is read back as its nodes, and a list of nodes is refused as a set is that has it as a guard. */
#include "lent.h"
#include "monuvaleck.h"
#include "records.h"
#include "samples.h"

#include <stdio.h>
#include <stdlib.h>
#include <string.h>

enum { IN_FILE, IN_RUN, IN_LIST, IN_OUT };
enum { LARGE_SETS = 6, LARGE_TABLES = 2, MOST_MASKS = 24, MOST_STEPS = 120, MOST_NODES = 1024, FILL = 0xA5 };
enum { ENOUGH = 10000 }; /* iterations in which every number is met */

enum { NUMBERS = 26, UNEQUAL = -MONUVALECK_UNEQUAL_TIMES };

static unsigned long iteration;
static unsigned long met[NUMBERS]; /* the answers met: number 0 for all that are no refusal */
static unsigned long waits_met[2]; /* turns in which a chart idled in a state with waiting actions: not due, due */

static void must(bool holds, const char *what)
{
    if (!holds) {
        printf("FAILED: iteration %lu: %s\n", iteration, what);
        exit(1);
    }
}

static int32_t noted(int32_t answer)
{
    must(answer > -NUMBERS, "a number of the table");
    met[answer < 0 ? -answer : 0]++;
    return answer;
}

/* ---- chance: splitmix64 */

static uint64_t state;

static uint64_t next(void)
{
    state += 0x9E3779B97F4A7C15u;
    uint64_t mixed = state;
    mixed = (mixed ^ (mixed >> 30)) * 0xBF58476D1CE4E5B9u;
    mixed = (mixed ^ (mixed >> 27)) * 0x94D049BB133111EBu;
    return mixed ^ (mixed >> 31);
}

static size_t below(size_t end)
{
    return (size_t)(next() % end);
}

static bool chance(size_t times, size_t of)
{
    return below(of) < times;
}

static void fill_random(void *bytes, size_t len)
{
    for (size_t i = 0; i < len; i++) {
        ((uint8_t *)bytes)[i] = (uint8_t)next();
    }
}

static uint32_t some_mask(void)
{
    uint32_t mask = (uint32_t)next();
    switch (below(4)) {
    case 0: return 0;
    case 1: return mask;
    case 2: return mask & (uint32_t)next() & (uint32_t)next();
    default: return UINT32_MAX;
    }
}

/* ---- charts and automata as one kind of machine */

typedef struct {
    int32_t (*check)(const uint8_t *, size_t);
    int32_t (*start)(const uint8_t *, size_t, void *);
    int32_t (*turn)(const uint8_t *, size_t, void *, uint32_t);
    int32_t (*cycle)(const uint8_t *, size_t, void *, uint32_t);
    int32_t (*play)(const uint8_t *, size_t, void *, const uint32_t *, size_t);
    size_t run_size;
    int32_t lowest_file, highest_file, lowest_fault; /* answers of a refused file; of a fault */
    uint8_t owner_kind, taken_kind;                  /* whose turns there are, and what they take */
    bool idles;
} machine;

static int32_t start_charts(const uint8_t *s, size_t n, void *run) { return charts_start(s, n, run); }
static int32_t turn_charts(const uint8_t *s, size_t n, void *run, uint32_t e) { return charts_turn(s, n, run, e); }
static int32_t cycle_charts(const uint8_t *s, size_t n, void *run, uint32_t e) { return charts_cycle(s, n, run, e); }
static int32_t play_charts(const uint8_t *s, size_t n, void *run, const uint32_t *m, size_t k) { return charts_play(s, n, run, m, k); }
static int32_t start_automata(const uint8_t *s, size_t n, void *run) { return automata_start(s, n, run); }
static int32_t turn_automata(const uint8_t *s, size_t n, void *run, uint32_t e) { return automata_turn(s, n, run, e); }
static int32_t cycle_automata(const uint8_t *s, size_t n, void *run, uint32_t e) { return automata_cycle(s, n, run, e); }
static int32_t play_automata(const uint8_t *s, size_t n, void *run, const uint32_t *m, size_t k) { return automata_play(s, n, run, m, k); }

static const machine charts = {charts_check, start_charts, turn_charts, cycle_charts, play_charts, sizeof(charts_run), -9, -1, -17, CHART, TRANSITION, true};
static const machine automata = {automata_check, start_automata, turn_automata, cycle_automata, play_automata, sizeof(automata_run), -11, -11, -19, AUTOMATON, EDGE, false};

/* Room for a run of either, and the words that both end with. */
typedef union {
    charts_run charts;
    automata_run automata;
    uint8_t bytes[sizeof(automata_run)];
} any_run;

enum { EVENTS, POSITION, CYCLES };

static uint32_t *word(const machine *m, any_run *run, unsigned which)
{
    return (uint32_t *)(void *)(run->bytes + m->run_size) - 3 + which;
}

/* ---- files: samples, damaged samples, any bytes */

static samples sets, tables;
static file work;

static void damage_bytes(file *f)
{
    static const uint8_t telling[] = {0, 1, 2, 3, 4, 5, 6, 7, 8, 16, 17, 32, 33, 41, 127, 128, 254, 255};
    for (size_t n = 1 + below(3); n > 0 && f->len > 0; n--) {
        f->bytes[below(f->len)] = chance(1, 3) ? (uint8_t)next() : telling[below(sizeof telling)];
    }
}

static void damage_records(file *f)
{
    size_t records = f->len / RECORD;
    if (records == 0 || f->len + RECORD > sizeof f->bytes) {
        return;
    }
    uint8_t *one = f->bytes + RECORD * below(records), *other = f->bytes + RECORD * below(records), kept_record[RECORD];
    size_t rest = f->len - (size_t)(one - f->bytes);
    memcpy(kept_record, one, RECORD);
    switch (below(4)) {
    case 0: /* exchanged */
        memmove(one, other, RECORD);
        memcpy(other, kept_record, RECORD);
        break;
    case 1: /* twice */
        memmove(one + RECORD, one, rest);
        f->len += RECORD;
        break;
    case 2: /* left out */
        memmove(one, one + RECORD, rest - RECORD);
        f->len -= RECORD;
        break;
    default: /* a field up or down by one */
        other = one + 2 * below(RECORD / 2);
        set_two(other, 0, two_at(other, 0) + (chance(1, 2) ? 1 : 65535));
    }
}

/* Other milliseconds in one transition, or in one action, which then waits: exact halves, and times about those of 0 to 4 ticks. */
static void damage_timing(file *f)
{
    uint8_t kind = chance(1, 2) ? TRANSITION : ACTION;
    size_t count = count_of(f->bytes, f->len, kind);
    if (count > 0) {
        uint8_t *one = f->bytes + first_of(f->bytes, f->len, kind) + RECORD * below(count);
        if (kind == ACTION && one[1] != ON_TRANSITION) {
            one[1] = WAITING;
        }
        set_four(one, kind == ACTION ? 12 : 8, (uint32_t)(100 * below(4) + (chance(1, 2) ? 50 : 45 + below(10))));
    }
}

/* Another guard of one action or update: none, a node, or none that is there. */
static void damage_guard(file *f)
{
    uint8_t kind = count_of(f->bytes, f->len, ACTION) > 0 ? ACTION : UPDATE, nodes_kind = kind == ACTION ? NODE : TWIN_NODE;
    size_t count = count_of(f->bytes, f->len, kind);
    if (count > 0) {
        uint8_t *one = f->bytes + first_of(f->bytes, f->len, kind) + RECORD * below(count);
        size_t nodes = count_of(f->bytes, f->len, nodes_kind);
        set_two(one, 8, chance(1, 20) ? 65535 : (unsigned)below(nodes + 2));
    }
}

static void damage_length(file *f)
{
    size_t more = 1 + below(40);
    if (chance(1, 2) && f->len + more <= sizeof f->bytes) {
        fill_random(f->bytes + f->len, more);
        f->len += more;
    } else {
        f->len = below(f->len + 1);
    }
}

/* Any bytes, at times with known kinds in order. */
static void any_bytes(file *f, uint8_t first_kind, unsigned kinds)
{
    f->len = chance(1, 2) ? below(100) : RECORD * below(40);
    fill_random(f->bytes, f->len);
    bool ordered = chance(1, 2);
    size_t records = f->len / RECORD;
    for (size_t i = 0; ordered && i < records; i++) {
        f->bytes[RECORD * i] = (uint8_t)(first_kind + i * kinds / records);
        memset(f->bytes + RECORD * i + 8, 0, 8);
    }
}

/* Many copies of a sample's first record: far too many of a kind, also past the longest file. */
static void oversize(file *f)
{
    size_t len = RECORD * (600 + below(17600)) + below(2);
    for (size_t at = RECORD; at < len && at < sizeof f->bytes; at++) {
        f->bytes[at] = f->bytes[at % RECORD];
    }
    f->len = len < sizeof f->bytes ? len : sizeof f->bytes;
}

static void pick_file(const samples *from, size_t large, bool whole)
{
    size_t i = chance(1, 100) ? below(from->count) : large + below(from->count - large);
    memcpy(work.bytes, from->bytes[i], from->lens[i]);
    work.len = from->lens[i];
    if (whole) {
        return;
    }
    switch (below(16)) {
    case 0: any_bytes(&work, from == &sets ? CHART : AUTOMATON, from == &sets ? 6 : 9); break;
    case 1: damage_length(&work); break;
    case 2: if (chance(1, 8)) { oversize(&work); } break;
    case 3: damage_records(&work); damage_bytes(&work); break;
    case 4: damage_timing(&work); break;
    case 5: damage_guard(&work); break;
    default: chance(1, 2) ? damage_bytes(&work) : damage_records(&work);
    }
}

/* ---- runs */

static void damage_run(const machine *m, any_run *run)
{
    static const uint32_t late[] = {0, 1, 999998, 999999, 1000000, 1000001, UINT32_MAX};
    switch (below(5)) {
    case 0: run->bytes[below(m->run_size)] = (uint8_t)next(); break;
    case 1: run->bytes[below(m->run_size)] ^= 1; break;
    case 2: *word(m, run, CYCLES) = late[below(7)]; break;
    case 3: *word(m, run, POSITION) = (uint32_t)below(11); break;
    default: *word(m, run, EVENTS) = some_mask();
    }
}

/* Random, fresh, reached by cycles or by turns, late, damaged. */
static void some_run(const machine *m, any_run *run)
{
    fill_random(run, sizeof *run);
    if (chance(1, 12) || m->start(work.bytes, work.len, run) < 0) {
        return;
    }
    for (size_t n = below(12); n > 0; n--) {
        if (chance(1, 2)) {
            m->cycle(work.bytes, work.len, run, *word(m, run, POSITION) == 1 ? some_mask() : 0);
        } else {
            m->turn(work.bytes, work.len, run, *word(m, run, POSITION) == 1 ? some_mask() : 0);
        }
    }
    if (chance(1, 6)) {
        *word(m, run, CYCLES) = (uint32_t)(999990 + below(10));
    }
    for (size_t n = chance(1, 3) ? 1 + below(2) : 0; n > 0; n--) {
        damage_run(m, run);
    }
}

/* ---- a file's check, and starting */

static int32_t checked(const machine *m)
{
    lend(IN_FILE, work.bytes, work.len, chance(1, 2));
    int32_t answer = noted(m->check(areas[IN_FILE].bytes, areas[IN_FILE].len));
    must(answer == 0 || (answer >= m->lowest_file && answer <= m->highest_file) || (m->idles && answer == UNEQUAL), "a check's answer");
    must(kept(IN_FILE), "a check changed the file");
    return answer;
}

static void starts(const machine *m, int32_t check)
{
    any_run run, again;
    fill_random(&run, sizeof run);
    fill_random(&again, sizeof again);
    lend(IN_RUN, &run, m->run_size, chance(1, 2));
    int32_t answer = m->start(areas[IN_FILE].bytes, areas[IN_FILE].len, areas[IN_RUN].bytes);
    must(answer == check && kept(IN_FILE) && kept_from(IN_RUN, m->run_size), "a start's answer");
    must(answer == 0 || kept(IN_RUN), "a refused start changed the run");
    if (answer == 0) {
        memcpy(&run, areas[IN_RUN].bytes, m->run_size);
        m->start(work.bytes, work.len, &again);
        must(memcmp(&run, &again, m->run_size) == 0, "a fresh run hangs on what the run held");
        must(*word(m, &run, POSITION) == 1 && *word(m, &run, CYCLES) == 0 && *word(m, &run, EVENTS) == 0, "a fresh run");
    }
}

/* ---- turns, cycles, plays */

/* What 12 to 14 must be where the answer without events is known: places in table order. */
static void order_holds(const machine *m, any_run before, uint32_t events, int32_t answer)
{
    any_run quiet = before;
    int32_t without = m->turn(work.bytes, work.len, &quiet, 0);
    bool first = *word(m, &before, POSITION) == 1;
    if (without == -12 || without == -14) {
        must(answer == without, "12 and 14 come before all else");
    } else if (!first && events != 0) {
        must(answer == -13, "events past position 1 are 13");
    } else {
        must(answer >= 0 || answer <= -15, "a possible run with fitting events only faults");
    }
    if (first && *word(m, &before, CYCLES) == MONUVALECK_MOST_CYCLES) {
        must(answer == -12 || answer == -14, "1,000,000 cycles done");
    }
}

static void turned(const machine *m, any_run before, int32_t answer)
{
    any_run after;
    memcpy(&after, areas[IN_RUN].bytes, m->run_size);
    uint32_t owners = (uint32_t)count_of(work.bytes, work.len, m->owner_kind), position = *word(m, &before, POSITION);
    uint32_t cycles = *word(m, &before, CYCLES);
    must(cycles <= 999999 && position >= 1 && position <= owners + 1, "a turn of an impossible run");
    if (position == owners + 1) {
        must(answer == MONUVALECK_TIME && *word(m, &after, POSITION) == 1 && *word(m, &after, CYCLES) == cycles + 1 && *word(m, &after, EVENTS) == 0, "time");
    } else {
        must(answer < (int32_t)count_of(work.bytes, work.len, m->taken_kind) || (m->idles && answer == MONUVALECK_IDLE), "what a turn took");
        must(*word(m, &after, POSITION) == position + 1 && *word(m, &after, CYCLES) == cycles, "a turn's position and count");
    }
}

static void turns(const machine *m, int32_t check, any_run before)
{
    uint32_t events = *word(m, &before, POSITION) == 1 || chance(1, 4) ? some_mask() : 0;
    lend(IN_RUN, &before, m->run_size, chance(1, 2));
    int32_t answer = noted(m->turn(areas[IN_FILE].bytes, areas[IN_FILE].len, areas[IN_RUN].bytes, events));
    must(kept(IN_FILE) && kept_from(IN_RUN, m->run_size), "a turn wrote past the run");
    must(answer >= 0 || kept(IN_RUN), "a refused turn changed the run");
    if (check < 0) {
        must(answer == check, "a turn's refusal of the file");
        return;
    }
    must(answer >= 0 || (answer <= -12 && answer >= m->lowest_fault), "a turn's refusal");
    order_holds(m, before, events, answer);
    if (answer >= 0) {
        turned(m, before, answer);
    }
}

/* The cycle by its turns: the answer, and the run, moved on only if all of them did. */
static int32_t by_turns(const machine *m, any_run *run, uint32_t events)
{
    any_run moved = *run;
    int32_t answer;
    do {
        answer = m->turn(work.bytes, work.len, &moved, events);
        events = 0;
    } while (answer >= 0 && answer != MONUVALECK_TIME);
    if (answer < 0) {
        return answer;
    }
    *run = moved;
    return 0;
}

static void cycles(const machine *m, int32_t check, any_run run)
{
    uint32_t events = *word(m, &run, POSITION) == 1 || chance(1, 4) ? some_mask() : 0;
    lend(IN_RUN, &run, m->run_size, chance(1, 2));
    int32_t answer = m->cycle(areas[IN_FILE].bytes, areas[IN_FILE].len, areas[IN_RUN].bytes, events);
    int32_t expected = check < 0 ? check : by_turns(m, &run, events);
    must(answer == expected, "a cycle answers as its turns");
    must(kept(IN_FILE) && kept_from(IN_RUN, m->run_size), "a cycle wrote past the run");
    must(answer >= 0 || kept(IN_RUN), "a refused cycle changed the run");
    must(memcmp(areas[IN_RUN].bytes, &run, m->run_size) == 0, "a cycle leaves the run as its turns");
}

static void plays(const machine *m, int32_t check, any_run run)
{
    uint32_t masks[MOST_MASKS];
    size_t count = chance(1, 8) ? 0 : below(MOST_MASKS + 1);
    for (size_t i = 0; i < count; i++) {
        masks[i] = i > 0 || *word(m, &run, POSITION) == 1 || chance(1, 4) ? some_mask() : 0;
    }
    lend(IN_RUN, &run, m->run_size, chance(1, 2));
    lend(IN_LIST, masks, count * sizeof *masks, chance(1, 2));
    int32_t answer = m->play(areas[IN_FILE].bytes, areas[IN_FILE].len, areas[IN_RUN].bytes, (const void *)areas[IN_LIST].bytes, count);
    int32_t played = 0, stop = check;
    while (stop == 0 && (size_t)played < count) {
        stop = m->cycle(work.bytes, work.len, &run, masks[played]);
        played += stop == 0;
    }
    must(answer == (played == 0 ? stop : played), "a play answers as its cycles");
    must(kept(IN_FILE) && kept(IN_LIST) && kept_from(IN_RUN, m->run_size), "a play wrote past the run");
    must(answer >= 0 || kept(IN_RUN), "a refused play changed the run");
    must(memcmp(areas[IN_RUN].bytes, &run, m->run_size) == 0, "a play leaves the run as its cycles");
}

static void moves(const machine *m, int32_t check)
{
    any_run run;
    starts(m, check);
    for (size_t n = 1 + below(3); n > 0; n--) {
        some_run(m, &run);
        turns(m, check, run);
        cycles(m, check, run);
        plays(m, check, run);
    }
}

/* ---- translating */

static file twin;
static uint8_t filler[MONUVALECK_LONGEST_TWIN + 64];

/* Translated into so many bytes: as into many, or 10. */
static void translated_into(size_t len)
{
    lend(IN_OUT, filler, len, chance(1, 2));
    int32_t answer = noted(charts_translate(areas[IN_FILE].bytes, areas[IN_FILE].len, areas[IN_OUT].bytes, len));
    must(answer == (len < twin.len ? -10 : (int32_t)twin.len), "a translation's answer");
    must(kept(IN_FILE) && kept_from(IN_OUT, answer < 0 ? 0 : twin.len), "a translation keeps what is beyond it");
    must(answer < 0 || memcmp(areas[IN_OUT].bytes, twin.bytes, twin.len) == 0, "a translation hangs on its buffer");
}

static void translates(int32_t check)
{
    if (check < 0) {
        size_t len = chance(1, 8) ? 0 : below(2000);
        lend(IN_OUT, filler, len, chance(1, 2));
        must(charts_translate(areas[IN_FILE].bytes, areas[IN_FILE].len, areas[IN_OUT].bytes, len) == check && kept(IN_OUT) && kept(IN_FILE), "a refused translation");
        return;
    }
    int32_t len = charts_translate(work.bytes, work.len, twin.bytes, sizeof twin.bytes);
    must(len > 0 && len <= MONUVALECK_LONGEST_TWIN && len % RECORD == 0, "a translation's length");
    twin.len = (size_t)len;
    must(automata_check(twin.bytes, twin.len) == 0, "a twin is accepted");
    translated_into(twin.len);
    translated_into(twin.len - 1);
    translated_into(twin.len + 1 + below(40));
    translated_into(below(twin.len));
    translated_into(0);
}

/* ---- twin and charts */

/* The nearest, and of an exact half the even one. */
static uint32_t ticks_of(uint32_t milliseconds)
{
    uint32_t down = milliseconds / 100, past = milliseconds % 100;
    return past == 50 ? down + down % 2 : down + (past > 50);
}

/* A clock of a state stands as the age says, where the state is present. */
static bool clock_corresponds(const charts_run *c, unsigned clock, unsigned trigger, uint32_t milliseconds, unsigned state)
{
    unsigned chart = work.bytes[first_of(work.bytes, work.len, STATE) + RECORD * state + 1];
    uint32_t ticks = ticks_of(milliseconds), age = c->ages[chart];
    uint32_t as_after = age < ticks ? age : ticks, as_every = age == 0 ? 0 : (age - 1) % ticks + 1;
    return c->states[chart] != state || clock == (trigger == AFTER ? as_after : as_every);
}

/* Those of transitions that leave it, then that of its waiting actions. */
static bool clocks_correspond(const charts_run *c, const automata_run *a)
{
    size_t at = first_of(work.bytes, work.len, TRANSITION), end = at + RECORD * count_of(work.bytes, work.len, TRANSITION);
    unsigned states = (unsigned)count_of(work.bytes, work.len, STATE);
    const uint16_t *clock = a->clocks;
    for (; at < end; at += RECORD) {
        unsigned trigger = work.bytes[at + 6];
        if ((trigger == AFTER || trigger == EVERY) && !clock_corresponds(c, *clock++, trigger, four_at(work.bytes, at + 8), two_at(work.bytes, at + 2))) {
            return false;
        }
    }
    for (unsigned state = 0; state < states; state++) {
        uint32_t milliseconds = waiting_time(work.bytes, work.len, state);
        if (milliseconds > 0 && !clock_corresponds(c, *clock++, EVERY, milliseconds, state)) {
            return false;
        }
    }
    return true;
}

static void correspond(const charts_run *c, const automata_run *a)
{
    must(memcmp(c->states, a->locations, sizeof c->states) == 0, "states and locations");
    must(memcmp(c->variables, a->variables, sizeof c->variables) == 0, "variables of charts and twin");
    must(c->events == a->events && c->position == a->position && c->cycles == a->cycles, "events, position and count of charts and twin");
    must(clocks_correspond(c, a), "ages and clocks");
}

/* What the twin answers where the chart in this state, of this age, answered so: a state that waits has two idle edges, due and not due. */
static int32_t twins_answer(int32_t answer, unsigned chart_state, uint32_t age)
{
    if (answer != MONUVALECK_IDLE) {
        return answer;
    }
    int32_t edge = (int32_t)count_of(work.bytes, work.len, TRANSITION);
    for (unsigned state = 0; state < chart_state; state++) {
        edge += waiting_time(work.bytes, work.len, state) > 0 ? 2 : 1;
    }
    uint32_t milliseconds = waiting_time(work.bytes, work.len, chart_state);
    bool due = milliseconds > 0 && age > 0 && age % ticks_of(milliseconds) == 0;
    waits_met[due] += milliseconds > 0;
    return edge + (milliseconds > 0 && !due);
}

/* The path that the twin took, and the rows it came of. */
static uint16_t path[MOST_STEPS + 1];
static uint32_t rows[3 * MOST_STEPS];
static size_t steps, row_count;

static void note(int32_t answer, int32_t twin_answer, const charts_run *before)
{
    path[steps++] = (uint16_t)twin_answer;
    if (answer < MONUVALECK_IDLE) {
        uint32_t *row = rows + 3 * row_count++;
        row[0] = before->cycles;
        row[1] = before->position - 1;
        row[2] = (uint32_t)answer;
    }
}

/* Turns of both from fresh runs, noted as a path. */
static void turns_alike(void)
{
    charts_run c;
    automata_run a;
    steps = row_count = 0;
    must(charts_start(work.bytes, work.len, &c) == 0 && automata_start(twin.bytes, twin.len, &a) == 0, "fresh runs");
    for (size_t n = below(MOST_STEPS); n > 0; n--) {
        charts_run before = c;
        uint32_t events = c.position == 1 || chance(1, 20) ? some_mask() : 0;
        int32_t answer = charts_turn(work.bytes, work.len, &c, events), twin_answer = automata_turn(twin.bytes, twin.len, &a, events);
        unsigned chart = (before.position - 1) % 8;
        must(twin_answer == twins_answer(answer, before.states[chart], before.ages[chart]), "a turn of charts and twin");
        correspond(&c, &a);
        if (answer >= 0) {
            note(answer, twin_answer, &before);
        }
    }
}

/* Plays and cycles of both, so that timers come far. */
static void plays_alike(void)
{
    charts_run c;
    automata_run a;
    must(charts_start(work.bytes, work.len, &c) == 0 && automata_start(twin.bytes, twin.len, &a) == 0, "fresh runs");
    for (size_t n = below(6); n > 0; n--) {
        uint32_t masks[200];
        size_t count = below(201);
        for (size_t i = 0; i < count; i++) {
            masks[i] = some_mask();
        }
        must(charts_play(work.bytes, work.len, &c, masks, count) == automata_play(twin.bytes, twin.len, &a, masks, count), "a play of charts and twin");
        correspond(&c, &a);
        uint32_t mask = some_mask();
        must(charts_cycle(work.bytes, work.len, &c, mask) == automata_cycle(twin.bytes, twin.len, &a, mask), "a cycle of charts and twin");
        correspond(&c, &a);
    }
}

/* ---- paths led back */

static int32_t led_back(size_t len, size_t words)
{
    lend(IN_LIST, path, len * sizeof *path, chance(1, 2));
    lend(IN_OUT, filler, words * sizeof *rows, chance(1, 2));
    int32_t answer = noted(path_back(areas[IN_FILE].bytes, areas[IN_FILE].len, (const void *)areas[IN_LIST].bytes, len, (void *)areas[IN_OUT].bytes, words));
    must(kept(IN_FILE) && kept(IN_LIST) && kept_from(IN_OUT, answer < 0 ? 0 : 3 * sizeof *rows * (size_t)answer), "a path led back keeps what is beyond its rows");
    return answer;
}

static void led_into(size_t words)
{
    int32_t answer = led_back(steps, words);
    must(answer == (words / 3 < row_count ? -21 : (int32_t)row_count), "a path's answer");
    must(answer <= 0 || memcmp(areas[IN_OUT].bytes, rows, 3 * sizeof *rows * row_count) == 0, "a path leads back to what was taken");
}

static void paths_back(void)
{
    led_into(3 * row_count);
    led_into(3 * row_count + 1 + below(9));
    led_into(below(3 * row_count + 1));
    size_t edges = count_of(twin.bytes, twin.len, EDGE);
    path[steps] = (uint16_t)(edges + below(65535 - edges));
    must(led_back(steps + 1, below(3 * row_count + 9)) == -20, "a path with a step that names no edge, also where rows are short");
    if (steps > 0) {
        path[below(steps)] = (uint16_t)below(chance(1, 2) ? 65536 : edges + 1);
        int32_t answer = led_back(steps, below(3 * row_count + 9));
        must(answer >= -21 && (answer <= -20 || answer >= 0) && answer <= (int32_t)steps, "a damaged path's answer");
    }
}

static void any_path(int32_t check)
{
    steps = below(20);
    fill_random(path, steps * sizeof *path);
    int32_t answer = led_back(steps, below(80));
    must(check < 0 ? answer == check : answer >= -21 && (answer <= -20 || answer >= 0), "any path's answer");
}

/* ---- tables of other lengths */

static file padded;

/* The table with nodes that nothing reads after its own, up to a length, as far as there may be so many. */
static void pad_table(size_t len)
{
    size_t at = first_of(work.bytes, work.len, UPDATE), nodes = count_of(work.bytes, work.len, TWIN_NODE);
    memcpy(padded.bytes, work.bytes, at);
    padded.len = at;
    while (nodes < MOST_NODES && padded.len + (work.len - at) + RECORD <= len) {
        add_constant(&padded, TWIN_NODE, (int32_t)next());
        nodes++;
    }
    memcpy(padded.bytes + padded.len, work.bytes + at, work.len - at);
    padded.len += work.len - at;
}

/* Such nodes change no answer and no run, whatever room the functions take for a table of that length: often about 16,384 bytes. */
static void padded_alike(void)
{
    uint32_t masks[MOST_MASKS];
    any_run run, one, other;
    pad_table(RECORD * (chance(1, 2) ? 1022 + below(5) : below(1200)));
    must(automata_check(padded.bytes, padded.len) == 0, "a table with nodes that nothing reads");
    some_run(&automata, &run);
    for (size_t i = 0; i < MOST_MASKS; i++) {
        masks[i] = some_mask();
    }
    one = other = run;
    must(automata_turn(work.bytes, work.len, &one.automata, masks[0]) == automata_turn(padded.bytes, padded.len, &other.automata, masks[0]) &&
             memcmp(&one, &other, sizeof one) == 0,
         "a turn of a longer table");
    one = other = run;
    must(automata_cycle(work.bytes, work.len, &one.automata, masks[0]) == automata_cycle(padded.bytes, padded.len, &other.automata, masks[0]) &&
             memcmp(&one, &other, sizeof one) == 0,
         "a cycle of a longer table");
    one = other = run;
    must(automata_play(work.bytes, work.len, &one.automata, masks, MOST_MASKS) == automata_play(padded.bytes, padded.len, &other.automata, masks, MOST_MASKS) &&
             memcmp(&one, &other, sizeof one) == 0,
         "a play of a longer table");
}

/* ---- guards typed as a line */

static file line, nodes, text, shuffled, holder;

static int32_t some_constant(void)
{
    static const int32_t telling[] = {0, 1, -1, 10, -10, 99, -100, INT32_MAX, INT32_MIN};
    return chance(1, 3) ? (int32_t)(uint32_t)next() : telling[below(sizeof telling / sizeof telling[0])];
}

/* The nodes of a tree, numbered as the reader numbers them, of at most 845 nodes at depth 6; the number of its root. */
static unsigned grow(file *f, bool truth, unsigned depth)
{
    static const uint8_t truths[] = {NOT, AND, OR}, comparisons[] = {EQUAL, LESS, AT_MOST}, numbers[] = {SUM, DIFFERENCE, PRODUCT, QUOTIENT, REMAINDER, CHOICE};
    unsigned code = truth ? comparisons[below(3)] : chance(1, 2) ? CONSTANT : VALUE, operands[3] = {0};
    if (depth > 0 && chance(4, 5)) {
        code = !truth ? numbers[below(6)] : chance(2, 3) ? truths[below(3)] : code;
    }
    for (unsigned i = 0; i < operands_of(code); i++) {
        operands[i] = grow(f, code >= NOT || (code == CHOICE && i == 0), depth > 0 ? depth - 1 : 0);
    }
    if (code == CONSTANT) {
        add_constant(f, NODE, some_constant());
    } else {
        add_node(f, NODE, code, code == VALUE ? (unsigned)below(64) : operands[0], operands[1], operands[2]);
    }
    return (unsigned)(f->len / RECORD - 1);
}

/* Whether all operands of a node have their places. */
static bool ready(const uint8_t *record, const uint16_t *places)
{
    bool all = true;
    for (unsigned i = 0; i < operands_of(record[1]); i++) {
        all = all && places[two_at(record, 2 + 2 * i)] != NONE;
    }
    return all;
}

/* The same tree in any order in which operands stand first. */
static void shuffle(const file *from, file *to)
{
    static uint16_t places[MOST_NODES];
    size_t count = from->len / RECORD;
    memset(places, 0xFF, sizeof places);
    for (to->len = 0; to->len < from->len; to->len += RECORD) {
        size_t n = below(count);
        while (places[n] != NONE || !ready(from->bytes + RECORD * n, places)) {
            n = (n + 1) % count;
        }
        uint8_t *record = to->bytes + to->len;
        memcpy(record, from->bytes + RECORD * n, RECORD);
        for (unsigned i = 0; i < operands_of(record[1]); i++) {
            set_two(record, 2 + 2 * i, places[two_at(record, 2 + 2 * i)]);
        }
        places[n] = (uint16_t)(to->len / RECORD);
    }
}

/* The kind and every byte that the operator does not use as a set has them, or any others. */
static void tidy(file *f, bool soiled)
{
    for (size_t at = 0; at + RECORD <= f->len; at += RECORD) {
        uint8_t *record = f->bytes + at, any[RECORD] = {0};
        unsigned used = record[1] == VALUE ? 1 : operands_of(record[1]);
        if (soiled) {
            fill_random(any, sizeof any);
        }
        record[0] = soiled ? any[0] : NODE;
        memcpy(record + 2 + 2 * used, any + 2 + 2 * used, 6 - 2 * used);
        memcpy(record + (record[1] == CONSTANT ? 12 : 8), any + 8, record[1] == CONSTANT ? 4 : 8);
    }
}

/* What a set is refused by that has the list, its last node the guard of a transition. */
static int32_t check_as_guard(file *list)
{
    size_t len = list->len / RECORD * RECORD;
    if (len == 0) {
        return -8;
    }
    holder.len = 0;
    add_chart(&holder, 0);
    add_state(&holder, 0);
    add_state(&holder, 0);
    add_transition(&holder, 1, 0, 1, NO_TRIGGER, 0, NONE);
    add_transition(&holder, 1, 1, 1, NO_TRIGGER, 0, (unsigned)(len / RECORD - 1));
    for (unsigned i = 0; i < 64; i++) {
        add_variable(&holder, VARIABLE, 0, 0, 0);
    }
    must(holder.len + len <= sizeof holder.bytes, "room for a list");
    memcpy(holder.bytes + holder.len, list->bytes, len);
    holder.len += len;
    return charts_check(holder.bytes, holder.len);
}

typedef int32_t (*guard_call)(const uint8_t *, size_t, uint8_t *, size_t);

/* Read or written into so many bytes, which are room for so many of the answer's: as into many, or 24. */
static void guard_into(guard_call call, const file *from, const file *expected, int32_t answer, size_t room)
{
    lend(IN_FILE, from->bytes, from->len, chance(1, 2));
    lend(IN_OUT, filler, room, chance(1, 2));
    int32_t given = noted(call(areas[IN_FILE].bytes, areas[IN_FILE].len, areas[IN_OUT].bytes, room));
    must(given == (answer > 0 && room < expected->len ? -24 : answer), "a guard's answer hangs on the room alone");
    must(kept(IN_FILE) && kept_from(IN_OUT, given < 0 ? 0 : expected->len), "a guard keeps what is beyond it");
    must(given < 0 || memcmp(areas[IN_OUT].bytes, expected->bytes, expected->len) == 0, "a guard hangs on its buffer");
}

static void guard_into_all(guard_call call, const file *from, const file *expected, int32_t answer)
{
    size_t len = answer > 0 ? expected->len : below(100);
    guard_into(call, from, expected, answer, len);
    guard_into(call, from, expected, answer, len + 1 + below(40));
    guard_into(call, from, expected, answer, below(len + 1));
    guard_into(call, from, expected, answer, len > 0 ? len - 1 : 0);
    guard_into(call, from, expected, answer, 0);
}

static int32_t read_nodes(const file *from, file *to)
{
    int32_t answer = guard_read(from->bytes, from->len, to->bytes, sizeof to->bytes);
    must(answer > 0 ? answer <= MONUVALECK_LONGEST_LINE : answer == -22 || answer == -23, "what a line is answered");
    to->len = answer > 0 ? RECORD * (size_t)answer : 0;
    return answer;
}

static int32_t write_text(const file *from, file *to)
{
    int32_t answer = guard_write(from->bytes, from->len, to->bytes, sizeof to->bytes);
    must(answer > 0 ? answer <= 21 * MOST_NODES : answer == -3 || answer == -5 || answer == -6 || answer == -8, "what a list is answered");
    to->len = answer > 0 ? (size_t)answer : 0;
    return answer;
}

static void copy(file *to, const file *from)
{
    memcpy(to->bytes, from->bytes, from->len);
    to->len = from->len;
}

static bool same(const file *a, const file *b)
{
    return a->len == b->len && memcmp(a->bytes, b->bytes, a->len) == 0;
}

static file read_again, written_again;

/* Any bytes as a line. What is read is a guard that a set may have; written, it is no longer than it was, and is read as the same nodes. */
static void line_read(const file *l)
{
    int32_t answer = read_nodes(l, &nodes);
    guard_into_all(guard_read, l, &nodes, answer);
    if (answer > 0) {
        must((size_t)answer <= l->len && check_as_guard(&nodes) == 0, "nodes that a set may have");
        must(write_text(&nodes, &text) > 0 && text.len <= l->len, "a line that is read is written");
        must(read_nodes(&text, &read_again) == answer && same(&read_again, &nodes), "a line written again is read alike");
    }
}

/* Any bytes as a list. It is refused as in a set; what is written is read back as the same tree. */
static void list_written(const file *l)
{
    int32_t answer = write_text(l, &text);
    guard_into_all(guard_write, l, &text, answer);
    copy(&shuffled, l);
    tidy(&shuffled, false);
    int32_t check = check_as_guard(&shuffled);
    must(check == (answer > 0 ? 0 : answer), "a list is refused as a set's guard");
    if (answer > MONUVALECK_LONGEST_LINE) {
        must(read_nodes(&text, &read_again) == -22, "a long line is not read");
    } else if (answer > 0) {
        must(read_nodes(&text, &read_again) == (int32_t)(l->len / RECORD), "a written line is read back");
        must(write_text(&read_again, &written_again) == answer && same(&written_again, &text), "a line read back is written alike");
    }
}

/* ---- lines that are the same, or are not */

static bool ends_operand(uint8_t byte)
{
    return byte == ')' || (byte >= '0' && byte <= '9');
}

/* Whether a space before the place would stand inside a name, an operator or a constant with its minus. */
static bool inside(const uint8_t *t, size_t at)
{
    uint8_t before = t[at - 1], byte = t[at];
    if (byte >= '0' && byte <= '9') {
        return before == 'v' || (before >= '0' && before <= '9') || (before == '-' && (at == 1 || !ends_operand(t[at - 2])));
    }
    return (byte == '=' && (before == '<' || before == '=')) || (byte == '&' && before == '&') || (byte == '|' && before == '|');
}

static void insert(file *f, size_t at, uint8_t byte)
{
    memmove(f->bytes + at + 1, f->bytes + at, f->len - at);
    f->bytes[at] = byte;
    f->len++;
}

static void leave_out(file *f, size_t at)
{
    memmove(f->bytes + at, f->bytes + at + 1, f->len - at - 1);
    f->len--;
}

/* From the back, so that the places stay those of the text without spaces. */
static void spaces(const file *l, const file *read)
{
    copy(&line, l);
    for (size_t at = l->len + 1; at-- > 0;) {
        if ((at == 0 || at == l->len || !inside(l->bytes, at)) && line.len < MONUVALECK_LONGEST_LINE && chance(1, 3)) {
            insert(&line, at, ' ');
        }
    }
    must(read_nodes(&line, &read_again) > 0 && same(&read_again, read), "spaces change nothing");
    size_t at = 1 + below(l->len - 1);
    if (inside(l->bytes, at) && l->len < MONUVALECK_LONGEST_LINE) {
        copy(&line, l);
        insert(&line, at, ' ');
        must(read_nodes(&line, &read_again) == -22, "a space inside");
    }
}

static size_t closing(const file *l, size_t at)
{
    size_t open = 0;
    do {
        open += l->bytes[at] == '(';
        open -= l->bytes[at++] == ')';
    } while (open > 0);
    return at - 1;
}

/* No pair of a written line can be left out; one more changes nothing. */
static void parentheses(const file *l, const file *read)
{
    for (size_t at = 0; at < l->len; at++) {
        if (l->bytes[at] == '(') {
            copy(&line, l);
            leave_out(&line, closing(l, at));
            leave_out(&line, at);
            must(read_nodes(&line, &read_again) < 0 || !same(&read_again, read), "parentheses that could be left out");
        }
    }
    if (l->len + 2 <= MONUVALECK_LONGEST_LINE) {
        copy(&line, l);
        insert(&line, 0, '(');
        insert(&line, line.len, ')');
        must(read_nodes(&line, &read_again) > 0 && same(&read_again, read), "a line in parentheses");
    }
}

/* One of the bytes that lines have. */
static uint8_t line_byte(uint64_t number)
{
    static const char known[] = "v0123456789!*/%+-<=&|?:() ";
    return (uint8_t)known[number % (sizeof known - 1)];
}

static void damage_line(file *l)
{
    for (size_t n = 1 + below(3); n > 0 && l->len > 0; n--) {
        size_t at = below(l->len);
        uint8_t byte = chance(1, 20) ? (uint8_t)next() : line_byte(next());
        switch (below(3)) {
        case 0: l->bytes[at] = byte; break;
        case 1: insert(l, at, byte); break;
        default: leave_out(l, at);
        }
    }
}

/* A tree, its list in two orders, its line, and what becomes of them by damage. */
static void grown_guard(void)
{
    static file grown, its_line;
    grown.len = its_line.len = 0;
    grow(&grown, true, (unsigned)below(7));
    must(grown.len <= RECORD * MOST_NODES, "a tree of few nodes");
    list_written(&grown);
    copy(&its_line, &text);
    shuffle(&grown, &shuffled);
    tidy(&shuffled, true);
    must(write_text(&shuffled, &text) == (int32_t)its_line.len && same(&text, &its_line), "another order, other unused bytes, the same line");
    if (its_line.len <= MONUVALECK_LONGEST_LINE) {
        line_read(&its_line);
        must(same(&nodes, &grown), "a line is read as its own nodes");
        spaces(&its_line, &grown);
        parentheses(&its_line, &grown);
        damage_line(&its_line);
        line_read(&its_line);
    }
    chance(1, 2) ? damage_bytes(&grown) : damage_records(&grown);
    if (chance(1, 8)) {
        damage_length(&grown);
    }
    list_written(&grown);
}

static void any_guard(void)
{
    static file any;
    any.len = chance(1, 2) ? below(12) : below(300);
    fill_random(any.bytes, any.len);
    if (chance(1, 2)) {
        list_written(&any);
    }
    bool known = chance(3, 4);
    for (size_t i = 0; known && i < any.len; i++) {
        any.bytes[i] = line_byte(any.bytes[i]);
    }
    line_read(&any);
    if (chance(1, 100)) {
        any.len = 0;
        add_constant(&any, NODE, 7);
        oversize(&any);
        list_written(&any);
    }
}

/* ---- all of it */

static void one_set(bool whole)
{
    pick_file(&sets, LARGE_SETS, whole);
    int32_t check = checked(&charts);
    must(!whole || check == 0, "a sample set is accepted");
    moves(&charts, check);
    translates(check);
    any_path(check);
    if (check == 0) {
        turns_alike();
        paths_back();
        plays_alike();
    }
}

static void one_table(bool whole)
{
    pick_file(&tables, LARGE_TABLES, whole);
    int32_t check = checked(&automata);
    must(!whole || check == 0, "a sample table is accepted");
    moves(&automata, check);
    if (check == 0) {
        padded_alike();
    }
}

int main(int argc, char **argv)
{
    if (argc < 4) {
        fputs("fuzz FOLDER SEED COUNT [heap]\n", stderr);
        return 2;
    }
    load_samples(&sets, argv[1], "sets");
    load_samples(&tables, argv[1], "tables");
    state = strtoull(argv[2], NULL, 10);
    unsigned long count = strtoul(argv[3], NULL, 10);
    on_heap = argc > 4;
    make_areas(sizeof work.bytes + 4096);
    memset(filler, FILL, sizeof filler);
    for (iteration = 0; iteration < count; iteration++) {
        bool whole = chance(1, 3);
        if (chance(3, 5)) {
            one_set(whole);
        } else {
            one_table(whole);
        }
        chance(3, 4) ? grown_guard() : any_guard();
    }
    printf("refusals met:");
    for (unsigned number = 1; number < NUMBERS; number++) {
        printf(" %u: %lu%s", number, met[number], number + 1 < NUMBERS ? "," : "; ");
    }
    printf("answers: %lu; waiting: %lu due, %lu not\n", met[0], waits_met[1], waits_met[0]);
    for (unsigned number = 0; number < NUMBERS; number++) {
        must(count < ENOUGH || met[number] > 0, "every number is met");
    }
    must(count < ENOUGH || (waits_met[0] > 0 && waits_met[1] > 0), "waiting actions are due and are not");
    printf("ok: %lu sets and tables, as many guards, seed %s, %s\n", count, argv[2], on_heap ? "on the heap" : "between guard pages");
    return 0;
}
