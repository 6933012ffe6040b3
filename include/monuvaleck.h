/* Monuvaleck: chart sets of sewer crawlers, their automata twins, and guards typed as a line.
 *
 * Link with libmonuvaleck.a (x86-64 Linux; `rt lib` in crates/monuvaleck writes out/libmonuvaleck.a there). It needs memcpy and memset
 * of the C library and nothing else: no heap, no files, no signals, no floating point.
 *
 * ANSWERS. Every function answers an int32_t. 0 or more is the answer. Less than 0 is a refusal or a fault: minus its number, one of
 * enum monuvaleck_refusal. Then nothing lent has changed: the run, the buffer, the rows are byte for byte as they were.
 * Files are checked first, then runs and events, then comes the turn. Of the reasons that apply in one place the lowest number is answered;
 * in a turn it is the fault that is met first.
 *
 * ANY INPUT. Every function takes any bytes, runs, events, masks, paths, lines and lengths, and ends. Nothing need be checked before. What a pointer must be:
 * - It points at as many elements as its length says (lengths count elements, so rows_len counts words, not rows), or at one run.
 * - It is aligned for its type: uint8_t at any address, uint16_t at even ones, uint32_t and the runs at multiples of 4.
 * - Where a length is 0 nothing is read or written there, and the pointer may be null. A run is never null.
 * - All that is lent for reading has been written; what is lent for writing overlaps nothing else that is lent in the same call.
 *   Things that are only read may overlap.
 *
 * THREADS. No function keeps anything: what it answers and writes depends on its arguments alone. Calls at the same time need no lock as long as none
 * writes what another reads or writes. A run may be copied, stored and loaded as bytes; its fields are in the byte order of the machine.
 *
 * STACK. Leave 256 KiB. tests/c measures the deepest stack of each function, which guards and assigned numbers of 1,024 nested nodes take, and lines of 256 parentheses.
 *
 * TIME. Turns are taken in file order of the charts, at the positions 1 to n of a cycle for n charts; at position n + 1 time passes. A cycle is 100 ms.
 * Time empties the events, adds 1 to the ages and to the cycle count, and lets clocks grow; then the position is 1 again.
 * Times of a set are rounded to the nearest tick of 100 ms, exact halves to the even tick: 150, 249 and 250 ms are 2 ticks, 251 are 3, 350 are 4.
 * A transition after d ticks is due at age d and at every later age until its state is left, one every d ticks at the ages d, 2 d, 3 d, .. alone.
 * At these ages a state's waiting actions of d ticks are done, where its chart idles: the turn still answers MONUVALECK_IDLE, and the age goes on.
 *
 * EVENTS. The events given at position 1 are present for all charts of that cycle. An event that a chart raises is present for the later charts of the same cycle
 * only: not for those before it, and not in the next cycle. A cycle ends with time, so one that is done leaves no events: after charts_cycle run.events is 0, whatever
 * was raised. To see raised events, call the turns one by one (charts_turn, until it answers MONUVALECK_TIME) and look at run.events between them: it has the
 * given and the raised events together, and what a turn has added to it, but for the events given, that turn has raised. Just before time's turn it has all of
 * the cycle's. Automata go alike.
 *
 * FAULTS. An accepted set may fault (15 to 17). The run is then as before the call, and the same call faults again. A run that stands past position 1 and whose turn
 * faults cannot go on, since no other events can be given there. An action or update with a guard that is false is skipped: its number is not worked out, and cannot fault.
 *
 * THE END OF A RUN. A run has 1,000,000 cycles, which is 27 h 46 min 40 s at 100 ms a cycle. From then on every turn and cycle is refused by MONUVALECK_CYCLES_DONE (14),
 * and the run stays as it is. A control unit must then stop in a safe state and start a fresh run with charts_start: in the initial states, variables at
 * their start values. run.cycles tells how near the end is. examples/control_unit.c does it.
 */
#ifndef MONUVALECK_H
#define MONUVALECK_H

#include <stddef.h>
#include <stdint.h>

#ifdef __cplusplus
extern "C" {
#endif

/* Why a call was refused, or what faulted in it. Functions answer minus these. */
enum monuvaleck_refusal {
    /* the chart set: every charts_ function, and path_back; of a list of nodes also guard_write, by 3, 5, 6 and 8 */
    MONUVALECK_ODD_LENGTH = 1,       /* its length is no multiple of 16 */
    MONUVALECK_UNORDERED_KINDS = 2,  /* a record's kind is unknown, or lower than that of the record before */
    MONUVALECK_WRONG_AMOUNTS = 3,    /* no chart, or too many of a kind */
    MONUVALECK_STRAY_BYTE = 4,       /* an unnamed or unused byte is not zero */
    MONUVALECK_BROKEN_CODE = 5,      /* a code is unknown, or a number out of its range */
    MONUVALECK_DANGLING_NUMBER = 6,  /* a number names nothing */
    MONUVALECK_BROKEN_STRUCTURE = 7, /* a transition across charts; an initial state of another chart, without exactly one leaving transition, that one with
                                        trigger or guard, entered, or with entry or exit action; equal priorities leaving a state; a ninth action of an owner */
    MONUVALECK_BROKEN_NODE = 8,      /* an operand is not lower or of the wrong sort; a guard, of a transition or an action, is no truth, an assigned node no number; a node is
                                        not used exactly once */
    MONUVALECK_ZERO_TICKS = 9,       /* a timing trigger or waiting action of 50 ms or less: 0 ticks */
    MONUVALECK_UNEQUAL_TIMES = 25,   /* waiting actions of one state have different milliseconds; asked after 9 */

    /* translating */
    MONUVALECK_SHORT_BUFFER = 10, /* the result is longer than the buffer */

    /* the automata table: every automata_ function */
    MONUVALECK_BAD_TABLE = 11, /* the table is refused, whatever the reason */

    /* before a turn: _turn, _cycle, _play */
    MONUVALECK_IMPOSSIBLE_RUN = 12,   /* the run cannot be one of this file: a state or location of another chart, a variable out of its range, an age over the cycle count,
                                         a clock over its top, position 0 or over n + 1, a count over 1,000,000 or, past position 1, over 999,999, events present at
                                         position 1, or an unused place that is not zero */
    MONUVALECK_MISPLACED_EVENTS = 13, /* events were given elsewhere than at position 1 */
    MONUVALECK_CYCLES_DONE = 14,      /* 1,000,000 cycles are done, and the position is 1: stop in a safe state, and start a fresh run */

    /* in a turn: _turn, _cycle, _play */
    MONUVALECK_OUT_OF_RANGE = 15,  /* a number does not fit 32 bits */
    MONUVALECK_ZERO_DIVISOR = 16,  /* a quotient or remainder by 0 */
    MONUVALECK_OUT_OF_BOUNDS = 17, /* an assigned value is outside its variable's range */
    MONUVALECK_NONE_OPEN = 18,     /* automata: no edge is open */
    MONUVALECK_MANY_OPEN = 19,     /* automata: two or more edges are open */

    /* path_back */
    MONUVALECK_BROKEN_PATH = 20, /* the path names no edge, breaks turn order, goes on after 1,000,000 cycles, or an edge does not leave where its automaton stands */
    MONUVALECK_SHORT_ROWS = 21,  /* more rows than lent */

    /* guard_read; guard_write by 24 */
    MONUVALECK_BROKEN_LINE = 22, /* the line has no byte or more than 256, is outside the grammar, or has a constant outside 32 bits */
    MONUVALECK_WRONG_SORT = 23,  /* an operand is of the wrong sort, or the whole line is a number */
    MONUVALECK_SHORT_SPACE = 24  /* too little space for the nodes or for the text */
};

/* What a turn answers where nothing was taken. */
#define MONUVALECK_IDLE 65534 /* the chart idled, whether or not it did waiting actions; a twin answers the number of its idle edge instead */
#define MONUVALECK_TIME 65535 /* position n + 1: time passed */

/* Limits: lengths in bytes that no accepted set, no accepted table and no translation is above; cycles of a run; bytes of a line that is read, which has no more
 * nodes than bytes; nodes of a list that is written. */
#define MONUVALECK_LONGEST_SET 31872
#define MONUVALECK_LONGEST_TWIN 265344
#define MONUVALECK_MOST_CYCLES 1000000
#define MONUVALECK_LONGEST_LINE 256
#define MONUVALECK_MOST_NODES 1024

/* A run of a chart set. Places past the set's own charts and variables are 0. */
typedef struct {
    uint16_t states[8];    /* of each chart its present state, numbered through the whole set */
    uint32_t ages[8];      /* of each chart the cycles since that state was entered */
    int16_t variables[64]; /* the values */
    uint32_t events;       /* bit k: event k is present, given or raised; 0 at position 1 */
    uint32_t position;     /* 1 .. n + 1 */
    uint32_t cycles;       /* the cycles done */
} charts_run;

/* A run of an automata table. Places past the table's own automata, clocks and variables are 0. */
typedef struct {
    uint16_t locations[8]; /* of each automaton its present location */
    uint16_t clocks[384];  /* the clocks, in ticks, none above its own */
    int16_t variables[64];
    uint32_t events;
    uint32_t position;
    uint32_t cycles;
} automata_run;

/* Checks a file. 0: accepted. A set is refused by 1 to 9 and 25, a table by 11. */
int32_t charts_check(const uint8_t *set, size_t set_len);
int32_t automata_check(const uint8_t *table, size_t table_len);

/* Makes the run a fresh one, whatever it held. 0: done. Refused as by the check. */
int32_t charts_start(const uint8_t *set, size_t set_len, charts_run *run);
int32_t automata_start(const uint8_t *table, size_t table_len, automata_run *run);

/* Takes the turn of the present position. The answer is the number of the transition or edge taken, MONUVALECK_IDLE or MONUVALECK_TIME.
 * At position 1 the events given (bit k: event k) become the present ones; elsewhere they must be 0. Events that the turn raises are added to the run's; time's turn
 * empties them.
 * Refused as by the check, and by 12 to 14; faults 15 to 17, of automata also 18 and 19. */
int32_t charts_turn(const uint8_t *set, size_t set_len, charts_run *run, uint32_t events);
int32_t automata_turn(const uint8_t *table, size_t table_len, automata_run *run, uint32_t events);

/* Takes the turns from the present position up to n + 1. 0: done, and the position is 1. The last turn is time's, so the run has no events then. A fault in any
 * of the turns leaves the run as it was before all of them. Refused as a turn. */
int32_t charts_cycle(const uint8_t *set, size_t set_len, charts_run *run, uint32_t events);
int32_t automata_cycle(const uint8_t *table, size_t table_len, automata_run *run, uint32_t events);

/* Plays a cycle for each mask of events, with the file checked only once: for long runs. It ends before the first cycle that is refused or faults;
 * the run is the one after the cycles played. The answer is their number. Where not even the first can be played, the answer is why, as a cycle's, and
 * nothing has changed. With no masks: 0, or the file's refusal; the run is not looked at. To learn why fewer cycles were played than there are masks, call
 * the cycle with the next mask. */
int32_t charts_play(const uint8_t *set, size_t set_len, charts_run *run, const uint32_t *masks, size_t masks_len);
int32_t automata_play(const uint8_t *table, size_t table_len, automata_run *run, const uint32_t *masks, size_t masks_len);

/* Translates a set into its twin, an automata table. The answer is the twin's length; the bytes beyond it are kept. MONUVALECK_LONGEST_TWIN bytes are always
 * enough. Refused as by the check, and by 10. */
int32_t charts_translate(const uint8_t *set, size_t set_len, uint8_t *out, size_t out_len);

/* Leads a path of the set's twin back. The path starts with a fresh run and names what each turn took: an edge, or MONUVALECK_TIME. Each edge that came of a
 * transition gives a row of three words: cycle, chart, transition. The answer is the number of rows; the words beyond them are kept. As many rows as
 * the path has steps are always enough. Refused as by the check, and by 20 and 21. */
int32_t path_back(const uint8_t *set, size_t set_len, const uint16_t *path, size_t path_len, uint32_t *rows, size_t rows_len);

/* Guards typed as a line, such as v0 < 10 && !(v1 == 0): 1 to 256 bytes of ASCII, without a zero at the end.
 *   operands          v0 to v63; constants -2147483648 to 2147483647; a line in parentheses. No leading zeros.
 *   operators         by level, the tightest first: !   * / %   + -   < <= ==   &&   ||   ?:
 *   grouping          equal levels to the left; a choice, TRUTH ? NUMBER : NUMBER, to the right, and bare between ? and :
 *   minus             a constant's where no operand stands before it, directly before its digits; else the operator: v0-3, v0--3
 *   spaces            anywhere, the byte 32 alone, but not inside a name, an operator, or a constant with its minus
 * docs/FORMAT.md has it in full. Operators have the sorts that nodes have in a set; the whole line must be a truth.
 *
 * guard_read writes the line's nodes as records of kind 5, 16 bytes each and whole: unused bytes are zero. Nodes are numbered from 0, operands first, left to
 * right, so the last is the root. The answer is their number, at most 256. Room for nodes is nodes_len / 16, rounded down; what lies beyond the nodes is kept. To put
 * them into a set behind k other nodes, add k to their operands that are nodes (all but a variable's number).
 * Refused by 22, 23, 24, asked in this order, each of the whole line. */
int32_t guard_read(const uint8_t *text, size_t text_len, uint8_t *nodes, size_t nodes_len);

/* guard_write writes the line of the tree whose root is the last node: no spaces, and parentheses only where leaving them out would change the tree. The list is the
 * nodes_len / 16 whole records, numbered from 0; of each the operator, the operands that it has and the constant are looked at, and neither kind nor unused bytes.
 * The answer is the number of bytes, without a zero at the end; what lies beyond them is kept. A line of at most 256 bytes is read back as the same tree; a longer one is
 * written where there is room, and read by nobody. 21 bytes for each node are always enough.
 * Refused by 3 (more than 1,024 nodes), 5, 6 (a variable above 63, too), 8 (no node; an operand not lower or of the wrong sort; a root that is no truth or is used; another
 * node not used exactly once as an operand) and 24, asked in this order, each of the whole list. */
int32_t guard_write(const uint8_t *nodes, size_t nodes_len, uint8_t *text, size_t text_len);

#ifdef __cplusplus
}
#endif

#endif
