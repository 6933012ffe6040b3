/* The deepest stack of every function, measured: stack FOLDER. The folder holds sample files, the largest first. Each call runs on a stack of its own that is painted
 * before; the lowest byte that has changed tells how far down it came. A frame may end in memory that is not written, less than a page, since larger frames are probed
 * page by page; so a page is added. */
#define _GNU_SOURCE
#include "monuvaleck.h"
#include "nested.h"
#include "records.h"
#include "samples.h"

#include <stdbool.h>
#include <stdio.h>
#include <stdlib.h>
#include <string.h>
#include <sys/mman.h>
#include <ucontext.h>
#include <unistd.h>

enum { STACK = 1 << 20, LIMIT = 256 * 1024, PAINT = 0x5A, FINEST = 16, MANY_STEPS = 2 * MONUVALECK_MOST_CYCLES };
enum { CHECK_C, START_C, TURN_C, CYCLE_C, PLAY_C, TRANSLATE, BACK, CHECK_A, START_A, TURN_A, CYCLE_A, PLAY_A, READ, WRITE, NOTHING, CALLS };

static const char *const names[CALLS] = {"charts_check", "charts_start", "charts_turn", "charts_cycle", "charts_play", "charts_translate", "path_back",
                                         "automata_check", "automata_start", "automata_turn", "automata_cycle", "automata_play", "guard_read", "guard_write", "nothing"};
static const uint32_t masks[4] = {UINT32_MAX, 0, UINT32_MAX, 1};

/* ---- one call on the painted stack */

static uint8_t *stack;
static size_t page;
static ucontext_t here, there;
static size_t deepest[CALLS];

static struct call {
    unsigned call;
    const uint8_t *bytes;
    size_t len;
    charts_run charts;
    automata_run automata;
    const uint16_t *path;
    size_t path_len;
    uint32_t events;
    int32_t answer;
} given;

static uint8_t out[MONUVALECK_LONGEST_TWIN];
static uint32_t rows[3 * 4096];

static int32_t called(void)
{
    switch (given.call) {
    case CHECK_C: return charts_check(given.bytes, given.len);
    case START_C: return charts_start(given.bytes, given.len, &given.charts);
    case TURN_C: return charts_turn(given.bytes, given.len, &given.charts, given.events);
    case CYCLE_C: return charts_cycle(given.bytes, given.len, &given.charts, given.events);
    case PLAY_C: return charts_play(given.bytes, given.len, &given.charts, masks, 4);
    case TRANSLATE: return charts_translate(given.bytes, given.len, out, sizeof out);
    case BACK: return path_back(given.bytes, given.len, given.path, given.path_len, rows, sizeof rows / sizeof rows[0]);
    case CHECK_A: return automata_check(given.bytes, given.len);
    case START_A: return automata_start(given.bytes, given.len, &given.automata);
    case TURN_A: return automata_turn(given.bytes, given.len, &given.automata, given.events);
    case CYCLE_A: return automata_cycle(given.bytes, given.len, &given.automata, given.events);
    case PLAY_A: return automata_play(given.bytes, given.len, &given.automata, masks, 4);
    case READ: return guard_read(given.bytes, given.len, out, sizeof out);
    case WRITE: return guard_write(given.bytes, given.len, out, sizeof out);
    default: return 0;
    }
}

static void run_there(void)
{
    given.answer = called();
}

/* The bytes between the top of the stack and the lowest that is no longer painted; they are painted again. */
static size_t used(void)
{
    static uint8_t painted[FINEST];
    size_t lowest = 0;
    memset(painted, PAINT, FINEST);
    while (lowest < STACK && memcmp(stack + lowest, painted, FINEST) == 0) {
        lowest += FINEST;
    }
    memset(stack + lowest, PAINT, STACK - lowest);
    return STACK - lowest;
}

static int32_t measure(unsigned call)
{
    given.call = call;
    getcontext(&there);
    there.uc_stack.ss_sp = stack;
    there.uc_stack.ss_size = STACK;
    there.uc_link = &here;
    makecontext(&there, run_there, 0);
    swapcontext(&here, &there);
    size_t bytes = used();
    if (bytes > deepest[call]) {
        deepest[call] = bytes;
    }
    return given.answer;
}

static void make_stack(void)
{
    page = (size_t)sysconf(_SC_PAGESIZE);
    stack = mmap(NULL, STACK + page, PROT_READ | PROT_WRITE, MAP_PRIVATE | MAP_ANONYMOUS, -1, 0);
    if (stack == MAP_FAILED || mprotect(stack, page, PROT_NONE) != 0) {
        perror("a stack");
        exit(2);
    }
    stack += page;
    memset(stack, PAINT, STACK);
}

/* ---- all calls on a file */

/* From a start, whose call is followed by those of turn, cycle and play: turn by turn through a few cycles with and without events, and from the beginning of each also the cycle
 * and a play. */
static void measure_moves(unsigned start)
{
    if (measure(start) != 0) {
        return;
    }
    for (unsigned cycle = 0; cycle < 4; cycle++) {
        given.events = masks[cycle];
        struct call before = given;
        measure(start + CYCLE_C - START_C);
        given = before;
        measure(start + PLAY_C - START_C);
        given = before;
        do {
            measure(start + TURN_C - START_C);
            given.events = 0;
        } while (given.answer >= 0 && given.answer != MONUVALECK_TIME);
    }
}

static void measure_table(const uint8_t *bytes, size_t len)
{
    given.bytes = bytes;
    given.len = len;
    measure(CHECK_A);
    measure_moves(START_A);
}

/* A set and its twin. */
static void measure_set(const uint8_t *bytes, size_t len, const uint16_t *path, size_t path_len)
{
    given.bytes = bytes;
    given.len = len;
    given.path = path;
    given.path_len = path_len;
    measure(CHECK_C);
    measure_moves(START_C);
    measure(BACK);
    if (measure(TRANSLATE) > 0) {
        measure_table(out, (size_t)given.answer);
    }
}

/* ---- lines of guards */

/* A line of 256 bytes or a few less: its front, so often a part, its middle, so often another part, its end. */
static const struct {
    const char *front, *before, *middle, *behind, *end;
    int32_t answer;
} lines[] = {
    {"", "(", "", "", "", -22},
    {"", "!", "", "", "", -22},
    {"", "-", "", "", "", -22},
    {"", "v0<0?", "", "", "", -22},
    {"", "1+(", "", "", "", -22},
    {"", "!(", "", "", "", -22},
    {"", "(", "v0<0", ")", "", 3},
    {"", "!", "(v0<0)", "", "", 253},
    {"", "!(", "v0<0", ")", "", 87},
    {"", "1+(", "1", ")", "<0", 129},
    {"", "1+", "1<0", "", "", 255},
    {"1", "+1", "<0", "", "", 255},
    {"(", "0<1?2:", "2", "", ")<0", 208},
    {"(", "0<1?", "2", ":2", ")<0", 208},
    {"", "(", "1", "<2?3:4)", "<5", 158},
    {"", "0<1&&(", "0<1", ")", "", 147},
    {"", "0<1||", "0<1", "", "", 203},
    {"", "0<1||0<1&&", "0<1", "", "", 203},
};

static size_t joined(uint8_t *to, size_t at, const char *part)
{
    memcpy(to + at, part, strlen(part));
    return at + strlen(part);
}

static void measure_lines(void)
{
    for (size_t i = 0; i < sizeof lines / sizeof lines[0]; i++) {
        static uint8_t line[MONUVALECK_LONGEST_LINE];
        size_t fixed = strlen(lines[i].front) + strlen(lines[i].middle) + strlen(lines[i].end);
        size_t times = (sizeof line - fixed) / (strlen(lines[i].before) + strlen(lines[i].behind)), len = joined(line, 0, lines[i].front);
        for (size_t n = 0; n < times; n++) {
            len = joined(line, len, lines[i].before);
        }
        len = joined(line, len, lines[i].middle);
        for (size_t n = 0; n < times; n++) {
            len = joined(line, len, lines[i].behind);
        }
        given.bytes = line;
        given.len = joined(line, len, lines[i].end);
        if (measure(READ) != lines[i].answer) {
            printf("FAILED: a nested line: answer %d, not %d: %.*s\n", (int)given.answer, (int)lines[i].answer, (int)given.len, (const char *)line);
            exit(1);
        }
    }
}

/* ---- sets whose one expression has 1,024 nodes */

static uint16_t steps[MANY_STEPS];

/* Through a whole run of the chart of these sets: edge 0, then the idle edge of state 1. */
static void make_steps(void)
{
    for (size_t i = 0; i < MANY_STEPS; i++) {
        steps[i] = i % 2 == 1 ? MONUVALECK_TIME : 3;
    }
    steps[0] = 0;
}

/* The guard's nodes, the last of the file, as a list. */
static void measure_list(void)
{
    given.bytes = nested.bytes + first_of(nested.bytes, nested.len, NODE);
    given.len = RECORD * nested_nodes;
    if (measure(WRITE) < (int32_t)nested_nodes) {
        printf("FAILED: a nested list: answer %d\n", (int)given.answer);
        exit(1);
    }
}

static void measure_nested(void)
{
    for (unsigned shape = 0; shape < SHAPES; shape++) {
        for (unsigned use = 0; use < USES; use++) {
            make_nested(shape, use, 1);
            bool first = shape == 0 && use == 0;
            measure_set(nested.bytes, nested.len, steps, first ? MANY_STEPS : 2);
            if (use == IN_GUARD) {
                measure_list();
            }
        }
    }
}

/* ---- */

static int report(void)
{
    int failures = 0;
    measure(NOTHING);
    for (unsigned call = 0; call < NOTHING; call++) {
        size_t bytes = deepest[call] - deepest[NOTHING] + page;
        bool fine = bytes <= LIMIT;
        printf("%s: stack of %s: %zu bytes\n", fine ? "ok" : "FAILED", names[call], bytes);
        failures += !fine;
    }
    return failures;
}

int main(int argc, char **argv)
{
    static samples sets, tables;
    if (argc != 2) {
        fputs("stack FOLDER\n", stderr);
        return 2;
    }
    load_samples(&sets, argv[1], "sets");
    load_samples(&tables, argv[1], "tables");
    make_stack();
    make_steps();
    measure_nested();
    measure_lines();
    for (size_t i = 0; i < sets.count; i++) {
        measure_set(sets.bytes[i], sets.lens[i], steps, 1);
    }
    for (size_t i = 0; i < tables.count; i++) {
        measure_table(tables.bytes[i], tables.lens[i]);
    }
    return report() == 0 ? 0 : 1;
}
