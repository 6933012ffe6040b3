/* How often a call copies the 64 variables: copies [all]. A turn of charts with each shape of a guard, and with all, the other calls with one. The processor stops after each instruction
 * of a call, which runs on a stack of its own; a copy is counted when a place of that stack comes to hold the 64 values of the lent run. What is given back to the lent run is not counted,
 * and neither is a copy onto a place that still holds the same values. The same call where the guard's transition has not its event, and so the guard is not worked out, tells how often
 * whole runs are copied; working it out must add none. For x86-64, as the library is. */
#define _GNU_SOURCE
#include "monuvaleck.h"
#include "nested.h"

#include <emmintrin.h>
#include <signal.h>
#include <stdbool.h>
#include <stdio.h>
#include <stdlib.h>
#include <string.h>
#include <sys/mman.h>
#include <ucontext.h>

enum { STACK = 1 << 20, RED_ZONE = 128, TRAP_FLAG = 0x100, VARIABLES = 64, MOST_PLACES = 256, BLOCK = 16, LEAST_WORK = 5000 };
enum { TURN_C, CYCLE_C, PLAY_C, TURN_A, CYCLE_A, PLAY_A, CALLS, COPIER };
enum { NESTED_COPIES = 5 };

static const char *const names[CALLS] = {"charts_turn", "charts_cycle", "charts_play", "automata_turn", "automata_cycle", "automata_play"};
static const char *const shapes[SHAPES] = {"sums to the left", "sums to the right", "choices in the first number", "choices in the second number", "choices in the truth", "negations",
                                           "conjunctions to the left", "conjunctions to the right"};

static struct call {
    unsigned call;
    const uint8_t *bytes;
    size_t len;
    charts_run charts;
    automata_run automata;
    int32_t answer;
} given;

static uint8_t *stack, *lowest;
static ucontext_t here, there;
static int16_t values[VARIABLES];
static volatile bool done;
static unsigned long instructions;
static unsigned copies;
static const uint8_t *held[MOST_PLACES];
static size_t places;

static bool was_held(const uint8_t *place)
{
    for (size_t i = 0; i < places; i++) {
        if (held[i] == place) {
            return true;
        }
    }
    return false;
}

/* A place is told by its second value, which stands at an even address. */
static void look(void)
{
    static const uint8_t *now[MOST_PLACES];
    const __m128i second = _mm_set1_epi16(values[1]);
    size_t count = 0;
    for (const uint8_t *block = lowest; block < stack + STACK; block += BLOCK) {
        int found = _mm_movemask_epi8(_mm_cmpeq_epi16(_mm_load_si128((const __m128i *)(const void *)block), second));
        for (int at = 0; found != 0; at += 2, found >>= 2) {
            const uint8_t *place = block + at - 2;
            if ((found & 1) && place >= lowest && place + sizeof values <= stack + STACK && memcmp(place, values, sizeof values) == 0 && count < MOST_PLACES) {
                copies += !was_held(place);
                now[count++] = place;
            }
        }
    }
    memcpy(held, now, count * sizeof *now);
    places = count;
}

static void stopped(int number, siginfo_t *about, void *context)
{
    greg_t *registers = ((ucontext_t *)context)->uc_mcontext.gregs;
    uint8_t *end = (uint8_t *)registers[REG_RSP] - RED_ZONE;
    (void)number;
    (void)about;
    if (done) {
        registers[REG_EFL] &= ~(greg_t)TRAP_FLAG;
        return;
    }
    instructions++;
    if (end >= stack && end < lowest) {
        lowest = stack + (end - stack) / BLOCK * BLOCK;
    }
    look();
}

/* What a guard must not do: a copy at each node. */
static __attribute__((noinline)) int32_t copies_at_each(unsigned nodes)
{
    int16_t own[VARIABLES];
    memcpy(own, given.charts.variables, sizeof own);
    __asm__ volatile("" ::"r"(own) : "memory");
    return nodes > 1 ? copies_at_each(nodes - 1) + (own[0] != 0) : 0;
}

static int32_t called(void)
{
    static const uint32_t none[1];
    switch (given.call) {
    case TURN_C: return charts_turn(given.bytes, given.len, &given.charts, 0);
    case CYCLE_C: return charts_cycle(given.bytes, given.len, &given.charts, 0);
    case PLAY_C: return charts_play(given.bytes, given.len, &given.charts, none, 1);
    case TURN_A: return automata_turn(given.bytes, given.len, &given.automata, 0);
    case CYCLE_A: return automata_cycle(given.bytes, given.len, &given.automata, 0);
    case COPIER: return copies_at_each(NESTED_COPIES);
    default: return automata_play(given.bytes, given.len, &given.automata, none, 1);
    }
}

static void run_there(void)
{
    done = false;
    __asm__ volatile("pushfq\n\torq $0x100, (%%rsp)\n\tpopfq" ::: "memory", "cc");
    given.answer = called();
    done = true;
    __asm__ volatile("nop" ::: "memory");
}

static void prepare(void)
{
    static uint8_t handlers_stack[1 << 16];
    stack_t alternate = {.ss_sp = handlers_stack, .ss_size = sizeof handlers_stack};
    struct sigaction action = {.sa_sigaction = stopped, .sa_flags = SA_SIGINFO | SA_ONSTACK};
    stack = mmap(NULL, STACK, PROT_READ | PROT_WRITE, MAP_PRIVATE | MAP_ANONYMOUS, -1, 0);
    if (stack == MAP_FAILED || sigaltstack(&alternate, NULL) != 0 || sigaction(SIGTRAP, &action, NULL) != 0) {
        perror("a stack and a handler");
        exit(2);
    }
}

/* The copies of one call, which is not refused. */
static unsigned counted(unsigned call)
{
    given.call = call;
    copies = 0;
    places = 0;
    instructions = 0;
    memset(stack, 0, STACK);
    lowest = stack + STACK;
    getcontext(&there);
    there.uc_stack.ss_sp = stack;
    there.uc_stack.ss_size = STACK;
    there.uc_link = &here;
    makecontext(&there, run_there, 0);
    swapcontext(&here, &there);
    if (given.answer < 0) {
        printf("FAILED: call %u: answer %d\n", call, (int)given.answer);
        exit(1);
    }
    return copies;
}

static void check(const char *what, int32_t answer)
{
    if (answer != 0) {
        printf("FAILED: %s: answer %d\n", what, (int)answer);
        exit(1);
    }
}

/* A run of charts, or of the twin, in state 1, from which the guard is tried in the next turn. */
static void ready(unsigned call)
{
    static uint8_t twin[MONUVALECK_LONGEST_TWIN];
    given.bytes = nested.bytes;
    given.len = nested.len;
    if (call < TURN_A) {
        check("charts_start", charts_start(given.bytes, given.len, &given.charts));
        check("charts_cycle", charts_cycle(given.bytes, given.len, &given.charts, 0));
        memcpy(values, given.charts.variables, sizeof values);
    } else {
        given.len = (size_t)charts_translate(nested.bytes, nested.len, twin, sizeof twin);
        given.bytes = twin;
        check("automata_start", automata_start(given.bytes, given.len, &given.automata));
        check("automata_cycle", automata_cycle(given.bytes, given.len, &given.automata, 0));
        memcpy(values, given.automata.variables, sizeof values);
    }
}

/* In state 1 of a set with such a guard; where it is not to be worked out, the transition wants an event that does not come. */
static unsigned counted_of(unsigned call, unsigned shape, bool worked_out)
{
    make_nested(shape, IN_GUARD, VARIABLES);
    if (!worked_out) {
        nested.bytes[RECORD * 4 + 6] = ON_EVENT;
        nested.bytes[RECORD * 4 + 7] = 31;
    }
    ready(call);
    return counted(call);
}

/* A guard takes instructions of its own, which tells that it was worked out. */
static int compare(unsigned call, unsigned most)
{
    int failures = 0;
    unsigned whole = counted_of(call, 0, false);
    unsigned long before = instructions;
    for (unsigned shape = 0; shape < most; shape++) {
        int more = (int)(counted_of(call, shape, true) - whole);
        bool fine = more == 0 && instructions >= before + LEAST_WORK;
        printf("%s: copies of the variables in %s: %u with whole runs, %d by a guard of 1,024 nodes (%s)\n", fine ? "ok" : "FAILED", names[call], whole, more, shapes[shape]);
        failures += !fine;
    }
    return failures;
}

static int seen(void)
{
    make_nested(0, IN_GUARD, VARIABLES);
    ready(TURN_C);
    unsigned found = counted(COPIER);
    bool fine = found == NESTED_COPIES;
    printf("%s: %u copies, one at each of %d nodes, are seen\n", fine ? "ok" : "FAILED", found, NESTED_COPIES);
    return !fine;
}

int main(int argc, char **argv)
{
    bool all = argc == 2 && strcmp(argv[1], "all") == 0;
    if (argc != 1 && !all) {
        fputs("copies [all]\n", stderr);
        return 2;
    }
    prepare();
    int failures = seen() + compare(TURN_C, SHAPES);
    for (unsigned call = CYCLE_C; all && call < CALLS; call++) {
        failures += compare(call, 1);
    }
    return failures == 0 ? 0 : 1;
}
