#include "records.h"

#include <stdlib.h>
#include <string.h>

unsigned two_at(const uint8_t *bytes, size_t at)
{
    return bytes[at] | (unsigned)bytes[at + 1] << 8;
}

uint32_t four_at(const uint8_t *bytes, size_t at)
{
    return two_at(bytes, at) | (uint32_t)two_at(bytes, at + 2) << 16;
}

void set_two(uint8_t *bytes, size_t at, unsigned value)
{
    bytes[at] = (uint8_t)value;
    bytes[at + 1] = (uint8_t)(value >> 8);
}

void set_four(uint8_t *bytes, size_t at, uint32_t value)
{
    set_two(bytes, at, value & 0xFFFF);
    set_two(bytes, at + 2, value >> 16);
}

size_t first_of(const uint8_t *bytes, size_t len, uint8_t kind)
{
    size_t at = 0;
    while (at < len && bytes[at] < kind) {
        at += RECORD;
    }
    return at;
}

size_t count_of(const uint8_t *bytes, size_t len, uint8_t kind)
{
    return (first_of(bytes, len, (uint8_t)(kind + 1)) - first_of(bytes, len, kind)) / RECORD;
}

enum { MOST_OPEN = 64 }; /* operands of a guard that wait for their operators */

/* A new record of a kind, all zero but for that. */
static uint8_t *add(file *f, uint8_t kind)
{
    if (f->len + RECORD > sizeof f->bytes) {
        abort();
    }
    uint8_t *record = f->bytes + f->len;
    memset(record, 0, RECORD);
    record[0] = kind;
    f->len += RECORD;
    return record;
}

void add_chart(file *f, unsigned initial)
{
    set_two(add(f, CHART), 2, initial);
}

void add_state(file *f, unsigned chart)
{
    add(f, STATE)[1] = (uint8_t)chart;
}

void add_transition(file *f, unsigned priority, unsigned source, unsigned target, unsigned trigger, uint32_t argument, unsigned guard)
{
    uint8_t *record = add(f, TRANSITION);
    record[1] = (uint8_t)priority;
    set_two(record, 2, source);
    set_two(record, 4, target);
    record[6] = (uint8_t)trigger;
    if (trigger == ON_EVENT) {
        record[7] = (uint8_t)argument;
    } else {
        set_four(record, 8, argument);
    }
    set_two(record, 12, guard);
}

void add_variable(file *f, uint8_t kind, int lowest, int highest, int start)
{
    uint8_t *record = add(f, kind);
    set_two(record, 2, (unsigned)lowest & 0xFFFF);
    set_two(record, 4, (unsigned)highest & 0xFFFF);
    set_two(record, 6, (unsigned)start & 0xFFFF);
}

void add_constant(file *f, uint8_t kind, int32_t value)
{
    uint8_t *record = add(f, kind);
    record[1] = CONSTANT;
    set_four(record, 8, (uint32_t)value);
}

void add_node(file *f, uint8_t kind, unsigned operator_code, unsigned a, unsigned b, unsigned c)
{
    uint8_t *record = add(f, kind);
    record[1] = (uint8_t)operator_code;
    set_two(record, 2, a);
    set_two(record, 4, b);
    set_two(record, 6, c);
}

unsigned operands_of(unsigned operator_code)
{
    switch (operator_code) {
    case SUM: case DIFFERENCE: case PRODUCT: case QUOTIENT: case REMAINDER: case EQUAL: case LESS: case AT_MOST: case AND: case OR: return 2;
    case NOT: return 1;
    case CHOICE: return 3;
    default: return 0;
    }
}

/* The operator that a word is; 0 where it is a variable or a constant. */
static unsigned operator_of(const char *word, size_t len)
{
    static const struct {
        const char *word;
        unsigned operator_code;
    } operators[] = {{"*", PRODUCT}, {"/", QUOTIENT}, {"%", REMAINDER}, {"+", SUM}, {"-", DIFFERENCE}, {"<", LESS}, {"<=", AT_MOST},
                     {"==", EQUAL}, {"&&", AND}, {"||", OR}, {"!", NOT}, {"?", CHOICE}};
    for (size_t i = 0; i < sizeof operators / sizeof operators[0]; i++) {
        if (strlen(operators[i].word) == len && memcmp(operators[i].word, word, len) == 0) {
            return operators[i].operator_code;
        }
    }
    return 0;
}

void add_guard(file *f, const char *words)
{
    unsigned open[MOST_OPEN], depth = 0, nodes = 0;
    for (const char *word = words; *word != 0;) {
        size_t len = strcspn(word, " ");
        unsigned operator_code = operator_of(word, len), count = operands_of(operator_code);
        if (depth < count || depth - count >= MOST_OPEN) {
            abort();
        }
        depth -= count;
        if (operator_code != 0) {
            add_node(f, NODE, operator_code, open[depth], count > 1 ? open[depth + 1] : 0, count > 2 ? open[depth + 2] : 0);
        } else if (*word == 'v') {
            add_node(f, NODE, VALUE, (unsigned)strtoul(word + 1, NULL, 10), 0, 0);
        } else {
            add_constant(f, NODE, (int32_t)strtol(word, NULL, 10));
        }
        open[depth++] = nodes++;
        word += len + strspn(word + len, " ");
    }
}

void add_action(file *f, unsigned place, unsigned owner, unsigned deed, unsigned thing, unsigned node)
{
    uint8_t *record = add(f, ACTION);
    record[1] = (uint8_t)place;
    set_two(record, 2, owner);
    record[4] = (uint8_t)deed;
    record[5] = (uint8_t)thing;
    set_two(record, 6, node);
}

void add_waiting(file *f, unsigned state, uint32_t milliseconds, unsigned deed, unsigned thing, unsigned node)
{
    add_action(f, WAITING, state, deed, thing, node);
    set_four(f->bytes + f->len - RECORD, 12, milliseconds);
}

uint32_t waiting_time(const uint8_t *bytes, size_t len, unsigned state)
{
    for (size_t at = first_of(bytes, len, ACTION); at < len; at += RECORD) {
        if (bytes[at + 1] == WAITING && two_at(bytes, at + 2) == state) {
            return four_at(bytes, at + 12);
        }
    }
    return 0;
}

void guard_last(file *f, unsigned node)
{
    set_two(f->bytes + f->len - RECORD, 8, node + 1);
}

void add_automaton(file *f, unsigned initial)
{
    set_two(add(f, AUTOMATON), 2, initial);
}

void add_location(file *f, unsigned automaton)
{
    add(f, LOCATION)[1] = (uint8_t)automaton;
}

void add_edge(file *f, unsigned automaton, unsigned source, unsigned target, unsigned idle)
{
    uint8_t *record = add(f, EDGE);
    record[1] = (uint8_t)automaton;
    set_two(record, 2, source);
    set_two(record, 4, target);
    record[6] = (uint8_t)idle;
}

void add_literal(file *f, unsigned sign, unsigned edge, unsigned trigger, unsigned argument, unsigned node)
{
    uint8_t *record = add(f, LITERAL);
    record[1] = (uint8_t)sign;
    set_two(record, 2, edge);
    record[4] = (uint8_t)trigger;
    if (trigger == ON_EVENT) {
        record[5] = (uint8_t)argument;
    } else {
        set_two(record, 6, argument);
    }
    set_two(record, 8, node);
}

void add_clock(file *f, unsigned trigger, unsigned ticks)
{
    uint8_t *record = add(f, CLOCK);
    record[1] = (uint8_t)trigger;
    set_two(record, 2, ticks);
}

void add_update(file *f, unsigned deed, unsigned edge, unsigned thing, unsigned node)
{
    uint8_t *record = add(f, UPDATE);
    record[1] = (uint8_t)deed;
    set_two(record, 2, edge);
    record[4] = (uint8_t)thing;
    set_two(record, 6, node);
}

void add_reset(file *f, unsigned edge, unsigned clock)
{
    uint8_t *record = add(f, RESET);
    set_two(record, 2, edge);
    set_two(record, 4, clock);
}
