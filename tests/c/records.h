/* Files put together record by record, as document 01 lays them out. */
#ifndef RECORDS_H
#define RECORDS_H

#include <stddef.h>
#include <stdint.h>

enum { RECORD = 16, MOST_BYTES = 288 * 1024, NONE = 65535 }; /* some more bytes than the longest table has */

/* kinds of a chart set; a table's variables and nodes have kinds of their own */
enum { CHART = 1, STATE, TRANSITION, VARIABLE, NODE, ACTION };
enum { AUTOMATON = 33, LOCATION, EDGE, LITERAL, CLOCK, TWIN_VARIABLE, TWIN_NODE, UPDATE, RESET };
enum { NO_TRIGGER, ON_EVENT, AFTER, EVERY };
enum { ON_CLOCK = 2 }; /* a literal's trigger */
enum { CONSTANT = 1, VALUE, SUM, DIFFERENCE, PRODUCT, QUOTIENT, REMAINDER, CHOICE };
enum { EQUAL = 16, LESS, AT_MOST, NOT, AND, OR };
enum { ENTRY = 1, EXIT, ON_TRANSITION, WAITING };
enum { ASSIGN = 1, RAISE };
enum { MUST_HOLD = 1, MUST_NOT };

typedef struct {
    uint8_t bytes[MOST_BYTES];
    size_t len;
} file;

unsigned two_at(const uint8_t *bytes, size_t at);
uint32_t four_at(const uint8_t *bytes, size_t at);
void set_two(uint8_t *bytes, size_t at, unsigned value);
void set_four(uint8_t *bytes, size_t at, uint32_t value);

/* how many records of a kind there are, and where the first stands */
size_t count_of(const uint8_t *bytes, size_t len, uint8_t kind);
size_t first_of(const uint8_t *bytes, size_t len, uint8_t kind);

void add_chart(file *f, unsigned initial);
void add_state(file *f, unsigned chart);
/* the argument is the event or the milliseconds */
void add_transition(file *f, unsigned priority, unsigned source, unsigned target, unsigned trigger, uint32_t argument, unsigned guard);
void add_variable(file *f, uint8_t kind, int lowest, int highest, int start);
void add_constant(file *f, uint8_t kind, int32_t value);
void add_node(file *f, uint8_t kind, unsigned operator_code, unsigned a, unsigned b, unsigned c);
/* the nodes of a guard, numbered from 0, from words in the order in which guard_read numbers them: operands, then their operator, as in "v0 3 - 0 <"; a choice is "?" */
void add_guard(file *f, const char *words);
/* how many operands an operator has; 0 of one that is unknown */
unsigned operands_of(unsigned operator_code);
/* the thing is the variable or the event */
void add_action(file *f, unsigned place, unsigned owner, unsigned deed, unsigned thing, unsigned node);
/* an action that is done while the state idles, every so many milliseconds */
void add_waiting(file *f, unsigned state, uint32_t milliseconds, unsigned deed, unsigned thing, unsigned node);
/* the milliseconds of a state's waiting actions, as the first has them; 0 where there are none */
uint32_t waiting_time(const uint8_t *bytes, size_t len, unsigned state);
/* the last record, an action or an update, gets the node as its guard */
void guard_last(file *f, unsigned node);

void add_automaton(file *f, unsigned initial);
void add_location(file *f, unsigned automaton);
void add_edge(file *f, unsigned automaton, unsigned source, unsigned target, unsigned idle);
/* the argument is the event or the clock */
void add_literal(file *f, unsigned sign, unsigned edge, unsigned trigger, unsigned argument, unsigned node);
void add_clock(file *f, unsigned trigger, unsigned ticks);
void add_update(file *f, unsigned deed, unsigned edge, unsigned thing, unsigned node);
void add_reset(file *f, unsigned edge, unsigned clock);

#endif
