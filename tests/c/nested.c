#include "nested.h"

#include "monuvaleck.h"

#include <stdbool.h>
#include <stdio.h>
#include <stdlib.h>

enum { MOST_NODES = 1024, UNLIKE = 499 };

file nested;
unsigned nested_nodes;

static unsigned constant(int32_t value)
{
    add_constant(&nested, NODE, value);
    return nested_nodes++;
}

static unsigned node(unsigned operator_code, unsigned a, unsigned b, unsigned c)
{
    add_node(&nested, NODE, operator_code, a, b, c);
    return nested_nodes++;
}

/* A chart whose second transition, from state 1 to itself, will get the guard, or whose first the action, or whose state 1 the waiting action. */
static void begin(unsigned variables)
{
    nested.len = 0;
    nested_nodes = 0;
    add_chart(&nested, 0);
    add_state(&nested, 0);
    add_state(&nested, 0);
    add_transition(&nested, 1, 0, 1, NO_TRIGGER, 0, NONE);
    add_transition(&nested, 1, 1, 1, NO_TRIGGER, 0, NONE);
    for (unsigned v = 0; v < variables; v++) {
        add_variable(&nested, VARIABLE, -32768, 32767, (int)v * UNLIKE);
    }
}

static unsigned holds(void)
{
    unsigned a = constant(0);
    return node(EQUAL, a, constant(0), 0);
}

/* Numbers of so many nodes at most, nested in one place: the left or right of a sum, the two numbers of a choice, its truth. */
static unsigned nested_sums(unsigned most, bool left)
{
    unsigned root = constant(1);
    while (nested_nodes + 2 <= most) {
        unsigned leaf = constant(1);
        root = left ? node(SUM, root, leaf, 0) : node(SUM, leaf, root, 0);
    }
    return root;
}

static unsigned nested_choices(unsigned most, bool first)
{
    unsigned root = constant(1);
    while (nested_nodes + 6 <= most) {
        unsigned truth = holds();
        if (!first) {
            truth = node(NOT, truth, 0, 0);
        }
        unsigned leaf = constant(1);
        root = first ? node(CHOICE, truth, root, leaf) : node(CHOICE, truth, leaf, root);
    }
    return root;
}

static unsigned nested_in_truth(unsigned most)
{
    unsigned root = constant(1);
    while (nested_nodes + 5 <= most) {
        unsigned truth = node(EQUAL, root, constant(1), 0), leaf = constant(1);
        root = node(CHOICE, truth, leaf, constant(1));
    }
    return root;
}

/* Truths: negations, the deepest of all; the left or right of conjunctions. */
static unsigned nested_nots(unsigned most)
{
    unsigned root = holds();
    while (nested_nodes + 1 <= most) {
        root = node(NOT, root, 0, 0);
    }
    return root;
}

static unsigned nested_ands(unsigned most, bool left)
{
    unsigned root = holds();
    while (nested_nodes + 4 <= most) {
        unsigned leaf = holds();
        root = left ? node(AND, root, leaf, 0) : node(AND, leaf, root, 0);
    }
    return root;
}

static unsigned nest(unsigned shape, unsigned most)
{
    switch (shape) {
    case SUM_LEFT: return nested_sums(most, true);
    case SUM_RIGHT: return nested_sums(most, false);
    case CHOICE_FIRST: return nested_choices(most, true);
    case CHOICE_SECOND: return nested_choices(most, false);
    case IN_TRUTH: return nested_in_truth(most);
    case NOTS: return nested_nots(most);
    case AND_LEFT: return nested_ands(most, true);
    default: return nested_ands(most, false);
    }
}

/* A truth; a number is compared with 0. */
static unsigned nested_truth(unsigned shape)
{
    unsigned root = nest(shape, shape < NUMBERS ? MOST_NODES - 2 : MOST_NODES);
    return shape < NUMBERS ? node(AT_MOST, constant(0), root, 0) : root;
}

/* A number; a truth picks between two. */
static unsigned nested_number(unsigned shape)
{
    unsigned root = nest(shape, shape < NUMBERS ? MOST_NODES : MOST_NODES - 3);
    if (shape >= NUMBERS) {
        unsigned a = constant(1);
        root = node(CHOICE, root, a, constant(2));
    }
    return root;
}

static void make(unsigned shape, unsigned use, unsigned variables)
{
    bool assigned = use == ASSIGNED || use == ASSIGNED_WAITING;
    begin(variables);
    unsigned root = assigned ? nested_number(shape) : nested_truth(shape), deed = assigned ? ASSIGN : RAISE;
    if (use == IN_GUARD) {
        set_two(nested.bytes, RECORD * 4 + 12, root);
        return;
    } else if (use < ASSIGNED_WAITING) {
        add_action(&nested, ON_TRANSITION, 0, deed, 0, assigned ? root : 0);
    } else {
        /* the chart idles in cycles without event 31, which are due from age 1 on */
        nested.bytes[RECORD * 4 + 6] = ON_EVENT;
        nested.bytes[RECORD * 4 + 7] = 31;
        add_waiting(&nested, 1, 100, deed, 0, assigned ? root : 0);
    }
    if (!assigned) {
        guard_last(&nested, root);
    }
}

void make_nested(unsigned shape, unsigned use, unsigned variables)
{
    make(shape, use, variables);
    int32_t check = charts_check(nested.bytes, nested.len);
    if (check != 0 || nested_nodes > MOST_NODES || nested_nodes + 5 < MOST_NODES) {
        printf("FAILED: a nested expression: check %d, %u nodes\n", (int)check, nested_nodes);
        exit(1);
    }
}
