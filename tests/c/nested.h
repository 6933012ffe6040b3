/* Sets of one chart whose one expression has 1,024 nodes, or up to five less, that nest in one place: those with the deepest evaluation. */
#ifndef NESTED_H
#define NESTED_H

#include "records.h"

/* The left or right of sums, the two numbers of choices, their truth; negations; the left or right of conjunctions. */
enum { SUM_LEFT, SUM_RIGHT, CHOICE_FIRST, CHOICE_SECOND, IN_TRUTH, NUMBERS, NOTS = NUMBERS, AND_LEFT, AND_RIGHT, SHAPES };

/* Where the expression stands: the guard of the second transition, record 4; the number that an action assigns; the guard of an action; both of a waiting action. */
enum { IN_GUARD, ASSIGNED, IN_ACTIONS_GUARD, ASSIGNED_WAITING, IN_WAITING_GUARD, USES };

/* The set that was made last, and how many nodes it has. */
extern file nested;
extern unsigned nested_nodes;

/* With so many variables, which start with unlike values, the first with 0. Ends the program where the set is refused. */
void make_nested(unsigned shape, unsigned use, unsigned variables);

#endif
