/* What a call takes of the stack. */

#ifndef STACK_H
#define STACK_H

/* Prints the bytes of a small stack that calls have written to, and their numbers: of read_newick
   for the deepest and the broadest texts that it accepts and refuses, of trees_of_dots for the dots
   of all small trees, for dots of none and for those that it refuses, of layout_treetex for trees of
   few nodes and of many, deep and broad, and for what it refuses. */
void report_stack(void);

#endif
