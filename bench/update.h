/* The update of one cell against encoding its stripe anew. */

#ifndef UPDATE_H
#define UPDATE_H

/* Times both for k = p = 5 and 31, so many rounds of each, and prints a table as Markdown. */
void print_updates(int rounds);

#endif
