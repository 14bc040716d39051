/* The limit of reading. */

#ifndef LIMIT_H
#define LIMIT_H

/* Prints, for k = p, what each operation takes for a line of 64 bytes that its
   sums read, beside what a line takes that is only read, in order. Uses the
   times of `results`. */
void print_limits(int rounds);

#endif
