/* The scrub against the check, and the rebuild with tested survivors against the check and the rebuild without a test. */

#ifndef SCRUB_H
#define SCRUB_H

/* Times them on one warm stripe, so many rounds of each, and prints a table as Markdown. */
void print_scrubs(int rounds);

#endif
