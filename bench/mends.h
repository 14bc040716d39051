/* Further rebuilds: of one disk by the balanced plan and by a plan that is sent, and of missing cells. */

#ifndef MENDS_H
#define MENDS_H

/* Times them on one warm stripe in turns with the rebuilds of one and of two disks by our plan, so many rounds of each,
   and prints a table as Markdown. */
void print_mends(int rounds);

#endif
