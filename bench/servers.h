/* A parity server's stripe against encoding the stripes of the others. */

#ifndef SERVERS_H
#define SERVERS_H

/* Times both for m = 2, 4 and 16 servers with k = p = 5 and 31, so many rounds of each, and prints a table as Markdown. */
void print_servers(int rounds);

#endif
