/* How ./figures ends, and what it says when it cannot do what was asked. */
#ifndef MONTH_COMPLAIN_H
#define MONTH_COMPLAIN_H

enum { DONE = 0, REFUSED = 1, WRONG_USE = 2 };

/* Takes a status, whom the complaint is about, as a rule a file, and the complaint. Prints both on standard error and answers the status. */
int complain(int status, const char *about, const char *fault);

#endif
