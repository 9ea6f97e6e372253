/* Whole runs of a link, with losses, repeats, late packets and damage between sender and receiver (demand 3), with Reset-Requests (M-103),
   and with packets opened in pieces beside the one call (M-104). */
#ifndef RUNS_H
#define RUNS_H

#include <stdbool.h>

/* Runs in a mode, until at least as many packets are sealed as asked for; ends the program at the first call that is not as it must be.
   Gives how many calls were made. */
unsigned long compare_runs(unsigned long seed, unsigned long packets, bool stateful);

#endif
