/* Whole tapes (M-109 and M-110): lists of packets written and read back, and tapes with one octet changed; tapes of every kind, read as
   before M-110; and what a lossy line brings, replayed step by step beside feeding it in turn. */
#ifndef TAPES_H
#define TAPES_H

/* Ends the program at the first call that is not as it must be. Gives how many calls were made. */
unsigned long compare_tapes(unsigned long seed);

#endif
