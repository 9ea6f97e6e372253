/* Packets at the limits of M-110 and beside them, in each mode and at each strength: sealed, opened in one call and in pieces, written to
   a tape, read back and replayed; and the one that is too long, refused by every call. */
#ifndef LONG_PACKETS_H
#define LONG_PACKETS_H

/* Ends the program at the first call that is not as it must be, or where a length never came. Gives how many calls were made. */
unsigned long compare_long_packets(unsigned long seed);

#endif
