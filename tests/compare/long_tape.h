/* A long tape (M-109): written, read back and replayed, with the time of each beside that of a plain loop over open on the same
   packets; and its marks (M-111): written, checked, and opened on from. */
#ifndef LONG_TAPE_H
#define LONG_TAPE_H

/* A hundred packets for each case asked for, and at most 100,000; ends the program where one does not open to what was sealed. */
void compare_long_tape(unsigned long seed, unsigned long cases);

#endif
