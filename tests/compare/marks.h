/* Marks beside whole tapes (M-111): the list of a tape written, with room and without; faulty start records and tapes, and wrong lists; and
   each mark read and opened on from, beside the replay from the start. */
#ifndef MARKS_H
#define MARKS_H

/* Ends the program at the first call that is not as it must be. Gives how many calls were made. */
unsigned long compare_marks(unsigned long seed);

#endif
