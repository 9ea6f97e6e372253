/* Packets of a stateless link in any order of arrival, repeated and lost (M-105): each at most 2,048 ahead of the newest opened and at most
   2,047 behind it, and some just beyond these limits. */
#ifndef ORDER_H
#define ORDER_H

/* A line at each strength; ends the program at the first call that is not as it must be, or where a kind of arrival never came. Gives how
   many calls were made. */
unsigned long compare_order(unsigned long seed);

#endif
