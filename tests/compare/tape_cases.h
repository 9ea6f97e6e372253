/* Tapes made from a seed, whole and damaged in every way that M-109 and M-110 name; and what came of them, counted. */
#ifndef TAPE_CASES_H
#define TAPE_CASES_H

#include "making.h"

/* A case's offset: any that a program in C can give. */
void set_offset(test *t, size_t offset);
size_t offset_of(const test *t);

/* A length that a tape carries, often at a limit, and now and then a long one; and how many groups the shortest form of a length has. */
size_t make_length(void);
size_t shortest(size_t length);

/* A packet to be written, and the room for its record: lengths at the limits, beside them and others, each with every kind of room in
   turn. */
void make_written(octets *packet, octets *room);

/* A tape, and the offset that it is read at: each kind in turn. Ends the program where the oracle's read does not give what the paper
   names for it. */
size_t make_tape(octets *tape);

/* A tape with a packet among others; gives the offset of its record. */
size_t make_recorded(octets *tape, const octets *packet);

/* Counts a step of a replay, with the number it answers. */
void count_replayed(const test *t, int number);

/* Prints how often something came; ends the program where it had to come and never did. */
void print_came(const char *what, unsigned long often, bool had_to);

/* Prints how often each kind came; ends the program where one never did though as many cases were asked for as bring all. */
void every_tape_came(unsigned long cases);

#endif
