/* Tapes with marks beside them, made from a seed: their packets opened and refused in every way, what makes a tape or the record that it
   begins with faulty, lists that are right or wrong in every way that M-111 names, and single marks; and what came of them, counted. */
#ifndef MARK_CASES_H
#define MARK_CASES_H

#include "making.h"

/* A tape: the stateless record that it begins with, its octets, and the list of its marks by the oracle. */
typedef struct {
    octets start, tape, list;
} marked;

/* A tape at a strength with so many packets opened, and refused ones among them; the last packet is an opened one, or not. */
void make_marked(marked *m, unsigned bits, size_t count, bool refused_last);

/* One for a case: mostly of a few packets, now and then with marks. */
void make_any_marked(marked *m);

/* Makes the start record faulty, and the tape: each kind in turn. Ends the program where the oracle does not give what the paper names for
   it. */
void spoil_start(marked *m);
void spoil_tape(marked *m);

/* Makes neither of them faulty, one, or both. */
void spoil_any(marked *m);

/* A list for a tape: each kind in turn, of those that a tape with as many marks can have. Whether it is the right one; and how many kinds
   these are. */
bool make_list(const marked *m, octets *marks);
size_t lists_for(const marked *m);

/* A mark, as M-111 lays it out. */
void put_mark(octet mark[MARK_OCTETS], size_t count, size_t offset, const octet *record);

/* A mark to be read, and the room for its record: each kind in turn, with every kind of room. Ends the program as above. */
void make_mark(octets *mark, octets *room);

/* Prints how often each kind came; ends the program where one never did though as many cases were asked for as bring all. */
void every_mark_came(unsigned long cases);

#endif
