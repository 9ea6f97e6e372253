/* Link records and packets made from a seed, well formed and damaged. */
#ifndef LINKS_H
#define LINKS_H

#include "making.h"

/* The places of a record's fields, and how many cells its box has. */
enum { AT_START = 1, AT_SESSION = 17, AT_COUNT = 33, AT_MODE = 35, AT_MARK = 36, AT_INDICES = 37, AT_CELLS = 39 };
enum { CELLS = 256 };

/* The places of a walk's fields behind its record. */
enum { AT_LIVE = RECORD_OCTETS, AT_HEADER = 296, AT_NEXT = 298, AT_DRAWN = 314, AT_TOTAL = 572, AT_FED = 574, AT_FIRST = 576 };

/* The longest packets on the lines that runs are made of, plain and sealed: those of an information field of 1,500 octets. */
enum { LINE_PLAIN = 1498, LINE_PACKET = FRONT + LINE_PLAIN };

/* The longest packets whose lengths stand on a tape in one group, and in two. */
enum { LONGEST_IN_ONE = 127, LONGEST_IN_TWO = 16383 };

/* How far behind the last one opened a packet may be, and is late. */
enum { MOST_BEHIND = COUNTS - FARTHEST - 1 };

/* The bit of a packet's third octet that says that RC4 is keyed afresh, and the lowest octet of the counts that change a stateful key. */
enum { BIT_A = 0x80, CHANGE = 0xFF };

/* A number for a strength in bits, also one that is none. */
unsigned make_bits(void);

/* Octets as a buffer, and as an input. */
buffer whole(octets *o);
part part_of(const octets *o);

/* The key changes that a packet of a count brings with it in a record's mode. */
unsigned changes_with(const octet *record, unsigned count);

/* The record of a new link; a well formed one made by hand; either of them; a length that no record has; one damage to a record; a record
   that is damaged now and then. */
void make_begin(octets *record, unsigned bits, bool stateful);
void make_right_record(octets *record);
void make_start(octets *record, unsigned bits, bool stateful);
size_t make_other_length(void);
void damage_record(octets *record);
void make_record(octets *record);

/* A plain packet of a length; one for a line, which may be refused; one for a case, which is now and then a long one. */
void make_plain_of(octets *plain, size_t n);
void make_line_plain(octets *plain);
void make_plain(octets *plain);

/* A packet for a record, often damaged; one damage to a packet. */
void make_arriving(const octets *record, octets *packet);
void damage_arriving(const octets *record, octets *packet);

/* How many of n octets are fed next; a packet's front, and its data from an octet of it on; octets of a part, up to n. */
size_t make_cut(size_t n);
part front_of(const octets *packet);
part data_of(const octets *packet, size_t from);
void take(octets *to, part from, size_t n);

/* Octets behind others; ends the program where there is no room for them. */
void append(octets *to, part p);

/* A walk before it is begun with a packet; one that is under way, and the data left for it; one damage to its record or length, and one to
   any field. */
void make_walk(octets *walk, const octets *record, const octets *packet);
void make_live_walk(octets *walk, octets *left);
void damage_walked_record(octets *walk);
void damage_walk(octets *walk);

/* The case of a Reset-Request that is written, and what the oracle expects. */
void make_write_reset(test *t);
void expect_write_reset(const test *t, answer *a);

#endif
