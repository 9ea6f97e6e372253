/* A list of packets and its tape, which the library writes, reads and replays; each call is compared (steps.h). */
#ifndef TAPING_H
#define TAPING_H

#include "making.h"

/* Packets that a list has at most. */
enum { MOST_PACKETS = 40 };

/* A list of packets, one behind the other; where each ends there, and where its record begins on the tape; and the tape. Of all lists and
   tapes: how many were written; reads that a reader of M-109 does not refuse; and packets that only one of M-110 reads. */
struct list {
    octets packets, tape;
    size_t count, ends[MOST_PACKETS], records[MOST_PACKETS];
    unsigned long written, as_before, longer;
};
extern struct list list;

/* Packet k of the list; the list emptied, and a packet put behind it. */
part packet_of(size_t k);
void clear_list(void);
void add_packet(const octets *packet);

/* A length that the list has room for, also on its tape; else a short one. */
size_t make_list_length(void);

/* The list's tape: what the library writes is what the oracle writes into one buffer. */
void write_list(void);

/* A read. It is that of a reader of M-109, where that one does not refuse. */
tape_next read_at(const octets *tape, size_t offset);

/* Reads a tape on to its end, or to a read that is refused. Whether it reads back to the list: each packet as a part of the tape, and
   then 0 at the end. */
bool reads_back(const octets *tape);

/* A step of the replay of a tape. Gives the offset after it. */
size_t replay_at(octets *record, const octets *tape, size_t offset, octets *room);

#endif
