/* Calls of a run of a link. Each is compared: the library's whole answer must be the oracle's. */
#ifndef STEPS_H
#define STEPS_H

#include "making.h"

/* The run's seed, the calls made, and the packets opened in pieces beside the one call. */
struct steps {
    unsigned long seed, calls, walked;
};
extern struct steps steps;

/* The last call: its case, of which the numbers are set before it, and what the library gave. */
extern test asked;
extern answer given;

/* Starts anew, from a stream of a seed. */
void start_steps(unsigned long seed, unsigned long stream);

/* Ends the program where a run does not go as the papers say. */
void demand(bool held, const char *what);

/* One call with its case as it is set. */
void compare_asked(const call *c);

/* One call, with a buffer of its own; its record, or what else is lent to it first, is handed back. */
void step(const call *c, octets *record, const octets *input, size_t room);

/* The same with a buffer that is handed back too. */
void step_into(const call *c, octets *record, const octets *input, octets *out);

/* The key changes that the last call reports; none where it is a feed. */
unsigned reported(void);

/* A seal call: whether it is not refused, and then its packet. Seal calls of a line until one is not refused; its plain packet and its
   packet are kept. */
bool seals(octets *sender, const octets *plain, octets *packet);
void seal_call(octets *sender, octets *plain, octets *packet);

/* A call of open, with room lent, and the same packet in pieces before it; a call of open that has these before it now and then. */
void open_in_pieces(octets *receiver, const octets *packet, size_t room);
void open_call(octets *receiver, const octets *packet, size_t room);

/* Whether the last call left its buffer as it was, from an octet of it on. */
bool unwritten(size_t from);

/* The last call of open opened a packet to what was sealed, and left the sender's record of then. */
void opened_as_sealed(const octets *receiver, part plain, const octet sender[RECORD_OCTETS]);

/* The last call changed neither record nor buffer, and reported nothing; a call of open of which that must hold. */
void changed_nothing(const octets *record);
void refuse(octets *receiver, const octets *packet, size_t room);

/* Now and then some calls of open that the table refuses, beside a packet. */
void disturb(octets *receiver, const octets *packet);

#endif
