/* The calls that a C host makes, by number, and those that runs of a link are made of. */
#ifndef HOST_H
#define HOST_H

#include "making.h"

/* The cases of a call have the stream of the seed with its number. */
enum {
    CHECK_RESPONSE, RESPONSE, STRING, CHECK_AUTHENTICATOR, START_KEY, MAKE_BASE_KEY, MAKE_BINDING_KEY, OPTION_REPLY, NEW_LINK, SEAL, OPEN,
    BEGIN, FEED, END, RESET, WRITE_RESET, TAPE_BEGIN, TAPE_WRITE, TAPE_READ, TAPE_REPLAY, MARKS_WRITE,
    MARKS_READ, MARKS_CHECK, CALLS
};

/* The streams behind those: of the runs in each mode, of packets in any order, of tapes, of a long one, of long packets, and of marks. */
enum { STATELESS_RUNS = CALLS, STATEFUL_RUNS, ANY_ORDER, TAPES, LONG_TAPE, LONG_PACKETS, MARKS };

extern const call seal_in_run, open_in_run, begin_in_run, feed_in_run, end_in_run, reset_in_run, write_reset_in_run;
extern const call tape_begin_in_run, tape_write_in_run, tape_read_in_run, tape_replay_in_run;
extern const call marks_write_in_run, marks_read_in_run, marks_check_in_run;

#endif
