/* Walking over a tape: its packets found and opened in turn, and words for what comes of them. It compiles as C and as C++. */
#ifndef WALK_H
#define WALK_H

#include "files.h"
#include "udukemb.h"

#include <time.h>

/* What a read hands over in front of a tape's first packet. */
static const struct udukemb_next at_start = { UDUKEMB_DONE, UDUKEMB_TAPE_START, UDUKEMB_TAPE_START };

/* A walk over a tape: its link record, the packet at hand and what came of it, and how many were opened from the tape's start on;
   how many packets it met itself, and how many of them held noise; and when it last said how far it is. */
struct walk {
    const struct file *tape;
    uint8_t record[UDUKEMB_LINK_RECORD];
    size_t offset;
    struct udukemb_next next;
    struct udukemb_replayed step;
    uint8_t plain[UDUKEMB_LONGEST_PLAIN];
    uint64_t opened;
    size_t packets, noise;
    time_t said;
};

/* Finds the packet of a tape that follows; false where none does. */
bool find_next(const struct file *tape, struct udukemb_next *next);

/* Says on standard error how far a tape is walked over, every few seconds. */
void show_progress(const struct file *tape, size_t offset, time_t *said);

/* Ends the program where what follows the good packets of a tape is not its end; the words say from where on these were counted. */
void check_end(const struct file *tape, struct udukemb_next next, const char *counted, size_t packets);

/* Begins a walk from a tape's start. */
void begin_walk(struct walk *walk, const struct file *tape, const uint8_t start[UDUKEMB_LINK_RECORD]);

/* Opens the next packet of a walk; false where there is none. */
bool walk_on(struct walk *walk);

/* Says what came of the packet at hand. */
void show_step(const struct walk *walk);

/* Ends the program where a walk from the start met more noise than packets, of all on the tape or of the first ones. No single packet tells
   that the key is wrong, since MPPE has no check of its own; but then most packets answer 4, as noise does. */
void judge_key(const struct walk *walk, const char *which);

#endif
