/* The bench program's commands for marks beside a stateless tape. It compiles as C and as C++. */
#ifndef MARKS_H
#define MARKS_H

#include "udukemb.h"

/* Where an opening shall begin: at an offset, or at the packet that has a number among those opened. */
struct place {
    bool is_offset;
    uint64_t number;
};

/* Reads the words that name a place. */
struct place read_place(const char *what, const char *number);

/* Writes a tape's marks to a file; the words name the tape's link, here and below. */
void write_marks(const char *name, const char *marks, char **words);

/* Says whether a file has a tape's marks; where it has not, this ends the program with the first that differs. */
void check(const char *name, const char *marks_name, char **words);

/* Opens a tape from a place on, going on from the nearest mark before it. A list that was not checked before is checked; with one that was,
   the tape is not read before the mark. */
void open_from(const char *name, const char *marks_name, struct place place, bool checked, char **words);

#endif
