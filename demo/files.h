/*
 * The files of the bench's program, tapes and lists of marks. A file that cannot be read or written ends the program with a sentence and
 * status 1. It compiles as C and as C++.
 */
#ifndef FILES_H
#define FILES_H

#include "udukemb.h"

#include <stdio.h>

/* A file in memory. */
struct file {
    const char *name;
    uint8_t *octets;
    size_t length;
};

/* Room for so many octets and one more, so that no room is asked for that is none. */
uint8_t *room_for(const char *name, size_t n);

/* Reads a file whole. */
struct file load(const char *name);

/* Reads a tape's first octet, and what stands from an offset on; the octets between stay unread, and are not set. */
struct file load_tape_from(const char *name, size_t offset);

/* Reads a tape whole. */
struct file load_tape(const char *name);

/* Whether two names are of one file that is there. */
bool same_file(const char *one, const char *other);

/* Begins a file, in the place of one that has the name; a secret one, where it is new, for its owner alone. */
FILE *begin_file(const char *name, bool secret);

/* Writes octets to a file. */
void put(const char *name, FILE *to, const uint8_t *octets, size_t n);

/* Ends a file that is written. */
void end_file(const char *name, FILE *to);

#endif
