/* Recording what arrives over a line to a tape. It compiles as C and as C++. */
#ifndef RECORDING_H
#define RECORDING_H

#include "line.h"

#include <stdio.h>

/* Writes packets of a line to a tape, and gives how many are on it. */
typedef size_t recorder(const char *file, FILE *to, struct line *line);

/* All that arrives over a line of the demonstration; packets of a backhaul unit; and a long run of short packets. */
recorder record_line, record_backhaul, record_long;

/* Records packets behind what a tape begins with, and says what they can be replayed with. */
void record(const char *file, const char *mode, recorder *packets_of);

#endif
