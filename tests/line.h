/* What the programs here have in common: how a sample is printed, and how a published value is held against the one worked out. */
#ifndef LINE_H
#define LINE_H

#include "compare/oracle.h"

#include <stdio.h>
#include <stdlib.h>
#include <string.h>

/* Octets as a part, and a text without its closing 0. */
static inline part of(const void *at, size_t n)
{
    part p = {at, n};

    return p;
}

#define LITERAL(s) of(s, sizeof(s) - 1)

/* Octets as a lent buffer. */
static inline buffer into(octet *at, size_t n)
{
    buffer b = {at, n};

    return b;
}

/* A label, the number answered, and octets. */
static inline void line(const char *label, int answer, const octet *p, size_t n)
{
    printf("%s %d ", label, answer);
    for (size_t k = 0; k < n; k++)
        printf("%02x", p[k]);
    printf("\n");
}

/* The same with a number behind the label. */
static inline void numbered(const char *label, size_t number, int answer, const octet *p, size_t n)
{
    char whole[64];

    snprintf(whole, sizeof whole, "%s %zu", label, number);
    line(whole, answer, p, n);
}

/* The octets of hexadecimal digits, with spaces between them as they are printed; how many they are. */
static inline size_t unhex(const char *digits, octet *to)
{
    size_t n = 0;
    int read;

    for (unsigned v; sscanf(digits, " %2x%n", &v, &read) == 1; digits += read)
        to[n++] = (octet)v;
    return n;
}

/* Ends the program, naming the value, where what is worked out is not what the document prints. */
static inline void held(bool same, const char *what, const char *printed)
{
    if (same)
        return;
    fprintf(stderr, "%s: not %s, as it is printed\n", what, printed);
    exit(1);
}

/* Octets held against printed digits. */
static inline void published(const char *what, const octet *found, const char *printed)
{
    octet value[64];
    size_t n = unhex(printed, value);

    held(n > 0 && memcmp(found, value, n) == 0, what, printed);
}

#endif
