/* Cases made from a seed, and their comparison: what both programs of the large comparison share. */
#ifndef MAKING_H
#define MAKING_H

#include "oracle.h"

#include <stdio.h>

enum { INPUTS = 6, LENT = 2, MOST = 65536, NUMBERS = WAITING + 1, SIZE_OCTETS = 8 };

/* Octets of any length up to MOST. */
typedef struct {
    size_t n;
    octet at[MOST];
} octets;

/* A case: the call's name and number, the case's seed and number, three numbers, the inputs, and the lent buffers at entry. */
typedef struct {
    const char *name;
    int call;
    unsigned long seed, number;
    unsigned x, y, z;
    octets in[INPUTS];
    octets lent[LENT];
} test;

/* What a call gives: its number, its fields in order, and the lent buffers at exit. */
typedef struct {
    int number;
    octets fields;
    octets lent[LENT];
} answer;

/* A call: its number in the program that has it answered, how its cases are made, and what the oracle expects. */
typedef struct {
    const char *name;
    int number;
    void (*make)(test *t);
    void (*expect)(const test *t, answer *a);
} call;

/* What the library gives; each program has its own way to it. */
void give(const test *t, answer *a);

/* Runs cases of calls; ends the program at the first difference, having printed it. Gives how many were run. */
unsigned long compare_calls(const call *calls, size_t count, unsigned long seed, unsigned long cases);

/* One case of a call, number k of a seed: answered twice and compared. */
void compare_case(const call *c, test *t, unsigned long seed, unsigned long k, answer *expected, answer *given);

/* Prints a case, and what is wrong with it. */
void print_case(const test *t, const char *what);

/* Starts the numbers anew from a seed and a stream of it. */
void seeded(unsigned long seed, unsigned long stream);

/* A number below a limit, and whether one chance in n came. */
unsigned long below(unsigned long limit);
bool one_in(unsigned long n);

/* Lengths: mostly the right one; mostly within limits, often at them, and sometimes just outside. */
size_t about(size_t right);
size_t within(size_t low, size_t high);

/* Octets filled at random to a length, and copied. */
void fill(octets *o, size_t n);
void copy(octets *to, const octets *from);

/* Inputs: a password, a name, a text of up to 65,536 octets, a start or session key. */
void make_password(octets *o);
void make_name(octets *o);
void make_text(octets *o);
void make_key(octets *o, unsigned bits);

/* A length around the room that a result of n octets needs: exact, one less, more, none; a lent buffer of such a length. */
size_t room_for(size_t n);
void make_room(octets *o, size_t n);

/* An option, and a Reset-Request, often damaged. */
void make_option(octets *o);
void make_reset(octets *o);

/* Strength k in bits: 0 is 40, 1 is 56, 2 is 128. */
unsigned strength_bits(unsigned k);

/* A part of a case, a lent buffer of an answer, and the next n octets of its fields. */
part in(const test *t, int k);
buffer lent(answer *a, int k);
octet *field(answer *a, size_t n);

/* A length or an offset as eight octets, as the next ones of its fields, and as it stands there. */
void put_size(octet *at, size_t size);
void size_field(answer *a, size_t size);
size_t size_at(const octet *at);

/* The seed and the number of cases for each call, from a program's arguments. */
void read_arguments(int count, char **words, unsigned long *seed, unsigned long *cases);

#endif
