/* See making.h. */
#include "making.h"

#include <inttypes.h>
#include <stdint.h>
#include <stdlib.h>
#include <string.h>

/* The state of the numbers drawn (xorshift64*). */
static uint64_t drawn = 1;

/* The next 64 bits. */
static uint64_t draw(void)
{
    drawn ^= drawn >> 12;
    drawn ^= drawn << 25;
    drawn ^= drawn >> 27;
    return drawn * UINT64_C(0x2545F4914F6CDD1D);
}

/* The state of a seed and a stream: never 0, and turned over before the first number. */
void seeded(unsigned long seed, unsigned long stream)
{
    drawn = (seed + 1) * UINT64_C(0x9E3779B97F4A7C15) ^ (stream + 1) * UINT64_C(0xD1B54A32D192ED03);
    drawn += drawn == 0;
    for (int k = 0; k < 8; k++)
        draw();
}

/* A number from its upper bits. */
unsigned long below(unsigned long limit)
{
    return (unsigned long)((draw() >> 11) % limit);
}

/* One chance in n. */
bool one_in(unsigned long n)
{
    return below(n) == 0;
}

/* One of the lengths beside a limit. */
static size_t beside(size_t limit)
{
    return limit + below(3) - (limit > 0);
}

/* Nine times in ten the right length, else one beside it, none, or any. */
size_t about(size_t right)
{
    if (!one_in(10))
        return right;
    return one_in(2) ? beside(right) : one_in(4) ? 0 : below(3 * right + 40);
}

/* One time in eight at or beside a limit, else any within them, of a random magnitude. */
size_t within(size_t low, size_t high)
{
    size_t width = (size_t)1 << (1 + below(17));

    if (one_in(8))
        return beside(one_in(2) ? low : high);
    if (width > high - low)
        width = high - low;
    return low + below(width + 1);
}

/* Eight octets a draw. */
void fill(octets *o, size_t n)
{
    o->n = n > MOST ? MOST : n;
    for (size_t k = 0; k < o->n; k += 8) {
        uint64_t bits = draw();

        for (size_t i = k; i < o->n && i < k + 8; i++, bits >>= 8)
            o->at[i] = (octet)bits;
    }
}

/* Copies a list of octets. */
void copy(octets *to, const octets *from)
{
    to->n = from->n;
    memcpy(to->at, from->at, from->n);
}

/* Mostly even; now and then odd, or just over 512. */
void make_password(octets *o)
{
    size_t n = one_in(20) ? LONGEST_PASSWORD + below(9) : within(0, LONGEST_PASSWORD);

    fill(o, one_in(10) ? n : n / 2 * 2);
}

/* Half of them without 0x5C; the others with it in front, at the end, within, in up to four places, or in all. */
void make_name(octets *o)
{
    fill(o, within(0, LONGEST_NAME));
    for (size_t k = 0; k < o->n; k++)
        if (o->at[k] == 0x5C)
            o->at[k] = '/';
    if (o->n == 0 || one_in(2))
        return;
    switch (below(5)) {
    case 0:
        o->at[0] = 0x5C;
        break;
    case 1:
        o->at[o->n - 1] = 0x5C;
        break;
    case 2:
        o->at[below(o->n)] = 0x5C;
        break;
    case 3:
        for (int k = 0; k < 4; k++)
            o->at[below(o->n)] = 0x5C;
        break;
    default:
        memset(o->at, 0x5C, o->n);
    }
}

/* Mostly short; now and then of any length, or at 65,535 and 65,536. */
void make_text(octets *o)
{
    fill(o, one_in(50) ? within(0, LONGEST_TEXT) : one_in(100) ? LONGEST_TEXT + below(2) : below(one_in(4) ? 3000 : 260));
}

/* Now and then of the other strength's length. */
void make_key(octets *o, unsigned bits)
{
    fill(o, one_in(20) ? 24 - key_length(bits) : about(key_length(bits)));
}

/* Mostly exact or more; one in six too little. */
size_t room_for(size_t n)
{
    if (one_in(6))
        return one_in(3) || n == 0 ? 0 : one_in(2) ? n - 1 : below(n);
    return one_in(4) ? n + below(40) : n;
}

/* A buffer of such a length. */
void make_room(octets *o, size_t n)
{
    fill(o, room_for(n));
}

/* Mostly of the right type, length and bits, with any octets from some place on. */
void make_option(octets *o)
{
    static const octet types[] = {18, 18, 18, 18, 18, 18, 18, 17, 19, 0};

    fill(o, about(OPTION));
    if (o->n > 0)
        o->at[0] = types[below(sizeof types)];
    if (o->n > 1)
        o->at[1] = one_in(12) ? (octet)below(10) : OPTION;
    for (size_t k = 2; k < o->n && !one_in(8); k++)
        o->at[k] = k == 2 ? (octet)!one_in(3) : k == 5 ? (octet)(below(8) << 5) : 0;
}

/* Mostly right; now and then with another octet, cut off, or with more behind it. */
void make_reset(octets *o)
{
    size_t n = about(RESET_REQUEST);

    fill(o, RESET_REQUEST + n);
    oracle_write_reset((octet)below(256), (buffer){o->at, o->n});
    if (one_in(4))
        o->at[below(RESET_REQUEST)] = (octet)(one_in(3) ? below(256) : below(20));
    o->n = n;
}

/* A strength in bits. */
unsigned strength_bits(unsigned k)
{
    return k == 0 ? 40 : k == 1 ? 56 : 128;
}

/* An input as a part. */
part in(const test *t, int k)
{
    part p = {t->in[k].at, t->in[k].n};

    return p;
}

/* A lent buffer of an answer. */
buffer lent(answer *a, int k)
{
    buffer b = {a->lent[k].at, a->lent[k].n};

    return b;
}

/* The next octets of its fields. */
octet *field(answer *a, size_t n)
{
    octet *at = a->fields.at + a->fields.n;

    a->fields.n += n;
    return at;
}

/* The highest octet first. */
void put_size(octet *at, size_t size)
{
    for (int k = SIZE_OCTETS - 1; k >= 0; k--, size >>= 8)
        at[k] = (octet)size;
}

/* Eight more fields. */
void size_field(answer *a, size_t size)
{
    put_size(field(a, SIZE_OCTETS), size);
}

/* Read back. */
size_t size_at(const octet *at)
{
    size_t size = 0;

    for (int k = 0; k < SIZE_OCTETS; k++)
        size = size << 8 | at[k];
    return size;
}

/* Prints octets behind a label. */
static void print(const char *label, int k, const octets *o)
{
    printf("  %s %d (%zu):", label, k, o->n);
    for (size_t i = 0; i < o->n; i++)
        printf("%s%02x", i % 4 == 0 ? " " : "", o->at[i]);
    printf("\n");
}

/* Prints an answer. */
static void print_answer(const char *label, const answer *a)
{
    printf("%s: number %d\n", label, a->number);
    print("fields", 0, &a->fields);
    for (int k = 0; k < LENT; k++)
        print("lent", k, &a->lent[k]);
}

/* Prints a case. */
void print_case(const test *t, const char *what)
{
    printf("%s: case %lu of seed %lu: %s\nnumbers %u %u %u\n", t->name, t->number, t->seed, what, t->x, t->y, t->z);
    for (int i = 0; i < INPUTS; i++)
        print("input", i, &t->in[i]);
    for (int i = 0; i < LENT; i++)
        print("lent", i, &t->lent[i]);
}

/* An answer before its call: nothing in it, and the buffers as they are lent. */
static void lend(const test *t, answer *a)
{
    a->number = 0;
    a->fields.n = 0;
    for (int k = 0; k < LENT; k++)
        copy(&a->lent[k], &t->lent[k]);
}

/* Whether two lists of octets are equal. */
static bool same(const octets *a, const octets *b)
{
    return a->n == b->n && memcmp(a->at, b->at, a->n) == 0;
}

/* Whether two answers are. */
static bool same_answer(const answer *a, const answer *b)
{
    bool all = a->number == b->number && same(&a->fields, &b->fields);

    for (int k = 0; k < LENT; k++)
        all = all && same(&a->lent[k], &b->lent[k]);
    return all;
}

/* Both answers to a case, compared. */
void compare_case(const call *c, test *t, unsigned long seed, unsigned long k, answer *expected, answer *given)
{
    t->name = c->name;
    t->call = c->number;
    t->seed = seed;
    t->number = k;
    lend(t, expected);
    lend(t, given);
    c->expect(t, expected);
    give(t, given);
    if (same_answer(expected, given))
        return;
    print_case(t, "the answers differ");
    print_answer("expected", expected);
    print_answer("given", given);
    exit(1);
}

/* Empties a case. */
static void clear(test *t)
{
    t->x = t->y = t->z = 0;
    for (int k = 0; k < INPUTS; k++)
        t->in[k].n = 0;
    for (int k = 0; k < LENT; k++)
        t->lent[k].n = 0;
}

/* Prints how many cases of a call were run, and how many answered each number. */
static void print_counts(const char *name, unsigned long cases, const unsigned long answered[NUMBERS])
{
    printf("%s: %lu cases, all equal; answered", name, cases);
    for (int k = 0; k < NUMBERS; k++)
        if (answered[k] > 0)
            printf(" %d (%lu)", k, answered[k]);
    printf("\n");
}

/* All cases of each call, each from a stream of its own. */
unsigned long compare_calls(const call *calls, size_t count, unsigned long seed, unsigned long cases)
{
    static test t;
    static answer expected, given;
    unsigned long answered[NUMBERS], total = 0;

    for (size_t i = 0; i < count; i++, total += cases) {
        memset(answered, 0, sizeof answered);
        seeded(seed, i);
        for (unsigned long k = 0; k < cases; k++) {
            clear(&t);
            calls[i].make(&t);
            compare_case(&calls[i], &t, seed, k, &expected, &given);
            answered[expected.number]++;
        }
        print_counts(calls[i].name, cases, answered);
    }
    return total;
}

/* The last two arguments. */
void read_arguments(int count, char **words, unsigned long *seed, unsigned long *cases)
{
    *seed = strtoul(words[count - 2], NULL, 10);
    *cases = strtoul(words[count - 1], NULL, 10);
    printf("seed %lu\n", *seed);
}
