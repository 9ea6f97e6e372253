/* See guard.h. */
#define _DEFAULT_SOURCE
#include "guard.h"

#include <signal.h>
#include <stdint.h>
#include <stdlib.h>
#include <string.h>
#include <sys/mman.h>
#include <unistd.h>

/* A part's room: the longest part and a page of known octets, between two guards. */
enum { PARTS = INPUTS + LENT, PAGE = 4096, ROOM_OCTETS = MOST + PAGE, GUARD = MOST, OWN_STACK = 65536 };

static octet *rooms[PARTS];
static octet known[ROOM_OCTETS]; /* what a room holds where no part is */
static const test *called;       /* the case that the library is answering */

/* Part k of a case: the inputs, then the lent buffers. */
static const octets *part_of_case(const test *t, int k)
{
    return k < INPUTS ? &t->in[k] : &t->lent[k - INPUTS];
}

/* Whether part k ends at its upper guard; else it begins at its lower one. */
static bool is_high(const test *t, int k)
{
    return (t->number + (unsigned)k) % 2 == 0;
}

/* Where part k lies. */
static octet *place(const test *t, int k)
{
    return rooms[k] + (is_high(t, k) ? ROOM_OCTETS - part_of_case(t, k)->n : 0);
}

/* Prints what was done to part k, with the case. */
static void print_found(const char *what, long at, int k)
{
    char text[96];

    snprintf(text, sizeof text, "%s octet %ld of %s %d", what, at, k < INPUTS ? "input" : "lent", k < INPUTS ? k : k - INPUTS);
    print_case(called, text);
}

/* Ends the program at a fault: beside a part, at a null pointer, or elsewhere. */
static void fault(int number, siginfo_t *info, void *context)
{
    const octet *at = info->si_addr;
    int k = 0;

    (void)context;
    while (k < PARTS && !(rooms[k] - GUARD <= at && at < rooms[k] + ROOM_OCTETS + GUARD))
        k++;
    if (called == NULL)
        printf("outside a call: signal %d\n", number);
    else if (k < PARTS)
        print_found("touched", at - place(called, k), k);
    else
        print_case(called, (uintptr_t)at < PAGE ? "touched a null pointer" : "stopped by a fault beside no part");
    fflush(stdout);
    _exit(1);
}

/* Rooms between guards, and a stack for the report of a fault. */
void guard(void)
{
    static const int faults[] = {SIGSEGV, SIGBUS, SIGILL, SIGFPE, SIGTRAP};
    static octet own[OWN_STACK];
    stack_t stack = {.ss_sp = own, .ss_size = sizeof own};
    struct sigaction action = {.sa_sigaction = fault, .sa_flags = SA_SIGINFO | SA_ONSTACK};

    for (size_t k = 0; k < ROOM_OCTETS; k++)
        known[k] = (octet)(197 * k + k / 256);
    for (int k = 0; k < PARTS; k++) {
        octet *all = mmap(NULL, GUARD + ROOM_OCTETS + GUARD, PROT_NONE, MAP_PRIVATE | MAP_ANONYMOUS, -1, 0);

        if (all == MAP_FAILED || mprotect(all + GUARD, ROOM_OCTETS, PROT_READ | PROT_WRITE) != 0) {
            printf("no memory to lend\n");
            exit(1);
        }
        rooms[k] = all + GUARD;
        memcpy(rooms[k], known, ROOM_OCTETS);
    }
    sigaltstack(&stack, NULL);
    for (size_t k = 0; k < sizeof faults / sizeof faults[0]; k++)
        sigaction(faults[k], &action, NULL);
}

/* Copies each part to its place. */
loan lend_guarded(const test *t)
{
    loan l;

    for (int k = 0; k < PARTS; k++) {
        const octets *o = part_of_case(t, k);
        octet *at = o->n == 0 && t->number / 2 % 2 == 0 ? NULL : place(t, k);

        if (o->n > 0)
            memcpy(at, o->at, o->n);
        *(k < INPUTS ? &l.in[k] : &l.lent[k - INPUTS]) = at;
    }
    called = t;
    return l;
}

/* Ends the program where n octets of part k, from a place in it on, are others than they must be. */
static void unchanged(int k, long from, const octet *expected, size_t n)
{
    const octet *at = place(called, k) + from;

    if (memcmp(at, expected, n) == 0)
        return;
    for (; *at == *expected; at++, expected++)
        from++;
    print_found("changed", from, k);
    exit(1);
}

/* Looks around each part and into the inputs, and makes the rooms all known octets again. */
void take_back(const test *t, answer *a)
{
    for (int k = 0; k < PARTS; k++) {
        const octets *o = part_of_case(t, k);
        octet *at = place(t, k);
        long beside = is_high(t, k) ? -PAGE : (long)o->n;

        unchanged(k, beside, known + (at - rooms[k]) + beside, PAGE);
        if (k < INPUTS)
            unchanged(k, 0, o->at, o->n);
        else
            memcpy(a->lent[k - INPUTS].at, at, o->n);
        memcpy(at, known + (at - rooms[k]), o->n);
    }
    called = NULL;
}
