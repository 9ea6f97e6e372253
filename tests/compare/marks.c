/* See marks.h. */
#include "marks.h"
#include "host.h"
#include "links.h"
#include "mark_cases.h"
#include "steps.h"
#include "taping.h"

#include <string.h>

/* Steps of a replay at most; strengths; faulty ones of each tape, and one in how many kinds of lists. */
enum { MOST_STEPS = 2000, STRENGTHS = 3, FAULTY = 3, LISTS_IN = 3 };

/* The tape; what is lent to a call in its place; a list of marks, or room for one; and room for a packet of any length. */
static marked bench, spoiled;
static octets marks, plain_room;

/* The steps of the replay from the start: their answers, the key changes and offsets, the records behind them, and where the plain packets
   stand of those that were opened. */
static struct {
    size_t count;
    struct {
        int number;
        unsigned changes;
        size_t offset, plain, n;
        octet record[RECORD_OCTETS];
    } each[MOST_STEPS];
    octets plains;
} trace;

/* What was compared: tapes, marks of them, lists that are right and wrong, and steps behind a mark. */
static struct {
    unsigned long tapes, marks, yes, no, steps;
} done;

/* A call on a start record, a tape and a list, with room for a list. */
static void ask_marks(const call *c, const marked *m, const octets *list, size_t room)
{
    copy(&asked.in[0], &m->start);
    copy(&asked.in[1], &m->tape);
    copy(&asked.in[2], list);
    fill(&asked.lent[0], room);
    asked.lent[1].n = 0;
    compare_asked(c);
    asked.in[1].n = asked.in[2].n = 0;
}

/* Writes a list into so much room. Gives what is answered. */
static int write_into(const marked *m, size_t room)
{
    static octets none;

    ask_marks(&marks_write_in_run, m, &none, room);
    return given.number;
}

/* The list goes into the room that it needs and into more, and not into an octet too little, or none. */
static void write_marks(void)
{
    size_t n = bench.list.n, more = n + 1 + below(2 * MARK_OCTETS);

    demand(n == 0 || write_into(&bench, 0) == ROOM, "marks are written into no room");
    demand(n == 0 || write_into(&bench, n - 1) == ROOM, "marks are written into too little room");
    demand(write_into(&bench, more) == DONE, "marks are not written into more room than they need");
    demand(write_into(&bench, n) == DONE && size_at(given.fields.at) == n, "marks are not written into the room that they need");
    demand(memcmp(given.lent[0].at, bench.list.at, n) == 0, "the marks are not the oracle's");
    done.tapes++;
    done.marks += n / MARK_OCTETS;
}

/* Checks a list. Whether it is said to be right. */
static bool check(const marked *m, const octets *list)
{
    ask_marks(&marks_check_in_run, m, list, 0);
    return given.number == DONE && given.fields.at[0] == 1;
}

/* Both calls refuse what is spoiled, without room and with the right list. */
static void refuse_spoiled(int number)
{
    demand(write_into(&spoiled, 0) == number, "marks of what is faulty are written, or refused with another number");
    demand(write_into(&spoiled, bench.list.n) == number, "marks of what is faulty are written into room, or refused with another number");
    demand(!check(&spoiled, &bench.list) && given.number == number, "marks of what is faulty are checked, or refused with another number");
}

/* "A start record ill formed or stateful is 7; then a faulty tape gives its own refusal": each by itself, and both. */
static void refuse_faulty(void)
{
    for (int k = 0; k < FAULTY; k++) {
        spoiled = bench;
        spoil_tape(&spoiled);
        refuse_spoiled(SHAPE);
        spoil_start(&spoiled);
        refuse_spoiled(RECORD);
        copy(&spoiled.tape, &bench.tape);
        refuse_spoiled(RECORD);
    }
}

/* "A check .. says yes exactly when they are the marks that a walk from the start gives": so many kinds of lists, in turn. */
static void check_lists(size_t left)
{
    for (; left > 0; left--) {
        bool right = make_list(&bench, &marks);

        demand(check(&bench, &marks) == right, "a wrong list is taken for the right one, or the right one for a wrong one");
        done.yes += right;
        done.no += !right;
    }
}

/* A list with one octet changed is a no: each octet of its last mark in turn. */
static void change_octets(void)
{
    for (size_t k = 0; k < MARK_OCTETS; k++) {
        copy(&marks, &bench.list);
        marks.at[marks.n - 1 - k] ^= (octet)(1 << below(8));
        demand(!check(&bench, &marks), "a list with an octet changed is taken for the right one");
        done.no++;
    }
}

/* Whether the last step is number k of those from the start, and leaves its record. */
static bool as_traced(size_t k, size_t offset, const octets *record)
{
    return given.number == trace.each[k].number && reported() == trace.each[k].changes && offset == trace.each[k].offset
           && memcmp(record->at, trace.each[k].record, RECORD_OCTETS) == 0
           && memcmp(given.lent[1].at, trace.plains.at + trace.each[k].plain, trace.each[k].n) == 0;
}

/* Replays the tape from its start. */
static void replay_whole(void)
{
    static octets record;
    size_t offset = 1;

    copy(&record, &bench.start);
    trace.plains.n = 0;
    for (trace.count = 0; offset < bench.tape.n; trace.count++) {
        size_t start = oracle_tape_read(part_of(&bench.tape), offset).start, k = trace.count;

        demand(k < MOST_STEPS, "a tape with marks has more packets than are kept");
        offset = replay_at(&record, &bench.tape, offset, &plain_room);
        trace.each[k].number = given.number;
        trace.each[k].changes = reported();
        trace.each[k].offset = offset;
        trace.each[k].plain = trace.plains.n;
        trace.each[k].n = given.number == DONE ? offset - start - FRONT : 0;
        memcpy(trace.each[k].record, record.at, RECORD_OCTETS);
        append(&trace.plains, (part){given.lent[1].at, trace.each[k].n});
    }
}

/* Reads mark number i. Gives its offset, and its record. */
static size_t read_mark(size_t i, octets *record)
{
    static octets mark;

    take(&mark, (part){bench.list.at + MARK_OCTETS * i, MARK_OCTETS}, MARK_OCTETS);
    fill(record, RECORD_OCTETS);
    step(&marks_read_in_run, record, &mark, 0);
    demand(given.number == DONE, "a mark of a checked list is not read");
    demand(size_at(given.fields.at) == MARK_EVERY * (i + 1), "a mark says another number of opened packets");
    return size_at(given.fields.at + SIZE_OCTETS);
}

/* How many steps from the start open so many packets. */
static size_t steps_to(size_t count)
{
    size_t k = 0;

    for (; count > 0; k++)
        count -= trace.each[k].number == DONE;
    return k;
}

/* "Opening on from a checked mark with room lent gives the same packets, refusals and end record as the whole walk after that point." */
static void open_from(size_t i)
{
    static octets record;
    size_t offset = read_mark(i, &record), k = steps_to(MARK_EVERY * (i + 1));

    demand(offset == trace.each[k - 1].offset, "a mark has another offset than the step to it");
    demand(memcmp(record.at, trace.each[k - 1].record, RECORD_OCTETS) == 0, "a mark has another record than the step to it");
    for (; k < trace.count; k++) {
        offset = replay_at(&record, &bench.tape, offset, &plain_room);
        demand(as_traced(k, offset, &record), "a step behind a mark is another than from the start");
        done.steps++;
    }
    offset = replay_at(&record, &bench.tape, offset, &plain_room);
    demand(offset == bench.tape.n && given.number == DONE, "the steps behind a mark do not come to the end");
}

/* One tape with its marks. */
static void compare_tape(unsigned bits, size_t count, bool refused_last)
{
    make_marked(&bench, bits, count, refused_last);
    write_marks();
    refuse_faulty();
    check_lists(lists_for(&bench) / LISTS_IN + 1);
    replay_whole();
    for (size_t i = 0; i < bench.list.n / MARK_OCTETS; i++)
        open_from(i);
}

/* Every kind of list: a tape that ends with the packet of a mark, where each octet of that mark is changed too, and one that has a refused
   packet behind its second mark. */
static void check_every_list(void)
{
    make_marked(&bench, strength_bits((unsigned)below(STRENGTHS)), MARK_EVERY, false);
    check_lists(lists_for(&bench));
    change_octets();
    make_marked(&bench, strength_bits((unsigned)below(STRENGTHS)), 2 * MARK_EVERY, true);
    check_lists(lists_for(&bench));
}

/* At each strength a tape of no packets, and tapes that are short of a mark by a packet, end with one, or go on behind it; the last packet
   is in turn an opened one and a refused one. */
unsigned long compare_marks(unsigned long seed)
{
    static const size_t counts[] = {0, 255, 256, 257, 511, 512, 600};
    const size_t n = sizeof counts / sizeof counts[0];

    start_steps(seed, MARKS);
    memset(&done, 0, sizeof done);
    fill(&plain_room, LONGEST_PLAIN);
    for (size_t k = 0; k < STRENGTHS * n; k++)
        compare_tape(strength_bits((unsigned)(k / n)), counts[k % n], (k + k / n) % 2 == 1);
    check_every_list();
    printf("marks: %lu calls, all equal; %lu tapes with %lu marks, %lu lists right and %lu wrong, %lu packets replayed behind a mark\n",
           steps.calls, done.tapes, done.marks, done.yes, done.no, done.steps);
    return steps.calls;
}
