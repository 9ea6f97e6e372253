/* See steps.h. */
#include "steps.h"
#include "host.h"
#include "links.h"

#include <stdlib.h>
#include <string.h>

/* One in how many open calls is made in pieces too. */
enum { WALKED = 8 };

struct steps steps;
test asked;
answer given;

/* A packet opened in pieces beside the one call: the walk, the buffer, and what came of it. */
static struct {
    octets walk, out;
    int number;
    unsigned changes;
} pieces;

/* The seed's stream, and nothing counted. */
void start_steps(unsigned long seed, unsigned long stream)
{
    seeded(seed, stream);
    steps = (struct steps){.seed = seed};
}

/* Ends the program where a run does not go as demand 3, M-103 to M-105 and M-109 to M-111 say. */
void demand(bool held, const char *what)
{
    if (held)
        return;
    printf("run of seed %lu, call %lu: %s\n", steps.seed, steps.calls, what);
    exit(1);
}

/* One call of a run, compared. */
void compare_asked(const call *c)
{
    static answer expected;

    compare_case(c, &asked, steps.seed, steps.calls++, &expected, &given);
}

/* Its record, or what else is lent to it first, is handed back, and so is the buffer. */
void step_into(const call *c, octets *record, const octets *input, octets *out)
{
    copy(&asked.lent[0], record);
    copy(&asked.in[0], input);
    copy(&asked.lent[1], out);
    compare_asked(c);
    copy(record, &given.lent[0]);
    copy(out, &given.lent[1]);
}

/* The same with a buffer of its own. */
void step(const call *c, octets *record, const octets *input, size_t room)
{
    static octets out;

    fill(&out, room);
    step_into(c, record, input, &out);
}

/* The key changes that the last call reports; none where it is a feed. */
unsigned reported(void)
{
    return given.fields.n == 0 ? 0 : 256u * given.fields.at[0] + given.fields.at[1];
}

/* The room is too little now and then. */
bool seals(octets *sender, const octets *plain, octets *packet)
{
    step(&seal_in_run, sender, plain, one_in(20) ? below(40) : FRONT + plain->n - one_in(20) + below(3));
    if (given.number == DONE)
        take(packet, part_of(&given.lent[1]), FRONT + plain->n);
    return given.number == DONE;
}

/* Some plain packets are refused too. */
void seal_call(octets *sender, octets *plain, octets *packet)
{
    do
        make_line_plain(plain);
    while (!seals(sender, plain, packet));
}

/* One call on the walk: "Only a good end or a begin that answers 11 moves the link record or reports changes." */
static void walk_step(const call *c, const octets *input)
{
    size_t n = pieces.walk.n < RECORD_OCTETS ? pieces.walk.n : RECORD_OCTETS;

    step_into(c, &pieces.walk, input, &pieces.out);
    if (given.number == WAITING || (given.number == DONE && c == &end_in_run))
        return;
    demand(memcmp(pieces.walk.at, asked.lent[0].at, n) == 0, "a call in pieces moves the record before its end");
    demand(reported() == 0, "a call in pieces reports key changes before its end");
}

/* Begins the walk with a packet. */
static void begin_walk(const octets *packet)
{
    static octets front;

    take(&front, front_of(packet), FRONT);
    asked.x = (unsigned)data_of(packet, 0).n;
    asked.y = (unsigned)pieces.out.n;
    asked.z = 0;
    walk_step(&begin_in_run, &front);
}

/* Feeds a piece, now and then with too little room before it. */
static void feed_walk(const octets *piece, size_t total)
{
    size_t room = pieces.out.n;

    if (one_in(8)) {
        pieces.out.n = below(total);
        walk_step(&feed_in_run, piece);
        demand(given.number == ROOM, "a piece is fed into too little room");
        pieces.out.n = room;
    }
    walk_step(&feed_in_run, piece);
}

/* Feeds the first octets of a packet's data in pieces, until one is refused. */
static void feed_up_to(const octets *packet, size_t n)
{
    static octets piece;
    size_t fed = 0;

    do {
        take(&piece, data_of(packet, fed), make_cut(n - fed));
        feed_walk(&piece, data_of(packet, 0).n);
        fed += piece.n;
    } while (given.number == DONE && (fed < n || one_in(8)));
}

/* A walk that is closed or ended holds nothing, and every further call on it is 7. */
static void over(void)
{
    static const octet nothing[WALK_OCTETS - RECORD_OCTETS];
    static octets piece;

    demand(memcmp(pieces.walk.at + RECORD_OCTETS, nothing, sizeof nothing) == 0, "a walk that is over holds something");
    fill(&piece, below(3));
    walk_step(&feed_in_run, &piece);
    demand(given.number == RECORD, "a piece is fed to a walk that is over");
    walk_step(&end_in_run, &piece);
    demand(given.number == RECORD, "a walk that is over ends");
}

/* The receiver's record in front of what the last walk left. */
static void set_record(const octets *receiver)
{
    pieces.walk.n = WALK_OCTETS;
    memcpy(pieces.walk.at, receiver->at, RECORD_OCTETS);
}

/* A walk that is given up: ended too early, fed beyond its total, or left as it is; if a protocol number has not closed it. */
static void give_up(const octets *packet)
{
    static octets piece;
    size_t total = data_of(packet, 0).n, fed = make_cut(total - 1);

    feed_up_to(packet, fed);
    if (given.number == DONE) {
        if (one_in(3))
            return;
        fill(&piece, one_in(8) ? MOST - fed : total - fed + 1 + below(3));
        if (one_in(2)) {
            walk_step(&end_in_run, &piece);
            demand(given.number == SHAPE, "a walk ends before its total");
        } else {
            walk_step(&feed_in_run, &piece);
            demand(given.number == SIZE, "a piece beyond the total is fed");
        }
    }
    over();
}

/* Now and then a walk that comes to nothing: begun with a damaged record, or given up. */
static void spoil(const octets *receiver, const octets *packet, size_t room)
{
    if (!one_in(4))
        return;
    fill(&pieces.out, room);
    set_record(receiver);
    if (one_in(4))
        damage_walked_record(&pieces.walk);
    begin_walk(packet);
    if (given.number == DONE)
        give_up(packet);
}

/* A packet in pieces, from the receiver's record on. */
static void walk_packet(const octets *receiver, const octets *packet, const octets *out)
{
    copy(&pieces.out, out);
    set_record(receiver);
    begin_walk(packet);
    if (given.number == DONE)
        feed_up_to(packet, data_of(packet, 0).n);
    if (given.number == DONE) {
        walk_step(&end_in_run, packet);
        steps.walked++;
    }
    pieces.number = given.number;
    pieces.changes = reported();
    if (one_in(4))
        over();
}

/* What came of it is what the one call gave: answer, report, buffer and record. */
static void as_one_call(const octets *receiver)
{
    demand(pieces.number == given.number, "a packet in pieces has another answer than in one call");
    demand(pieces.changes == reported(), "a packet in pieces reports other key changes than in one call");
    demand(memcmp(pieces.out.at, given.lent[1].at, pieces.out.n) == 0, "a packet in pieces opens to other octets than in one call");
    demand(memcmp(pieces.walk.at, receiver->at, RECORD_OCTETS) == 0, "a packet in pieces leaves another record than in one call");
}

/* What the pieces gave is held against the one call. */
void open_in_pieces(octets *receiver, const octets *packet, size_t room)
{
    static octets out;

    fill(&out, room);
    spoil(receiver, packet, room);
    walk_packet(receiver, packet, &out);
    step_into(&open_in_run, receiver, packet, &out);
    as_one_call(receiver);
}

/* Mostly the one call alone. */
void open_call(octets *receiver, const octets *packet, size_t room)
{
    if (one_in(WALKED))
        open_in_pieces(receiver, packet, room);
    else
        step(&open_in_run, receiver, packet, room);
}

/* The buffers at entry and at exit. */
bool unwritten(size_t from)
{
    return memcmp(given.lent[1].at + from, asked.lent[1].at + from, asked.lent[1].n - from) == 0;
}

/* The octets behind the plain packet are as they were. */
void opened_as_sealed(const octets *receiver, part plain, const octet sender[RECORD_OCTETS])
{
    demand(given.number == DONE, "an arrival is refused");
    demand(memcmp(given.lent[1].at, plain.at, plain.n) == 0, "an arrival opens to other octets");
    demand(unwritten(plain.n), "an arrival is written beyond its plain packet");
    demand(memcmp(sender, receiver->at, RECORD_OCTETS) == 0, "the records differ");
}

/* The record is that of the call. */
void changed_nothing(const octets *record)
{
    demand(memcmp(asked.lent[0].at, record->at, RECORD_OCTETS) == 0, "a refused call changes the record");
    demand(unwritten(0), "a refused call writes into the buffer");
    demand(reported() == 0, "a refused call reports key changes");
}

/* In one call, and now and then in pieces. */
void refuse(octets *receiver, const octets *packet, size_t room)
{
    open_call(receiver, packet, room);
    changed_nothing(receiver);
}

/* A call of open that the table refuses, but not with 11: a damaged packet, a repeat, or too little room. Of those with hundreds of key
   changes to make only some are tried. */
static void refused_open(octets *receiver, const octets *packet)
{
    static octets tried, record, out;
    size_t room = one_in(8) ? 0 : one_in(8) ? data_of(packet, 0).n - 1 : LINE_PLAIN;
    unsigned distance;
    int number;

    copy(&tried, packet);
    copy(&record, receiver);
    fill(&out, room);
    if (!one_in(4))
        damage_arriving(receiver, &tried);
    distance = oracle_distance(record.at, tried.at + 2);
    if (distance > 100 && distance <= FARTHEST && !one_in(50))
        return;
    number = oracle_open(whole(&record), part_of(&tried), whole(&out)).number;
    if (number != DONE && number != WAITING)
        refuse(receiver, &tried, room);
}

/* Every further one comes with one chance in two. */
void disturb(octets *receiver, const octets *packet)
{
    for (bool more = one_in(4); more; more = one_in(2))
        refused_open(receiver, packet);
}
