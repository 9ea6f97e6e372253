/* See long_packets.h. */
#include "long_packets.h"
#include "host.h"
#include "links.h"
#include "steps.h"
#include "taping.h"

#include <stdlib.h>
#include <string.h>

/* Lengths, of which the last is outside the limits; links of each mode at each strength; and how many a few are. */
enum { LENGTHS = 6, OUTSIDE = LENGTHS - 1, MODES = 2, STRENGTHS = 3, LINKS = 4, FEW = 5 };

/* The lengths of the plain packets: the longest on a line and one more; the longest of which the sealed packet has two groups on a tape,
   and one more; the longest that is carried, and one more: "01's outside case 1,499 becomes 31,999" (M-110). */
static const size_t lengths[LENGTHS] = {1498, 1499, 16379, 16380, 31998, 31999};

/* A link: both ends' records, the packet sealed last with its plain packet, and the one before it; and of all links how often each length
   came. */
static struct {
    octets sender, receiver, plain, packet, last;
    unsigned long came[MODES][STRENGTHS][LENGTHS];
} ends;

/* Seal calls with plain packets of a length that is carried, until one is not refused. */
static void seal_of(octets *sender, size_t n, octets *plain, octets *packet)
{
    do {
        make_plain_of(plain, n);
        demand(seals(sender, plain, packet) || given.number != SIZE, "a plain packet of a length that is carried is refused with 3");
    } while (given.number != DONE);
}

/* Seals a plain packet of a length, behind a few that are lost where the mode allows it. Gives the key changes that it brings. */
static unsigned seal_long(size_t n)
{
    unsigned lost = ends.sender.at[AT_MODE] == 0 && one_in(2) ? (unsigned)below(FEW) : 0;

    for (unsigned k = 0; k < lost; k++)
        seal_call(&ends.sender, &ends.plain, &ends.packet);
    seal_of(&ends.sender, n, &ends.plain, &ends.packet);
    return lost + changes_with(ends.sender.at, ends.packet.at[3]);
}

/* It is opened in pieces and in one call, with the key changes that it brings, but not into an octet too little; come again it is refused
   with 6, and the one before it with 10. */
static void open_long(unsigned changes)
{
    unsigned long walked = steps.walked;

    open_in_pieces(&ends.receiver, &ends.packet, ends.plain.n - 1);
    demand(given.number == ROOM, "a long packet is opened into too little room");
    changed_nothing(&ends.receiver);
    open_in_pieces(&ends.receiver, &ends.packet, ends.plain.n + below(3));
    opened_as_sealed(&ends.receiver, part_of(&ends.plain), ends.sender.at);
    demand(reported() == changes, "a long packet reports other key changes than it brings");
    demand(steps.walked == walked + 1, "a long packet is not opened in pieces");
    refuse(&ends.receiver, &ends.packet, ends.plain.n);
    demand(given.number == REPEAT, "a long packet come again is not refused with 6");
    if (ends.last.n > 0) {
        refuse(&ends.receiver, &ends.last, LONGEST_PLAIN);
        demand(given.number == LATE, "a long packet that comes late is not refused with 10");
    }
    copy(&ends.last, &ends.packet);
}

/* It is written to a tape, read back, and replayed from the record that it was opened with, also not into an octet too little. */
static void tape_long(octets *record)
{
    static octets room;

    clear_list();
    add_packet(&ends.packet);
    write_list();
    demand(reads_back(&list.tape), "the tape of a long packet does not read back to it");
    fill(&room, ends.plain.n - 1);
    demand(replay_at(record, &list.tape, 1, &room) == list.tape.n, "a refused step does not give the offset after a long packet");
    demand(given.number == ROOM, "a long packet is replayed into too little room");
    changed_nothing(record);
    fill(&room, ends.plain.n + below(3));
    demand(replay_at(record, &list.tape, 1, &room) == list.tape.n, "a step does not give the offset after a long packet");
    opened_as_sealed(record, part_of(&ends.plain), ends.sender.at);
}

/* A packet of a length goes from end to end. */
static void pass(size_t n)
{
    static octets record;
    unsigned changes = seal_long(n);

    copy(&record, &ends.receiver);
    open_long(changes);
    tape_long(&record);
}

/* A plain packet that is too long is refused by seal. */
static void refuse_plain(size_t n)
{
    static octets plain;

    make_plain_of(&plain, n);
    step(&seal_in_run, &ends.sender, &plain, FRONT + n);
    demand(given.number == SIZE, "a plain packet that is too long is not refused with 3");
    changed_nothing(&ends.sender);
}

/* A walk that is begun with a packet, but has a total that is too long, is 7 for a feed and for an end. */
static void refuse_walk(const octets *packet, size_t n)
{
    static octets walk, piece;

    fill(&walk, WALK_OCTETS);
    memcpy(walk.at, ends.receiver.at, RECORD_OCTETS);
    demand(oracle_begin(whole(&walk), front_of(packet), n - 1, n).number == DONE, "a walk of the longest packet is not begun");
    walk.at[AT_TOTAL] = (octet)(n / 256);
    walk.at[AT_TOTAL + 1] = (octet)(n % 256);
    take(&piece, data_of(packet, 0), make_cut(n - 1));
    step(&feed_in_run, &walk, &piece, n);
    demand(given.number == RECORD, "a piece is fed to a walk whose total is too long");
    step(&end_in_run, &walk, &piece, n);
    demand(given.number == RECORD, "a walk whose total is too long ends");
}

/* A sealed packet that is too long, 32,003 octets, is not written to a tape. On one that has it all the same, behind the octet 1 and its
   groups, it is not read, and no step comes behind it. */
static void refuse_taped(const octets *packet)
{
    static const octet front[] = {0x01, 0x83, 0xFA, 0x01};
    static octets tape, record, room;
    tape_next next;

    fill(&room, MOST);
    step(&tape_write_in_run, &room, packet, 0);
    demand(given.number == SHAPE, "a packet that is too long is written to a tape");
    tape.n = 0;
    append(&tape, (part){front, sizeof front});
    append(&tape, part_of(packet));
    next = read_at(&tape, 1);
    demand(next.number == SHAPE && next.start == 1 && next.offset == 1, "a packet that is too long is read from a tape");
    copy(&record, &ends.receiver);
    demand(replay_at(&record, &tape, 1, &room) == 1 && given.number == SHAPE, "a packet that is too long is replayed");
    changed_nothing(&record);
}

/* What is too long is refused by every call: a plain packet, a walk's total, and a sealed packet which would be the next but for its last
   octet. */
static void refuse_long(size_t n)
{
    static octets sender, plain, packet;

    refuse_plain(n);
    copy(&sender, &ends.sender);
    seal_of(&sender, n - 1, &plain, &packet);
    refuse_walk(&packet, n);
    append(&packet, (part){plain.at, 1});
    open_in_pieces(&ends.receiver, &packet, n);
    demand(given.number == SHAPE, "a packet that is too long is not refused with 1, in one call and in pieces");
    changed_nothing(&ends.receiver);
    refuse_taped(&packet);
}

/* Each length in turn on a link. */
static void run_lengths(unsigned strength, bool stateful)
{
    make_start(&ends.sender, strength_bits(strength), stateful);
    copy(&ends.receiver, &ends.sender);
    ends.last.n = 0;
    for (int k = 0; k < LENGTHS; k++) {
        if (k == OUTSIDE)
            refuse_long(lengths[k]);
        else
            pass(lengths[k]);
        ends.came[stateful][strength][k]++;
    }
}

/* Prints how often each length came; ends the program where one never did in a mode at a strength. */
static void every_length_came(void)
{
    for (int k = 0; k < LENGTHS; k++) {
        unsigned long often = 0;
        bool each = true;

        for (int i = 0; i < MODES * STRENGTHS; i++) {
            often += ends.came[i / STRENGTHS][i % STRENGTHS][k];
            each = each && ends.came[i / STRENGTHS][i % STRENGTHS][k] > 0;
        }
        printf("%zu octets %s (%lu)%s", lengths[k], k == OUTSIDE ? "refused" : "passed", often, each ? ", " : ": never\n");
        if (!each)
            exit(1);
    }
}

/* Links in each mode at each strength. */
unsigned long compare_long_packets(unsigned long seed)
{
    start_steps(seed, LONG_PACKETS);
    memset(&ends, 0, sizeof ends);
    for (unsigned k = 0; k < LINKS * STRENGTHS; k++) {
        run_lengths(k % STRENGTHS, false);
        run_lengths(k % STRENGTHS, true);
    }
    printf("long packets: %lu calls, all equal; plain, ", steps.calls);
    every_length_came();
    printf("%lu opened in pieces too\n", steps.walked);
    return steps.calls;
}
