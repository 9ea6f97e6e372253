/* See tapes.h. */
#include "tapes.h"
#include "host.h"
#include "links.h"
#include "steps.h"
#include "tape_cases.h"
#include "taping.h"
#include "udukemb.h"

#include <string.h>

/* Lists written and read back; octets changed of each tape; tapes of all kinds; tapes replayed in each mode at each strength; and how
   many a few are. */
enum { LISTS = 60, CHANGES = 60, OF_KINDS = 400, REPLAYS = 25, FEW = 5 };

/* What was compared. */
static unsigned long changed, replayed;

/* Another octet: in one bit, any, or 0. */
static octet make_other(octet was)
{
    octet other = (octet)(one_in(2) ? was ^ 1u << below(8) : one_in(2) ? below(256) : 0);

    return other == was ? was ^ 0x80 : other;
}

/* An octet in front of a record of the list: one of its groups, or the packet's first. */
static size_t make_front(void)
{
    size_t k = below(list.count);

    return list.records[k] + below(shortest(packet_of(k).n) + 1);
}

/* "Each list's tape, and no other, reads back to it": not with one octet changed, any of a short tape, or any or one in front of a
   record. */
static void change_octets(void)
{
    static octets other;
    size_t n = list.tape.n < CHANGES ? list.tape.n : CHANGES;

    for (size_t k = 0; k < n; k++) {
        size_t at = n < CHANGES ? k : one_in(2) ? make_front() : below(list.tape.n);

        copy(&other, &list.tape);
        other.at[at] = make_other(other.at[at]);
        demand(!reads_back(&other), "a changed tape reads back to the same packets");
        changed++;
    }
}

/* Lists of none, one and more packets, long and short. */
static void compare_lists(void)
{
    static octets packet;

    for (size_t k = 0; k < LISTS; k++) {
        bool small = one_in(2);

        clear_list();
        for (size_t left = k < 3 ? k : below(one_in(4) ? MOST_PACKETS + 1 : FEW); left > 0; left--) {
            fill(&packet, small ? SHORTEST_PACKET + below(FEW) : make_list_length());
            add_packet(&packet);
        }
        write_list();
        demand(reads_back(&list.tape), "a tape does not read back to its packets");
        demand(read_at(&list.tape, 0).number == SIZE, "offset 0 is read");
        demand(read_at(&list.tape, list.tape.n + 1).number == SIZE, "an offset past the end is read");
        change_octets();
    }
}

/* "127 is 7F, 128 is 80 01, 1,502 is DE 0B" (M-109), "16,384 is 80 80 01 and 32,002 is 82 FA 01" (M-110), so that the most in two groups
   is FF 7F; and a length whose lower sixteen bits are 127 is none. */
static void compare_printed(void)
{
    static const struct {
        size_t length, n;
        octet groups[3];
    } printed[] = {
        {127, 1, {0x7F}}, {128, 2, {0x80, 0x01}}, {1502, 2, {0xDE, 0x0B}},
        {16383, 2, {0xFF, 0x7F}}, {16384, 3, {0x80, 0x80, 0x01}}, {32002, 3, {0x82, 0xFA, 0x01}},
    };
    static octets packet;
    static octet longer[65536 + 127];

    for (size_t k = 0; k < sizeof printed / sizeof printed[0]; k++) {
        clear_list();
        fill(&packet, printed[k].length);
        add_packet(&packet);
        write_list();
        demand(list.tape.n == 1 + printed[k].n + printed[k].length, "a record is not as long as printed");
        demand(memcmp(list.tape.at + 1, printed[k].groups, printed[k].n) == 0, "a length is not written as printed");
    }
    demand(udukemb_tape_write(longer, sizeof longer, packet.at, MOST).answer == SHAPE, "a length of more than 16 bits is written");
}

/* Whether a reader of M-109 reads a tape from 1 on to its end. */
static bool read_before(const octets *tape)
{
    tape_next next = oracle_tape_read_up_to(part_of(tape), 1, LINE_PACKET);

    while (next.start < next.offset)
        next = oracle_tape_read_up_to(part_of(tape), next.offset, LINE_PACKET);
    return next.number == DONE;
}

/* Tapes of each kind, whole and damaged, read at the kind's offset, and from 1 on: those that were read to the end still are. */
static void compare_kinds(void)
{
    static octets tape;

    for (int k = 0; k < OF_KINDS; k++) {
        size_t offset = make_tape(&tape);
        tape_next next;

        read_at(&tape, offset);
        next = read_at(&tape, 1);
        while (next.start < next.offset)
            next = read_at(&tape, next.offset);
        demand(next.number == DONE || !read_before(&tape), "a tape that was read to its end is refused");
    }
    demand(list.as_before > 0 && list.longer > 0, "no tape was read as before, or none with a longer packet");
}

/* Seals a packet, at a stateful sender often behind a Reset-Request. */
static void seal_next(octets *sender, octets *packet)
{
    static octets request, plain;

    if (sender->at[AT_MODE] == 1 && one_in(3)) {
        fill(&request, RESET_REQUEST);
        oracle_write_reset(0, whole(&request));
        step(&reset_in_run, sender, &request, 0);
    }
    seal_call(sender, &plain, packet);
}

/* One damage to a packet that leaves it on a tape: to its first octets, its flags, its protocol number, or any. */
static void damage_packet(const octets *sender, octets *packet)
{
    static octets whole_one;

    switch (below(4)) {
    case 0:
        packet->at[below(2)] ^= (octet)(1 << below(8));
        break;
    case 1:
        packet->at[2] ^= 0x10;
        break;
    case 2:
        packet->at[FRONT] ^= (octet)(1 << below(8));
        break;
    default:
        copy(&whole_one, packet);
        damage_arriving(sender, packet);
        if (packet->n < SHORTEST_PACKET || packet->n > LINE_PACKET)
            copy(packet, &whole_one);
    }
}

/* What a line brings: packets in turn, some lost, repeated, late or damaged. */
static void make_arrivals(octets *sender)
{
    static octets packet, held;

    seal_next(sender, &held);
    while (list.count < MOST_PACKETS) {
        if (list.count == 0 || !one_in(6))
            seal_next(sender, &packet);
        while (one_in(6))
            seal_next(sender, &packet);
        if (one_in(4))
            damage_packet(sender, &packet);
        add_packet(one_in(10) ? &held : &packet);
        if (one_in(8))
            copy(&held, &packet);
    }
}

/* A step that is refused, with the offset 0. */
static void refuse_step(octets *record, size_t offset, octets *room, int number)
{
    demand(replay_at(record, &list.tape, offset, room) == 0, "a refused step has another offset than 0");
    demand(given.number == number && reported() == 0, "a step is refused with another number, or reports key changes");
}

/* Steps with an ill-formed record: 7 comes before all that the read answers. */
static void refuse_record(octets *record, octets *room)
{
    octet mode = record->at[AT_MODE];

    record->at[AT_MODE] = 2;
    refuse_step(record, 1, room, RECORD);
    refuse_step(record, list.tape.n, room, RECORD);
    refuse_step(record, list.tape.n + 1, room, RECORD);
    list.tape.at[0] ^= 1;
    refuse_step(record, 1, room, RECORD);
    list.tape.at[0] ^= 1;
    record->at[AT_MODE] = mode;
}

/* Steps without a packet change nothing, however often they come. */
static void replay_nothing(octets *record, octets *room)
{
    static octets same_record, same_room;

    copy(&same_record, record);
    copy(&same_room, room);
    for (int k = 0; k < 2; k++) {
        demand(replay_at(record, &list.tape, list.tape.n, room) == list.tape.n, "a step at the end moves the offset");
        demand(given.number == DONE && reported() == 0, "a step at the end answers another number than 0, or reports key changes");
    }
    refuse_step(record, 0, room, SIZE);
    refuse_step(record, list.tape.n + 1, room, SIZE);
    refuse_record(record, room);
    demand(memcmp(same_record.at, record->at, RECORD_OCTETS) == 0, "a step without a packet changes the record");
    demand(memcmp(same_room.at, room->at, room->n) == 0, "a step without a packet writes into the buffer");
}

/* A tape replayed from 1 to its end: "steps from 1 to the end equal feeding the packets in turn into the same room". Now and then the
   room is too small. */
static void replay_list(const octets *start)
{
    static octets record, fed_record, room, fed_room, packet;
    size_t offset = 1;

    copy(&record, start);
    copy(&fed_record, start);
    fill(&room, LINE_PLAIN);
    copy(&fed_room, &room);
    for (size_t k = 0; k < list.count; k++) {
        int number;
        unsigned changes;

        take(&packet, packet_of(k), MOST);
        room.n = fed_room.n = one_in(8) ? below(data_of(&packet, 0).n) : LINE_PLAIN;
        if (one_in(8))
            replay_nothing(&record, &room);
        demand(offset == list.records[k], "a step does not give the offset after its packet");
        offset = replay_at(&record, &list.tape, offset, &room);
        number = given.number;
        changes = reported();
        step_into(&open_in_run, &fed_record, &packet, &fed_room);
        demand(number == given.number && changes == reported(), "a step answers or reports another number than open");
        demand(memcmp(record.at, fed_record.at, RECORD_OCTETS) == 0, "a step leaves another record than open");
        demand(memcmp(room.at, fed_room.at, LINE_PLAIN) == 0, "a step opens to other octets than open");
        replayed++;
    }
    demand(offset == list.tape.n, "a replay does not come to the end");
    replay_nothing(&record, &room);
}

/* Tapes of a lossy line, replayed. */
static void compare_replays(unsigned bits, bool stateful)
{
    static octets start, sender;

    for (int k = 0; k < REPLAYS; k++) {
        make_start(&start, bits, stateful);
        copy(&sender, &start);
        clear_list();
        make_arrivals(&sender);
        write_list();
        replay_list(&start);
    }
}

/* Lists, kinds, and replays in each mode at each strength. */
unsigned long compare_tapes(unsigned long seed)
{
    start_steps(seed, TAPES);
    memset(&list, 0, sizeof list);
    compare_printed();
    compare_lists();
    compare_kinds();
    for (unsigned k = 0; k < 3; k++) {
        compare_replays(strength_bits(k), false);
        compare_replays(strength_bits(k), true);
    }
    printf("tapes: %lu calls, all equal; %lu written, %lu changed in an octet, %lu reads as before and %lu of longer packets, "
           "%lu packets replayed\n",
           steps.calls, list.written, changed, list.as_before, list.longer, replayed);
    return steps.calls;
}
