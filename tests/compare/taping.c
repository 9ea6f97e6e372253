/* See taping.h. */
#include "taping.h"
#include "host.h"
#include "links.h"
#include "steps.h"
#include "tape_cases.h"

#include <string.h>

struct list list;

/* The octets between two ends. */
part packet_of(size_t k)
{
    size_t from = k == 0 ? 0 : list.ends[k - 1];
    part p = {list.packets.at + from, list.ends[k] - from};

    return p;
}

/* Its tape stays until it is written anew. */
void clear_list(void)
{
    list.count = list.packets.n = 0;
}

/* Behind the last one. */
void add_packet(const octets *packet)
{
    append(&list.packets, part_of(packet));
    list.ends[list.count++] = list.packets.n;
}

/* With room left for as many groups as the tape may have, and for the shortest packets to come. */
size_t make_list_length(void)
{
    size_t n = make_length(), kept = 1 + MOST_PACKETS * (SHORTEST_PACKET + shortest(LONGEST_PACKET));

    return list.packets.n + n + kept <= MOST ? n : SHORTEST_PACKET;
}

/* A call that writes n octets, which go behind the tape; now and then one with too little room before it, which changes nothing. */
static void write_on(const call *c, const octets *packet, size_t n)
{
    static octets rest;

    if (one_in(8)) {
        fill(&rest, below(n));
        step(c, &rest, packet, 0);
        demand(given.number == ROOM, "a tape is written into too little room");
    }
    fill(&rest, n + (one_in(2) ? 0 : below(40)));
    step(c, &rest, packet, 0);
    demand(given.number == DONE, "a tape is not written");
    append(&list.tape, (part){rest.at, n});
}

/* Now and then a packet that no tape has, with any room. */
static void write_other(void)
{
    static octets packet, rest;

    if (!one_in(8))
        return;
    fill(&packet, one_in(2) ? below(SHORTEST_PACKET) : LONGEST_PACKET + 1 + below(100));
    fill(&rest, room_for(shortest(packet.n) + packet.n));
    step(&tape_write_in_run, &rest, &packet, 0);
    demand(given.number == SHAPE, "another length is written");
}

/* Record by record, now and then with a packet between them that is refused. */
void write_list(void)
{
    static octets own, packet;

    fill(&own, MOST);
    own.n = 1;
    oracle_tape_begin(whole(&own));
    list.tape.n = 0;
    write_on(&tape_begin_in_run, &packet, 1);
    for (size_t k = 0; k < list.count; k++) {
        size_t n = oracle_tape_write(packet_of(k), (buffer){own.at + own.n, MOST - own.n}).length;

        own.n += n;
        list.records[k] = list.tape.n;
        take(&packet, packet_of(k), MOST);
        write_other();
        write_on(&tape_write_in_run, &packet, n);
        demand(size_at(given.fields.at) == n, "a record of another length is written");
    }
    demand(list.tape.n == own.n && memcmp(list.tape.at, own.at, own.n) == 0, "the tape is not the oracle's");
    list.written++;
}

/* "Every tape that read without a refusal reads as before" (M-110). */
static void reads_as_before(const octets *tape, size_t offset, tape_next next)
{
    tape_next before = oracle_tape_read_up_to(part_of(tape), offset, LINE_PACKET);
    bool same = next.number == DONE && next.start == before.start && next.offset == before.offset;

    demand(before.number != DONE || same, "a read that was not refused is another than before");
    list.as_before += before.number == DONE;
    list.longer += before.number != DONE && next.number == DONE;
}

/* Compared with the oracle's, and with that of before. */
tape_next read_at(const octets *tape, size_t offset)
{
    static octets nothing;
    tape_next next;

    set_offset(&asked, offset);
    step(&tape_read_in_run, &nothing, tape, 0);
    next = (tape_next){given.number, size_at(given.fields.at), size_at(given.fields.at + SIZE_OCTETS)};
    reads_as_before(tape, offset, next);
    return next;
}

/* Whether a part is packet k of the list. */
static bool is_packet(size_t k, part p)
{
    return k < list.count && p.n == packet_of(k).n && memcmp(p.at, packet_of(k).at, p.n) == 0;
}

/* From offset 1 on. */
bool reads_back(const octets *tape)
{
    tape_next next = read_at(tape, 1);
    bool all = true;
    size_t k = 0;

    for (; next.start < next.offset; next = read_at(tape, next.offset), k++)
        all = is_packet(k, (part){tape->at + next.start, next.offset - next.start}) && all;
    return all && k == list.count && next.number == DONE && next.offset == tape->n;
}

/* Into a room that is handed back. */
size_t replay_at(octets *record, const octets *tape, size_t offset, octets *room)
{
    set_offset(&asked, offset);
    step_into(&tape_replay_in_run, record, tape, room);
    return size_at(given.fields.at + 2);
}
