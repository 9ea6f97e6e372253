/* See long_tape.h. The calls are made without guards, and on parts of one buffer, as a program makes them. */
#include "long_tape.h"
#include "host.h"
#include "links.h"
#include "mark_cases.h"
#include "steps.h"
#include "udukemb.h"

#include <stdint.h>
#include <stdlib.h>
#include <string.h>
#include <time.h>

/* Packets for each case asked for, and at most; how many a few are; the most groups in front of a line's packet. */
enum { FOR_EACH = 100, MOST_PACKETS = 100000, FEW = 5, GROUPS = 2 };

/* The tape, its octets and how many they are; its packets, one behind the other, and at the same places what was sealed; how many
   packets, how long each is, and how many key changes it brings; the record that both ends of the link begin with; and the tape's marks,
   and how many octets these are. */
static struct {
    octet *at, *packets, *plains, *marks;
    size_t n, count, marks_n;
    struct {
        uint16_t n, changes;
    } *each;
    octets begun;
} reel;

/* Room for so many octets. */
static void *room_of(size_t n)
{
    void *at = malloc(n);

    demand(at != NULL, "no memory for a long tape");
    return at;
}

/* Seconds since some time. */
static double now(void)
{
    struct timespec t;

    clock_gettime(CLOCK_MONOTONIC, &t);
    return (double)t.tv_sec + 1e-9 * (double)t.tv_nsec;
}

/* Packets lost before arrival k: as many as may be before the first, and seldom before another; now and then a few, and mostly none. */
static unsigned make_lost(size_t k)
{
    return k == 0 || one_in(20000) ? FARTHEST - 1 : one_in(50) ? 1 + (unsigned)below(FEW) : 0;
}

/* Seals a packet with the library; some plain packets are refused. */
static void seal_one(octet sender[RECORD_OCTETS], octets *plain, octet *packet)
{
    do
        make_line_plain(plain);
    while (udukemb_seal(sender, RECORD_OCTETS, plain->at, plain->n, packet, LINE_PACKET) != DONE);
}

/* Seals all packets, also those that are lost: the next one is sealed in the place of such a one. */
static void seal_all(void)
{
    static octets plain;
    octet sender[RECORD_OCTETS];

    make_begin(&reel.begun, 128, false);
    memcpy(sender, reel.begun.at, RECORD_OCTETS);
    for (size_t k = 0, at = 0; k < reel.count; at += reel.each[k++].n) {
        reel.each[k].changes = (uint16_t)(make_lost(k) + 1);
        for (unsigned left = reel.each[k].changes; left > 0; left--)
            seal_one(sender, &plain, reel.packets + at);
        memcpy(reel.plains + at, plain.at, plain.n);
        reel.each[k].n = (uint16_t)(FRONT + plain.n);
    }
}

/* Writes the tape into one buffer. Gives the seconds. */
static double write_all(size_t room)
{
    double from = now();

    demand(udukemb_tape_begin(reel.at, room) == DONE, "a long tape is not begun");
    reel.n = 1;
    for (size_t k = 0, at = 0; k < reel.count; at += reel.each[k++].n) {
        struct udukemb_written w = udukemb_tape_write(reel.packets + at, reel.each[k].n, reel.at + reel.n, room - reel.n);

        demand(w.answer == DONE, "a long tape is not written");
        reel.n += w.length;
    }
    return now() - from;
}

/* What is written is what the oracle writes. */
static void written_as_expected(void)
{
    octet record[GROUPS + LINE_PACKET];
    size_t offset = 1;

    demand(reel.at[0] == 1, "a long tape begins with another octet than 1");
    for (size_t k = 0, at = 0; k < reel.count; at += reel.each[k++].n) {
        part packet = {reel.packets + at, reel.each[k].n};
        size_t n = oracle_tape_write(packet, (buffer){record, sizeof record}).length;

        demand(n <= reel.n - offset && memcmp(reel.at + offset, record, n) == 0, "a long tape is not the oracle's");
        offset += n;
    }
    demand(offset == reel.n, "a long tape has more than the oracle's");
}

/* Reads it back: the packets in turn, and then nothing. */
static double read_all(void)
{
    double from = now();
    struct udukemb_next next = udukemb_tape_read(reel.at, reel.n, 1);

    for (size_t k = 0, at = 0; k < reel.count; at += reel.each[k++].n) {
        demand(next.answer == DONE && next.offset - next.start == reel.each[k].n, "a long tape does not read back to its packets");
        demand(memcmp(reel.at + next.start, reel.packets + at, reel.each[k].n) == 0, "a long tape reads back to other octets");
        next = udukemb_tape_read(reel.at, reel.n, next.offset);
    }
    demand(next.answer == DONE && next.start == reel.n && next.offset == reel.n, "a long tape does not end at its end");
    return now() - from;
}

/* Packet k, at its place, is opened to what was sealed, with one key change more than packets were lost before it. */
static void opened_as_expected(size_t k, size_t at, int number, unsigned changes, const octet *plain)
{
    demand(number == DONE && changes == reel.each[k].changes, "a packet of a long tape answers or reports another number");
    demand(memcmp(plain, reel.plains + at, reel.each[k].n - FRONT) == 0, "a packet of a long tape opens to other octets");
}

/* Replays it into one room. Behind each 256th packet its mark is kept. */
static double replay_all(octet record[RECORD_OCTETS])
{
    octet plain[LINE_PLAIN];
    double from = now();
    size_t offset = 1;

    memcpy(record, reel.begun.at, RECORD_OCTETS);
    for (size_t k = 0, at = 0; k < reel.count; at += reel.each[k++].n) {
        struct udukemb_replayed r = udukemb_tape_replay(record, RECORD_OCTETS, reel.at, reel.n, offset, plain, sizeof plain);

        opened_as_expected(k, at, r.answer, r.changes, plain);
        offset = r.offset;
        if ((k + 1) % MARK_EVERY == 0) {
            put_mark(reel.marks + reel.marks_n, k + 1, offset, record);
            reel.marks_n += MARK_OCTETS;
        }
    }
    demand(offset == reel.n, "a replay does not come to the end of a long tape");
    return now() - from;
}

/* Opens its packets in turn. */
static double open_all(octet record[RECORD_OCTETS])
{
    octet plain[LINE_PLAIN];
    double from = now();

    memcpy(record, reel.begun.at, RECORD_OCTETS);
    for (size_t k = 0, at = 0; k < reel.count; at += reel.each[k++].n) {
        struct udukemb_opened o = udukemb_open(record, RECORD_OCTETS, reel.packets + at, reel.each[k].n, plain, sizeof plain);

        opened_as_expected(k, at, o.answer, o.changes, plain);
    }
    return now() - from;
}

/* Writes its marks, in just as much room as they need: they are those of the steps from the start. Gives the seconds. */
static double write_marks(void)
{
    octet *written = room_of(reel.marks_n + 1);
    double from = now();
    struct udukemb_written w = udukemb_marks_write(reel.begun.at, RECORD_OCTETS, reel.at, reel.n, written, reel.marks_n);

    from = now() - from;
    demand(w.answer == DONE && w.length == reel.marks_n, "the marks of a long tape are not written");
    demand(memcmp(reel.marks, written, reel.marks_n) == 0, "the marks of a long tape are not those of its steps");
    free(written);
    return from;
}

/* Checks its marks, of which so many are right. Gives the seconds. */
static double check_marks(size_t right)
{
    double from = now();
    struct udukemb_marks_checked c = udukemb_marks_check(reel.begun.at, RECORD_OCTETS, reel.at, reel.n, reel.marks, reel.marks_n);

    demand(c.answer == DONE && c.yes == (right * MARK_OCTETS == reel.marks_n), "the marks of a long tape are not checked as they are");
    demand(c.agreeing == right, "another number of a long tape's marks is right");
    return now() - from;
}

/* Replays what is behind a mark, to the record that the whole replay comes to. Gives the seconds. */
static double replay_behind(size_t mark, const octet end[RECORD_OCTETS])
{
    octet plain[LINE_PLAIN], record[RECORD_OCTETS];
    double from = now();
    struct udukemb_mark m = udukemb_marks_read(reel.marks + mark * MARK_OCTETS, MARK_OCTETS, record, RECORD_OCTETS);
    size_t k = 0, at = 0;

    demand(m.answer == DONE && m.opened == (mark + 1) * MARK_EVERY, "a mark of a long tape is not read");
    for (; k < m.opened; k++)
        at += reel.each[k].n;
    for (size_t offset = m.offset; k < reel.count; at += reel.each[k++].n) {
        struct udukemb_replayed r = udukemb_tape_replay(record, RECORD_OCTETS, reel.at, reel.n, offset, plain, sizeof plain);

        opened_as_expected(k, at, r.answer, r.changes, plain);
        offset = r.offset;
    }
    demand(memcmp(record, end, RECORD_OCTETS) == 0, "a replay behind a mark of a long tape leaves another record than the whole one");
    return now() - from;
}

/* Its marks: checked as they are, and with an octet changed in one of them; and opened on from at the middle one. */
static void compare_reel_marks(const octet end[RECORD_OCTETS])
{
    double writing = write_marks(), checking, replaying = 0;
    size_t count = reel.marks_n / MARK_OCTETS, k = below(count + 1);

    checking = check_marks(count);
    if (count > 0)
        replaying = replay_behind(count / 2, end);
    if (k < count) {
        reel.marks[k * MARK_OCTETS + below(MARK_OCTETS)] ^= (octet)(1 << below(8));
        check_marks(k);
    }
    printf("its %zu marks: written in %.3f s, checked in %.3f s; what is behind the middle one was replayed in %.3f s\n", count, writing,
           checking, replaying);
}

/* Both loops come to the same record. */
static void compare_reel(size_t room)
{
    octet replayed[RECORD_OCTETS], fed[RECORD_OCTETS];
    double writing, reading, replaying, opening;

    seal_all();
    writing = write_all(room);
    written_as_expected();
    reading = read_all();
    replaying = replay_all(replayed);
    opening = open_all(fed);
    demand(memcmp(replayed, fed, RECORD_OCTETS) == 0, "a replay of a long tape leaves another record than its opens");
    printf("tape of %zu packets, %zu octets: written in %.3f s, read back in %.3f s, replayed in %.3f s; "
           "a plain loop over open took %.3f s\n",
           reel.count, reel.n, writing, reading, replaying, opening);
    compare_reel_marks(replayed);
}

/* With room for packets that are all of the longest. */
void compare_long_tape(unsigned long seed, unsigned long cases)
{
    size_t room;

    start_steps(seed, LONG_TAPE);
    reel.count = cases < MOST_PACKETS / FOR_EACH ? FOR_EACH * cases : MOST_PACKETS;
    room = 1 + reel.count * (GROUPS + LINE_PACKET);
    reel.at = room_of(room);
    reel.packets = room_of(room);
    reel.plains = room_of(room);
    reel.each = room_of(1 + reel.count * sizeof *reel.each);
    reel.marks = room_of(1 + reel.count / MARK_EVERY * MARK_OCTETS);
    reel.marks_n = 0;
    compare_reel(room);
    free(reel.at);
    free(reel.packets);
    free(reel.plains);
    free(reel.each);
    free(reel.marks);
}
