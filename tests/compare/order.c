/* See order.h. */
#include "order.h"
#include "host.h"
#include "links.h"
#include "steps.h"

#include <stdlib.h>
#include <string.h>

/* Packets sealed at each strength, so that their counts wrap twice, and the receivers that they come to. How many a few are; one in how
   many arrivals is far ahead, and one in how many has packets beyond the limits behind it. */
enum { PACKETS = 3 * COUNTS, RECEIVERS = 4, FEW = 5, OFTEN = 200, SELDOM = 10000, BEYOND = 2000 };

/* What arrives, as far as it is counted. */
enum { AHEAD, FARTHEST_AHEAD, NEWEST, BEHIND, FARTHEST_BEHIND, BEHIND_AGAIN, BEYOND_AHEAD, BEYOND_BEHIND, KINDS };

/* A packet with its plain packet, of n octets, and the sender's record right after it was sealed. */
typedef struct {
    size_t n;
    octet plain[LINE_PLAIN], packet[LINE_PACKET], record[RECORD_OCTETS];
} sealed;

/* The packets by their numbers, and the record that both ends begin with. */
static sealed line[PACKETS];
static octets start;

/* A receiver: its record, the newest packet opened, and the last one that came behind that, -1 before there is one; and of all receivers
   how often each kind came. */
static struct {
    octets record;
    long newest, behind;
    unsigned long came[KINDS];
} receiver;

/* Seals all packets of a new link. */
static void seal_line(unsigned bits)
{
    static octets sender, plain, packet;

    make_begin(&start, bits, false);
    copy(&sender, &start);
    for (sealed *s = line; s < line + PACKETS; s++) {
        seal_call(&sender, &plain, &packet);
        s->n = plain.n;
        memcpy(s->plain, plain.at, plain.n);
        memcpy(s->packet, packet.at, packet.n);
        memcpy(s->record, sender.at, RECORD_OCTETS);
    }
}

/* Packet q. */
static const octets *packet_of(long q)
{
    static octets packet;
    part p = {line[q].packet, FRONT + line[q].n};

    take(&packet, p, p.n);
    return &packet;
}

/* One ahead of the newest is opened to what was sealed, reports how far it is ahead, and leaves the sender's record. */
static void open_ahead(long q)
{
    part plain = {line[q].plain, line[q].n};
    long ahead = q - receiver.newest;

    open_call(&receiver.record, packet_of(q), one_in(4) ? LINE_PLAIN : plain.n + below(3));
    opened_as_sealed(&receiver.record, plain, line[q].record);
    demand(reported() == ahead, "an arrival reports other key changes than it is ahead");
    receiver.came[AHEAD]++;
    receiver.came[FARTHEST_AHEAD] += ahead == FARTHEST;
    receiver.newest = q;
}

/* Every other is refused, the newest with 6 and one behind it with 10, also where no room is lent. */
static void refuse_other(long q)
{
    refuse(&receiver.record, packet_of(q), one_in(4) ? 0 : LINE_PLAIN);
    if (q == receiver.newest) {
        demand(given.number == REPEAT, "the newest come again is not refused with 6");
        receiver.came[NEWEST]++;
        return;
    }
    demand(given.number == LATE, "one behind the newest is not refused with 10");
    receiver.came[BEHIND]++;
    receiver.came[FARTHEST_BEHIND] += receiver.newest - q == MOST_BEHIND;
    receiver.came[BEHIND_AGAIN] += q == receiver.behind;
    receiver.behind = q;
}

/* Packet q arrives, with calls before it that are refused. */
static void arrive(long q)
{
    disturb(&receiver.record, packet_of(q));
    if (q > receiver.newest)
        open_ahead(q);
    else
        refuse_other(q);
}

/* Just beyond the limits, at a copy of the record. One 2,049 ahead is refused as late though it is new; one 2,048 behind is taken for one
   2,048 ahead, so that it needs room, and a key is tried that it was not sealed with. */
static void go_beyond(void)
{
    static octets record;
    long ahead = receiver.newest + FARTHEST + 1, behind = receiver.newest - MOST_BEHIND - 1;

    copy(&record, &receiver.record);
    if (ahead < PACKETS) {
        refuse(&record, packet_of(ahead), LINE_PLAIN);
        demand(given.number == LATE, "one too far ahead is not refused with 10");
        receiver.came[BEYOND_AHEAD]++;
    }
    if (behind >= 0) {
        refuse(&record, packet_of(behind), below(line[behind].n));
        demand(given.number == ROOM, "one too far behind is not refused with 2 where room is missing");
        open_call(&record, packet_of(behind), LINE_PLAIN);
        demand(given.number == PROTOCOL || given.number == DONE, "one too far behind is not taken for one ahead");
        demand(reported() == (given.number == DONE ? FARTHEST : 0), "one too far behind reports other key changes than one ahead");
        receiver.came[BEYOND_BEHIND]++;
    }
}

/* The next to arrive, if it may: now and then any ahead or the farthest; else the newest, one of the last few, any behind or the farthest,
   the last one behind once more, one of the next few, or the next in turn. */
static long make_arrival(unsigned long far)
{
    if (one_in(far))
        return receiver.newest + (one_in(2) ? FARTHEST : 1 + (long)below(FARTHEST));
    if (one_in(4))
        return receiver.newest;
    switch (below(8)) {
    case 0:
        return receiver.newest - 1 - (long)below(FEW);
    case 1:
        return receiver.newest - 1 - (long)below(MOST_BEHIND);
    case 2:
        return receiver.newest - MOST_BEHIND;
    case 3:
        return receiver.behind;
    case 4:
        return receiver.newest + 1 + (long)below(FEW);
    default:
        return receiver.newest + 1;
    }
}

/* Whether there is a packet q, and it is within the limits. */
static bool may_arrive(long q)
{
    return q >= 0 && q < PACKETS && q - receiver.newest <= FARTHEST && receiver.newest - q <= MOST_BEHIND;
}

/* Packets come to a new receiver until it has opened the last; those that were never drawn are lost. */
static void receive(long first, unsigned long far)
{
    copy(&receiver.record, &start);
    receiver.newest = receiver.behind = -1;
    go_beyond();
    for (long q = first; receiver.newest < PACKETS - 1; q = make_arrival(far)) {
        if (may_arrive(q))
            arrive(q);
        if (one_in(BEYOND))
            go_beyond();
    }
}

/* Prints how often each kind of arrival came; ends the program where one never did. */
static void every_kind_came(void)
{
    static const char *const kinds[KINDS] = {
        [AHEAD] = "opened",
        [FARTHEST_AHEAD] = "of them 2,048 ahead",
        [NEWEST] = "repeats of the newest",
        [BEHIND] = "late",
        [FARTHEST_BEHIND] = "of them 2,047 behind",
        [BEHIND_AGAIN] = "of them once more",
        [BEYOND_AHEAD] = "refused 2,049 ahead",
        [BEYOND_BEHIND] = "taken for one ahead 2,048 behind",
    };

    for (int k = 0; k < KINDS; k++) {
        printf("%s%lu %s", k == 0 ? "" : ", ", receiver.came[k], kinds[k]);
        if (receiver.came[k] == 0) {
            printf(": never\n");
            exit(1);
        }
    }
}

/* To the first receiver at each strength the packet comes first that is the farthest ahead of none, and often a far one behind it; to the
   others seldom a far one, so that they open most packets. */
unsigned long compare_order(unsigned long seed)
{
    start_steps(seed, ANY_ORDER);
    memset(&receiver, 0, sizeof receiver);
    for (unsigned k = 0; k < 3; k++) {
        seal_line(strength_bits(k));
        receive(FARTHEST - 1, OFTEN);
        for (int r = 1; r < RECEIVERS; r++)
            receive((long)below(FEW), SELDOM);
    }
    printf("packets in any order: %lu calls, all equal; ", steps.calls);
    every_kind_came();
    printf(", %lu opened in pieces too\n", steps.walked);
    return steps.calls;
}
