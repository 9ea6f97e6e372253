/* See runs.h. */
#include "runs.h"
#include "host.h"
#include "links.h"
#include "steps.h"

#include <string.h>

/* Packets sealed in a run; how many may be lost in a row; one in how many arrivals has a loss behind it, and how many a few are. */
enum { SHORT_RUN = 50, LONG_RUN = 3 * COUNTS, PLACED_RUN = 24000, PERIOD = 8000 };
enum { MOST_LOST = FARTHEST - 1, OFTEN = 4, SELDOM = 200, FEW = 5 };

/* A run of a link: both ends' records, the packet sealed last with its plain packet, one that the line holds back, a Reset-Request under
   way; packets lost and key changes made since the last arrival, packets sealed since the one held back, whether the packet sealed before
   the last one was opened; and what was compared. */
static struct {
    octets sender, receiver, packet, plain, held, request;
    unsigned lost, changes, behind;
    bool in_step;
    unsigned long opened, waited, late, resets;
} run;

/* The next packet sealed. It has bit A exactly if it brings a key change or the sender's mark was set. */
static void seal_next(void)
{
    bool marked = run.sender.at[AT_MARK] == 1;
    unsigned changes;

    seal_call(&run.sender, &run.plain, &run.packet);
    changes = changes_with(run.sender.at, run.packet.at[3]);
    demand(((run.packet.at[2] & BIT_A) != 0) == (changes > 0 || marked), "bit A is not where RC4 is keyed afresh");
    run.changes += changes;
    run.behind++;
}

/* A receiver that waits writes a Reset-Request. The line loses it in every other 256 packets, and one in four times besides. */
static void ask(void)
{
    asked.x = (unsigned)below(256);
    fill(&run.request, RESET_REQUEST);
    step(&write_reset_in_run, &run.request, &run.packet, 0);
    if (run.packet.at[2] % 2 == 1 || one_in(4))
        run.request.n = 0;
}

/* An arriving packet has no box to be opened with: nothing is written, the record has the sender's keys and count, and waits. */
static void waits(void)
{
    demand(given.number == WAITING, "an arrival that cannot be opened is not answered with 11");
    demand(unwritten(0), "an arrival that is answered with 11 is written");
    demand(memcmp(run.sender.at, run.receiver.at, AT_MARK) == 0, "the records have other keys or counts");
    demand(run.receiver.at[AT_MARK] == 1, "a receiver does not wait");
    run.waited++;
    ask();
}

/* The packet arrives: it is opened exactly if it has bit A, as every stateless one has, or if the one sealed before it was opened. The key
   changes are those that the packets since the last arrival bring. */
static void arrive(void)
{
    run.in_step = run.in_step || (run.packet.at[2] & BIT_A) != 0;
    open_call(&run.receiver, &run.packet, run.plain.n + below(3));
    demand(reported() == run.changes, "other key changes than the packets sealed bring");
    if (run.in_step) {
        opened_as_sealed(&run.receiver, part_of(&run.plain), run.sender.at);
        run.opened++;
    } else {
        waits();
    }
    run.lost = run.changes = 0;
}

/* The line loses the packet sealed last; the first of those lost in a row is held back. */
static void lose(void)
{
    run.in_step = false;
    if (run.lost++ > 0)
        return;
    copy(&run.held, &run.packet);
    run.behind = 0;
}

/* Now and then the packet held back comes behind the arrivals that have overtaken it, always where it is as far behind as may be. */
static void come_late(void)
{
    if (run.held.n == 0 || run.behind > MOST_BEHIND || (run.behind < MOST_BEHIND && one_in(2)))
        return;
    refuse(&run.receiver, &run.held, one_in(4) ? 0 : LINE_PLAIN);
    demand(given.number == LATE, "a packet that comes late is not refused as late");
    run.late++;
}

/* A Reset-Request at a stateful sender sets its mark, and a refused one changes nothing. */
static void take_reset(const octets *request)
{
    static octets record;

    copy(&record, &run.sender);
    step(&reset_in_run, &run.sender, request, 0);
    if (given.number == DONE) {
        record.at[AT_MARK] = 1;
        run.resets++;
    }
    demand(memcmp(record.at, run.sender.at, RECORD_OCTETS) == 0, "a Reset-Request changes another field than the mark");
}

/* The receiver's Reset-Request comes to the sender sooner or later; now and then another one does, right or wrong. */
static void come_resets(void)
{
    static octets request;

    if (run.request.n > 0 && one_in(2)) {
        take_reset(&run.request);
        demand(given.number == DONE, "the receiver's Reset-Request is refused");
        run.request.n = 0;
    }
    if (one_in(30)) {
        make_reset(&request);
        take_reset(&request);
    }
}

/* One packet sealed, and lost or arriving, with refused calls before it and behind. */
static void pass(bool arrives)
{
    if (run.sender.at[AT_MODE] == 1)
        come_resets();
    seal_next();
    disturb(&run.receiver, &run.packet);
    if (!arrives) {
        lose();
        return;
    }
    arrive();
    disturb(&run.receiver, &run.packet);
    come_late();
}

/* Both ends of a new link. */
static void begin(unsigned bits, bool stateful)
{
    make_begin(&run.sender, bits, stateful);
    copy(&run.receiver, &run.sender);
    run.lost = run.changes = 0;
    run.held.n = run.request.n = 0;
    run.in_step = false;
}

/* A run: packets sealed, some lost, up to a number in a row, and in a long run once as many as may be. */
static void run_link(unsigned long packets, unsigned long often, unsigned long most)
{
    bool far = packets > MOST_LOST;
    unsigned long left = far && one_in(2) ? MOST_LOST : 0;

    for (; packets > 0; packets--) {
        if (run.lost == 0 && left == 0 && one_in(often))
            left = far && one_in(200) ? MOST_LOST : 1 + below(most);
        far = far && left < MOST_LOST;
        pass(left == 0);
        left -= left > 0;
    }
}

/* Whether packet k of a run with placed losses arrives: none of the first 2,047 of each period, then the next one and the period's last;
   of the others none of a burst of 32 in each 256, and three in four besides. */
static bool arrives(unsigned long k)
{
    unsigned long place = k % PERIOD;

    if (place < MOST_LOST)
        return false;
    return place == MOST_LOST || place == PERIOD - 1 || (place / 32 % 8 != 0 && !one_in(4));
}

/* A run with placed losses. */
static void run_placed(void)
{
    for (unsigned long k = 0; k < PLACED_RUN; k++)
        pass(arrives(k));
}

/* Runs in a mode until as many packets are sealed as asked for: many short ones, a long one that wraps, and at each strength one with long
   stretches that lose nothing and one with placed losses. */
unsigned long compare_runs(unsigned long seed, unsigned long packets, bool stateful)
{
    start_steps(seed, stateful ? STATEFUL_RUNS : STATELESS_RUNS);
    memset(&run, 0, sizeof run);
    for (unsigned long done = 0; done < packets; done += SHORT_RUN) {
        begin(strength_bits((unsigned)below(3)), stateful);
        run_link(SHORT_RUN, OFTEN, FEW);
    }
    begin(strength_bits((unsigned)below(3)), stateful);
    run_link(LONG_RUN, OFTEN, FEW);
    for (unsigned k = 0; k < 3; k++) {
        begin(strength_bits(k), stateful);
        run_link(LONG_RUN, SELDOM, MOST_LOST);
        begin(strength_bits(k), stateful);
        run_placed();
    }
    printf("runs of a %s link: %lu calls, all equal; %lu packets opened, %lu in pieces too, %lu answered 11, %lu that came late, "
           "%lu Reset-Requests taken\n",
           stateful ? "stateful" : "stateless", steps.calls, run.opened, steps.walked, run.waited, run.late, run.resets);
    return steps.calls;
}
