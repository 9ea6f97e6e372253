/* See mark_cases.h. */
#include "mark_cases.h"
#include "links.h"
#include "tape_cases.h"

#include <stdlib.h>
#include <string.h>

/* With so many cases for each call, each kind's turn comes. */
enum { ENOUGH = 100 };

/* The packets of a short tape, lost ones in a row, and the octets of most plain packets behind their protocol number, are fewer. */
enum { FEW = 12 };

/* One packet in so many is longer than a line has, and one comes from as far ahead as may be. */
enum { LONGER_IN = 512, FAR_IN = 8000 };

/* How a packet is refused, and where: right before the packet that a mark follows, right behind a mark, or elsewhere. */
enum { OTHER_FRONT, OTHER_FLAGS, AGAIN, BEHIND, OTHER_PROTOCOL, REFUSALS };
enum { BEFORE_MARK, BEHIND_MARK, ELSEWHERE, PLACES };

static const struct {
    const char *name;
    int number;
} refusals[REFUSALS] = {
    [OTHER_FRONT] = {"other first octets", SHAPE},
    [OTHER_FLAGS] = {"wrong flags", FLAGS},
    [AGAIN] = {"a repeat", REPEAT},
    [BEHIND] = {"one that comes late", LATE},
    [OTHER_PROTOCOL] = {"a damaged protocol number", PROTOCOL},
};

/* What is wrong with a start record, and with a tape: the last three have octets that are no record in front of all records, among them,
   and behind them all. */
enum { ILL_FORMED, STATEFUL, NO_RECORD, OTHER_LENGTH, STARTS };
enum { NO_OCTET, OTHER_FIRST, CUT_RECORD, FAULT_FIRST, FAULT_WITHIN, FAULT_LAST, FAULTS };

static const char *const starts[STARTS] = {"ill formed", "stateful", "any octets", "of another length"};
static const char *const faults[FAULTS] = {
    "no octet", "another first octet", "a cut record", "no record in front", "no record among others", "no record behind all",
};

/* Lists. Those from REFUSED_COUNTED on are what a writer gives who is wrong in one way. */
enum {
    RIGHT, NO_MARK, CHANGED_OCTET, FIRST_LACKING, LAST_LACKING, LAST_TWICE, ANY_MORE, EXCHANGED, CUT_LIST, OCTETS_MORE, OTHER_TAPE,
    LATER_START, REFUSED_COUNTED, COUNT_BEFORE, OFFSET_BEFORE, OFFSET_FAR, RECORD_BEFORE, LOW_FIRST, FROM_0, ONE_EARLY, NONE_AT_END,
    END_TOO, LISTS
};

/* Their names, and how many marks a tape has at least that can have such a list. */
static const struct {
    const char *name;
    size_t least;
} lists[LISTS] = {
    [RIGHT] = {"right", 0},
    [NO_MARK] = {"no mark", 1},
    [CHANGED_OCTET] = {"an octet changed", 1},
    [FIRST_LACKING] = {"the first mark lacking", 1},
    [LAST_LACKING] = {"the last lacking", 1},
    [LAST_TWICE] = {"the last twice", 1},
    [ANY_MORE] = {"any mark more", 0},
    [EXCHANGED] = {"two exchanged", 2},
    [CUT_LIST] = {"cut within a mark", 1},
    [OCTETS_MORE] = {"octets more", 0},
    [OTHER_TAPE] = {"of another tape", 1},
    [LATER_START] = {"of a later start record", 1},
    [REFUSED_COUNTED] = {"refused packets counted", 1},
    [COUNT_BEFORE] = {"opened before the packet", 1},
    [OFFSET_BEFORE] = {"the offset before it", 1},
    [OFFSET_FAR] = {"the offset behind refused ones", 1},
    [RECORD_BEFORE] = {"the record before it", 1},
    [LOW_FIRST] = {"the lowest octet first", 1},
    [FROM_0] = {"counted from 0", 0},
    [ONE_EARLY] = {"a packet too early", 0},
    [NONE_AT_END] = {"none at the tape's end", 1},
    [END_TOO] = {"one at the tape's end too", 0},
};

/* Marks to be read, and how much room there is for the record: none, one octet too little, what it needs, or more. */
enum {
    RIGHT_MARK, LENGTH_0, LENGTH_50, LENGTH_52, ANY_LENGTH, NO_STRENGTH, COUNT_4096, COUNT_ABOVE, START_PLACES, SESSION_PLACES,
    SESSION_FRONT, OTHER_STRENGTH, ANY_OCTETS, DAMAGED, MARK_KINDS
};
enum { NONE, ONE_LESS, EXACT, MORE, ROOMS };

/* Where the parts of a mark stand; any number that the call can answer. */
enum { MARK_OFFSET = SIZE_OCTETS, MARK_RECORD = 2 * SIZE_OCTETS, MARK_FRONT = MARK_OCTETS - MARK_RECORD, ANY_NUMBER = -1 };

/* Their names, and what the paper names for each where there is room. */
static const struct {
    const char *name;
    int number;
} marks_read[MARK_KINDS] = {
    [RIGHT_MARK] = {"right", DONE},
    [LENGTH_0] = {"no octet", SIZE},
    [LENGTH_50] = {"50 octets", SIZE},
    [LENGTH_52] = {"52 octets", SIZE},
    [ANY_LENGTH] = {"another length", SIZE},
    [NO_STRENGTH] = {"no strength", RECORD},
    [COUNT_4096] = {"a count of 4,096", RECORD},
    [COUNT_ABOVE] = {"a count above it", RECORD},
    [START_PLACES] = {"a place behind the start key", RECORD},
    [SESSION_PLACES] = {"one behind the session key", RECORD},
    [SESSION_FRONT] = {"another beginning of the session key", RECORD},
    [OTHER_STRENGTH] = {"any of the strengths", ANY_NUMBER},
    [ANY_OCTETS] = {"any octets", ANY_NUMBER},
    [DAMAGED] = {"a bit changed", ANY_NUMBER},
};

/* How often each came; lists only where they are right or must be refused. */
static struct {
    unsigned long refused[PLACES][REFUSALS], longer, longest, starts[STARTS], faults[FAULTS], lists[LISTS], reads[MARK_KINDS][ROOMS];
} came;

/* A line that brings packets: both ends' records, the tape that they go to, the packet opened last, and one before it; and where what is
   opened goes. */
static struct {
    octets sender, receiver, tape, last, held, room;
} line;

/* Ends the program where the oracle does not give what the paper names for a kind. */
static void named(bool held, const char *kind)
{
    if (held)
        return;
    printf("marks, %s: the oracle does not give what the paper names\n", kind);
    exit(1);
}

/* Seals a plain packet of a length, the next one of the line. */
static void seal_of(size_t n, octets *packet)
{
    static octets plain;

    do {
        make_plain_of(&plain, n);
        fill(packet, FRONT + n);
    } while (oracle_seal(whole(&line.sender), part_of(&plain), whole(packet)) != DONE);
}

/* Mostly a short length, so that a tape of many packets is short too. */
static size_t make_short(void)
{
    return SHORTEST_PLAIN + below(one_in(40) ? 2 * LONGEST_IN_ONE : FEW);
}

/* Puts a packet on the tape, and gives it to the receiver. Whether that answers a number. */
static bool arrives(const octets *packet, int number)
{
    line.tape.n += oracle_tape_write(part_of(packet), (buffer){line.tape.at + line.tape.n, MOST - line.tape.n}).length;
    return oracle_open(whole(&line.receiver), part_of(packet), whole(&line.room)).number == number;
}

/* Gives a packet the count that is so far behind the receiver's. */
static void set_behind(octets *packet, size_t far)
{
    size_t count = (256u * line.receiver.at[AT_COUNT] + line.receiver.at[AT_COUNT + 1] + COUNTS - far) % COUNTS;

    packet->at[2] = (octet)((packet->at[2] & 0xF0) + count / 256);
    packet->at[3] = (octet)(count % 256);
}

/* Makes the line's next packet one that is refused; a repeat or a late one is often one that came before. */
static void make_refused(octets *packet, int kind)
{
    switch (kind) {
    case OTHER_FRONT:
        packet->at[below(2)] ^= (octet)(1 << below(8));
        break;
    case OTHER_FLAGS:
        packet->at[2] ^= one_in(2) ? 0x10 : BIT_A;
        break;
    case AGAIN:
        if (line.last.n > 0 && one_in(2))
            copy(packet, &line.last);
        set_behind(packet, 0);
        break;
    case BEHIND:
        if (line.held.n > 0 && oracle_distance(line.receiver.at, line.held.at + 2) > FARTHEST && one_in(2))
            copy(packet, &line.held);
        else
            set_behind(packet, 1 + below(MOST_BEHIND));
        break;
    default:
        packet->at[FRONT] ^= (octet)(1 << below(8));
    }
}

/* A packet is refused: at each place each kind in turn. It is lost so, or comes once more unharmed. */
static void arrive_refused(int place)
{
    static unsigned long turns[PLACES];
    static octets sender, packet;
    int kind = (int)(turns[place]++ % REFUSALS);

    copy(&sender, &line.sender);
    seal_of(make_short(), &packet);
    if (one_in(2))
        copy(&line.sender, &sender);
    make_refused(&packet, kind);
    named(arrives(&packet, refusals[kind].number), refusals[kind].name);
    came.refused[place][kind]++;
}

/* So many are lost behind the packet opened last. */
static void lose(size_t n)
{
    static octets packet;

    copy(&line.sender, &line.receiver);
    for (; n > 0; n--)
        seal_of(SHORTEST_PLAIN, &packet);
}

/* A packet is opened, now and then behind lost ones, or altered behind its protocol number. */
static void arrive_opened(size_t n)
{
    static octets packet;

    if (one_in(16))
        lose(1 + below(FEW));
    seal_of(n, &packet);
    if (packet.n > SHORTEST_PACKET && one_in(16))
        packet.at[packet.n - 1] ^= (octet)(1 << below(8));
    named(arrives(&packet, DONE), "a packet of the line");
    if (line.last.n > 0 && one_in(FEW))
        copy(&line.held, &line.last);
    copy(&line.last, &packet);
    if (packet.n > LINE_PACKET)
        line.last.n = 0;
    came.longer += packet.n > LINE_PACKET;
    came.longest += packet.n == LONGEST_PACKET;
}

/* The length of the plain packet that is opened next: each 512th is longer than a line has, on a tape that has room for it, and every other
   of these is the longest. */
static size_t make_plain_length(void)
{
    static unsigned long turn;

    if (line.tape.n > LONGEST_PLAIN / 2 || ++turn % LONGER_IN > 0)
        return make_short();
    return turn / LONGER_IN % 2 == 0 ? LONGEST_PLAIN : LONGEST_PLAIN - below(LONGEST_PLAIN - LINE_PLAIN);
}

/* Refused packets behind so many opened ones: often beside a mark, else now and then. */
static void refuse_some(size_t count)
{
    int place = count > 0 && count % MARK_EVERY == 0 ? BEHIND_MARK : count % MARK_EVERY == MARK_EVERY - 1 ? BEFORE_MARK : ELSEWHERE;

    for (bool more = place == ELSEWHERE ? one_in(8) : !one_in(4); more; more = one_in(4))
        arrive_refused(place);
}

/* The oracle's list of a start record and a tape. */
static void write_list_of(const octets *start, const octets *tape, octets *marks)
{
    marks->n = oracle_marks_write(part_of(start), part_of(tape), (buffer){marks->at, MOST}).length;
}

/* From a new link, or one in use; seldom a packet comes from as far ahead as may be. */
void make_marked(marked *m, unsigned bits, size_t count, bool refused_last)
{
    size_t far = below(FAR_IN);

    make_start(&m->start, bits, false);
    copy(&line.sender, &m->start);
    copy(&line.receiver, &m->start);
    line.last.n = line.held.n = 0;
    fill(&line.room, LONGEST_PLAIN);
    line.tape.n = 1;
    oracle_tape_begin(whole(&line.tape));
    for (size_t k = 0; k < count; k++) {
        refuse_some(k);
        if (k == far)
            lose(FARTHEST - 1);
        arrive_opened(make_plain_length());
    }
    if (refused_last)
        arrive_refused(count > 0 && count % MARK_EVERY == 0 ? BEHIND_MARK : ELSEWHERE);
    copy(&m->tape, &line.tape);
    write_list_of(&m->start, &m->tape, &m->list);
    named(m->list.n == count / MARK_EVERY * MARK_OCTETS, "a tape's list");
}

/* One in 32 has marks, or is short of one by a packet. */
void make_any_marked(marked *m)
{
    static const size_t counts[] = {255, 256, 257, 511, 512, 513};
    size_t count = !one_in(32) ? below(FEW) : one_in(2) ? counts[below(6)] : MARK_EVERY + below(2 * MARK_EVERY);

    make_marked(m, strength_bits((unsigned)below(3)), count, one_in(2));
}

/* What the oracle's writing answers where there is room. */
static int number_of(const marked *m)
{
    static octets marks;

    return oracle_marks_write(part_of(&m->start), part_of(&m->tape), (buffer){marks.at, MOST}).number;
}

/* Whether octets are a well formed record: 7 comes before 1. */
static bool is_record(const octets *record)
{
    static octets same;

    copy(&same, record);
    return oracle_reset(whole(&same), (part){NULL, 0}) != RECORD;
}

/* 7 comes before what the tape answers. */
void spoil_start(marked *m)
{
    static unsigned long turn;
    static octets right;
    int kind = (int)(turn++ % STARTS);

    copy(&right, &m->start);
    switch (kind) {
    case ILL_FORMED:
        do {
            copy(&m->start, &right);
            damage_record(&m->start);
        } while (m->start.n != RECORD_OCTETS || is_record(&m->start));
        break;
    case STATEFUL:
        make_start(&m->start, right.at[0], true);
        break;
    case NO_RECORD:
        fill(&m->start, RECORD_OCTETS);
        break;
    default:
        fill(&m->start, make_other_length());
        memcpy(m->start.at, right.at, m->start.n < right.n ? m->start.n : right.n);
    }
    named(number_of(m) == RECORD, starts[kind]);
    came.starts[kind]++;
}

/* Any offset where a record of a tape begins, or where all end. */
static size_t make_offset(const octets *tape)
{
    size_t picked = 1, seen = 1;

    for (size_t offset = 1; offset < tape->n;) {
        offset = oracle_tape_read(part_of(tape), offset).offset;
        if (one_in(++seen))
            picked = offset;
    }
    return picked;
}

/* Puts octets that are no record at an offset of a tape: a length of 0, 5 or 32,003, a longer form, or a fourth group. */
static void put_fault(octets *tape, size_t offset)
{
    static const struct {
        size_t n;
        octet at[4];
    } none[] = {{1, {0x00}}, {1, {0x05}}, {3, {0x83, 0xFA, 0x01}}, {2, {0x86, 0x00}}, {4, {0x82, 0xFA, 0x81, 0x00}}};
    static octets rest;
    size_t k = below(sizeof none / sizeof none[0]);

    take(&rest, (part){tape->at + offset, tape->n - offset}, MOST);
    tape->n = offset;
    append(tape, (part){none[k].at, none[k].n});
    append(tape, part_of(&rest));
}

/* A tape of no packets has none that can be cut. */
void spoil_tape(marked *m)
{
    static const octet others[] = {0x00, 0x02, 0x81, 0xFF};
    static unsigned long turn;
    int kind = (int)(turn++ % FAULTS);

    if (kind == CUT_RECORD && m->tape.n == 1)
        kind = FAULT_LAST;
    switch (kind) {
    case NO_OCTET:
        m->tape.n = 0;
        break;
    case OTHER_FIRST:
        m->tape.at[0] = others[below(4)];
        break;
    case CUT_RECORD:
        m->tape.n -= 1 + below(SHORTEST_PACKET);
        break;
    default:
        put_fault(&m->tape, kind == FAULT_FIRST ? 1 : kind == FAULT_LAST ? m->tape.n : make_offset(&m->tape));
    }
    named(number_of(m) == (is_record(&m->start) && m->start.at[AT_MODE] == 0 ? SHAPE : RECORD), faults[kind]);
    came.faults[kind]++;
}

/* Half of them stay as they are. */
void spoil_any(marked *m)
{
    if (one_in(2))
        return;
    if (one_in(2))
        spoil_start(m);
    if (one_in(2))
        spoil_tape(m);
}

/* Whether a writer who is wrong in a way puts a mark behind a packet, by how many are then counted. */
static bool is_marked(int kind, size_t count, bool at_end)
{
    size_t over = kind == FROM_0 ? 1 : kind == ONE_EARLY ? MARK_EVERY - 1 : 0;

    return (count % MARK_EVERY == over && !(kind == NONE_AT_END && at_end)) || (kind == END_TOO && at_end);
}

/* The front of a record stands in it as it is. */
void put_mark(octet mark[MARK_OCTETS], size_t count, size_t offset, const octet *record)
{
    put_size(mark, count);
    put_size(mark + MARK_OFFSET, offset);
    memcpy(mark + MARK_RECORD, record, MARK_FRONT);
}

/* Puts a mark behind a list. */
static void add_mark(octets *marks, size_t count, size_t offset, const octets *record)
{
    octet mark[MARK_OCTETS];

    put_mark(mark, count, offset, record->at);
    append(marks, (part){mark, MARK_OCTETS});
}

/* The list of a writer who is wrong in a way, from steps over the tape. */
static void write_wrong(const marked *m, int kind, octets *marks)
{
    static octets record, before;
    size_t offset = 1, count = 0;
    bool behind = false;

    copy(&record, &m->start);
    while (offset < m->tape.n) {
        tape_replayed r;

        copy(&before, &record);
        r = oracle_tape_replay(whole(&record), part_of(&m->tape), offset, whole(&line.room));
        if (r.number == DONE || kind == REFUSED_COUNTED) {
            behind = is_marked(kind, ++count, r.offset == m->tape.n);
            if (behind)
                add_mark(marks, count - (kind == COUNT_BEFORE), kind == OFFSET_BEFORE ? offset : r.offset,
                         kind == RECORD_BEFORE ? &before : &record);
        } else if (kind == OFFSET_FAR && behind) {
            put_size(marks->at + marks->n - MARK_OCTETS + MARK_OFFSET, r.offset);
        }
        offset = r.offset;
    }
}

/* Turns the octets of a number around. */
static void turn_around(octet *at)
{
    for (int k = 0; k < SIZE_OCTETS / 2; k++) {
        octet other = at[SIZE_OCTETS - 1 - k];

        at[SIZE_OCTETS - 1 - k] = at[k];
        at[k] = other;
    }
}

/* Exchanges a list's last mark with one before it. */
static void exchange_marks(octets *marks)
{
    octet *last = marks->at + marks->n - MARK_OCTETS, *other = marks->at + MARK_OCTETS * below(marks->n / MARK_OCTETS - 1);
    octet kept[MARK_OCTETS];

    memcpy(kept, last, MARK_OCTETS);
    memcpy(last, other, MARK_OCTETS);
    memcpy(other, kept, MARK_OCTETS);
}

/* The list of the tape without its first record. */
static void write_other_tape(const marked *m, octets *marks)
{
    static octets tape;
    size_t offset = oracle_tape_read(part_of(&m->tape), 1).offset;

    take(&tape, part_of(&m->tape), 1);
    append(&tape, (part){m->tape.at + offset, m->tape.n - offset});
    write_list_of(&m->start, &tape, marks);
}

/* The list of the whole tape from the record that its first opened packet leaves. */
static void write_later_start(const marked *m, octets *marks)
{
    static octets start;
    tape_replayed r = {.number = SHAPE, .offset = 1};

    copy(&start, &m->start);
    while (r.number != DONE)
        r = oracle_tape_replay(whole(&start), part_of(&m->tape), r.offset, whole(&line.room));
    write_list_of(&start, &m->tape, marks);
}

/* A kind of a list, from the right one. */
static void change_list(const marked *m, int kind, octets *marks)
{
    static octets more;

    switch (kind) {
    case RIGHT:
        break;
    case NO_MARK:
        marks->n = 0;
        break;
    case CHANGED_OCTET:
        marks->at[below(marks->n)] ^= (octet)(one_in(2) ? 1u << below(8) : 1 + below(255));
        break;
    case FIRST_LACKING:
        marks->n -= MARK_OCTETS;
        memmove(marks->at, marks->at + MARK_OCTETS, marks->n);
        break;
    case LAST_LACKING:
        marks->n -= MARK_OCTETS;
        break;
    case LAST_TWICE:
        append(marks, (part){m->list.at + m->list.n - MARK_OCTETS, MARK_OCTETS});
        break;
    case ANY_MORE:
    case OCTETS_MORE:
        fill(&more, kind == ANY_MORE ? MARK_OCTETS : 1 + below(MARK_OCTETS - 1));
        append(marks, part_of(&more));
        break;
    case EXCHANGED:
        exchange_marks(marks);
        break;
    case CUT_LIST:
        marks->n -= 1 + below(MARK_OCTETS - 1);
        break;
    case LOW_FIRST:
        for (size_t at = 0; at < marks->n; at += MARK_OCTETS) {
            turn_around(marks->at + at);
            turn_around(marks->at + at + MARK_OFFSET);
        }
        break;
    case OTHER_TAPE:
        write_other_tape(m, marks);
        break;
    case LATER_START:
        write_later_start(m, marks);
        break;
    default:
        marks->n = 0;
        write_wrong(m, kind, marks);
    }
}

/* Those of no mark, of one and of more have turns of their own. */
bool make_list(const marked *m, octets *marks)
{
    static unsigned long turns[3];
    size_t count = m->list.n / MARK_OCTETS;
    unsigned long *turn = &turns[count < 2 ? count : 2];
    bool right;

    while (lists[*turn % LISTS].least > count)
        ++*turn;
    copy(marks, &m->list);
    change_list(m, (int)(*turn % LISTS), marks);
    right = marks->n == m->list.n && memcmp(marks->at, m->list.at, marks->n) == 0;
    came.lists[*turn % LISTS] += right == (*turn % LISTS == RIGHT);
    ++*turn;
    return right;
}

/* By what each kind needs. */
size_t lists_for(const marked *m)
{
    size_t count = 0;

    for (int k = 0; k < LISTS; k++)
        count += lists[k].least <= m->list.n / MARK_OCTETS;
    return count;
}

/* A mark of any stateless link, where places behind a key or its beginning are asked for one that has these; its numbers are any, and
   often at a limit. */
static void make_right_mark(octets *mark, int kind)
{
    static octets record;
    bool shorter = kind == START_PLACES || kind == SESSION_PLACES || kind == SESSION_FRONT;

    make_start(&record, strength_bits((unsigned)below(shorter ? 2 : 3)), false);
    fill(mark, MARK_OCTETS);
    for (size_t at = 0; at < MARK_RECORD; at += SIZE_OCTETS)
        if (one_in(3))
            memset(mark->at + at, one_in(2) ? 0x00 : 0xFF, SIZE_OCTETS);
    memcpy(mark->at + MARK_RECORD, record.at, MARK_FRONT);
}

/* A number of octets that no mark has. */
static size_t make_mark_length(int kind)
{
    switch (kind) {
    case LENGTH_0:
        return 0;
    case LENGTH_50:
        return MARK_OCTETS - 1;
    case LENGTH_52:
        return MARK_OCTETS + 1;
    default:
        return one_in(2) ? 2 * MARK_OCTETS : one_in(2) ? below(MARK_OCTETS) : MARK_OCTETS + 1 + below(RECORD_OCTETS);
    }
}

/* What is no strength: beside one, at a limit, or any. */
static octet make_no_strength(void)
{
    static const octet others[] = {0, 39, 41, 55, 57, 127, 129, 255};
    octet bits;

    do
        bits = one_in(2) ? others[below(sizeof others)] : (octet)below(256);
    while (bits == 40 || bits == 56 || bits == 128);
    return bits;
}

/* Changes a mark to a kind: in the front of its record, or to another length. Then it often has any octets, as 3 comes before 7. */
static void change_mark(octets *mark, int kind)
{
    static octets cut;
    octet *front = mark->at + MARK_RECORD;
    size_t above = kind == COUNT_4096 ? COUNTS : COUNTS + 1 + below(65536 - COUNTS - 1);

    switch (kind) {
    case RIGHT_MARK:
        break;
    case NO_STRENGTH:
        front[0] = make_no_strength();
        break;
    case COUNT_4096:
    case COUNT_ABOVE:
        front[AT_COUNT] = (octet)(above / 256);
        front[AT_COUNT + 1] = (octet)(above % 256);
        break;
    case START_PLACES:
    case SESSION_PLACES:
        front[(kind == START_PLACES ? AT_START : AT_SESSION) + 8 + below(8)] = (octet)(1 + below(255));
        break;
    case SESSION_FRONT:
        front[AT_SESSION + below(front[0] == 40 ? 3 : 1)] ^= (octet)(1 << below(8));
        break;
    case OTHER_STRENGTH:
        front[0] = (octet)strength_bits((unsigned)below(3));
        break;
    case ANY_OCTETS:
        fill(mark, MARK_OCTETS);
        if (one_in(2))
            front[0] = (octet)strength_bits((unsigned)below(3));
        break;
    case DAMAGED:
        mark->at[below(MARK_OCTETS)] ^= (octet)(1 << below(8));
        break;
    default:
        fill(&cut, make_mark_length(kind));
        if (one_in(2))
            memcpy(cut.at, mark->at, cut.n < MARK_OCTETS ? cut.n : MARK_OCTETS);
        copy(mark, &cut);
    }
}

/* With each kind the rooms in turn. */
void make_mark(octets *mark, octets *room)
{
    static unsigned long turn;
    static octets record;
    int kind = (int)(turn % MARK_KINDS), number;
    size_t lent = turn / MARK_KINDS % ROOMS;

    turn++;
    make_right_mark(mark, kind);
    change_mark(mark, kind);
    fill(room, lent == NONE ? 0 : lent == ONE_LESS ? RECORD_OCTETS - 1 : RECORD_OCTETS + (lent == EXACT ? 0 : 1 + below(40)));
    fill(&record, RECORD_OCTETS);
    number = oracle_marks_read(part_of(mark), whole(&record)).number;
    named(marks_read[kind].number == ANY_NUMBER || marks_read[kind].number == number, marks_read[kind].name);
    came.reads[kind][lent]++;
}

/* The rarest of a kind's rooms. */
static unsigned long rarest(const unsigned long often[ROOMS])
{
    unsigned long least = often[0];

    for (int k = 1; k < ROOMS; k++)
        least = often[k] < least ? often[k] : least;
    return least;
}

/* Prints how often a kind came, behind those before it. */
static void print_next(int k, const char *name, unsigned long often, bool had_to)
{
    printf("%s", k == 0 ? " " : ", ");
    print_came(name, often, had_to);
}

/* The marks read by the rarest room of each kind. */
void every_mark_came(unsigned long cases)
{
    static const char *const places[PLACES] = {"right before the packet of a mark", "right behind a mark", "elsewhere"};

    for (int i = 0; i < PLACES; i++) {
        printf("packets refused %s:", places[i]);
        for (int k = 0; k < REFUSALS; k++)
            print_next(k, refusals[k].name, came.refused[i][k], true);
        printf("\n");
    }
    print_came("packets opened that are longer than a line has", came.longer, true);
    print_came(", the longest of them", came.longest, true);
    printf("\nstart records of marks that are none:");
    for (int k = 0; k < STARTS; k++)
        print_next(k, starts[k], came.starts[k], true);
    printf("\nfaulty tapes beside marks:");
    for (int k = 0; k < FAULTS; k++)
        print_next(k, faults[k], came.faults[k], true);
    printf("\nlists of marks checked:");
    for (int k = 0; k < LISTS; k++)
        print_next(k, lists[k].name, came.lists[k], cases >= ENOUGH);
    printf("\nmarks read, each kind with each kind of room, the rarest:");
    for (int k = 0; k < MARK_KINDS; k++)
        print_next(k, marks_read[k].name, rarest(came.reads[k]), cases >= ENOUGH);
    printf("\n");
}
