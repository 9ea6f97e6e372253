/* See tape_cases.h. */
#include "tape_cases.h"
#include "links.h"

#include <stdint.h>
#include <stdlib.h>

/* With so many cases for each call, each kind's turn comes. */
enum { ENOUGH = 100 };

/* What there is at the offset of a read. The tapes of the last five, from CUT_GROUPS on, end with the record. */
enum {
    NO_OCTET, OTHER_FIRST, OFFSET_0, PAST_BY_ONE, PAST_FAR, PAST_MOST, AT_END, END_OF_NONE, TOO_SHORT, TOO_LONG_BY_ONE, TOO_LONG,
    TWO_FOR_ONE, THREE_FOR_FEWER, FOUR_FOR_THREE, MORE_GROUPS, FOURTH_GROUP, LENGTH_6, LENGTH_127, LENGTH_128, LENGTH_1502, LENGTH_1503,
    LENGTH_16383, LENGTH_16384, LENGTH_32002, ONE_GROUP, TWO_GROUPS, THREE_GROUPS, NOISE, CUT_GROUPS, CUT_BY_ONE, CUT_LONG, CUT_PACKET,
    WITHIN, KINDS
};

/* The most octets that stand behind the groups of a record that is too long, and how many numbers three groups can say. */
enum { MOST_BEHIND_GROUPS = 3 * 16384, SAID_IN_THREE = 128 * 128 * 128 };

/* Where the offset goes: to 0, nowhere, behind a packet, or to any of these. */
enum { TO_0, STAYS, BEHIND, ANYWHERE };

/* What the paper names for each kind: the number, and where the offset goes; and its record's length, where that is one alone. */
static const struct {
    const char *name;
    int number, goes;
    size_t length;
} kinds[KINDS] = {
    [NO_OCTET] = {"no octet", SHAPE, TO_0, 0},
    [OTHER_FIRST] = {"another first octet", SHAPE, TO_0, 0},
    [OFFSET_0] = {"offset 0", SIZE, TO_0, 0},
    [PAST_BY_ONE] = {"past the end by one", SIZE, TO_0, 0},
    [PAST_FAR] = {"far past the end", SIZE, TO_0, 0},
    [PAST_MOST] = {"the greatest offset", SIZE, TO_0, 0},
    [AT_END] = {"at the end", DONE, STAYS, 0},
    [END_OF_NONE] = {"at the end of no packets", DONE, STAYS, 0},
    [TOO_SHORT] = {"a length of 0 to 5", SHAPE, STAYS, 0},
    [TOO_LONG_BY_ONE] = {"a length of 32,003", SHAPE, STAYS, 32003},
    [TOO_LONG] = {"a length above it", SHAPE, STAYS, 0},
    [TWO_FOR_ONE] = {"a longer form in two groups", SHAPE, STAYS, 0},
    [THREE_FOR_FEWER] = {"a longer form in three", SHAPE, STAYS, 0},
    [FOUR_FOR_THREE] = {"a fourth group of 0", SHAPE, STAYS, 0},
    [MORE_GROUPS] = {"a longer form in more", SHAPE, STAYS, 0},
    [FOURTH_GROUP] = {"a fourth group", SHAPE, STAYS, 0},
    [LENGTH_6] = {"a packet of 6", DONE, BEHIND, 6},
    [LENGTH_127] = {"a packet of 127", DONE, BEHIND, 127},
    [LENGTH_128] = {"a packet of 128", DONE, BEHIND, 128},
    [LENGTH_1502] = {"a packet of 1,502", DONE, BEHIND, 1502},
    [LENGTH_1503] = {"a packet of 1,503", DONE, BEHIND, 1503},
    [LENGTH_16383] = {"a packet of 16,383", DONE, BEHIND, 16383},
    [LENGTH_16384] = {"a packet of 16,384", DONE, BEHIND, 16384},
    [LENGTH_32002] = {"a packet of 32,002", DONE, BEHIND, 32002},
    [ONE_GROUP] = {"one group", DONE, BEHIND, 0},
    [TWO_GROUPS] = {"two groups", DONE, BEHIND, 0},
    [THREE_GROUPS] = {"three groups", DONE, BEHIND, 0},
    [NOISE] = {"any octets", DONE, ANYWHERE, 0},
    [CUT_GROUPS] = {"cut in the groups", SHAPE, STAYS, 0},
    [CUT_BY_ONE] = {"cut by an octet", SHAPE, STAYS, 0},
    [CUT_LONG] = {"three groups cut by an octet", SHAPE, STAYS, 0},
    [CUT_PACKET] = {"cut by more", SHAPE, STAYS, 0},
    [WITHIN] = {"within a record", DONE, ANYWHERE, 0},
};

/* How long a packet to be written is: at a limit, beside one, or another. How much room its record has: none, one octet too little,
   what it needs, or more. */
enum { LIMITS = 11, LENGTHS = LIMITS + 1, NONE = 0, ONE_LESS, EXACT, ROOMS = 4 };

/* The lowest bit above all lengths that are carried. */
enum { BIT_ABOVE = 32768 };

/* What a read gives, by which refused records are counted; strengths, and modes. */
enum { GIVES_SHAPE, GIVES_SIZE, GIVES_END, GIVES_PACKET, READS, STRENGTHS = 3, MODES = 2 };

/* How often each came: reads by their kind; writes by length and room; steps of a replay with an ill-formed record by what the read
   gives; and of those with a packet, the numbers by mode and strength. */
static struct {
    unsigned long reads[KINDS], writes[LENGTHS][ROOMS], ill_formed[READS], packets[MODES][STRENGTHS][NUMBERS];
} came;

/* Both halves of the offset, the lower first. */
void set_offset(test *t, size_t offset)
{
    t->x = (unsigned)(offset & UINT32_MAX);
    t->y = (unsigned)(offset >> 32);
}

/* Put together. */
size_t offset_of(const test *t)
{
    return t->x + ((size_t)t->y << 32);
}

/* The length of a line's packet: one in four times a limit, also that of one group. */
static size_t make_short_length(void)
{
    static const size_t limits[] = {SHORTEST_PACKET, LONGEST_IN_ONE, LONGEST_IN_ONE + 1, LINE_PACKET};

    if (one_in(4))
        return limits[below(4)];
    return SHORTEST_PACKET + below((one_in(2) ? LONGEST_IN_ONE : LINE_PACKET) - SHORTEST_PACKET + 1);
}

/* Mostly a line's; a longer one is at a limit every other time, also that of two groups. */
size_t make_length(void)
{
    static const size_t limits[] = {LINE_PACKET + 1, LONGEST_IN_TWO, LONGEST_IN_TWO + 1, LONGEST_PACKET};

    if (!one_in(10))
        return make_short_length();
    return one_in(2) ? limits[below(4)] : LINE_PACKET + 1 + below(LONGEST_PACKET - LINE_PACKET);
}

/* One, two or three. */
size_t shortest(size_t length)
{
    return length <= LONGEST_IN_ONE ? 1 : length <= LONGEST_IN_TWO ? 2 : 3;
}

/* A length in turn, and with each the rooms in turn. The other ones are carried, or are but for a bit above. */
void make_written(octets *packet, octets *room)
{
    static const size_t limits[LIMITS] = {
        0, SHORTEST_PACKET - 1, SHORTEST_PACKET, LONGEST_IN_ONE, LONGEST_IN_ONE + 1, LINE_PACKET, LINE_PACKET + 1, LONGEST_IN_TWO,
        LONGEST_IN_TWO + 1, LONGEST_PACKET, LONGEST_PACKET + 1,
    };
    static unsigned long turn;
    size_t length = turn % LENGTHS, kind = turn / LENGTHS % ROOMS, n, need;

    turn++;
    n = length < LIMITS ? limits[length] : make_length() + (one_in(4) ? BIT_ABOVE : 0);
    need = shortest(n) + n;
    fill(packet, n);
    fill(room, kind == NONE ? 0 : kind == ONE_LESS ? need - 1 : kind == EXACT ? need : need + 1 + below(40));
    came.writes[length][kind]++;
}

/* Adds any octets. */
static void add_any(octets *tape, size_t n)
{
    static octets any;

    fill(&any, n);
    append(tape, part_of(&any));
}

/* Adds a number in as many groups as asked for. */
static void add_groups(octets *tape, size_t number, size_t count)
{
    for (; count > 0; count--, number /= 128) {
        octet group = (octet)(number % 128 + (count > 1 ? 128 : 0));

        append(tape, (part){&group, 1});
    }
}

/* Adds records of any packets of a line, so that there is room for a longer one beside them. */
static void add_records(octets *tape, size_t count)
{
    for (; count > 0; count--) {
        size_t n = make_short_length();

        add_groups(tape, n, shortest(n));
        add_any(tape, n);
    }
}

/* A tape that is begun, with some records or none. */
static void begin_tape(octets *tape, size_t records)
{
    tape->at[0] = 1;
    tape->n = 1;
    add_records(tape, records);
}

/* A length that is too long: one that the tape has octets for, or any that three groups can say. */
static size_t make_too_long(void)
{
    return LONGEST_PACKET + 2 + below((one_in(4) ? SAID_IN_THREE : MOST_BEHIND_GROUPS) - LONGEST_PACKET - 2);
}

/* A length that has one group, two or three. */
static size_t make_grouped(int groups)
{
    switch (groups) {
    case 1:
        return SHORTEST_PACKET + below(LONGEST_IN_ONE - SHORTEST_PACKET + 1);
    case 2:
        return LONGEST_IN_ONE + 1 + below((one_in(2) ? LINE_PACKET : LONGEST_IN_TWO) - LONGEST_IN_ONE);
    default:
        return LONGEST_IN_TWO + 1 + below(LONGEST_PACKET - LONGEST_IN_TWO);
    }
}

/* The length of the record that a kind has at its offset. */
static size_t kind_length(int kind)
{
    switch (kind) {
    case TOO_SHORT:
        return below(SHORTEST_PACKET);
    case TOO_LONG:
        return make_too_long();
    case TWO_FOR_ONE:
    case ONE_GROUP:
        return make_grouped(1);
    case TWO_GROUPS:
        return make_grouped(2);
    case THREE_FOR_FEWER:
        return make_grouped(one_in(2) ? 1 : 2);
    case THREE_GROUPS:
    case FOUR_FOR_THREE:
    case CUT_LONG:
        return make_grouped(3);
    case MORE_GROUPS:
    case FOURTH_GROUP:
    case CUT_BY_ONE:
    case CUT_PACKET:
        return one_in(2) ? make_length() : make_grouped(1 + (int)below(3));
    default:
        return kinds[kind].length > 0 ? kinds[kind].length : make_length();
    }
}

/* In how many groups it is written there: those behind the number's own are zeros. */
static size_t kind_groups(int kind, size_t length)
{
    switch (kind) {
    case TWO_FOR_ONE:
        return 2;
    case THREE_FOR_FEWER:
        return 3;
    case FOUR_FOR_THREE:
        return 4;
    case MORE_GROUPS:
        return 4 + (one_in(2) ? 0 : below(9));
    case CUT_GROUPS:
        return 2 + below(3);
    default:
        return shortest(length);
    }
}

/* How many octets are missing of it: with those of a packet of that length, its last group. */
static size_t kind_cut(int kind, size_t length)
{
    switch (kind) {
    case CUT_GROUPS:
        return length + 1;
    case CUT_BY_ONE:
    case CUT_LONG:
        return 1;
    case CUT_PACKET:
        return 2 + below(length - 1);
    default:
        return 0;
    }
}

/* Adds the record of a kind, whose length it gives. A fourth group, or one behind it, is another than 0 above a length that may be
   right. */
static size_t add_kind(octets *tape, int kind)
{
    size_t length = kind_length(kind), last = 3 + (one_in(2) ? 0 : below(6));

    if (kind == FOURTH_GROUP)
        add_groups(tape, length + ((1 + below(127)) << 7 * last), last + 1);
    else
        add_groups(tape, length, kind_groups(kind, length));
    add_any(tape, length < MOST_BEHIND_GROUPS ? length : MOST_BEHIND_GROUPS);
    tape->n -= kind_cut(kind, length);
    if (kind < CUT_GROUPS)
        add_records(tape, below(3));
    return length;
}

/* Damage to the whole of a tape, where the kind has it. */
static void damage_tape(octets *tape, int kind)
{
    static const octet others[] = {0x00, 0x02, 0x81, 0xFE};

    switch (kind) {
    case NO_OCTET:
        tape->n = 0;
        break;
    case END_OF_NONE:
        tape->n = 1;
        break;
    case OTHER_FIRST:
        tape->at[0] = others[below(4)];
        break;
    case NOISE:
        fill(tape, below(600));
        if (!one_in(4))
            tape->at[0] = 1;
    }
}

/* The offset of a kind, whose record is at a place. That of a tape without a good first octet may be any. */
static size_t kind_offset(const octets *tape, int kind, size_t place)
{
    const size_t any[] = {0, place, tape->n, tape->n + 1, SIZE_MAX};

    switch (kind) {
    case NO_OCTET:
    case OTHER_FIRST:
        return any[below(5)];
    case OFFSET_0:
        return 0;
    case PAST_BY_ONE:
        return tape->n + 1;
    case PAST_FAR:
        return one_in(3) ? tape->n + 2 + below(MOST) : place + ((size_t)1 << (16 + below(48)));
    case PAST_MOST:
        return SIZE_MAX;
    case AT_END:
    case END_OF_NONE:
        return tape->n;
    case NOISE:
        return below(tape->n + 2);
    case WITHIN:
        return place + 1 + below(tape->n - place - 1);
    default:
        return place;
    }
}

/* Whether a read at an offset, where a record of a length is, is what the paper names for a kind. */
static bool is_named(int kind, size_t offset, size_t length, tape_next next)
{
    size_t start = offset + shortest(length), stays = kinds[kind].goes == TO_0 ? 0 : offset;

    if (kinds[kind].goes == ANYWHERE)
        return true;
    if (kinds[kind].goes == BEHIND)
        return next.number == kinds[kind].number && next.start == start && next.offset == start + length;
    return next.number == kinds[kind].number && next.start == stays && next.offset == stays;
}

/* Some records, that of the kind, and the kind's damage. */
size_t make_tape(octets *tape)
{
    static unsigned long turn;
    int kind = (int)(turn++ % KINDS);
    size_t place, length, offset;

    begin_tape(tape, below(4));
    place = tape->n;
    length = add_kind(tape, kind);
    damage_tape(tape, kind);
    offset = kind_offset(tape, kind, place);
    if (!is_named(kind, offset, length, oracle_tape_read(part_of(tape), offset))) {
        printf("a tape read, %s: the oracle does not give what the paper names\n", kinds[kind].name);
        exit(1);
    }
    came.reads[kind]++;
    return offset;
}

/* None or some records on each side of it. */
size_t make_recorded(octets *tape, const octets *packet)
{
    size_t place;

    begin_tape(tape, below(4));
    place = tape->n;
    add_groups(tape, packet->n, shortest(packet->n));
    append(tape, part_of(packet));
    add_records(tape, below(3));
    return place;
}

/* A strength's place among the three. */
static int strength_of(octet bits)
{
    return bits == 40 ? 0 : bits == 56 ? 1 : 2;
}

/* What a read gives. */
static int gives(tape_next next)
{
    if (next.number != DONE)
        return next.number == SHAPE ? GIVES_SHAPE : GIVES_SIZE;
    return next.start == next.offset ? GIVES_END : GIVES_PACKET;
}

/* A refused record counts by what the read would give, and a packet by the record's mode and strength. */
void count_replayed(const test *t, int number)
{
    tape_next next = oracle_tape_read(in(t, 0), offset_of(t));
    const octet *record = t->lent[0].at;

    if (number == RECORD)
        came.ill_formed[gives(next)]++;
    else if (next.start < next.offset)
        came.packets[record[AT_MODE]][strength_of(record[0])][number]++;
}

/* Behind what it is. */
void print_came(const char *what, unsigned long often, bool had_to)
{
    printf("%s (%lu)", what, often);
    if (often == 0 && had_to) {
        printf(": never\n");
        exit(1);
    }
}

/* Prints what a packet's step answered in a mode and at a strength. */
static void print_packets(int mode, int strength)
{
    static const int numbers[] = {SHAPE, FLAGS, REPEAT, LATE, WAITING, ROOM, PROTOCOL, DONE};
    char number[8];

    printf("packets replayed, %s, %u bits: answered", mode == 1 ? "stateful" : "stateless", strength_bits((unsigned)strength));
    for (size_t k = 0; k < sizeof numbers / sizeof numbers[0]; k++) {
        snprintf(number, sizeof number, " %d", numbers[k]);
        if (mode == 1 || numbers[k] != WAITING)
            print_came(number, came.packets[mode][strength][numbers[k]], true);
    }
    printf("\n");
}

/* The writes as the rarest pair of a length and a room. */
void every_tape_came(unsigned long cases)
{
    static const char *const reads[READS] = {" a read that answers 1", ", 3", ", 0 at the end", ", a packet"};
    unsigned long rarest = came.writes[0][0];

    for (size_t k = 0; k < LENGTHS * ROOMS; k++)
        rarest = came.writes[k / ROOMS][k % ROOMS] < rarest ? came.writes[k / ROOMS][k % ROOMS] : rarest;
    print_came("packets written, each kind of length with each kind of room: the rarest", rarest, cases >= ENOUGH);
    printf("\ntapes read in cases: ");
    for (int k = 0; k < KINDS; k++) {
        printf("%s", k == 0 ? "" : ", ");
        print_came(kinds[k].name, came.reads[k], cases >= ENOUGH);
    }
    printf("\nill-formed records, 7 before");
    for (int k = 0; k < READS; k++)
        print_came(reads[k], came.ill_formed[k], true);
    printf("\n");
    for (int k = 0; k < MODES * STRENGTHS; k++)
        print_packets(k / STRENGTHS, k % STRENGTHS);
}
