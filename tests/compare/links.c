/* See links.h. */
#include "links.h"

#include <stdlib.h>
#include <string.h>

/* A number for a strength in bits, also one that is none. */
unsigned make_bits(void)
{
    return one_in(12) ? (unsigned)below(256) : strength_bits((unsigned)below(3));
}

/* Octets as a buffer. */
buffer whole(octets *o)
{
    buffer b = {o->at, o->n};

    return b;
}

/* Octets as an input. */
part part_of(const octets *o)
{
    part p = {o->at, o->n};

    return p;
}

/* Writes a number of two octets, the highest first. */
static void put_number(octet *at, size_t number)
{
    at[0] = (octet)(number / 256);
    at[1] = (octet)(number % 256);
}

/* Reads one. */
static unsigned number_at(const octet *at)
{
    return 256u * at[0] + at[1];
}

/* Sets a record's count. */
static void set_count(octets *record, size_t count)
{
    put_number(record->at + AT_COUNT, count);
}

/* A record's count. */
static unsigned count_of(const octets *record)
{
    return number_at(record->at + AT_COUNT);
}

/* Stateless, one with each packet; stateful, one with a count that ends in 0xFF. */
unsigned changes_with(const octet *record, unsigned count)
{
    return record[AT_MODE] == 0 || count % 256 == CHANGE;
}

/* The record of a new link at a strength, in a mode. */
void make_begin(octets *record, unsigned bits, bool stateful)
{
    static octets start;

    fill(&start, key_length(bits));
    fill(record, RECORD_OCTETS);
    oracle_new_link((octet)bits, stateful, part_of(&start), whole(record));
}

/* A last count: often beside the wrap, or beside a count that changes a stateful key. */
static size_t make_count(void)
{
    if (one_in(3))
        return (COUNTS - 3 + below(6)) % COUNTS;
    return one_in(2) ? (256 * below(16) + CHANGE - 3 + below(6)) % COUNTS : below(COUNTS);
}

/* Exchanges two cells of a box. */
static void exchange(octet *cells, size_t a, size_t b)
{
    octet cell = cells[a];

    cells[a] = cells[b];
    cells[b] = cell;
}

/* A stateful record's box and mark: keyed with the session key and drawn on, or in any order with any indices; waiting or not. */
static void make_box(octets *record)
{
    part key = {record->at + AT_SESSION, key_length(record->at[0])};
    octet state[RC4_STATE];

    oracle_rc4_keyed(key, state);
    for (size_t draws = one_in(4) ? 0 : below(LINE_PACKET); draws > 0; draws--)
        oracle_rc4_draw(state);
    memcpy(record->at + AT_CELLS, state, CELLS);
    memcpy(record->at + AT_INDICES, state + CELLS, 2);
    if (one_in(2)) {
        for (size_t k = CELLS; k > 1; k--)
            exchange(record->at + AT_CELLS, k - 1, below(k));
        record->at[AT_INDICES] = (octet)below(256);
        record->at[AT_INDICES + 1] = (octet)below(256);
    }
    record->at[AT_MARK] = one_in(3);
}

/* A record, well formed but hand-made: any session key that reduce leaves, any count, and in stateful mode any box and mark. */
void make_right_record(octets *record)
{
    octet session[KEY_PLACES];
    unsigned bits;

    make_begin(record, strength_bits((unsigned)below(3)), !one_in(3));
    bits = record->at[0];
    for (size_t k = 0; k < key_length(bits); k++)
        record->at[AT_SESSION + k] = (octet)below(256);
    part key = {record->at + AT_SESSION, key_length(bits)};
    oracle_reduce(bits, key, session);
    memcpy(record->at + AT_SESSION, session, KEY_PLACES);
    set_count(record, make_count());
    if (record->at[AT_MODE] == 1)
        make_box(record);
}

/* The record that both ends of a link begin with: a new link's, or one made by hand. */
void make_start(octets *record, unsigned bits, bool stateful)
{
    make_begin(record, bits, stateful);
    if (one_in(2))
        do
            make_right_record(record);
        while (record->at[0] != bits || record->at[AT_MODE] != stateful);
}

/* That of its front, one beside its own, none, or any. */
size_t make_other_length(void)
{
    static const size_t others[] = {0, AT_MODE, RECORD_OCTETS - 1, RECORD_OCTETS + 1};

    return one_in(3) ? below(RECORD_OCTETS) : others[below(4)];
}

/* One damage to a record's front, or all of it new: strength, places behind a key, the session key's front, count, or length. */
static void damage_front(octets *record)
{
    switch (below(6)) {
    case 0:
        record->at[0] = (octet)make_bits();
        break;
    case 1:
        record->at[AT_START + (one_in(2) ? 8 : 24) + below(8)] = (octet)below(3);
        break;
    case 2:
        record->at[AT_SESSION + below(3)] ^= (octet)(1 << below(8));
        break;
    case 3:
        set_count(record, one_in(2) ? COUNTS - 1 + below(3) : below(65536));
        break;
    case 4:
        record->n = make_other_length();
        break;
    default:
        fill(record, RECORD_OCTETS);
        record->at[0] = (octet)strength_bits((unsigned)below(3));
        record->at[AT_MODE] = (octet)below(2);
        record->at[AT_MARK] = (octet)below(2);
    }
}

/* One damage to RC4's state, both indices and the cells behind them: an index; a cell that is there twice; two exchanged. */
static void damage_state(octet *state)
{
    octet *cells = state + 2;
    size_t a = below(CELLS), b = below(CELLS);

    switch (below(3)) {
    case 0:
        state[below(2)] = (octet)below(256);
        break;
    case 1:
        cells[a] = cells[b];
        break;
    default:
        exchange(cells, a, b);
    }
}

/* One damage to what stands behind a record's front: mode or mark the other one, or neither; or RC4's state. */
static void damage_rest(octets *record)
{
    octet *choice = record->at + (one_in(2) ? AT_MODE : AT_MARK);

    switch (below(5)) {
    case 0:
        *choice ^= 1;
        break;
    case 1:
        *choice = (octet)(one_in(2) ? 2 : below(256));
        break;
    default:
        damage_state(record->at + AT_INDICES);
    }
}

/* One damage to a record. */
void damage_record(octets *record)
{
    if (one_in(2))
        damage_front(record);
    else
        damage_rest(record);
}

/* A record, damaged now and then. */
void make_record(octets *record)
{
    make_right_record(record);
    if (one_in(6))
        damage_record(record);
}

/* Its protocol number is mostly one that is carried, often at the limits. */
void make_plain_of(octets *plain, size_t n)
{
    static const octet edges[] = {0x20, 0x21, 0xFA, 0xFB};

    fill(plain, n);
    if (plain->n < SHORTEST_PLAIN)
        return;
    plain->at[0] = one_in(20) ? (octet)below(3) : 0;
    plain->at[1] = one_in(6) ? edges[below(4)] : one_in(20) ? (octet)below(256) : (octet)(0x21 + below(0xDA));
}

/* The length of a plain packet on a line, often at a limit; in the place of one more than a line has, one more than is carried. */
static size_t make_line_length(void)
{
    size_t n = one_in(50) ? 0 : within(SHORTEST_PLAIN, LINE_PLAIN);

    return n > LINE_PLAIN ? LONGEST_PLAIN + 1 : n;
}

/* The length of a long one: at a limit, also that of two groups for its sealed packet on a tape; one more; or any. */
static size_t make_long_length(void)
{
    static const size_t limits[] = {
        LINE_PLAIN, LINE_PLAIN + 1, LONGEST_IN_TWO - FRONT, LONGEST_IN_TWO - FRONT + 1, LONGEST_PLAIN, LONGEST_PLAIN + 1,
    };

    return one_in(2) ? limits[below(6)] : LINE_PLAIN + 1 + below(LONGEST_PLAIN - LINE_PLAIN);
}

/* Of such a length. */
void make_line_plain(octets *plain)
{
    make_plain_of(plain, make_line_length());
}

/* Mostly as on a line. */
void make_plain(octets *plain)
{
    make_plain_of(plain, one_in(8) ? make_long_length() : make_line_length());
}

/* The packet that a record's sender seals a distance after it. A stateful sender is in step with the record where that is the next one, and
   has its own mark; how it drew for packets before this one has no part in what an open answers. */
static void make_sealed(const octets *record, unsigned distance, octets *packet)
{
    static octets sender, plain;
    size_t n = key_length(record->at[0]);
    part start = {record->at + AT_START, n}, session = {record->at + AT_SESSION, n};
    octet key[KEY_PLACES];
    unsigned changes = 0;

    for (unsigned k = 1; k < distance; k++)
        changes += changes_with(record->at, count_of(record) + k);
    copy(&sender, record);
    oracle_key_changes(record->at[0], start, session, changes, key);
    memcpy(sender.at + AT_SESSION, key, KEY_PLACES);
    set_count(&sender, (count_of(record) + distance - 1) % COUNTS);
    sender.at[AT_MARK] = record->at[AT_MODE] == 1 && one_in(3);
    make_plain(&plain);
    fill(packet, FRONT + plain.n);
    oracle_seal(whole(&sender), part_of(&plain), whole(packet));
}

/* One damage to a packet: its first octets, its flags, its count, an octet of its data, its protocol number, or its length; or noise. */
void damage_arriving(const octets *record, octets *packet)
{
    switch (below(9)) {
    case 0:
        packet->at[below(2)] ^= (octet)(1 << below(8));
        break;
    case 1:
        packet->at[2] ^= (octet)(one_in(5) ? 0x90 : 0x10 << below(4));
        break;
    case 2:
        packet->at[2] = (octet)((packet->at[2] & 0xF0) | (count_of(record) / 256 % 16));
        packet->at[3] = (octet)count_of(record);
        break;
    case 3:
        packet->at[below(packet->n)] ^= (octet)(1 << below(8));
        break;
    case 4:
        packet->at[FRONT + below(2)] ^= (octet)(1 << below(8));
        break;
    case 5:
        packet->n = below(9);
        break;
    case 6:
        fill(packet, below((one_in(8) ? LONGEST_PACKET : LINE_PACKET) + 99));
        break;
    case 7:
        packet->at[2] ^= BIT_A;
        break;
    default:
        fill(packet, one_in(2) ? LONGEST_PACKET + below(3) : below(40));
        memcpy(packet->at, "\x00\xFD\x90\x00", FRONT);
    }
}

/* A distance: mostly that of the next packet or of one of the next few; now and then any, or one at the limits of what is opened. */
static unsigned make_distance(void)
{
    static const unsigned limits[] = {FARTHEST - 1, FARTHEST, FARTHEST + 1, COUNTS - 1};

    if (one_in(60))
        return limits[below(4)];
    return 1 + (unsigned)(one_in(60) ? below(COUNTS - 1) : one_in(3) ? below(20) : 0);
}

/* A packet for a record, damaged in none, one or several ways; a stateful one often with the other bit A. */
void make_arriving(const octets *record, octets *packet)
{
    make_sealed(record, make_distance(), packet);
    if (record->at[AT_MODE] == 1 && one_in(8))
        packet->at[2] ^= BIT_A;
    for (bool more = one_in(2); more && packet->n > FRONT + 2; more = one_in(3))
        damage_arriving(record, packet);
}

/* None, one or two of n octets, all or all but one of them, or any. */
size_t make_cut(size_t n)
{
    size_t cut = one_in(2) ? below(3) : one_in(2) && n > 0 ? n - below(2) : below(n + 1);

    return cut < n ? cut : n;
}

/* The octets in front of a packet's data; fewer where it has no data. */
part front_of(const octets *packet)
{
    part p = {packet->at, packet->n < FRONT ? packet->n : FRONT};

    return p;
}

/* A packet's data, from an octet of them on. */
part data_of(const octets *packet, size_t from)
{
    size_t n = front_of(packet).n + from;
    part p = {packet->at + n, packet->n - n};

    return p;
}

/* Octets of a part, up to n. */
void take(octets *to, part from, size_t n)
{
    to->n = n < from.n ? n : from.n;
    memcpy(to->at, from.at, to->n);
}

/* A list has room for MOST. */
void append(octets *to, part p)
{
    if (p.n > MOST - to->n) {
        printf("no room for %zu octets behind %zu\n", p.n, to->n);
        exit(1);
    }
    memcpy(to->at + to->n, p.at, p.n);
    to->n += p.n;
}

/* A walk begun with a packet. */
static int begin_walk(octets *walk, const octets *packet)
{
    size_t total = data_of(packet, 0).n;

    return oracle_begin(whole(walk), front_of(packet), total, total).number;
}

/* A record with any octets behind it, or with those of a walk begun with a packet before. */
void make_walk(octets *walk, const octets *record, const octets *packet)
{
    fill(walk, WALK_OCTETS);
    memcpy(walk->at, record->at, RECORD_OCTETS);
    if (one_in(3))
        begin_walk(walk, packet);
}

/* A walk that is begun and fed some of a packet's data, often with another protocol number, and what is left of these. Now and then it is
   closed. */
void make_live_walk(octets *walk, octets *left)
{
    static octets record, packet, piece, out;
    size_t total;

    do {
        make_right_record(&record);
        make_arriving(&record, &packet);
        make_walk(walk, &record, &packet);
    } while (begin_walk(walk, &packet) != DONE && !one_in(20));
    if (one_in(4))
        packet.at[FRONT + below(2)] ^= (octet)(1 << below(8));
    total = data_of(&packet, 0).n;
    take(&piece, data_of(&packet, 0), make_cut(total));
    fill(&out, total);
    oracle_feed(whole(walk), part_of(&piece), whole(&out));
    take(left, data_of(&packet, piece.n), total);
}

/* One damage to the record in front of a walk, or to the walk's length. */
void damage_walked_record(octets *walk)
{
    static const size_t others[] = {RECORD_OCTETS, WALK_OCTETS - 1, WALK_OCTETS + 1, MOST};
    static octets record;

    take(&record, part_of(walk), RECORD_OCTETS);
    damage_record(&record);
    memcpy(walk->at, record.at, RECORD_OCTETS);
    if (record.n != RECORD_OCTETS)
        walk->n = one_in(2) ? record.n : others[below(4)];
}

/* One damage to a walk's header: a flag, its count that of the record, or any. */
static void damage_header(octets *walk)
{
    octet *header = walk->at + AT_HEADER;

    switch (below(4)) {
    case 0:
        header[0] ^= (octet)(0x10 << below(4));
        break;
    case 1:
        put_number(header, (header[0] & 0xF0) * 256u + count_of(walk) % COUNTS);
        break;
    default:
        put_number(header, (header[0] & 0xF0) * 256u + below(COUNTS));
    }
}

/* A number beside another one, beside a limit, or any. */
static size_t make_beside(size_t number)
{
    static const size_t limits[] = {0, SHORTEST_PLAIN - 1, SHORTEST_PLAIN, LONGEST_PLAIN, LONGEST_PLAIN + 1, 65535};

    return one_in(2) ? (number + 65535 + below(3)) % 65536 : one_in(8) ? below(65536) : limits[below(6)];
}

/* One damage to a walk: to its record, or to a field behind that. */
void damage_walk(octets *walk)
{
    octet *next = walk->at + AT_NEXT, *total = walk->at + AT_TOTAL, *fed = walk->at + AT_FED;

    switch (below(9)) {
    case 0:
        walk->at[AT_LIVE] = (octet)(one_in(4) ? below(256) : below(3));
        break;
    case 1:
        damage_header(walk);
        break;
    case 2:
        next[below(3)] ^= (octet)(1 << below(8));
        break;
    case 3:
        next[8 + below(8)] = (octet)below(3);
        break;
    case 4:
        damage_state(walk->at + AT_DRAWN);
        break;
    case 5:
        put_number(total, make_beside(number_at(fed)));
        break;
    case 6:
        put_number(fed, make_beside(number_at(total)));
        break;
    case 7:
        walk->at[AT_FIRST] = (octet)below(256);
        break;
    default:
        damage_walked_record(walk);
    }
}

/* An identifier and room. */
void make_write_reset(test *t)
{
    t->x = (unsigned)below(256);
    make_room(&t->lent[0], RESET_REQUEST);
}

/* The Reset-Request. */
void expect_write_reset(const test *t, answer *a)
{
    a->number = oracle_write_reset((octet)t->x, lent(a, 0));
}
