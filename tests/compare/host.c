/* The large comparison of the calls that a C host makes: cases from a seed, answered by the oracle and by the library through
   include/udukemb.h; then whole runs of a link in each mode (runs.h), packets in any order (order.h), long ones (long_packets.h), tapes
   (tapes.h), marks beside them (marks.h) and a long tape (long_tape.h). Arguments: the seed, and how many cases for each call. */
#include "guard.h"
#include "host.h"
#include "links.h"
#include "long_packets.h"
#include "long_tape.h"
#include "mark_cases.h"
#include "marks.h"
#include "order.h"
#include "runs.h"
#include "tape_cases.h"
#include "tapes.h"
#include "udukemb.h"

#include <stdlib.h>
#include <string.h>

/* An input, and a lent buffer, as two arguments. */
#define IN(k) l->in[k], t->in[k].n
#define OUT(k) l->lent[k], t->lent[k].n

/* Writes a result's octets into the first lent buffer, where the number is 0 and there is room: "2" comes last. */
static void hand_over(answer *a, int number, const octet *at, size_t n)
{
    a->number = number == DONE && a->lent[0].n < n ? ROOM : number;
    if (a->number == DONE)
        memcpy(a->lent[0].at, at, n);
}

/* A check's answer: a length that is wrong, then the number of what is worked out, then yes or no. */
static void checked(answer *a, int number, part received, const octet *own, size_t n)
{
    a->number = received.n != n ? SIZE : number;
    *field(a, 1) = a->number == DONE && memcmp(own, received.at, n) == 0;
}

/* What was received: the right octets, damaged in one bit now and then, or of another length. */
static void make_received(octets *o, int number, const octet *own, size_t n)
{
    fill(o, about(n));
    if (number == DONE && o->n == n && !one_in(20))
        memcpy(o->at, own, n);
    if (o->n > 0 && one_in(4))
        o->at[below(o->n)] ^= (octet)(1 << below(8));
}

/* A login from the authenticator's side: authenticator challenge, peer challenge, name, password. */
static void make_login(test *t)
{
    fill(&t->in[0], about(CHALLENGE));
    fill(&t->in[1], about(CHALLENGE));
    make_name(&t->in[2]);
    make_password(&t->in[3]);
    make_room(&t->lent[0], NT_RESPONSE);
}

/* The NT-Response. */
static void expect_nt_response(const test *t, answer *a)
{
    octet out[NT_RESPONSE];

    hand_over(a, oracle_nt_response(in(t, 0), in(t, 1), in(t, 2), in(t, 3), out), out, sizeof out);
}

/* The same by the library. */
static void give_nt_response(const test *t, const loan *l, answer *a)
{
    a->number = udukemb_nt_response(IN(0), IN(1), IN(2), IN(3), OUT(0));
}

/* A login and what was received. */
static void make_check_response(test *t)
{
    octet own[NT_RESPONSE];
    int number;

    make_login(t);
    number = oracle_nt_response(in(t, 0), in(t, 1), in(t, 2), in(t, 3), own);
    make_received(&t->in[4], number, own, sizeof own);
}

/* Whether it is the NT-Response. */
static void expect_check_response(const test *t, answer *a)
{
    octet own[NT_RESPONSE];

    checked(a, oracle_nt_response(in(t, 0), in(t, 1), in(t, 2), in(t, 3), own), in(t, 4), own, sizeof own);
}

/* A check of the library as an answer. */
static void gave_check(answer *a, struct udukemb_check check)
{
    a->number = check.answer;
    *field(a, 1) = check.yes;
}

/* The same by the library. */
static void give_check_response(const test *t, const loan *l, answer *a)
{
    gave_check(a, udukemb_check_response(IN(0), IN(1), IN(2), IN(3), IN(4)));
}

/* The peer's side: password, NT-Response, peer challenge, authenticator challenge, name. */
static void make_proof(test *t)
{
    make_password(&t->in[0]);
    fill(&t->in[1], about(NT_RESPONSE));
    fill(&t->in[2], about(CHALLENGE));
    fill(&t->in[3], about(CHALLENGE));
    make_name(&t->in[4]);
    make_room(&t->lent[0], AUTHENTICATOR_STRING);
}

/* The authenticator string of a case. */
static int string_of(const test *t, octet out[AUTHENTICATOR_STRING])
{
    return oracle_authenticator_string(in(t, 0), in(t, 1), in(t, 2), in(t, 3), in(t, 4), out);
}

/* The authenticator string. */
static void expect_authenticator_string(const test *t, answer *a)
{
    octet out[AUTHENTICATOR_STRING];

    hand_over(a, string_of(t, out), out, sizeof out);
}

/* The same by the library. */
static void give_authenticator_string(const test *t, const loan *l, answer *a)
{
    a->number = udukemb_authenticator_string(IN(0), IN(1), IN(2), IN(3), IN(4), OUT(0));
}

/* A proof and what was received. */
static void make_check_authenticator(test *t)
{
    octet own[AUTHENTICATOR_STRING];
    int number;

    make_proof(t);
    number = string_of(t, own);
    make_received(&t->in[5], number, own, sizeof own);
}

/* Whether it is the string. */
static void expect_check_authenticator(const test *t, answer *a)
{
    octet own[AUTHENTICATOR_STRING];

    checked(a, string_of(t, own), in(t, 5), own, sizeof own);
}

/* The same by the library. */
static void give_check_authenticator(const test *t, const loan *l, answer *a)
{
    gave_check(a, udukemb_check_authenticator(IN(0), IN(1), IN(2), IN(3), IN(4), IN(5)));
}

/* Whether it is one. */
static bool is_strength(unsigned bits)
{
    return bits == 40 || bits == 56 || bits == 128;
}

/* Strength, role, direction, password, NT-Response and room. */
static void make_start_key(test *t)
{
    t->x = make_bits();
    t->y = (unsigned)below(2);
    t->z = (unsigned)below(2);
    make_password(&t->in[0]);
    fill(&t->in[1], about(NT_RESPONSE));
    make_room(&t->lent[0], key_length(t->x));
}

/* The start key by way of hash, hash-hash and master key: "8, 3, 2". */
static void expect_start_key(const test *t, answer *a)
{
    octet hash[HASH], twice[HASH], master[KEY_PLACES], out[KEY_PLACES];
    part p = {hash, HASH};
    int number = oracle_password_hash(in(t, 0), hash);

    oracle_hash_hash(p, twice);
    p.at = twice;
    if (number == DONE)
        number = oracle_master_key(p, in(t, 1), master);
    p.at = master;
    if (number == DONE)
        number = oracle_start_key(t->x, t->y == 1, t->z == 1, p, out);
    hand_over(a, is_strength(t->x) ? number : STRENGTH, out, key_length(t->x));
}

/* The same by the library. */
static void give_start_key(const test *t, const loan *l, answer *a)
{
    a->number = udukemb_start_key((uint8_t)t->x, t->y == 1, t->z == 1, IN(0), IN(1), OUT(0));
}

/* A role, a send and a receive start key, and room. */
static void make_base_key(test *t)
{
    t->y = (unsigned)below(2);
    fill(&t->in[0], about(KEY_PLACES));
    fill(&t->in[1], about(KEY_PLACES));
    make_room(&t->lent[0], BASE_KEY);
}

/* The base key. */
static void expect_base_key(const test *t, answer *a)
{
    octet out[BASE_KEY];

    hand_over(a, oracle_base_key(t->y == 1, in(t, 0), in(t, 1), out), out, sizeof out);
}

/* The same by the library. */
static void give_base_key(const test *t, const loan *l, answer *a)
{
    a->number = udukemb_base_key(t->y == 1, IN(0), IN(1), OUT(0));
}

/* Key material, mostly of about 32 octets, and room. */
static void make_binding_key(test *t)
{
    if (one_in(3))
        make_text(&t->in[0]);
    else
        fill(&t->in[0], about(BASE_KEY));
    make_room(&t->lent[0], BINDING_KEY);
}

/* The binding key. */
static void expect_binding_key(const test *t, answer *a)
{
    octet out[BINDING_KEY];

    hand_over(a, oracle_binding_key(in(t, 0), out), out, sizeof out);
}

/* The same by the library. */
static void give_binding_key(const test *t, const loan *l, answer *a)
{
    a->number = udukemb_binding_key(IN(0), OUT(0));
}

/* A request, a set of allowed strengths, whether stateful is allowed, and room. */
static void make_option_reply(test *t)
{
    make_option(&t->in[0]);
    t->x = (unsigned)below(8);
    t->y = (unsigned)below(2);
    make_room(&t->lent[0], OPTION);
}

/* A reply as an answer. */
static void replied(answer *a, int number, bool accept, octet bits, bool stateful)
{
    a->number = number;
    *field(a, 1) = accept;
    *field(a, 1) = bits;
    *field(a, 1) = stateful;
}

/* The reply. */
static void expect_option_reply(const test *t, answer *a)
{
    offer allowed = {.bits40 = t->x & 1, .bits56 = t->x >> 1 & 1, .bits128 = t->x >> 2 & 1};
    reply r = oracle_option_reply(in(t, 0), allowed, t->y == 1, lent(a, 0));

    replied(a, r.number, r.accept, r.bits, r.stateful);
}

/* The same by the library. */
static void give_option_reply(const test *t, const loan *l, answer *a)
{
    struct udukemb_reply r = udukemb_option_reply(IN(0), t->x & 1, t->x >> 1 & 1, t->x >> 2 & 1, t->y == 1, OUT(0));

    replied(a, r.answer, r.accept, r.bits, r.stateful);
}

/* A strength, a mode, a start key and room. */
static void make_new_link(test *t)
{
    t->x = make_bits();
    t->y = (unsigned)below(2);
    make_key(&t->in[0], t->x);
    make_room(&t->lent[0], RECORD_OCTETS);
}

/* The new link. */
static void expect_new_link(const test *t, answer *a)
{
    a->number = oracle_new_link((octet)t->x, t->y == 1, in(t, 0), lent(a, 0));
}

/* The same by the library. */
static void give_new_link(const test *t, const loan *l, answer *a)
{
    a->number = udukemb_new_link((uint8_t)t->x, t->y == 1, IN(0), OUT(0));
}

/* Seal: the record is the first lent buffer, the packet goes into the second. */
static void make_seal(test *t)
{
    make_record(&t->lent[0]);
    make_plain(&t->in[0]);
    make_room(&t->lent[1], FRONT + t->in[0].n);
}

/* The packet and the next record. */
static void expect_seal(const test *t, answer *a)
{
    a->number = oracle_seal(lent(a, 0), in(t, 0), lent(a, 1));
}

/* The same by the library. */
static void give_seal(const test *t, const loan *l, answer *a)
{
    a->number = udukemb_seal(OUT(0), IN(0), OUT(1));
}

/* Open: the record is the first lent buffer, the plain packet goes into the second. */
static void make_open(test *t)
{
    make_right_record(&t->lent[0]);
    make_arriving(&t->lent[0], &t->in[0]);
    if (one_in(8))
        damage_record(&t->lent[0]);
    make_room(&t->lent[1], t->in[0].n > FRONT ? t->in[0].n - FRONT : 0);
}

/* An opened packet as an answer. */
static void gave_opened(answer *a, int number, unsigned changes)
{
    a->number = number;
    *field(a, 1) = (octet)(changes / 256);
    *field(a, 1) = (octet)(changes % 256);
}

/* The plain packet, the changes and the next record. */
static void expect_open(const test *t, answer *a)
{
    opened o = oracle_open(lent(a, 0), in(t, 0), lent(a, 1));

    gave_opened(a, o.number, o.changes);
}

/* The same by the library. */
static void give_open(const test *t, const loan *l, answer *a)
{
    struct udukemb_opened o = udukemb_open(OUT(0), IN(0), OUT(1));

    gave_opened(a, o.answer, o.changes);
}

/* Begin: the walk is the first lent buffer, and the packet's front the input. The total and the room are numbers; now and then 2 to the
   power of 32 is added to one of them or both. */
static void make_walk_begin(test *t)
{
    static const unsigned others[] = {0, 1, SHORTEST_PLAIN, LONGEST_PLAIN, LONGEST_PLAIN + 1, 65535, 65536 + SHORTEST_PLAIN};
    static octets record, packet;

    make_right_record(&record);
    make_arriving(&record, &packet);
    make_walk(&t->lent[0], &record, &packet);
    if (one_in(4))
        damage_walked_record(&t->lent[0]);
    take(&t->in[0], part_of(&packet), about(FRONT));
    t->x = one_in(6) ? others[below(7)] : (unsigned)data_of(&packet, 0).n;
    t->y = one_in(20) ? 65536 : (unsigned)room_for(t->x);
    t->z = one_in(10) ? (unsigned)below(4) : 0;
    if (t->z > 1)
        t->y = (unsigned)below(t->x + 1);
}

/* The total of such a case. */
static size_t total_of(const test *t)
{
    return t->x + ((size_t)(t->z & 1) << 32);
}

/* Its room. */
static size_t room_of(const test *t)
{
    return t->y + ((size_t)(t->z >> 1) << 32);
}

/* The walk begun, or closed. */
static void expect_walk_begin(const test *t, answer *a)
{
    opened o = oracle_begin(lent(a, 0), in(t, 0), total_of(t), room_of(t));

    gave_opened(a, o.number, o.changes);
}

/* The same by the library. */
static void give_walk_begin(const test *t, const loan *l, answer *a)
{
    struct udukemb_opened o = udukemb_begin(OUT(0), IN(0), total_of(t), room_of(t));

    gave_opened(a, o.answer, o.changes);
}

/* Feed: the walk is the first lent buffer, a piece the input, and the plain packet goes into the second buffer. Now and then a piece goes
   beyond the total, or what is lent is longer than a number of two octets says. */
static void make_walk_feed(test *t)
{
    static octets left;
    size_t n;

    make_live_walk(&t->lent[0], &left);
    n = left.n;
    if (one_in(2))
        damage_walk(&t->lent[0]);
    fill(&t->in[0], one_in(12) ? n + 1 + below(3) : one_in(40) ? MOST - below(3) : make_cut(n));
    memcpy(t->in[0].at, left.at, t->in[0].n < n ? t->in[0].n : n);
    make_room(&t->lent[1], 256u * t->lent[0].at[AT_TOTAL] + t->lent[0].at[AT_TOTAL + 1]);
    if (one_in(20))
        fill(&t->lent[1], MOST);
}

/* The octets opened, and the walk. */
static void expect_walk_feed(const test *t, answer *a)
{
    a->number = oracle_feed(lent(a, 0), in(t, 0), lent(a, 1));
}

/* The same by the library. */
static void give_walk_feed(const test *t, const loan *l, answer *a)
{
    a->number = udukemb_feed(OUT(0), IN(0), OUT(1));
}

/* End: the walk is the first lent buffer, mostly fed to its total. */
static void make_walk_end(test *t)
{
    static octets left, out;

    make_live_walk(&t->lent[0], &left);
    fill(&out, LONGEST_PLAIN);
    if (!one_in(3))
        oracle_feed(whole(&t->lent[0]), part_of(&left), whole(&out));
    if (one_in(2))
        damage_walk(&t->lent[0]);
}

/* The next record, the walk and the changes. */
static void expect_walk_end(const test *t, answer *a)
{
    opened o = oracle_end(lent(a, 0));

    (void)t;
    gave_opened(a, o.number, o.changes);
}

/* The same by the library. */
static void give_walk_end(const test *t, const loan *l, answer *a)
{
    struct udukemb_opened o = udukemb_end(OUT(0));

    gave_opened(a, o.answer, o.changes);
}

/* A Reset-Request taken: the record is the first lent buffer. */
static void make_taken(test *t)
{
    make_record(&t->lent[0]);
    make_reset(&t->in[0]);
}

/* The next record. */
static void expect_taken(const test *t, answer *a)
{
    a->number = oracle_reset(lent(a, 0), in(t, 0));
}

/* The same by the library. */
static void give_taken(const test *t, const loan *l, answer *a)
{
    a->number = udukemb_reset(OUT(0), IN(0));
}

/* A Reset-Request written by the library. */
static void give_write_reset(const test *t, const loan *l, answer *a)
{
    a->number = udukemb_write_reset((uint8_t)t->x, OUT(0));
}

/* A tape begun: its first octet goes into the first lent buffer. */
static void make_tape_begin(test *t)
{
    make_room(&t->lent[0], 1);
}

/* The first octet. */
static void expect_tape_begin(const test *t, answer *a)
{
    (void)t;
    a->number = oracle_tape_begin(lent(a, 0));
}

/* The same by the library. */
static void give_tape_begin(const test *t, const loan *l, answer *a)
{
    a->number = udukemb_tape_begin(OUT(0));
}

/* Write: the packet is the input, and its record goes into the first lent buffer. */
static void make_tape_write(test *t)
{
    make_written(&t->in[0], &t->lent[0]);
}

/* What is written as an answer. */
static void gave_written(answer *a, int number, size_t length)
{
    a->number = number;
    size_field(a, length);
}

/* The record, and its length. */
static void expect_tape_write(const test *t, answer *a)
{
    tape_written w = oracle_tape_write(in(t, 0), lent(a, 0));

    gave_written(a, w.number, w.length);
}

/* The same by the library. */
static void give_tape_write(const test *t, const loan *l, answer *a)
{
    struct udukemb_written w = udukemb_tape_write(IN(0), OUT(0));

    gave_written(a, w.answer, w.length);
}

/* Read: the tape is the input. */
static void make_tape_read(test *t)
{
    set_offset(t, make_tape(&t->in[0]));
}

/* What is read as an answer: two numbers. */
static void gave_read(answer *a, int number, size_t first, size_t second)
{
    a->number = number;
    size_field(a, first);
    size_field(a, second);
}

/* Where the packet begins, and the offset after it. */
static void expect_tape_read(const test *t, answer *a)
{
    tape_next n = oracle_tape_read(in(t, 0), offset_of(t));

    gave_read(a, n.number, n.start, n.offset);
}

/* The same by the library. */
static void give_tape_read(const test *t, const loan *l, answer *a)
{
    struct udukemb_next n = udukemb_tape_read(IN(0), offset_of(t));

    gave_read(a, n.answer, n.start, n.offset);
}

/* A step of a replay: the tape is the input, the record the first lent buffer, and the plain packet goes into the second. The tape is
   any of those that are read, or has a packet for the record. */
static void make_tape_replay(test *t)
{
    static octets packet;
    tape_next next;

    make_right_record(&t->lent[0]);
    do
        make_arriving(&t->lent[0], &packet);
    while (packet.n < SHORTEST_PACKET || packet.n > LONGEST_PACKET);
    set_offset(t, one_in(2) ? make_tape(&t->in[0]) : make_recorded(&t->in[0], &packet));
    next = oracle_tape_read(in(t, 0), offset_of(t));
    make_room(&t->lent[1], next.start < next.offset ? next.offset - next.start - FRONT : below(40));
    if (one_in(8))
        damage_record(&t->lent[0]);
}

/* The plain packet, the changes, the next record and the offset. */
static void expect_tape_replay(const test *t, answer *a)
{
    tape_replayed r = oracle_tape_replay(lent(a, 0), in(t, 0), offset_of(t), lent(a, 1));

    gave_opened(a, r.number, r.changes);
    size_field(a, r.offset);
    count_replayed(t, r.number);
}

/* The same by the library. */
static void give_tape_replay(const test *t, const loan *l, answer *a)
{
    struct udukemb_replayed r = udukemb_tape_replay(OUT(0), IN(0), offset_of(t), OUT(1));

    gave_opened(a, r.answer, r.changes);
    size_field(a, r.offset);
}

/* The first two inputs of a call for a tape with marks: the record that it begins with, and the tape. Often one of them is faulty. */
static void make_inputs(test *t, marked *m)
{
    spoil_any(m);
    copy(&t->in[0], &m->start);
    copy(&t->in[1], &m->tape);
}

/* The list of a tape's marks goes into the first lent buffer. */
static void make_marks_write(test *t)
{
    static marked m;

    make_any_marked(&m);
    make_room(&t->lent[0], m.list.n);
    make_inputs(t, &m);
}

/* The list, and its length. */
static void expect_marks_write(const test *t, answer *a)
{
    tape_written w = oracle_marks_write(in(t, 0), in(t, 1), lent(a, 0));

    gave_written(a, w.number, w.length);
}

/* The same by the library. */
static void give_marks_write(const test *t, const loan *l, answer *a)
{
    struct udukemb_written w = udukemb_marks_write(IN(0), IN(1), OUT(0));

    gave_written(a, w.answer, w.length);
}

/* A mark read: it is the input, and its record goes into the first lent buffer. */
static void make_marks_read(test *t)
{
    make_mark(&t->in[0], &t->lent[0]);
}

/* How many were opened, the offset, and the record. */
static void expect_marks_read(const test *t, answer *a)
{
    tape_mark m = oracle_marks_read(in(t, 0), lent(a, 0));

    gave_read(a, m.number, m.opened, m.offset);
}

/* The same by the library. */
static void give_marks_read(const test *t, const loan *l, answer *a)
{
    struct udukemb_mark m = udukemb_marks_read(IN(0), OUT(0));

    gave_read(a, m.answer, m.opened, m.offset);
}

/* A check: the list is the third input. */
static void make_marks_check(test *t)
{
    static marked m;

    make_any_marked(&m);
    make_list(&m, &t->in[2]);
    make_inputs(t, &m);
}

/* A check of marks as an answer. */
static void gave_marks_check(answer *a, int number, bool yes, size_t agreeing)
{
    a->number = number;
    *field(a, 1) = yes;
    size_field(a, agreeing);
}

/* Whether it is the list, and how many of its marks are right. */
static void expect_marks_check(const test *t, answer *a)
{
    marks_checked c = oracle_marks_check(in(t, 0), in(t, 1), in(t, 2));

    gave_marks_check(a, c.number, c.yes, c.agreeing);
}

/* The same by the library. */
static void give_marks_check(const test *t, const loan *l, answer *a)
{
    struct udukemb_marks_checked c = udukemb_marks_check(IN(0), IN(1), IN(2));

    gave_marks_check(a, c.answer, c.yes, c.agreeing);
}

static const call calls[CALLS] = {
    {"udukemb_check_response", CHECK_RESPONSE, make_check_response, expect_check_response},
    {"udukemb_nt_response", RESPONSE, make_login, expect_nt_response},
    {"udukemb_authenticator_string", STRING, make_proof, expect_authenticator_string},
    {"udukemb_check_authenticator", CHECK_AUTHENTICATOR, make_check_authenticator, expect_check_authenticator},
    {"udukemb_start_key", START_KEY, make_start_key, expect_start_key},
    {"udukemb_base_key", MAKE_BASE_KEY, make_base_key, expect_base_key},
    {"udukemb_binding_key", MAKE_BINDING_KEY, make_binding_key, expect_binding_key},
    {"udukemb_option_reply", OPTION_REPLY, make_option_reply, expect_option_reply},
    {"udukemb_new_link", NEW_LINK, make_new_link, expect_new_link},
    {"udukemb_seal", SEAL, make_seal, expect_seal},
    {"udukemb_open", OPEN, make_open, expect_open},
    {"udukemb_begin", BEGIN, make_walk_begin, expect_walk_begin},
    {"udukemb_feed", FEED, make_walk_feed, expect_walk_feed},
    {"udukemb_end", END, make_walk_end, expect_walk_end},
    {"udukemb_reset", RESET, make_taken, expect_taken},
    {"udukemb_write_reset", WRITE_RESET, make_write_reset, expect_write_reset},
    {"udukemb_tape_begin", TAPE_BEGIN, make_tape_begin, expect_tape_begin},
    {"udukemb_tape_write", TAPE_WRITE, make_tape_write, expect_tape_write},
    {"udukemb_tape_read", TAPE_READ, make_tape_read, expect_tape_read},
    {"udukemb_tape_replay", TAPE_REPLAY, make_tape_replay, expect_tape_replay},
    {"udukemb_marks_write", MARKS_WRITE, make_marks_write, expect_marks_write},
    {"udukemb_marks_read", MARKS_READ, make_marks_read, expect_marks_read},
    {"udukemb_marks_check", MARKS_CHECK, make_marks_check, expect_marks_check},
};

const call seal_in_run = {"udukemb_seal in a run", SEAL, make_seal, expect_seal};
const call open_in_run = {"udukemb_open in a run", OPEN, make_open, expect_open};
const call begin_in_run = {"udukemb_begin in a run", BEGIN, make_walk_begin, expect_walk_begin};
const call feed_in_run = {"udukemb_feed in a run", FEED, make_walk_feed, expect_walk_feed};
const call end_in_run = {"udukemb_end in a run", END, make_walk_end, expect_walk_end};
const call reset_in_run = {"udukemb_reset in a run", RESET, make_taken, expect_taken};
const call write_reset_in_run = {"udukemb_write_reset in a run", WRITE_RESET, make_write_reset, expect_write_reset};
const call tape_begin_in_run = {"udukemb_tape_begin in a run", TAPE_BEGIN, make_tape_begin, expect_tape_begin};
const call tape_write_in_run = {"udukemb_tape_write in a run", TAPE_WRITE, make_tape_write, expect_tape_write};
const call tape_read_in_run = {"udukemb_tape_read in a run", TAPE_READ, make_tape_read, expect_tape_read};
const call tape_replay_in_run = {"udukemb_tape_replay in a run", TAPE_REPLAY, make_tape_replay, expect_tape_replay};
const call marks_write_in_run = {"udukemb_marks_write in a run", MARKS_WRITE, make_marks_write, expect_marks_write};
const call marks_read_in_run = {"udukemb_marks_read in a run", MARKS_READ, make_marks_read, expect_marks_read};
const call marks_check_in_run = {"udukemb_marks_check in a run", MARKS_CHECK, make_marks_check, expect_marks_check};

/* How often each call gave each number, in cases and in runs. */
static unsigned long came[CALLS][UINT8_MAX + 1];

/* The library's answer to a case whose parts are lent between guards. */
void give(const test *t, answer *a)
{
    static void (*const gives[])(const test *t, const loan *l, answer *a) = {
        [CHECK_RESPONSE] = give_check_response,
        [RESPONSE] = give_nt_response,
        [STRING] = give_authenticator_string,
        [CHECK_AUTHENTICATOR] = give_check_authenticator,
        [START_KEY] = give_start_key,
        [MAKE_BASE_KEY] = give_base_key,
        [MAKE_BINDING_KEY] = give_binding_key,
        [OPTION_REPLY] = give_option_reply,
        [NEW_LINK] = give_new_link,
        [SEAL] = give_seal,
        [OPEN] = give_open,
        [BEGIN] = give_walk_begin,
        [FEED] = give_walk_feed,
        [END] = give_walk_end,
        [RESET] = give_taken,
        [WRITE_RESET] = give_write_reset,
        [TAPE_BEGIN] = give_tape_begin,
        [TAPE_WRITE] = give_tape_write,
        [TAPE_READ] = give_tape_read,
        [TAPE_REPLAY] = give_tape_replay,
        [MARKS_WRITE] = give_marks_write,
        [MARKS_READ] = give_marks_read,
        [MARKS_CHECK] = give_marks_check,
    };
    loan l = lend_guarded(t);

    gives[t->call](t, &l, a);
    take_back(t, a);
    came[t->call][a->number]++;
}

/* Prints how often the calls for a packet in pieces, for a tape and for marks gave each number that they can give; ends the program where
   one never came. */
static void every_number_came(void)
{
    static const struct {
        const char *name;
        int call, numbers[NUMBERS];
    } can[] = {
        {"udukemb_begin", BEGIN, {RECORD, SHAPE, FLAGS, REPEAT, LATE, WAITING, ROOM, DONE}},
        {"udukemb_feed", FEED, {RECORD, ROOM, SIZE, PROTOCOL, DONE}},
        {"udukemb_end", END, {RECORD, SHAPE, DONE}},
        {"udukemb_tape_begin", TAPE_BEGIN, {ROOM, DONE}},
        {"udukemb_tape_write", TAPE_WRITE, {SHAPE, ROOM, DONE}},
        {"udukemb_tape_read", TAPE_READ, {SHAPE, SIZE, DONE}},
        {"udukemb_tape_replay", TAPE_REPLAY, {RECORD, SHAPE, SIZE, FLAGS, REPEAT, LATE, WAITING, ROOM, PROTOCOL, DONE}},
        {"udukemb_marks_write", MARKS_WRITE, {RECORD, SHAPE, ROOM, DONE}},
        {"udukemb_marks_read", MARKS_READ, {SIZE, RECORD, ROOM, DONE}},
        {"udukemb_marks_check", MARKS_CHECK, {RECORD, SHAPE, DONE}},
    };

    for (size_t k = 0; k < sizeof can / sizeof can[0]; k++) {
        const int *number = can[k].numbers;

        printf("%s, in cases and runs: answered", can[k].name);
        do {
            printf(" %d (%lu)", *number, came[can[k].call][*number]);
            if (came[can[k].call][*number] == 0) {
                printf(": never\n");
                exit(1);
            }
        } while (*number++ != DONE);
        printf("\n");
    }
}

/* Compares every call, then runs of a link in each mode, packets in any order, long ones, tapes, and marks beside them. */
int main(int count, char **words)
{
    unsigned long seed, cases, total;

    if (count != 3)
        return 2;
    read_arguments(count, words, &seed, &cases);
    guard();
    total = compare_calls(calls, CALLS, seed, cases);
    total += compare_runs(seed, cases, false);
    total += compare_runs(seed, cases, true);
    total += compare_order(seed);
    total += compare_long_packets(seed);
    total += compare_tapes(seed);
    total += compare_marks(seed);
    compare_long_tape(seed, cases);
    every_number_came();
    every_tape_came(cases);
    every_mark_came(cases);
    printf("%lu calls of the C host, all equal\n", total);
    return 0;
}
