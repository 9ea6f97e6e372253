/* The large comparison of the calls that the C host does not export, and of the link's own: cases from a seed, answered by the oracle and,
   through pipes, by the program crates/cases. Arguments: that program, the seed, and how many cases for each call. */
#include "links.h"
#include "tape_cases.h"

#include <signal.h>
#include <stdlib.h>
#include <string.h>
#include <sys/wait.h>
#include <unistd.h>

/* The calls' numbers in crates/cases. */
enum {
    MD4, SHA1, SHA256, HMAC_SHA256, DES, RC4_KEYED, RC4_RUN, RC4_DRAW, RC4_APPLY, RC4_TESTS, RC4_WITHIN,
    PASSWORD_HASH = 16, HASH_HASH, HASH_CHALLENGE, CHALLENGE_RESPONSE,
    READ_CHALLENGE = 32, READ_RESPONSE, NAME, WRITE_CHALLENGE, WRITE_RESPONSE, READ_OPTION, WRITE_OPTION, ONLY,
    READ_RESET, WRITE_RESET, TAPE_PACKET,
    MASTER_KEY = 48, START_KEY, NEW_KEY, INITIAL_SESSION_KEY, REDUCE, KEY_CHANGE, KEY_CHANGES, MAKE_BASE_KEY,
    PLACED_KEY_CHANGES, KEY_LENGTH, PLACED_CIPHER,
    NEW_LINK = 64, SEAL, OPEN, RESET, READ_RECORD
};

enum { CASE_INPUTS = 3, CASE_HEAD = 19, ANSWER_HEAD = 6, MANY_CHANGES = 5000, MOST_NUMBER = 65535 };

/* The pipes to the program and from it. */
static int to_program, from_program;

/* Ends the comparison where the program cannot be run or stops. */
static void stop(const char *what)
{
    printf("the program of cases: %s\n", what);
    exit(1);
}

/* Starts the program. */
static void start(const char *path)
{
    int down[2], up[2];

    signal(SIGPIPE, SIG_IGN);
    if (pipe(down) != 0 || pipe(up) != 0)
        stop("no pipes");
    switch (fork()) {
    case -1:
        stop("not started");
        break;
    case 0:
        dup2(down[0], STDIN_FILENO);
        dup2(up[1], STDOUT_FILENO);
        close(down[1]);
        close(up[0]);
        execl(path, path, (char *)NULL);
        _exit(127);
    }
    close(down[0]);
    close(up[1]);
    to_program = down[1];
    from_program = up[0];
}

/* Ends its input: it must end too, and have said nothing more. */
static void finish(void)
{
    octet more;
    int status;

    close(to_program);
    if (read(from_program, &more, 1) != 0 || wait(&status) < 0 || status != 0)
        stop("it does not end as it should");
}

/* Writes octets to the program. */
static void put(const octet *at, size_t n)
{
    while (n > 0) {
        ssize_t done = write(to_program, at, n);

        if (done <= 0)
            stop("it takes no more");
        at += done;
        n -= (size_t)done;
    }
}

/* Reads octets from it. */
static void get(octet *at, size_t n)
{
    while (n > 0) {
        ssize_t done = read(from_program, at, n);

        if (done <= 0)
            stop("it gives no more");
        at += done;
        n -= (size_t)done;
    }
}

/* A number into n octets, highest first. */
static octet *put_number(octet *at, size_t value, int n)
{
    for (int k = n; k > 0; k--, value >>= 8)
        at[k - 1] = (octet)value;
    return at + n;
}

/* A number from n octets. */
static size_t get_number(const octet *at, int n)
{
    size_t value = 0;

    for (int k = 0; k < n; k++)
        value = value << 8 | at[k];
    return value;
}

/* Reads octets of a length into a list. */
static void get_octets(octets *o, size_t n)
{
    if (n > MOST)
        stop("an answer too long");
    o->n = n;
    get(o->at, n);
}

/* Hands a case to the program and takes its answer. */
void give(const test *t, answer *a)
{
    octet head[CASE_HEAD] = {(octet)t->call}, *at = head + 1;
    octet told[ANSWER_HEAD];

    at = put_number(at, t->x, 2);
    at = put_number(at, t->y, 2);
    at = put_number(at, t->z, 2);
    for (int k = 0; k < CASE_INPUTS; k++)
        at = put_number(at, t->in[k].n, 3);
    put_number(at, t->lent[0].n, 3);
    put(head, CASE_HEAD);
    for (int k = 0; k < CASE_INPUTS; k++)
        put(t->in[k].at, t->in[k].n);
    put(t->lent[0].at, t->lent[0].n);
    get(told, ANSWER_HEAD);
    a->number = told[5];
    get_octets(&a->fields, get_number(told, 2));
    get_octets(&a->lent[0], get_number(told + 2, 3));
}

/* A text. */
static void make_one_text(test *t)
{
    make_text(&t->in[0]);
}

/* A key and a text. */
static void make_hmac(test *t)
{
    make_text(&t->in[0]);
    make_text(&t->in[1]);
}

/* MD4. */
static void expect_md4(const test *t, answer *a)
{
    a->number = oracle_md4(in(t, 0), field(a, 16));
}

/* SHA-1. */
static void expect_sha1(const test *t, answer *a)
{
    a->number = oracle_sha1(in(t, 0), field(a, 20));
}

/* SHA-256. */
static void expect_sha256(const test *t, answer *a)
{
    a->number = oracle_sha256(in(t, 0), field(a, 32));
}

/* HMAC. */
static void expect_hmac(const test *t, answer *a)
{
    a->number = oracle_hmac(in(t, 0), in(t, 1), field(a, 32));
}

/* A DES key and a block. */
static void make_des(test *t)
{
    fill(&t->in[0], about(DES_KEY));
    fill(&t->in[1], about(DES_BLOCK));
}

/* DES. */
static void expect_des(const test *t, answer *a)
{
    a->number = oracle_des(in(t, 0), in(t, 1), field(a, DES_BLOCK));
}

/* An RC4 key. */
static void make_keyed(test *t)
{
    fill(&t->in[0], within(1, LONGEST_RC4_KEY));
}

/* Its state. */
static void expect_keyed(const test *t, answer *a)
{
    a->number = oracle_rc4_keyed(in(t, 0), field(a, RC4_STATE));
}

/* A box: of a key, or of any octets; and two indices. */
static void make_state(test *t)
{
    octet state[RC4_STATE];

    fill(&t->in[0], 256);
    if (!one_in(3)) {
        oracle_rc4_keyed(in(t, 0), state);
        memcpy(t->in[0].at, state, 256);
    }
    t->x = one_in(2) ? 0 : (unsigned)below(256);
    t->y = one_in(2) ? 0 : (unsigned)below(256);
}

/* A state, a text and room for the result. */
static void make_run(test *t)
{
    make_state(t);
    make_text(&t->in[1]);
    make_room(&t->lent[0], t->in[1].n);
}

/* A case's state. */
static octet *put_state(const test *t, octet state[RC4_STATE])
{
    memcpy(state, t->in[0].at, 256);
    state[256] = (octet)t->x;
    state[257] = (octet)t->y;
    return state;
}

/* The state after the run, and the buffer. */
static void expect_run(const test *t, answer *a)
{
    a->number = oracle_rc4_run(put_state(t, field(a, RC4_STATE)), in(t, 1), lent(a, 0));
}

/* The state after the draw; the octet comes in the lent buffer's place. */
static void expect_draw(const test *t, answer *a)
{
    a->lent[0].n = 1;
    a->lent[0].at[0] = oracle_rc4_draw(put_state(t, field(a, RC4_STATE)));
}

/* A key, a text and room for the result. */
static void make_apply(test *t)
{
    make_keyed(t);
    make_text(&t->in[1]);
    make_room(&t->lent[0], t->in[1].n);
}

/* The buffer. */
static void expect_apply(const test *t, answer *a)
{
    octet state[RC4_STATE];

    a->number = oracle_rc4_keyed(in(t, 0), state);
    if (a->number == DONE)
        a->number = oracle_rc4_run(state, in(t, 1), lent(a, 0));
}

/* The state without a key: "0 to 255 in order, indices 0". */
static void put_unkeyed(octet state[RC4_STATE])
{
    memset(state, 0, RC4_STATE);
    for (unsigned k = 0; k < CELLS; k++)
        state[k] = (octet)k;
}

/* A state: as for a run, or that one, now and then with an index; often with a cell that is there twice. */
static void make_tested(test *t)
{
    octet state[RC4_STATE];
    size_t a = below(CELLS), b = below(CELLS);

    make_state(t);
    if (one_in(2)) {
        put_unkeyed(state);
        memcpy(t->in[0].at, state, CELLS);
        t->x = one_in(8);
        t->y = one_in(8);
    }
    if (one_in(2))
        t->in[0].at[a] = t->in[0].at[b];
}

/* Whether it is the state without a key, and whether its box is a permutation. */
static void expect_tested(const test *t, answer *a)
{
    octet unkeyed[RC4_STATE], state[RC4_STATE];

    put_unkeyed(unkeyed);
    put_state(t, state);
    *field(a, 1) = memcmp(state, unkeyed, RC4_STATE) == 0;
    *field(a, 1) = (octet)oracle_rc4_permutation(state);
}

/* A number, the one before it or the one behind it. */
static unsigned near(unsigned number)
{
    return (number + (unsigned)below(3) + 65535) % 65536;
}

/* A whole state, a text, a key to be keyed afresh with, and bounds about the number that comes out; room for the result. */
static void make_within(test *t)
{
    octet state[RC4_STATE];
    unsigned number = 0;

    make_run(t);
    put_state(t, state);
    fill(&t->in[0], RC4_STATE);
    memcpy(t->in[0].at, state, RC4_STATE);
    fill(&t->in[2], within(1, LONGEST_RC4_KEY));
    t->z = one_in(2);
    if (t->z)
        oracle_rc4_keyed(in(t, 2), state);
    for (size_t k = 0; k < 2 && k < t->in[1].n; k++)
        number = 256 * number + (t->in[1].at[k] ^ oracle_rc4_draw(state));
    t->x = near(number);
    t->y = near(number);
}

/* The state after it, and the buffer. */
static void expect_within(const test *t, answer *a)
{
    octet *state = field(a, RC4_STATE);

    memcpy(state, t->in[0].at, RC4_STATE);
    a->number = oracle_rc4_within(state, t->z, in(t, 2), t->x, t->y, in(t, 1), lent(a, 0));
}

/* A password. */
static void make_one_password(test *t)
{
    make_password(&t->in[0]);
}

/* Its hash. */
static void expect_password_hash(const test *t, answer *a)
{
    a->number = oracle_password_hash(in(t, 0), field(a, HASH));
}

/* A hash. */
static void make_hash(test *t)
{
    fill(&t->in[0], about(HASH));
}

/* Its hash. */
static void expect_hash_hash(const test *t, answer *a)
{
    a->number = oracle_hash_hash(in(t, 0), field(a, HASH));
}

/* Peer challenge, authenticator challenge and name. */
static void make_challenge_hash(test *t)
{
    fill(&t->in[0], about(CHALLENGE));
    fill(&t->in[1], about(CHALLENGE));
    make_name(&t->in[2]);
}

/* Their hash. */
static void expect_challenge_hash(const test *t, answer *a)
{
    a->number = oracle_challenge_hash(in(t, 0), in(t, 1), in(t, 2), field(a, CHALLENGE_HASH));
}

/* A challenge hash and a password hash. */
static void make_challenge_response(test *t)
{
    fill(&t->in[0], about(CHALLENGE_HASH));
    fill(&t->in[1], about(HASH));
}

/* The response. */
static void expect_challenge_response(const test *t, answer *a)
{
    a->number = oracle_challenge_response(in(t, 0), in(t, 1), field(a, NT_RESPONSE));
}

/* The least length of a packet of a kind: 0 is a Challenge, 1 a Response. */
static size_t least_length(unsigned kind)
{
    return kind == 0 ? LEAST_CHALLENGE : LEAST_RESPONSE;
}

/* A right packet with a name and padding behind it, into the first input. */
static void make_right_packet(unsigned kind, octets *o)
{
    size_t named = least_length(kind) + (one_in(6) ? LONGEST_NAME + below(400) : within(0, LONGEST_NAME));

    fill(o, one_in(20) ? within(named, MOST - 1) : named + (one_in(3) ? below(50) : 0));
    o->at[0] = (octet)(kind + 1);
    put_number(o->at + 2, named, 2);
    o->at[4] = (octet)(least_length(kind) - 5);
    if (kind == 1) {
        memset(o->at + 21, 0, 8);
        o->at[53] = 0;
    }
}

/* One damage to a packet: a field of its header, its length, a reserved octet, any octet, or its end cut off. */
static void damage_packet(unsigned kind, octets *o)
{
    switch (below(6)) {
    case 0:
        o->at[one_in(2) ? 0 : 4] = (octet)below(60);
        break;
    case 1:
        put_number(o->at + 2, o->n + below(4) - 2, 2);
        break;
    case 2:
        put_number(o->at + 2, one_in(2) ? below(65536) : least_length(kind) + below(4) - 2, 2);
        break;
    case 3:
        o->at[one_in(2) ? 53 : 21 + below(8)] = (octet)below(256);
        break;
    case 4:
        o->at[below(o->n)] ^= (octet)(1 << below(8));
        break;
    default:
        o->n = one_in(2) ? below(o->n) : least_length(kind) - below(3);
    }
}

/* A packet of a kind, damaged in none, one or several ways. */
static void make_packet(unsigned kind, octets *o)
{
    make_right_packet(kind, o);
    for (bool more = one_in(2); more && o->n > 60; more = one_in(3))
        damage_packet(kind, o);
    if (one_in(30))
        fill(o, below(100));
}

/* A Challenge, or now and then a Response in its place. */
static void make_challenge(test *t)
{
    make_packet(one_in(20), &t->in[0]);
}

/* A Response, or now and then a Challenge in its place. */
static void make_response(test *t)
{
    make_packet(!one_in(20), &t->in[0]);
}

/* A packet of a kind, or now and then of the other. */
static void make_named(test *t)
{
    t->x = (unsigned)below(2);
    make_packet(one_in(20) ? 1 - t->x : t->x, &t->in[0]);
}

/* Identifier and value. */
static void expect_read_challenge(const test *t, answer *a)
{
    octet *identifier = field(a, 1), *value = field(a, CHALLENGE);

    a->number = oracle_read_challenge(in(t, 0), identifier, value);
}

/* Identifier, peer challenge and NT-Response. */
static void expect_read_response(const test *t, answer *a)
{
    octet *identifier = field(a, 1), *peer = field(a, CHALLENGE), *response = field(a, NT_RESPONSE);

    a->number = oracle_read_response(in(t, 0), identifier, peer, response);
}

/* The name. */
static void expect_name(const test *t, answer *a)
{
    part name = oracle_name(t->x == 0 ? 1 : 2, in(t, 0));

    memcpy(field(a, name.n), name.at, name.n);
}

/* Identifier, challenge, name and room. */
static void make_write_challenge(test *t)
{
    t->x = (unsigned)below(256);
    fill(&t->in[0], about(CHALLENGE));
    make_name(&t->in[1]);
    make_room(&t->lent[0], LEAST_CHALLENGE + t->in[1].n);
}

/* The Challenge. */
static void expect_write_challenge(const test *t, answer *a)
{
    a->number = oracle_write_challenge((octet)t->x, in(t, 0), in(t, 1), lent(a, 0));
}

/* Identifier, peer challenge, NT-Response, name and room. */
static void make_write_response(test *t)
{
    t->x = (unsigned)below(256);
    fill(&t->in[0], about(CHALLENGE));
    fill(&t->in[1], about(NT_RESPONSE));
    make_name(&t->in[2]);
    make_room(&t->lent[0], LEAST_RESPONSE + t->in[2].n);
}

/* The Response. */
static void expect_write_response(const test *t, answer *a)
{
    a->number = oracle_write_response((octet)t->x, in(t, 0), in(t, 1), in(t, 2), lent(a, 0));
}

/* An option. */
static void make_one_option(test *t)
{
    make_option(&t->in[0]);
}

/* Its mode and strengths. */
static void expect_read_option(const test *t, answer *a)
{
    offer read;

    a->number = oracle_read_option(in(t, 0), &read);
    *field(a, 1) = read.stateless;
    *field(a, 1) = read.bits40;
    *field(a, 1) = read.bits56;
    *field(a, 1) = read.bits128;
}

/* A mode, a set of strengths and room. */
static void make_write_option(test *t)
{
    t->x = (unsigned)below(2);
    t->y = (unsigned)below(8);
    make_room(&t->lent[0], OPTION);
}

/* The option. */
static void expect_write_option(const test *t, answer *a)
{
    offer offered = {t->x == 1, t->y & 1, t->y >> 1 & 1, t->y >> 2 & 1};

    a->number = oracle_write_option(offered, lent(a, 0));
}

/* A Reset-Request. */
static void make_one_reset(test *t)
{
    make_reset(&t->in[0]);
}

/* Its identifier. */
static void expect_read_reset(const test *t, answer *a)
{
    a->number = oracle_read_reset(in(t, 0), field(a, 1));
}

/* A hash-hash and an NT-Response. Of the keys' cases, x is the strength, y the role or the number of changes, z the direction. */
static void make_master_key(test *t)
{
    fill(&t->in[0], about(HASH));
    fill(&t->in[1], about(NT_RESPONSE));
}

/* Strength, role, direction and a master key. */
static void make_start_key(test *t)
{
    t->x = (unsigned)below(3);
    t->y = (unsigned)below(2);
    t->z = (unsigned)below(2);
    fill(&t->in[0], about(KEY_PLACES));
}

/* A strength, a start key and a session key. */
static void make_two_keys(test *t)
{
    t->x = (unsigned)below(3);
    make_key(&t->in[0], strength_bits(t->x));
    make_key(&t->in[1], strength_bits(t->x));
}

/* The same, and a number of changes. */
static void make_key_changes(test *t)
{
    make_two_keys(t);
    t->y = (unsigned)(one_in(100) ? below(MANY_CHANGES) : below(40));
}

/* A role, a send and a receive start key. */
static void make_base_key(test *t)
{
    t->y = (unsigned)below(2);
    fill(&t->in[0], about(KEY_PLACES));
    fill(&t->in[1], about(KEY_PLACES));
}

/* The master key. */
static void expect_master_key(const test *t, answer *a)
{
    a->number = oracle_master_key(in(t, 0), in(t, 1), field(a, KEY_PLACES));
}

/* The start key. */
static void expect_start_key(const test *t, answer *a)
{
    a->number = oracle_start_key(strength_bits(t->x), t->y == 1, t->z == 0, in(t, 0), field(a, KEY_PLACES));
}

/* The new key. */
static void expect_new_key(const test *t, answer *a)
{
    a->number = oracle_new_key(strength_bits(t->x), in(t, 0), in(t, 1), field(a, KEY_PLACES));
}

/* The initial session key of the start key. */
static void expect_initial_session_key(const test *t, answer *a)
{
    a->number = oracle_initial_session_key(strength_bits(t->x), in(t, 0), field(a, KEY_PLACES));
}

/* The start key, reduced. */
static void expect_reduce(const test *t, answer *a)
{
    a->number = oracle_reduce(strength_bits(t->x), in(t, 0), field(a, KEY_PLACES));
}

/* The session key after one change. */
static void expect_key_change(const test *t, answer *a)
{
    a->number = oracle_key_changes(strength_bits(t->x), in(t, 0), in(t, 1), 1, field(a, KEY_PLACES));
}

/* The session key after the changes. */
static void expect_key_changes(const test *t, answer *a)
{
    a->number = oracle_key_changes(strength_bits(t->x), in(t, 0), in(t, 1), t->y, field(a, KEY_PLACES));
}

/* The base key. */
static void expect_base_key(const test *t, answer *a)
{
    a->number = oracle_base_key(t->y == 1, in(t, 0), in(t, 1), field(a, BASE_KEY));
}

/* A strength. */
static void make_strength(test *t)
{
    t->x = (unsigned)below(3);
}

/* The set of it alone. */
static void expect_only(const test *t, answer *a)
{
    for (unsigned k = 0; k < 3; k++)
        *field(a, 1) = t->x == k;
}

/* How many octets a key has. */
static void expect_key_length(const test *t, answer *a)
{
    *field(a, 1) = (octet)key_length(strength_bits(t->x));
}

/* A strength, two keys in 16 places each, and a number of changes. */
static void make_placed(test *t)
{
    make_key_changes(t);
    fill(&t->in[0], KEY_PLACES);
    fill(&t->in[1], KEY_PLACES);
}

/* The session key after the changes, of which the places behind it have no part. */
static void expect_placed(const test *t, answer *a)
{
    unsigned bits = strength_bits(t->x);
    part start = {t->in[0].at, key_length(bits)}, session = {t->in[1].at, key_length(bits)};

    oracle_key_changes(bits, start, session, t->y, field(a, KEY_PLACES));
}

/* A session key's places at a strength. */
static void make_cipher(test *t)
{
    make_strength(t);
    fill(&t->in[0], KEY_PLACES);
}

/* The state of RC4 keyed with its strength's octets. */
static void expect_cipher(const test *t, answer *a)
{
    part session = {t->in[0].at, key_length(strength_bits(t->x))};

    a->number = oracle_rc4_keyed(session, field(a, RC4_STATE));
}

/* Whether octets can be read as a record at all: their number, a strength, a mode and a mark. */
static bool readable(part record)
{
    return record.n == RECORD_OCTETS && (record.at[0] == 40 || record.at[0] == 56 || record.at[0] == 128) && record.at[AT_MODE] <= 1
           && record.at[AT_MARK] <= 1;
}

/* An answer's fields before a link's call: no key change, and the record of a case, which is "40 bits, stateless, all else 0" where it
   cannot be read. */
static buffer record_of(const test *t, answer *a)
{
    octet *changes = field(a, 2);
    buffer record = {field(a, RECORD_OCTETS), RECORD_OCTETS};

    memset(changes, 0, 2 + RECORD_OCTETS);
    record.at[0] = 40;
    if (readable(in(t, 0)))
        memcpy(record.at, t->in[0].at, RECORD_OCTETS);
    return record;
}

/* A strength, a mode and a start key. */
static void make_new_link(test *t)
{
    t->x = (unsigned)below(3);
    t->y = (unsigned)below(2);
    make_key(&t->in[0], strength_bits(t->x));
}

/* The new link; a refused one has its strength and mode, and all else 0. */
static void expect_new_link(const test *t, answer *a)
{
    buffer record = record_of(t, a);

    record.at[0] = (octet)strength_bits(t->x);
    record.at[AT_MODE] = t->y == 0;
    a->number = oracle_new_link(record.at[0], t->y == 0, in(t, 0), record);
}

/* A record, often damaged. */
static void make_read_record(test *t)
{
    make_right_record(&t->in[0]);
    if (!one_in(4))
        damage_record(&t->in[0]);
}

/* A record read, and written again. */
static void expect_read_record(const test *t, answer *a)
{
    record_of(t, a);
    a->number = readable(in(t, 0)) ? DONE : RECORD;
}

/* A record, a plain packet and room. */
static void make_seal(test *t)
{
    make_record(&t->in[0]);
    make_plain(&t->in[1]);
    make_room(&t->lent[0], FRONT + t->in[1].n);
}

/* Changes, the next record and the packet. */
static void expect_seal(const test *t, answer *a)
{
    buffer record = record_of(t, a);

    a->number = oracle_seal(record, in(t, 1), lent(a, 0));
    if (a->number == DONE)
        put_number(a->fields.at, changes_with(record.at, record.at[AT_COUNT + 1]), 2);
}

/* A record, a packet and room. */
static void make_open(test *t)
{
    make_right_record(&t->in[0]);
    make_arriving(&t->in[0], &t->in[1]);
    if (one_in(8))
        damage_record(&t->in[0]);
    make_room(&t->lent[0], t->in[1].n > FRONT ? t->in[1].n - FRONT : 0);
}

/* Changes, the next record and the plain packet. */
static void expect_open(const test *t, answer *a)
{
    opened o = oracle_open(record_of(t, a), in(t, 1), lent(a, 0));

    a->number = o.number;
    put_number(a->fields.at, o.changes, 2);
}

/* A record and a Reset-Request. */
static void make_taken(test *t)
{
    make_record(&t->in[0]);
    make_reset(&t->in[1]);
}

/* The next record. */
static void expect_taken(const test *t, answer *a)
{
    a->number = oracle_reset(record_of(t, a), in(t, 1));
}

/* A tape, and an offset as large as a case's numbers can be. */
static void make_taped(test *t)
{
    size_t offset = make_tape(&t->in[0]);

    t->x = offset < MOST_NUMBER ? (unsigned)offset : MOST_NUMBER;
}

/* The part of the tape that the packet is. */
static void expect_packet(const test *t, answer *a)
{
    tape_next next = oracle_tape_read(in(t, 0), t->x);
    size_t n = next.offset - next.start;

    memcpy(field(a, n), t->in[0].at + next.start, n);
}

static const call calls[] = {
    {"md4", MD4, make_one_text, expect_md4},
    {"sha1", SHA1, make_one_text, expect_sha1},
    {"sha256", SHA256, make_one_text, expect_sha256},
    {"hmac_sha256", HMAC_SHA256, make_hmac, expect_hmac},
    {"des::encrypt", DES, make_des, expect_des},
    {"Rc4::keyed", RC4_KEYED, make_keyed, expect_keyed},
    {"Rc4::run", RC4_RUN, make_run, expect_run},
    {"Rc4::draw", RC4_DRAW, make_state, expect_draw},
    {"rc4::apply", RC4_APPLY, make_apply, expect_apply},
    {"Rc4::is_unkeyed and is_permutation", RC4_TESTS, make_tested, expect_tested},
    {"Rc4::run_within", RC4_WITHIN, make_within, expect_within},
    {"password_hash", PASSWORD_HASH, make_one_password, expect_password_hash},
    {"hash_hash", HASH_HASH, make_hash, expect_hash_hash},
    {"challenge_hash", HASH_CHALLENGE, make_challenge_hash, expect_challenge_hash},
    {"challenge_response", CHALLENGE_RESPONSE, make_challenge_response, expect_challenge_response},
    {"read_challenge", READ_CHALLENGE, make_challenge, expect_read_challenge},
    {"read_response", READ_RESPONSE, make_response, expect_read_response},
    {"name", NAME, make_named, expect_name},
    {"write_challenge", WRITE_CHALLENGE, make_write_challenge, expect_write_challenge},
    {"write_response", WRITE_RESPONSE, make_write_response, expect_write_response},
    {"ccp::read", READ_OPTION, make_one_option, expect_read_option},
    {"ccp::write", WRITE_OPTION, make_write_option, expect_write_option},
    {"ccp::only", ONLY, make_strength, expect_only},
    {"ccp::read_reset", READ_RESET, make_one_reset, expect_read_reset},
    {"ccp::write_reset", WRITE_RESET, make_write_reset, expect_write_reset},
    {"tape::packet", TAPE_PACKET, make_taped, expect_packet},
    {"master_key", MASTER_KEY, make_master_key, expect_master_key},
    {"start_key", START_KEY, make_start_key, expect_start_key},
    {"new_key", NEW_KEY, make_two_keys, expect_new_key},
    {"initial_session_key", INITIAL_SESSION_KEY, make_two_keys, expect_initial_session_key},
    {"reduce", REDUCE, make_two_keys, expect_reduce},
    {"key_change", KEY_CHANGE, make_two_keys, expect_key_change},
    {"key_changes", KEY_CHANGES, make_key_changes, expect_key_changes},
    {"base_key", MAKE_BASE_KEY, make_base_key, expect_base_key},
    {"placed_key_changes", PLACED_KEY_CHANGES, make_placed, expect_placed},
    {"key_length", KEY_LENGTH, make_strength, expect_key_length},
    {"placed_cipher", PLACED_CIPHER, make_cipher, expect_cipher},
    {"Link::new", NEW_LINK, make_new_link, expect_new_link},
    {"Link::seal", SEAL, make_seal, expect_seal},
    {"Link::open", OPEN, make_open, expect_open},
    {"Link::reset", RESET, make_taken, expect_taken},
    {"read_record", READ_RECORD, make_read_record, expect_read_record},
};

/* Compares every call. */
int main(int count, char **words)
{
    unsigned long seed, cases, total;

    if (count != 4)
        return 2;
    read_arguments(count, words, &seed, &cases);
    start(words[1]);
    total = compare_calls(calls, sizeof calls / sizeof calls[0], seed, cases);
    finish();
    printf("%lu cases, all equal\n", total);
    return 0;
}
