/* A second reading of 01 (the users' specification), and of the requests of 02 that have landed: what every public call must answer, over
   OpenSSL and plain C. It shares no code with the library. Each function gives the number of the papers' table, and writes its result
   only where that is 0; a result that is not lent is filled with zeros first. */
#ifndef ORACLE_H
#define ORACLE_H

#include <stdbool.h>
#include <stddef.h>

typedef unsigned char octet;

/* A lent input, and a lent buffer. */
typedef struct {
    const octet *at;
    size_t n;
} part;

typedef struct {
    octet *at;
    size_t n;
} buffer;

/* The numbers a call may answer; 9 is no longer given. */
enum { DONE, SHAPE, ROOM, SIZE, PROTOCOL, FLAGS, REPEAT, RECORD, STRENGTH, LATE = 10, WAITING };

/* Counts of packets, and the farthest ahead of the last one that is opened. */
enum { COUNTS = 4096, FARTHEST = 2048 };

/* A mark stands after each packet whose number among those opened is a multiple of this. */
enum { MARK_EVERY = 256 };

/* Lengths. */
enum {
    LONGEST_TEXT = 65535,
    LONGEST_PASSWORD = 512,
    LONGEST_NAME = 256,
    LONGEST_RC4_KEY = 256,
    HASH = 16,
    CHALLENGE = 16,
    CHALLENGE_HASH = 8,
    NT_RESPONSE = 24,
    AUTHENTICATOR_STRING = 42,
    DES_KEY = 7,
    DES_BLOCK = 8,
    KEY_PLACES = 16,
    BASE_KEY = 32,
    BINDING_KEY = 32,
    OPTION = 6,
    RECORD_OCTETS = 295,
    WALK_OCTETS = 577,
    RESET_REQUEST = 4,
    SHORTEST_PLAIN = 2,
    LONGEST_PLAIN = 31998,
    FRONT = 4,
    SHORTEST_PACKET = 6,
    LONGEST_PACKET = 32002,
    LEAST_CHALLENGE = 21,
    LEAST_RESPONSE = 54,
    MARK_OCTETS = 51,
    RC4_STATE = 258 /* the box and both indices */
};

/* How many octets a key of a strength has. */
size_t key_length(unsigned bits);

/* Digests, DES and RC4. */
int oracle_md4(part text, octet out[16]);
int oracle_sha1(part text, octet out[20]);
int oracle_sha256(part text, octet out[32]);
int oracle_hmac(part key, part text, octet out[32]);
int oracle_des(part key, part block, octet out[8]);
int oracle_rc4_keyed(part key, octet state[RC4_STATE]);
int oracle_rc4_run(octet state[RC4_STATE], part text, buffer out);
int oracle_rc4_within(octet state[RC4_STATE], bool fresh, part key, unsigned lowest, unsigned highest, part text, buffer out);
octet oracle_rc4_draw(octet state[RC4_STATE]);
int oracle_rc4_permutation(const octet state[RC4_STATE]);

/* MS-CHAPv2. */
int oracle_password_hash(part password, octet out[HASH]);
int oracle_hash_hash(part hash, octet out[HASH]);
int oracle_challenge_hash(part peer, part authenticator, part name, octet out[CHALLENGE_HASH]);
int oracle_challenge_response(part challenge, part hash, octet out[NT_RESPONSE]);
int oracle_nt_response(part authenticator, part peer, part name, part password, octet out[NT_RESPONSE]);
int oracle_authenticator_string(part password, part response, part peer, part authenticator, part name,
                                octet out[AUTHENTICATOR_STRING]);

/* Challenge and Response packets: kind 1 or 2, as their code. */
int oracle_read_challenge(part packet, octet *identifier, octet value[CHALLENGE]);
int oracle_read_response(part packet, octet *identifier, octet peer[CHALLENGE], octet response[NT_RESPONSE]);
part oracle_name(int kind, part packet);
int oracle_write_challenge(octet identifier, part challenge, part name, buffer out);
int oracle_write_response(octet identifier, part peer, part response, part name, buffer out);

/* Keys: a strength in bits, a key in 16 places. */
int oracle_master_key(part hash, part response, octet out[KEY_PLACES]);
int oracle_start_key(unsigned bits, bool server, bool send, part master, octet out[KEY_PLACES]);
int oracle_new_key(unsigned bits, part start, part session, octet out[KEY_PLACES]);
int oracle_initial_session_key(unsigned bits, part start, octet out[KEY_PLACES]);
int oracle_reduce(unsigned bits, part key, octet out[KEY_PLACES]);
int oracle_key_changes(unsigned bits, part start, part session, unsigned n, octet out[KEY_PLACES]);

/* The option. */
typedef struct {
    bool stateless, bits40, bits56, bits128;
} offer;

typedef struct {
    int number;
    bool accept;
    octet bits;
    bool stateful;
} reply;

int oracle_read_option(part option, offer *out);
int oracle_write_option(offer offered, buffer out);
reply oracle_option_reply(part option, offer allowed, bool stateful, buffer out);

/* The Reset-Request. */
int oracle_read_reset(part request, octet *identifier);
int oracle_write_reset(octet identifier, buffer out);

/* The link: a record of 295 octets, as include/udukemb.h lays it out. */
typedef struct {
    int number;
    unsigned changes;
} opened;

int oracle_new_link(octet bits, bool stateful, part start, buffer record);
int oracle_seal(buffer record, part plain, buffer out);
opened oracle_open(buffer record, part packet, buffer out);
int oracle_reset(buffer record, part request);

/* How far the count in a packet's header, its third and fourth octet, is ahead of a record's. */
unsigned oracle_distance(const octet *record, const octet header[2]);

/* A packet opened in pieces: a walk of 577 octets, as include/udukemb.h lays it out. A refusal may close it. */
opened oracle_begin(buffer walk, part front, size_t total, size_t room);
int oracle_feed(buffer walk, part piece, buffer out);
opened oracle_end(buffer walk);

/* The tape. A write gives the octets written; a read the packet as the part of the tape from `start` up to `offset`, none where they are
   equal; a step of a replay what open gives, and the offset after the packet. */
typedef struct {
    int number;
    size_t length;
} tape_written;

typedef struct {
    int number;
    size_t start, offset;
} tape_next;

typedef struct {
    int number;
    unsigned changes;
    size_t offset;
} tape_replayed;

int oracle_tape_begin(buffer out);
tape_written oracle_tape_write(part packet, buffer out);
tape_next oracle_tape_read(part tape, size_t offset);
tape_replayed oracle_tape_replay(buffer record, part tape, size_t offset, buffer out);

/* A read by a reader of packets up to a longest one: of 1,502 octets that of M-109, before M-110. */
tape_next oracle_tape_read_up_to(part tape, size_t offset, size_t longest);

/* Marks beside a tape: the list of them written, a mark read, and a list checked with the record that the tape begins with. A mark has how
   many packets were opened and the offset that follows; a check has whether the list is right, and how many of its marks are so from the
   first on. */
typedef struct {
    int number;
    size_t opened, offset;
} tape_mark;

typedef struct {
    int number;
    bool yes;
    size_t agreeing;
} marks_checked;

tape_written oracle_marks_write(part start, part tape, buffer out);
tape_mark oracle_marks_read(part mark, buffer record);
marks_checked oracle_marks_check(part start, part tape, part marks);

/* The binding key. */
int oracle_base_key(bool server, part send, part receive, octet out[BASE_KEY]);
int oracle_binding_key(part material, octet out[BINDING_KEY]);

#endif
