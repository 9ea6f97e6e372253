/*
 * Udukemb for C: MS-CHAPv2 responses and checks, MPPE start keys, the MPPE option, a link's packets, tapes of packets
 * and marks beside them, and the SSTP binding key. Link with libudukemb.a, for x86-64 Linux and processors of the level
 * x86-64-v2; it needs nothing but memcpy and memset.
 *
 * Every call
 *   - takes any octets of any length. A lent part is a pointer and its length in octets; a part of length 0 may have a
 *     null pointer.
 *   - keeps nothing, allocates nothing and has no state of its own, so any thread may make it. What is lent to it must
 *     not be used elsewhere meanwhile.
 *   - answers a number of those below: the first that applies, in the order in which they are named with it, or 0.
 *   - changes no lent octet where it answers another number than 0, but for the record of an open, begin or replay step
 *     that answers 11, and for what stands behind the record of a walk that a refused begin, feed or end closes. On 0
 *     the result stands in front of the buffer lent for it, and the octets behind it stay as they were; that of a feed
 *     stands behind what was fed before, which stays too.
 *   - takes a bool that is true or false, and nothing else in its place.
 *
 * Nothing in place: what is lent for writing must not overlap anything else that is lent to the same call. No proof
 * speaks of such a call. Seal a packet over its own plain packet, and today's archive answers 0 and leaves a packet
 * that opens to other octets, or not at all.
 *
 * Time: in stateless mode `udukemb_open`, `udukemb_begin` and `udukemb_tape_replay` make as many key changes as the
 * packet's count is ahead of the last one, 1 to 2,048, before it can be seen whether the protocol number inside is
 * right. So a packet at the farthest distance costs a millisecond or two even if it is then refused with 4, and whoever
 * can put octets on the line can make every packet cost that much. In stateful mode there are at most 8.
 * `udukemb_marks_check` makes these key changes for every packet of a tape, and `udukemb_marks_write` twice. How long a
 * call takes is not proved, nor that its time keeps a secret.
 *
 * Secrets: what a call works with remains on the stack below its caller's frame, the password's hash, start keys and
 * session keys among it. Nothing wipes it; where others may read that memory later, overwrite it.
 *
 * Stack: the most octets that a call takes below its caller's frame, with the arguments passed there and without what
 * memcpy and memset take:
 *       udukemb_authenticator_string    1300
 *       udukemb_base_key                 300
 *       udukemb_begin                   2800
 *       udukemb_binding_key              900
 *       udukemb_check_authenticator     1300
 *       udukemb_check_response          1100
 *       udukemb_end                     2900
 *       udukemb_feed                    4100
 *       udukemb_marks_check             7500
 *       udukemb_marks_read              1300
 *       udukemb_marks_write             8200
 *       udukemb_new_link                 900
 *       udukemb_nt_response             1100
 *       udukemb_open                    6100
 *       udukemb_option_reply             300
 *       udukemb_reset                   1300
 *       udukemb_seal                    5100
 *       udukemb_start_key                800
 *       udukemb_tape_begin               200
 *       udukemb_tape_read                200
 *       udukemb_tape_replay             6500
 *       udukemb_tape_write               300
 *       udukemb_write_reset              200
 */

#ifndef UDUKEMB_H
#define UDUKEMB_H

#include <stdbool.h>
#include <stddef.h>
#include <stdint.h>

/*
 * The version of this interface: a new major number may break a program, a new minor one adds to it. From 3.2 to 4.0
 * the longest packet went from 1,502 octets to 32,002: a call that is lent a buffer of the old length refuses a longer
 * one with 2, but a program must not copy a packet that `udukemb_tape_read` finds into such a buffer.
 */
#define UDUKEMB_VERSION_MAJOR 4
#define UDUKEMB_VERSION_MINOR 1

/* A call whose answer is not looked at is warned of, where the compiler can. */
#if defined(__GNUC__)
#define UDUKEMB_MUST_USE __attribute__((warn_unused_result))
#else
#define UDUKEMB_MUST_USE
#endif

#ifdef __cplusplus
extern "C" {
#endif

/* The numbers a call may answer. */
enum {
    UDUKEMB_DONE = 0,     /* no refusal applies */
    UDUKEMB_SHAPE = 1,    /* a packet, option, request or tape has a wrong length or fixed field; an end comes early */
    UDUKEMB_ROOM = 2,     /* the buffer for the result is shorter than it */
    UDUKEMB_SIZE = 3,     /* another length, or an offset, lies outside its limits; a piece goes beyond the total */
    UDUKEMB_PROTOCOL = 4, /* the plain protocol number is outside 0x0021 to 0x00FA */
    UDUKEMB_FLAGS = 5,    /* bit D of an MPPE header is 0, or in stateless mode bit A */
    UDUKEMB_REPEAT = 6,   /* the count equals the last one */
    UDUKEMB_RECORD = 7,   /* the octets are no well formed link record, or no walk that is under way */
    UDUKEMB_STRENGTH = 8, /* no strength is both offered and allowed; or the bits are none of 40, 56 and 128 */
    UDUKEMB_DOMAIN = 9,   /* no longer given, and never another refusal's number: a user name held a backslash */
    UDUKEMB_LATE = 10,    /* the count is too far ahead of the last one, as that of a packet that comes late is */
    UDUKEMB_WAITING = 11  /* a stateful link cannot open the packet, and waits for one with bit A */
};

/* The farthest that a packet's count may be ahead of the last one, modulo 4,096: the most key changes for a packet. */
enum { UDUKEMB_FARTHEST = 2048 };

/* Lengths in octets. */
enum {
    UDUKEMB_LONGEST_PASSWORD = 512,     /* UTF-16, low octet first, so always even; no octet is a password too */
    UDUKEMB_LONGEST_NAME = 256,         /* a user name, with its domain where it has one; it may be empty */
    UDUKEMB_CHALLENGE = 16,             /* of the authenticator or the peer */
    UDUKEMB_NT_RESPONSE = 24,
    UDUKEMB_AUTHENTICATOR_STRING = 42,  /* "S=" and 40 hexadecimal digits in upper case, no 0 behind them */
    UDUKEMB_START_KEY_40 = 8,
    UDUKEMB_START_KEY_56 = 8,
    UDUKEMB_START_KEY_128 = 16,
    UDUKEMB_BASE_KEY = 32,
    UDUKEMB_BINDING_KEY = 32,
    UDUKEMB_LONGEST_MATERIAL = 65535,   /* key material of a binding key */
    UDUKEMB_OPTION = 6,
    UDUKEMB_LINK_RECORD = 295,
    UDUKEMB_WALK = 577,                 /* a link record, and behind it what is known of a packet in pieces */
    UDUKEMB_RESET_REQUEST = 4,
    UDUKEMB_SHORTEST_PLAIN = 2,         /* a plain packet: two protocol octets and the payload */
    UDUKEMB_LONGEST_PLAIN = 31998,      /* that of an information field of 32,000 octets */
    UDUKEMB_PACKET_FRONT = 4,           /* a sealed packet is this much longer than its plain packet */
    UDUKEMB_SHORTEST_PACKET = 6,
    UDUKEMB_LONGEST_PACKET = 32002,
    UDUKEMB_TAPE_START = 1,             /* what stands in front of a tape's records, and so the first one's offset */
    UDUKEMB_LONGEST_TAPE_RECORD = 32005, /* a packet's length, one to three octets, and the packet */
    UDUKEMB_MARK = 51
};

/* A mark is kept behind each packet whose number among those opened is a multiple of this. */
enum { UDUKEMB_MARK_EVERY = 256 };

/* A check's answer. `yes` is true exactly if the answer is 0 and every octet received is the one worked out here. */
struct udukemb_check {
    uint8_t answer;
    bool yes;
};

/* An option reply's answer. Where it is not 0, `accept` and `stateful` are false and `bits` 0. */
struct udukemb_reply {
    uint8_t answer;
    bool accept;   /* true: an accept; false: a counter-offer */
    uint8_t bits;  /* the strength picked: 40, 56 or 128 */
    bool stateful; /* the mode picked: stateful, or else stateless */
};

/* An opened packet's answer. Where it is neither 0 nor 11, `changes` is 0, and so it is where a begin answers 0. */
struct udukemb_opened {
    uint8_t answer;
    uint16_t changes; /* the key changes made, at most 2,048: stateless, one more than the packets lost just before this
                         one; stateful, as many of these and this one as have a count that ends in 0xFF */
};

/* A written record's answer. Where it is not 0, `length` is 0. */
struct udukemb_written {
    uint8_t answer;
    size_t length; /* the octets written */
};

/* A read's answer. The packet is the tape's part from `start` up to `offset`; where there is none, both are equal. */
struct udukemb_next {
    uint8_t answer;
    size_t start;
    size_t offset; /* the offset after the packet; where there is none, the offset given, or 0 */
};

/* A replay step's answer. Where it is neither 0 nor 11, or there is no packet, `changes` is 0. */
struct udukemb_replayed {
    uint8_t answer;
    uint16_t changes; /* as in udukemb_opened */
    size_t offset;    /* as in udukemb_next */
};

/* A read mark's answer. Where it is not 0, `opened` and `offset` are 0. */
struct udukemb_mark {
    uint8_t answer;
    uint64_t opened; /* how many packets of the tape were opened */
    size_t offset;   /* the offset that follows */
};

/* A check of marks' answer. Where it is not 0, `yes` is false and `agreeing` 0. */
struct udukemb_marks_checked {
    uint8_t answer;
    bool yes;        /* they are the marks that a walk from the start gives, all of them and nothing else */
    size_t agreeing; /* how many are right from the first on; on a no, the first mark that is wrong, lacking or too many
                        comes next */
};

/*
 * A login. Mind the order of the challenges: as in RFC 2759, the two calls for the NT-Response take the authenticator's
 * first, and the two for the authenticator string take the peer's first. Exchanged challenges are not noticed: both
 * have 16 octets, and the answer is 0 with another result.
 *
 * A name may have a domain in front, as NORTH\pump4. What is hashed is what follows the first backslash (0x5C), and the
 * whole name where there is none; a second backslash is an octet like any other. The limit is that of the whole name.
 */

/*
 * Whether the NT-Response `received` is the one that the password gives to both challenges. A difference is a no with
 * answer 0.
 * Lengths: challenges 16; name 0 to 256; password 0 to 512, even; received 24.
 * Answers: 3 size, a length is outside its limits.
 */
UDUKEMB_MUST_USE struct udukemb_check udukemb_check_response(
    const uint8_t *authenticator_challenge, size_t authenticator_challenge_len,
    const uint8_t *peer_challenge, size_t peer_challenge_len,
    const uint8_t *name, size_t name_len,
    const uint8_t *password, size_t password_len,
    const uint8_t *received, size_t received_len);

/*
 * The NT-Response of the password to both challenges, 24 octets into `out`.
 * Lengths: challenges 16; name 0 to 256; password 0 to 512, even.
 * Answers: 3 size, a length is outside its limits; 2 room, `out` has fewer than 24 octets.
 */
UDUKEMB_MUST_USE uint8_t udukemb_nt_response(
    const uint8_t *authenticator_challenge, size_t authenticator_challenge_len,
    const uint8_t *peer_challenge, size_t peer_challenge_len,
    const uint8_t *name, size_t name_len,
    const uint8_t *password, size_t password_len,
    uint8_t *out, size_t out_len);

/*
 * The string by which an authenticator proves to a peer that it knows the password, 42 octets into `out`. The peer's
 * challenge comes first.
 * Lengths: password 0 to 512, even; response 24; challenges 16; name 0 to 256.
 * Answers: 3 size, a length is outside its limits; 2 room, `out` has fewer than 42 octets.
 */
UDUKEMB_MUST_USE uint8_t udukemb_authenticator_string(
    const uint8_t *password, size_t password_len,
    const uint8_t *response, size_t response_len,
    const uint8_t *peer_challenge, size_t peer_challenge_len,
    const uint8_t *authenticator_challenge, size_t authenticator_challenge_len,
    const uint8_t *name, size_t name_len,
    uint8_t *out, size_t out_len);

/*
 * Whether the authenticator string `received` is the one that the password gives. A difference is a no with answer 0.
 * The peer's challenge comes first.
 * Lengths: password 0 to 512, even; response 24; challenges 16; name 0 to 256; received 42.
 * Answers: 3 size, a length is outside its limits.
 */
UDUKEMB_MUST_USE struct udukemb_check udukemb_check_authenticator(
    const uint8_t *password, size_t password_len,
    const uint8_t *response, size_t response_len,
    const uint8_t *peer_challenge, size_t peer_challenge_len,
    const uint8_t *authenticator_challenge, size_t authenticator_challenge_len,
    const uint8_t *name, size_t name_len,
    const uint8_t *received, size_t received_len);

/*
 * The start key of a password and an NT-Response, for one direction at one end of the link: 16 octets into `out` at
 * 128 bits, 8 at 40 and 56. `server` is true at the server's end and false at the client's; `send` is true for what
 * this end sends and false for what it receives.
 * Lengths: password 0 to 512, even; response 24.
 * Answers: 8 strength, `bits` is none of 40, 56 and 128; 3 size, a length is outside its limits; 2 room, `out` is
 * shorter than the key.
 */
UDUKEMB_MUST_USE uint8_t udukemb_start_key(
    uint8_t bits, bool server, bool send,
    const uint8_t *password, size_t password_len,
    const uint8_t *response, size_t response_len,
    uint8_t *out, size_t out_len);

/*
 * The base key of an end's two start keys, 32 octets into `out`. Both ends get the same one. `server` as above.
 * Lengths: send and receive 16 each, the start keys of 128 bits.
 * Answers: 3 size, a length is another; 2 room, `out` has fewer than 32 octets.
 */
UDUKEMB_MUST_USE uint8_t udukemb_base_key(
    bool server,
    const uint8_t *send, size_t send_len,
    const uint8_t *receive, size_t receive_len,
    uint8_t *out, size_t out_len);

/*
 * The binding key of a base key or of other key material, 32 octets into `out`. Material of another length than 32 is
 * cut to 32 octets, or has zeros put behind it.
 * Lengths: material 0 to 65,535.
 * Answers: 3 size, the material is longer; 2 room, `out` has fewer than 32 octets.
 */
UDUKEMB_MUST_USE uint8_t udukemb_binding_key(
    const uint8_t *material, size_t material_len,
    uint8_t *out, size_t out_len);

/* The option and the link. */

/*
 * The reply to a requested MPPE option: the strongest strength that is offered and allowed, in the mode asked for where
 * `stateful` allows stateful mode, else in stateless mode. The reply's option is written into `out`, six octets; it is
 * an accept where the request is that option and no other bit, else a counter-offer. `bits40`, `bits56` and `bits128`
 * say which strengths are allowed.
 * Allow stateful mode only for modems that have no other: a lost packet leads to a Reset-Request, and that to packets
 * under keystream that was used before. RFC 3078 wants stateless mode wherever packets are lost.
 * Answers: 1 shape, the option is not six octets of type 18 and length 6; 8 strength, none is both offered and allowed;
 * 2 room, `out` has fewer than six octets.
 */
UDUKEMB_MUST_USE struct udukemb_reply udukemb_option_reply(
    const uint8_t *option, size_t option_len,
    bool bits40, bool bits56, bool bits128, bool stateful,
    uint8_t *out, size_t out_len);

/*
 * The link record that both ends begin with, 295 octets into `link_record`: the strength in bits (1 octet), start key
 * (16 places), session key (16 places) and last count (2 octets, highest first); behind these the mode (0 stateless, 1
 * stateful), the waiting mark (0 or 1), RC4's two indices and its 256 cells. Keys of 8 octets have zeros in their last
 * eight places; in stateless mode the cells are 0 to 255 in order, and mark and indices 0. The record holds the keys of
 * the link, so keep it as secret as them.
 * A record serves one direction: the sender of that direction seals with it, the receiver opens with a record of the
 * same start key.
 * Lengths: start 16 at 128 bits, 8 at 40 and 56.
 * Answers: 8 strength, `bits` is none of 40, 56 and 128; 3 size, `start` has another length; 2 room, `link_record` has
 * fewer than 295 octets.
 */
UDUKEMB_MUST_USE uint8_t udukemb_new_link(
    uint8_t bits, bool stateful,
    const uint8_t *start, size_t start_len,
    uint8_t *link_record, size_t link_record_len);

/*
 * Seals a plain packet into `out`, 4 octets more than it has, and writes the next record over `link_record`.
 * Lengths: record 295, exactly; plain 2 to 31,998.
 * Answers: 7 record, `link_record` is not 295 octets that hold a well formed record; 3 size, the plain packet's length
 * is outside its limits; 4 protocol, its number is outside 0x0021 to 0x00FA; 2 room, `out` has fewer than
 * plain_len + 4 octets.
 */
UDUKEMB_MUST_USE uint8_t udukemb_seal(
    uint8_t *link_record, size_t link_record_len,
    const uint8_t *plain, size_t plain_len,
    uint8_t *out, size_t out_len);

/*
 * Opens a sealed packet into `out`, 4 octets fewer than it has, and writes the next record over `link_record`.
 * MPPE has no check of its own on the octets: a packet that was altered on the line may answer 0 and open to other
 * octets than were sealed. What is promised is that an unaltered packet opens to what was sealed, if at most 2,047 were
 * lost just before it.
 * A packet that comes late, up to 2,047 behind the last one opened, is refused and changes nothing; it is lost. One
 * that is still farther behind is taken for one that is ahead, and deciphered with the wrong key.
 * So in stateless mode packets may come in any order, repeated or lost: each that is 1 to 2,048 ahead of the newest
 * opened opens, and every other that is at most 2,047 behind answers 6, if it is the newest itself, or 10.
 * In stateful mode a packet without bit A opens only if the one sealed before it was opened. Every other answers 11:
 * nothing is written into `out`, but the next record is written, and waits. Write a Reset-Request and send it; the
 * sender's next packet then has bit A, and opens. A packet altered on the line may answer 11 too, as it may answer 0,
 * and then moves the record to the count that it carries.
 * Lengths: record 295, exactly; packet 6 to 32,002.
 * Answers: 7 record, `link_record` is not 295 octets that hold a well formed record; 1 shape, the packet's length is
 * outside its limits, or it does not begin with 00 FD; 5 flags, bit D of its header is 0, or in stateless mode bit A; 6
 * repeat, its count is the last one; 10 late, its count is 2,049 to 4,095 ahead of the last one, modulo 4,096; 11
 * waiting, as above; 2 room, `out` has fewer than packet_len - 4 octets; 4 protocol, the number inside is outside
 * 0x0021 to 0x00FA.
 */
UDUKEMB_MUST_USE struct udukemb_opened udukemb_open(
    uint8_t *link_record, size_t link_record_len,
    const uint8_t *packet, size_t packet_len,
    uint8_t *out, size_t out_len);

/*
 * Takes a Reset-Request at the sender: a stateful one keys RC4 afresh for its next packet and sets bit A on it; a
 * stateless one's record stays as it is.
 * Lengths: record 295, exactly; request 4.
 * Answers: 7 record, `link_record` is not 295 octets that hold a well formed record; 1 shape, the request is not four
 * octets of code 14 and length 4.
 */
UDUKEMB_MUST_USE uint8_t udukemb_reset(
    uint8_t *link_record, size_t link_record_len,
    const uint8_t *request, size_t request_len);

/*
 * A Reset-Request with an identifier, four octets into `out`.
 * Answers: 2 room, `out` has fewer than four octets.
 */
UDUKEMB_MUST_USE uint8_t udukemb_write_reset(
    uint8_t identifier,
    uint8_t *out, size_t out_len);

/*
 * A packet in pieces. Where a modem hands over a packet piece by piece, a walk opens it as it comes: begin it with the
 * packet's front, feed the data in pieces of any length, and end it. Where the end answers 0, and each call got walk
 * and buffer as the last one left them, the buffer, the record and the key changes are those of one `udukemb_open` of
 * the whole packet, wherever it was cut.
 *
 * A walk is 577 octets, and begins with the link record itself. So keep a walk for a link whose packets come in pieces,
 * and lend its first 295 octets where a record is asked for, as to `udukemb_new_link` or, between two walks, to
 * `udukemb_open`. Behind the record stand: whether the walk is live (1 octet, 1 or 0), the packet's header (2 octets),
 * the session key that it is opened with (16 places), RC4's two indices and its 256 cells, the total and the octets fed
 * so far (2 octets each, highest first), and the first protocol octet, opened (1 octet, 0 but where it is the only one
 * fed). They need not be set before a begin. A closed or ended walk has zeros there.
 *
 * A live walk holds the keys of its packet beside those of the record, so keep it as secret. Leave the record in front
 * of a live walk alone. A walk that is given up is simply begun anew, or closed by an early end, which leaves no key
 * behind the record; the record is still that of before the packet, which can be begun once more. Only an end that
 * answers 0, and a begin that answers 11, move the record and report key changes.
 */

/*
 * Begins a walk: `front` is the four octets in front of a packet's data, `total` how many octets the data are, and
 * `room` how many the buffer has that the plain packet is to go into. What stands behind the record is written anew,
 * and not read.
 * Lengths: walk 577, exactly; front 4; total 2 to 31,998.
 * Answers: 7 record, `walk` is not 577 octets that begin with a well formed record; 1 shape, `front` or the data have
 * another length, or `front` does not begin with 00 FD; 5 flags, 6 repeat, 10 late, 11 waiting, all as for
 * `udukemb_open`, and 11 moves the record in the same way; 2 room, `room` is less than `total`. Each of these closes
 * the walk, but for a 7 where `walk` is not 577 octets: that changes nothing.
 */
UDUKEMB_MUST_USE struct udukemb_opened udukemb_begin(
    uint8_t *walk, size_t walk_len,
    const uint8_t *front, size_t front_len,
    size_t total, size_t room);

/*
 * Opens the next piece of a walk's packet into `out`, where it has its place behind what was fed before. The buffer is
 * lent whole, with every piece. Both protocol octets are written together, as soon as the second one is fed and their
 * number is judged. A piece may be of no octets.
 * What is written stays, also where a later piece is refused. It is a part of a packet, and no packet before the end
 * answers 0.
 * Lengths: walk 577, exactly; piece 0 to as many octets as are left of the total; out at least the total.
 * Answers: 7 record, `walk` is not 577 octets with a well formed record and a live walk behind it, whose header
 * `udukemb_begin` would not refuse with that record, and whose total is 2 to 31,998 and no less than what is fed; 2
 * room, `out` has fewer octets than the total; 3 size, the piece goes beyond the total; 4 protocol, the number inside
 * is outside 0x0021 to 0x00FA. 3 and 4 close the walk; 7 and 2 change nothing.
 */
UDUKEMB_MUST_USE uint8_t udukemb_feed(
    uint8_t *walk, size_t walk_len,
    const uint8_t *piece, size_t piece_len,
    uint8_t *out, size_t out_len);

/*
 * Ends a walk whose data are fed: writes the next record over that in front of it, and zeros behind it.
 * Lengths: walk 577, exactly.
 * Answers: 7 record, as for `udukemb_feed`, or the next record would not be well formed, which only a walk made by hand
 * can bring about; 1 shape, fewer octets are fed than the total. 1 closes the walk; 7 changes nothing.
 */
UDUKEMB_MUST_USE struct udukemb_opened udukemb_end(
    uint8_t *walk, size_t walk_len);

/*
 * A tape for the bench. It keeps the packets of one direction as they arrived, damaged and repeated ones too, so that
 * what the receiver did with them can be looked at later: lend the link record that it began with, and replay the tape
 * step by step.
 *
 * A tape is the octet 1, and then a record for each packet: the packet's length, and the packet. The length, 6 to
 * 32,002, stands in groups of seven bits, lowest first, with the top bit of an octet set when more follows, in the
 * shortest form only: 127 is 7F, 128 is 80 01, 1,502 is DE 0B, 16,384 is 80 80 01 and 32,002 is 82 FA 01. Nothing
 * closes a tape, so one more packet is written behind the last, and a tape of no packets is the octet 1 alone. Every
 * tape reads back to the list of packets that it was written of, and no other octets read back to that list. A tape of
 * a version before 4.0, whose packets have at most 1,502 octets, reads as it did.
 *
 * An offset is UDUKEMB_TAPE_START, or one that a read or a step handed out. Keep to these: any other that lies inside a
 * record is taken as it stands, so that octets of a packet are read as a length, and what follows as a packet.
 *
 * A tape holds nothing but what the line carried, and is as little secret as the line. What is replayed from it is what
 * was sealed, so keep that, and the link record that it takes, as secret as ever.
 */

/*
 * Begins a tape: its first octet, into `out`.
 * Answers: 2 room, `out` has no octet.
 */
UDUKEMB_MUST_USE uint8_t udukemb_tape_begin(
    uint8_t *out, size_t out_len);

/*
 * Writes the record of a packet into `out`, which is what is left of the tape's buffer: one octet more than the packet
 * has up to a length of 127, two more up to 16,383, three more from 16,384 on.
 * Lengths: packet 6 to 32,002.
 * Answers: 1 shape, the packet's length is outside its limits; 2 room, `out` is shorter than the record.
 */
UDUKEMB_MUST_USE struct udukemb_written udukemb_tape_write(
    const uint8_t *packet, size_t packet_len,
    uint8_t *out, size_t out_len);

/*
 * Reads a tape at an offset: where its next packet starts, and the offset after it. At the tape's end the answer is 0,
 * with no packet and the offset given.
 * Answers: 1 shape, the tape has no octet or does not begin with 1, and 3 size, the offset is 0 or past the tape's end,
 * both with offset 0; 1 shape, what stands at the offset is no record, with the offset given: its length is outside 6
 * to 32,002, in a longer form or of four groups, or the tape ends before the record does.
 */
UDUKEMB_MUST_USE struct udukemb_next udukemb_tape_read(
    const uint8_t *tape, size_t tape_len,
    size_t offset);

/*
 * One step of a replay: reads the next packet and opens it, as `udukemb_tape_read` and `udukemb_open` do. Where there
 * is a packet, the step gives the offset after it, also where the packet is refused. So the steps from
 * UDUKEMB_TAPE_START to the end do exactly what opening the packets in turn into the same buffer does. At the tape's
 * end the answer is 0, with no key changes and the offset given, and link record and `out` stay as they were.
 * Lengths: record 295, exactly.
 * Answers: 7 record, `link_record` is not 295 octets that hold a well formed record, with offset 0; 1 shape and 3 size,
 * as for `udukemb_tape_read`, with its offset; then for the packet 1 shape, 5 flags, 6 repeat, 10 late, 11 waiting, 2
 * room and 4 protocol, as for `udukemb_open`, and 11 moves the link record in the same way.
 */
UDUKEMB_MUST_USE struct udukemb_replayed udukemb_tape_replay(
    uint8_t *link_record, size_t link_record_len,
    const uint8_t *tape, size_t tape_len,
    size_t offset,
    uint8_t *out, size_t out_len);

/*
 * Marks beside a tape. A long tape of a stateless link need not be replayed from its start: keep a list of marks beside
 * it. A mark stands behind each 256th opened packet, also where that is the tape's last: how many packets were opened,
 * the tape offset that follows, and the link record. Only packets that answer 0 are counted; the offset moves over
 * refused ones too. So mark number i, from 0 on, stands behind packet number 256 * (i + 1) of those opened, and mark i
 * of a list is its 51 octets from 51 * i on.
 *
 * A mark is 51 octets, numbers highest octet first: opened 8, offset 8, strength in bits 1, start key 16, session key
 * 16, last count 2. A list is its marks one behind the other, and nothing else.
 *
 * Check a list that was kept before you open from it. Where the check says yes, each mark of the list reads with answer
 * 0, and steps of `udukemb_tape_replay` from its offset with its record, into a buffer of UDUKEMB_LONGEST_PLAIN octets,
 * give the same packets, refusals and end record as the steps from the start give behind that point. A check is a walk
 * over the whole tape, once; opening from a mark then reads no octet of the tape before it but the first.
 *
 * A mark holds keys. Keep a list as secret as the link record.
 */

/*
 * Writes the list of a tape's marks into `out`; `link_record` is the record that the tape begins with. A buffer of one
 * octet for every 35 of the tape always has room.
 * Lengths: record 295, exactly.
 * Answers: 7 record, `link_record` is not 295 octets that hold a well formed record, or its link is stateful; 1 shape,
 * as for `udukemb_tape_read`, the tape is faulty; 2 room, `out` is shorter than the list.
 */
UDUKEMB_MUST_USE struct udukemb_written udukemb_marks_write(
    const uint8_t *link_record, size_t link_record_len,
    const uint8_t *tape, size_t tape_len,
    uint8_t *out, size_t out_len);

/*
 * Reads a mark: gives its two numbers, and writes its link record into `link_record`. What is in the record is not held
 * against any tape; `udukemb_marks_check` does that.
 * Lengths: mark 51.
 * Answers: 3 size, `mark` has another length; 7 record, its strength is none of 40, 56 and 128, or its record is not
 * well formed; 2 room, `link_record` has fewer than 295 octets.
 */
UDUKEMB_MUST_USE struct udukemb_mark udukemb_marks_read(
    const uint8_t *mark, size_t mark_len,
    uint8_t *link_record, size_t link_record_len);

/*
 * Whether `marks` is the list of a tape's marks; `link_record` is the record that the tape begins with. A difference
 * is a no with answer 0, and so is a list that is no multiple of 51 octets.
 * Lengths: record 295, exactly.
 * Answers: 7 record and 1 shape, as for `udukemb_marks_write`.
 */
UDUKEMB_MUST_USE struct udukemb_marks_checked udukemb_marks_check(
    const uint8_t *link_record, size_t link_record_len,
    const uint8_t *tape, size_t tape_len,
    const uint8_t *marks, size_t marks_len);

#ifdef __cplusplus
}
#endif

#endif
