/*
 * What the demonstration and the bench's program share: the login, and what arrives over two lines. Over one the station sends
 * readings, stateless; over the other, a stateful modem, the control room sends setpoints. It compiles as C and as C++.
 */
#ifndef LINE_H
#define LINE_H

#include "udukemb.h"

enum { BITS = 128 };

/* A packet of the lines: a protocol number and a text. The lines carry short ones, and buffers for them are as short. */
enum { PROTOCOL = 2, LONGEST_TEXT = 64, LONGEST_PLAIN = PROTOCOL + LONGEST_TEXT, LONGEST_PACKET = UDUKEMB_PACKET_FRONT + LONGEST_PLAIN };

/* Where a packet has its header, flags and count, and two of the flags. */
enum { HEADER = 2, BIT_A = 0x80, BIT_D = 0x10 };

/* How many packets are sent over each line, which is lost, which reading is held back, and after which setpoint a Reset-Request is taken:
   the second one that had to wait. */
enum { SENT = 6, LOST = 2, HELD_BACK = 3, ASKED_AFTER = 4 };

/* The user, password and challenges of RFC 2759, section 9.2, the user with a domain in front. The password is UTF-16, low octet first. */
static const uint8_t name[] = { 'N', 'O', 'R', 'T', 'H', '\\', 'U', 's', 'e', 'r' };
static const uint8_t password[] = { 'c', 0, 'l', 0, 'i', 0, 'e', 0, 'n', 0, 't', 0, 'P', 0, 'a', 0, 's', 0, 's', 0 };
static const uint8_t control_room_challenge[UDUKEMB_CHALLENGE] = { 0x5B, 0x5D, 0x7C, 0x7D, 0x7B, 0x3F, 0x2F, 0x3E,
                                                                   0x3C, 0x2C, 0x60, 0x21, 0x32, 0x26, 0x26, 0x28 };
static const uint8_t station_challenge[UDUKEMB_CHALLENGE] = { 0x21, 0x40, 0x23, 0x24, 0x25, 0x5E, 0x26, 0x2A,
                                                              0x28, 0x29, 0x5F, 0x2B, 0x3A, 0x33, 0x7C, 0x7E };

/* A line: the link record of its sender, the packets that are sealed, and how many have arrived. */
struct line {
    bool stateful;
    uint8_t sender[UDUKEMB_LINK_RECORD];
    uint8_t packets[SENT][LONGEST_PACKET];
    size_t lengths[SENT];
    size_t sealed, arrived;
};

/* What arrives: the number of the packet that was sealed, what it is now, for people, and its octets. */
struct arrival {
    size_t number;
    const char *label;
    uint8_t packet[LONGEST_PACKET];
    size_t length;
};

/* What the numbers mean, for people. */
const char *meaning(uint8_t answer);

/* Ends the program where a call that must go well is refused. */
void must(const char *what, uint8_t answer);

/* Prints octets in hexadecimal behind a label. */
void show(const char *label, const uint8_t *octets, size_t n);

/* Begins a line with the start key of its sender. */
void begin_line(struct line *line, bool stateful, const uint8_t start[UDUKEMB_START_KEY_128]);

/* What arrives next over a line; false where nothing more does. */
bool next_arrival(struct line *line, struct arrival *arrival);

/* Asks for a setpoint keyed afresh: the station writes a Reset-Request, and the control room takes it. */
void ask(struct line *line);

#endif
