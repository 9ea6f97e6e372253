/*
 * A pump station logs in at the control room, both work out the link's keys, and readings go over a line that loses one of
 * them and brings another late. Setpoints come back in pieces over a stateful modem that loses one, waits, asks and goes on.
 * It shows what a program in C does with the library, what the library does with packets that it must not hand up, and what
 * it cannot see. What the senders do, sealing and being asked for a packet keyed afresh, is in line.c. It compiles as C and as
 * C++.
 */
#include "line.h"

#include <stdio.h>
#include <string.h>

enum { CUT_SETPOINT = 6, PIECE = 8, LONGEST_LABEL = 64 };

/* The user without the domain, and another password: what the login is also tried with. */
static const uint8_t user[] = { 'U', 's', 'e', 'r' };
static const uint8_t wrong_password[] = { 'c', 0, 'l', 0, 'i', 0, 'e', 0, 'n', 0, 't', 0, 'P', 0, 'a', 0, 's', 0, 'S', 0 };

/* Prints a check's yes or no. */
static void show_check(const char *label, struct udukemb_check check)
{
    must(label, check.answer);
    printf("  %s: %s\n", label, check.yes ? "yes" : "no");
}

/* Step 1: the station proves that it knows the password, and the control room proves it in turn. */
static void login(uint8_t response[UDUKEMB_NT_RESPONSE])
{
    uint8_t string[UDUKEMB_AUTHENTICATOR_STRING];

    printf("1. The station logs in as \"%.*s\"\n", (int)sizeof name, (const char *)name);
    must("the response",
         udukemb_nt_response(control_room_challenge, sizeof control_room_challenge, station_challenge, sizeof station_challenge,
                             name, sizeof name, password, sizeof password, response, UDUKEMB_NT_RESPONSE));
    show("the station's response", response, UDUKEMB_NT_RESPONSE);
    show_check("the control room checks it",
               udukemb_check_response(control_room_challenge, sizeof control_room_challenge, station_challenge,
                                      sizeof station_challenge, name, sizeof name, password, sizeof password, response,
                                      UDUKEMB_NT_RESPONSE));
    show_check("the same response, by the name without its domain",
               udukemb_check_response(control_room_challenge, sizeof control_room_challenge, station_challenge,
                                      sizeof station_challenge, user, sizeof user, password, sizeof password, response,
                                      UDUKEMB_NT_RESPONSE));
    show_check("the same response, had the password another last letter",
               udukemb_check_response(control_room_challenge, sizeof control_room_challenge, station_challenge,
                                      sizeof station_challenge, name, sizeof name, wrong_password, sizeof wrong_password,
                                      response, UDUKEMB_NT_RESPONSE));
    must("the authenticator string",
         udukemb_authenticator_string(password, sizeof password, response, UDUKEMB_NT_RESPONSE, station_challenge,
                                      sizeof station_challenge, control_room_challenge, sizeof control_room_challenge, name,
                                      sizeof name, string, sizeof string));
    printf("  the control room answers    %.*s\n", (int)sizeof string, (const char *)string);
    show_check("the station checks it",
               udukemb_check_authenticator(password, sizeof password, response, UDUKEMB_NT_RESPONSE, station_challenge,
                                           sizeof station_challenge, control_room_challenge, sizeof control_room_challenge,
                                           name, sizeof name, string, sizeof string));
    printf("\n");
}

/* A start key of the login: 16 octets. */
static void make_start_key(bool server, bool send, const uint8_t response[UDUKEMB_NT_RESPONSE],
                           uint8_t key[UDUKEMB_START_KEY_128])
{
    must("a start key", udukemb_start_key(BITS, server, send, password, sizeof password, response, UDUKEMB_NT_RESPONSE, key,
                                          UDUKEMB_START_KEY_128));
}

/* Both ends agree on a strength and a mode: what is asked for, and the reply; whether that is stateful. */
static bool agree(const uint8_t request[UDUKEMB_OPTION])
{
    uint8_t reply[UDUKEMB_OPTION];
    struct udukemb_reply picked = udukemb_option_reply(request, UDUKEMB_OPTION, true, true, true, true, reply, sizeof reply);

    must("the option", picked.answer);
    show("the station offers", request, UDUKEMB_OPTION);
    show(picked.accept ? "the control room accepts" : "the control room asks for", reply, sizeof reply);
    printf("  that is %u bits, %s\n", picked.bits, picked.stateful ? "stateful" : "stateless");
    return picked.stateful;
}

/* The link of one direction, at both ends, from the start key that each works out. */
static void make_links(const uint8_t response[UDUKEMB_NT_RESPONSE], bool server_sends, bool stateful, struct line *line,
                       uint8_t receiver[UDUKEMB_LINK_RECORD])
{
    uint8_t sent[UDUKEMB_START_KEY_128], received[UDUKEMB_START_KEY_128];

    make_start_key(server_sends, true, response, sent);
    make_start_key(!server_sends, false, response, received);
    show(server_sends ? "the control room sends with" : "the station sends with", sent, sizeof sent);
    show(server_sends ? "the station opens with" : "the control room opens with", received, sizeof received);
    begin_line(line, stateful, sent);
    must("the receiver's link", udukemb_new_link(BITS, stateful, received, sizeof received, receiver, UDUKEMB_LINK_RECORD));
}

/* Step 2: both ends make the link that the station sends over. */
static void make_line(const uint8_t response[UDUKEMB_NT_RESPONSE], struct line *line, uint8_t receiver[UDUKEMB_LINK_RECORD])
{
    static const uint8_t request[UDUKEMB_OPTION] = { 18, 6, 0x01, 0x00, 0x00, 0xE0 };

    printf("2. Both ends make the keys of the link\n");
    make_links(response, false, agree(request), line, receiver);
    printf("\n");
}

/* Says what came of a packet of n octets, but for the line's end. */
static void say_opened(const char *what, struct udukemb_opened opened, const uint8_t *plain, size_t n)
{
    if (opened.answer == UDUKEMB_DONE)
        printf("  %s: \"%.*s\"", what, (int)(n - UDUKEMB_PACKET_FRONT - PROTOCOL), (const char *)plain + PROTOCOL);
    else
        printf("  %s: refused with %u, %s", what, opened.answer, meaning(opened.answer));
}

/* Opens a packet of the stateless link, where the key changes tell how many are missing before it. */
static void open_packet(uint8_t receiver[UDUKEMB_LINK_RECORD], const char *what, const uint8_t *packet, size_t n)
{
    uint8_t plain[LONGEST_PLAIN];
    struct udukemb_opened opened = udukemb_open(receiver, UDUKEMB_LINK_RECORD, packet, n, plain, sizeof plain);

    say_opened(what, opened, plain, n);
    if (opened.answer == UDUKEMB_DONE)
        printf(" (%u missing before it)", opened.changes - 1u);
    printf("\n");
}

/* Says whether both ends hold the same record. */
static void show_records(const uint8_t sender[UDUKEMB_LINK_RECORD], const uint8_t receiver[UDUKEMB_LINK_RECORD])
{
    printf("  station and control room now hold %s link record\n\n",
           memcmp(sender, receiver, UDUKEMB_LINK_RECORD) == 0 ? "the same" : "another");
}

/* Step 3: readings are sealed, one is lost, one is held back, and what arrives is opened, repeats and damaged packets too. */
static void run_line(struct line *line, uint8_t receiver[UDUKEMB_LINK_RECORD])
{
    struct arrival arrival;

    printf("3. The station sends readings; the line loses number %d, and holds number %d back\n", LOST, HELD_BACK);
    while (next_arrival(line, &arrival)) {
        if (arrival.number == 1)
            show("packet 1 on the line", arrival.packet, arrival.length);
        open_packet(receiver, arrival.label, arrival.packet, arrival.length);
    }
    printf("    3.16 m was sealed. MPPE has no check of its own, so an altered payload opens with 0; the library promises only that\n"
           "    an unaltered packet opens to what was sealed. A check inside the payload, or TLS around the link, would tell.\n");
    show_records(line->sender, receiver);
}

/* Opens a packet of n octets as the modem hands it over: the octets in front, then pieces of the data, up to where it is cut off. */
static void open_pieces(uint8_t walk[UDUKEMB_WALK], const char *what, const uint8_t *packet, size_t n, size_t cut)
{
    uint8_t plain[LONGEST_PLAIN];
    struct udukemb_opened opened = udukemb_begin(walk, UDUKEMB_WALK, packet, UDUKEMB_PACKET_FRONT, n - UDUKEMB_PACKET_FRONT,
                                                 sizeof plain);

    for (size_t at = UDUKEMB_PACKET_FRONT; opened.answer == UDUKEMB_DONE && at < cut; at += PIECE) {
        size_t piece = cut - at;

        if (piece > PIECE)
            piece = PIECE;
        opened.answer = udukemb_feed(walk, UDUKEMB_WALK, packet + at, piece, plain, sizeof plain);
    }
    if (opened.answer == UDUKEMB_DONE)
        opened = udukemb_end(walk, UDUKEMB_WALK);
    say_opened(what, opened, plain, n);
    printf("\n");
}

/* Step 4: setpoints come back over a stateful modem, in pieces. One is lost; those behind it answer 11 until the station has asked for one
   keyed afresh, which takes the time of two packets here. The last one is cut off at first. The station's record stands in front of the
   walk that the pieces go through. */
static void run_modem(const uint8_t response[UDUKEMB_NT_RESPONSE])
{
    static const uint8_t request[UDUKEMB_OPTION] = { 18, 6, 0x00, 0x00, 0x00, 0x40 };
    uint8_t walk[UDUKEMB_WALK];
    struct line line;
    struct arrival arrival;

    printf("4. The control room sends setpoints over a stateful modem, which loses number %d, and hands the others over in pieces of "
           "%d octets\n",
           LOST, PIECE);
    make_links(response, true, agree(request), &line, walk);
    while (next_arrival(&line, &arrival)) {
        char label[LONGEST_LABEL];

        snprintf(label, sizeof label, "%s, %s bit A", arrival.label, arrival.packet[HEADER] & BIT_A ? "with" : "without");
        if (arrival.number == CUT_SETPOINT)
            open_pieces(walk, "packet 6, cut off in the middle", arrival.packet, arrival.length, arrival.length / 2);
        open_pieces(walk, label, arrival.packet, arrival.length, arrival.length);
        if (arrival.number == ASKED_AFTER)
            ask(&line);
    }
    show_records(line.sender, walk);
}

/* Step 5: what ties the login to the TLS connection it runs in. */
static void bind_login(const uint8_t response[UDUKEMB_NT_RESPONSE])
{
    uint8_t sent[UDUKEMB_START_KEY_128], received[UDUKEMB_START_KEY_128], base[UDUKEMB_BASE_KEY], key[UDUKEMB_BINDING_KEY];

    printf("5. The binding key of SSTP, from the same login\n");
    for (int server = 0; server <= 1; server++) {
        make_start_key(server, true, response, sent);
        make_start_key(server, false, response, received);
        must("the base key", udukemb_base_key(server, sent, sizeof sent, received, sizeof received, base, sizeof base));
        must("the binding key", udukemb_binding_key(base, sizeof base, key, sizeof key));
        show(server ? "at the control room" : "at the station", key, sizeof key);
    }
}

int main(void)
{
    uint8_t response[UDUKEMB_NT_RESPONSE], receiver[UDUKEMB_LINK_RECORD];
    struct line line;

    login(response);
    make_line(response, &line, receiver);
    run_line(&line, receiver);
    run_modem(response);
    bind_login(response);
    return 0;
}
