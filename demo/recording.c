/* Recording: lines of the demonstration, packets of a backhaul unit, and a long tape. */
#include "recording.h"
#include "files.h"
#include "line.h"
#include "words.h"

#include <stdio.h>
#include <string.h>

/* Plain packets of a backhaul unit: of an information field of 1,500 octets and beyond it, on both sides of where a length on tape gets its
   third octet, at the limit and beyond it. */
static const size_t backhaul[] = { 1498, 1499, 16379, 16380, UDUKEMB_LONGEST_PLAIN, UDUKEMB_LONGEST_PLAIN + 1 };

/* A long tape: how many packets are sealed for it, and which are lost, arrive twice, and come with a bit of their protocol number turned:
   those whose number is a multiple of these. */
enum { LONG_SEALED = 120000, LONG_LOST = 997, LONG_TWICE = 499, LONG_TURNED = 751 };

/* Writes a packet to a tape; the answer is that of the call that writes its record. */
static uint8_t write_packet(const char *file, FILE *to, const uint8_t *packet, size_t n)
{
    uint8_t record[UDUKEMB_LONGEST_TAPE_RECORD];
    struct udukemb_written written = udukemb_tape_write(packet, n, record, sizeof record);

    put(file, to, record, written.length);
    return written.answer;
}

/* Writes a packet to a tape, where it has so many packets, and says so; how many packets the tape then has. */
static size_t record_packet(const char *file, FILE *to, const char *label, const uint8_t *packet, size_t n, size_t packets)
{
    uint8_t answer = write_packet(file, to, packet, n);

    if (answer == UDUKEMB_SHAPE) {
        printf("  %s: not recorded, since a tape holds packets of %d to %d octets\n", label, UDUKEMB_SHORTEST_PACKET,
               UDUKEMB_LONGEST_PACKET);
        return packets;
    }
    must("a record", answer);
    packets++;
    printf("  %s: recorded as number %zu, %zu octets\n", label, packets, n);
    return packets;
}

size_t record_line(const char *file, FILE *to, struct line *line)
{
    struct arrival arrival;
    size_t packets = 0;

    printf(line->stateful ? "Setpoints of the control room, as they arrive at the station; number %d is lost\n"
                          : "Readings of the station, as they arrive at the control room; number %d is lost\n",
           LOST);
    while (next_arrival(line, &arrival)) {
        packets = record_packet(file, to, arrival.label, arrival.packet, arrival.length, packets);
        if (line->stateful && arrival.number == ASKED_AFTER)
            ask(line);
    }
    return packets;
}

/* Seals a plain packet of n octets: a text, and points behind it. */
static uint8_t seal_long(uint8_t sender[UDUKEMB_LINK_RECORD], size_t number, size_t n, uint8_t packet[UDUKEMB_LONGEST_PACKET])
{
    static uint8_t plain[UDUKEMB_LONGEST_PLAIN + 1] = { 0x00, 0x21 };
    char *text = (char *)plain + PROTOCOL;

    memset(text, '.', sizeof plain - PROTOCOL);
    text[snprintf(text, LONGEST_TEXT, "backhaul packet %zu, %zu octets plain ", number, n)] = '.';
    return udukemb_seal(sender, UDUKEMB_LINK_RECORD, plain, n, packet, UDUKEMB_LONGEST_PACKET);
}

size_t record_backhaul(const char *file, FILE *to, struct line *line)
{
    static uint8_t packet[UDUKEMB_LONGEST_PACKET];
    size_t packets = 0;

    printf("Packets of a backhaul unit\n");
    for (size_t k = 0; k < sizeof backhaul / sizeof backhaul[0]; k++) {
        char label[LONGEST_TEXT];
        uint8_t answer = seal_long(line->sender, k + 1, backhaul[k], packet);

        snprintf(label, sizeof label, "%zu octets plain", backhaul[k]);
        if (answer == UDUKEMB_DONE)
            packets = record_packet(file, to, label, packet, UDUKEMB_PACKET_FRONT + backhaul[k], packets);
        else
            printf("  %s: not sealed, refused with %u, %s\n", label, answer, meaning(answer));
    }
    return packets;
}

/* Seals the packet of a long tape that has a number, and gives its length. */
static size_t seal_short(uint8_t sender[UDUKEMB_LINK_RECORD], size_t number, uint8_t packet[LONGEST_PACKET])
{
    uint8_t plain[LONGEST_PLAIN] = { 0x00, 0x21 };
    size_t n = PROTOCOL + (size_t)snprintf((char *)plain + PROTOCOL, LONGEST_TEXT, "reading %zu", number);

    must("a packet", udukemb_seal(sender, UDUKEMB_LINK_RECORD, plain, n, packet, LONGEST_PACKET));
    return UDUKEMB_PACKET_FRONT + n;
}

size_t record_long(const char *file, FILE *to, struct line *line)
{
    uint8_t packet[LONGEST_PACKET];
    size_t packets = 0;

    printf("A long run of %d readings: one in %d is lost, one in %d comes twice, one in %d has a bit of its protocol number turned\n",
           LONG_SEALED, LONG_LOST, LONG_TWICE, LONG_TURNED);
    for (size_t number = 1; number <= LONG_SEALED; number++) {
        size_t n = seal_short(line->sender, number, packet), times = number % LONG_LOST == 0 ? 0 : number % LONG_TWICE == 0 ? 2 : 1;

        if (number % LONG_TURNED == 0)
            packet[UDUKEMB_PACKET_FRONT] ^= 0x40;
        for (size_t i = 0; i < times; i++)
            must("a record", write_packet(file, to, packet, n));
        packets += times;
    }
    return packets;
}

/* Says what a tape of the demonstration can be replayed with. */
static void show_login(bool stateful, const uint8_t key[UDUKEMB_START_KEY_128])
{
    printf("  %-28s%d bits, %s\n", "strength and mode", BITS, stateful ? "stateful" : "stateless");
    show("start key", key, UDUKEMB_START_KEY_128);
    printf("  %-28s%s\n", "received by", stateful ? "station" : "control-room");
    printf("  %-28s%.*s\n", "name", (int)sizeof name, (const char *)name);
    printf("  %-28s", "password");
    for (size_t i = 0; i < sizeof password; i += 2)
        putchar(password[i]);
    printf("\n");
    show("authenticator challenge", control_room_challenge, sizeof control_room_challenge);
    show("peer challenge", station_challenge, sizeof station_challenge);
}

void record(const char *file, const char *mode, recorder *packets_of)
{
    static const struct login login = { name, sizeof name, password, sizeof password, control_room_challenge, station_challenge };
    bool stateful = pick(mode, "stateless", "stateful");
    uint8_t key[UDUKEMB_START_KEY_128], start[UDUKEMB_TAPE_START];
    struct line line;
    FILE *to = begin_file(file, false);
    size_t packets;

    receiving_key(&login, BITS, !stateful, key);
    begin_line(&line, stateful, key);
    must("a tape", udukemb_tape_begin(start, sizeof start));
    put(file, to, start, sizeof start);
    packets = packets_of(file, to, &line);
    end_file(file, to);
    printf("packets: %zu\nTo replay them:\n", packets);
    show_login(stateful, key);
}
