/* The lines of the demonstration: what is sent over them, what they lose, hold back, repeat and damage, and words for what comes of it. */
#include "line.h"

#include <stdio.h>
#include <stdlib.h>
#include <string.h>

/* What a line does with a packet that was sealed: it turns bits of an octet, and lets at most so many octets through. */
struct event {
    size_t number;
    const char *label;
    size_t place;
    uint8_t turned;
    size_t length;
};

enum { NOWHERE = 0, NOTHING = 0, WHOLE = LONGEST_PACKET, TOO_SHORT = UDUKEMB_SHORTEST_PACKET - 1 };

/* Where the level stands in the packet of a reading. */
enum { LEVEL = UDUKEMB_PACKET_FRONT + PROTOCOL + sizeof "reading 6, level " - 1 };

/* Readings arrive so, and setpoints. */
static const struct event readings[] = {
    { 1, "packet 1", NOWHERE, NOTHING, WHOLE },
    { 4, "packet 4 with a bit of its protocol number turned", UDUKEMB_PACKET_FRONT, 0x40, WHOLE },
    { 4, "packet 4", NOWHERE, NOTHING, WHOLE },
    { HELD_BACK, "packet 3, behind packet 4", NOWHERE, NOTHING, WHOLE },
    { 5, "packet 5", NOWHERE, NOTHING, WHOLE },
    { 5, "packet 5 once more", NOWHERE, NOTHING, WHOLE },
    { 5, "packet 5 without a flag", HEADER, BIT_A, WHOLE },
    { 5, "the first five octets of it", NOWHERE, NOTHING, TOO_SHORT },
    { 6, "packet 6 with a bit of its payload turned", LEVEL, 0x04, WHOLE },
};
static const struct event setpoints[] = {
    { 1, "packet 1", NOWHERE, NOTHING, WHOLE },
    { 3, "packet 3", NOWHERE, NOTHING, WHOLE },
    { ASKED_AFTER, "packet 4", NOWHERE, NOTHING, WHOLE },
    { 5, "packet 5", NOWHERE, NOTHING, WHOLE },
    { 6, "packet 6", NOWHERE, NOTHING, WHOLE },
};

const char *meaning(uint8_t answer)
{
    static const char *const words[] = { "done",
                                         "it has not the shape of a packet",
                                         "there is no room for the result",
                                         "a length is outside its limits",
                                         "what is inside is no frame that the link carries",
                                         "its header lacks a flag",
                                         "it was opened before",
                                         "the link record is damaged",
                                         "no strength is both offered and allowed",
                                         "a number that is no longer given",
                                         "it comes late: one that was sealed after it is opened",
                                         "one before it is missing, so the link waits for one keyed afresh" };

    return answer < sizeof words / sizeof words[0] ? words[answer] : "unknown";
}

void must(const char *what, uint8_t answer)
{
    if (answer == UDUKEMB_DONE)
        return;
    printf("%s: refused with %u, %s\n", what, answer, meaning(answer));
    exit(EXIT_FAILURE);
}

void show(const char *label, const uint8_t *octets, size_t n)
{
    printf("  %-28s", label);
    for (size_t i = 0; i < n; i++)
        printf("%02X", octets[i]);
    printf("\n");
}

void begin_line(struct line *line, bool stateful, const uint8_t start[UDUKEMB_START_KEY_128])
{
    line->stateful = stateful;
    line->sealed = 0;
    line->arrived = 0;
    must("the sender's link",
         udukemb_new_link(BITS, stateful, start, UDUKEMB_START_KEY_128, line->sender, sizeof line->sender));
}

/* Seals the next packet of a line: a reading or a setpoint as a text, behind a protocol number. */
static void seal_next(struct line *line)
{
    uint8_t plain[LONGEST_PLAIN] = { 0x00, 0x21 };
    char *text = (char *)plain + PROTOCOL;
    int i = (int)line->sealed + 1;
    int n = line->stateful ? snprintf(text, LONGEST_TEXT, "setpoint %d, valve at %d %%", i, 40 + i)
                           : snprintf(text, LONGEST_TEXT, "reading %d, level 3.%02d m", i, 10 + i);
    size_t length = PROTOCOL + (size_t)n;

    must("a packet", udukemb_seal(line->sender, sizeof line->sender, plain, length, line->packets[line->sealed], LONGEST_PACKET));
    line->lengths[line->sealed] = length + UDUKEMB_PACKET_FRONT;
    line->sealed++;
}

bool next_arrival(struct line *line, struct arrival *arrival)
{
    const struct event *events = line->stateful ? setpoints : readings;
    size_t count = line->stateful ? sizeof setpoints / sizeof setpoints[0] : sizeof readings / sizeof readings[0];
    const struct event *event = events + line->arrived;

    if (line->arrived == count)
        return false;
    while (line->sealed < event->number)
        seal_next(line);
    arrival->number = event->number;
    arrival->label = event->label;
    arrival->length = line->lengths[event->number - 1];
    memcpy(arrival->packet, line->packets[event->number - 1], arrival->length);
    arrival->packet[event->place] ^= event->turned;
    if (arrival->length > event->length)
        arrival->length = event->length;
    line->arrived++;
    return true;
}

void ask(struct line *line)
{
    uint8_t request[UDUKEMB_RESET_REQUEST];

    must("a Reset-Request", udukemb_write_reset(1, request, sizeof request));
    show("the station asks", request, sizeof request);
    must("the Reset-Request", udukemb_reset(line->sender, sizeof line->sender, request, sizeof request));
}
