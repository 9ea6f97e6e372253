/* Walking over a tape. */
#include "walk.h"
#include "line.h"
#include "words.h"

#include <inttypes.h>
#include <stdio.h>
#include <string.h>

/* How many octets are shown of a payload that is no text, and of a text. */
enum { SHOWN = 16, SHOWN_OF_TEXT = LONGEST_TEXT };

/* After how many seconds a walk says how far it is. */
enum { PROGRESS_SECONDS = 2 };

bool find_next(const struct file *tape, struct udukemb_next *next)
{
    *next = udukemb_tape_read(tape->octets, tape->length, next->offset);
    return next->start != next->offset;
}

void show_progress(const struct file *tape, size_t offset, time_t *said)
{
    time_t now = time(NULL);

    if (difftime(now, *said) < PROGRESS_SECONDS)
        return;
    *said = now;
    fprintf(stderr, "tape: at octet %zu of the %zu of %s\n", offset, tape->length, tape->name);
}

void check_end(const struct file *tape, struct udukemb_next next, const char *counted, size_t packets)
{
    if (next.answer != UDUKEMB_DONE)
        stop("%s: the record at offset %zu is cut off or has a bad length; good packets %s: %zu", tape->name, next.offset, counted,
             packets);
}

void begin_walk(struct walk *walk, const struct file *tape, const uint8_t start[UDUKEMB_LINK_RECORD])
{
    walk->tape = tape;
    memcpy(walk->record, start, sizeof walk->record);
    walk->next = at_start;
    walk->opened = 0;
    walk->packets = 0;
    walk->noise = 0;
    walk->said = time(NULL);
}

bool walk_on(struct walk *walk)
{
    const struct file *tape = walk->tape;

    walk->offset = walk->next.offset;
    if (!find_next(tape, &walk->next))
        return false;
    walk->step = udukemb_tape_replay(walk->record, sizeof walk->record, tape->octets, tape->length, walk->offset, walk->plain,
                                     sizeof walk->plain);
    walk->packets++;
    walk->opened += walk->step.answer == UDUKEMB_DONE;
    walk->noise += walk->step.answer == UDUKEMB_PROTOCOL;
    show_progress(tape, walk->next.offset, &walk->said);
    return true;
}

/* Prints a payload, the first octets of a long one: as text where all of it can be printed. */
static void show_payload(const uint8_t *payload, size_t n)
{
    size_t printable = 0, shown;

    while (printable < n && payload[printable] >= ' ' && payload[printable] <= '~')
        printable++;
    shown = printable == n ? SHOWN_OF_TEXT : SHOWN;
    if (shown > n)
        shown = n;
    if (printable == n)
        printf("\"%.*s\"", (int)shown, (const char *)payload);
    else
        for (size_t i = 0; i < shown; i++)
            printf("%02X", payload[i]);
    if (n > shown)
        printf(" and %zu octets more", n - shown);
}

void show_step(const struct walk *walk)
{
    uint8_t answer = walk->step.answer;

    if (answer == UDUKEMB_DONE) {
        printf("opened, protocol %02X%02X, ", walk->plain[0], walk->plain[1]);
        show_payload(walk->plain + PROTOCOL, walk->next.offset - walk->next.start - UDUKEMB_PACKET_FRONT - PROTOCOL);
    } else {
        printf("refused with %u, %s", answer, meaning(answer));
    }
    if (answer == UDUKEMB_DONE || answer == UDUKEMB_WAITING)
        printf("; key changes: %u", walk->step.changes);
    printf("\n");
}

void judge_key(const struct walk *walk, const char *which)
{
    if (walk->packets > 0 && (walk->opened == 0 || walk->opened < walk->noise))
        stop("%" PRIu64 " of %s%zu packets opened, and %zu held noise: the key, the strength, the mode or the direction is not that of %s",
             walk->opened, which, walk->packets, walk->noise, walk->tape->name);
}
