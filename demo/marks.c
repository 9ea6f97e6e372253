/* Marks beside a tape. */
#include "marks.h"
#include "files.h"
#include "line.h"
#include "walk.h"
#include "words.h"

#include <inttypes.h>
#include <stdio.h>
#include <stdlib.h>
#include <string.h>

/* From which length on it is said that a tape is walked over in a single call. */
enum { LONG_TAPE = 1000000 };

/* How many packets of a tape a key is tried on before marks are made or checked with it. */
enum { TRIED = 1024 };

/* A list of marks is at most one octet for every so many of the tape. */
enum { TAPE_OCTETS = 35 };

/* How much of a link record stays the same as long as the link lasts: the strength, and the start key's places. */
enum { SAME_PART = 1 + UDUKEMB_START_KEY_128 };

/* Reads the words that name the link of a tape with marks. */
static struct link read_stateless(char **words)
{
    struct link link = read_link(words);

    if (link.stateful)
        stop("marks are kept beside stateless tapes only");
    return link;
}

/* Sees that a tape is good to its end and that its first packets open, before a single call walks over it, and says of a long tape that
   this begins. */
static void prepare(const struct file *tape, const uint8_t start[UDUKEMB_LINK_RECORD])
{
    struct udukemb_next next = at_start;
    size_t packets = 0;
    struct walk walk;

    while (find_next(tape, &next))
        packets++;
    check_end(tape, next, "before it", packets);
    begin_walk(&walk, tape, start);
    while (walk.packets < TRIED && walk_on(&walk))
        ;
    judge_key(&walk, packets > TRIED ? "the first " : "");
    if (tape->length >= LONG_TAPE)
        fprintf(stderr, "tape: walking over the %zu packets of %s\n", packets, tape->name);
}

void write_marks(const char *name, const char *marks, char **words)
{
    struct link link = read_stateless(words);
    struct file tape = load_tape(name);
    size_t longest = tape.length / TAPE_OCTETS;
    uint8_t start[UDUKEMB_LINK_RECORD], *room = room_for(marks, longest);
    struct udukemb_written written;
    FILE *to;

    if (same_file(name, marks))
        stop("%s is the tape itself, and no marks are written over it", marks);
    start_link(&link, start);
    prepare(&tape, start);
    written = udukemb_marks_write(start, sizeof start, tape.octets, tape.length, room, longest);
    must("the marks", written.answer);
    to = begin_file(marks, true);
    put(marks, to, room, written.length);
    end_file(marks, to);
    printf("marks: %zu, octets: %zu\n", written.length / UDUKEMB_MARK, written.length);
    free(room);
    free(tape.octets);
}

/* Reads the mark of a list that has a number, counted from 1 for people, and its link record. */
static struct udukemb_mark read_mark(const struct file *marks, size_t number, uint8_t record[UDUKEMB_LINK_RECORD])
{
    struct udukemb_mark mark =
        udukemb_marks_read(marks->octets + (number - 1) * UDUKEMB_MARK, UDUKEMB_MARK, record, UDUKEMB_LINK_RECORD);

    if (mark.answer != UDUKEMB_DONE)
        stop("%s: mark %zu is refused with %u, %s", marks->name, number, mark.answer, meaning(mark.answer));
    return mark;
}

/* Begins a walk from the mark that has a number; 0 is the tape's start. */
static void walk_from(struct walk *walk, const struct file *tape, const uint8_t start[UDUKEMB_LINK_RECORD], const struct file *marks,
                      size_t number)
{
    struct udukemb_mark mark;

    begin_walk(walk, tape, start);
    if (number == 0)
        return;
    mark = read_mark(marks, number, walk->record);
    walk->opened = mark.opened;
    walk->next.offset = mark.offset;
}

/* Ends the program with the first difference between a list and a tape's marks, behind so many that agree: whether the tape has one more
   mark, and where, is seen by walking on from the last of these. */
static void stop_at_difference(const struct file *tape, const uint8_t start[UDUKEMB_LINK_RECORD], const struct file *marks, size_t agreeing)
{
    size_t left = marks->length - agreeing * UDUKEMB_MARK;
    uint64_t opened = (uint64_t)(agreeing + 1) * UDUKEMB_MARK_EVERY;
    struct walk walk;

    walk_from(&walk, tape, start, marks, agreeing);
    while (walk.opened < opened && walk_on(&walk))
        ;
    if (walk.opened < opened)
        stop("%s: no, mark %zu is one too many%s; %s has %zu", marks->name, agreeing + 1, left < UDUKEMB_MARK ? ", and cut off" : "",
             tape->name, agreeing);
    stop("%s: no, mark %zu is %s; it belongs behind packet %" PRIu64 " of those opened, at offset %zu", marks->name, agreeing + 1,
         left == 0 ? "lacking" : left < UDUKEMB_MARK ? "cut off" : "wrong", opened, walk.next.offset);
}

/* Ends the program where a list is not that of a tape's marks. */
static void check_marks(const struct file *tape, const uint8_t start[UDUKEMB_LINK_RECORD], const struct file *marks)
{
    struct udukemb_marks_checked checked;

    prepare(tape, start);
    checked = udukemb_marks_check(start, UDUKEMB_LINK_RECORD, tape->octets, tape->length, marks->octets, marks->length);
    must("the check", checked.answer);
    if (!checked.yes)
        stop_at_difference(tape, start, marks, checked.agreeing);
}

void check(const char *name, const char *marks_name, char **words)
{
    struct link link = read_stateless(words);
    struct file tape = load_tape(name), marks = load(marks_name);
    uint8_t start[UDUKEMB_LINK_RECORD];

    start_link(&link, start);
    check_marks(&tape, start, &marks);
    printf("yes, marks: %zu\n", marks.length / UDUKEMB_MARK);
    free(marks.octets);
    free(tape.octets);
}

/* Ends the program on a list that cannot be that of a link's tape, whatever is on the tape. */
static void check_list(const struct file *marks, const uint8_t start[UDUKEMB_LINK_RECORD])
{
    uint8_t record[UDUKEMB_LINK_RECORD];
    size_t offset = UDUKEMB_TAPE_START;

    if (marks->length % UDUKEMB_MARK != 0)
        stop("%s has %zu octets, no multiple of the %d of a mark", marks->name, marks->length, UDUKEMB_MARK);
    for (size_t number = 1; number <= marks->length / UDUKEMB_MARK; number++) {
        struct udukemb_mark mark = read_mark(marks, number, record);

        if (memcmp(record, start, SAME_PART) != 0)
            stop("%s: mark %zu is of a link with another strength or start key", marks->name, number);
        if (mark.opened != (uint64_t)number * UDUKEMB_MARK_EVERY || mark.offset <= offset)
            stop("%s: mark %zu is out of order", marks->name, number);
        offset = mark.offset;
    }
}

struct place read_place(const char *what, const char *number)
{
    struct place place = { pick(what, "packet", "offset"), read_number(what, number) };

    if (!place.is_offset && place.number == 0)
        stop("packets are numbered from 1 on");
    return place;
}

/* The number of the mark nearest before a place; 0 where none is. */
static size_t nearest_mark(const struct file *marks, const struct place *place)
{
    size_t number = 0;

    while (number < marks->length / UDUKEMB_MARK) {
        uint8_t record[UDUKEMB_LINK_RECORD];
        struct udukemb_mark mark = read_mark(marks, number + 1, record);

        if (place->is_offset ? mark.offset > place->number : mark.opened >= place->number)
            break;
        number++;
    }
    return number;
}

/* Shows the packets of a walk from a place on, each with its offset, and an opened one with its number among these; how many it shows. */
static size_t show_from(struct walk *walk, const struct place *place)
{
    size_t shown = 0, refused = 0;

    while (walk_on(walk)) {
        if (shown == 0 && (place->is_offset ? walk->offset : walk->opened) < place->number)
            continue;
        shown++;
        if (walk->step.answer == UDUKEMB_DONE)
            printf("packet %" PRIu64 " ", walk->opened);
        else
            refused++;
        printf("at offset %zu: ", walk->offset);
        show_step(walk);
    }
    printf("packets: %zu, opened: %zu, refused: %zu\n", shown, shown - refused, refused);
    return shown;
}

/* Says where a walk begins that is to go on from the mark that has a number. */
static void show_beginning(const struct walk *walk, const struct file *marks, size_t number)
{
    size_t count = marks->length / UDUKEMB_MARK;

    if (number == 0)
        printf("from the start, since none of %zu marks is before that\n", count);
    else
        printf("from mark %zu of %zu, behind packet %" PRIu64 ", at offset %zu\n", number, count, walk->opened, walk->next.offset);
}

void open_from(const char *name, const char *marks_name, struct place place, bool checked, char **words)
{
    struct link link = read_stateless(words);
    struct file tape, marks = load(marks_name);
    uint8_t start[UDUKEMB_LINK_RECORD];
    struct walk walk;
    size_t number, shown;

    start_link(&link, start);
    if (checked) {
        check_list(&marks, start);
    } else {
        tape = load_tape(name);
        check_marks(&tape, start, &marks);
    }
    number = nearest_mark(&marks, &place);
    walk_from(&walk, &tape, start, &marks, number);
    if (checked)
        tape = load_tape_from(name, walk.next.offset);
    show_beginning(&walk, &marks, number);
    shown = show_from(&walk, &place);
    check_end(&tape, walk.next, number == 0 ? "before it" : "between the mark and it", walk.packets);
    if (number == 0)
        judge_key(&walk, "");
    if (shown == 0)
        stop("%s has no packet from %s %" PRIu64 " on; it has %zu octets, and %" PRIu64 " packets open", name,
             place.is_offset ? "offset" : "number", place.number, tape.length, walk.opened);
    free(marks.octets);
    free(tape.octets);
}
