/*
 * The bench's program: records the packets that arrive over a line of the demonstration to a tape, lists a tape, and replays one
 * with the start key of its link or with the login that leads to it; and keeps marks beside a stateless tape, checks them, and opens
 * from them. A key or password is read from standard input, so that it stands in no list of processes. Bad input ends it with one
 * sentence and status 1, wrong usage with status 2. It compiles as C and as C++.
 */
#include "files.h"
#include "line.h"
#include "marks.h"
#include "recording.h"
#include "walk.h"
#include "words.h"

#include <errno.h>
#include <inttypes.h>
#include <stdio.h>
#include <stdlib.h>
#include <string.h>

/* The status on wrong usage. */
enum { WRONG_USAGE = 2 };

/* What an MPPE packet begins with, and the bits of its header's first octet that belong to the count. */
static const uint8_t mppe[] = { 0x00, 0xFD };
enum { COUNT_MASK = 0x0F };

/* How it is used. */
static const char usage[] =
    "usage:\n"
    "  tape record FILE stateless|stateful\n"
    "      records what arrives over a line of the demonstration: readings, stateless, or setpoints, stateful\n"
    "  tape record FILE stateless|stateful backhaul\n"
    "      records packets of a backhaul unit, of lengths up to the longest\n"
    "  tape record FILE stateless|stateful long\n"
    "      records more than 100,000 short packets, some lost, damaged or repeated, and says no more than how many\n"
    "  tape list FILE\n"
    "      lists the packets of a tape\n"
    "  tape replay FILE BITS stateless|stateful key\n"
    "      opens them in turn; standard input has the start key, a line of 16 hexadecimal digits at 40 and 56 BITS, 32 at 128\n"
    "  tape replay FILE BITS stateless|stateful login station|control-room NAME AUTHENTICATOR-CHALLENGE PEER-CHALLENGE\n"
    "      opens them in turn with the start key of a login, at the end that received them; standard input has the password,\n"
    "      a line of UTF-8; a challenge is 32 hexadecimal digits\n"
    "marks beside a stateless tape; LINK stands for what replay has behind FILE:\n"
    "  tape mark FILE MARKS LINK\n"
    "      writes the tape's marks to the file MARKS, one behind each 256th opened packet; they hold keys, so keep them secret\n"
    "  tape check FILE MARKS LINK\n"
    "      says yes where MARKS has the tape's marks; otherwise no, which mark is the first that differs, and status 1\n"
    "  tape open FILE MARKS packet|offset NUMBER LINK\n"
    "      checks the marks, by a walk over the whole tape, and opens from the packet of that NUMBER among those opened, or\n"
    "      from the first one at that offset or behind it, going on from the nearest mark before it\n"
    "  tape open FILE MARKS packet|offset NUMBER checked LINK\n"
    "      the same at once, without reading what is before the mark: only for marks that a check of this tape said yes to,\n"
    "      since a false mark opens to false packets\n";

/* Lists a packet: what its header says, where it has one. */
static void list_packet(size_t number, size_t offset, const uint8_t *packet, size_t n)
{
    uint8_t flags = packet[HEADER];

    printf("%6zu %10zu %6zu", number, offset, n);
    if (memcmp(packet, mppe, sizeof mppe) == 0)
        printf("  %d %d %6d\n", (flags & BIT_A) != 0, (flags & BIT_D) != 0, (flags & COUNT_MASK) << 8 | packet[HEADER + 1]);
    else
        printf("  it does not begin with 00 FD, as MPPE packets do\n");
}

/* Lists a tape. */
static void list(const char *name)
{
    struct file tape = load_tape(name);
    struct udukemb_next next = at_start;
    size_t offset = at_start.offset, packets = 0;
    time_t said = time(NULL);

    printf("number     offset octets  A D  count\n");
    while (find_next(&tape, &next)) {
        packets++;
        list_packet(packets, offset, tape.octets + next.start, next.offset - next.start);
        offset = next.offset;
        show_progress(&tape, offset, &said);
    }
    printf("packets: %zu\n", packets);
    check_end(&tape, next, "before it", packets);
    free(tape.octets);
}

/* Replays a tape from its start on a new link. */
static void replay(const char *name, char **words)
{
    struct link link = read_link(words);
    struct file tape = load_tape(name);
    uint8_t start[UDUKEMB_LINK_RECORD];
    struct walk walk;

    start_link(&link, start);
    begin_walk(&walk, &tape, start);
    while (walk_on(&walk)) {
        printf("number %zu at offset %zu: ", walk.packets, walk.offset);
        show_step(&walk);
    }
    printf("packets: %zu, opened: %" PRIu64 ", refused: %" PRIu64 "\n", walk.packets, walk.opened, walk.packets - walk.opened);
    check_end(&tape, walk.next, "before it", walk.packets);
    judge_key(&walk, "");
    free(tape.octets);
}

/* Whether the words are a command that has so many words in front of those that name a link. */
static bool is_command(int argc, char **argv, const char *command, int own)
{
    return argc > own && is(argv[1], command) && names_link(argc - own, argv + own);
}

/* Does what the words say; false where they say nothing that the program does. */
static bool run(int argc, char **argv)
{
    bool checked = argc > 6 && is(argv[6], "checked");

    if (argc == 4 && is(argv[1], "record"))
        record(argv[2], argv[3], record_line);
    else if (argc == 5 && is(argv[1], "record") && is(argv[4], "backhaul"))
        record(argv[2], argv[3], record_backhaul);
    else if (argc == 5 && is(argv[1], "record") && is(argv[4], "long"))
        record(argv[2], argv[3], record_long);
    else if (argc == 3 && is(argv[1], "list"))
        list(argv[2]);
    else if (is_command(argc, argv, "replay", 3))
        replay(argv[2], argv + 3);
    else if (is_command(argc, argv, "mark", 4))
        write_marks(argv[2], argv[3], argv + 4);
    else if (is_command(argc, argv, "check", 4))
        check(argv[2], argv[3], argv + 4);
    else if (is_command(argc, argv, "open", 6 + checked))
        open_from(argv[2], argv[3], read_place(argv[4], argv[5]), checked, argv + 6 + checked);
    else
        return false;
    return true;
}

int main(int argc, char **argv)
{
    if (!run(argc, argv)) {
        fputs(usage, stderr);
        return WRONG_USAGE;
    }
    if (fflush(stdout) != 0 || ferror(stdout))
        stop("standard output cannot be written: %s", strerror(errno));
    return EXIT_SUCCESS;
}
