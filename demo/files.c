/* The files of the bench's program. */
#include "files.h"
#include "words.h"

#include <errno.h>
#include <stdlib.h>
#include <string.h>
#include <sys/stat.h>

/* How many octets the buffer for a file begins with. */
enum { FIRST_ROOM = 65536 };

/* Ends the program where a file cannot be read. */
__attribute__((noreturn)) static void stop_reading(const char *name)
{
    stop("%s cannot be read: %s", name, strerror(errno));
}

/* Ends the program where a file cannot be written. */
__attribute__((noreturn)) static void stop_writing(const char *name)
{
    stop("%s cannot be written: %s", name, strerror(errno));
}

/* Makes a file's room larger. */
static void grow(struct file *file, size_t room)
{
    file->octets = (uint8_t *)realloc(file->octets, room);
    if (file->octets == NULL)
        stop("%s is too long for the memory here", file->name);
}

uint8_t *room_for(const char *name, size_t n)
{
    struct file file = { name, NULL, 0 };

    grow(&file, n + 1);
    return file.octets;
}

/* Begins to read a file, of which no more is then read than is asked for. */
static FILE *open_file(const char *name)
{
    FILE *from = fopen(name, "rb");

    if (from == NULL || setvbuf(from, NULL, _IONBF, 0) != 0)
        stop_reading(name);
    return from;
}

/* Reads the rest of a file behind what is in memory, and closes it. */
static void load_rest(struct file *file, FILE *from)
{
    size_t room = file->length, more;

    do {
        if (file->length == room) {
            room = 2 * room + FIRST_ROOM;
            grow(file, room);
        }
        more = fread(file->octets + file->length, 1, room - file->length, from);
        file->length += more;
    } while (more > 0);
    if (ferror(from))
        stop_reading(file->name);
    fclose(from);
}

struct file load(const char *name)
{
    struct file file = { name, NULL, 0 };

    load_rest(&file, open_file(name));
    return file;
}

/* Goes to an offset of a file that is open, where it has one. */
static void go_to(const char *name, FILE *from, size_t offset)
{
    long end;

    if (fseek(from, 0, SEEK_END) != 0 || (end = ftell(from)) < 0)
        stop_reading(name);
    if (offset > (size_t)end)
        stop("%s has %ld octets, and the mark is at offset %zu", name, end, offset);
    if (fseek(from, (long)offset, SEEK_SET) != 0)
        stop_reading(name);
}

struct file load_tape_from(const char *name, size_t offset)
{
    struct file tape = { name, NULL, offset };
    uint8_t first[UDUKEMB_TAPE_START];
    FILE *from = open_file(name);
    size_t n = fread(first, 1, sizeof first, from);

    if (ferror(from))
        stop_reading(name);
    if (udukemb_tape_read(first, n, UDUKEMB_TAPE_START).offset == 0)
        stop("%s is no tape: its first octet is missing or not 1", name);
    if (offset > sizeof first)
        go_to(name, from, offset);
    grow(&tape, offset);
    memcpy(tape.octets, first, sizeof first);
    load_rest(&tape, from);
    return tape;
}

struct file load_tape(const char *name)
{
    return load_tape_from(name, UDUKEMB_TAPE_START);
}

bool same_file(const char *one, const char *other)
{
    struct stat first, second;

    return stat(one, &first) == 0 && stat(other, &second) == 0 && first.st_dev == second.st_dev && first.st_ino == second.st_ino;
}

FILE *begin_file(const char *name, bool secret)
{
    FILE *to;

    if (secret)
        umask(S_IRWXG | S_IRWXO);
    to = fopen(name, "wb");
    if (to == NULL)
        stop_writing(name);
    return to;
}

void put(const char *name, FILE *to, const uint8_t *octets, size_t n)
{
    if (fwrite(octets, 1, n, to) != n)
        stop_writing(name);
}

void end_file(const char *name, FILE *to)
{
    if (fclose(to) != 0)
        stop_writing(name);
}
