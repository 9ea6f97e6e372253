/* What the bench's program reads from the command line and from standard input. */
#include "words.h"
#include "line.h"

#include <stdarg.h>
#include <stdio.h>
#include <stdlib.h>
#include <string.h>

/* The longest line of standard input: a password of characters that have three octets in UTF-8 and two in UTF-16. */
enum { LONGEST_LINE = UDUKEMB_LONGEST_PASSWORD / 2 * 3 };

/* What stands for the value of something that is no hexadecimal digit, and what a number is written in. */
enum { NO_DIGIT = 16, BASE = 10 };
static const char digits[] = "0123456789";

/* How many words name a link with its start key, and with a login. */
enum { WORDS_WITH_KEY = 3, WORDS_WITH_LOGIN = 7 };

/* UTF-8, RFC 3629: what marks every octet of a character but the first, how many bits it adds, and the last character. */
enum { NEXT_MASK = 0xC0, NEXT_MARK = 0x80, NEXT_BITS = 6, LAST_CHARACTER = 0x10FFFF };

/* UTF-16, RFC 2781: the first character that takes two units, what marks the first unit and the second, and how many bits each has. */
enum { FIRST_OF_TWO = 0x10000, HIGH_UNIT = 0xD800, LOW_UNIT = 0xDC00, LAST_UNIT = 0xDFFF, UNIT_BITS = 10, UNIT_MASK = 0x3FF };

void stop(const char *format, ...)
{
    va_list values;

    fflush(stdout);
    fputs("tape: ", stderr);
    va_start(values, format);
    vfprintf(stderr, format, values);
    va_end(values);
    fputc('\n', stderr);
    exit(EXIT_FAILURE);
}

bool is(const char *word, const char *other)
{
    return strcmp(word, other) == 0;
}

bool pick(const char *word, const char *first, const char *second)
{
    if (!is(word, first) && !is(word, second))
        stop("\"%s\" is neither %s nor %s", word, first, second);
    return is(word, second);
}

uint64_t read_number(const char *what, const char *word)
{
    uint64_t number = 0;

    if (*word == '\0' || word[strspn(word, digits)] != '\0')
        stop("the %s \"%s\" is no number of digits alone", what, word);
    for (const char *c = word; *c != '\0'; c++) {
        unsigned value = (unsigned)(*c - '0');

        if (number > (UINT64_MAX - value) / BASE)
            stop("the %s \"%s\" is too large a number", what, word);
        number = number * BASE + value;
    }
    return number;
}

/* The strength that a word names. */
static uint8_t read_bits(const char *word)
{
    if (is(word, "40"))
        return 40;
    if (is(word, "56"))
        return 56;
    if (!is(word, "128"))
        stop("\"%s\" is none of the strengths 40, 56 and 128", word);
    return 128;
}

/* The length of a start key. */
static size_t key_length(uint8_t bits)
{
    return bits == 128 ? UDUKEMB_START_KEY_128 : UDUKEMB_START_KEY_40;
}

/* The value of a hexadecimal digit. */
static unsigned digit(uint8_t c)
{
    if (c >= '0' && c <= '9')
        return c - '0';
    if (c >= 'A' && c <= 'F')
        return c - 'A' + 10u;
    if (c >= 'a' && c <= 'f')
        return c - 'a' + 10u;
    return NO_DIGIT;
}

/* Reads octets from hexadecimal digits; false where these are not twice as many, or something else is among them. */
static bool read_hex(const uint8_t *text, size_t count, uint8_t *octets, size_t n)
{
    if (count != 2 * n)
        return false;
    for (size_t i = 0; i < n; i++) {
        unsigned high = digit(text[2 * i]), low = digit(text[2 * i + 1]);

        if (high == NO_DIGIT || low == NO_DIGIT)
            return false;
        octets[i] = (uint8_t)(high << 4 | low);
    }
    return true;
}

/* Reads a challenge. */
static void read_challenge(const char *what, const char *word, uint8_t challenge[UDUKEMB_CHALLENGE])
{
    if (!read_hex((const uint8_t *)word, strlen(word), challenge, UDUKEMB_CHALLENGE))
        stop("the %s challenge is not %d hexadecimal digits", what, 2 * UDUKEMB_CHALLENGE);
}

/* Reads the first line of standard input, without its end, and gives its length. */
static size_t read_line(uint8_t line[LONGEST_LINE])
{
    size_t n = 0;
    int c;

    while ((c = getchar()) != EOF && c != '\n') {
        if (n == LONGEST_LINE)
            stop("the line on standard input has more than %d octets", LONGEST_LINE);
        line[n++] = (uint8_t)c;
    }
    if (ferror(stdin) || (c == EOF && n == 0))
        stop("there is no line on standard input");
    return n;
}

/* Reads the first character of UTF-8, RFC 3629, and gives how many octets it has; 0 where it is malformed. */
static size_t read_character(const uint8_t *text, size_t n, uint32_t *character)
{
    static const struct {
        uint8_t mask, mark;
        uint32_t least;
    } forms[] = { { 0x80, 0x00, 0 }, { 0xE0, 0xC0, 0x80 }, { 0xF0, 0xE0, 0x800 }, { 0xF8, 0xF0, FIRST_OF_TWO } };
    size_t more = 0;
    uint32_t c;

    while (more < sizeof forms / sizeof forms[0] && (text[0] & forms[more].mask) != forms[more].mark)
        more++;
    if (more == sizeof forms / sizeof forms[0] || more >= n)
        return 0;
    c = (uint8_t)(text[0] & ~forms[more].mask);
    for (size_t i = 1; i <= more; i++) {
        if ((text[i] & NEXT_MASK) != NEXT_MARK)
            return 0;
        c = c << NEXT_BITS | (uint8_t)(text[i] & ~NEXT_MASK);
    }
    *character = c;
    return c < forms[more].least || c > LAST_CHARACTER || (c >= HIGH_UNIT && c <= LAST_UNIT) ? 0 : more + 1;
}

/* Writes a unit of UTF-16 behind a password, low octet first, and gives the password's length. */
static size_t put_unit(uint32_t unit, uint8_t utf16[UDUKEMB_LONGEST_PASSWORD], size_t length)
{
    if (length == UDUKEMB_LONGEST_PASSWORD)
        stop("the password has more than %d octets in UTF-16", UDUKEMB_LONGEST_PASSWORD);
    utf16[length] = (uint8_t)(unit & 0xFF);
    utf16[length + 1] = (uint8_t)(unit >> 8);
    return length + 2;
}

/* Reads a password from standard input, and gives its length. */
static size_t read_password(uint8_t utf16[UDUKEMB_LONGEST_PASSWORD])
{
    uint8_t line[LONGEST_LINE];
    size_t n = read_line(line), length = 0;

    for (size_t at = 0, octets; at < n; at += octets) {
        uint32_t c = 0;

        octets = read_character(line + at, n - at, &c);
        if (octets == 0)
            stop("the password is malformed UTF-8");
        if (c < FIRST_OF_TWO) {
            length = put_unit(c, utf16, length);
        } else {
            length = put_unit(HIGH_UNIT | (c - FIRST_OF_TWO) >> UNIT_BITS, utf16, length);
            length = put_unit(LOW_UNIT | ((c - FIRST_OF_TWO) & UNIT_MASK), utf16, length);
        }
    }
    return length;
}

/* Reads a start key from standard input. */
static void read_key(uint8_t bits, uint8_t key[UDUKEMB_START_KEY_128])
{
    uint8_t line[LONGEST_LINE];
    size_t n = read_line(line);

    if (!read_hex(line, n, key, key_length(bits)))
        stop("the start key is not %zu hexadecimal digits, as %u bits have it", 2 * key_length(bits), bits);
}

void receiving_key(const struct login *login, uint8_t bits, bool server, uint8_t key[UDUKEMB_START_KEY_128])
{
    uint8_t response[UDUKEMB_NT_RESPONSE];

    must("the response",
         udukemb_nt_response(login->authenticator_challenge, UDUKEMB_CHALLENGE, login->peer_challenge, UDUKEMB_CHALLENGE, login->name,
                             login->name_length, login->password, login->password_length, response, sizeof response));
    must("the start key", udukemb_start_key(bits, server, false, login->password, login->password_length, response, sizeof response,
                                            key, UDUKEMB_START_KEY_128));
}

bool names_link(int count, char **words)
{
    return (count == WORDS_WITH_KEY && is(words[2], "key")) || (count == WORDS_WITH_LOGIN && is(words[2], "login"));
}

struct link read_link(char **words)
{
    struct link link;

    memset(&link, 0, sizeof link);
    link.bits = read_bits(words[0]);
    link.stateful = pick(words[1], "stateless", "stateful");
    link.by_login = is(words[2], "login");
    if (link.by_login) {
        link.server = pick(words[3], "station", "control-room");
        link.name = words[4];
        if (strlen(link.name) > UDUKEMB_LONGEST_NAME)
            stop("the name has more than %d octets", UDUKEMB_LONGEST_NAME);
        read_challenge("authenticator", words[5], link.authenticator_challenge);
        read_challenge("peer", words[6], link.peer_challenge);
    }
    return link;
}

/* Reads a password from standard input, and gives the start key of the login that a link is made after. */
static void read_login(const struct link *link, uint8_t key[UDUKEMB_START_KEY_128])
{
    uint8_t utf16[UDUKEMB_LONGEST_PASSWORD];
    size_t length = read_password(utf16);
    struct login login = { (const uint8_t *)link->name, strlen(link->name), utf16, length, link->authenticator_challenge,
                           link->peer_challenge };

    receiving_key(&login, link->bits, link->server, key);
}

void start_link(const struct link *link, uint8_t record[UDUKEMB_LINK_RECORD])
{
    uint8_t key[UDUKEMB_START_KEY_128];

    if (link->by_login)
        read_login(link, key);
    else
        read_key(link->bits, key);
    must("the link", udukemb_new_link(link->bits, link->stateful, key, key_length(link->bits), record, UDUKEMB_LINK_RECORD));
}
