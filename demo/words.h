/*
 * What the bench's program reads from the command line and from standard input: words, numbers, and the start key of a link or the
 * login that leads to it. What is wrong with them ends the program with a sentence and status 1. It compiles as C and as C++.
 */
#ifndef WORDS_H
#define WORDS_H

#include "udukemb.h"

/* A login: what both ends work out their start keys from. The password is UTF-16, low octet first. */
struct login {
    const uint8_t *name;
    size_t name_length;
    const uint8_t *password;
    size_t password_length;
    const uint8_t *authenticator_challenge, *peer_challenge;
};

/* What the words say of a link: its strength and mode, whether a login leads to its start key, and at which end it is received. */
struct link {
    uint8_t bits;
    bool stateful;
    bool by_login, server;
    const char *name;
    uint8_t authenticator_challenge[UDUKEMB_CHALLENGE], peer_challenge[UDUKEMB_CHALLENGE];
};

/* Ends the program with a sentence on what is wrong, behind what was printed before. */
__attribute__((noreturn, format(printf, 1, 2))) void stop(const char *format, ...);

/* Whether two words are the same. */
bool is(const char *word, const char *other);

/* Which of two words a word is: true for the second. */
bool pick(const char *word, const char *first, const char *second);

/* The number that a word is: decimal digits and nothing else. */
uint64_t read_number(const char *what, const char *word);

/* Whether so many words can name a link: BITS MODE key, or BITS MODE login and four words. */
bool names_link(int count, char **words);

/* Reads the words that name a link. */
struct link read_link(char **words);

/* Reads the start key or the password of a link from standard input, and gives the link record that the link begins with. */
void start_link(const struct link *link, uint8_t record[UDUKEMB_LINK_RECORD]);

/* The start key that an end receives with after a login. */
void receiving_key(const struct login *login, uint8_t bits, bool server, uint8_t key[UDUKEMB_START_KEY_128]);

#endif
