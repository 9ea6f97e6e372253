/* Plain portable C for the benchmark, after the public documents, with no code of the library's. */
#ifndef PLAIN_H
#define PLAIN_H
#include <stddef.h>
#include <stdint.h>

typedef uint8_t octet;

/* The longest plain packet (02, M-110). */
enum { LONGEST_PLAIN = 31998 };

struct plain_rc4 { octet box[256]; octet i, j; };
struct plain_link {
    int bits, stateful;
    octet start[16], session[16];
    unsigned count;
    struct plain_rc4 state;
    int waiting;
};
struct plain_outcome { int answer; unsigned changes; struct plain_link link; };

void plain_md4(const octet *text, size_t n, octet *out);
void plain_sha1(const octet *text, size_t n, octet *out);
void plain_sha256(const octet *text, size_t n, octet *out);
void plain_hmac_sha256(const octet *key, size_t k, const octet *text, size_t n, octet *out);
void plain_des(const octet *key, const octet *block, octet *out);
void plain_rc4(const octet *key, size_t k, const octet *text, size_t n, octet *out);
void plain_key_changes(int bits, const octet *start, const octet *session, size_t n, octet *out);
struct plain_outcome plain_seal(struct plain_link link, const octet *plain, size_t n, octet *out, size_t room);
struct plain_outcome plain_open(struct plain_link link, const octet *packet, size_t n, octet *out, size_t room);
#endif
