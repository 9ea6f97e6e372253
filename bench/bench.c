/* The library against plain C and OpenSSL in one run: short bursts in turn, the best of many. No result fails anything.
   OpenSSL by its low-level calls, which fetch nothing and so are its fastest on short texts; HMAC and packets are put together
   from them here.
   bench           the table; instructions by the machine's counter, where it is there to be read
   bench FILE      the table; instructions from FILE, the library's and plain C's for each row
   bench count     under callgrind, started with its collecting off: a dump for each number of such a file */
#define OPENSSL_SUPPRESS_DEPRECATED
#define _GNU_SOURCE
#include "plain.h"
#include <linux/perf_event.h>
#include <openssl/des.h>
#include <openssl/md4.h>
#include <openssl/rc4.h>
#include <openssl/sha.h>
#include <stdbool.h>
#include <stdio.h>
#include <stdlib.h>
#include <string.h>
#include <sys/ioctl.h>
#include <sys/syscall.h>
#include <time.h>
#include <unistd.h>
#if __has_include(<valgrind/callgrind.h>)
#include <valgrind/callgrind.h>
#else
#define CALLGRIND_TOGGLE_COLLECT (void)0
#define CALLGRIND_DUMP_STATS (void)0
#endif

/* What crate bench exports. */
uint8_t bench_md4(const octet *text, size_t n, octet *out, size_t room);
uint8_t bench_sha1(const octet *text, size_t n, octet *out, size_t room);
uint8_t bench_sha256(const octet *text, size_t n, octet *out, size_t room);
uint8_t bench_hmac_sha256(const octet *key, size_t k, const octet *text, size_t n, octet *out, size_t room);
uint8_t bench_des(const octet *key, size_t k, const octet *block, size_t n, octet *out, size_t room);
uint8_t bench_rc4(const octet *key, size_t k, const octet *text, size_t n, octet *out, size_t room);
uint8_t bench_key_changes(const octet *start, size_t a, const octet *session, size_t b, size_t n, octet *out, size_t room);
uint8_t bench_seal(bool bits40, bool stateful, const octet *start, size_t a, const octet *session, size_t b, uint16_t count,
                   const octet *plain, size_t n, octet *out, size_t room);
uint8_t bench_open(bool bits40, bool stateful, const octet *start, size_t a, const octet *session, size_t b, uint16_t count,
                   const octet *packet, size_t n, octet *out, size_t room);
uint8_t bench_pieces(bool bits40, bool stateful, const octet *start, size_t a, const octet *session, size_t b, uint16_t count, size_t step,
                     const octet *front, size_t f, const octet *data, size_t n, octet *out, size_t m);

enum { BURSTS = 400, LONGEST = 65535 };

/* One thing measured: three ways to do it, on inputs of a size, and how many octets it gives; of packets, the link's strength and mode
   and the receiver's distance. */
struct measure {
    const char *name;
    void (*ours)(size_t), (*plain)(size_t), (*openssl)(size_t);
    size_t size, gives;
    int bits;
    unsigned distance;
    bool stateful;
};

static octet text[LONGEST], out[LONGEST], key[32];

static void ours_md4(size_t n) { bench_md4(text, n, out, 16); }
static void plain_md4_of(size_t n) { plain_md4(text, n, out); }
static void openssl_md4(size_t n)
{
    MD4_CTX c;
    MD4_Init(&c);
    MD4_Update(&c, text, n);
    MD4_Final(out, &c);
}

static void ours_sha1(size_t n) { bench_sha1(text, n, out, 20); }
static void plain_sha1_of(size_t n) { plain_sha1(text, n, out); }
static void openssl_sha1(size_t n)
{
    SHA_CTX c;
    SHA1_Init(&c);
    SHA1_Update(&c, text, n);
    SHA1_Final(out, &c);
}

static void ours_sha256(size_t n) { bench_sha256(text, n, out, 32); }
static void plain_sha256_of(size_t n) { plain_sha256(text, n, out); }
static void openssl_sha256(size_t n)
{
    SHA256_CTX c;
    SHA256_Init(&c);
    SHA256_Update(&c, text, n);
    SHA256_Final(out, &c);
}

static void ours_hmac(size_t n) { bench_hmac_sha256(key, 32, text, n, out, 32); }
static void plain_hmac_of(size_t n) { plain_hmac_sha256(key, 32, text, n, out); }
static void openssl_hmac(size_t n)
{
    octet block[64] = {0}, inner[32];
    SHA256_CTX c;
    memcpy(block, key, 32);
    for (int k = 0; k < 64; k++)
        block[k] ^= 0x36;
    SHA256_Init(&c);
    SHA256_Update(&c, block, 64);
    SHA256_Update(&c, text, n);
    SHA256_Final(inner, &c);
    for (int k = 0; k < 64; k++)
        block[k] ^= 0x36 ^ 0x5c;
    SHA256_Init(&c);
    SHA256_Update(&c, block, 64);
    SHA256_Update(&c, inner, 32);
    SHA256_Final(out, &c);
}

static void ours_des(size_t n) { bench_des(key, 7, text, n, out, 8); }
static void plain_des_of(size_t n)
{
    (void)n;
    plain_des(key, text, out);
}
static void openssl_des(size_t n)
{
    DES_cblock spread;
    DES_key_schedule schedule;
    uint64_t k = 0;
    (void)n;
    for (int i = 0; i < 7; i++)
        k = k << 8 | key[i];
    for (int i = 0; i < 8; i++)
        spread[i] = k >> (49 - 7 * i) << 1;
    DES_set_key_unchecked(&spread, &schedule);
    DES_ecb_encrypt((DES_cblock *)text, (DES_cblock *)out, &schedule, DES_ENCRYPT);
}

static void ours_rc4(size_t n) { bench_rc4(key, 16, text, n, out, n); }
static void plain_rc4_of(size_t n) { plain_rc4(key, 16, text, n, out); }
static void openssl_rc4(size_t n)
{
    RC4_KEY k;
    RC4_set_key(&k, 16, key);
    RC4(&k, n, text, out);
}

static void ours_changes(size_t n) { bench_key_changes(key, 16, key + 16, 16, n, out, 16); }
static void plain_changes_of(size_t n) { plain_key_changes(128, key, key + 16, n, out); }
static void openssl_changed(int bits, const octet *start, const octet *session, size_t n)
{
    static const octet head[3] = {0xd1, 0x26, 0x9e};
    size_t k = bits == 128 ? 16 : 8;
    octet hashed[112], interim[20];
    RC4_KEY cipher;
    memcpy(hashed, start, k);
    memset(hashed + k, 0x00, 40);
    memcpy(hashed + k + 40, session, k);
    memset(hashed + 2 * k + 40, 0xf2, 40);
    while (n-- > 0) {
        SHA_CTX c;
        SHA1_Init(&c);
        SHA1_Update(&c, hashed, 2 * k + 80);
        SHA1_Final(interim, &c);
        RC4_set_key(&cipher, k, interim);
        RC4(&cipher, k, interim, hashed + k + 40);
        if (bits == 40)
            memcpy(hashed + k + 40, head, 3);
    }
    memcpy(out, hashed + k + 40, k);
}
static void openssl_changes(size_t n) { openssl_changed(128, key, key + 16, n); }

/* The link that packets go over: a sender's at count 4,095, or a receiver's that is `distance` packets behind it; a stateful one's next
   packet has count 1, draws on from the box that it holds, and brings no key change. The packet is a longest one, sealed for it; a shorter
   one has its first octets. OpenSSL's side tests nothing; of a record it keeps RC4's state alone. */
static struct plain_link link_now;
static unsigned distance;
static octet packet[LONGEST_PLAIN + 4];
static RC4_KEY held;

static size_t key_octets(void) { return link_now.bits == 128 ? 16 : 8; }

/* The text as a plain packet of the Internet Protocol. */
static const octet *plain_packet(void)
{
    text[0] = 0x00;
    text[1] = 0x21;
    return text;
}

static void link_set(int bits, unsigned behind, bool stateful)
{
    static const octet head[3] = {0xd1, 0x26, 0x9e};
    struct plain_link sender;
    memset(&link_now, 0, sizeof link_now);
    memset(&held, 0, sizeof held);
    link_now.bits = bits;
    link_now.stateful = stateful;
    for (int k = 0; k < 256; k++)
        held.data[k] = link_now.state.box[k] = k;
    memcpy(link_now.start, key, key_octets());
    memcpy(link_now.session, key + 16, key_octets());
    memcpy(link_now.session, head, bits == 40 ? 3 : 0);
    distance = behind;
    sender = link_now;
    sender.count = stateful ? 0 : 4095;
    if (!stateful)
        plain_key_changes(bits, link_now.start, link_now.session, behind - 1, sender.session);
    plain_seal(sender, plain_packet(), LONGEST_PLAIN, packet, sizeof packet);
    link_now.count = (sender.count + 1 + 4096 - behind) % 4096;
}

static void ours_seal(size_t n)
{
    size_t k = key_octets();
    bench_seal(link_now.bits == 40, link_now.stateful, link_now.start, k, link_now.session, k, link_now.count, plain_packet(), n, out,
               n + 4);
}
static void plain_seal_of(size_t n) { plain_seal(link_now, plain_packet(), n, out, n + 4); }

/* A link's RC4: the one that it holds, or one keyed after so many key changes. */
static RC4_KEY openssl_cipher(size_t changes)
{
    RC4_KEY k = held;
    if (link_now.stateful)
        return k;
    openssl_changed(link_now.bits, link_now.start, link_now.session, changes);
    RC4_set_key(&k, key_octets(), out);
    return k;
}
static void openssl_seal(size_t n)
{
    const octet front[4] = {0x00, 0xfd, link_now.stateful ? 0x10 : 0x90, link_now.stateful};
    RC4_KEY k = openssl_cipher(1);
    memcpy(out, front, 4);
    RC4(&k, n, plain_packet(), out + 4);
}

static void ours_open(size_t n)
{
    size_t k = key_octets();
    bench_open(link_now.bits == 40, link_now.stateful, link_now.start, k, link_now.session, k, link_now.count, packet, n + 4, out, n);
}
static void plain_open_of(size_t n) { plain_open(link_now, packet, n + 4, out, n); }
static void openssl_open(size_t n)
{
    RC4_KEY k = openssl_cipher(distance);
    RC4(&k, n, packet + 4, out);
}

/* The same packet in pieces; the others open it in one call. */
static void ours_pieces(size_t n, size_t step)
{
    size_t k = key_octets();
    bench_pieces(link_now.bits == 40, link_now.stateful, link_now.start, k, link_now.session, k, link_now.count, step, packet, 4, packet + 4, n,
                 out, n);
}
static void ours_by_64(size_t n) { ours_pieces(n, 64); }
static void ours_by_1(size_t n) { ours_pieces(n, 1); }

static const struct measure measures[] = {
    {"MD4, 112 octets", ours_md4, plain_md4_of, openssl_md4, 112, 16, 128, 1, false},
    {"MD4, 65,535 octets", ours_md4, plain_md4_of, openssl_md4, 65535, 16, 128, 1, false},
    {"SHA-1, 112 octets", ours_sha1, plain_sha1_of, openssl_sha1, 112, 20, 128, 1, false},
    {"SHA-1, 65,535 octets", ours_sha1, plain_sha1_of, openssl_sha1, 65535, 20, 128, 1, false},
    {"SHA-256, 112 octets", ours_sha256, plain_sha256_of, openssl_sha256, 112, 32, 128, 1, false},
    {"SHA-256, 65,535 octets", ours_sha256, plain_sha256_of, openssl_sha256, 65535, 32, 128, 1, false},
    {"HMAC-SHA256, 112 octets", ours_hmac, plain_hmac_of, openssl_hmac, 112, 32, 128, 1, false},
    {"HMAC-SHA256, 65,535 octets", ours_hmac, plain_hmac_of, openssl_hmac, 65535, 32, 128, 1, false},
    {"DES, key and block", ours_des, plain_des_of, openssl_des, 8, 8, 128, 1, false},
    {"RC4, fresh key, 1,500 octets", ours_rc4, plain_rc4_of, openssl_rc4, 1500, 1500, 128, 1, false},
    {"one key change, 128 bits", ours_changes, plain_changes_of, openssl_changes, 1, 16, 128, 1, false},
    {"4,095 key changes, 128 bits", ours_changes, plain_changes_of, openssl_changes, 4095, 16, 128, 1, false},
    {"seal, 64 octets", ours_seal, plain_seal_of, openssl_seal, 64, 68, 128, 1, false},
    {"seal, 576 octets", ours_seal, plain_seal_of, openssl_seal, 576, 580, 128, 1, false},
    {"seal, 1,498 octets", ours_seal, plain_seal_of, openssl_seal, 1498, 1502, 128, 1, false},
    {"seal, 31,998 octets", ours_seal, plain_seal_of, openssl_seal, 31998, 32002, 128, 1, false},
    {"open, 64 octets", ours_open, plain_open_of, openssl_open, 64, 64, 128, 1, false},
    {"open, 576 octets", ours_open, plain_open_of, openssl_open, 576, 576, 128, 1, false},
    {"open, 1,498 octets", ours_open, plain_open_of, openssl_open, 1498, 1498, 128, 1, false},
    {"open, 31,998 octets", ours_open, plain_open_of, openssl_open, 31998, 31998, 128, 1, false},
    {"seal, 64 octets, 40 bits", ours_seal, plain_seal_of, openssl_seal, 64, 68, 40, 1, false},
    {"seal, 1,498 octets, 40 bits", ours_seal, plain_seal_of, openssl_seal, 1498, 1502, 40, 1, false},
    {"open, 64 octets, 40 bits", ours_open, plain_open_of, openssl_open, 64, 64, 40, 1, false},
    {"open, 1,498 octets, 40 bits", ours_open, plain_open_of, openssl_open, 1498, 1498, 40, 1, false},
    {"open, 1,498 octets, 2,047 lost before", ours_open, plain_open_of, openssl_open, 1498, 1498, 128, 2048, false},
    {"open, 1,498 octets in pieces of 64", ours_by_64, plain_open_of, openssl_open, 1498, 1498, 128, 1, false},
    {"open, 31,998 octets in pieces of 64", ours_by_64, plain_open_of, openssl_open, 31998, 31998, 128, 1, false},
    {"open, 1,498 octets one by one", ours_by_1, plain_open_of, openssl_open, 1498, 1498, 128, 1, false},
    {"stateful seal, 64 octets", ours_seal, plain_seal_of, openssl_seal, 64, 68, 128, 1, true},
    {"stateful seal, 1,498 octets", ours_seal, plain_seal_of, openssl_seal, 1498, 1502, 128, 1, true},
    {"stateful seal, 31,998 octets", ours_seal, plain_seal_of, openssl_seal, 31998, 32002, 128, 1, true},
    {"stateful open, 64 octets", ours_open, plain_open_of, openssl_open, 64, 64, 128, 1, true},
    {"stateful open, 1,498 octets", ours_open, plain_open_of, openssl_open, 1498, 1498, 128, 1, true},
    {"stateful open, 31,998 octets", ours_open, plain_open_of, openssl_open, 31998, 31998, 128, 1, true},
    {"stateful open, 1,498 octets in pieces of 64", ours_by_64, plain_open_of, openssl_open, 1498, 1498, 128, 1, true},
};

static double now(void)
{
    struct timespec t;
    clock_gettime(CLOCK_MONOTONIC, &t);
    return 1e9 * t.tv_sec + t.tv_nsec;
}

static double burst(void (*f)(size_t), size_t size, size_t times)
{
    double begun = now();
    for (size_t k = 0; k < times; k++)
        f(size);
    return (now() - begun) / times;
}

/* What one way gives, held against what another gave. */
static void agree(const struct measure *m, void (*f)(size_t), const octet *expected)
{
    memset(out, 0, m->gives);
    f(m->size);
    if (memcmp(out, expected, m->gives) != 0) {
        fprintf(stderr, "%s: the three ways differ\n", m->name);
        exit(1);
    }
}

/* The machine's counter of instructions, or -1. */
static int counter(void)
{
    struct perf_event_attr a = {.type = PERF_TYPE_HARDWARE, .size = sizeof a, .config = PERF_COUNT_HW_INSTRUCTIONS, .exclude_kernel = 1};
    return syscall(SYS_perf_event_open, &a, 0, -1, -1, 0);
}

/* How many instructions one way takes, the second time it is done; 0 where that is not known. */
static long counted(int fd, void (*f)(size_t), size_t size)
{
    long n = 0;

    f(size);
    if (fd >= 0)
        ioctl(fd, PERF_EVENT_IOC_RESET, 0);
    CALLGRIND_TOGGLE_COLLECT;
    f(size);
    CALLGRIND_TOGGLE_COLLECT;
    if (fd < 0 || read(fd, &n, sizeof n) != sizeof n)
        n = 0;
    return n;
}

static void measured(const struct measure *m, const long *instructions)
{
    static octet expected[LONGEST];
    void (*ways[3])(size_t) = {m->ours, m->plain, m->openssl};
    double best[3] = {1e18, 1e18, 1e18};
    size_t times;

    m->openssl(m->size);
    memcpy(expected, out, m->gives);
    agree(m, m->ours, expected);
    agree(m, m->plain, expected);
    times = 1 + 100000 / burst(m->ours, m->size, 10);
    for (int b = 0; b < BURSTS; b++)
        for (int w = 0; w < 3; w++) {
            double t = burst(ways[w], m->size, times);
            best[w] = t < best[w] ? t : best[w];
        }
    printf("| %s | %.0f | %.0f | %.0f | %.2f | %.2f |", m->name, best[0], best[1], best[2], best[1] / best[0], best[2] / best[0]);
    for (int w = 0; w < 2; w++)
        instructions[w] ? printf(" %ld |", instructions[w]) : printf(" |");
    printf("\n");
    fflush(stdout);
}

int main(int words, char **word)
{
    bool only_count = words == 2 && strcmp(word[1], "count") == 0;
    FILE *counts = words == 2 && !only_count ? fopen(word[1], "r") : NULL;
    int fd = counter();

    for (size_t k = 0; k < sizeof text; k++)
        text[k] = 7 * k + k / 251 + 3;
    for (size_t k = 0; k < sizeof key; k++)
        key[k] = 29 * k + 11;
    if (!only_count) {
        printf("| Measured | Udukemb, ns | plain C, ns | OpenSSL, ns | plain C's time over ours | OpenSSL's time over ours "
               "| Udukemb, instructions | plain C, instructions |\n");
        printf("|---|---|---|---|---|---|---|---|\n");
    }
    for (size_t k = 0; k < sizeof measures / sizeof *measures; k++) {
        const struct measure *m = &measures[k];
        void (*ways[2])(size_t) = {m->ours, m->plain};
        long n[2];
        link_set(m->bits, m->distance, m->stateful);
        for (int w = 0; w < 2; w++) {
            n[w] = counted(fd, ways[w], m->size);
            CALLGRIND_DUMP_STATS;
            if (counts && fscanf(counts, "%ld", &n[w]) != 1)
                n[w] = 0;
        }
        if (!only_count)
            measured(m, n);
    }
    return 0;
}
