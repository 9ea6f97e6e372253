/* What crates/mppe_keys_samples must print, by the oracle (RFC 3079's procedures over OpenSSL), which is held against RFC 3079 as it
   prints its samples. */
#include "sample.h"

static octet counted[32];

/* A key's line; its octets are handed on. */
static void show(const char *label, int answer, const octet key[KEY_PLACES])
{
    line(label, answer, key, KEY_PLACES);
}

/* The session key after n key changes. */
static void changed(unsigned bits, part start, part session, unsigned n)
{
    octet key[KEY_PLACES];
    int answer = oracle_key_changes(bits, start, session, n, key);

    numbered("key changes", n, answer, key, KEY_PLACES);
}

/* The session keys of a start key, and the message under the first one; what is printed of the server's send keys is compared. */
static void session(unsigned bits, const octet start_key[KEY_PLACES], bool compared)
{
    static const unsigned numbers[] = {0, 1, 2, 3, 255, 4095};
    size_t n = key_length(bits);
    octet first[KEY_PLACES], next[KEY_PLACES], message[12];
    part start = of(start_key, n);

    show("initial session key", oracle_initial_session_key(bits, start, first), first);
    line("test message", sample_message(bits, first, message), message, sizeof message);
    show("new key", oracle_new_key(bits, start, of(first, n), next), next);
    show("after one key change", oracle_key_changes(bits, start, of(first, n), 1, next), next);
    for (size_t k = 0; k < sizeof numbers / sizeof *numbers; k++)
        changed(bits, start, of(first, n), numbers[k]);
    if (compared) {
        published("SendStartKey", start_key, RFC3079[place_of(bits)].start_key);
        published("SendSessionKey", first, RFC3079[place_of(bits)].session_key);
        published("Sample Encrypted Message", message, RFC3079[place_of(bits)].message);
    }
}

/* Section 3.5 at one strength, for both ends of the link. */
static void derived(unsigned bits, part master)
{
    octet key[KEY_PLACES];
    char label[16];

    snprintf(label, sizeof label, "%u bits", bits);
    line(label, 0, master.at, master.n);
    show("server sends", oracle_start_key(bits, true, true, master, key), key);
    session(bits, key, true);
    show("server receives", oracle_start_key(bits, true, false, master, key), key);
    session(bits, key, false);
    show("client sends", oracle_start_key(bits, false, true, master, key), key);
    show("client receives", oracle_start_key(bits, false, false, master, key), key);
}

/* A reduced key; RFC 3079, 2.5.1 and 2.5.2, print two. */
static void reduced(const char *label, unsigned bits, const char *whole, const char *to)
{
    octet key[KEY_PLACES], out[KEY_PLACES];

    show(label, oracle_reduce(bits, printed(whole, key), out), out);
    published(label, out, to);
}

/* A key in 16 places after n key changes, of which a strength reads its own octets. */
static void placed(const char *label, unsigned bits, unsigned n)
{
    octet start[KEY_PLACES], session[KEY_PLACES], key[KEY_PLACES];

    unhex(PASSWORD_HASH_HASH, start);
    memset(session, 0x5A, sizeof session);
    show(label, oracle_key_changes(bits, of(start, key_length(bits)), of(session, key_length(bits)), n, key), key);
}

/* Master and start keys of inputs one octet too short or too long. */
static void sizes(void)
{
    octet key[KEY_PLACES], master[KEY_PLACES], hash[HASH], response[NT_RESPONSE];
    part h = printed(PASSWORD_HASH_HASH, hash), r = printed(SAMPLE_RESPONSE, response);

    show("master key of counted octets", oracle_master_key(of(counted, 16), of(counted, 24), master), master);
    show("hash-hash of 15 octets", oracle_master_key(of(counted, 15), r, key), key);
    show("hash-hash of 17 octets", oracle_master_key(of(counted, 17), r, key), key);
    show("NT-Response of 23 octets", oracle_master_key(h, of(counted, 23), key), key);
    show("NT-Response of 25 octets", oracle_master_key(h, of(counted, 25), key), key);
    show("both empty", oracle_master_key(of(counted, 0), of(counted, 0), key), key);
    show("start key of it", oracle_start_key(56, false, true, of(master, KEY_PLACES), key), key);
    show("master key of 15 octets", oracle_start_key(128, false, true, of(counted, 15), key), key);
    show("master key of 17 octets", oracle_start_key(40, true, false, of(counted, 17), key), key);
}

/* Keys of the length of their strength, and one octet shorter and longer. */
static void lengths(unsigned bits)
{
    size_t n = key_length(bits);
    part c = of(counted, n), shorter = of(counted, n - 1), longer = of(counted, n + 1);
    octet k[KEY_PLACES];
    char label[32];

    snprintf(label, sizeof label, "lengths at %u bits", bits);
    line(label, 0, c.at, c.n);
    show("initial", oracle_initial_session_key(bits, c, k), k);
    show("initial, short", oracle_initial_session_key(bits, shorter, k), k);
    show("initial, long", oracle_initial_session_key(bits, longer, k), k);
    show("reduce", oracle_reduce(bits, c, k), k);
    show("reduce, short", oracle_reduce(bits, shorter, k), k);
    show("reduce, long", oracle_reduce(bits, longer, k), k);
    show("change", oracle_key_changes(bits, c, c, 1, k), k);
    show("change, start short", oracle_key_changes(bits, shorter, c, 1, k), k);
    show("change, start long", oracle_key_changes(bits, longer, c, 1, k), k);
    show("change, session short", oracle_key_changes(bits, c, shorter, 1, k), k);
    show("change, session long", oracle_key_changes(bits, c, longer, 1, k), k);
    changed(bits, c, c, 7);
    changed(bits, shorter, c, 7);
    changed(bits, c, longer, 7);
    changed(bits, shorter, longer, 0);
    show("new key", oracle_new_key(bits, c, c, k), k);
    show("new key, start short", oracle_new_key(bits, shorter, c, k), k);
    show("new key, session long", oracle_new_key(bits, c, longer, k), k);
}

int main(void)
{
    octet hash[HASH], response[NT_RESPONSE], key[KEY_PLACES];
    part master = sample_master_key(key);

    for (int i = 0; i < 32; i++)
        counted[i] = (octet)(i + 1);
    line("hash-hash", 0, hash, unhex(PASSWORD_HASH_HASH, hash));
    line("NT-Response", 0, response, unhex(SAMPLE_RESPONSE, response));
    show("master key", 0, master.at);
    derived(40, master);
    derived(56, master);
    derived(128, master);
    reduced("reduced to 40 bits", 40, "d8 08 01 53 8c ec 4a 08", "d1 26 9e 53 8c ec 4a 08");
    reduced("reduced to 56 bits", 56, "d8 08 01 53 8c ec 4a 08", "d1 08 01 53 8c ec 4a 08");
    reduced("reduced to 128 bits", 128, PASSWORD_HASH_HASH, PASSWORD_HASH_HASH);
    placed("40 bits in 16 places", 40, 2);
    placed("56 bits in 16 places", 56, 2);
    placed("128 bits in 16 places", 128, 2);
    placed("none of them", 56, 0);
    sizes();
    lengths(40);
    lengths(56);
    lengths(128);
    return 0;
}
