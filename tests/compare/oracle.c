/* See oracle.h. MD4, SHA-1, SHA-256, HMAC, DES and RC4 under a key are OpenSSL's (MD4, DES and RC4 from its legacy provider);
   RC4 from a hand-made box, and all that rests on these, is written from the papers. */
#include "oracle.h"

#include <openssl/evp.h>
#include <openssl/hmac.h>
#include <openssl/provider.h>
#include <stdio.h>
#include <stdlib.h>
#include <string.h>

enum { SHA1_OCTETS = 20, BIT_A = 0x80, BIT_D = 0x10, LOWEST_PROTOCOL = 0x21, HIGHEST_PROTOCOL = 0xFA };

/* The places of a record's fields, and of a walk's behind them; RC4's state is both indices and then the cells. */
enum { AT_START = 1, AT_SESSION = 17, AT_COUNT = 33, AT_MODE = 35, AT_MARK = 36, AT_STATE = 37 };
enum { AT_LIVE = RECORD_OCTETS, AT_HEADER = 296, AT_NEXT = 298, AT_DRAWN = 314, AT_TOTAL = 572, AT_FED = 574, AT_FIRST = 576 };

/* A tape's first octet, and the most groups that a carried length has. */
enum { FIRST_OCTET = 1, MOST_GROUPS = 3 };

/* The places of a mark's fields behind how many packets were opened, and how many octets each of its two numbers has. */
enum { MARK_OFFSET = 8, MARK_STRENGTH = 16, MARK_START = 17, MARK_SESSION = 33, MARK_COUNT = 49, MARK_NUMBER = 8 };

/* Ends the program where OpenSSL does not do what it is asked. */
static void need(bool held)
{
    if (!held) {
        fprintf(stderr, "OpenSSL fails\n");
        exit(2);
    }
}

/* What OpenSSL is asked for, fetched once. */
static struct {
    EVP_MD *md4, *sha1, *sha256;
    EVP_CIPHER *des, *rc4;
    EVP_MD_CTX *digest;
    EVP_CIPHER_CTX *des_context, *rc4_context;
} ssl;

/* Fetches it at the first call. */
static void fetch(void)
{
    if (ssl.rc4)
        return;
    need(OSSL_PROVIDER_load(NULL, "legacy") && OSSL_PROVIDER_load(NULL, "default"));
    ssl.md4 = EVP_MD_fetch(NULL, "MD4", NULL);
    ssl.sha1 = EVP_MD_fetch(NULL, "SHA1", NULL);
    ssl.sha256 = EVP_MD_fetch(NULL, "SHA256", NULL);
    ssl.des = EVP_CIPHER_fetch(NULL, "DES-ECB", NULL);
    ssl.rc4 = EVP_CIPHER_fetch(NULL, "RC4", NULL);
    ssl.digest = EVP_MD_CTX_new();
    ssl.des_context = EVP_CIPHER_CTX_new();
    ssl.rc4_context = EVP_CIPHER_CTX_new();
    need(ssl.md4 && ssl.sha1 && ssl.sha256 && ssl.des && ssl.rc4 && ssl.digest && ssl.des_context && ssl.rc4_context);
}

/* Octets as a part. */
static part of(const void *at, size_t n)
{
    part p = {at, n};

    return p;
}

/* A text without its closing 0. */
#define LITERAL(s) of(s, sizeof(s) - 1)

/* Copies octets, also none from nowhere. */
static void put(octet *to, part from)
{
    if (from.n > 0)
        memcpy(to, from.at, from.n);
}

/* SHA-1 of parts, one behind the other. */
static void sha1_of(const part *parts, size_t count, octet out[SHA1_OCTETS])
{
    fetch();
    need(EVP_DigestInit_ex2(ssl.digest, ssl.sha1, NULL));
    for (size_t k = 0; k < count; k++)
        need(EVP_DigestUpdate(ssl.digest, parts[k].at, parts[k].n));
    need(EVP_DigestFinal_ex(ssl.digest, out, NULL));
}

/* A digest of a text within its limits. */
static int digest(EVP_MD *const *kind, part text, octet *out, size_t n)
{
    memset(out, 0, n);
    if (text.n > LONGEST_TEXT)
        return SIZE;
    fetch();
    need(EVP_Digest(text.at, text.n, out, NULL, *kind, NULL));
    return DONE;
}

/* MD4 (RFC 1320). */
int oracle_md4(part text, octet out[16])
{
    return digest(&ssl.md4, text, out, 16);
}

/* SHA-1 (FIPS 180). */
int oracle_sha1(part text, octet out[20])
{
    return digest(&ssl.sha1, text, out, 20);
}

/* SHA-256 (FIPS 180). */
int oracle_sha256(part text, octet out[32])
{
    return digest(&ssl.sha256, text, out, 32);
}

/* HMAC over SHA-256 (RFC 2104); a key of no octets is still a key. */
int oracle_hmac(part key, part text, octet out[32])
{
    memset(out, 0, 32);
    if (key.n > LONGEST_TEXT || text.n > LONGEST_TEXT)
        return SIZE;
    fetch();
    need(HMAC(ssl.sha256, key.n > 0 ? key.at : (const octet *)"", (int)key.n, text.at, text.n, out, NULL) != NULL);
    return DONE;
}

/* Seven octets as the eight of OpenSSL's key: each seven bits and a parity bit, which DES does not read. */
static void spread(const octet raw[DES_KEY], octet key[8])
{
    unsigned long long bits = 0;

    for (int k = 0; k < DES_KEY; k++)
        bits = bits << 8 | raw[k];
    for (int k = 0; k < 8; k++)
        key[k] = (octet)((bits >> (49 - 7 * k) & 127) << 1);
}

/* DES on one block (FIPS 46-3). */
int oracle_des(part key, part block, octet out[8])
{
    octet spread_key[8];
    int n;

    memset(out, 0, 8);
    if (key.n != DES_KEY || block.n != DES_BLOCK)
        return SIZE;
    fetch();
    spread(key.at, spread_key);
    need(EVP_EncryptInit_ex2(ssl.des_context, ssl.des, spread_key, NULL, NULL));
    need(EVP_CIPHER_CTX_set_padding(ssl.des_context, 0));
    need(EVP_EncryptUpdate(ssl.des_context, out, &n, block.at, DES_BLOCK) && n == DES_BLOCK);
    return DONE;
}

/* RC4 freshly keyed with a key, over a text. */
static void rc4_over(part key, part text, octet *out)
{
    int n;

    fetch();
    need(EVP_EncryptInit_ex2(ssl.rc4_context, ssl.rc4, NULL, NULL, NULL));
    need(EVP_CIPHER_CTX_set_key_length(ssl.rc4_context, (int)key.n));
    need(EVP_EncryptInit_ex2(ssl.rc4_context, NULL, key.at, NULL, NULL));
    need(EVP_EncryptUpdate(ssl.rc4_context, out, &n, text.at, (int)text.n));
}

/* Two cells of a box change places. */
static void exchange(octet *box, octet a, octet b)
{
    octet held = box[a];

    box[a] = box[b];
    box[b] = held;
}

/* The box of a key, with both indices 0. */
int oracle_rc4_keyed(part key, octet state[RC4_STATE])
{
    octet j = 0;

    memset(state, 0, RC4_STATE);
    if (key.n < 1 || key.n > LONGEST_RC4_KEY)
        return SIZE;
    for (int i = 0; i < 256; i++)
        state[i] = (octet)i;
    for (int i = 0; i < 256; i++) {
        j = (octet)(j + state[i] + key.at[i % key.n]);
        exchange(state, (octet)i, j);
    }
    return DONE;
}

/* A draw: i + 1, j + box[i], change places, and give box[box[i] + box[j]]. */
octet oracle_rc4_draw(octet state[RC4_STATE])
{
    octet i = ++state[256];
    octet j = state[257] = (octet)(state[257] + state[i]);

    exchange(state, i, j);
    return state[(octet)(state[i] + state[j])];
}

/* Whether no two cells of the box are the same. */
int oracle_rc4_permutation(const octet state[RC4_STATE])
{
    bool seen[256] = {false};

    for (int k = 0; k < 256; k++) {
        if (seen[state[k]])
            return 0;
        seen[state[k]] = true;
    }
    return 1;
}

/* A text XORed with draws: "3, 2". */
int oracle_rc4_run(octet state[RC4_STATE], part text, buffer out)
{
    if (text.n > LONGEST_TEXT)
        return SIZE;
    if (out.n < text.n)
        return ROOM;
    for (size_t k = 0; k < text.n; k++)
        out.at[k] = text.at[k] ^ oracle_rc4_draw(state);
    return DONE;
}

/* The same from the box of a key where RC4 is keyed afresh, and only where what comes out begins with a number within bounds. */
int oracle_rc4_within(octet state[RC4_STATE], bool fresh, part key, unsigned lowest, unsigned highest, part text, buffer out)
{
    octet box[RC4_STATE], ahead[RC4_STATE];
    unsigned number = 0;

    memcpy(box, state, RC4_STATE);
    if (fresh && oracle_rc4_keyed(key, box) != DONE)
        return SIZE;
    if (text.n < 2 || text.n > LONGEST_TEXT)
        return SIZE;
    if (out.n < text.n)
        return ROOM;
    memcpy(ahead, box, RC4_STATE);
    for (int k = 0; k < 2; k++)
        number = 256 * number + (text.at[k] ^ oracle_rc4_draw(ahead));
    if (number < lowest || number > highest)
        return PROTOCOL;
    memcpy(state, box, RC4_STATE);
    return oracle_rc4_run(state, text, out);
}

/* MD4 of the password (002, 8.3). */
int oracle_password_hash(part password, octet out[HASH])
{
    memset(out, 0, HASH);
    if (password.n > LONGEST_PASSWORD || password.n % 2 == 1)
        return SIZE;
    return oracle_md4(password, out);
}

/* MD4 of that (8.4). */
int oracle_hash_hash(part hash, octet out[HASH])
{
    memset(out, 0, HASH);
    if (hash.n != HASH)
        return SIZE;
    return oracle_md4(hash, out);
}

/* What is hashed of a name: "Where a name holds 0x5C, hash only what follows the first one" (02, M-100). */
static part user_of(part name)
{
    for (size_t k = 0; k < name.n; k++)
        if (name.at[k] == 0x5C)
            return of(name.at + k + 1, name.n - k - 1);
    return name;
}

/* First 8 octets of SHA-1 over peer challenge, authenticator challenge and name (8.2); 3 by the whole name. */
int oracle_challenge_hash(part peer, part authenticator, part name, octet out[CHALLENGE_HASH])
{
    const part parts[] = {peer, authenticator, user_of(name)};
    octet whole[SHA1_OCTETS];

    memset(out, 0, CHALLENGE_HASH);
    if (peer.n != CHALLENGE || authenticator.n != CHALLENGE || name.n > LONGEST_NAME)
        return SIZE;
    sha1_of(parts, 3, whole);
    memcpy(out, whole, CHALLENGE_HASH);
    return DONE;
}

/* The challenge hash enciphered under three keys of the padded password hash (8.5). */
int oracle_challenge_response(part challenge, part hash, octet out[NT_RESPONSE])
{
    octet padded[3 * DES_KEY] = {0};

    memset(out, 0, NT_RESPONSE);
    if (challenge.n != CHALLENGE_HASH || hash.n != HASH)
        return SIZE;
    memcpy(padded, hash.at, HASH);
    for (int k = 0; k < 3; k++)
        need(oracle_des(of(padded + DES_KEY * k, DES_KEY), challenge, out + DES_BLOCK * k) == DONE);
    return DONE;
}

/* The password hash and the challenge hash that a response and a string are made of: 3. */
static int both_hashes(part password, part peer, part authenticator, part name, octet hash[HASH], octet challenge[CHALLENGE_HASH])
{
    int number = oracle_password_hash(password, hash);

    return number != DONE ? number : oracle_challenge_hash(peer, authenticator, name, challenge);
}

/* The NT-Response (8.1). */
int oracle_nt_response(part authenticator, part peer, part name, part password, octet out[NT_RESPONSE])
{
    octet hash[HASH], challenge[CHALLENGE_HASH];
    int number = both_hashes(password, peer, authenticator, name, hash, challenge);

    memset(out, 0, NT_RESPONSE);
    if (number != DONE)
        return number;
    return oracle_challenge_response(of(challenge, CHALLENGE_HASH), of(hash, HASH), out);
}

/* The authenticator string (8.7). */
int oracle_authenticator_string(part password, part response, part peer, part authenticator, part name,
                                octet out[AUTHENTICATOR_STRING])
{
    static const char digits[] = "0123456789ABCDEF";
    octet hash[HASH], twice[HASH], challenge[CHALLENGE_HASH], first[SHA1_OCTETS], second[SHA1_OCTETS];
    const part inner[] = {of(twice, HASH), response, LITERAL("Magic server to client signing constant")};
    const part outer[] = {of(first, SHA1_OCTETS), of(challenge, CHALLENGE_HASH),
                          LITERAL("Pad to make it do more than one iteration")};
    int number = both_hashes(password, peer, authenticator, name, hash, challenge);

    memset(out, 0, AUTHENTICATOR_STRING);
    if (response.n != NT_RESPONSE)
        return SIZE;
    if (number != DONE)
        return number;
    oracle_hash_hash(of(hash, HASH), twice);
    sha1_of(inner, 3, first);
    sha1_of(outer, 3, second);
    memcpy(out, "S=", 2);
    for (int k = 0; k < SHA1_OCTETS; k++) {
        out[2 + 2 * k] = (octet)digits[second[k] / 16];
        out[3 + 2 * k] = (octet)digits[second[k] % 16];
    }
    return DONE;
}

/* The least length of a packet. */
static size_t least_length(int kind)
{
    return kind == 1 ? LEAST_CHALLENGE : LEAST_RESPONSE;
}

/* The size of a packet's value, which stands behind five octets. */
static size_t value_size(int kind)
{
    return least_length(kind) - 5;
}

/* The length that a packet names. */
static size_t named_length(part packet)
{
    return 256u * packet.at[2] + packet.at[3];
}

/* Whether a Response's reserved octets are zeros. */
static bool reserved_clear(part packet)
{
    static const octet zeros[8];

    return memcmp(packet.at + 21, zeros, 8) == 0 && packet.at[53] == 0;
}

/* The number for a packet to be read: "1, 3". */
static int read_number(int kind, part packet)
{
    if (packet.n < least_length(kind) || packet.at[0] != kind || packet.at[4] != value_size(kind))
        return SHAPE;
    if (named_length(packet) < least_length(kind) || named_length(packet) > packet.n)
        return SHAPE;
    if (kind == 2 && !reserved_clear(packet))
        return SHAPE;
    return named_length(packet) - least_length(kind) > LONGEST_NAME ? SIZE : DONE;
}

/* A Challenge: code 1, its value behind the header. */
int oracle_read_challenge(part packet, octet *identifier, octet value[CHALLENGE])
{
    int number = read_number(1, packet);

    *identifier = 0;
    memset(value, 0, CHALLENGE);
    if (number != DONE)
        return number;
    *identifier = packet.at[1];
    memcpy(value, packet.at + 5, CHALLENGE);
    return DONE;
}

/* A Response: code 2, peer challenge 16, zero 8, NT-Response 24, zero 1. */
int oracle_read_response(part packet, octet *identifier, octet peer[CHALLENGE], octet response[NT_RESPONSE])
{
    int number = read_number(2, packet);

    *identifier = 0;
    memset(peer, 0, CHALLENGE);
    memset(response, 0, NT_RESPONSE);
    if (number != DONE)
        return number;
    *identifier = packet.at[1];
    memcpy(peer, packet.at + 5, CHALLENGE);
    memcpy(response, packet.at + 29, NT_RESPONSE);
    return DONE;
}

/* The name: from the end of the value to the length field; the empty part of a refused packet. */
part oracle_name(int kind, part packet)
{
    if (read_number(kind, packet) != DONE)
        return of(packet.at, 0);
    return of(packet.at + least_length(kind), named_length(packet) - least_length(kind));
}

/* Writes a packet whose parts have their lengths: "3, 2", the name's length among the first. */
static int write_packet(int kind, octet identifier, part value, part name, buffer out)
{
    size_t n = least_length(kind) + name.n;

    if (name.n > LONGEST_NAME)
        return SIZE;
    if (out.n < n)
        return ROOM;
    out.at[0] = (octet)kind;
    out.at[1] = identifier;
    out.at[2] = (octet)(n / 256);
    out.at[3] = (octet)(n % 256);
    out.at[4] = (octet)value_size(kind);
    put(out.at + 5, value);
    put(out.at + 5 + value.n, name);
    return DONE;
}

/* A Challenge written. */
int oracle_write_challenge(octet identifier, part challenge, part name, buffer out)
{
    return challenge.n != CHALLENGE ? SIZE : write_packet(1, identifier, challenge, name, out);
}

/* A Response written. */
int oracle_write_response(octet identifier, part peer, part response, part name, buffer out)
{
    octet value[49] = {0};

    if (peer.n != CHALLENGE || response.n != NT_RESPONSE)
        return SIZE;
    memcpy(value, peer.at, CHALLENGE);
    memcpy(value + 24, response.at, NT_RESPONSE);
    return write_packet(2, identifier, of(value, 49), name, out);
}

/* n = 16 at 128 bits, else 8. */
size_t key_length(unsigned bits)
{
    return bits == 128 ? 16 : 8;
}

/* The first n of SHA-1(a, 40 zeros, b, 40 octets 0xF2), with zeros behind them in 16 places. */
static void padded_hash(part a, part b, size_t n, octet out[KEY_PLACES])
{
    octet zeros[40], f2[40], whole[SHA1_OCTETS];
    const part parts[] = {a, of(zeros, 40), b, of(f2, 40)};

    memset(zeros, 0, 40);
    memset(f2, 0xF2, 40);
    sha1_of(parts, 4, whole);
    memset(out, 0, KEY_PLACES);
    memcpy(out, whole, n);
}

/* The first octets that reduce fixes. */
static part fixed_front(unsigned bits)
{
    return bits == 40 ? LITERAL("\xD1\x26\x9E") : bits == 56 ? LITERAL("\xD1") : LITERAL("");
}

/* First 16 of SHA-1(hash-hash, NT-Response, Magic1) (000, section 3). */
int oracle_master_key(part hash, part response, octet out[KEY_PLACES])
{
    const part parts[] = {hash, response, LITERAL("This is the MPPE Master Key")};
    octet whole[SHA1_OCTETS];

    memset(out, 0, KEY_PLACES);
    if (hash.n != HASH || response.n != NT_RESPONSE)
        return SIZE;
    sha1_of(parts, 3, whole);
    memcpy(out, whole, KEY_PLACES);
    return DONE;
}

/* First n of SHA-1(master key, 40 zeros, phrase, 40 octets 0xF2): Magic2 for what the client sends, else Magic3. */
int oracle_start_key(unsigned bits, bool server, bool send, part master, octet out[KEY_PLACES])
{
    part phrase = server != send ? LITERAL("On the client side, this is the send key; on the server side, it is the receive key.")
                                 : LITERAL("On the client side, this is the receive key; on the server side, it is the send key.");

    memset(out, 0, KEY_PLACES);
    if (master.n != KEY_PLACES)
        return SIZE;
    padded_hash(master, phrase, key_length(bits), out);
    return DONE;
}

/* First n of SHA-1(start, 40 zeros, session, 40 octets 0xF2). */
int oracle_new_key(unsigned bits, part start, part session, octet out[KEY_PLACES])
{
    memset(out, 0, KEY_PLACES);
    if (start.n != key_length(bits) || session.n != key_length(bits))
        return SIZE;
    padded_hash(start, session, key_length(bits), out);
    return DONE;
}

/* At 40 bits the first octets become D1 26 9E, at 56 bits D1, at 128 nothing. */
int oracle_reduce(unsigned bits, part key, octet out[KEY_PLACES])
{
    octet reduced[KEY_PLACES] = {0};
    int number = key.n != key_length(bits) ? SIZE : DONE;

    if (number == DONE) {
        put(reduced, key);
        put(reduced, fixed_front(bits));
    }
    memcpy(out, reduced, KEY_PLACES);
    return number;
}

/* reduce(new-key(start, start)), no RC4. */
int oracle_initial_session_key(unsigned bits, part start, octet out[KEY_PLACES])
{
    int number = oracle_new_key(bits, start, start, out);

    return number != DONE ? number : oracle_reduce(bits, of(out, key_length(bits)), out);
}

/* Each change: interim = new-key(start, session), then reduce(RC4 keyed with interim, applied to interim). */
int oracle_key_changes(unsigned bits, part start, part session, unsigned n, octet out[KEY_PLACES])
{
    octet interim[KEY_PLACES];
    size_t length = key_length(bits);

    memset(out, 0, KEY_PLACES);
    if (start.n != length || session.n != length)
        return SIZE;
    put(out, session);
    for (; n > 0; n--) {
        padded_hash(start, of(out, length), length, interim);
        rc4_over(of(interim, length), of(interim, length), out);
        oracle_reduce(bits, of(out, length), out);
    }
    return DONE;
}

/* An option's four octets as a number, highest first. */
static unsigned long option_word(part option)
{
    unsigned long word = 0;

    for (size_t k = 2; k < OPTION; k++)
        word = word << 8 | option.at[k];
    return word;
}

/* Type 18, length 6, four octets: H, M is 56, S is 128, L is 40 (001, section 2). */
int oracle_read_option(part option, offer *out)
{
    unsigned long word;

    memset(out, 0, sizeof *out);
    if (option.n != OPTION || option.at[0] != 18 || option.at[1] != OPTION)
        return SHAPE;
    word = option_word(option);
    out->stateless = (word & 0x01000000) != 0;
    out->bits40 = (word & 0x20) != 0;
    out->bits56 = (word & 0x80) != 0;
    out->bits128 = (word & 0x40) != 0;
    return DONE;
}

/* An option written, into six octets. */
int oracle_write_option(offer offered, buffer out)
{
    if (out.n < OPTION)
        return ROOM;
    out.at[0] = 18;
    out.at[1] = OPTION;
    out.at[2] = offered.stateless ? 0x01 : 0;
    out.at[3] = 0;
    out.at[4] = 0;
    out.at[5] = (octet)((offered.bits56 ? 0x80 : 0) | (offered.bits128 ? 0x40 : 0) | (offered.bits40 ? 0x20 : 0));
    return DONE;
}

/* The strongest strength that is offered and allowed; 0 where there is none. */
static octet strongest(offer offered, offer allowed)
{
    if (offered.bits128 && allowed.bits128)
        return 128;
    if (offered.bits56 && allowed.bits56)
        return 56;
    return offered.bits40 && allowed.bits40 ? 40 : 0;
}

/* The strongest that is offered and allowed, with H, or with the request's H where the policy allows stateful; an accept exactly if the
   request is that and no other bit. */
reply oracle_option_reply(part option, offer allowed, bool stateful, buffer out)
{
    reply refused = {DONE, false, 0, false}, made = refused;
    octet written[OPTION];
    buffer own = {written, OPTION};
    offer offered, chosen = {.stateless = true};

    refused.number = oracle_read_option(option, &offered);
    if (refused.number != DONE)
        return refused;
    made.bits = strongest(offered, allowed);
    refused.number = made.bits == 0 ? STRENGTH : out.n < OPTION ? ROOM : DONE;
    if (refused.number != DONE)
        return refused;
    if (stateful)
        chosen.stateless = offered.stateless;
    made.stateful = !chosen.stateless;
    chosen.bits40 = made.bits == 40;
    chosen.bits56 = made.bits == 56;
    chosen.bits128 = made.bits == 128;
    oracle_write_option(chosen, own);
    made.accept = memcmp(written, option.at, OPTION) == 0;
    memcpy(out.at, written, OPTION);
    return made;
}

/* Whether a number is a strength. */
static bool is_strength(octet bits)
{
    return bits == 40 || bits == 56 || bits == 128;
}

/* A number of two octets, the highest first. */
static unsigned number_at(const octet *at)
{
    return 256u * at[0] + at[1];
}

/* Writes one. */
static void put_number(octet *at, unsigned number)
{
    at[0] = (octet)(number / 256);
    at[1] = (octet)(number % 256);
}

/* A record's last count. */
static unsigned last_count(const octet *record)
{
    return number_at(record + AT_COUNT);
}

/* Whether the places of a key behind its octets are zeros. */
static bool ends_in_zeros(const octet *key, size_t n)
{
    for (; n < KEY_PLACES; n++)
        if (key[n] != 0)
            return false;
    return true;
}

/* Whether a record's mode is stateful. */
static bool is_stateful(const octet *record)
{
    return record[AT_MODE] == 1;
}

/* The RC4 state in a record or a walk, which have both indices in front of the cells. */
static void state_at(const octet *at, octet state[RC4_STATE])
{
    memcpy(state, at + 2, 256);
    memcpy(state + 256, at, 2);
}

/* Writes it there. */
static void put_state(octet *at, const octet state[RC4_STATE])
{
    memcpy(at + 2, state, 256);
    memcpy(at, state + 256, 2);
}

/* "In stateless mode 0 to 255 in order, indices 0, mark off" */
static bool at_rest(const octet *record)
{
    octet state[RC4_STATE];

    state_at(record + AT_STATE, state);
    for (unsigned k = 0; k < 256; k++)
        if (state[k] != k)
            return false;
    return state[256] == 0 && state[257] == 0 && record[AT_MARK] == 0;
}

/* Whether octets can be read as a record: a strength, a mode and a mark. */
static bool readable(const octet *record)
{
    return is_strength(record[0]) && record[AT_MODE] <= 1 && record[AT_MARK] <= 1;
}

/* Whether octets are a well formed record. */
static bool well_formed(buffer record)
{
    octet state[RC4_STATE];
    part front;
    size_t n;

    if (record.n != RECORD_OCTETS || !readable(record.at) || last_count(record.at) >= COUNTS)
        return false;
    state_at(record.at + AT_STATE, state);
    if (is_stateful(record.at) ? !oracle_rc4_permutation(state) : !at_rest(record.at))
        return false;
    n = key_length(record.at[0]);
    front = fixed_front(record.at[0]);
    return ends_in_zeros(record.at + AT_START, n) && ends_in_zeros(record.at + AT_SESSION, n)
           && memcmp(record.at + AT_SESSION, front.at, front.n) == 0;
}

/* A record after key changes, with a new count. "Each change keys the box afresh with the new session key" */
static void renew(octet *record, unsigned changes, unsigned count, octet state[RC4_STATE])
{
    size_t n = key_length(record[0]);
    octet key[KEY_PLACES];

    oracle_key_changes(record[0], of(record + AT_START, n), of(record + AT_SESSION, n), changes, key);
    memcpy(record + AT_SESSION, key, KEY_PLACES);
    put_number(record + AT_COUNT, count);
    if (changes != 0)
        oracle_rc4_keyed(of(key, n), state);
}

/* A box keyed afresh with a record's session key. */
static void key_afresh(const octet *record, octet state[RC4_STATE])
{
    oracle_rc4_keyed(of(record + AT_SESSION, key_length(record[0])), state);
}

/* A record after a packet: a stateful one draws on from here, a stateless one keeps no box; neither waits. */
static void settle(octet *record, const octet state[RC4_STATE])
{
    if (is_stateful(record))
        put_state(record + AT_STATE, state);
    record[AT_MARK] = 0;
}

/* Whether a plain packet, or a sealed one's data part, has a length that is carried. */
static bool is_carried(size_t n)
{
    return n >= SHORTEST_PLAIN && n <= LONGEST_PLAIN;
}

/* Whether a packet's first two octets are no protocol number that is carried. */
static bool off_protocol(const octet *plain)
{
    return plain[0] != 0 || plain[1] < LOWEST_PROTOCOL || plain[1] > HIGHEST_PROTOCOL;
}

/* Lays the box out, 0 to 255 in order. */
static void put_box(octet *record)
{
    for (unsigned k = 0; k < 256; k++)
        record[AT_STATE + 2 + k] = (octet)k;
}

/* A new link: count 4,095 (house), the box 0 to 255 in order, and a stateful one's mark set. */
int oracle_new_link(octet bits, bool stateful, part start, buffer record)
{
    octet session[KEY_PLACES];

    if (!is_strength(bits))
        return STRENGTH;
    if (oracle_initial_session_key(bits, start, session) != DONE)
        return SIZE;
    if (record.n < RECORD_OCTETS)
        return ROOM;
    memset(record.at, 0, RECORD_OCTETS);
    record.at[0] = bits;
    put(record.at + AT_START, start);
    memcpy(record.at + AT_SESSION, session, KEY_PLACES);
    put_number(record.at + AT_COUNT, COUNTS - 1);
    record.at[AT_MODE] = record.at[AT_MARK] = stateful;
    put_box(record.at);
    return DONE;
}

/* Seal: "7, 3, 4, 2"; count + 1; stateless, one key change, and RC4 keyed afresh; stateful, a key change before a count that ends in 0xFF,
   and RC4 keyed afresh on those and where the mark is set, with A set. */
int oracle_seal(buffer record, part plain, buffer out)
{
    octet state[RC4_STATE];
    unsigned count;
    bool change, fresh;

    if (!well_formed(record))
        return RECORD;
    if (!is_carried(plain.n))
        return SIZE;
    if (off_protocol(plain.at))
        return PROTOCOL;
    if (out.n < FRONT + plain.n)
        return ROOM;
    count = (last_count(record.at) + 1) % COUNTS;
    change = !is_stateful(record.at) || count % 256 == 0xFF;
    fresh = change || record.at[AT_MARK] == 1;
    state_at(record.at + AT_STATE, state);
    renew(record.at, change, count, state);
    if (fresh)
        key_afresh(record.at, state);
    out.at[0] = 0x00;
    out.at[1] = 0xFD;
    out.at[2] = (octet)((fresh ? BIT_A : 0) | BIT_D | count / 256);
    out.at[3] = (octet)(count % 256);
    oracle_rc4_run(state, plain, (buffer){out.at + FRONT, plain.n});
    settle(record.at, state);
    return DONE;
}

/* The count in a packet's two header octets. */
static unsigned arrived_count(const octet header[2])
{
    return number_at(header) % COUNTS;
}

/* "distance = (arrived count - last count) mod 4,096" */
unsigned oracle_distance(const octet *record, const octet header[2])
{
    return (arrived_count(header) + COUNTS - last_count(record)) % COUNTS;
}

/* Whether there is a box to open with. */
static bool can_open(const octet *record, const octet header[2])
{
    return (header[0] & BIT_A) != 0 || (oracle_distance(record, header) == 1 && record[AT_MARK] == 0);
}

/* The number for a header that a well formed record meets: "5, 6, 10, 11". */
static int header_number(const octet *record, const octet header[2])
{
    if ((header[0] & BIT_D) == 0 || (!is_stateful(record) && (header[0] & BIT_A) == 0))
        return FLAGS;
    if (arrived_count(header) == last_count(record))
        return REPEAT;
    if (oracle_distance(record, header) > FARTHEST)
        return LATE;
    return can_open(record, header) ? DONE : WAITING;
}

/* The number for a packet by what stands in front of its data part, and that part's length: "7, 1, 5, 6, 10, 11, 2". */
static int front_number(buffer record, part front, size_t total, size_t room)
{
    int number;

    if (!well_formed(record))
        return RECORD;
    if (front.n != FRONT || !is_carried(total) || front.at[0] != 0x00 || front.at[1] != 0xFD)
        return SHAPE;
    number = header_number(record.at, front.at + 2);
    return number == DONE && room < total ? ROOM : number;
}

/* The key changes that a header brings: stateless, its distance; stateful, the counts ending in 0xFF after the last one up to its own. */
static unsigned changes_for(const octet *record, const octet header[2])
{
    unsigned distance = oracle_distance(record, header), changes = 0;

    if (!is_stateful(record))
        return distance;
    for (unsigned k = 1; k <= distance; k++)
        changes += (last_count(record) + k) % COUNTS % 256 == 0xFF;
    return changes;
}

/* A record after the key changes that a header brings, with its count; and the box to open with, "keyed afresh if A is set". */
static void follow(octet *record, const octet header[2], octet state[RC4_STATE])
{
    state_at(record + AT_STATE, state);
    renew(record, changes_for(record, header), arrived_count(header), state);
    if ((header[0] & BIT_A) != 0)
        key_afresh(record, state);
}

/* Answer 11: "the changes made and reported, count the arrived one, mark set". */
static opened wait_for_a(octet *record, const octet header[2])
{
    opened result = {WAITING, changes_for(record, header)};
    octet state[RC4_STATE];

    follow(record, header, state);
    put_state(record + AT_STATE, state);
    record[AT_MARK] = 1;
    return result;
}

/* Open: "7, 1, 5, 6, 10, 11, 2, 4"; the key changes, RC4, last count = arrived. */
opened oracle_open(buffer record, part packet, buffer out)
{
    part front = of(packet.at, packet.n < FRONT ? packet.n : FRONT), data = of(packet.at + front.n, packet.n - front.n);
    opened result = {front_number(record, front, data.n, out.n), 0};
    octet next[RECORD_OCTETS], state[RC4_STATE], plain[LONGEST_PLAIN];

    if (result.number == WAITING)
        return wait_for_a(record.at, front.at + 2);
    if (result.number != DONE)
        return result;
    memcpy(next, record.at, RECORD_OCTETS);
    follow(next, front.at + 2, state);
    oracle_rc4_run(state, data, (buffer){plain, data.n});
    if (off_protocol(plain)) {
        result.number = PROTOCOL;
        return result;
    }
    result.changes = changes_for(record.at, front.at + 2);
    settle(next, state);
    memcpy(record.at, next, RECORD_OCTETS);
    memcpy(out.at, plain, data.n);
    return result;
}

/* A closed walk, as an ended one: zeros behind the record. */
static void close_walk(octet *walk)
{
    memset(walk + RECORD_OCTETS, 0, WALK_OCTETS - RECORD_OCTETS);
}

/* Begin: "the order is that of open without 4; a refused begin gives a closed walk" (02, M-104). Only 11 moves the record. */
opened oracle_begin(buffer walk, part front, size_t total, size_t room)
{
    opened result = {RECORD, 0};
    octet next[RECORD_OCTETS], state[RC4_STATE];

    if (walk.n != WALK_OCTETS)
        return result;
    result.number = front_number((buffer){walk.at, RECORD_OCTETS}, front, total, room);
    close_walk(walk.at);
    if (result.number == WAITING)
        return wait_for_a(walk.at, front.at + 2);
    if (result.number != DONE)
        return result;
    memcpy(next, walk.at, RECORD_OCTETS);
    follow(next, front.at + 2, state);
    walk.at[AT_LIVE] = 1;
    memcpy(walk.at + AT_HEADER, front.at + 2, 2);
    memcpy(walk.at + AT_NEXT, next + AT_SESSION, KEY_PLACES);
    put_state(walk.at + AT_DRAWN, state);
    put_number(walk.at + AT_TOTAL, (unsigned)total);
    return result;
}

/* Whether a walk goes on: "every later call on a closed or ended walk is 7, as on one with an ill-formed link or fields outside these
   limits". */
static bool goes_on(buffer walk)
{
    return walk.n == WALK_OCTETS && walk.at[AT_LIVE] == 1 && well_formed((buffer){walk.at, RECORD_OCTETS})
           && is_carried(number_at(walk.at + AT_TOTAL)) && number_at(walk.at + AT_FED) <= number_at(walk.at + AT_TOTAL)
           && header_number(walk.at, walk.at + AT_HEADER) == DONE;
}

/* Feed: "its order is 7, 2, 3, 4"; it writes "its piece opened, both protocol octets together, once judged". Before that the only octet fed
   is kept in the walk, in front of the piece. */
int oracle_feed(buffer walk, part piece, buffer out)
{
    octet state[RC4_STATE], plain[LONGEST_PLAIN];
    size_t total, fed, kept, from;

    if (!goes_on(walk))
        return RECORD;
    total = number_at(walk.at + AT_TOTAL);
    fed = number_at(walk.at + AT_FED);
    if (out.n < total)
        return ROOM;
    if (piece.n > total - fed) {
        close_walk(walk.at);
        return SIZE;
    }
    kept = fed == 1;
    from = fed - kept;
    plain[0] = walk.at[AT_FIRST];
    state_at(walk.at + AT_DRAWN, state);
    oracle_rc4_run(state, piece, (buffer){plain + kept, piece.n});
    fed += piece.n;
    if (from == 0 && fed >= 2 && off_protocol(plain)) {
        close_walk(walk.at);
        return PROTOCOL;
    }
    if (fed >= 2)
        memcpy(out.at + from, plain, fed - from);
    put_state(walk.at + AT_DRAWN, state);
    put_number(walk.at + AT_FED, (unsigned)fed);
    walk.at[AT_FIRST] = fed == 1 ? plain[0] : 0;
    return DONE;
}

/* End: 7, also where the next record would be ill formed, then "an end before it is 1"; the record moves as by an open. */
opened oracle_end(buffer walk)
{
    opened result = {RECORD, 0};
    octet next[RECORD_OCTETS], state[RC4_STATE];

    if (!goes_on(walk))
        return result;
    memcpy(next, walk.at, RECORD_OCTETS);
    memcpy(next + AT_SESSION, walk.at + AT_NEXT, KEY_PLACES);
    put_number(next + AT_COUNT, arrived_count(walk.at + AT_HEADER));
    state_at(walk.at + AT_DRAWN, state);
    settle(next, state);
    if (!well_formed((buffer){next, RECORD_OCTETS}))
        return result;
    result.number = number_at(walk.at + AT_FED) < number_at(walk.at + AT_TOTAL) ? SHAPE : DONE;
    if (result.number == DONE) {
        result.changes = changes_for(walk.at, walk.at + AT_HEADER);
        memcpy(walk.at, next, RECORD_OCTETS);
    }
    close_walk(walk.at);
    return result;
}

/* "CCP code 14, length 4, four octets, else 1" */
int oracle_read_reset(part request, octet *identifier)
{
    *identifier = 0;
    if (request.n != RESET_REQUEST || request.at[0] != 14 || request.at[2] != 0 || request.at[3] != 4)
        return SHAPE;
    *identifier = request.at[1];
    return DONE;
}

int oracle_write_reset(octet identifier, buffer out)
{
    const octet request[RESET_REQUEST] = {14, identifier, 0, 4};

    if (out.n < RESET_REQUEST)
        return ROOM;
    memcpy(out.at, request, RESET_REQUEST);
    return DONE;
}

/* A Reset-Request at the sender: "7 comes before 1". */
int oracle_reset(buffer record, part request)
{
    octet identifier;

    if (!well_formed(record))
        return RECORD;
    if (oracle_read_reset(request, &identifier) != DONE)
        return SHAPE;
    if (is_stateful(record.at))
        record.at[AT_MARK] = 1;
    return DONE;
}

/* "The tape is octet 1, then records" (02, M-109). */
int oracle_tape_begin(buffer out)
{
    if (out.n == 0)
        return ROOM;
    out.at[0] = FIRST_OCTET;
    return DONE;
}

/* "Length as groups of seven bits, lowest first, top bit set when more follows, shortest form only": those of a length that is carried,
   and how many they are. */
static size_t groups_of(size_t length, octet groups[MOST_GROUPS])
{
    size_t n = 0;

    for (; length >= 128; length /= 128)
        groups[n++] = (octet)(length % 128 + 128);
    groups[n++] = (octet)length;
    return n;
}

/* Write: "groups ..; then the packet"; lengths 6 to 32,002 (02, M-110), and "writing another length is 1, before 2". */
tape_written oracle_tape_write(part packet, buffer out)
{
    tape_written refused = {SHAPE, 0}, made = {DONE, 0};
    octet groups[MOST_GROUPS];

    if (packet.n < SHORTEST_PACKET || packet.n > LONGEST_PACKET)
        return refused;
    made.length = groups_of(packet.n, groups);
    refused.number = ROOM;
    if (out.n < made.length + packet.n)
        return refused;
    put(out.at, of(groups, made.length));
    put(out.at + made.length, packet);
    made.length += packet.n;
    return made;
}

/* Read: "a missing or bad first octet is 1, then an offset of 0 or past the end 3, both with offset 0"; "at the end 0, no packet and
   the same offset". The packet is looked for by its groups, those of every length that is carried and that the tape has octets for: they
   stand at the offset, and have as many octets behind them as they say. Where there is none, "other lengths, a longer form, .. or a cut
   record are 1, with the same offset", and so is a group more than the longest length has. */
tape_next oracle_tape_read_up_to(part tape, size_t offset, size_t longest)
{
    tape_next result = {SHAPE, 0, 0};
    octet groups[MOST_GROUPS];
    size_t left;

    if (tape.n == 0 || tape.at[0] != FIRST_OCTET)
        return result;
    result.number = SIZE;
    if (offset == 0 || offset > tape.n)
        return result;
    result.number = offset == tape.n ? DONE : SHAPE;
    result.start = result.offset = offset;
    left = tape.n - offset;
    for (size_t length = SHORTEST_PACKET; length <= longest && length < left; length++) {
        size_t n = groups_of(length, groups);

        if (left - length >= n && memcmp(tape.at + offset, groups, n) == 0)
            return (tape_next){DONE, offset + n, offset + n + length};
    }
    return result;
}

/* "Sealed to 32,002"; "a fourth group is 1" (02, M-110). */
tape_next oracle_tape_read(part tape, size_t offset)
{
    return oracle_tape_read_up_to(tape, offset, LONGEST_PACKET);
}

/* "A replay step answers 7, or what the read answers if that gives no packet, or else what open answers, then always with the offset
   after the packet"; a 7 has the offset 0. */
tape_replayed oracle_tape_replay(buffer record, part tape, size_t offset, buffer out)
{
    tape_next next = oracle_tape_read(tape, offset);
    opened result = {next.number, 0};

    if (!well_formed(record))
        return (tape_replayed){RECORD, 0, 0};
    if (next.start < next.offset)
        result = oracle_open(record, of(tape.at + next.start, next.offset - next.start), out);
    return (tape_replayed){result.number, result.changes, next.offset};
}

/* A number of a mark, "highest octet first" (02, M-111). */
static size_t mark_number_at(const octet *at)
{
    size_t number = 0;

    for (int k = 0; k < MARK_NUMBER; k++)
        number = 256 * number + at[k];
    return number;
}

/* Writes one. */
static void put_mark_number(octet *at, size_t number)
{
    for (int k = MARK_NUMBER; k > 0; number /= 256)
        at[--k] = (octet)(number % 256);
}

/* "Opened 8, offset 8, strength in bits 1, start key 16, session key 16, last count 2" */
static void put_mark(octet *mark, size_t count, size_t offset, const octet *record)
{
    put_mark_number(mark, count);
    put_mark_number(mark + MARK_OFFSET, offset);
    mark[MARK_STRENGTH] = record[0];
    memcpy(mark + MARK_START, record + AT_START, KEY_PLACES);
    memcpy(mark + MARK_SESSION, record + AT_SESSION, KEY_PLACES);
    put_number(mark + MARK_COUNT, last_count(record));
}

/* A walk over a whole tape "with room lent for each packet": "a start record ill formed or stateful is 7; then a faulty tape gives its own
   refusal". The marks, "after each 256th opened packet", go one behind the other into a list that has as many octets as the tape, which
   is always more than they have; n is how many these are. */
static int list_marks(part start, part tape, octet *list, size_t *n)
{
    octet record[RECORD_OCTETS], plain[LONGEST_PLAIN];
    const buffer link = {record, start.n}, room = {plain, LONGEST_PLAIN};
    size_t count = 0;
    tape_next next;

    *n = 0;
    put(record, of(start.at, start.n < RECORD_OCTETS ? start.n : RECORD_OCTETS));
    if (!well_formed(link) || is_stateful(record))
        return RECORD;
    for (next = oracle_tape_read(tape, 1); next.start < next.offset; next = oracle_tape_read(tape, next.offset)) {
        if (oracle_open(link, of(tape.at + next.start, next.offset - next.start), room).number != DONE || ++count % MARK_EVERY != 0)
            continue;
        put_mark(list + *n, count, next.offset, record);
        *n += MARK_OCTETS;
    }
    return next.number;
}

/* Room for the list of a tape's marks. */
static octet *room_for_marks(part tape)
{
    octet *list = malloc(tape.n + 1);

    if (list == NULL) {
        fprintf(stderr, "no memory for marks\n");
        exit(2);
    }
    return list;
}

/* "One call writes the list"; after 7 and the tape's own refusal, "in writing, too little room is 2". */
tape_written oracle_marks_write(part start, part tape, buffer out)
{
    octet *list = room_for_marks(tape);
    tape_written made = {DONE, 0};

    made.number = list_marks(start, tape, list, &made.length);
    if (made.number == DONE && out.n < made.length)
        made.number = ROOM;
    if (made.number == DONE)
        put(out.at, of(list, made.length));
    else
        made.length = 0;
    free(list);
    return made;
}

/* "A call reads a mark: another length is 3, then a wrong strength or an ill-formed record 7", and last 2. The record is stateless. */
tape_mark oracle_marks_read(part mark, buffer record)
{
    octet read[RECORD_OCTETS] = {0};

    if (mark.n != MARK_OCTETS)
        return (tape_mark){SIZE, 0, 0};
    read[0] = mark.at[MARK_STRENGTH];
    memcpy(read + AT_START, mark.at + MARK_START, KEY_PLACES);
    memcpy(read + AT_SESSION, mark.at + MARK_SESSION, KEY_PLACES);
    put_number(read + AT_COUNT, number_at(mark.at + MARK_COUNT));
    put_box(read);
    if (!well_formed((buffer){read, RECORD_OCTETS}))
        return (tape_mark){RECORD, 0, 0};
    if (record.n < RECORD_OCTETS)
        return (tape_mark){ROOM, 0, 0};
    memcpy(record.at, read, RECORD_OCTETS);
    return (tape_mark){DONE, mark_number_at(mark.at), mark_number_at(mark.at + MARK_OFFSET)};
}

/* "A check .. says yes exactly when they are the marks that a walk from the start gives". Right ones are counted up to the first that is
   another, or that one of the two lists does not have whole. */
marks_checked oracle_marks_check(part start, part tape, part marks)
{
    octet *list = room_for_marks(tape);
    marks_checked result = {DONE, false, 0};
    size_t n, shorter;

    result.number = list_marks(start, tape, list, &n);
    if (result.number == DONE) {
        shorter = n < marks.n ? n : marks.n;
        for (size_t at = 0; shorter - at >= MARK_OCTETS && memcmp(list + at, marks.at + at, MARK_OCTETS) == 0; at += MARK_OCTETS)
            result.agreeing++;
        result.yes = n == marks.n && result.agreeing * MARK_OCTETS == n;
    }
    free(list);
    return result;
}

/* The client's send start key then its receive start key; the server puts receive first (004). */
int oracle_base_key(bool server, part send, part receive, octet out[BASE_KEY])
{
    memset(out, 0, BASE_KEY);
    if (send.n != KEY_PLACES || receive.n != KEY_PLACES)
        return SIZE;
    memcpy(out, server ? receive.at : send.at, KEY_PLACES);
    memcpy(out + KEY_PLACES, server ? send.at : receive.at, KEY_PLACES);
    return DONE;
}

/* HMAC-SHA256(base key, 29 octets of text, 20 00, 01), the material cut to 32 or padded with zeros. */
int oracle_binding_key(part material, octet out[BINDING_KEY])
{
    octet base[BASE_KEY] = {0};

    memset(out, 0, BINDING_KEY);
    if (material.n > LONGEST_TEXT)
        return SIZE;
    put(base, of(material.at, material.n < BASE_KEY ? material.n : BASE_KEY));
    return oracle_hmac(of(base, BASE_KEY), LITERAL("SSTP inner method derived CMK\x20\x00\x01"), out);
}
