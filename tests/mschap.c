/* What crates/mschap_samples must print, by the oracle (RFC 2759's procedures over OpenSSL), which is held against RFC 2759, 9.2 and
   9.3, as printed. */
#include "sample.h"

static octet text[514];

/* A check's line: whether what was received is the oracle's own. */
static void check(const char *label, size_t number, int answer, const octet *own, part received, size_t n)
{
    octet yes;

    if (received.n != n)
        answer = SIZE;
    yes = answer == DONE && memcmp(own, received.at, n) == 0;
    numbered(label, number, answer, &yes, 1);
}

/* A response checked. */
static void check_response(const char *label, size_t number, part authenticator, part peer, part name, part password, part received)
{
    octet own[NT_RESPONSE];
    int answer = oracle_nt_response(authenticator, peer, name, password, own);

    check(label, number, answer, own, received, NT_RESPONSE);
}

/* A string checked. */
static void check_authenticator(const char *label, size_t number, part password, part response, part peer, part authenticator,
                                part name, part received)
{
    octet own[AUTHENTICATOR_STRING];
    int answer = oracle_authenticator_string(password, response, peer, authenticator, name, own);

    check(label, number, answer, own, received, AUTHENTICATOR_STRING);
}

/* Every call on one login. */
static void all(part authenticator, part peer, part name, part password)
{
    octet hash[HASH], twice[HASH], challenge[CHALLENGE_HASH], response[NT_RESPONSE], string[AUTHENTICATOR_STRING];
    int answer;

    numbered("name", name.n, 0, name.at, name.n);
    numbered("password", password.n, 0, password.at, password.n);
    line("password hash", oracle_password_hash(password, hash), hash, HASH);
    line("hash-hash", oracle_hash_hash(of(hash, HASH), twice), twice, HASH);
    line("challenge hash", oracle_challenge_hash(peer, authenticator, name, challenge), challenge, CHALLENGE_HASH);
    line("response", oracle_challenge_response(of(challenge, CHALLENGE_HASH), of(hash, HASH), response), response, NT_RESPONSE);
    line("response", oracle_nt_response(authenticator, peer, name, password, response), response, NT_RESPONSE);
    answer = oracle_authenticator_string(password, of(response, NT_RESPONSE), peer, authenticator, name, string);
    line("string", answer, string, AUTHENTICATOR_STRING);
    check_response("response", NT_RESPONSE, authenticator, peer, name, password, of(response, NT_RESPONSE));
    check_authenticator("string", AUTHENTICATOR_STRING, password, of(response, NT_RESPONSE), peer, authenticator, name,
                        of(string, AUTHENTICATOR_STRING));
}

/* Every octet of a response and of a string changed. */
static void others(part authenticator, part peer, part name, part password)
{
    octet response[NT_RESPONSE], string[AUTHENTICATOR_STRING], other[AUTHENTICATOR_STRING];
    int answer = oracle_nt_response(authenticator, peer, name, password, response);

    line("response", answer, response, NT_RESPONSE);
    answer = oracle_authenticator_string(password, of(response, NT_RESPONSE), peer, authenticator, name, string);
    line("string", answer, string, AUTHENTICATOR_STRING);
    for (size_t k = 0; k < NT_RESPONSE; k++) {
        memcpy(other, response, NT_RESPONSE);
        other[k] ^= 1;
        check_response("response, other at", k, authenticator, peer, name, password, of(other, NT_RESPONSE));
    }
    for (size_t k = 0; k < AUTHENTICATOR_STRING; k++) {
        memcpy(other, string, AUTHENTICATOR_STRING);
        other[k] ^= 128;
        check_authenticator("string, other at", k, password, of(response, NT_RESPONSE), peer, authenticator, name,
                            of(other, AUTHENTICATOR_STRING));
    }
}

/* Checks of what was received in other lengths. */
static void checks(part authenticator, part peer, part name, part response, part string)
{
    part password = LITERAL("p\0w\0");
    octet own[AUTHENTICATOR_STRING];

    line("string", oracle_authenticator_string(password, response, peer, authenticator, name, own), own, AUTHENTICATOR_STRING);
    check_response("response of length", response.n, authenticator, peer, name, password, response);
    check_authenticator("string of length", string.n, password, response, peer, authenticator, name, string);
}

/* A response's line. */
static void show_response(part challenge, part hash)
{
    octet response[NT_RESPONSE];

    line("response", oracle_challenge_response(challenge, hash, response), response, NT_RESPONSE);
}

/* Section 9.2: the values that lead to the master key, and the authenticator's response; then the same for its user with a domain. */
static void section_9_2(part authenticator, part peer, part name, part password)
{
    octet master[KEY_PLACES], response[NT_RESPONSE], string[AUTHENTICATOR_STRING];

    sample_master_key(master);
    oracle_authenticator_string(password, printed(SAMPLE_RESPONSE, response), peer, authenticator, name, string);
    held(memcmp(string, AUTHENTICATOR_RESPONSE, AUTHENTICATOR_STRING) == 0, "AuthenticatorResponse", AUTHENTICATOR_RESPONSE);
    oracle_nt_response(authenticator, peer, LITERAL("NORTH\\User"), password, response);
    published("NT-Response of NORTH\\User", response, SAMPLE_RESPONSE);
}

/* Seven octets of a key as eight with odd parity, as 9.3 prints them. */
static void parity_corrected(const octet raw[DES_KEY], const char *digits)
{
    unsigned long long bits = 0;
    octet key[8];

    for (int k = 0; k < DES_KEY; k++)
        bits = bits << 8 | raw[k];
    for (int k = 0; k < 8; k++) {
        unsigned seven = bits >> (49 - 7 * k) & 127;

        key[k] = (octet)(seven << 1 | !(__builtin_popcount(seven) % 2));
    }
    published("a parity-corrected key", key, digits);
}

/* Section 9.3. It prints four characters for its password, "MyPw"; the hash that it prints is that of their eight octets. */
static void section_9_3(part password)
{
    octet hash[HASH];

    line("password hash", oracle_password_hash(password, hash), hash, HASH);
    published("PasswordHash of MyPw", hash, HASH_OF_9_3);
    for (int k = 0; k < 2; k++)
        parity_corrected(hash + DES_KEY * k, PARITY_CORRECTED[k]);
    line("first key", 0, hash, DES_KEY);
    line("both keys", 0, hash, 2 * DES_KEY);
    show_response(of(hash, CHALLENGE_HASH), of(hash, HASH));
}

/* Names with 0x5C: none, one, several and nothing else, in front, within and at the end, short and at the limit. */
static void domains(part authenticator, part peer)
{
    static const char *const names[] = {"BIGCO\\johndoe", "johndoe", "\\", "\\\\", "\\pump4", "NORTH\\", "A\\B\\c", "B\\c", "\\A\\B\\"};
    static const size_t places[][2] = {{0, 0}, {128, 128}, {255, 255}, {256, 256}, {100, 200}};
    part word = LITERAL("p\0w\0");
    octet name[257];

    for (size_t k = 0; k < sizeof names / sizeof names[0]; k++)
        all(authenticator, peer, of(names[k], strlen(names[k])), word);
    all(authenticator, peer, LITERAL("BIGCO\\johndoe"), LITERAL("p\0w"));
    memset(name, 0x5C, sizeof name);
    for (size_t n = 256; n <= 257; n++)
        all(authenticator, peer, of(name, n), word);
    for (size_t k = 0; k < 5; k++)
        for (size_t n = 256; n <= 257; n++) {
            memcpy(name, text, sizeof name);
            name[places[k][0]] = name[places[k][1]] = 0x5C;
            all(authenticator, peer, of(name, n), word);
        }
}

/* Names and passwords at and beyond their limits. */
static void limits(part authenticator, part peer, part user)
{
    static const size_t names[] = {0, 1, 255, 256, 257}, passwords[] = {0, 1, 2, 510, 511, 512, 513, 514};
    part domain = LITERAL("BIGCO\\johndoe"), word = LITERAL("p\0w\0");

    for (size_t k = 0; k < 5; k++)
        all(authenticator, peer, of(text, names[k]), word);
    domains(authenticator, peer);
    for (size_t k = 0; k < 8; k++)
        all(authenticator, peer, user, of(text, passwords[k]));
    for (size_t m = 23; m <= 25; m++)
        for (size_t n = 41; n <= 43; n++) {
            checks(authenticator, peer, domain, of(text, m), of(text, n));
            checks(authenticator, peer, user, of(text, m), of(text, n));
        }
}

int main(void)
{
    octet a[CHALLENGE], p[CHALLENGE], u[8], w[20], hash[HASH];
    part authenticator = printed(AUTHENTICATOR_CHALLENGE, a), peer = printed(PEER_CHALLENGE, p), user = printed(USER_NAME, u);
    part password = printed(PASSWORD, w);

    for (int k = 0; k < 514; k++)
        text[k] = (octet)(7 * (k % 89) % 89 + 1);
    section_9_2(authenticator, peer, user, password);
    all(authenticator, peer, user, password);
    others(authenticator, peer, user, password);
    all(authenticator, peer, LITERAL("NORTH\\User"), password);
    section_9_3(LITERAL("M\0y\0P\0w\0"));
    limits(authenticator, peer, user);
    for (size_t m = 15; m <= 17; m++)
        for (size_t n = 15; n <= 17; n++)
            all(of(text, m), of("0123456789ABCDEFG", n), user, LITERAL("p\0w\0"));
    for (size_t m = 7; m <= 9; m++)
        for (size_t n = 15; n <= 17; n++) {
            line("hash-hash", oracle_hash_hash(of(text, n), hash), hash, HASH);
            show_response(of(text, m), of(text, n));
        }
    return 0;
}
