/* The login of RFC 2759, 9.2, and RFC 3079, 3.5, as both print it: from the password to the message under the session keys. */
#ifndef SAMPLE_H
#define SAMPLE_H

#include "line.h"

static const char USER_NAME[] = "55 73 65 72", PASSWORD[] = "63 00 6C 00 69 00 65 00 6E 00 74 00 50 00 61 00 73 00 73 00",
                  AUTHENTICATOR_CHALLENGE[] = "5B 5D 7C 7D 7B 3F 2F 3E 3C 2C 60 21 32 26 26 28",
                  PEER_CHALLENGE[] = "21 40 23 24 25 5E 26 2A 28 29 5F 2B 3A 33 7C 7E", SAMPLE_CHALLENGE[] = "D0 2E 43 86 BC E9 12 26",
                  PASSWORD_HASH[] = "44 EB BA 8D 53 12 B8 D6 11 47 44 11 F5 69 89 AE",
                  PASSWORD_HASH_HASH[] = "41 C0 0C 58 4B D2 D9 1C 40 17 A2 A1 2F A5 9F 3F",
                  SAMPLE_RESPONSE[] = "82 30 9E CD 8D 70 8B 5E A0 8F AA 39 81 CD 83 54 42 33 11 4A 3D 85 D6 DF",
                  AUTHENTICATOR_RESPONSE[] = "S=407A5589115FD0D6209F510FE9C04566932CDA56",
                  MASTER_KEY[] = "FD EC E3 71 7A 8C 83 8C B3 88 E5 27 AE 3C DD 31";

/* RFC 2759, 9.3: another password's hash, and two keys of it with their parity bits. */
static const char HASH_OF_9_3[] = "FC 15 6A F7 ED CD 6C 0E DD E3 33 7D 42 7F 4E AC";
static const char *const PARITY_CORRECTED[] = {"FD 0B 5B 5E 7F 6E 34 D9", "0E 6E 79 67 37 EA 08 FE"};

/* What RFC 3079 prints at each strength. The last octet of the message at 56 bits is left out: the copy in the papers has 57 58 at its
   end, where the library and OpenSSL alike have 57 B8 under the session key as printed. */
static const struct {
    const char *start_key, *session_key, *message;
} RFC3079[] = {
    {"8B 7C DC 14 9B 99 3A 1B", "D1 26 9E C4 9F A6 2E 3E", "92 91 37 91 7E 58 03 D6 68 D7 58 98"},
    {"8B 7C DC 14 9B 99 3A 1B", "D1 5C 00 C4 9F A6 2E 3E", "3F 10 68 33 FA 44 8D A8 42 BC 57"},
    {"8B 7C DC 14 9B 99 3A 1B A1 18 CB 15 3F 56 DC CB", "40 5C B2 24 7A 79 56 E6 E2 11 00 7A E2 7B 22 D4",
     "81 84 83 17 DF 68 84 62 72 FB 5A BE"}};

/* The place of a strength in that table. */
static inline int place_of(unsigned bits)
{
    return bits == 40 ? 0 : bits == 56 ? 1 : 2;
}

/* The octets of printed digits. */
static inline part printed(const char *digits, octet *to)
{
    return of(to, unhex(digits, to));
}

/* The master key of the login, worked out from the password on, each value held against the printed one. */
static inline part sample_master_key(octet master[KEY_PLACES])
{
    octet name[8], password[20], authenticator[CHALLENGE], peer[CHALLENGE], challenge[CHALLENGE_HASH], response[NT_RESPONSE], hash[HASH],
          twice[HASH];
    part a = printed(AUTHENTICATOR_CHALLENGE, authenticator), p = printed(PEER_CHALLENGE, peer), n = printed(USER_NAME, name);
    part w = printed(PASSWORD, password);

    oracle_challenge_hash(p, a, n, challenge);
    published("Challenge", challenge, SAMPLE_CHALLENGE);
    oracle_nt_response(a, p, n, w, response);
    published("NT-Response", response, SAMPLE_RESPONSE);
    oracle_password_hash(w, hash);
    published("PasswordHash", hash, PASSWORD_HASH);
    oracle_hash_hash(of(hash, HASH), twice);
    published("PasswordHashHash", twice, PASSWORD_HASH_HASH);
    oracle_master_key(of(twice, HASH), of(response, NT_RESPONSE), master);
    published("MasterKey", master, MASTER_KEY);
    return of(master, KEY_PLACES);
}

/* "test message" under a session key. */
static inline int sample_message(unsigned bits, const octet session[KEY_PLACES], octet out[12])
{
    octet state[RC4_STATE];

    oracle_rc4_keyed(of(session, key_length(bits)), state);
    return oracle_rc4_run(state, LITERAL("test message"), into(out, 12));
}

#endif
