/* What crates/mschap_packets_samples must print, by the oracle: packets of RFC 2759's sample, as it prints its values. */
#include "sample.h"

enum { IDENTIFIER = 7, SPACE = 320 };

static octet counted[257];

/* A packet read as a Challenge (1) or a Response (2). */
static void show(int kind, part packet)
{
    octet identifier, challenge[CHALLENGE], response[NT_RESPONSE];
    part name;
    int answer = kind == 1 ? oracle_read_challenge(packet, &identifier, challenge)
                           : oracle_read_response(packet, &identifier, challenge, response);

    numbered(kind == 1 ? "challenge" : "peer challenge", identifier, answer, challenge, CHALLENGE);
    if (kind == 2)
        numbered("NT-Response", identifier, answer, response, NT_RESPONSE);
    name = oracle_name(kind, packet);
    numbered("name of", name.n, 0, name.at, name.n);
}

/* The sample's packet with a name, written into a buffer. */
static void write_packet(int kind, part name, octet *out, size_t room)
{
    octet challenge[CHALLENGE], response[NT_RESPONSE];
    int answer;

    if (kind == 1)
        answer = oracle_write_challenge(IDENTIFIER, printed(AUTHENTICATOR_CHALLENGE, challenge), name, into(out, room));
    else
        answer = oracle_write_response(IDENTIFIER, printed(PEER_CHALLENGE, challenge), printed(SAMPLE_RESPONSE, response), name,
                                       into(out, room));
    numbered(kind == 1 ? "write challenge" : "write response", name.n, answer, out, room);
}

/* The sample's packet. */
static void sample(int kind, octet packet[SPACE])
{
    memset(packet, 0x55, SPACE);
    write_packet(kind, LITERAL("User"), packet, SPACE);
}

/* Names at their limits, and buffers about what they need. */
static void name_cases(int kind)
{
    static const size_t sizes[] = {0, 1, 255, 256, 257};

    for (int k = 0; k < 5; k++) {
        size_t length = (kind == 1 ? LEAST_CHALLENGE : LEAST_RESPONSE) + sizes[k];
        size_t room[4] = {0, length - 1, length, length + 3};

        for (int j = 0; j < 4; j++) {
            octet out[314];

            memset(out, 0xAA, sizeof out);
            write_packet(kind, of(counted, sizes[k]), out, room[j]);
            show(kind, of(out, room[j]));
        }
    }
}

/* Every length of a slice, every octet changed, and lengths named. */
static void cases(int kind)
{
    static const size_t lengths[] = {0, 5, 20, 21, 22, 25, 53, 54, 55, 58, 277, 278, 310, 311, 319, 320, 321, 65535};
    octet packet[SPACE];

    name_cases(kind);
    sample(kind, packet);
    for (size_t n = 0; n <= 60; n++)
        show(kind, of(packet, n));
    for (int turned = 0x01; turned <= 0x80; turned += 0x7F) {
        sample(kind, packet);
        for (size_t k = 0; k < 60; k++) {
            packet[k] ^= (octet)turned;
            show(kind, of(packet, SPACE));
            packet[k] ^= (octet)turned;
        }
    }
    sample(kind, packet);
    for (size_t k = 0; k < sizeof lengths / sizeof lengths[0]; k++) {
        packet[2] = (octet)(lengths[k] >> 8);
        packet[3] = (octet)lengths[k];
        show(kind, of(packet, SPACE));
    }
    sample(kind, packet);
    packet[2] = 311 >> 8;
    packet[3] = 311 & 0xFF;
    packet[21] ^= 1;
    show(kind, of(packet, SPACE));
}

/* A Challenge with a value of n octets. */
static void challenge_of(size_t n, size_t room)
{
    octet out[30];
    int answer;

    memset(out, 0xAA, sizeof out);
    answer = oracle_write_challenge(255, of(counted, n), LITERAL("User"), into(out, room));
    numbered("challenge of", n, answer, out, room);
}

/* A Response with a peer challenge of n octets and an NT-Response of m. */
static void response_of(size_t n, size_t m, size_t room)
{
    octet out[60];
    int answer;

    memset(out, 0xAA, sizeof out);
    answer = oracle_write_response(0, of(counted, n), of(counted, m), LITERAL("User"), into(out, room));
    numbered("response of", n, answer, out, room);
}

int main(void)
{
    octet packet[SPACE];

    for (size_t k = 0; k < sizeof counted; k++)
        counted[k] = (octet)k;
    cases(1);
    cases(2);
    sample(1, packet);
    show(2, of(packet, SPACE));
    sample(2, packet);
    show(1, of(packet, SPACE));
    challenge_of(0, 30);
    challenge_of(15, 30);
    challenge_of(16, 30);
    challenge_of(17, 30);
    challenge_of(15, 0);
    response_of(15, 24, 60);
    response_of(17, 24, 60);
    response_of(16, 23, 60);
    response_of(16, 25, 60);
    response_of(16, 24, 60);
    response_of(0, 0, 0);
    return 0;
}
