/* What crates/ccp_samples must print, by the oracle. */
#include "line.h"

/* A set of strengths: 1 for 40 bits, 2 for 56, 4 for 128. */
static offer offer_of(bool stateless, int set)
{
    offer o = {stateless, set & 1, set >> 1 & 1, set >> 2 & 1};

    return o;
}

/* An option read. */
static void show_read(part option)
{
    offer o;
    int answer = oracle_read_option(option, &o);

    numbered(o.stateless ? "stateless" : "stateful", o.bits40 + 2 * o.bits56 + 4 * o.bits128, answer, option.at, option.n);
}

/* An option written into a buffer. */
static void show_write(bool stateless, int set, size_t room)
{
    octet out[8];
    int answer;

    memset(out, 0xAA, sizeof out);
    answer = oracle_write_option(offer_of(stateless, set), into(out, room));
    numbered("written", (size_t)set, answer, out, room);
}

/* A request replied to under a policy, a set of strengths and 8 for stateful mode: the reply's mode, the request, and behind it the
   reply's option. */
static void show_reply(part option, int policy)
{
    octet shown[14] = {0};
    reply r = oracle_option_reply(option, offer_of(false, policy & 7), policy >> 3, into(shown + 8, OPTION));

    if (option.n > 0)
        memcpy(shown, option.at, option.n);
    printf("%s", r.number != DONE ? "refused" : r.accept ? "accept " : "counter-offer ");
    numbered(r.number != DONE ? "" : r.stateful ? "stateful" : "stateless", (size_t)policy, r.number, shown, sizeof shown);
}

/* A request of a wrong shape. */
static void refused(part option)
{
    show_read(option);
    show_reply(option, 7);
    show_reply(option, 0);
    show_reply(option, 15);
}

/* Request i: each subset of M, S and L without H, then with it; the same with C, with D, and with the top bit of each other octet. */
static part request(int i, octet option[OPTION])
{
    octet made[OPTION] = {18, 6, (i & 8) != 0, 0, 0, (octet)((i & 7) << 5)};

    switch (i >> 4) {
    case 1:
        made[5] ^= 1;
        break;
    case 2:
        made[5] ^= 16;
        break;
    case 3:
        for (int k = 2; k < 5; k++)
            made[k] ^= 128;
    }
    memcpy(option, made, OPTION);
    return of(option, OPTION);
}

/* A Reset-Request read. */
static void show_reset(part request)
{
    octet identifier;
    int answer = oracle_read_reset(request, &identifier);

    numbered("reset", identifier, answer, request.at, request.n);
}

/* A Reset-Request written into a buffer. */
static void show_reset_written(octet identifier, size_t room)
{
    octet out[6];
    int answer;

    memset(out, 0xAA, sizeof out);
    answer = oracle_write_reset(identifier, into(out, room));
    numbered("reset written", identifier, answer, out, room);
}

/* Reset-Requests: with three identifiers, with each bit turned over, and of 0 to 6 octets; written into 0 to 6 octets. */
static void resets(void)
{
    static const octet identifiers[] = {0, 1, 255}, request[] = {14, 7, 0, 4, 0, 0};

    for (int k = 0; k < 3; k++) {
        octet named[RESET_REQUEST] = {14, identifiers[k], 0, 4};

        show_reset(of(named, sizeof named));
    }
    for (int bit = 0; bit < 8 * RESET_REQUEST; bit++) {
        octet damaged[RESET_REQUEST];

        memcpy(damaged, request, sizeof damaged);
        damaged[bit / 8] ^= 1 << bit % 8;
        show_reset(of(damaged, sizeof damaged));
    }
    for (size_t n = 0; n <= sizeof request; n++)
        show_reset(of(request, n));
    for (int k = 0; k < 3; k++)
        for (size_t room = 0; room <= 6; room++)
            show_reset_written(identifiers[k], room);
}

int main(void)
{
    octet option[OPTION];

    printf("K9 ");
    show_read(LITERAL("\x12\x06\x01\x00\x00\x40"));
    printf("K10 ");
    show_reply(LITERAL("\x12\x06\x01\x00\x00\xE0"), 15);
    printf("K11 ");
    show_reply(LITERAL("\x12\x06\x00\x00\x00\x20"), 7);
    printf("K12 ");
    show_reply(LITERAL("\x12\x06\x01\x00\x00\x20"), 4);
    for (int i = 0; i < 64; i++)
        show_read(request(i, option));
    for (int stateless = 0; stateless < 2; stateless++)
        for (int set = 0; set < 8; set++)
            show_write(stateless, set, 8);
    show_write(true, 7, 0);
    show_write(true, 7, 5);
    show_write(true, 7, 6);
    show_write(false, 1, 8);
    for (int policy = 0; policy < 16; policy++)
        for (int i = 0; i < 64; i++)
            show_reply(request(i, option), policy);
    refused(LITERAL(""));
    refused(LITERAL("\x12\x06\x01\x00\x00"));
    refused(LITERAL("\x12\x06\x01\x00\x00\x40\x00"));
    refused(LITERAL("\x12\x07\x01\x00\x00\x40\x00"));
    refused(LITERAL("\x11\x06\x01\x00\x00\x40"));
    refused(LITERAL("\x12\x05\x01\x00\x00\x40"));
    refused(LITERAL("\x12\x07\x01\x00\x00\x40"));
    resets();
    return 0;
}
