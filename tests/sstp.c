/* What crates/sstp_samples must print, by the oracle (MS-SSTP, 3.2.5.2.4, over OpenSSL's HMAC), from the keys of RFC 3079's sample as it
   prints them. */
#include "sample.h"

static octet filled[65536];

/* A base key's line. */
static void base_key(bool server, part send, part receive, octet out[BASE_KEY])
{
    line("base key", oracle_base_key(server, send, receive, out), out, BASE_KEY);
}

/* A binding key's line. */
static void binding_key(const octet *material, size_t n)
{
    octet out[BINDING_KEY];
    int answer = oracle_binding_key(of(material, n), out);

    numbered("binding key", n, answer, out, BINDING_KEY);
}

/* One end of the link: its start keys, the base key and the binding key. The server's send start key is printed, and so the client's
   receive start key, which is the same. */
static void end(bool server, part master)
{
    octet send[KEY_PLACES], receive[KEY_PLACES], base[BASE_KEY];

    line(server ? "server" : "client", 0, master.at, master.n);
    line("send start key", oracle_start_key(128, server, true, master, send), send, KEY_PLACES);
    line("receive start key", oracle_start_key(128, server, false, master, receive), receive, KEY_PLACES);
    published("SendStartKey128", server ? send : receive, RFC3079[place_of(128)].start_key);
    base_key(server, of(send, KEY_PLACES), of(receive, KEY_PLACES), base);
    binding_key(base, BASE_KEY);
}

/* Start keys of right and wrong lengths. */
static void sizes(bool server)
{
    static const size_t pairs[7][2] = {{16, 16}, {15, 16}, {17, 16}, {16, 15}, {16, 17}, {8, 8}, {0, 0}};
    octet send[17], receive[17], base[BASE_KEY];

    memset(send, 0x11, sizeof send);
    memset(receive, 0x22, sizeof receive);
    for (int k = 0; k < 7; k++)
        base_key(server, of(send, pairs[k][0]), of(receive, pairs[k][1]), base);
}

int main(void)
{
    static const octet zeros[BASE_KEY];
    octet key[KEY_PLACES];
    part master = sample_master_key(key);

    for (size_t k = 0; k < sizeof filled; k++)
        filled[k] = (octet)(k % 255 + 1);
    end(false, master);
    end(true, master);
    sizes(false);
    sizes(true);
    for (size_t n = 0; n <= 70; n++)
        binding_key(filled, n);
    binding_key(filled, 65535);
    binding_key(filled, 65536);
    binding_key(zeros, BASE_KEY);
    return 0;
}
