/* What crates/digest_samples must print, by the oracle (OpenSSL's digests), which is held against the published values. */
#include "line.h"

/* RFC 1320, A.5: the test suite. */
static const struct {
    const char *text, *md4;
} rfc1320[] = {
    {"", "31d6cfe0d16ae931b73c59d7e0c089c0"},
    {"a", "bde52cb31de33e46245e05fbdbd6fb24"},
    {"abc", "a448017aaf21d8525fc10ae87aa6729d"},
    {"message digest", "d9130a8164549fe818874806e1c7014b"},
    {"abcdefghijklmnopqrstuvwxyz", "d79e1c308aa5bbcdeea8ed63df412da9"},
    {"ABCDEFGHIJKLMNOPQRSTUVWXYZabcdefghijklmnopqrstuvwxyz0123456789", "043f8582f241db351ce627e153e7f0e4"},
    {"12345678901234567890123456789012345678901234567890123456789012345678901234567890", "e33b4ddc9c38f2199c3e7b164fcc0536"}};

/* The examples of FIPS 180 for SHA-1 and SHA-256 of one and of two blocks; beside them no text, and the longer text that the standard
   has for its wider digests. */
static const struct {
    const char *text, *sha1, *sha256;
} fips180[] = {
    {"", "da39a3ee 5e6b4b0d 3255bfef 95601890 afd80709",
     "e3b0c442 98fc1c14 9afbf4c8 996fb924 27ae41e4 649b934c a495991b 7852b855"},
    {"abc", "a9993e36 4706816a ba3e2571 7850c26c 9cd0d89d",
     "ba7816bf 8f01cfea 414140de 5dae2223 b00361a3 96177a9c b410ff61 f20015ad"},
    {"abcdbcdecdefdefgefghfghighijhijkijkljklmklmnlmnomnopnopq", "84983e44 1c3bd26e baae4aa1 f95129e5 e54670f1",
     "248d6a61 d20638b8 e5c02693 0c3e6039 a33ce459 64ff2167 f6ecedd4 19db06c1"},
    {"abcdefghbcdefghicdefghijdefghijkefghijklfghijklmghijklmnhijklmnoijklmnopjklmnopqklmnopqrlmnopqrsmnopqrstnopqrstu",
     "a49b2446 a02c645b f419f995 b6709125 3a04a259",
     "cf5b16a7 78af8380 036ce59e 7b049237 0b249b11 e8f07a51 afac4503 7afee9d1"}};

static octet repeated[7][131];

/* A text of one octet, n times. */
static part times(int k, octet o, size_t n)
{
    memset(repeated[k], o, n);
    return of(repeated[k], n);
}

/* A case of RFC 4231. */
static void rfc4231(const char *name, part key, part text, const char *printed)
{
    octet out[32];

    line("rfc4231 hmac-sha256", oracle_hmac(key, text, out), out, 32);
    published(name, out, printed);
}

/* RFC 4231, section 4. Case 5 prints the first 16 octets alone. */
static void hmac_cases(void)
{
    octet counting[25];

    for (int i = 0; i < 25; i++)
        counting[i] = (octet)(i + 1);
    rfc4231("RFC 4231, 4.2", times(0, 0x0b, 20), LITERAL("Hi There"),
            "b0344c61d8db38535ca8afceaf0bf12b 881dc200c9833da726e9376c2e32cff7");
    rfc4231("RFC 4231, 4.3", LITERAL("Jefe"), LITERAL("what do ya want for nothing?"),
            "5bdcc146bf60754e6a042426089575c7 5a003f089d2739839dec58b964ec3843");
    rfc4231("RFC 4231, 4.4", times(1, 0xaa, 20), times(2, 0xdd, 50),
            "773ea91e36800e46854db8ebd09181a7 2959098b3ef8c122d9635514ced565fe");
    rfc4231("RFC 4231, 4.5", of(counting, 25), times(3, 0xcd, 50),
            "82558a389a443c0ea4cc819899f2083a 85f0faa3e578f8077a2e3ff46729665b");
    rfc4231("RFC 4231, 4.6", times(4, 0x0c, 20), LITERAL("Test With Truncation"), "a3b6167473100ee06e0c796c2955552b");
    rfc4231("RFC 4231, 4.7", times(5, 0xaa, 131), LITERAL("Test Using Larger Than Block-Size Key - Hash Key First"),
            "60e431591ee0b67f0d8a26aacbf5b77f 8e0bc6213728c5140546040f0ee37f54");
    rfc4231("RFC 4231, 4.8", times(6, 0xaa, 131),
            LITERAL("This is a test using a larger than block-size key and a larger than block-size data. "
                    "The key needs to be hashed before being used by the HMAC algorithm."),
            "9b09ffa71b942fcb27635fbcd5b0e944 bfdc63644f0713938a7f51535c3a35e2");
}

int main(void)
{
    static octet text[LONGEST_TEXT + 1];
    octet out[32];

    for (size_t i = 0; i < sizeof rfc1320 / sizeof *rfc1320; i++) {
        line("rfc1320 md4", oracle_md4(of(rfc1320[i].text, strlen(rfc1320[i].text)), out), out, 16);
        published("RFC 1320, A.5", out, rfc1320[i].md4);
    }
    for (size_t i = 0; i < sizeof fips180 / sizeof *fips180; i++) {
        part message = of(fips180[i].text, strlen(fips180[i].text));

        line("fips180 sha1", oracle_sha1(message, out), out, 20);
        published("FIPS 180, SHA-1", out, fips180[i].sha1);
        line("fips180 sha256", oracle_sha256(message, out), out, 32);
        published("FIPS 180, SHA-256", out, fips180[i].sha256);
    }
    hmac_cases();
    for (size_t i = 0; i < sizeof text; i++)
        text[i] = (octet)(7 * i + i / 251 + 3);
    for (size_t k = 0; k <= 132; k++) {
        size_t n = k <= 130 ? k : k == 131 ? LONGEST_TEXT : LONGEST_TEXT + 1;

        numbered("md4", n, oracle_md4(of(text, n), out), out, 16);
        numbered("sha1", n, oracle_sha1(of(text, n), out), out, 20);
        numbered("sha256", n, oracle_sha256(of(text, n), out), out, 32);
        numbered("hmac-sha256 of text", n, oracle_hmac(LITERAL("key"), of(text, n), out), out, 32);
        numbered("hmac-sha256 under key", n, oracle_hmac(of(text, n), LITERAL("text"), out), out, 32);
    }
    return 0;
}
