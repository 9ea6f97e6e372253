/* What crates/des_samples must print, by the oracle (OpenSSL's DES), which is held against the published values.
   Keys stand here as the documents print them, parity bits and all. */
#include "sample.h"

/* NIST's known answers (Special Publication 500-20): each bit of the block alone, under a key without a bit but for parity. */
static const char *const one_bit_blocks[] = {
    "95F8A5E5DD31D900", "DD7F121CA5015619", "2E8653104F3834EA", "4BD388FF6CD81D4F", "20B9E767B2FB1456", "55579380D77138EF",
    "6CC5DEFAAF04512F", "0D9F279BA5D87260", "D9031B0271BD5A0A", "424250B37C3DD951", "B8061B7ECD9A21E5", "F15D0F286B65BD28",
    "ADD0CC8D6E5DEBA1", "E6D5F82752AD63D1", "ECBFE3BD3F591A5E", "F356834379D165CD", "2B9F982F20037FA9", "889DE068A16F0BE6",
    "E19E275D846A1298", "329A8ED523D71AEC", "E7FCE22557D23C97", "12A9F5817FF2D65D", "A484C3AD38DC9C19", "FBE00A8A1EF8AD72",
    "750D079407521363", "64FEED9C724C2FAF", "F02B263B328E2B60", "9D64555A9A10B852", "D106FF0BED5255D7", "E1652C6B138C64A5",
    "E428581186EC8F46", "AEB5F5EDE22D1A36", "E943D7568AEC0C5C", "DF98C8276F54B04B", "B160E4680F6C696F", "FA0752B07D9C4AB8",
    "CA3A2B036DBC8502", "5E0905517BB59BCF", "814EEB3B91D90726", "4D49DB1532919C9F", "25EB5FC3F8CF0621", "AB6A20C0620D1C6F",
    "79E90DBC98F92CCA", "866ECEDD8072BB0E", "8B54536F2F3E64A8", "EA51D3975595B86B", "CAFFC6AC4542DE31", "8DD45A2DDF90796C",
    "1029D55E880EC2D0", "5D86CB23639DBEA9", "1D1CA853AE7C0C5F", "CE332329248F3228", "8405D1ABE24FB942", "E643D78090CA4207",
    "48221B9937748A23", "DD7C0BBD61FAFD54", "2FBC291A570DB5C4", "E07C30D7E4E26E12", "0953E2258E8E90A1", "5B711BC4CEEBF2EE",
    "CC083F1E6D9E85F6", "D2FD8867D50D2DFE", "06E7EA22CE92708F", "166B40B44ABA4BD6"};

/* Each bit of the key alone, on a block of zeros. */
static const char *const one_bit_keys[] = {
    "95A8D72813DAA94D", "0EEC1487DD8C26D5", "7AD16FFB79C45926", "D3746294CA6A6CF3", "809F5F873C1FD761", "C02FAFFEC989D1FC",
    "4615AA1D33E72F10", "2055123350C00858", "DF3B99D6577397C8", "31FE17369B5288C9", "DFDD3CC64DAE1642", "178C83CE2B399D94",
    "50F636324A9B7F80", "A8468EE3BC18F06D", "A2DC9E92FD3CDE92", "CAC09F797D031287", "90BA680B22AEB525", "CE7A24F350E280B6",
    "882BFF0AA01A0B87", "25610288924511C2", "C71516C29C75D170", "5199C29A52C9F059", "C22F0A294A71F29F", "EE371483714C02EA",
    "A81FBD448F9E522F", "4F644C92E192DFED", "1AFA9A66A6DF92AE", "B3C1CC715CB879D8", "19D032E64AB0BD8B", "3CFAA7A7DC8720DC",
    "B7265F7F447AC6F3", "9DB73B3C0D163F54", "8181B65BABF4A975", "93C9B64042EAA240", "5570530829705592", "8638809E878787A0",
    "41B9A79AF79AC208", "7A9BE42F2009A892", "29038D56BA6D2745", "5495C6ABF1E5DF51", "AE13DBD561488933", "024D1FFA8904E389",
    "D1399712F99BF02E", "14C1D7C1CFFEC79E", "1DE5279DAE3BED6F", "E941A33F85501303", "DA99DBBC9A03F379", "B7FC92F91D8E92E9",
    "AE8E5CAA3CA04E85", "9CC62DF43B6EED74", "D863DBB5C59A91A0", "A1AB2190545B91D7", "0875041E64C570F7", "5A594528BEBEF1CC",
    "FCDB3291DE21F0C0", "869EFD7F9F265A09"};

/* The permutation: keys, and what they make of a block of zeros. */
static const char *const permutation[][2] = {
    {"1046913489980131", "88D55E54F54C97B4"}, {"1007103489988020", "0C0CC00C83EA48FD"}, {"10071034C8980120", "83BC8EF3A6570183"},
    {"1046103489988020", "DF725DCAD94EA2E9"}, {"1086911519190101", "E652B53B550BE8B0"}, {"1086911519580101", "AF527120C485CBB0"},
    {"5107B01519580101", "0F04CE393DB926D5"}, {"1007B01519190101", "C9F00FFC74079067"}, {"3107915498080101", "7CFD82A593252B4E"},
    {"3107919498080101", "CB49A2F9E91363E3"}, {"10079115B9080140", "00B588BE70D23F56"}, {"3107911598080140", "406A9A6AB43399AE"},
    {"1007D01589980101", "6CB773611DCA9ADA"}, {"9107911589980101", "67FD21C17DBB5D70"}, {"9107D01589190101", "9592CB4110430787"},
    {"1007D01598980120", "A6B7FF68A318DDD3"}, {"1007940498190101", "4D102196C914CA16"}, {"0107910491190401", "2DFA9F4573594965"},
    {"0107910491190101", "B46604816C0E0774"}, {"0107940491190401", "6E7E6221A4F34E87"}, {"19079210981A0101", "AA85E74643233199"},
    {"1007911998190801", "2E5A19DB4D1962D6"}, {"10079119981A0801", "23A866A809D30894"}, {"1007921098190101", "D812D961F017D320"},
    {"100791159819010B", "055605816E58608F"}, {"1004801598190101", "ABD88E8B1B7716F1"}, {"1004801598190102", "537AC95BE69DA1E1"},
    {"1004801598190108", "AED0F6AE3C25CDD8"}, {"1002911598100104", "B3E35A5EE53E7B8D"}, {"1002911598190104", "61C79C71921A2EF8"},
    {"1002911598100201", "E2F5728F0995013C"}, {"1002911698100101", "1AEAC39A61F0A464"}};

/* The substitution tables: key, block, and what it is enciphered to. */
static const char *const substitution[][3] = {
    {"7CA110454A1A6E57", "01A1D6D039776742", "690F5B0D9A26939B"}, {"0131D9619DC1376E", "5CD54CA83DEF57DA", "7A389D10354BD271"},
    {"07A1133E4A0B2686", "0248D43806F67172", "868EBB51CAB4599A"}, {"3849674C2602319E", "51454B582DDF440A", "7178876E01F19B2A"},
    {"04B915BA43FEB5B6", "42FD443059577FA2", "AF37FB421F8C4095"}, {"0113B970FD34F2CE", "059B5E0851CF143A", "86A560F10EC6D85B"},
    {"0170F175468FB5E6", "0756D8E0774761D2", "0CD3DA020021DC09"}, {"43297FAD38E373FE", "762514B829BF486A", "EA676B2CB7DB2B7A"},
    {"07A7137045DA2A16", "3BDD119049372802", "DFD64A815CAF1A0F"}, {"04689104C2FD3B2F", "26955F6835AF609A", "5C513C9C4886C088"},
    {"37D06BB516CB7546", "164D5E404F275232", "0A2AEEAE3FF4AB77"}, {"1F08260D1AC2465E", "6B056E18759F5CCA", "EF1BF03E5DFA575A"},
    {"584023641ABA6176", "004BD6EF09176062", "88BF0DB6D70DEE56"}, {"025816164629B007", "480D39006EE762F2", "A1F9915541020B56"},
    {"49793EBC79B3258F", "437540C8698F3CFA", "6FBF1CAFCFFD0556"}, {"4FB05E1515AB73A7", "072D43A077075292", "2F22E49BAB7CA1AC"},
    {"49E95D6D4CA229BF", "02FE55778117F12A", "5A6B612CC26CCE4A"}, {"018310DC409B26D6", "1D9D5C5018F728C2", "5F4C038ED12B2E41"},
    {"1C587F1C13924FEF", "305532286D6F295A", "63FAC0D034D9F793"}};

/* The seven octets of a printed key of eight: the last bit of each is parity. */
static part without_parity(const char *digits, octet to[DES_KEY])
{
    octet eight[8];

    unhex(digits, eight);
    for (int k = 0; k < DES_KEY; k++)
        to[k] = (octet)((eight[k] >> 1 << (k + 1)) | (eight[k + 1] >> (7 - k)));
    return of(to, DES_KEY);
}

/* One bit of n octets. */
static part one_bit(int bit, octet *to, size_t n)
{
    memset(to, 0, n);
    to[bit / 8] = (octet)(0x80 >> bit % 8);
    return of(to, n);
}

/* A call's line, and the block that it gave. */
static void des(const char *label, part key, part block, octet out[DES_BLOCK])
{
    line(label, oracle_des(key, block, out), out, DES_BLOCK);
}

/* The same held against what is printed. */
static void known(const char *label, part key, part block, const char *digits)
{
    octet out[DES_BLOCK];

    des(label, key, block, out);
    published(label, out, digits);
}

/* The NT-Response of RFC 2759, 9.2, a block under each of three keys; and the keys of 9.3. */
static void responses(void)
{
    octet key[DES_KEY], block[DES_BLOCK], out[DES_BLOCK], hash[3 * DES_KEY] = {0}, response[NT_RESPONSE];
    part challenge = printed(SAMPLE_CHALLENGE, block);

    unhex(PASSWORD_HASH, hash);
    for (int i = 0; i < 3; i++)
        des("nt-response", of(hash + DES_KEY * i, DES_KEY), challenge, response + DES_BLOCK * i);
    published("NT-Response", response, SAMPLE_RESPONSE);
    for (int i = 0; i < 2; i++)
        des("raw-key", without_parity(PARITY_CORRECTED[i], key), challenge, out);
}

/* Keys and blocks of other lengths. */
static void refusals(void)
{
    static const octet zeros[9];
    octet out[DES_BLOCK];

    des("key-of-0", of(zeros, 0), of(zeros, 8), out);
    des("key-of-6", of(zeros, 6), of(zeros, 8), out);
    des("key-of-8", of(zeros, 8), of(zeros, 8), out);
    des("block-of-0", of(zeros, 7), of(zeros, 0), out);
    des("block-of-7", of(zeros, 7), of(zeros, 7), out);
    des("block-of-9", of(zeros, 7), of(zeros, 9), out);
    des("both", of(zeros, 8), of(zeros, 7), out);
}

int main(void)
{
    static const octet zeros[DES_BLOCK];
    octet key[DES_KEY], block[DES_BLOCK];

    for (int i = 0; i < 64; i++)
        known("one-bit-block", of(zeros, DES_KEY), one_bit(i, block, DES_BLOCK), one_bit_blocks[i]);
    for (int i = 0; i < 56; i++)
        known("one-bit-key", one_bit(i, key, DES_KEY), of(zeros, DES_BLOCK), one_bit_keys[i]);
    for (size_t i = 0; i < sizeof permutation / sizeof *permutation; i++)
        known("permutation", without_parity(permutation[i][0], key), of(zeros, DES_BLOCK), permutation[i][1]);
    for (size_t i = 0; i < sizeof substitution / sizeof *substitution; i++)
        known("substitution", without_parity(substitution[i][0], key), printed(substitution[i][1], block), substitution[i][2]);
    responses();
    refusals();
    return 0;
}
