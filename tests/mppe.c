/* What crates/mppe_samples must print, by the oracle: links in both modes, the message of RFC 3079, 3.5, and every way to be refused. */
#include "sample.h"

enum { LENT = 1600, LONG_LENT = 32100, AT_START = 1, AT_SESSION = 17, AT_COUNT = 33, AT_MODE = 35, AT_MARK = 36, AT_I = 37, AT_CELLS = 39 };

/* The octets of a digest that are printed. */
enum { CUT = 8 };

/* What a call on a link gives beside the octets that it writes. */
struct outcome {
    int answer;
    unsigned changes;
    octet record[RECORD_OCTETS];
};

/* The start key of the sample at 128 bits, of which the other strengths have eight octets, and one octet more. */
static octet start_key[KEY_PLACES + 1];

/* The message behind a protocol number. */
static const octet message[] = "\x00\x21test message";

/* A Reset-Request, and two octets more. */
static const octet request[] = {14, 7, 0, RESET_REQUEST, 0, 0};

/* A new link of the first n octets; a refused one has the strength and the mode alone. */
static struct outcome new_link(octet bits, bool stateful, size_t n)
{
    struct outcome o = {0, 0, {bits}};

    o.record[AT_MODE] = stateful;
    o.answer = oracle_new_link(bits, stateful, of(start_key, n), into(o.record, RECORD_OCTETS));
    return o;
}

static struct outcome fresh(octet bits, bool stateful)
{
    return new_link(bits, stateful, key_length(bits));
}

/* A call of seal. It changes the key once, or, in stateful mode, before a count that ends in 0xFF. */
static struct outcome seal(struct outcome o, part plain, buffer out)
{
    o.answer = oracle_seal(into(o.record, RECORD_OCTETS), plain, out);
    o.changes = o.answer == DONE && (o.record[AT_MODE] == 0 || o.record[AT_COUNT + 1] == 0xFF);
    return o;
}

/* A call of open. */
static struct outcome open_packet(struct outcome o, part packet, buffer out)
{
    opened r = oracle_open(into(o.record, RECORD_OCTETS), packet, out);

    o.answer = r.number;
    o.changes = r.changes;
    return o;
}

/* The front of the digest of octets. */
static void cut_digest(part octets, octet out[CUT])
{
    octet digest[20];

    oracle_sha1(octets, digest);
    memcpy(out, digest, CUT);
}

/* A record's octets from one on as far as its cells, and the digest of them all. */
static void show_record(const char *label, size_t number, int answer, const octet record[RECORD_OCTETS], size_t from)
{
    octet shown[AT_CELLS + CUT];

    memcpy(shown, record, AT_CELLS);
    cut_digest(of(record, RECORD_OCTETS), shown + AT_CELLS);
    numbered(label, number, answer, shown + from, sizeof shown - from);
}

/* What a call gave: octets, and the record. */
static void show(const char *label, size_t number, struct outcome o, const octet *out, size_t n)
{
    numbered(label, number, o.answer, out, n);
    show_record("link", o.changes, o.answer, o.record, AT_COUNT);
}

/* The same with the digest of the whole buffer. */
static void show_digest(const char *label, size_t number, struct outcome o, part out)
{
    octet digest[CUT];

    cut_digest(out, digest);
    show(label, number, o, digest, CUT);
}

/* A Reset-Request taken, and what it gave. */
static struct outcome show_reset(size_t number, struct outcome o, part given)
{
    o.answer = oracle_reset(into(o.record, RECORD_OCTETS), given);
    o.changes = 0;
    show("reset", number, o, given.at, given.n);
    return o;
}

/* What is read of a record's first octets with zeros behind them: 295 octets whose first is a strength, and whose mode and mark are 0 or 1,
   or else 7, 40 bits and zeros. */
static void show_read(size_t number, const octet record[RECORD_OCTETS], size_t given)
{
    static const octet none[RECORD_OCTETS] = {40};
    bool known = record[0] == 40 || record[0] == 56 || record[0] == 128;
    bool whole = given == RECORD_OCTETS && known && record[AT_MODE] < 2 && record[AT_MARK] < 2;

    show_record("read", number, whole ? DONE : RECORD, whole ? record : none, 0);
}

/* Prints where a range of cases begins. */
static void cases_from(size_t n)
{
    numbered("cases from", n, 0, NULL, 0);
}

/* Records of other lengths, with other numbers of bits, and with other modes and marks. */
static void reads(struct outcome link)
{
    static const size_t lengths[][2] = {{35, 36}, {293, 298}}, ranges[][2] = {{38, 59}, {126, 131}};
    static const octet marks[] = {0, 1, 2, 255};
    struct outcome o = link;

    for (int k = 0; k < 2; k++) {
        cases_from(lengths[k][0]);
        for (size_t n = lengths[k][0]; n < lengths[k][1]; n++)
            show_read(n, link.record, n);
    }
    for (int k = 0; k < 2; k++) {
        cases_from(ranges[k][0]);
        for (size_t n = ranges[k][0]; n < ranges[k][1]; n++) {
            o.record[0] = (octet)n;
            show_read(n, o.record, RECORD_OCTETS);
        }
    }
    cases_from(0);
    for (size_t n = 0; n < 16; n++) {
        link.record[AT_MODE] = marks[n / 4];
        link.record[AT_MARK] = marks[n % 4];
        show_read(n, link.record, RECORD_OCTETS);
    }
}

/* Opens a packet of the message, and prints what it gave. */
static struct outcome show_opened(const char *label, size_t number, struct outcome link, part packet, size_t room)
{
    octet out[14];
    struct outcome o;

    memset(out, 0xEE, sizeof out);
    o = open_packet(link, packet, into(out, room));
    show(label, number, o, out, sizeof out);
    return o;
}

/* The sample's message behind a header, as it is printed: under the initial session key, which no stateless packet has. */
static void sample(struct outcome link)
{
    octet packet[16] = {0x00, 0xFD, 0x90, 0x00};
    octet bits = link.record[0];

    sample_message(bits, link.record + AT_SESSION, packet + FRONT);
    published("Sample Encrypted Message", packet + FRONT, RFC3079[place_of(bits)].message);
    show_opened("message under the initial session key", 0, link, of(packet, sizeof packet), 14);
}

/* A stateful link's first packet is under that key: behind the protocol number it is the sample's message as printed. */
static void first_packet(struct outcome link)
{
    octet wire[16];
    struct outcome o = seal(link, LITERAL("\x00\x21st message"), into(wire, sizeof wire));

    published("Sample Encrypted Message from its third octet", wire + FRONT + 2, RFC3079[place_of(link.record[0])].message + 2 * 3);
    show("first packet", 0, o, wire, sizeof wire);
}

/* A link with another count. */
static struct outcome counted(struct outcome o, unsigned count)
{
    o.record[AT_COUNT] = (octet)(count >> 8);
    o.record[AT_COUNT + 1] = (octet)count;
    return o;
}

/* The last of some packets of the message, sealed one after the other, and the sender's record after it. */
static struct outcome last_packet(struct outcome sender, size_t packets, octet wire[18])
{
    memset(wire, 0xEE, 18);
    for (size_t k = 0; k < packets; k++)
        sender = seal(sender, of(message, 14), into(wire, 18));
    return sender;
}

/* The link of most cases, whose next packet has count 0: a new one, or a stateful one that has sealed a packet and is not waiting. */
static struct outcome steady(octet bits, bool stateful)
{
    octet wire[18];

    return stateful ? counted(last_packet(fresh(bits, true), 1, wire), COUNTS - 1) : fresh(bits, false);
}

/* Packets sealed from a count made by hand, and the last of them opened by a link with that count: as it is and with another protocol
   number inside, each with room and without. */
static void ahead(struct outcome first, unsigned last, size_t packets)
{
    octet wire[18];
    struct outcome link = counted(first, last);

    last_packet(link, packets, wire);
    numbered("last count", last, 0, wire, sizeof wire);
    show_opened("opened after packets", packets, link, of(wire, sizeof wire), 14);
    show_opened("without room", packets, link, of(wire, sizeof wire), 13);
    wire[FRONT] ^= 0xFF;
    show_opened("with another protocol number", packets, link, of(wire, sizeof wire), 14);
    show_opened("with neither", packets, link, of(wire, sizeof wire), 13);
}

/* The distances of K1 to K5, and those at the limits of what is opened, from counts about the wrap. */
static void distances(struct outcome first)
{
    static const unsigned marked[][2] = {{4095, 1}, {2, 3}, {4094, 3}, {0, 4095}, {7, 4096}};
    static const unsigned last_counts[] = {0, 255, 2047, 2048, 4094, 4095}, packets[] = {1, 2047, 2048, 2049, 4095};

    for (size_t k = 0; k < sizeof marked / sizeof *marked; k++)
        ahead(first, marked[k][0], marked[k][1]);
    for (size_t k = 0; k < sizeof last_counts / sizeof *last_counts; k++)
        for (size_t j = 0; j < sizeof packets / sizeof *packets; j++)
            ahead(first, last_counts[k], packets[j]);
}

/* Packets of a new link, as they arrive on a line that loses 2,047 in a row from the start and again across the wrap, and brings some
   behind others: the last one opened is then one, two, and 2,047 ahead. */
static void arrivals(struct outcome first)
{
    static const size_t order[] = {2047, 2049, 2048, 2049, 2047, 4097, 2050, 4096, 4098};
    struct outcome receiver = first;
    octet wire[18];

    for (size_t k = 0; k < sizeof order / sizeof *order; k++) {
        last_packet(first, order[k] + 1, wire);
        receiver = show_opened("arrival of packet", order[k], receiver, of(wire, sizeof wire), 14);
    }
}

/* Record number v: one place of a key altered, another count, the mode, the mark or an index altered, one cell with what the next one has,
   two cells exchanged, or a refused new link. */
static struct outcome altered(struct outcome o, size_t v)
{
    static const unsigned counts[] = {4096, 65535, 4094};
    octet *cell = o.record + AT_CELLS + 20, held = *cell;

    if (v < 32)
        o.record[AT_START + v] ^= 1;
    else if (v < 35)
        return counted(o, counts[v - 32]);
    else if (v < 39)
        o.record[AT_MODE + v - 35] ^= 1;
    else if (v < 41) {
        cell[0] = cell[1];
        if (v == 40)
            cell[1] = held;
    } else
        return new_link(o.record[0], o.record[AT_MODE], 0);
    return o;
}

/* A message sealed and the next packet of a link opened, both with one record. The sealed packet has `given` octets and its
   buffer `room`; bits of its first six octets are turned over, the last two of which are the protocol number. */
static void both(size_t number, struct outcome first, struct outcome link, size_t given, size_t room, const octet mask[6])
{
    octet plain[LENT] = {0}, wire[LENT], out[LENT];

    memcpy(plain, message, 14);
    memset(wire, 0xEE, LENT);
    seal(first, of(plain, LENT - FRONT), into(wire, LENT));
    for (int k = 0; k < 6; k++)
        wire[k] ^= mask[k];
    plain[0] ^= mask[4];
    plain[1] ^= mask[5];
    memset(out, 0xEE, LENT);
    show_digest("seal", number, seal(link, of(plain, given - FRONT), into(out, room)), of(out, LENT));
    memset(out, 0xEE, LENT);
    show_digest("open", number, open_packet(link, of(wire, given), into(out, room - FRONT)), of(out, LENT));
}

/* Sets of rows: 1 record, 2 size and shape, 4 flags (in stateful mode D alone), 8 room, 16 protocol, 32 repeat or 64 late, which never
   apply together, and 128 waiting, in stateful mode. */
static void rows_of(struct outcome first, size_t begin, size_t end)
{
    octet flags = first.record[AT_MODE] ? 0x10 : 0x90;

    cases_from(begin);
    for (size_t set = begin; set < end; set++) {
        octet mask[6] = {0, 0, (set & 4 ? flags : 0) ^ (set & 96 ? 0x0F : 0), set & 32 ? 0xFF : 0, set & 16 ? 0xFF : 0, 0};
        size_t given = set & 2 ? 5 : 18;
        struct outcome link = set & 1 ? counted(first, 8191) : first;

        link.record[AT_MARK] = set >= 128;
        both(set, first, link, given, set & 8 ? given - 1 : given, mask);
    }
}

/* Every record, with seal, open and a Reset-Request. */
static void records(struct outcome first)
{
    static const octet none[6];

    cases_from(0);
    for (size_t v = 0; v < 42; v++) {
        both(v, first, altered(first, v), 18, 18, none);
        show_reset(v, altered(first, v), of(request, RESET_REQUEST));
    }
}

/* Every setting of the bits A to D. */
static void flags(struct outcome first)
{
    cases_from(0);
    for (size_t f = 0; f < 16; f++) {
        octet mask[6] = {0, 0, (octet)(16 * f ^ (first.record[AT_MODE] ? 0x10 : 0x90)), 0, 0, 0};

        both(f, first, first, 18, 18, mask);
    }
}

/* Protocol numbers inside and outside the limits, and the message's own first octets. */
static void protocols(struct outcome first)
{
    static const unsigned numbers[] = {0x0000, 0x0020, 0x0021, 0x00FA, 0x00FB, 0x00FF, 0x0100, 0x0121, 0x2100, 0xFF21, 0x7465};

    cases_from(0);
    for (size_t k = 0; k < sizeof numbers / sizeof *numbers; k++) {
        octet mask[6] = {0, 0, 0, 0, (octet)(numbers[k] >> 8), (octet)((numbers[k] & 255) ^ 0x21)};

        both(k, first, first, 18, 18, mask);
    }
}

/* Rooms for a sealed packet. */
static void rooms(struct outcome first)
{
    static const octet none[6];

    cases_from(4);
    for (size_t room = 4; room < 25; room++)
        both(room, first, first, 18, room, none);
}

/* Lengths of a sealed packet, with all the room. */
static void lengths(struct outcome first, size_t begin, size_t end)
{
    static const octet none[6];

    cases_from(begin);
    for (size_t n = begin; n < end; n++)
        both(n, first, first, n, 1520, none);
}

/* Reset-Requests with each octet altered, and of 0 to 6 octets; and the same with an ill-formed record. */
static void resets(struct outcome first)
{
    cases_from(0);
    for (size_t n = 0; n < 22; n++) {
        octet given[sizeof request];
        size_t k = n % 11;

        memcpy(given, request, sizeof request);
        if (k < 4)
            given[k] ^= 1;
        show_reset(n, n < 11 ? first : counted(first, 8191), of(given, k < 4 ? RESET_REQUEST : k - 4));
    }
}

/* Every case at one strength and in one mode. */
static void cases(octet bits, bool stateful)
{
    struct outcome first = fresh(bits, stateful), link = steady(bits, stateful);

    printf("%d bits, %s\n", bits, stateful ? "stateful" : "stateless");
    cases_from(0);
    for (size_t n = 0; n <= sizeof start_key; n++) {
        struct outcome o = new_link(bits, stateful, n);

        show_record("link", n, o.answer, o.record, 0);
    }
    reads(link);
    sample(first);
    distances(first);
    arrivals(first);
    rows_of(link, 0, 96);
    records(link);
    rooms(link);
    lengths(link, 4, 13);
    lengths(link, 1500, 1506);
    flags(link);
    protocols(link);
    resets(link);
}

/* Both ends of a stateful link, the packet sealed last, and one that was kept. */
struct ends {
    struct outcome sender, receiver;
    octet wire[18], kept[18];
};

/* A packet arrives as it is; `d` without D, `a` with A turned over, `p` with another protocol number, `n` without room; `l` is the one
   that was kept. */
static void arrive(struct ends *e, char code, size_t number)
{
    octet packet[18];

    memcpy(packet, code == 'l' ? e->kept : e->wire, sizeof packet);
    packet[2] ^= code == 'd' ? 0x10 : code == 'a' ? 0x80 : 0;
    packet[FRONT] ^= code == 'p' ? 0xFF : 0;
    e->receiver = show_opened("opened", number, e->receiver, of(packet, sizeof packet), code == 'n' ? 13 : 14);
}

/* A packet is sealed and opened, and nothing printed. */
static void pass(struct ends *e)
{
    octet out[14];

    e->sender = last_packet(e->sender, 1, e->wire);
    e->receiver = open_packet(e->receiver, of(e->wire, sizeof e->wire), into(out, sizeof out));
}

/* One event: `s` seals, `r` is a Reset-Request that the sender takes, `k` keeps the packet sealed last, `q` are packets unseen up
   to a count that ends in 0xFD, `x` 63 lost and `X` 2,047 lost; any other is an arrival. */
static void event(struct ends *e, char code, size_t number)
{
    switch (code) {
    case 's':
        e->sender = last_packet(e->sender, 1, e->wire);
        show("sealed", number, e->sender, e->wire, sizeof e->wire);
        break;
    case 'r':
        e->sender = show_reset(number, e->sender, of(request, RESET_REQUEST));
        break;
    case 'k':
        memcpy(e->kept, e->wire, sizeof e->wire);
        break;
    case 'q':
        while (e->sender.record[AT_COUNT + 1] != 0xFD)
            pass(e);
        break;
    case 'x':
        e->sender = last_packet(e->sender, 63, e->wire);
        break;
    case 'X':
        e->sender = last_packet(e->sender, 2047, e->wire);
        break;
    default:
        arrive(e, code, number);
    }
}

/* A run of events, from one record at both ends. */
static void run(struct outcome link, const char *script)
{
    struct ends e = {.sender = link, .receiver = link};

    cases_from(0);
    for (size_t k = 0; script[k] != '\0'; k++)
        event(&e, script[k], k);
}

/* Runs in stateful mode. A loss of the first packet; three counts that end in 0xFF; a burst lost over such a count, packets with A, and
   2,047 in a row. Then every way to be refused, and the wrap of the counts. */
static void runs(octet bits)
{
    struct outcome first = fresh(bits, true);

    run(first, "ssorrsorsoqsososoqsososoqsososoqxsosorsosoqsossosorssoqsosoXsosorsoXsksol");
    run(first, "sososksoosnspsdolrsaorsnpdoosnpdaoksol");
    run(counted(first, 4091), "sosososososo");
}

/* Long packets, sealed and opened one after the other: a message in front, and a mark in the last octets. */
static void long_packets(struct outcome link)
{
    static const size_t lengths[] = {1498, 1499, 16379, 16380, 31998, 31999};
    static octet plain[LONG_LENT], wire[LONG_LENT], out[LONG_LENT];
    struct outcome sender = link, receiver = link;

    cases_from(lengths[0]);
    for (size_t k = 0; k < sizeof lengths / sizeof *lengths; k++) {
        size_t n = lengths[k];

        memset(plain, 0, sizeof plain);
        memcpy(plain, message, 14);
        memcpy(plain + n - 7, "the end", 7);
        memset(wire, 0xEE, sizeof wire);
        sender = seal(sender, of(plain, n), into(wire, sizeof wire));
        show_digest("long seal", n, sender, of(wire, sizeof wire));
        memset(out, 0xEE, sizeof out);
        receiver = open_packet(receiver, of(wire, FRONT + n), into(out, sizeof out));
        show_digest("long open", n, receiver, of(out, sizeof out));
    }
}

int main(void)
{
    static const octet strengths[] = {40, 56, 128};

    unhex(RFC3079[place_of(128)].start_key, start_key);
    start_key[KEY_PLACES] = 0x5A;
    for (int k = 0; k < 3; k++) {
        cases(strengths[k], false);
        cases(strengths[k], true);
        first_packet(fresh(strengths[k], true));
        rows_of(steady(strengths[k], true), 128, 224);
        runs(strengths[k]);
        long_packets(fresh(strengths[k], false));
        long_packets(fresh(strengths[k], true));
    }
    return 0;
}
