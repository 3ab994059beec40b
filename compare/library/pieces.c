/* Tests of jalwedd_system.h and jalwedd_table.h, by values that were worked out by hand. Sources are those of RTCP and
 * RTP datagrams that are made here.
 *
 *     pieces PORT      uses PORT of 127.0.0.1 and ::1; prints what is wrong, and ends with 1 if anything is
 */
#include "pieces.h"

/* ---- Clocks, words and hashes */

/* By the vectors of SipHash-2-4 that its authors published: the key 00 01 .. 0f, and the octets 00 01 .. */
static void test_hash(void)
{
    static const uint64_t wanted[] = {0x726fdb47dd0e0e31, 0x74f839c593dc67fd, 0x0d6c8009d9a94f5a, 0x85676696d7fb7e2d,
                                      0xcf2794e0277187b7, 0x18765564cd99a68d, 0xcbc9466e58fee3ce, 0xab0200f58b01d137,
                                      0x93f5f5799a932462};
    const jalwedd_key key = {{0x0706050403020100, 0x0f0e0d0c0b0a0908}};
    uint8_t octets[15];
    for (uint8_t at = 0; at < sizeof octets; at++)
        octets[at] = at;
    for (size_t size = 0; size < sizeof wanted / sizeof *wanted; size++)
        IS("a hash", jalwedd_sip_hash(&key, octets, size), wanted[size]);
    IS("the hash of 15 octets", jalwedd_sip_hash(&key, octets, 15), 0xa129ca6149be45e5);
}

static void test_time(void)
{
    jalwedd_config config;
    uint64_t before = jalwedd_now(), told;
    memset(&config, 0, sizeof config);
    jalwedd_start_now(&config);
    IS("the start is not before", config.start >= before, 1);
    IS("the start is not after", config.start <= jalwedd_now(), 1);
    told = jalwedd_ntp_of(config.ntp_base, jalwedd_now() - config.start);
    /* both clocks together: within a millisecond, in 1/2^32 of a second */
    IS("the time of day by the start", (jalwedd_ntp_now() - told + 4294967) / (2 * 4294967), 0);
    IS("the year", (jalwedd_ntp_now() >> 32) - 2208988800u - (uint64_t)time(NULL) <= 1, 1);
    IS("words differ", jalwedd_word() == jalwedd_word() && jalwedd_word() == jalwedd_word(), 0);
}

static void test_timestamps(void)
{
    IS("at once", jalwedd_rtp_at(7, 600000000, 600000000, 8000), 7);
    IS("a frame later", jalwedd_rtp_at(UINT32_MAX, 600000000, 600020000, 8000), 159);
    IS("a frame earlier", jalwedd_rtp_at(159, 600020000, 600000000, 8000), UINT32_MAX);
    IS("rounded to the nearest", jalwedd_rtp_at(0, 0, 62, 8000) + 10 * jalwedd_rtp_at(0, 0, 63, 8000), 10);
    /* 2^50 microseconds are 1,125,899,906.842624 seconds, of 2^20 units each: 883,555.3 in the fraction */
    IS("years later", jalwedd_rtp_at(0, 0, (uint64_t)1 << 50, 1 << 20),
       (uint32_t)((uint64_t)1125899906 * 1048576 + 883555));
}

/* ---- Addresses and sockets */

static uint64_t number_of(const jalwedd_key *key, const char *host, uint16_t port, int family)
{
    jalwedd_address address;
    IS(host, jalwedd_resolve(host, port, family, &address), 0);
    return jalwedd_peer(key, &address);
}

static void test_peers(void)
{
    jalwedd_key key, other;
    jalwedd_address none;
    uint64_t one;
    memset(&none, 0, sizeof none);
    IS("a key", jalwedd_key_draw(&key), 0);
    IS("another key", jalwedd_key_draw(&other), 0);
    IS("IPv4", number_of(&key, "192.0.2.1", 5004, AF_UNSPEC), 0xc0000201138c);
    IS("IPv4 by an IPv6 socket", number_of(&key, "192.0.2.1", 5004, AF_INET6), 0xc0000201138c);
    IS("no address", jalwedd_peer(&key, &none), 0);
    one = number_of(&key, "2001:db8::1", 5004, AF_UNSPEC);
    IS("the highest bit of IPv6", one >> 63, 1);
    IS("the same peer", number_of(&key, "2001:db8::1", 5004, AF_INET6), one);
    IS("another port has the origin", number_of(&key, "2001:db8::1", 5005, AF_UNSPEC) >> 16, one >> 16);
    IS("its network has the origin", number_of(&key, "2001:db8::2", 5004, AF_UNSPEC) >> 16, one >> 16);
    IS("another network has another", number_of(&key, "2001:db8:0:1::1", 5004, AF_UNSPEC) >> 16 == one >> 16, 0);
    IS("another key gives another", number_of(&other, "2001:db8::1", 5004, AF_UNSPEC) >> 16 == one >> 16, 0);
}

static void test_sockets(const char *host, uint16_t port, const char *wanted)
{
    static const uint8_t sent[100] = {0x80};
    char text[JALWEDD_ADDRESS_TEXT];
    uint8_t came[100];
    jalwedd_address to, from;
    int at;
    IS(host, jalwedd_resolve(host, port, AF_UNSPEC, &to), 0);
    at = jalwedd_bound(&to);
    IS("a socket", at >= 0, 1);
    IS("the port is taken", jalwedd_bound(&to), -1);
    IS("nothing came", jalwedd_receive(at, came, sizeof came, &from), -1);
    check_text(__LINE__, jalwedd_address_text(&from, text), "-");
    for (size_t size = 98; size <= 100; size++)
        IS("sent", sendto(at, sent, size, 0, &to.as.any, to.size), size);
    IS("it fits", jalwedd_receive(at, came, 99, &from), 98);
    IS("it just fits", jalwedd_receive(at, came, 99, &from), 99);
    IS("it is cut", jalwedd_receive(at, came, 99, &from), 100);
    check_text(__LINE__, jalwedd_address_text(&from, text), wanted);
    close(at);
}

/* ---- The table */

static jalwedd_handle session = JALWEDD_EMPTY;
static jalwedd_step step;
static uint8_t octets[JALWEDD_OCTETS];
static jalwedd_row rows[3];
static jalwedd_table table;

static void begin(uint32_t capacity)
{
    static const jalwedd_item none = {0, 0, {0}};
    jalwedd_config config;
    memset(&config, 0, sizeof config);
    config.ssrc = 0xaa, config.capacity = capacity, config.limit = 1472, config.rate = 8000;
    config.sender_bw = 100, config.receiver_bw = 300;
    IS("a participant", jalwedd_new(&session, &config, (const uint8_t *)"a", 1, &none, 0, 1, &step), JALWEDD_TAKEN);
    memset(&table, 0, sizeof table);
    table.rows = rows;
    table.room = capacity;
}

static void take(uint64_t now, size_t size)
{
    static jalwedd_address from;
    IS("taken", jalwedd_arrive_rtcp(&session, now, 1, 2, datagram, size, &step, octets), JALWEDD_TAKEN);
    if (step.others_changed)
        jalwedd_table_update(&table, &session);
    jalwedd_table_items(&table, &from, datagram, size);
}

/* The next change as a number: the SSRC, its role before and its role now, or 0. */
static unsigned change(void)
{
    uint32_t was = 0;
    const jalwedd_row *row = jalwedd_table_change(&table, &was);
    return row == NULL ? 0 : row->ssrc * 100 + was * 10 + row->role;
}

static void test_changes(void)
{
    begin(3);
    take(0, report_of(9, 1, "nine", 4));
    take(0, report_of(7, 1, "seven", 5));
    IS("7 joined", change(), 701);
    IS("9 joined", change(), 901);
    IS("nobody else", change(), 0);
    datagram[0] = 0x80, datagram[1] = 201, datagram[8] = 0x81, datagram[9] = 203, datagram[10] = 0, datagram[11] = 1;
    take(0, 16);
    IS("7 left", change(), 710);
    IS("by a BYE", jalwedd_table_row(&table, 7)->has_left, 1);
    jalwedd_forget(&session, 0, 9, &step, octets);
    jalwedd_table_update(&table, &session);
    jalwedd_table_update(&table, &session); /* a change is not lost by a second update */
    IS("9 is away", change(), 910);
    jalwedd_table_update(&table, &session);
    IS("its row is gone", jalwedd_table_row(&table, 9) == NULL, 1);
    jalwedd_free(&session);
}

/* A table that is full: whoever comes in the place of another has a row at once. */
static void test_room(void)
{
    begin(2);
    take(0, report_of(5, 1, "five", 4));
    take(0, report_of(6, 1, "six", 3));
    IS("5 and 6 joined", change() + change() + change(), 501 + 601);
    jalwedd_forget(&session, 0, 5, &step, octets);
    jalwedd_table_update(&table, &session);
    IS("5 is away", change(), 510);
    take(0, report_of(8, 1, "eight", 5));
    IS("8 joined", change(), 801);
    jalwedd_forget(&session, 0, 6, &step, octets);
    take(0, report_of(4, 1, "four", 4));
    IS("6 is away", change(), 610);
    IS("4 has no row until then", change(), 0);
    jalwedd_table_update(&table, &session);
    IS("4 joined", change(), 401);
    jalwedd_free(&session);
}

static void test_items(void)
{
    char shown[256], text[255];
    size_t size = 0;
    const jalwedd_row *row;
    memset(text, 'x', sizeof text);
    begin(3);
    take(0, report_of(7, 1, "a\x1b[\xc3\xa4", 5));
    row = jalwedd_table_row(&table, 7);
    check_text(__LINE__, jalwedd_row_text(row, JALWEDD_SDES_CNAME, shown), "a?[??");
    check_text(__LINE__, jalwedd_row_text(row, JALWEDD_SDES_TOOL, shown), "?");
    take(0, report_of(7, 6, "a tool", 6));
    take(0, report_of(7, 7, "a note", 6));
    take(0, report_of(7, 6, "tool", 4));
    check_text(__LINE__, jalwedd_row_text(row, JALWEDD_SDES_TOOL, shown), "tool");
    check_text(__LINE__, jalwedd_row_text(row, JALWEDD_SDES_NOTE, shown), "a note");
    IS("an item of 0 octets", (take(0, report_of(7, 7, "", 0)), jalwedd_row_item(row, 7, &size) != NULL), 1);
    IS("its size", size, 0);
    take(0, report_of(7, 1, text, 255));
    IS("a long CNAME", jalwedd_row_item(row, 1, &size) != NULL && size == 255, 1);
    take(0, report_of(7, 2, text, 255));
    IS("no room for a long name", jalwedd_row_item(row, 2, &size) == NULL, 1);
    take(0, report_of(7, 1, "a", 1));
    take(0, report_of(7, 2, text, 255));
    IS("room for it", jalwedd_row_item(row, 2, &size) != NULL && size == 255, 1);
    take(0, report_of(7, 1, text, 255));
    IS("a CNAME takes its room", jalwedd_row_item(row, 1, &size) != NULL && size == 255, 1);
    jalwedd_free(&session);
}

/* A block about the own stream: 64 of 256 lost, 300 in all, jitter of 80 units, and a round trip of half a second. */
static void test_report(void)
{
    const jalwedd_report report = {7, 0xaa, 64, 300, 65536, 80, 0x10000, 0x8000};
    const jalwedd_report without = {7, 0xaa, 0, 300, 65536, 0, 0, 0}, of_stranger = {8, 0xaa, 0, 0, 0, 0, 0, 0};
    const jalwedd_row *row;
    begin(3);
    take(0, report_of(7, 1, "seven", 5));
    IS("no report", jalwedd_table_row(&table, 7)->has_report, 0);
    IS("no round trip", jalwedd_table_row(&table, 7)->round_trip_ms, -1);
    row = jalwedd_table_report(&table, &report, 0x20000, 8000);
    IS("its loss", row->report_loss, 25);
    IS("its jitter", row->report_jitter_ms, 10);
    IS("the round trip", row->round_trip_ms, 500);
    row = jalwedd_table_report(&table, &without, 0x20000, 8000);
    IS("a report without a round trip leaves that", row->round_trip_ms, 500);
    row = jalwedd_table_report(&table, &report, 0x17fff, 8000);
    IS("a coarse clock", row->round_trip_ms, 0);
    IS("a stranger's", jalwedd_table_report(&table, &of_stranger, 0, 8000) == NULL, 1);
    jalwedd_free(&session);
}

static void take_packet(uint64_t now, uint16_t number)
{
    const uint8_t packet[] = {0x80, 0, (uint8_t)(number >> 8), (uint8_t)number, 0, 0, 0, 0, 0, 0, 0, 9, 0xff};
    jalwedd_arrive_rtp(&session, now, 1, 2, packet, sizeof packet, &step, octets);
}

/* 50 packets a second from number 1000 on: in the first second all come, in the next five do not, then one of these. */
static void test_losses(void)
{
    const jalwedd_row *row;
    begin(3);
    for (uint16_t number = 1000; number <= 1050; number++)
        take_packet(number, number);
    jalwedd_table_update(&table, &session);
    jalwedd_table_second(&table);
    row = jalwedd_table_row(&table, 9);
    IS("received: the first was its probation", row->received, 50);
    IS("lost in the first second", row->lost_second * 1000 + row->expected_second, 50);
    for (uint16_t number = 1051; number <= 1100; number++)
        if (number % 10 != 5)
            take_packet(number, number);
    jalwedd_table_update(&table, &session);
    jalwedd_table_second(&table);
    IS("received", row->received, 95);
    IS("lost in the second one", row->lost_second * 1000 + row->expected_second, 5050);
    IS("in per cent", row->loss_second, 10);
    IS("in all", row->loss, 5);
    take_packet(2000, 1095);
    jalwedd_table_update(&table, &session);
    jalwedd_table_second(&table);
    IS("one came late", row->lost_second * 1000 + row->expected_second, -1000);
    IS("in per cent", row->loss_second, 0);
    IS("lost", row->lost * 1000 + row->expected, 4100);
    for (uint16_t number = 30000; number <= 30020; number++)
        take_packet(3000, number);
    jalwedd_table_update(&table, &session);
    jalwedd_table_second(&table);
    IS("it began anew", row->lost_second * 1000 + row->expected_second, (long long)row->received);
    jalwedd_free(&session);
}

int main(int count, char **words)
{
    const uint16_t port = (uint16_t)(count == 2 ? atoi(words[1]) : 0);
    char four[40], six[40];
    snprintf(four, sizeof four, "127.0.0.1:%d", port);
    snprintf(six, sizeof six, "[::1]:%d", port);
    test_hash();
    test_time();
    test_timestamps();
    test_peers();
    test_sockets("127.0.0.1", port, four);
    test_sockets("::1", port, six);
    test_changes();
    test_room();
    test_items();
    test_report();
    test_losses();
    IS("no signal came", jalwedd_stop_at(SIGTERM) * 10 + jalwedd_stopped, 0);
    raise(SIGTERM);
    IS("a signal came", jalwedd_stopped, 1);
    printf(faults ? "%d faults\n" : "clock, words, peers, sockets and table: as worked out\n", faults);
    return faults > 0;
}
