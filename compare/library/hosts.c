/* Tests of jalwedd_host.h on loopback: a leave with its limit, a BYE alone, other settings, and two hosts that talk for
 * some seconds: what each is called back for, whom one dismisses, and a stranger who takes its SSRC.
 *
 *     hosts PORT       uses PORT to PORT + 5 of 127.0.0.1 and ::1; prints what is wrong, and ends with 1 if anything is
 */
#include "pieces.h"

static jalwedd_host one, two;
static int joined_count, left_count, dismissed_count, reported_count, packet_count, refused_count, changed_count;
static int sent_count;

static void joined(jalwedd_host *host, const jalwedd_row *row)
{
    IS("the other joined", row->ssrc, (host == &one ? &two : &one)->step.ssrc);
    joined_count++;
}

static void left(jalwedd_host *host, const jalwedd_row *row)
{
    IS("two left", host == &one && row->has_left && row->role == JALWEDD_AWAY, 1);
    left_count++;
    jalwedd_host_leave(host);
}

static void dismissed(jalwedd_host *host, const jalwedd_row *row)
{
    IS("two is dismissed", host == &one && !row->has_left, 1);
    dismissed_count++;
}

static void reported(jalwedd_host *host, const jalwedd_row *row)
{
    IS("it reported about the own stream", row->report.ssrc, host->step.ssrc);
    IS("nothing is lost", row->report.lost, 0);
    reported_count++;
}

static void packet(jalwedd_host *host, const jalwedd_head_place *head, const uint8_t *octets_of, size_t size)
{
    (void)host;
    if (size == 12)                     /* the stranger's, with the SSRC that was one's own */
        return;
    IS("its payload", head->payload_size + octets_of[head->payload_offset], 160 + 0xff);
    IS("its size", size, 172);
    packet_count++;
}

static void refused(jalwedd_host *host, uint32_t status, const uint8_t *octets_of, size_t size)
{
    (void)host, (void)octets_of;
    IS("no compound", status == JALWEDD_NO_COMPOUND && size == 4, 1);
    refused_count++;
}

static void ssrc_changed(jalwedd_host *host, uint32_t before)
{
    IS("another SSRC", host->step.ssrc != before, 1);
    changed_count++;
}

static char recorded[1 << 20];
static size_t recorded_size;

static int record(void *to, const char *text, size_t size)
{
    (void)to;
    if (recorded_size + size >= sizeof recorded)
        return 1;
    memcpy(recorded + recorded_size, text, size);
    recorded_size += size;
    recorded[recorded_size] = '\0';
    return 0;
}

/* How many lines of the record begin so. */
static int recorded_lines(const char *begin)
{
    int count = 0;
    for (const char *at = recorded; (at = strstr(at, begin)) != NULL; at++)
        count += at == recorded || at[-1] == '\n';
    return count;
}

/* Other settings come in the midst of its packets: the next one is counted too, though `now` was before them. */
static uint64_t media(jalwedd_host *host, uint64_t now)
{
    static uint8_t silence[160];
    const jalwedd_settings settings = jalwedd_settings_of(&host->config);
    memset(silence, 0xff, sizeof silence);
    if (sent_count % 50 == 1)
        IS("settings", jalwedd_host_configure(host, &settings), JALWEDD_TAKEN);
    IS("sent", jalwedd_host_send(host, now, host->media_due, 0, (uint32_t)(now / 125), silence, 160), 0);
    sent_count++;
    return host->media_due + 20000;
}

/* By the seconds of host two: what a stranger sends to host one, a dismissal, and a leave. */
static void second(jalwedd_host *host, uint64_t now)
{
    const uint64_t age = (now - host->config.start) / JALWEDD_SECOND;
    uint8_t own[] = {0x80, 0, 0, 1, 0, 0, 0, 0, 0, 0, 0, 0}, wrong[4] = {0x80, 201}, large[1501] = {0x80, 201};
    const uint32_t ssrc = htonl(one.step.ssrc);
    jalwedd_own_stream stream = {0, 0, 0};
    memcpy(own + 8, &ssrc, sizeof ssrc);
    if (age == 2) {
        IS("a wrong datagram", sendto(two.rtcp, wrong, sizeof wrong, 0, &two.to_rtcp.as.any, two.to_rtcp.size), 4);
        IS("a large one", sendto(two.rtcp, large, sizeof large, 0, &two.to_rtcp.as.any, two.to_rtcp.size), 1501);
    }
    if (age == 4)
        IS("two has a row", jalwedd_host_dismiss(&one, two.step.ssrc), 0);
    if (age == 6)
        IS("a packet of one's SSRC", sendto(two.rtcp, own, sizeof own, 0, &two.to_rtp.as.any, two.to_rtp.size), 12);
    if (age == 7) {
        IS("its stream is told", jalwedd_own(&two.session, &stream), JALWEDD_TAKEN);
        IS("each packet is counted", stream.packets, sent_count);
        jalwedd_host_leave(&two);
    }
}

static void test_hosts(const char *own, uint16_t port)
{
    static jalwedd_row of_one[4], of_two[4];
    jalwedd_host *hosts[2] = {&one, &two};
    struct pollfd sockets[4];
    jalwedd_host_init(&one, "one", 64000, 8000, of_one, 4);
    jalwedd_host_init(&two, "two", 64000, 8000, of_two, 4);
    one.joined = joined, one.left = left, one.dismissed = dismissed, one.packet = packet, one.refused = refused;
    one.ssrc_changed = ssrc_changed, one.calls.write = one.command.write = record, recorded_size = 0;
    two.reported = reported, two.media = media, two.second = second;
    joined_count = left_count = dismissed_count = reported_count = packet_count = refused_count = changed_count = 0;
    sent_count = 0;
    IS("ports", jalwedd_host_open(&one, own, port, own, (uint16_t)(port + 4)), 0);
    IS("ports", jalwedd_host_open(&two, own, (uint16_t)(port + 4), own, port), 0);
    IS("one", jalwedd_host_begin(&one), JALWEDD_TAKEN);
    IS("two", jalwedd_host_begin(&two), JALWEDD_TAKEN);
    jalwedd_serve_all(hosts, 2, sockets);
    IS("joins: the first one, and after the dismissal", joined_count, 2);
    IS("left, dismissed, refused, dropped", left_count * 1000 + dismissed_count * 100 + refused_count * 10 +
       (int)one.dropped, 1111);
    IS("changes of the SSRC", changed_count, 1);
    IS("packets: all that were sent", packet_count, sent_count);
    IS("reports", reported_count >= 1, 1);
    IS("the command, a dismissal and a leave are recorded", recorded_lines("rtcp replay --ssrc ") * 100 +
       recorded_lines("forget ") * 10 + recorded_lines("leave "), 111);
    IS("packets, and that of the stranger", recorded_lines("rtp "), packet_count + 1);
    IS("ticks, at least one a second", recorded_lines("tick ") >= 7, 1);
    jalwedd_host_end(&one);
    jalwedd_host_end(&two);
}

/* A host on `port`, with room for 64 sources, and the socket of a stranger whom it takes for its peer. */
static int begin_beside(uint16_t port)
{
    static jalwedd_row of_one[64];
    jalwedd_address at;
    jalwedd_host_init(&one, "one", 64000, 8000, of_one, 64);
    one.leave_time = JALWEDD_SECOND / 5;
    left_count = refused_count = 0;
    IS("ports", jalwedd_host_open(&one, "127.0.0.1", port, "127.0.0.1", (uint16_t)(port + 4)), 0);
    IS("a stranger's address", jalwedd_resolve("127.0.0.1", (uint16_t)(port + 5), AF_INET, &at), 0);
    IS("one", jalwedd_host_begin(&one), JALWEDD_TAKEN);
    return jalwedd_bound(&at);
}

static void send_from(int stranger, uint16_t port, size_t size)
{
    jalwedd_address to;
    IS("an address", jalwedd_resolve("127.0.0.1", (uint16_t)(port + 1), AF_INET, &to), 0);
    IS("sent", sendto(stranger, datagram, size, 0, &to.as.any, to.size), size);
}

/* Among more than 50 members the BYE is put off by more than a second (6.3.7), and this host waits for 0.2 seconds. */
static void test_limit(uint16_t port)
{
    const int stranger = begin_beside(port);
    jalwedd_host *hosts[1] = {&one};
    struct pollfd sockets[2];
    jalwedd_address from;
    uint64_t before;
    for (uint8_t source = 1; source <= 60; source++)
        send_from(stranger, port, report_of(source, 1, "x", 1));
    jalwedd_host_turn(&one);
    IS("members", one.step.members, 61);
    before = jalwedd_now();
    IS("a packet, as whoever sent nothing has no BYE", jalwedd_host_send(&one, before, before, 0, 0, "x", 1), 0);
    jalwedd_host_leave(&one);
    jalwedd_serve_all(hosts, 1, sockets);
    IS("tenths of a second", (jalwedd_now() - before) / 100000, 2);
    IS("it is over", jalwedd_host_next(&one), JALWEDD_NEVER);
    IS("no BYE", jalwedd_receive(stranger, datagram, sizeof datagram, &from), -1);
    jalwedd_host_end(&one);
    close(stranger);
}

static void left_alone(jalwedd_host *host, const jalwedd_row *row)
{
    IS("7 left", row->ssrc, 7);
    left_count += host == &one;
}

static void refused_alone(jalwedd_host *host, uint32_t status, const uint8_t *octets_of, size_t size)
{
    (void)host, (void)octets_of;
    IS("a BYE alone", status == JALWEDD_NO_COMPOUND && size == 8, 1);
    refused_count++;
}

/* A BYE without a report before it is refused, or taken if the host wants it. */
static void test_bye_alone(uint16_t port)
{
    static const uint8_t bye[] = {0x81, 203, 0, 1, 0, 0, 0, 7};
    const int stranger = begin_beside(port);
    one.left = left_alone;
    one.refused = refused_alone;
    send_from(stranger, port, report_of(7, 1, "seven", 5));
    for (int is_put = 0; is_put < 2; is_put++) {
        one.puts_report_before = (uint32_t)is_put;
        memcpy(datagram, bye, sizeof bye);
        send_from(stranger, port, sizeof bye);
        jalwedd_host_turn(&one);
        IS("refused, left", refused_count * 10 + left_count, 10 + is_put);
    }
    jalwedd_host_end(&one);
    close(stranger);
}

static void held_back(jalwedd_host *host, uint32_t status, const uint8_t *octets_of, size_t size)
{
    (void)host, (void)octets_of, (void)size;
    IS("a stranger", status, JALWEDD_STRANGER);
    refused_count++;
}

/* A guard holds back what another address sends of a source, and that is not recorded: its command has no guard. */
static void test_guard(uint16_t port)
{
    static const uint8_t packet_of[] = {0x80, 0, 0, 1, 0, 0, 0, 0, 0, 0, 0, 7};
    static jalwedd_row of_one[4];
    jalwedd_address from, other;
    jalwedd_host_init(&one, "one", 64000, 8000, of_one, 4);
    one.config.guard.names = 1, one.config.guard.hold = 60 * JALWEDD_SECOND;
    one.refused = held_back, one.calls.write = record, recorded_size = 0, refused_count = 0;
    IS("ports", jalwedd_host_open(&one, "127.0.0.1", port, "127.0.0.1", (uint16_t)(port + 4)), 0);
    IS("an address", jalwedd_resolve("192.0.2.1", 5004, AF_INET, &from), 0);
    IS("another", jalwedd_resolve("192.0.2.2", 5004, AF_INET, &other), 0);
    IS("one", jalwedd_host_begin(&one), JALWEDD_TAKEN);
    memcpy(one.datagram, packet_of, sizeof packet_of);
    jalwedd_host_take_rtp(&one, &from, sizeof packet_of);
    jalwedd_host_take_rtp(&one, &other, sizeof packet_of);
    memcpy(one.datagram, datagram, report_of(7, 1, "a", 1));
    jalwedd_host_take_rtcp(&one, &from, 20);
    jalwedd_host_take_rtcp(&one, &other, 20);
    IS("two are held back", refused_count, 2);
    IS("two are recorded", recorded_lines("rtp ") * 10 + recorded_lines("rtcp "), 11);
    jalwedd_host_end(&one);
}

/* Settings that are taken are in the configuration and in the record; those that are not change nothing. */
static void test_configure(uint16_t port)
{
    static const jalwedd_item tool = {6, 1, {'t'}};
    jalwedd_own_stream stream = {0, 0, 0};
    jalwedd_settings settings;
    char line[100];
    uint64_t before;
    const int stranger = begin_beside(port);
    one.calls.write = record, recorded_size = 0, recorded[0] = '\0';
    one.items = &tool, one.item_count = 1;
    before = jalwedd_now();
    settings = jalwedd_settings_of(&one.config);
    settings.sender_bw = 200, settings.receiver_bw = 600, settings.rate = 48000;
    settings.clock_count = 1, settings.clocks[0].payload_type = 96, settings.clocks[0].rate = 90000;
    settings.ntp_base += 5;
    IS("settings", jalwedd_host_configure(&one, &settings), JALWEDD_TAKEN);
    IS("bandwidths", one.config.sender_bw * 1000 + one.config.receiver_bw, 200600);
    IS("a clock", one.config.clock_count * 1000000 + one.config.clocks[0].payload_type * 10000 +
       one.config.clocks[0].rate / 10, 1969000);
    IS("a rate and the time of day", one.config.rate + one.config.ntp_base, 48000 + settings.ntp_base);
    snprintf(line, sizeof line, " 200 600 96:90000 6:74 48000 %016llx\n", (unsigned long long)settings.ntp_base);
    IS("its line", recorded_lines("configure ") == 1 && strstr(recorded, line) != NULL, 1);
    IS("a packet of before", jalwedd_host_send(&one, before, before, 0, 0, "x", 1), 0);
    before = jalwedd_now();
    IS("a packet a second late", jalwedd_host_send(&one, before, before - JALWEDD_SECOND, 0, 7, "x", 1), 0);
    IS("by the new rate", strstr(recorded, " 48007 1\n") != NULL, 1);
    IS("both are counted", jalwedd_own(&one.session, &stream) == JALWEDD_TAKEN && stream.packets == 2, 1);
    settings.rate = 0, settings.sender_bw = 100;
    IS("no rate", jalwedd_host_configure(&one, &settings), JALWEDD_RATE);
    one.item_count = 8;
    IS("too many items", jalwedd_host_configure(&one, &settings), JALWEDD_ITEM);
    IS("it is as it was", one.config.rate + one.config.sender_bw, 48200);
    IS("a line for what is refused by its numbers", recorded_lines("configure "), 2);
    jalwedd_host_end(&one);
    close(stranger);
}

/* Before it begins, while it waits for its BYE, which among 61 comes later, and at its end no settings are taken. */
static void test_configure_untimely(uint16_t port)
{
    static jalwedd_row of_one[1];
    jalwedd_settings settings;
    uint64_t now;
    int stranger;
    jalwedd_host_init(&one, "one", 64000, 8000, of_one, 1);
    one.calls.write = record, recorded_size = 0, recorded[0] = '\0';
    settings = jalwedd_settings_of(&one.config);
    IS("not yet", jalwedd_host_configure(&one, &settings), JALWEDD_IS_EMPTY);
    IS("no line", recorded_size, 0);
    stranger = begin_beside(port);
    for (uint8_t source = 1; source <= 60; source++)
        send_from(stranger, port, report_of(source, 1, "x", 1));
    jalwedd_host_turn(&one);
    now = jalwedd_now();
    IS("a packet", jalwedd_host_send(&one, now, now, 0, 0, "x", 1), 0);
    IS("settings", jalwedd_host_configure(&one, &settings), JALWEDD_TAKEN);
    jalwedd_host_leave(&one);
    jalwedd_host_turn(&one);
    IS("it waits", jalwedd_host_next(&one) != JALWEDD_NEVER && one.end != JALWEDD_NEVER, 1);
    IS("no more", jalwedd_host_configure(&one, &settings), JALWEDD_LEFT);
    jalwedd_host_end(&one);
    IS("never again", jalwedd_host_configure(&one, &settings), JALWEDD_LEFT);
    IS("it is over", jalwedd_host_next(&one), JALWEDD_NEVER);
    close(stranger);
}

/* It sends later than the turn read the clock, and leaves. */
static uint64_t send_late(jalwedd_host *host, uint64_t now)
{
    while (jalwedd_now() == now)
        ;
    IS("sent", jalwedd_host_send(host, jalwedd_now(), now, 0, 0, "x", 1), 0);
    jalwedd_host_leave(host);
    return JALWEDD_NEVER;
}

/* The leave of that turn is not taken for an earlier call: the BYE goes out at once. */
static void test_late(uint16_t port)
{
    const int stranger = begin_beside(port);
    one.media = send_late, one.media_due = 0;
    jalwedd_host_turn(&one);
    IS("it left", jalwedd_host_next(&one), JALWEDD_NEVER);
    jalwedd_host_end(&one);
    close(stranger);
}

/* Seconds as the middle 32 bits of an NTP timestamp. */
static uint32_t middle(uint32_t seconds)
{
    return seconds << 16;
}

/* Whether an lsr is taken as 0, by the seconds of the clock since the start, of the arrival and of the lsr. */
static int is_former(uint64_t since_start, uint32_t arrival, uint32_t lsr)
{
    return jalwedd_host_is_former(&one, since_start * JALWEDD_SECOND, middle(arrival), middle(lsr));
}

/* From the start, which is 10,000 s of 1900, to the change by so many seconds it is 100 seconds. */
static void set_clock(int64_t by)
{
    static jalwedd_row of_one[1];
    jalwedd_host_init(&one, "one", 64000, 8000, of_one, 1);
    one.config.ntp_base = (uint64_t)10000 << 32;
    jalwedd_host_set_clock(&one, 100 * JALWEDD_SECOND, (uint64_t)(10000 + by) << 32);
}

static void test_former(void)
{
    set_clock(0);
    IS("no change", is_former(105, 10105, 10099) + is_former(105, 10105, 10200), 0);
    set_clock(60);                      /* from 10,100 s to 10,160 s */
    IS("ahead: of before", is_former(105, 10165, 10095) + is_former(105, 10165, 10100), 2);
    IS("ahead: of after", is_former(105, 10165, 10160) + is_former(105, 10165, 10165), 0);
    IS("ahead: of neither", is_former(105, 10165, 10159) + is_former(105, 10165, 10166), 2);
    IS("ten minutes later", is_former(699, 10759, 10095) * 10 + is_former(700, 10760, 10095), 10);
    set_clock(-60);                     /* from 10,100 s to 10,040 s */
    IS("back: of before", is_former(105, 10045, 10095) + is_former(165, 10105, 10095) +
       is_former(165, 10105, 10100), 3);
    IS("back: of after, but not where it was", is_former(105, 10045, 10042) + is_former(165, 10105, 10070), 2);
    IS("back: of after", is_former(165, 10105, 10101) + is_former(165, 10105, 10105), 0);
    set_clock(-3600);                   /* from 10,100 s to 6,500 s */
    IS("far back: of before", is_former(105, 6505, 10095) + is_former(699, 7099, 9500), 2);
    IS("far back: of after", is_former(105, 6505, 6500) + is_former(105, 6505, 6505), 0);
    set_clock(-60);                     /* and five seconds later from 10,045 s to 10,050 s */
    jalwedd_host_set_clock(&one, 105 * JALWEDD_SECOND, (uint64_t)9945 << 32);
    IS("twice: of before", is_former(165, 10110, 10100) + is_former(165, 10110, 10044) +
       is_former(704, 10649, 10100), 3);
    IS("twice: of after", is_former(165, 10110, 10105) + is_former(705, 10650, 10100), 0);
    set_clock(65536 * 3 + 60);          /* the middle 32 bits are those of a clock that was set ahead by 60 s */
    IS("far ahead", is_former(105, 10165, 10095) * 10 + is_former(105, 10165, 10161), 10);
}

/* A block of source 7 about the own stream, and its size. */
static size_t block_of(uint32_t lsr, uint32_t dlsr)
{
    const uint8_t head[8] = {0x81, 201, 0, 7, 0, 0, 0, 7};
    const uint32_t words[6] = {htonl(one.step.ssrc), 0, 0, 0, htonl(lsr), htonl(dlsr)};
    memcpy(datagram, head, sizeof head);
    memcpy(datagram + sizeof head, words, sizeof words);
    return sizeof head + sizeof words;
}

static double round_trip(uint64_t since_start, uint32_t lsr, uint32_t dlsr)
{
    const size_t size = block_of(lsr, dlsr);
    jalwedd_host_take_reports(&one, one.config.start + since_start * JALWEDD_SECOND, one.step.ssrc, datagram, size);
    return jalwedd_table_row(&one.table, 7)->round_trip_ms;
}

/* Half a second by the first clock; no false one by the report of then, once that was set ahead by a minute; and a
 * quarter by the new one. */
static void test_round_trips(uint16_t port)
{
    const int stranger = begin_beside(port);
    send_from(stranger, port, report_of(7, 1, "seven", 5));
    jalwedd_host_turn(&one);
    IS("7 is there", jalwedd_table_row(&one.table, 7) != NULL, 1);
    one.config.ntp_base = (uint64_t)1000 << 32;
    IS("by the first clock", round_trip(100, middle(1099), 0x8000), 500);
    jalwedd_host_set_clock(&one, one.config.start + 100 * JALWEDD_SECOND, (uint64_t)1060 << 32);
    IS("by both", round_trip(101, middle(1099), 0x18000), 500);
    IS("its lsr", jalwedd_table_row(&one.table, 7)->report.lsr, 0);
    IS("its dlsr", jalwedd_table_row(&one.table, 7)->report.dlsr, 0x18000);
    IS("by the new clock", round_trip(102, middle(1161), 0xc000), 250);
    IS("its lsr", jalwedd_table_row(&one.table, 7)->report.lsr, middle(1161));
    jalwedd_host_end(&one);
    close(stranger);
}

int main(int count, char **words)
{
    const uint16_t port = (uint16_t)(count == 2 ? atoi(words[1]) : 0);
    test_limit(port);
    test_bye_alone(port);
    test_guard(port);
    test_configure(port);
    test_configure_untimely(port);
    test_late(port);
    test_former();
    test_round_trips(port);
    test_hosts("127.0.0.1", port);
    test_hosts("::1", port);
    printf(faults ? "%d faults\n" : "hosts: as worked out\n", faults);
    return faults > 0;
}
