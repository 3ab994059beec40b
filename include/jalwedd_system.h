/* What a host takes from the system, each piece usable by itself: a monotonic clock and the time of day, random words,
 * addresses and the numbers of peers, sockets, and a flag that a signal sets. jalwedd_host.h makes a host of these; one
 * with a loop of its own takes what it needs:
 *
 *     jalwedd_start_now(&config);                                     start and ntp_base, of one moment
 *     jalwedd_key_draw(&key);                                         once a process
 *     size = jalwedd_receive(rtcp, datagram, sizeof datagram, &from);
 *     if (size >= 0 && size <= 1500)
 *         jalwedd_arrive_rtcp(&session, jalwedd_now(), jalwedd_peer(&key, &from), jalwedd_word(), datagram,
 *                             (size_t)size, &step, octets);
 *
 * All functions are inline, for C99 and C++11 and later, on POSIX, and do not allocate, but for what getaddrinfo does.
 * In strict C (-std=c99) include this header first, or define _POSIX_C_SOURCE as 200809L. It is tested; only the
 * library is proved. */
#ifndef JALWEDD_SYSTEM_H
#define JALWEDD_SYSTEM_H

#if defined(__STRICT_ANSI__) && !defined(_POSIX_C_SOURCE) && !defined(_GNU_SOURCE)
#define _POSIX_C_SOURCE 200809L
#endif

#include "jalwedd.h"

#include <fcntl.h>
#include <netdb.h>
#include <netinet/in.h>
#include <poll.h>
#include <signal.h>
#include <stdio.h>
#include <string.h>
#include <sys/socket.h>
#include <sys/types.h>
#include <time.h>
#include <unistd.h>
#ifdef __linux__
#include <sys/random.h>
#endif

#ifndef CLOCK_MONOTONIC
#error "jalwedd_system.h needs POSIX: include it first, or define _POSIX_C_SOURCE as 200809L"
#endif

#ifdef __cplusplus
extern "C" {
#define JALWEDD_CAST(type, value) static_cast<type>(value)
#else
#define JALWEDD_CAST(type, value) ((type)(value))
#endif

/* ---- Values */

/* A second, in the microseconds of the clock. */
#define JALWEDD_SECOND 1000000u

/* The largest datagram that UDP carries, in octets. */
#define JALWEDD_DATAGRAM 65535

/* The address and port of a socket, by IPv4 or IPv6: none if `size` is 0. */
typedef struct jalwedd_address {
    socklen_t size;         /* the octets of `as` that count */
    union {
        struct sockaddr any;
        struct sockaddr_in ip4;
        struct sockaddr_in6 ip6;
    } as;
} jalwedd_address;

/* The random key by which peers are numbered: one for all participants of a process. */
typedef struct jalwedd_key {
    uint64_t words[2];
} jalwedd_key;

/* Room for the text of an address, its port and a zero octet. */
#define JALWEDD_ADDRESS_TEXT 80

/* ---- Time */

/* The moment of now, in microseconds, by CLOCK_MONOTONIC: it never goes back, and stands still while the machine is
 * suspended. */
static inline uint64_t jalwedd_now(void)
{
    struct timespec now;
    clock_gettime(CLOCK_MONOTONIC, &now);
    return JALWEDD_CAST(uint64_t, now.tv_sec) * JALWEDD_SECOND + JALWEDD_CAST(uint64_t, now.tv_nsec) / 1000;
}

/* The time of day as an NTP timestamp (section 4): seconds since 1900 in the upper 32 bits, their fraction in the
 * lower. */
static inline uint64_t jalwedd_ntp_now(void)
{
    struct timespec now;
    clock_gettime(CLOCK_REALTIME, &now);
    return (JALWEDD_CAST(uint64_t, now.tv_sec) + 2208988800u) << 32 |
           (JALWEDD_CAST(uint64_t, now.tv_nsec) << 32) / 1000000000u;
}

/* The sooner of two moments. */
static inline uint64_t jalwedd_sooner(uint64_t one, uint64_t other)
{
    return one < other ? one : other;
}

/* Sets config->start and config->ntp_base to the moment of now, by both clocks: of eight readings those that lie
 * closest together. Call jalwedd_new right after it. */
static inline void jalwedd_start_now(jalwedd_config *config)
{
    uint64_t shortest = UINT64_MAX;
    for (int reading = 0; reading < 8; reading++) {
        const uint64_t before = jalwedd_now(), ntp = jalwedd_ntp_now(), took = jalwedd_now() - before;
        if (took >= shortest)
            continue;
        shortest = took;
        config->start = before + took / 2;
        config->ntp_base = ntp;
    }
}

/* ---- Random words */

/* Fills at most 256 octets with random ones, of getrandom, or where that fails of /dev/urandom. Returns 0, or -1 if the
 * system gives none. */
static inline int jalwedd_random(void *octets, size_t size)
{
    ssize_t came;
    int file;
#ifdef __linux__
    if (getrandom(octets, size, 0) == JALWEDD_CAST(ssize_t, size))
        return 0;
#endif
    file = open("/dev/urandom", O_RDONLY | O_CLOEXEC);
    came = file < 0 ? -1 : read(file, octets, size);
    if (file >= 0)
        close(file);
    return came == JALWEDD_CAST(ssize_t, size) ? 0 : -1;
}

/* The hash SipHash-2-4 of some octets with a key: whoever does not know the key cannot choose octets of one hash. */
static inline uint64_t jalwedd_sip_hash(const jalwedd_key *key, const uint8_t *octets, size_t size);

/* A random word for a call, to be used once. If the system gives none, it is a hash of both clocks and the process:
 * then it can be guessed, but differs from participant to participant. */
static inline uint32_t jalwedd_word(void)
{
    uint32_t word;
    if (jalwedd_random(&word, sizeof word) == 0)
        return word;
    const jalwedd_key key = {{jalwedd_ntp_now(), JALWEDD_CAST(uint64_t, getpid())}};
    const uint64_t now = jalwedd_now();
    uint8_t octets[sizeof now];
    memcpy(octets, &now, sizeof now);
    return JALWEDD_CAST(uint32_t, jalwedd_sip_hash(&key, octets, sizeof octets) & UINT32_MAX);
}

/* Draws a key for the numbers of peers. Returns 0, or -1 if the system gives no random octets: the key can be guessed
 * then. */
static inline int jalwedd_key_draw(jalwedd_key *key)
{
    key->words[0] = JALWEDD_CAST(uint64_t, jalwedd_word()) << 32 | jalwedd_word();
    key->words[1] = JALWEDD_CAST(uint64_t, jalwedd_word()) << 32 | jalwedd_word();
    return jalwedd_random(key->words, sizeof key->words);
}

/* ---- Peers */

/* The number of a peer for jalwedd_arrive_rtcp and jalwedd_arrive_rtp. For IPv4 its lower 16 bits are the port, and above
 * them is the address. For IPv6 the upper 48 bits are the highest bit and a hash, with the key, of the network (/64) and
 * the scope: all of a network is one origin for a guard. The lower 16 are a hash of address and port, so that two peers
 * of a network share a number once in 65,536. An IPv4 address that comes by an IPv6 socket (::ffff:192.0.2.1) has the
 * number that it has by IPv4. Of no address 0. */
static inline uint64_t jalwedd_peer(const jalwedd_key *key, const jalwedd_address *from)
{
    static const uint8_t mapped[12] = {0, 0, 0, 0, 0, 0, 0, 0, 0, 0, 0xff, 0xff};
    const struct in6_addr *six = &from->as.ip6.sin6_addr;
    uint8_t octets[22];               /* network, scope, interface, port */
    uint32_t four;
    if (from->size == 0)
        return 0;
    if (from->as.any.sa_family == AF_INET)
        return JALWEDD_CAST(uint64_t, ntohl(from->as.ip4.sin_addr.s_addr)) << 16 | ntohs(from->as.ip4.sin_port);
    memcpy(octets, six, 16);
    memcpy(&four, octets + 12, sizeof four);
    if (memcmp(octets, mapped, sizeof mapped) == 0)
        return JALWEDD_CAST(uint64_t, ntohl(four)) << 16 | ntohs(from->as.ip6.sin6_port);
    memmove(octets + 12, octets + 8, 8);
    memcpy(octets + 8, &from->as.ip6.sin6_scope_id, 4);
    memcpy(octets + 20, &from->as.ip6.sin6_port, 2);
    return JALWEDD_CAST(uint64_t, 1) << 63 | jalwedd_sip_hash(key, octets, 12) << 17 >> 1 |
           (jalwedd_sip_hash(key, octets, sizeof octets) & 0xffff);
}

/* The address as text: 192.0.2.1:5004 or [2001:db8::1]:5004, or "-" for none. Returns `text`. */
static inline const char *jalwedd_address_text(const jalwedd_address *address, char text[JALWEDD_ADDRESS_TEXT])
{
    const int is_six = address->size > 0 && address->as.any.sa_family == AF_INET6;
    char host[64], port[8];
    if (address->size == 0 || getnameinfo(&address->as.any, address->size, host, sizeof host, port, sizeof port,
                                          NI_NUMERICHOST | NI_NUMERICSERV) != 0)
        snprintf(text, JALWEDD_ADDRESS_TEXT, "-");
    else
        snprintf(text, JALWEDD_ADDRESS_TEXT, is_six ? "[%s]:%s" : "%s:%s", host, port);
    return text;
}

/* ---- Sockets */

/* Gives the first UDP address of a host, a name or an address in digits, with this port. `family` is AF_INET, AF_INET6,
 * by which an IPv4 address is given as ::ffff:192.0.2.1, or AF_UNSPEC for either. Returns 0, or -1 if it has none: then
 * `address` has the size 0. */
static inline int jalwedd_resolve(const char *host, uint16_t port, int family, jalwedd_address *address)
{
    struct addrinfo asked, *found = NULL;
    char digits[8];
    memset(&asked, 0, sizeof asked);
    memset(address, 0, sizeof *address);
    asked.ai_family = family;
    asked.ai_flags = family == AF_INET6 ? AI_V4MAPPED : 0;
    asked.ai_socktype = SOCK_DGRAM;
    snprintf(digits, sizeof digits, "%u", JALWEDD_CAST(unsigned, port));
    if (getaddrinfo(host, digits, &asked, &found) != 0 || found == NULL)
        return -1;
    if (found->ai_addrlen <= sizeof address->as) {
        memcpy(&address->as, found->ai_addr, found->ai_addrlen);
        address->size = found->ai_addrlen;
    }
    freeaddrinfo(found);
    return address->size > 0 ? 0 : -1;
}

/* A UDP socket that is bound to an own address, or -1, and then errno says why. The host closes it. */
static inline int jalwedd_bound(const jalwedd_address *own)
{
    const int bound = socket(own->as.any.sa_family, SOCK_DGRAM, 0);
    if (bound < 0 || bind(bound, &own->as.any, own->size) == 0)
        return bound;
    close(bound);
    return -1;
}

/* Takes a datagram that came, without waiting, and gives where it came from. Returns its size in octets, `room` + 1 if
 * it has more than there is room for, of which the rest is lost, or -1 if there is none. */
static inline ssize_t jalwedd_receive(int from_socket, uint8_t *datagram, size_t room, jalwedd_address *from)
{
    struct iovec part;
    struct msghdr message;
    ssize_t size;
    memset(&message, 0, sizeof message);
    part.iov_base = datagram;
    part.iov_len = room;
    message.msg_iov = &part;
    message.msg_iovlen = 1;
    message.msg_name = &from->as;
    message.msg_namelen = sizeof from->as;
    size = recvmsg(from_socket, &message, MSG_DONTWAIT);
    from->size = size < 0 ? 0 : message.msg_namelen;
    return size >= 0 && (message.msg_flags & MSG_TRUNC) != 0 ? JALWEDD_CAST(ssize_t, room) + 1 : size;
}

/* Waits until one of so many sockets can be read, until a signal comes, or until the moment `until`, though for at most
 * an hour: for none if that has passed. Returns what poll does. A host wants POLLIN in `events` of each. */
static inline int jalwedd_wait(struct pollfd *sockets, size_t count, uint64_t until)
{
    const uint64_t now = jalwedd_now(), longest = JALWEDD_SECOND * UINT64_C(3600);
    const uint64_t time = until <= now ? 0 : until - now < longest ? until - now : longest;
    const nfds_t socket_count = count;
    return poll(sockets, socket_count, JALWEDD_CAST(int, (time + 999) / 1000));
}

/* ---- A flag that a signal sets */

/* 0 until the signal of jalwedd_stop_at came, in this file of the program. */
static volatile sig_atomic_t jalwedd_stopped;

/* Sets that flag: a handler of signals. */
static inline void jalwedd_stop(int signal_number)
{
    (void)signal_number;
    jalwedd_stopped = 1;
}

/* From now on a signal, such as SIGINT, sets that flag and ends a wait, in place of the process. Returns 0 or -1. */
static inline int jalwedd_stop_at(int signal_number)
{
    struct sigaction action;
    memset(&action, 0, sizeof action);
    action.sa_handler = jalwedd_stop;
    return sigaction(signal_number, &action, NULL);
}

/* ---- Inside: hosts do not use what follows */

static inline uint64_t jalwedd_sip_turned(uint64_t word, int bits)
{
    return word << bits | word >> (64 - bits);
}

static inline void jalwedd_sip_round(uint64_t v[4])
{
    v[0] += v[1];
    v[2] += v[3];
    v[1] = jalwedd_sip_turned(v[1], 13) ^ v[0];
    v[3] = jalwedd_sip_turned(v[3], 16) ^ v[2];
    v[0] = jalwedd_sip_turned(v[0], 32);
    v[2] += v[1];
    v[0] += v[3];
    v[1] = jalwedd_sip_turned(v[1], 17) ^ v[2];
    v[3] = jalwedd_sip_turned(v[3], 21) ^ v[0];
    v[2] = jalwedd_sip_turned(v[2], 32);
}

/* Eight octets or fewer as a word, the first in the lowest bits. */
static inline uint64_t jalwedd_sip_word(const uint8_t *octets, size_t count)
{
    uint64_t word = 0;
    for (size_t at = 0; at < count && at < 8; at++)
        word |= JALWEDD_CAST(uint64_t, octets[at]) << (8 * at);
    return word;
}

static inline uint64_t jalwedd_sip_hash(const jalwedd_key *key, const uint8_t *octets, size_t size)
{
    const uint64_t length = size, last = length << 56 | jalwedd_sip_word(octets + size / 8 * 8, size % 8);
    uint64_t v[4];
    v[0] = key->words[0] ^ 0x736f6d6570736575u;
    v[1] = key->words[1] ^ 0x646f72616e646f6du;
    v[2] = key->words[0] ^ 0x6c7967656e657261u;
    v[3] = key->words[1] ^ 0x7465646279746573u;
    for (size_t word = 0; word <= size / 8; word++) {
        const uint64_t taken = word == size / 8 ? last : jalwedd_sip_word(octets + 8 * word, 8);
        v[3] ^= taken;
        jalwedd_sip_round(v);
        jalwedd_sip_round(v);
        v[0] ^= taken;
    }
    v[2] ^= 0xff;
    for (int turn = 0; turn < 4; turn++)
        jalwedd_sip_round(v);
    return v[0] ^ v[1] ^ v[2] ^ v[3];
}

#ifdef __cplusplus
}
#endif

#endif
