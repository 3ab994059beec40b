/* A participant whose calls figures.c measures: the library's (session.c), or GStreamer's rtpsession (gstreamer.c).
 * (bench/session) */
#ifndef PARTICIPANT_H
#define PARTICIPANT_H

#include <stddef.h>
#include <stdint.h>

enum { MOST_OCTETS = 1500, BATCH = 100 };

struct datagram {
    size_t size;
    uint8_t octets[172];
};

enum port { RTP_PORT, RTCP_PORT };

/* Joins a session, and goes away. */
void participant_begin(void);
void participant_end(void);

/* Takes up to BATCH datagrams that arrive at a port. Returns the nanoseconds for all of them. */
double participant_arrive(enum port port, const struct datagram *datagrams, size_t count);

/* The nanoseconds of a tick, and of the same tick without the switch to the reporting thread. */
struct tick {
    double spent;
    double awake;
};

/* Ticks whenever a tick is due, until a report goes out. Returns its size, and the time of that tick. */
size_t participant_report(uint8_t octets[MOST_OCTETS], struct tick *tick);

/* How many others it knows. */
uint32_t participant_others(void);

/* Ends the program unless the call that is measured did what it is measured for. */
void expect(int holds, const char *what);

/* The time by a clock that a virtual machine does not adjust: from its processor time so much is taken off for times in
 * which it did not run that the least of many is too little. */
double nanoseconds(void);

#endif
