/* A table of who is in a session: for each other source its CNAME and other SDES items, where its datagrams come from,
 * its jitter and losses, the round trip, and what it reports of the host's own stream, in rows that the host gives. The
 * library keeps what RFC 3550 needs to report; the rest of this comes from the datagrams that were taken.
 * jalwedd_host.h keeps such a table; a host with a loop of its own does, after each call that was taken:
 *
 *     jalwedd_table table = {rows, sizeof rows / sizeof *rows, 0, 0};
 *
 *     if (step.others_changed)
 *         jalwedd_table_update(&table, &session);
 *     jalwedd_table_items(&table, &from, datagram, size);                  an RTCP datagram; its reports as shown below
 *     while ((row = jalwedd_table_change(&table, &was)) != NULL)
 *         if (was == JALWEDD_AWAY)         joined(row);
 *         else if (row->role == JALWEDD_AWAY)  gone(row, row->has_left ? "by a BYE" : "silent, or dismissed");
 *
 * and each second jalwedd_table_update and then jalwedd_table_second. From jalwedd_leave on the participant lists
 * nobody: update the table no more then.
 *
 * A row lies at another address once a source comes or goes: use none after the next call of jalwedd_table_update. Rows
 * take JALWEDD_ITEM_ROOM octets and some 250 each. All functions are inline, for C99 and C++11 and later, and do not
 * allocate. It is tested; only the library is proved. */
#ifndef JALWEDD_TABLE_H
#define JALWEDD_TABLE_H

#include "jalwedd_system.h"

#ifdef __cplusplus
extern "C" {
#endif

/* ---- Values */

/* The room of a row for SDES items, in octets: each takes its text and two more. At least 257, for a CNAME. Whoever
 * wants another one defines it, alike in all files of a program. */
#ifndef JALWEDD_ITEM_ROOM
#define JALWEDD_ITEM_ROOM 384
#endif

/* A source, as the latest update found it. Hosts read all fields but the last five, and may write `data`. */
typedef struct jalwedd_row {
    uint32_t ssrc;
    uint32_t role;          /* JALWEDD_AWAY, JALWEDD_MEMBER or JALWEDD_SENDER */
    uint32_t has_left;      /* 1 if it said goodbye */
    uint32_t is_dismissed;  /* 1 if the host dismissed it (jalwedd_forget): the host sets it before the update */
    jalwedd_address rtp;    /* where its latest RTP packet came from, and its latest report */
    jalwedd_address rtcp;
    uint64_t received;      /* how many of its packets were counted, since it came or its numbers jumped (A.1) */
    int64_t expected;       /* how many were expected since then, and how many of these were lost: negative if packets
                               were repeated */
    int64_t lost;
    int64_t expected_second; /* the same of the second before the latest jalwedd_table_second. A packet that came late
                               counts as lost first, and then as one lost less */
    int64_t lost_second;
    double jitter_ms;       /* the interarrival jitter, in milliseconds */
    double loss;            /* lost in per cent of expected, 0 to 100: of all, and of that second */
    double loss_second;
    double round_trip_ms;   /* the time to it and back by its latest report that tells one, or -1 */
    uint32_t has_report;    /* 1 if it reported about the host's own stream, otherwise 0 */
    jalwedd_report report;  /* its latest block about that, if it did */
    double report_loss;     /* what that block says: the loss since the block before it in per cent, and the jitter in
                               milliseconds */
    double report_jitter_ms;
    void *data;             /* for the host's use: NULL at first */
    uint64_t received_before; /* at the second before */
    int64_t lost_before;
    uint32_t role_told;     /* by the latest change */
    uint32_t is_listed;     /* by the latest update */
    uint32_t item_size;     /* the octets of the items: kind, size and text of each */
    uint8_t items[JALWEDD_ITEM_ROOM];
} jalwedd_row;

/* A table. The host gives the rows and how many there are, which is the participant's capacity or more, and 0 for the
 * rest. */
typedef struct jalwedd_table {
    jalwedd_row *rows;      /* by rising SSRC */
    uint32_t room;
    uint32_t count;         /* how many rows are in use */
    uint32_t next;          /* where jalwedd_table_change goes on */
} jalwedd_table;

/* ---- Calls */

/* The row of a source, or NULL if there is none. */
static inline jalwedd_row *jalwedd_table_row(const jalwedd_table *table, uint32_t ssrc);

/* Lists the participant's sources into the table: their roles, losses and jitter. A source that is no longer listed has
 * the role JALWEDD_AWAY until jalwedd_table_change has given it, and its row goes with the next update. Takes a time
 * that grows with the sources, and for each that comes moves the rows after it. */
static inline void jalwedd_table_update(jalwedd_table *table, jalwedd_handle *session);

/* Gives a source whose role differs from the one that it had when it was given last, and in `was` the role that it had
 * then, or NULL if there is none. Go on until it is NULL: then each such source was given once since the update. */
static inline const jalwedd_row *jalwedd_table_change(jalwedd_table *table, uint32_t *was);

/* Takes the losses of the second that ends now, of all sources. */
static inline void jalwedd_table_second(jalwedd_table *table);

/* Takes the SDES items of an RTCP datagram, and where it came from, to the rows of the sources that it names. */
static inline void jalwedd_table_items(jalwedd_table *table, const jalwedd_address *from, const uint8_t *datagram,
                                       size_t size);

/* Takes a block about the host's own stream to the row of its reporter, which is returned, or NULL if that has none.
 * `arrival` is the middle 32 bits of the NTP timestamp of the moment when it came, and `rate` the units a second of the
 * own RTP timestamps. Blocks name the SSRC that the host had before the call that took the datagram:
 *
 *     jalwedd_cursor cursor = JALWEDD_BEGIN;
 *     while (jalwedd_next_block(datagram, size, &cursor, &report) == JALWEDD_TAKEN)
 *         if (report.ssrc == own)
 *             jalwedd_table_report(&table, &report, arrival, config.rate);
 */
static inline const jalwedd_row *jalwedd_table_report(jalwedd_table *table, const jalwedd_report *report,
                                                      uint32_t arrival, uint32_t rate);

/* Notes where an RTP packet of a source came from. */
static inline void jalwedd_table_packet(jalwedd_table *table, const jalwedd_address *from, uint32_t ssrc);

/* The octets of an SDES item of a source, of a kind from JALWEDD_SDES_CNAME on, and their number, or NULL if it has not
 * sent one or there was no room for it. They are any octets, and no zero octet follows. */
static inline const uint8_t *jalwedd_row_item(const jalwedd_row *row, uint32_t kind, size_t *size);

/* The same as text to be shown: each octet below 32 and each of 127 and above is a question mark, and "?" stands for
 * none. Returns `text`. */
static inline const char *jalwedd_row_text(const jalwedd_row *row, uint32_t kind, char text[256]);

/* ---- Inside: hosts do not use what follows */

/* The first row from `at` on whose SSRC is not lower, or the end. */
static inline uint32_t jalwedd_table_from(const jalwedd_table *table, uint32_t at, uint32_t ssrc)
{
    while (at < table->count && table->rows[at].ssrc < ssrc)
        at++;
    return at;
}

static inline jalwedd_row *jalwedd_table_row(const jalwedd_table *table, uint32_t ssrc)
{
    uint32_t low = 0, high = table->count;
    while (low < high) {
        const uint32_t middle = low + (high - low) / 2;
        if (table->rows[middle].ssrc < ssrc)
            low = middle + 1;
        else
            high = middle;
    }
    return low < table->count && table->rows[low].ssrc == ssrc ? &table->rows[low] : NULL;
}

/* Drops the rows of sources that the latest update did not find, once it was told that they are away. */
static inline void jalwedd_table_drop(jalwedd_table *table)
{
    uint32_t kept = 0;
    for (uint32_t at = 0; at < table->count; at++) {
        if (!table->rows[at].is_listed && table->rows[at].role_told == JALWEDD_AWAY)
            continue;
        if (kept != at)
            table->rows[kept] = table->rows[at];
        table->rows[kept++].is_listed = 0;
    }
    table->count = kept;
}

/* The row at a place in the order of SSRCs, which a source is to have, or NULL if there is no room for one more. */
static inline jalwedd_row *jalwedd_table_place(jalwedd_table *table, uint32_t at, uint32_t ssrc)
{
    jalwedd_row *row = &table->rows[at];
    if (at < table->count && row->ssrc == ssrc)
        return row;
    if (table->count == table->room)
        return NULL;
    memmove(row + 1, row, (table->count - at) * sizeof *row);
    memset(row, 0, sizeof *row);
    row->ssrc = ssrc;
    row->round_trip_ms = -1;
    table->count++;
    return row;
}

/* In per cent: 0 where more came than were expected. */
static inline double jalwedd_row_loss(int64_t lost, int64_t expected)
{
    return lost > 0 && expected > 0 ? 100.0 * JALWEDD_CAST(double, lost) / JALWEDD_CAST(double, expected) : 0;
}

static inline void jalwedd_row_update(jalwedd_row *row, const jalwedd_source_state *source)
{
    row->is_listed = 1;
    row->has_left = source->left != JALWEDD_NEVER;
    row->role = !source->member ? JALWEDD_AWAY : source->sender ? JALWEDD_SENDER : JALWEDD_MEMBER;
    row->received = source->received;
    row->lost = source->lost;
    row->expected = JALWEDD_CAST(int64_t, source->received) + source->lost;
    row->loss = jalwedd_row_loss(row->lost, row->expected);
    row->jitter_ms = source->rate ? source->jitter * 1e3 / source->rate : 0;
}

/* Lists the sources into the rows. Returns how many found no room. */
static inline uint32_t jalwedd_table_list(jalwedd_table *table, jalwedd_handle *session)
{
    jalwedd_source_state source;
    uint64_t from = 0;
    uint32_t at = 0, without = 0;
    for (; jalwedd_source(session, from, &source) == JALWEDD_TAKEN; from = source.ssrc + UINT64_C(1)) {
        jalwedd_row *row;
        at = jalwedd_table_from(table, at, source.ssrc);
        row = jalwedd_table_place(table, at, source.ssrc);
        if (row != NULL)
            jalwedd_row_update(row, &source);
        else
            without++;
    }
    return without;
}

static inline void jalwedd_table_update(jalwedd_table *table, jalwedd_handle *session)
{
    jalwedd_table_drop(table);
    if (jalwedd_table_list(table, session) > 0) {  /* those who are not listed any more make room */
        jalwedd_table_drop(table);
        jalwedd_table_list(table, session);
    }
    for (uint32_t at = 0; at < table->count; at++)
        if (!table->rows[at].is_listed)
            table->rows[at].role = JALWEDD_AWAY;
    table->next = 0;
}

static inline const jalwedd_row *jalwedd_table_change(jalwedd_table *table, uint32_t *was)
{
    while (table->next < table->count) {
        jalwedd_row *row = &table->rows[table->next++];
        if (row->role == row->role_told)
            continue;
        *was = row->role_told;
        row->role_told = row->role;
        return row;
    }
    return NULL;
}

/* If fewer packets were counted than a second before, the source began anew: all of them are of this second. */
static inline void jalwedd_row_second(jalwedd_row *row)
{
    const int is_anew = row->received < row->received_before;
    const int64_t received = JALWEDD_CAST(int64_t, is_anew ? row->received : row->received - row->received_before);
    row->lost_second = is_anew ? row->lost : row->lost - row->lost_before;
    row->expected_second = received + row->lost_second;
    row->loss_second = jalwedd_row_loss(row->lost_second, row->expected_second);
    row->received_before = row->received;
    row->lost_before = row->lost;
}

static inline void jalwedd_table_second(jalwedd_table *table)
{
    for (uint32_t at = 0; at < table->count; at++)
        jalwedd_row_second(&table->rows[at]);
}

/* The place of an item of this kind in the row, or its end. */
static inline uint32_t jalwedd_row_find(const jalwedd_row *row, uint32_t kind)
{
    uint32_t at = 0;
    while (at < row->item_size && row->items[at] != kind)
        at += 2u + row->items[at + 1];
    return at;
}

static inline const uint8_t *jalwedd_row_item(const jalwedd_row *row, uint32_t kind, size_t *size)
{
    const uint32_t at = jalwedd_row_find(row, kind);
    if (at == row->item_size)
        return NULL;
    *size = row->items[at + 1];
    return row->items + at + 2;
}

static inline const char *jalwedd_row_text(const jalwedd_row *row, uint32_t kind, char text[256])
{
    size_t size = 0;
    const uint8_t *octets = jalwedd_row_item(row, kind, &size);
    for (size_t at = 0; at < size; at++)
        text[at] = octets[at] >= ' ' && octets[at] < 127 ? JALWEDD_CAST(char, octets[at]) : '?';
    text[size] = '\0';
    return octets == NULL ? "?" : text;
}

/* An item in the place of the one of its kind. What does not fit is left out, but for a CNAME: then all others go. */
static inline void jalwedd_row_put(jalwedd_row *row, uint32_t kind, const uint8_t *text, uint32_t size)
{
    const uint32_t at = jalwedd_row_find(row, kind);
    if (at < row->item_size && row->items[at + 1] == size && memcmp(row->items + at + 2, text, size) == 0)
        return;
    if (at < row->item_size) {
        const uint32_t after = at + 2u + row->items[at + 1];
        memmove(row->items + at, row->items + after, row->item_size - after);
        row->item_size -= after - at;
    }
    if (kind == JALWEDD_SDES_CNAME && row->item_size + 2u + size > JALWEDD_ITEM_ROOM)
        row->item_size = 0;
    if (row->item_size + 2u + size > JALWEDD_ITEM_ROOM)
        return;
    row->items[row->item_size] = kind & 0xff;
    row->items[row->item_size + 1] = size & 0xff;
    memcpy(row->items + row->item_size + 2, text, size);
    row->item_size += 2u + size;
}

static inline void jalwedd_table_items(jalwedd_table *table, const jalwedd_address *from, const uint8_t *datagram,
                                       size_t size)
{
    jalwedd_cursor cursor = JALWEDD_BEGIN;
    jalwedd_item_place item;
    while (jalwedd_next_sdes_item(datagram, size, &cursor, &item) == JALWEDD_TAKEN) {
        jalwedd_row *row = jalwedd_table_row(table, item.ssrc);
        if (row == NULL || item.kind < JALWEDD_SDES_CNAME || item.kind > JALWEDD_SDES_PRIV)
            continue;
        row->rtcp = *from;
        jalwedd_row_put(row, item.kind, datagram + item.offset, item.size & 0xff);
    }
}

static inline const jalwedd_row *jalwedd_table_report(jalwedd_table *table, const jalwedd_report *report,
                                                      uint32_t arrival, uint32_t rate)
{
    jalwedd_row *row = jalwedd_table_row(table, report->reporter);
    const int32_t trip = JALWEDD_CAST(int32_t, jalwedd_round_trip(arrival, report->lsr, report->dlsr));
    if (row == NULL)
        return NULL;
    row->has_report = 1;
    row->report = *report;
    row->report_loss = report->fraction / 2.56;
    row->report_jitter_ms = rate ? report->jitter * 1e3 / rate : 0;
    if (report->lsr != 0)
        row->round_trip_ms = trip > 0 ? trip / 65.536 : 0;  /* the other's clock may be coarse */
    return row;
}

static inline void jalwedd_table_packet(jalwedd_table *table, const jalwedd_address *from, uint32_t ssrc)
{
    jalwedd_row *row = jalwedd_table_row(table, ssrc);
    if (row != NULL)
        row->rtp = *from;
}

#ifdef __cplusplus
}
#endif

#endif
