/* The calls of the library. Each has the moment and random words of its own, and is recorded if
 * record-location is set: then `rtcp replay` plays the participant's session again (jalwedd_record.h). */
#include "session.h"

#include <errno.h>
#include <string.h>

/* ---- Records */

/* The file of a participant's calls: LOCATION of the first one, LOCATION-2 of the second, and so on. */
static gchar *record_name(JalweddSession *self)
{
    return self->records == 1 ? g_strdup(self->record_location)
                              : g_strdup_printf("%s-%u", self->record_location, self->records);
}

static void write_command(JalweddSession *self, Participant *one, const gchar *name,
                          const jalwedd_item *items, guint count, guint32 word)
{
    gchar *command_name = g_strconcat(name, ".sh", NULL);
    const gchar *cname = settings_cname(self);
    FILE *file = fopen(command_name, "w");
    jalwedd_record command = {jalwedd_record_to_file, file, 0, one->config.start};
    guint32 status = JALWEDD_TAKEN;
    if (file != NULL)
        status = jalwedd_record_command(&command, &one->config, (const guint8 *)cname,
                                        MIN(strlen(cname), 255), items, count, word);
    if (file == NULL || fclose(file) != 0 || command.failed || status != JALWEDD_TAKEN)
        refusals_add(&self->refusals,
                     g_strdup_printf("record-location: %s has no command, %s", command_name,
                                     status != JALWEDD_TAKEN ? jalwedd_text(status) : g_strerror(errno)));
    g_free(command_name);
}

static void begin_record(JalweddSession *self, Participant *one, const jalwedd_item *items, guint count,
                         guint32 word)
{
    gchar *name;
    FILE *file;
    if (self->record_location == NULL)
        return;
    self->records++;
    name = record_name(self);
    file = fopen(name, "w");
    if (file == NULL)
        refusals_add(&self->refusals, g_strdup_printf("record-location: %s, %s", name, g_strerror(errno)));
    else {
        one->record = (jalwedd_record){jalwedd_record_to_file, file, 0, one->config.start};
        write_command(self, one, name, items, count, word);
    }
    g_free(name);
}

static void end_record(Participant *one)
{
    if (one->record.to == NULL)
        return;
    if (fclose(one->record.to) != 0 || one->record.failed)
        GST_WARNING("the record of %08x is cut short", one->ssrc);
    one->record = (jalwedd_record){0};
}

/* ---- Calls */

guint32 call_new(JalweddSession *self, Participant *one)
{
    jalwedd_item items[7];
    const guint count = settings_items(self, items);
    const gchar *cname = settings_cname(self);
    const guint32 word = moment_word(self);
    const guint32 status = jalwedd_new(&one->handle, &one->config, (const guint8 *)cname,
                                       MIN(strlen(cname), 255), items, count, word, &one->step);
    if (status != JALWEDD_TAKEN)
        return status;
    if (one->config.guard.names != 0)
        jalwedd_trust(&one->handle, OWN_PEER); /* the other SSRCs of this host are no strangers */
    begin_record(self, one, items, count, word);
    return status;
}

gboolean call_is_held_back(guint32 status)
{
    return status == JALWEDD_STRANGER || status == JALWEDD_CROWD;
}

guint32 call_arrive_rtp(JalweddSession *self, Participant *one, guint64 peer, const guint8 *data, gsize size)
{
    const guint64 now = moment_now(self);
    const guint32 word = moment_word(self);
    const guint32 status =
        jalwedd_arrive_rtp(&one->handle, now, peer, word, data, size, &one->step, one->octets);
    if (!call_is_held_back(status))
        jalwedd_record_arrive_rtp(&one->record, now, peer, word, data, size);
    return status;
}

guint32 call_arrive_rtcp(JalweddSession *self, Participant *one, guint64 peer, const guint8 *data,
                         gsize size)
{
    const guint64 now = moment_now(self);
    const guint32 word = moment_word(self);
    const guint32 status =
        jalwedd_arrive_rtcp(&one->handle, now, peer, word, data, size, &one->step, one->octets);
    if (!call_is_held_back(status))
        jalwedd_record_arrive_rtcp(&one->record, now, peer, word, data, size);
    return status;
}

guint32 call_sent_rtp(JalweddSession *self, Participant *one, guint32 timestamp, gsize payload)
{
    const guint64 now = moment_now(self);
    jalwedd_record_sent_rtp(&one->record, now, timestamp, (guint32)payload);
    return jalwedd_sent_rtp(&one->handle, now, timestamp, (guint32)payload, &one->step, one->octets);
}

guint32 call_tick(JalweddSession *self, Participant *one)
{
    const guint64 now = moment_now(self);
    const guint32 first = moment_word(self), second = moment_word(self);
    jalwedd_record_tick(&one->record, now, first, second);
    return jalwedd_tick(&one->handle, now, first, second, &one->step, one->octets);
}

guint32 call_configure(JalweddSession *self, Participant *one)
{
    const guint64 now = moment_now(self);
    jalwedd_settings settings = {.sender_bw = self->sender_bandwidth,
                                 .receiver_bw = self->receiver_bandwidth,
                                 .rate = one->config.rate,
                                 .ntp_base = one->config.ntp_base};
    jalwedd_item items[7];
    const guint count = settings_items(self, items);
    settings.clock_count = settings_clocks(self, one->config.rate, settings.clocks);
    jalwedd_record_configure(&one->record, now, &settings, items, count);
    return jalwedd_configure(&one->handle, now, &settings, items, count, &one->step, one->octets);
}

guint32 call_forget(JalweddSession *self, Participant *one, guint32 ssrc)
{
    const guint64 now = moment_now(self);
    jalwedd_record_forget(&one->record, now, ssrc);
    return jalwedd_forget(&one->handle, now, ssrc, &one->step, one->octets);
}

guint32 call_leave(JalweddSession *self, Participant *one)
{
    const guint64 now = moment_now(self);
    const guint32 word = moment_word(self);
    jalwedd_record_leave(&one->record, now, word);
    return jalwedd_leave(&one->handle, now, word, &one->step, one->octets);
}

void call_free(Participant *one)
{
    jalwedd_free(&one->handle);
    end_record(one);
}
