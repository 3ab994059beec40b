/* The time and random words that the library is passed. */
#include "session.h"

#include <sys/random.h>

enum { MOST_BETWEEN = 50 /* microseconds */, MOST_TRIES = 5 };
#define NTP_OF_1970 G_GUINT64_CONSTANT(2208988800) /* seconds since 1900 */

guint64 moment_now(JalweddSession *self)
{
    self->now = MAX(self->now, gst_clock_get_time(self->clock) / 1000);
    return self->now;
}

guint32 moment_word(JalweddSession *self)
{
    if (self->words_left == 0) {
        if (getrandom(self->words, sizeof self->words, 0) != sizeof self->words)
            for (guint at = 0; at < G_N_ELEMENTS(self->words); at++)
                self->words[at] = g_random_int();
        self->words_left = G_N_ELEMENTS(self->words);
    }
    return self->words[--self->words_left];
}

/* The time of the pipeline's clock, or its running time, or `otherwise` if there is no clock. */
static GstClockTime pipeline_time(JalweddSession *self, gboolean running, GstClockTime otherwise)
{
    GstClock *clock = gst_element_get_clock(GST_ELEMENT(self));
    GstClockTime time;
    if (clock == NULL)
        return otherwise;
    time = gst_clock_get_time(clock);
    gst_object_unref(clock);
    return running ? time - gst_element_get_base_time(GST_ELEMENT(self)) : time;
}

/* What ntp-time-source names, as an NTP timestamp. */
static guint64 named_time(JalweddSession *self)
{
    GstClockTime time = (GstClockTime)g_get_real_time() * 1000;
    guint64 seconds, fraction;
    if (self->pipeline_clock || self->time_source == TIME_RUNNING)
        time = pipeline_time(self, TRUE, time);
    else if (self->time_source == TIME_CLOCK)
        time = pipeline_time(self, FALSE, time);
    seconds = time / GST_SECOND;
    if (self->pipeline_clock || self->time_source == TIME_NTP)
        seconds += NTP_OF_1970;
    fraction = gst_util_uint64_scale(time % GST_SECOND, G_GUINT64_CONSTANT(1) << 32, GST_SECOND);
    return seconds << 32 | fraction;
}

/* The clocks are read again if the thread had to wait between them. */
void moment_by_both(JalweddSession *self, guint64 *moment, guint64 *ntp)
{
    guint tries = 0;
    do {
        *moment = moment_now(self);
        *ntp = named_time(self);
    } while (moment_now(self) > *moment + MOST_BETWEEN && ++tries < MOST_TRIES);
}
