/* The picture of a crowd: a row for each session, with the seconds after the join, those after the leave, and the share
 * of the bandwidth over the whole session. */
#include "crowd_svg.h"

#include <math.h>
#include <stdbool.h>

enum { WIDTH = 900, HEIGHT = 640, CLOSE_UP = 30, MEAN = 10 };

#define WITH "#0b6e4f"
#define WITHOUT "#c8553d"

/* One diagram: where it stands, what seconds it shows, and from which power of ten to which. */
struct panel {
    double x, y, width, height;
    uint32_t from, to, tick;
    int low, high;
    uint32_t mean;                      /* each step of a curve is the mean of so many seconds */
    bool is_share;                      /* of the bandwidth, else compounds a second */
};

static double x_of(const struct panel *panel, double second)
{
    return panel->x + panel->width * (second - panel->from) / (panel->to - panel->from);
}

/* What is too little for the axis lies on it. */
static double y_of(const struct panel *panel, double value)
{
    const double decade = value > 0 ? fmax(log10(value), panel->low) : panel->low;
    return panel->y + panel->height * (panel->high - decade) / (panel->high - panel->low);
}

static void text(FILE *to, double x, double y, const char *anchor, const char *more, const char *words)
{
    fprintf(to, "<text x=\"%.1f\" y=\"%.1f\" text-anchor=\"%s\" %s>%s</text>\n", x, y, anchor, more, words);
}

static void line(FILE *to, double x1, double y1, double x2, double y2, const char *more)
{
    fprintf(to, "<line x1=\"%.1f\" y1=\"%.1f\" x2=\"%.1f\" y2=\"%.1f\" %s/>\n", x1, y1, x2, y2, more);
}

const char *with_commas(uint32_t number, char *text)
{
    char digits[12];
    const int count = snprintf(digits, sizeof digits, "%u", number);
    char *at = text;
    for (int place = 0; place < count; place++) {
        if (place > 0 && (count - place) % 3 == 0)
            *at++ = ',';
        *at++ = digits[place];
    }
    *at = 0;
    return text;
}

/* What one group sends from a second on, added to `sum`. */
static void add_group(const struct course *course, uint32_t group, uint32_t from, uint32_t to, struct rate *sum)
{
    for (uint32_t second = from; second < to; second++) {
        const struct second *sent = &course->seconds[(size_t)group * course->end + second];
        sum->compounds += sent->reports + sent->byes;
        sum->share += sent->octets;
    }
}

struct rate rate_of(const struct course *course, uint32_t from, uint32_t seconds)
{
    struct rate sum = {0, 0};
    const double all = (double)seconds * course->groups;
    for (uint32_t group = 0; group < course->groups; group++)
        add_group(course, group, from, from + seconds, &sum);
    return (struct rate){sum.compounds / all, sum.share / all / course->bandwidth * 100};
}

static void seconds_axis(FILE *to, const struct panel *panel, uint32_t zero, const char *words)
{
    const double foot = panel->y + panel->height;
    char number[16];
    for (uint32_t second = panel->from; second <= panel->to; second += panel->tick) {
        const double x = x_of(panel, second);
        line(to, x, foot, x, foot + 4, "stroke=\"#333\"");
        snprintf(number, sizeof number, "%d", (int)second - (int)zero);
        text(to, x, foot + 17, "middle", "", number);
    }
    line(to, panel->x, foot, panel->x + panel->width, foot, "stroke=\"#333\"");
    text(to, panel->x + panel->width / 2, foot + 34, "middle", "", words);
}

static void powers_axis(FILE *to, const struct panel *panel, const char *title)
{
    char number[16];
    for (int power = panel->low; power <= panel->high; power++) {
        const double value = pow(10, power), y = y_of(panel, value);
        line(to, panel->x, y, panel->x + panel->width, y, "stroke=\"#ddd\"");
        text(to, panel->x - 6, y + 4, "end", "", with_commas((uint32_t)value, number));
    }
    text(to, panel->x - 36, panel->y - 12, "start", "", title);
}

static void level(FILE *to, const struct panel *panel, double value)
{
    const double y = y_of(panel, value);
    line(to, panel->x, y, panel->x + panel->width, y, "stroke=\"#333\" stroke-dasharray=\"5 4\"");
}

static void curve(FILE *to, const struct panel *panel, const struct course *course, const char *colour)
{
    fprintf(to, "<path fill=\"none\" stroke=\"%s\" stroke-width=\"1.8\" d=\"", colour);
    for (uint32_t second = panel->from; second < panel->to; second += panel->mean) {
        const struct rate rate = rate_of(course, second, panel->mean);
        fprintf(to, "%c%.1f %.1fH%.1f", second == panel->from ? 'M' : 'L', x_of(panel, second),
                y_of(panel, panel->is_share ? rate.share : rate.compounds), x_of(panel, second + panel->mean));
    }
    fprintf(to, "\"/>\n");
}

static void diagram(FILE *to, const struct panel *panel, const struct course course[2], double bandwidth)
{
    level(to, panel, bandwidth);
    curve(to, panel, &course[1], WITHOUT);
    curve(to, panel, &course[0], WITH);
}

/* A run. All have the same scales, so that they can be compared. */
static void row(FILE *to, double y, const struct course course[2], uint32_t report, const char *title)
{
    const uint32_t leave = course->leave, end = course->end - course->end % MEAN;
    const struct panel join = {58, y, 205, 170, 0, CLOSE_UP, 10, 0, 4, 1, false};
    const struct panel bye = {328, y, 205, 170, leave - 5, leave + CLOSE_UP - 5, 5, 0, 4, 1, false};
    const struct panel whole = {610, y, 270, 170, 0, end, 100, 1, 5, MEAN, true};
    text(to, 22, y - 34, "start", "font-weight=\"bold\" font-size=\"13\"", title);
    powers_axis(to, &join, "compounds a second");
    powers_axis(to, &bye, "compounds a second");
    powers_axis(to, &whole, "per cent of the RTCP bandwidth, 10 s means");
    seconds_axis(to, &join, 0, "seconds since the join");
    seconds_axis(to, &bye, leave, "seconds since the leave of half");
    seconds_axis(to, &whole, 0, "seconds");
    diagram(to, &join, course, (double)course->bandwidth / report);
    diagram(to, &bye, course, (double)course->bandwidth / report);
    diagram(to, &whole, course, 100);
}

static void legend(FILE *to, const struct course *course, uint32_t report)
{
    char words[160];
    line(to, 22, 18, 46, 18, "stroke=\"" WITH "\" stroke-width=\"3\"");
    text(to, 54, 22, "start", "", "Jalwedd: timer reconsideration, forward and reverse, and BYE backoff");
    line(to, 22, 38, 46, 38, "stroke=\"" WITHOUT "\" stroke-width=\"3\"");
    text(to, 54, 42, "start", "",
         "without: whoever has drawn an interval sends at its end, and a BYE goes out at once");
    snprintf(words, sizeof words, "the RTCP bandwidth of a group: %u octets a second, %.2f reports of %u octets",
             course->bandwidth, (double)course->bandwidth / report, report);
    line(to, 22, 58, 46, 58, "stroke=\"#333\" stroke-dasharray=\"5 4\"");
    text(to, 54, 62, "start", "", words);
}

void draw(FILE *to, const struct course groups[2], const struct course single[2], uint32_t report)
{
    char title[160], all[16], each[16];
    fprintf(to, "<svg xmlns=\"http://www.w3.org/2000/svg\" width=\"%d\" height=\"%d\" font-family=\"sans-serif\" "
            "font-size=\"12\" fill=\"#333\">\n<rect width=\"100%%\" height=\"100%%\" fill=\"white\"/>\n",
            WIDTH, HEIGHT);
    legend(to, groups, report);
    with_commas(groups->participants, all);
    with_commas((groups->participants + groups->groups - 1) / groups->groups, each);
    snprintf(title, sizeof title, "%s participants in %u group%s of %s: a group's average", all, groups->groups,
             groups->groups > 1 ? "s" : "", each);
    row(to, 124, groups, report, title);
    snprintf(title, sizeof title, "%s participants in one group: each keeps track of 1,024 others", all);
    row(to, 410, single, report, title);
    fprintf(to, "</svg>\n");
}
