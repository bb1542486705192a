/* The marks of a picture, as SVG. Each state has its own pattern beside its colour, so that a print without colours tells them
 * apart. */
#include <stdarg.h>
#include "timeline.h"

#define HALO " stroke=\"#fff\" stroke-width=\"3\" paint-order=\"stroke\""

/* A state's ground, what its pattern is drawn with, and the pattern in a square of 6; a state without one is plain. */
static const struct {
    const char *ground, *ink, *pattern;
} looks[] = {
    [ACTIVE] = {"#14532d", "#14532d", NULL},
    [READY] = {"#ffffff", "#14532d", NULL},
    [SEND_BLOCKED] = {"#dbeafe", "#1d4ed8", "M0 3h6"},
    [RECEIVE_BLOCKED] = {"#fde7c3", "#b45309", "M-1 7L7 -1M-1 1L1 -1M5 7L7 5"},
    [REPLY_BLOCKED] = {"#eadcf5", "#6b21a8", "M2 3h2M3 2v2"},
    [EVENT_BLOCKED] = {"#d0f0ec", "#0f766e", "M3 0v6"},
    [EXITED] = {"#8a8a8a", "#8a8a8a", NULL},
};

static FILE *to;

void put(const char *format, ...)
{
    va_list args;
    va_start(args, format);
    vfprintf(to, format, args);
    va_end(args);
}

void begin(FILE *out, int wide, int high, int steps)
{
    to = out;
    put("<svg xmlns=\"http://www.w3.org/2000/svg\" width=\"%d\" height=\"%d\" viewBox=\"0 0 %d %d\" font-family=\"sans-serif\" role=\"img\">\n",
        wide, high, wide, high);
    put("<title>A run of %d steps: what each asks, the states of the tasks after it, and what the next task is told</title>\n<defs>\n", steps);
    for (int s = ACTIVE; s <= EXITED; s++)
        if (looks[s].pattern)
            put("<pattern id=\"s%d\" width=\"6\" height=\"6\" patternUnits=\"userSpaceOnUse\"><rect width=\"6\" height=\"6\" fill=\"%s\"/>"
                "<path d=\"%s\" stroke=\"%s\"/></pattern>\n",
                s, looks[s].ground, looks[s].pattern, looks[s].ink);
    put("</defs>\n");
    box(0, 0, wide, high, "#fff");
}

void label(int x, int y, int size, const char *more, const char *text)
{
    put("<text x=\"%d\" y=\"%d\" font-size=\"%d\"%s>%s</text>\n", x, y, size, more, text);
}

void box(int x, int y, int w, int h, const char *colour)
{
    put("<rect x=\"%d\" y=\"%d\" width=\"%d\" height=\"%d\" fill=\"%s\"/>\n", x, y, w, h, colour);
}

/* A state over some height or width. */
void bar(int x, int y, int w, int h, enum state state)
{
    if (!looks[state].pattern && state != READY) {
        box(x, y, w, h, looks[state].ground);
        return;
    }
    put("<rect x=\"%d.5\" y=\"%d.5\" width=\"%d\" height=\"%d\" fill=\"", x, y, w - 1, h - 1);
    put(looks[state].pattern ? "url(#s%d)" : "#fff", state);
    put("\" stroke=\"%s\"/>\n", looks[state].ink);
}

static void head(int x, int y, int way)
{
    put("<path d=\"M%d %d l%d -4 v8 z\" fill=\"" INK "\"/>\n", x, y, -7 * way);
}

/* Two strokes across an arrow, with white between them: it is broken. They end below the count, which may reach as far. */
static void broken(int x, int y)
{
    put("<path d=\"M%d %dl3 -7h5l-3 7z\" fill=\"#fff\"/>\n", x - 4, y + 5);
    put("<path d=\"M%d %dl3 -7m5 0l-3 7\" fill=\"none\" stroke=\"" INK "\" stroke-width=\"1.6\"/>\n", x - 4, y + 5);
}

/* A delivery's count stands at its giver, where the arrow has no head; the arrow is drawn last, over the white around both. One that
 * was cut is broken before it arrives. */
void delivery(int from, int end, int y, int count, int cut)
{
    int way = end > from ? 1 : -1;
    put("<path d=\"M%d %dH%d\" stroke=\"#fff\" stroke-width=\"5\"/>\n", from, y, end);
    put("<text x=\"%d\" y=\"%d\" font-size=\"9\"" MONO HALO " text-anchor=\"%s\">%d</text>\n", from + 3 * way, y - 3, way > 0 ? "start" : "end",
        count);
    put("<path d=\"M%d %dH%d\" stroke=\"" INK "\" stroke-width=\"1.6\"/>\n", from, y, end - 5 * way);
    head(end, y, way);
    if (cut)
        broken(end - 13 * way, y);
}

/* The number of the event that a task waits for, on its bar. */
void of_event(int x, int y, int number)
{
    put("<text x=\"%d\" y=\"%d\" font-size=\"9\"" MONO BOLD HALO " text-anchor=\"middle\">%d</text>\n", x, y + 3, number);
}

static const char *ending(int place)
{
    static const char *const endings[] = {"th", "st", "nd", "rd"};
    int last = place % 10, teens = place / 10 % 10 == 1;
    return endings[last <= 3 && !teens ? last : 0];
}

/* Of the tasks that an event wakes, one has its place at the head of its arrow; 0 is none. */
void event(int from, int end, int y, int place)
{
    put("<path d=\"M%d %dH%d\" stroke=\"#fff\" stroke-width=\"5\"/>\n", from, y, end);
    if (place)
        put("<text x=\"%d\" y=\"%d\" font-size=\"9\"" MONO HALO " text-anchor=\"end\">%d%s</text>\n", end - 7, y - 3, place, ending(place));
    put("<path d=\"M%d %dH%d\" stroke=\"" INK "\" stroke-width=\"1.6\" stroke-dasharray=\"3 2\"/>\n", from, y, end - 5);
    head(end, y, 1);
}

/* An event that wakes nobody. */
void lost(int from, int y)
{
    put("<path d=\"M%d %dh9\" stroke=\"" INK "\" stroke-width=\"1.6\" stroke-dasharray=\"3 2\"/>\n", from, y);
    put("<path d=\"M%d %dl6 6m0 -6l-6 6\" stroke=\"" INK "\" stroke-width=\"1.6\"/>\n", from + 10, y - 3);
}

void mark(int x, int y, int fault)
{
    put("<circle cx=\"%d\" cy=\"%d\" r=\"8\" fill=\"" RED "\" stroke=\"#fff\"/>\n", x, y);
    put("<text x=\"%d\" y=\"%d\" font-size=\"9\"" BOLD " text-anchor=\"middle\" fill=\"#fff\">%d</text>\n", x, y + 3, fault);
}

void dot(int x, int y)
{
    put("<circle cx=\"%d\" cy=\"%d\" r=\"3\" fill=\"#fff\" stroke=\"" INK "\"/>\n", x, y);
}
