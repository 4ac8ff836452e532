/* A drawing written as SVG by hand: panels beside each other with one scale, a line for each word. */
#include "draw.h"

enum { WIDE = 360, HIGH = 260, LEFT_MARGIN = 46, TOP = 34, BELOW = 40, KEY = 110 };
static const char *const colours[CUT_WORDS] = {"#1b6ca8", "#c0392b", "#27864b", "#8e44ad", "#b9770e", "#7f8c8d"};

static double bound_at(const struct bound *bound, int n) { return bound->name ? bound->each * n - bound->less : 0; }

/* The first number that four parts divide evenly and no point lies above. */
static double top_of(const struct panel *panels, int count)
{
    double most = 0, top = 0;
    for (int p = 0; p < count; p++) {
        most = bound_at(&panels[p].bound, DRAWN) > most ? bound_at(&panels[p].bound, DRAWN) : most;
        for (int w = 0; w < panels[p].words; w++)
            for (int i = 0; i < panels[p].points; i++)
                most = panels[p].at[w][i] > most ? panels[p].at[w][i] : most;
    }
    while (top < most)
        top += 4;
    return top;
}

static double across(double n) { return LEFT_MARGIN + n / DRAWN * (WIDE - LEFT_MARGIN - 14); }
static double down(double number, double top) { return TOP + HIGH - number / top * HIGH; }

static void text(FILE *out, double x, double y, const char *anchor, const char *words)
{
    fprintf(out, "<text x=\"%.0f\" y=\"%.0f\" text-anchor=\"%s\">%s</text>\n", x, y, anchor, words);
}

static void axes(FILE *out, double top)
{
    char label[32];
    for (int i = 0; i <= 4; i++) {
        double y = down(top * i / 4, top), x = across(DRAWN * i / 4.0);
        fprintf(out, "<path d=\"M%d %.0fH%d\" stroke=\"#ccc\"/>\n", LEFT_MARGIN, y, WIDE - 14);
        snprintf(label, sizeof label, "%.0f", top * i / 4);
        text(out, LEFT_MARGIN - 6, y + 4, "end", label);
        snprintf(label, sizeof label, "%d", DRAWN * i / 4);
        text(out, x, TOP + HIGH + 16, "middle", label);
    }
    text(out, across(DRAWN / 2.0), TOP + HIGH + 32, "middle", "letters");
}

/* The line of GTA..A has gaps, since that of all-A may lie below it. */
static const char *gaps(int w) { return w < WORDS ? "" : " stroke-dasharray=\"6 6\""; }

static void lines(FILE *out, const struct panel *panel, double top)
{
    for (int w = 0; w < panel->words; w++) {
        fprintf(out, "<polyline fill=\"none\" stroke=\"%s\" stroke-width=\"1.6\"%s points=\"", colours[w], gaps(w));
        for (int i = 0; i < panel->points; i++)
            fprintf(out, "%.1f,%.1f ", across((i + 1.0) * DRAWN / panel->points), down(panel->at[w][i], top));
        fprintf(out, "\"/>\n");
    }
    if (panel->bound.name)
        fprintf(out, "<path d=\"M%.1f %.1fL%.1f %.1f\" stroke=\"black\" stroke-dasharray=\"5 3\"/>\n", across(1),
                down(bound_at(&panel->bound, 1), top), across(DRAWN), down(bound_at(&panel->bound, DRAWN), top));
}

/* The key stands beside the last panel, which has every word and the bound. */
static void key(FILE *out, const struct panel *last)
{
    int below = TOP + 20 + 20 * last->words;
    for (int w = 0; w < last->words; w++) {
        int y = TOP + 20 + 20 * w;
        fprintf(out, "<path d=\"M0 %dH20\" stroke=\"%s\" stroke-width=\"3\"%s/>\n", y, colours[w], gaps(w));
        text(out, 26, y + 4, "start", word_names[cut_word(w)]);
    }
    if (!last->bound.name)
        return;
    fprintf(out, "<path d=\"M0 %dH20\" stroke=\"black\" stroke-dasharray=\"5 3\"/>\n", below);
    text(out, 26, below + 4, "start", last->bound.name);
}

void draw(FILE *out, const struct panel *panels, int count)
{
    double top = top_of(panels, count);
    fprintf(out, "<svg xmlns=\"http://www.w3.org/2000/svg\" width=\"%d\" height=\"%d\" font-family=\"sans-serif\" "
                 "font-size=\"11\">\n<rect width=\"100%%\" height=\"100%%\" fill=\"white\"/>\n",
            count * WIDE + KEY, TOP + HIGH + BELOW);
    for (int p = 0; p < count; p++) {
        fprintf(out, "<g transform=\"translate(%d 0)\">\n", p * WIDE);
        text(out, across(DRAWN / 2.0), 20, "middle", panels[p].title);
        axes(out, top);
        lines(out, &panels[p], top);
        fprintf(out, "</g>\n");
    }
    fprintf(out, "<g transform=\"translate(%d 0)\">\n", count * WIDE);
    key(out, &panels[count - 1]);
    fprintf(out, "</g>\n</svg>\n");
}
