/*
 * The picture of a run. Each row is given its verdict and its place first; then the parts are printed one behind the other,
 * each from what was laid out.
 */
#include "picture.h"

#include "bundle.h"
#include "verdict.h"

#include <inttypes.h>

enum { LEFT = 60, TOP = 96, FIELD = 240, LANE = 24, POSITIONS = 48, REPLY = 450 };

/* A row as it is drawn: where it begins, and what is left out before it. A pause that ends there, where it was cut short. */
struct box {
    struct second_row row;
    uint64_t at, takes, cut;
    int after_pause;
    uint64_t pause_from, pause_at;
};

static struct box boxes[SECOND_ROWS];
static struct second_judged judged[SECOND_ROWS];

/* How each verdict looks and is told. */
static const struct look {
    const char *name, *fill, *stroke, *words;
} looks[] = {
    [SECOND_WAKE_UP] = {"wake", "#999", "#999", "wake-up"},
    [SECOND_FIRST_SEND] = {"first", "#0072b2", "#0072b2", "first send"},
    [SECOND_SENT_AGAIN] = {"resend", "#56b4e9", "#56b4e9", "resend"},
    [SECOND_UNSENT] = {"refused", "#000", "#000", "refused"},
    [SECOND_COUNTS] = {"counts", "#009e73", "#009e73", "counts"},
    [SECOND_LEFT_OVER] = {"left-over", "#d42020", "#d42020", "left over"},
    [SECOND_TOO_LATE] = {"late", "#e69f00", "#e69f00", "late"},
    [SECOND_BEHIND] = {"second", "#f0e442", "#a89c00", "second"},
    [SECOND_DAMAGED_LINE] = {"damaged", "#cc79a7", "#cc79a7", "damaged"},
    [SECOND_OTHER_KIND] = {"wrong-kind", "#6a3d9a", "#6a3d9a", "wrong kind"},
    [SECOND_UNASKED] = {"unasked", "#fff", "#000", "not asked for"},
};

/* Lays the rows out along the time that is drawn; answers where the last of it ends. */
static uint64_t lay_out(const uint8_t *bundle, size_t n, size_t rows)
{
    uint64_t busy = 0, cut = 0;
    for (size_t i = 0; i < rows; i++) {
        struct box *b = &boxes[i];
        uint64_t pause;
        second_row(bundle, n, i, &b->row);
        b->takes = 11 * (b->row.length / 2);
        pause = b->row.time > busy ? b->row.time - busy : 0;
        b->pause_from = busy;
        b->pause_at = busy - cut;
        b->after_pause = pause >= 360;
        /* 120 bit times of a pause stay, and what is not a whole tenth of a second */
        if (b->after_pause)
            cut += pause - (120 + (pause - 120) % 240);
        b->cut = cut;
        b->at = b->row.time - cut;
        if (busy < b->row.time + b->takes + REPLY)
            busy = b->row.time + b->takes + REPLY;
    }
    return busy - cut;
}

static unsigned scale_for(uint64_t end)
{
    static const unsigned scales[] = {20, 50, 100};
    for (size_t i = 0; i < sizeof scales / sizeof scales[0]; i++)
        if (end / scales[i] < 30000)
            return scales[i];
    return 200;
}

static void put_style(FILE *to)
{
    fprintf(to, "<style>\ntext{font:12px sans-serif;fill:#222}\nrect{vector-effect:non-scaling-stroke}\n"
                ".title{font-size:16px}\n.grid{stroke:#ddd}\n.pause{fill:#e8e8e8}\n"
                ".window{fill:#fc3;fill-opacity:.45;pointer-events:none}\n");
    for (int v = SECOND_WAKE_UP; v <= SECOND_UNASKED; v++)
        fprintf(to, ".%s{fill:%s;stroke:%s}\n", looks[v].name, looks[v].fill, looks[v].stroke);
    fprintf(to, "</style>\n");
}

static void put_key(FILE *to, unsigned column, unsigned y, const char *name, const char *words)
{
    fprintf(to, "<rect class='%s' x='%u' y='%u' width='24' height='10'/><text x='%u' y='%u'>%s</text>\n", name,
            110 + 120 * column, y - 10, 140 + 120 * column, y, words);
}

static void put_legend(FILE *to)
{
    fprintf(to, "<text x='60' y='46'>sent</text>\n");
    for (int v = SECOND_WAKE_UP; v <= SECOND_UNSENT; v++)
        put_key(to, (unsigned)(v - SECOND_WAKE_UP), 46, looks[v].name, looks[v].words);
    put_key(to, 4, 46, "window", "reply window");
    put_key(to, 5, 46, "pause", "pause, cut short");
    fprintf(to, "<text x='60' y='64'>heard</text>\n");
    for (int v = SECOND_COUNTS; v <= SECOND_UNASKED; v++)
        put_key(to, (unsigned)(v - SECOND_COUNTS), 64, looks[v].name, looks[v].words);
}

static void put_marks(FILE *to, size_t rows, uint64_t fields, unsigned scale, unsigned bottom)
{
    for (uint64_t i = 0; i <= fields; i++) {
        uint64_t place = FIELD * scale * i, x = LEFT + FIELD * i, tenths;
        size_t last = rows;
        while (last > 0 && boxes[last - 1].at > place)
            last--;
        tenths = (place + (last > 0 ? boxes[last - 1].cut : 0)) / 240;
        fprintf(to, "<path class='grid' d='M%" PRIu64 " 90V%u'/><text x='%" PRIu64 "' y='86' text-anchor='middle'>%" PRIu64 ".%" PRIu64
                    " s</text>\n", x, bottom, x, tenths / 10, tenths % 10);
    }
}

static void put_row(FILE *to, const uint8_t *bundle, const struct box *b, const struct second_judged *j)
{
    const struct look *look = &looks[j->verdict];
    int is_sent = b->row.direction == 0;
    if (j->verdict == SECOND_FIRST_SEND || j->verdict == SECOND_SENT_AGAIN)
        fprintf(to, "<rect class='window' x='%" PRIu64 "' y='1' width='450' height='22'/>\n", b->at + b->takes);
    fprintf(to, "<g class='%s'><title>%s", look->name, look->words);
    if (j->verdict == SECOND_UNSENT)
        fprintf(to, " by %d", j->number);
    if (j->verdict == SECOND_DAMAGED_LINE)
        fprintf(to, ", %d", j->number);
    fprintf(to, ": position %u, %s at %" PRIu32 ", ", b->row.position, is_sent ? "sent" : "heard", b->row.time);
    second_word(bundle, &b->row, to);
    fprintf(to, "</title><rect x='%" PRIu64 "' y='%d' width='%" PRIu64 "' height='8'/></g>\n", b->at, is_sent ? 3 : 13, b->takes);
}

static void put_lane(FILE *to, const uint8_t *bundle, size_t rows, unsigned position, unsigned y, uint64_t wide, uint64_t span)
{
    fprintf(to, "<text x='50' y='%u' text-anchor='end'>%u</text><text x='%" PRIu64 "' y='%u'>%u</text>"
                "<path class='grid' d='M60 %uh%" PRIu64 "'/>\n", y + 16, position, wide + 70, y + 16, position, y, wide);
    fprintf(to, "<svg x='60' y='%u' width='%" PRIu64 "' height='24' viewBox='0 0 %" PRIu64 " 24' preserveAspectRatio='none'>\n", y,
            wide, span);
    for (size_t i = 0; i < rows; i++)
        if (boxes[i].row.position == position)
            put_row(to, bundle, &boxes[i], &judged[i]);
    fprintf(to, "</svg>\n");
}

static void put_pauses(FILE *to, size_t rows, uint64_t wide, unsigned high, uint64_t span)
{
    fprintf(to, "<svg x='60' y='96' width='%" PRIu64 "' height='%u' viewBox='0 0 %" PRIu64 " 1' preserveAspectRatio='none'>\n", wide,
            high, span);
    for (size_t i = 0; i < rows; i++)
        if (boxes[i].after_pause)
            fprintf(to, "<rect class='pause' x='%" PRIu64 "' width='%" PRIu64 "' height='1'><title>nothing from %" PRIu64 " to %" PRIu32
                        "</title></rect>\n",
                    boxes[i].pause_at, boxes[i].at - boxes[i].pause_at, boxes[i].pause_from, boxes[i].row.time);
    fprintf(to, "</svg>\n");
}

int second_picture(const uint8_t *bundle, size_t n, FILE *to)
{
    size_t rows = 0;
    unsigned used[POSITIONS + 1] = {0}, lanes = 0, scale, y = TOP;
    uint64_t end, fields, wide, span;
    int refusal = second_verdicts(bundle, n, judged, &rows);
    if (refusal != 0)
        return refusal;
    end = lay_out(bundle, n, rows);
    for (size_t i = 0; i < rows; i++)
        lanes += used[boxes[i].row.position]++ == 0;
    scale = scale_for(end);
    fields = end / scale / FIELD + 1;
    if (fields < 5)
        fields = 5;
    wide = FIELD * fields;
    span = wide * scale;
    fprintf(to, "<svg xmlns='http://www.w3.org/2000/svg' width='%" PRIu64 "' height='%u'>\n", wide + 120, TOP + LANE * lanes + 16);
    put_style(to);
    fprintf(to, "<rect width='%" PRIu64 "' height='%u' fill='#fff'/>\n", wide + 120, TOP + LANE * lanes + 16);
    fprintf(to, "<text class='title' x='60' y='22'>Rows: %zu, positions: %u, a mark every %u.%u s</text>\n", rows, lanes, scale / 10,
            scale % 10);
    put_legend(to);
    put_pauses(to, rows, wide, LANE * lanes, span);
    put_marks(to, rows, fields, scale, TOP + LANE * lanes);
    for (unsigned p = 1; p <= POSITIONS; p++)
        if (used[p] > 0) {
            put_lane(to, bundle, rows, p, y, wide, span);
            y += LANE;
        }
    fprintf(to, "</svg>\n");
    return 0;
}
