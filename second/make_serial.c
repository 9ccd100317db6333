/* Random bytes as a serial port passes them on, and as none does. */
#include "make_serial.h"

#include "chance.h"
#include "make_line.h"

/* As termios(3) says it of PARMRK: a wrong byte behind \377 \0, a right \377 twice. */
static void mark(struct marked *m, unsigned character)
{
    unsigned byte = character % 256, ones = 0;
    for (unsigned rest = character; rest > 0; rest /= 2)
        ones += rest % 2;
    if (ones % 2 == 1) {
        m->b[m->n++] = 0377;
        m->b[m->n++] = 0;
    } else if (byte == 0377)
        m->b[m->n++] = 0377;
    m->b[m->n++] = (uint8_t)byte;
    m->characters++;
}

static void mark_line(struct marked *m)
{
    struct line l = {{0}, 0};
    if (once_in(3))
        some_capture(&l);
    else
        some_line(&l);
    for (size_t i = 0; i < l.n && m->n + 3 <= MARKED_MOST; i++)
        mark(m, l.c[i] % 512u);
}

void some_marked(struct marked *m)
{
    m->n = m->characters = 0;
    switch (below(4)) {
    case 0:
        for (size_t left = below(60); left > 0; left--)
            mark(m, once_in(3) ? 255 + 256 * below(2) : below(512));
        break;
    case 1:
        mark_line(m);
        break;
    case 2:
        mark_line(m);
        m->n = below((unsigned)m->n + 1);
        break;
    default:
        for (size_t left = below(40); left > 0; left--) {
            unsigned any = below(256);
            m->b[m->n++] = (uint8_t)(once_in(2) ? 0377 : once_in(2) ? 0 : any);
        }
        m->characters = m->n;
        break;
    }
}

size_t some_room(const struct marked *m)
{
    if (once_in(4))
        return below((unsigned)m->characters + 2);
    return m->characters + below(3);
}
