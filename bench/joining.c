/* joining ENGINE M N: makes two traces of M and N points and calls one engine once; `run` counts the instructions of that call.
 * The answers of both engines are compared on the way. */
#include <math.h>
#include <stdio.h>
#include <stdlib.h>

#include "../include/register.h"
#include "plain.h"

static int32_t a[500], b[500];
static uint8_t strip[500], other[500], work[63001], lines[500000], printed[501047];
static char text[60000];

/* a round trace with a dent, counterclockwise */
static void trace(int32_t *c, size_t n, double size, double dent)
{
    for (size_t i = 0; i < n; i++) {
        double t = 6.283185307179586 * (double)i / (double)n;
        double r = size * (1.0 + dent * cos(5.0 * t));
        c[2 * i] = (int32_t)lround(r * cos(t));
        c[2 * i + 1] = (int32_t)lround(r * sin(t));
    }
}

static int wrong(const char *what)
{
    fprintf(stderr, "joining: %s\n", what);
    return 1;
}

/* the listing of the same trace twice, of which more than 1,000 strips are best */
static int listing(size_t m)
{
    int t = 0;
    for (int plane = 0; plane < 2; plane++) {
        t += sprintf(text + t, "%d %zu", plane, m);
        for (size_t k = 0; k < 2 * m; k++)
            t += sprintf(text + t, " %d", a[k]);
        text[t++] = '\n';
    }
    struct register_bytes_answer r = register_listing((const uint8_t *)text, (size_t)t, printed, sizeof printed);
    return r.status.number == 0 && memcmp(printed + r.bytes - 5, "more\n", 5) == 0 ? 0 : wrong("no listing of 1000 strips");
}

int main(int argc, char **argv)
{
    if (argc != 4)
        return wrong("usage: joining best|plain|next|list|text M N");
    size_t m = strtoul(argv[2], 0, 10), n = strtoul(argv[3], 0, 10);
    if (m < 3 || m > 250 || n < 3 || n > 250)
        return wrong("3 to 250 points");
    trace(a, m, 60000.0, 0.1);
    if (argv[1][0] == 'l') {
        /* the same trace twice has many best strips */
        struct register_run_answer r =
            register_list_best(a, 2 * m, a, 2 * m, lines, sizeof lines, work, sizeof work, 1000);
        return r.status.number == 0 && r.count == 1000 && r.more ? 0 : wrong("no run of 1000 strips");
    }
    if (argv[1][0] == 't')
        return listing(m);
    trace(b, n, 50000.0, 0.2);
    int64_t value = plain_best(a, m, b, n, other, work);
    struct register_answer r = register_best(a, 2 * m, b, 2 * n, strip, sizeof strip, work, sizeof work);
    if (r.status.number != 0 || r.value != value || memcmp(strip, other, m + n) != 0)
        return wrong("the two engines differ");
    if (twin_best(a, m, b, n, other, work) != value || memcmp(strip, other, m + n) != 0)
        return wrong("the twin differs");
    if (argv[1][0] == 'n') {
        r = register_next(a, 2 * m, b, 2 * n, strip, sizeof strip, work, sizeof work);
        return r.status.number == 0 || r.status.number == 100 ? 0 : wrong("no next strip");
    }
    return 0;
}
