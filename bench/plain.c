/* The same answer in plain C: the table row by row over i64, both worths, one mark byte a cell. Nothing is proved here. */
#include "plain.h"

/* point i of n, the first again behind the last */
static int64_t x(const int32_t *c, size_t n, size_t i) { return c[2 * (i < n ? i : 0)]; }
static int64_t y(const int32_t *c, size_t n, size_t i) { return c[2 * (i < n ? i : 0) + 1]; }

static int fit(const int32_t *c, size_t n)
{
    int64_t area = 0;
    if (n < 3 || n > 250)
        return 0;
    for (size_t i = 0; i < n; i++) {
        int64_t px = x(c, n, i), py = y(c, n, i), qx = x(c, n, i + 1), qy = y(c, n, i + 1);
        if (px < -100000 || px > 100000 || py < -100000 || py > 100000 || (px == qx && py == qy))
            return 0;
        area += px * qy - qx * py;
    }
    return area > 0;
}

/* step A from (i,j): B's point j with A's segment i; step B: A's point i with B's segment j */
static int64_t worth(const int32_t *own, size_t m, size_t i, const int32_t *other, size_t n, size_t j)
{
    return x(other, n, j) * (y(own, m, i + 1) - y(own, m, i)) - y(other, n, j) * (x(own, m, i + 1) - x(own, m, i));
}

static int64_t fill(const int32_t *a, size_t m, const int32_t *b, size_t n, uint8_t *work)
{
    int64_t row[251];
    row[0] = 0;
    work[0] = 0;
    for (size_t j = 1; j <= n; j++) {
        row[j] = row[j - 1] + worth(b, n, j - 1, a, m, 0);
        work[j] = 2;
    }
    for (size_t i = 1; i <= m; i++) {
        uint8_t *marks = work + i * (n + 1);
        row[0] += worth(a, m, i - 1, b, n, 0);
        marks[0] = 1;
        for (size_t j = 1; j <= n; j++) {
            int64_t by_a = row[j] + worth(a, m, i - 1, b, n, j);
            int64_t by_b = row[j - 1] + worth(b, n, j - 1, a, m, i);
            row[j] = by_a >= by_b ? by_a : by_b;
            marks[j] = (uint8_t)((by_a >= by_b) + 2 * (by_b >= by_a));
        }
    }
    return row[n];
}

static void back(size_t m, size_t n, uint8_t *strip, const uint8_t *work)
{
    size_t i = m, j = n;
    for (size_t k = m + n; k > 0; k--) {
        strip[k - 1] = !(work[i * (n + 1) + j] & 1);
        if (strip[k - 1])
            j--;
        else
            i--;
    }
}

int64_t plain_best(const int32_t *a, size_t m, const int32_t *b, size_t n, uint8_t *strip, uint8_t *work)
{
    if (!fit(a, m) || !fit(b, n))
        return INT64_MIN;
    int64_t value = fill(a, m, b, n, work);
    back(m, n, strip, work);
    memset(work, 0, (m + 1) * (n + 1));
    return value;
}

/* ---- the twin: the shape of `joining`, with points and segments in wrapped copies */

struct outline {
    int32_t x[251], y[251], dx[251], dy[251];
};

static void outline(struct outline *o, const int32_t *c, size_t n)
{
    for (size_t i = 0; i <= n; i++) {
        o->x[i] = (int32_t)x(c, n, i);
        o->y[i] = (int32_t)y(c, n, i);
    }
    for (size_t i = 0; i < n; i++) {
        o->dx[i] = o->x[i + 1] - o->x[i];
        o->dy[i] = o->y[i + 1] - o->y[i];
    }
}

static int64_t cross(int64_t px, int64_t py, int64_t dx, int64_t dy) { return px * dy - py * dx; }

static int64_t twin_fill(const struct outline *a, size_t m, const struct outline *b, size_t n, uint8_t *work)
{
    int64_t row[251];
    row[0] = 0;
    work[0] = 0;
    for (size_t j = 0; j < n; j++) {
        row[j + 1] = row[j] + cross(a->x[0], a->y[0], b->dx[j], b->dy[j]);
        work[j + 1] = 2;
    }
    for (size_t i = 0; i < m; i++) {
        uint8_t *marks = work + (i + 1) * (n + 1);
        int64_t dx = a->dx[i], dy = a->dy[i], px = a->x[i + 1], py = a->y[i + 1];
        row[0] += cross(b->x[0], b->y[0], dx, dy);
        marks[0] = 1;
        for (size_t j = 0; j < n; j++) {
            int64_t by_a = row[j + 1] + cross(b->x[j + 1], b->y[j + 1], dx, dy);
            int64_t by_b = row[j] + cross(px, py, b->dx[j], b->dy[j]);
            row[j + 1] = by_b <= by_a ? by_a : by_b;
            marks[j + 1] = (uint8_t)((by_b <= by_a) + 2 * (by_a <= by_b));
        }
    }
    return row[n];
}

int64_t twin_best(const int32_t *a, size_t m, const int32_t *b, size_t n, uint8_t *strip, uint8_t *work)
{
    struct outline oa, ob;
    if (!fit(a, m) || !fit(b, n))
        return INT64_MIN;
    outline(&oa, a, m);
    outline(&ob, b, n);
    int64_t value = twin_fill(&oa, m, &ob, n, work);
    back(m, n, strip, work);
    memset(work, 0, (m + 1) * (n + 1));
    return value;
}
