/* A second implementation of 01, written from the paper alone: strips by listing all of them, volumes by determinants, file bytes by
 * appending. It is slow and plain on purpose, and shares nothing with the software that it is held against. */
#ifndef OWN_H
#define OWN_H

#include <stdint.h>
#include <stdlib.h>
#include <string.h>

#define MOST_STRIPS 20000

struct own_answer {
    int number;
    size_t place;
};

struct own_layer {
    int64_t plane;
    size_t first;
    size_t count;
};

/* ---- traces */

static int64_t own_area(const int32_t *c, size_t n) {
    int64_t sum = 0;
    for (size_t i = 0; i < n; i++) {
        size_t j = i + 1 == n ? 0 : i + 1;
        sum += (int64_t)c[2 * i] * c[2 * j + 1] - (int64_t)c[2 * j] * c[2 * i + 1];
    }
    return sum;
}

/* 1 to 6, or 0 */
static int own_fault(const int32_t *c, size_t len) {
    if (len % 2 == 1)
        return 1;
    size_t n = len / 2;
    if (n < 3)
        return 2;
    if (n > 250)
        return 3;
    for (size_t k = 0; k < len; k++)
        if (c[k] < -100000 || c[k] > 100000)
            return 4;
    for (size_t i = 0; i < n; i++) {
        size_t j = (i + 1) % n;
        if (c[2 * i] == c[2 * j] && c[2 * i + 1] == c[2 * j + 1])
            return 5;
    }
    return own_area(c, n) > 0 ? 0 : 6;
}

static struct own_answer own_pair_fault(const int32_t *a, size_t la, const int32_t *b, size_t lb) {
    struct own_answer r = {own_fault(a, la), 0};
    if (r.number == 0) {
        r.number = own_fault(b, lb);
        r.place = r.number ? 1 : 0;
    }
    return r;
}

/* ---- strips */

/* the worth of one step from (i, j) */
static int64_t own_worth(const int32_t *a, size_t m, const int32_t *b, size_t n, size_t i, size_t j, int step) {
    const int32_t *p = a + 2 * (i % m), *q = b + 2 * (j % n);
    if (step == 0) {
        const int32_t *p1 = a + 2 * ((i + 1) % m);
        return (int64_t)q[0] * (p1[1] - p[1]) - (int64_t)q[1] * (p1[0] - p[0]);
    }
    const int32_t *q1 = b + 2 * ((j + 1) % n);
    return (int64_t)p[0] * (q1[1] - q[1]) - (int64_t)p[1] * (q1[0] - q[0]);
}

static int64_t own_value(const int32_t *a, size_t m, const int32_t *b, size_t n, const uint8_t *s) {
    int64_t w = 0;
    size_t i = 0, j = 0;
    for (size_t k = 0; k < m + n; k++) {
        w += own_worth(a, m, b, n, i, j, s[k]);
        if (s[k] == 0)
            i++;
        else
            j++;
    }
    return w;
}

static int own_is_strip(const uint8_t *s, size_t len, size_t m, size_t n) {
    size_t as = 0, bs = 0;
    for (size_t k = 0; k < len; k++) {
        if (s[k] > 1)
            return 0;
        as += s[k] == 0;
        bs += s[k] == 1;
    }
    return as == m && bs == n;
}

/* all strips, from the last step back, A before B: 01's order */
struct own_list {
    size_t m, n, count;
    int64_t best;
    uint8_t *strips;
    uint8_t at[1024];
    const int32_t *a, *b;
};

static void own_all(struct own_list *l, size_t i, size_t j, int filling) {
    if (i == 0 && j == 0) {
        int64_t w = own_value(l->a, l->m, l->b, l->n, l->at);
        if (!filling) {
            if (l->count == 0 || w > l->best)
                l->best = w;
            l->count++;
        } else if (w == l->best && l->count < MOST_STRIPS) {
            memcpy(l->strips + l->count * (l->m + l->n), l->at, l->m + l->n);
            l->count++;
        }
        return;
    }
    if (i > 0) {
        l->at[i + j - 1] = 0;
        own_all(l, i - 1, j, filling);
    }
    if (j > 0) {
        l->at[i + j - 1] = 1;
        own_all(l, i, j - 1, filling);
    }
}

/* the number of all strips; the best ones in order */
static size_t own_best_by_listing(struct own_list *l, const int32_t *a, size_t m, const int32_t *b, size_t n) {
    l->a = a, l->b = b, l->m = m, l->n = n, l->count = 0, l->best = 0;
    own_all(l, m, n, 0);
    size_t all = l->count;
    l->count = 0;
    own_all(l, m, n, 1);
    return all;
}

/* for longer traces: the greatest value of every way on from (i, j), backwards from the end, then the best strips by walking forward
 * is not 01's order; so the greatest value up to (i, j), and the walk from the end */
static int64_t own_top[251][251];

static void own_tops(const int32_t *a, size_t m, const int32_t *b, size_t n) {
    for (size_t i = 0; i <= m; i++)
        for (size_t j = 0; j <= n; j++) {
            int have = 0;
            int64_t v = 0;
            if (i > 0) {
                v = own_top[i - 1][j] + own_worth(a, m, b, n, i - 1, j, 0);
                have = 1;
            }
            if (j > 0) {
                int64_t w = own_top[i][j - 1] + own_worth(a, m, b, n, i, j - 1, 1);
                if (!have || w > v)
                    v = w;
            }
            own_top[i][j] = v;
        }
}

static void own_some(struct own_list *l, size_t i, size_t j, size_t limit) {
    if (l->count >= limit)
        return;
    if (i == 0 && j == 0) {
        memcpy(l->strips + l->count * (l->m + l->n), l->at, l->m + l->n);
        l->count++;
        return;
    }
    if (i > 0 && own_top[i][j] == own_top[i - 1][j] + own_worth(l->a, l->m, l->b, l->n, i - 1, j, 0)) {
        l->at[i + j - 1] = 0;
        own_some(l, i - 1, j, limit);
    }
    if (j > 0 && own_top[i][j] == own_top[i][j - 1] + own_worth(l->a, l->m, l->b, l->n, i, j - 1, 1)) {
        l->at[i + j - 1] = 1;
        own_some(l, i, j - 1, limit);
    }
}

static void own_best_by_table(struct own_list *l, const int32_t *a, size_t m, const int32_t *b, size_t n, size_t limit) {
    l->a = a, l->b = b, l->m = m, l->n = n, l->count = 0;
    own_tops(a, m, b, n);
    l->best = own_top[m][n];
    own_some(l, m, n, limit);
}

/* ---- stacks */

static struct own_answer own_stack_fault(const struct own_layer *es, size_t layers, const int32_t *c, size_t len) {
    struct own_answer r = {0, 0};
    if (layers < 2 || layers > 20) {
        r.number = 11;
        return r;
    }
    if (len % 2 == 1) {
        r.number = 1;
        return r;
    }
    for (size_t k = 0; k < layers; k++) {
        unsigned __int128 want = k == 0 ? 0 : (unsigned __int128)es[k - 1].first + es[k - 1].count;
        unsigned __int128 end = (unsigned __int128)es[k].first + es[k].count;
        if (es[k].first != want || (k + 1 == layers && end != len / 2)) {
            r.number = 12;
            r.place = k;
            return r;
        }
    }
    for (size_t k = 0; k < layers; k++) {
        int f = own_fault(c + 2 * es[k].first, 2 * es[k].count);
        if (f) {
            r.number = f;
            r.place = k;
            return r;
        }
    }
    for (size_t k = 0; k < layers; k++)
        if (es[k].plane < -100000 || es[k].plane > 100000 || (k > 0 && es[k].plane <= es[k - 1].plane)) {
            r.number = 7;
            r.place = k;
            return r;
        }
    return r;
}

static size_t own_steps(const struct own_layer *es, size_t layers) {
    size_t sum = 0;
    for (size_t k = 0; k + 1 < layers; k++)
        sum += es[k].count + es[k + 1].count;
    return sum;
}

static struct own_answer own_strips_fault(const struct own_layer *es, size_t layers, const uint8_t *s, size_t len) {
    struct own_answer r = {0, 0};
    if (layers < 2 || layers > 20) {
        r.number = 11;
        return r;
    }
    if (len != own_steps(es, layers)) {
        r.number = 9;
        return r;
    }
    for (size_t k = 0; k + 1 < layers; k++) {
        size_t part = es[k].count + es[k + 1].count;
        if (!own_is_strip(s, part, es[k].count, es[k + 1].count)) {
            r.number = 9;
            r.place = k;
            return r;
        }
        s += part;
    }
    return r;
}

/* the closed triangle list; the number of triangles */
static size_t own_triangles(const struct own_layer *es, size_t layers, const uint8_t *s, uint32_t *out) {
    size_t t = 0;
#define PUT(x, y, z) (out[3 * t] = (uint32_t)(x), out[3 * t + 1] = (uint32_t)(y), out[3 * t + 2] = (uint32_t)(z), t++)
    for (size_t k = 0; k + 1 < layers; k++) {
        size_t f = es[k].first, m = es[k].count, g = es[k + 1].first, n = es[k + 1].count, i = 0, j = 0;
        for (size_t q = 0; q < m + n; q++) {
            if (*s++ == 0) {
                PUT(f + i % m, f + (i + 1) % m, g + j % n);
                i++;
            } else {
                PUT(f + i % m, g + (j + 1) % n, g + j % n);
                j++;
            }
        }
    }
    for (size_t k = 1; k + 1 < es[0].count; k++)
        PUT(es[0].first, es[0].first + k + 1, es[0].first + k);
    const struct own_layer *top = es + layers - 1;
    for (size_t k = 1; k + 1 < top->count; k++)
        PUT(top->first, top->first + k, top->first + k + 1);
#undef PUT
    return t;
}

/* six times the volume, triangle by triangle */
static __int128 own_six(const struct own_layer *es, size_t layers, const int32_t *c, const uint32_t *t, size_t count) {
    __int128 sum = 0;
    for (size_t k = 0; k < count; k++) {
        __int128 x[3], y[3], z[3];
        for (int v = 0; v < 3; v++) {
            uint32_t p = t[3 * k + v];
            size_t e = 0;
            while (e < layers && p >= es[e].first + es[e].count)
                e++;
            x[v] = c[2 * p], y[v] = c[2 * p + 1], z[v] = es[e].plane;
        }
        sum += x[0] * (y[1] * z[2] - y[2] * z[1]) + y[0] * (z[1] * x[2] - z[2] * x[1]) + z[0] * (x[1] * y[2] - x[2] * y[1]);
    }
    return sum;
}

/* ---- the register file */

struct own_bytes {
    uint8_t *at;
    size_t len;
};

static void own_low_first(struct own_bytes *o, uint64_t v, int bytes) {
    for (int k = 0; k < bytes; k++)
        o->at[o->len++] = (uint8_t)(v >> (8 * k));
}

static void own_contents(struct own_bytes *o, const struct own_layer *es, size_t layers, const int32_t *c, const uint8_t *s) {
    own_low_first(o, layers, 2);
    for (size_t k = 0; k < layers; k++) {
        own_low_first(o, (uint32_t)es[k].plane, 4);
        own_low_first(o, es[k].count, 2);
        for (size_t i = 0; i < 2 * es[k].count; i++)
            own_low_first(o, (uint32_t)c[2 * es[k].first + i], 4);
    }
    memcpy(o->at + o->len, s, own_steps(es, layers));
    o->len += own_steps(es, layers);
}

static unsigned own_check(const uint8_t *block, size_t b) {
    uint64_t sum = b + 1;
    for (size_t k = 0; k < 508; k++)
        sum += (k + 1) * block[k];
    return (unsigned)(sum % 65521);
}

/* contents in blocks; at least as many as are asked for */
static void own_seal(struct own_bytes *o, const uint8_t *contents, size_t len, size_t blocks) {
    for (size_t b = 0; b < blocks; b++) {
        uint8_t *block = o->at + o->len;
        memset(block, 0, 512);
        for (size_t k = 0; k < 508 && 508 * b + k < len; k++)
            block[k] = contents[508 * b + k];
        unsigned v = own_check(block, b);
        block[508] = (uint8_t)(v % 256);
        block[509] = (uint8_t)(v / 256);
        o->len += 512;
    }
}

struct own_read {
    struct own_answer refused; /* number 0 if none; 8 is not looked for here */
    struct own_answer strip;   /* what follows ROOM */
    size_t layers, points, steps;
    struct own_layer es[20];
    int32_t *c; /* room for 12,500 numbers */
    const uint8_t *s;
};

static uint64_t own_number(const uint8_t *p, int bytes) {
    uint64_t v = 0;
    for (int k = bytes; k-- > 0;)
        v = v << 8 | p[k];
    return v;
}

static void own_read(struct own_read *r, const uint8_t *f, size_t len, uint8_t *contents) {
    r->refused.number = 0, r->refused.place = 0, r->strip.number = 0, r->strip.place = 0;
    size_t blocks = len / 512;
    if (len == 0 || len % 512 || blocks > 98) {
        r->refused.number = 14;
        return;
    }
    for (size_t b = 0; b < blocks; b++) {
        const uint8_t *p = f + 512 * b;
        if (own_number(p + 508, 2) != own_check(p, b) || p[510] || p[511]) {
            r->refused.number = 15;
            r->refused.place = b;
            return;
        }
        memcpy(contents + 508 * b, p, 508);
    }
    size_t long_ = 508 * blocks, at = 2, points = 0;
    r->layers = own_number(contents, 2);
    if (r->layers < 2 || r->layers > 20) {
        r->refused.number = 11;
        return;
    }
    r->refused.number = 16;
    for (size_t k = 0; k < r->layers; k++) {
        if (at + 6 > long_)
            return;
        r->es[k].plane = (int32_t)(uint32_t)own_number(contents + at, 4);
        r->es[k].count = own_number(contents + at + 4, 2);
        r->es[k].first = points;
        at += 6;
        if (at + 8 * r->es[k].count > long_)
            return;
        for (size_t i = 0; i < 2 * r->es[k].count; i++, at += 4)
            r->c[2 * points + i] = (int32_t)(uint32_t)own_number(contents + at, 4);
        points += r->es[k].count;
    }
    r->points = points;
    r->steps = own_steps(r->es, r->layers);
    r->s = contents + at;
    at += r->steps;
    if (at > long_ || at + 508 <= long_)
        return;
    for (size_t k = at; k < long_; k++)
        if (contents[k])
            return;
    r->refused = own_stack_fault(r->es, r->layers, r->c, 2 * points);
    if (r->refused.number == 0)
        r->strip = own_strips_fault(r->es, r->layers, r->s, r->steps);
}

#endif
