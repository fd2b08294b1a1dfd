/* Holds the entry points of include/register.h to own.h on random inputs, short and long, right and damaged. Every field of every answer is
 * compared, a refusal's too, which has nothing but its status. Every lent slice stands between guard bytes, and every byte of it is compared
 * after every call. Prints what was tried; stops at the first difference. */
#include "own.h"
#include "register.h"
#include <stdio.h>

#define GUARD 32
#define FILL 0xa5

static uint64_t state;

static uint64_t rnd(void) {
    state ^= state >> 12;
    state ^= state << 25;
    state ^= state >> 27;
    return state * 2685821657736338717ull;
}

static size_t below(size_t n) { return n ? rnd() % n : 0; }

static unsigned long tried;
static const char *what = "";

static void differ(const char *why) {
    printf("DIFFERENT after %lu calls, at %s: %s\n", tried, what, why);
    exit(1);
}

#define SAME(x, why)     \
    do {                 \
        if (!(x))        \
            differ(why); \
    } while (0)

/* counts of answers by number */
static unsigned long answers[16][101];
enum { JUDGE, JUDGE_STRIP, BEST, NEXT, LIST, STACK, BANDS, VOLUME, TRIANGLES, WRITE, READ, LISTING };
static const char *const names[] = {"judge",       "judge_strip", "best",      "next",  "list_best", "judge_stack",
                                    "best_strips", "volume",      "triangles", "write", "read",      "listing"};

_Static_assert(sizeof(struct register_status) == 16 && offsetof(struct register_status, place) == 8, "a status lies as the proofs have it");

/* what an answer begins with */
static void told(int entry, struct register_status status, struct own_answer due) {
    tried++;
    what = names[entry];
    SAME(status.number == due.number && status.place == due.place, "number or place");
    answers[entry][due.number]++;
}

/* ---- lent memory */

struct slice {
    uint8_t *all; /* guard, bytes, guard */
    uint8_t *at;
    uint8_t *was;
    size_t bytes;
};

static void lend(struct slice *s, size_t bytes) {
    s->bytes = bytes;
    s->all = malloc(bytes + 2 * GUARD);
    s->was = malloc(bytes + 1);
    memset(s->all, FILL, bytes + 2 * GUARD);
    s->at = s->all + GUARD;
    for (size_t k = 0; k < bytes; k++)
        s->at[k] = (uint8_t)rnd();
    memcpy(s->was, s->at, bytes);
}

/* from byte `from` on everything is as it was, and so are the guards */
static void kept(struct slice *s, size_t from, const char *why) {
    for (size_t k = 0; k < GUARD; k++)
        if (s->all[k] != FILL || s->all[GUARD + s->bytes + k] != FILL)
            differ(why);
    if (from < s->bytes && memcmp(s->at + from, s->was + from, s->bytes - from))
        differ(why);
}

static void give_back(struct slice *s) {
    free(s->all);
    free(s->was);
}

static int all_zero(const uint8_t *p, size_t n) {
    for (size_t k = 0; k < n; k++)
        if (p[k])
            return 0;
    return 1;
}

/* ---- random traces */

static int32_t turned_cos(size_t k, size_t n, int32_t r) {
    /* a rough circle of whole numbers: four straight sides, bent */
    double t = 6.283185307179586 * (double)k / (double)n, x = 1, term = 1;
    for (int i = 1; i < 14; i++) {
        term *= -t * t / ((2 * i - 1) * (2 * i));
        x += term;
    }
    return (int32_t)(x * r);
}

/* a trace of n points; sometimes at fault */
static size_t make_trace(int32_t *c, size_t n, int spoil) {
    int kind = (int)below(4);
    int32_t r = kind == 0 ? 100000 : kind == 1 ? 1000 : 5;
    if (n <= 6 && kind >= 2) {
        do
            for (size_t k = 0; k < 2 * n; k++)
                c[k] = (int32_t)below(7) - 3;
        while (!spoil && own_fault(c, 2 * n));
    } else {
        for (size_t k = 0; k < n; k++) {
            c[2 * k] = turned_cos(k, n, r);
            c[2 * k + 1] = turned_cos((k + n - n / 4) % n, n, r);
        }
        if (r == 5)
            for (size_t k = 0; k < 2 * n; k++)
                c[k] *= (int32_t)n;
    }
    if (spoil && below(3) == 0 && n > 0) {
        size_t k = below(n);
        switch (below(5)) {
        case 0: c[2 * k] = 100001; break;
        case 1: c[2 * k + 1] = INT32_MIN; break;
        case 2: c[2 * k] = c[2 * ((k + 1) % n)], c[2 * k + 1] = c[2 * ((k + 1) % n) + 1]; break;
        case 3:
            for (size_t i = 0; i < n / 2; i++)
                for (int v = 0; v < 2; v++) {
                    int32_t x = c[2 * i + v];
                    c[2 * i + v] = c[2 * (n - 1 - i) + v], c[2 * (n - 1 - i) + v] = x;
                }
            break;
        default: return 2 * n - 1;
        }
    }
    return 2 * n;
}

/* ---- a pair */

static struct own_list own;
static int32_t ca[1200], cb[1200];

static void try_judge(const int32_t *c, size_t len) {
    struct register_trace_answer r = register_judge(c, len);
    struct own_answer f = {own_fault(c, len), 0};
    told(JUDGE, r.status, f);
    SAME(r.area == (f.number ? 0 : own_area(c, len / 2)) && r.count == (f.number ? 0 : len / 2), "area or count");
}

static void try_judge_strip(size_t la, size_t lb, const uint8_t *s, size_t len) {
    struct register_answer r = register_judge_strip(ca, la, cb, lb, s, len);
    struct own_answer f = own_pair_fault(ca, la, cb, lb);
    if (f.number == 0 && !own_is_strip(s, len, la / 2, lb / 2))
        f.number = 9;
    told(JUDGE_STRIP, r.status, f);
    SAME(r.value == (f.number ? 0 : own_value(ca, la / 2, cb, lb / 2, s)), "the value");
}

/* a next one, from the bytes at the front; answers the number */
static unsigned try_next(size_t la, size_t lb, struct slice *strip, struct slice *work, int room) {
    size_t m = la / 2, n = lb / 2;
    memcpy(strip->was, strip->at, strip->bytes);
    memcpy(work->was, work->at, work->bytes);
    struct register_answer r = register_next(ca, la, cb, lb, strip->at, strip->bytes, work->at, work->bytes);
    struct own_answer f = own_pair_fault(ca, la, cb, lb);
    size_t here = own.count;
    if (f.number == 0 && !room)
        f.number = 8;
    if (f.number == 0 && !own_is_strip(strip->was, m + n, m, n))
        f.number = 9;
    if (f.number == 0) {
        for (here = 0; here < own.count; here++)
            if (memcmp(own.strips + here * (m + n), strip->was, m + n) == 0)
                break;
        f.number = here == own.count ? 10 : here + 1 == own.count ? 100 : 0;
    }
    told(NEXT, r.status, f);
    SAME(r.value == (f.number ? 0 : own.best), "the value");
    if (f.number == 0)
        SAME(memcmp(strip->at, own.strips + (here + 1) * (m + n), m + n) == 0, "the next strip");
    kept(strip, f.number == 0 ? m + n : 0, "bytes of the strip slice");
    if (f.number == 0 || f.number == 100)
        SAME(all_zero(work->at, (m + 1) * (n + 1)), "used work bytes");
    kept(work, f.number == 0 || f.number == 100 ? (m + 1) * (n + 1) : 0, "bytes of the work slice");
    return r.status.number;
}

/* `own` has all best strips, or more than the limit */
static void try_list(size_t la, size_t lb, size_t limit) {
    size_t m = la / 2, n = lb / 2;
    struct slice lines, work;
    int short_lines = below(9) == 0, short_work = below(9) == 0;
    lend(&lines, limit * (m + n) + below(5) - (short_lines && limit > 0 && m + n > 0));
    short_lines = lines.bytes < limit * (m + n);
    lend(&work, (m + 1) * (n + 1) - short_work + (short_work ? 0 : below(4)));
    struct register_run_answer r = register_list_best(ca, la, cb, lb, lines.at, lines.bytes, work.at, work.bytes, limit);
    struct own_answer f = own_pair_fault(ca, la, cb, lb);
    if (f.number == 0 && (short_lines || short_work))
        f.number = 8;
    told(LIST, r.status, f);
    size_t count = f.number ? 0 : own.count < limit ? own.count : limit, cells = f.number ? 0 : (m + 1) * (n + 1);
    SAME(r.value == (f.number ? 0 : own.best) && r.count == count, "value or count");
    SAME(r.more == (f.number == 0 && own.count > limit), "whether some remain");
    SAME(memcmp(lines.at, own.strips, count * (m + n)) == 0, "the strips");
    kept(&lines, count * (m + n), "bytes of the lines");
    SAME(all_zero(work.at, cells), "used work bytes");
    kept(&work, cells, "bytes of the work slice");
    give_back(&lines);
    give_back(&work);
}

static void try_pair(size_t m, size_t n, int spoil) {
    size_t la = make_trace(ca, m, spoil), lb = make_trace(cb, n, spoil);
    try_judge(ca, la);
    try_judge(cb, lb);
    struct own_answer f = own_pair_fault(ca, la, cb, lb);
    m = la / 2, n = lb / 2;
    int small = m + n <= 12;
    own.count = 0;
    if (f.number == 0) {
        if (small)
            own_best_by_listing(&own, ca, m, cb, n);
        else
            own_best_by_table(&own, ca, m, cb, n, 301);
    }
    struct slice strip, work;
    int short_strip = m + n > 0 && below(9) == 0, short_work = below(9) == 0;
    lend(&strip, m + n - short_strip + (short_strip ? 0 : below(4)));
    lend(&work, (m + 1) * (n + 1) - short_work + (short_work ? 0 : below(4)));
    struct register_answer r = register_best(ca, la, cb, lb, strip.at, strip.bytes, work.at, work.bytes);
    int room = !short_strip && !short_work;
    if (f.number == 0 && !room)
        f.number = 8;
    told(BEST, r.status, f);
    SAME(r.value == (f.number ? 0 : own.best), "the value");
    if (f.number == 0) {
        SAME(memcmp(strip.at, own.strips, m + n) == 0, "the strip");
        SAME(all_zero(work.at, (m + 1) * (n + 1)), "used work bytes");
    }
    kept(&strip, f.number ? 0 : m + n, "bytes of the strip slice");
    kept(&work, f.number ? 0 : (m + 1) * (n + 1), "bytes of the work slice");
    if (f.number == 0 && small) {
        size_t listed = 1;
        while (listed < 3000 && try_next(la, lb, &strip, &work, 1) == 0)
            listed++;
        SAME(listed == own.count || listed == 3000, "the list's length");
    } else {
        if (f.number == 0 && own.count > 1)
            try_next(la, lb, &strip, &work, 1);
        if (small)
            try_next(la, lb, &strip, &work, room);
    }
    if (f.number == 0 && small)
        for (int k = 0; k < 3; k++) {
            /* some strip or none, judged, and asked for its next */
            for (size_t i = 0; i < m + n; i++)
                strip.at[i] = i < m ? 0 : 1;
            for (size_t i = m + n; i-- > 1;) {
                size_t j = below(i + 1);
                uint8_t x = strip.at[i];
                strip.at[i] = strip.at[j], strip.at[j] = x;
            }
            if (below(4) == 0)
                strip.at[below(m + n)] = (uint8_t)below(3);
            try_judge_strip(la, lb, strip.at, below(6) ? m + n : m + n - 1);
            try_next(la, lb, &strip, &work, 1);
        }
    try_list(la, lb, below(small || f.number ? 12 : 300));
    give_back(&strip);
    give_back(&work);
}

/* ---- a stack */

static int32_t cs[12500];
static struct own_layer es[24];
static uint8_t ss[20000];
static uint32_t ts[40000];
static uint8_t contents[60000], file[60000], sealed[60000];

_Static_assert(sizeof(struct register_layer) == 24 && offsetof(struct register_layer, first) == 8 &&
                   offsetof(struct register_layer, count) == 16,
               "an entry lies as the proofs have it");

/* the layers as they are lent: of over 20, the others at random */
static struct slice entries;

static const struct register_layer *lend_layers(size_t layers) {
    lend(&entries, layers * sizeof(struct register_layer));
    struct register_layer *e = (struct register_layer *)entries.at;
    for (size_t k = 0; k < layers && k < 20; k++)
        e[k].plane = (int32_t)es[k].plane, e[k].first = es[k].first, e[k].count = es[k].count;
    memcpy(entries.was, entries.at, entries.bytes);
    return e;
}

static void told_of_layers(int entry, struct register_status status, struct own_answer due) {
    told(entry, status, due);
    kept(&entries, 0, "the lent layers");
}

/* random layers over cs; the number of coordinates */
static size_t make_stack(size_t layers, size_t most, int spoil) {
    size_t points = 0;
    int32_t plane = (int32_t)below(2000) - 1000;
    for (size_t k = 0; k < layers && k < 20; k++) {
        size_t n = 3 + below(most - 2);
        make_trace(cs + 2 * points, n, spoil && below(6) == 0);
        es[k].plane = plane, es[k].first = points, es[k].count = n;
        points += n;
        plane += 1 + (int32_t)below(50);
    }
    size_t len = 2 * points;
    struct own_layer *e = &es[below(layers < 20 ? layers : 20)];
    if (spoil && layers > 0)
        switch (below(7)) {
        case 0: e->plane = below(2) ? 100001 : -100001; break;
        case 1: e->plane = es[0].plane; break;
        case 2: e->first += 1 + below(3); break;
        case 3: e->count = below(2) ? SIZE_MAX : 0; break;
        case 4: len--; break;
        default: break;
        }
    return len;
}

static void random_strips(size_t layers) {
    size_t at = 0;
    for (size_t k = 0; k + 1 < layers; k++) {
        size_t m = es[k].count, n = es[k + 1].count;
        for (size_t i = 0; i < m + n; i++)
            ss[at + i] = i >= m;
        for (size_t i = m + n; i-- > 1;) {
            size_t j = below(i + 1);
            uint8_t x = ss[at + i];
            ss[at + i] = ss[at + j], ss[at + j] = x;
        }
        at += m + n;
    }
}

static void try_bands(const struct register_layer *st, size_t layers, size_t len, struct own_answer f) {
    size_t steps = f.number ? 40 : own_steps(es, layers), most = 0;
    for (size_t k = 0; f.number == 0 && k + 1 < layers; k++)
        if ((es[k].count + 1) * (es[k + 1].count + 1) > most)
            most = (es[k].count + 1) * (es[k + 1].count + 1);
    struct slice strips, work;
    int short_strips = below(9) == 0, short_work = below(9) == 0;
    lend(&strips, steps - short_strips);
    lend(&work, f.number ? 60 : most - short_work);
    struct register_steps_answer r = register_best_strips(st, layers, cs, len, strips.at, strips.bytes, work.at, work.bytes);
    if (f.number == 0 && (short_strips || short_work))
        f.number = 8;
    told_of_layers(BANDS, r.status, f);
    SAME(r.steps == (f.number ? 0 : steps), "the number of steps");
    if (f.number == 0) {
        size_t at = 0;
        for (size_t k = 0; k + 1 < layers; k++) {
            own_best_by_table(&own, cs + 2 * es[k].first, es[k].count, cs + 2 * es[k + 1].first, es[k + 1].count, 1);
            SAME(memcmp(strips.at + at, own.strips, es[k].count + es[k + 1].count) == 0, "a band's strip");
            at += es[k].count + es[k + 1].count;
        }
        SAME(all_zero(work.at, most), "used work bytes");
    }
    kept(&strips, f.number ? 0 : steps, "bytes of the strips");
    kept(&work, f.number ? 0 : most, "bytes of the work slice");
    give_back(&strips);
    give_back(&work);
}

static void try_triangles(const struct register_layer *st, size_t layers, size_t len, struct own_answer f, size_t steps) {
    struct own_answer g = f;
    if (g.number == 0)
        g = own_strips_fault(es, layers, ss, steps);
    struct register_answer v = register_volume(st, layers, cs, len, ss, steps);
    told_of_layers(VOLUME, v.status, g);
    size_t t = g.number ? 0 : own_triangles(es, layers, ss, ts);
    __int128 six = g.number ? 0 : own_six(es, layers, cs, ts, t);
    SAME(v.value == six, "six times the volume");
    size_t count = f.number ? 0 : own_steps(es, layers) + es[0].count - 2 + es[layers - 1].count - 2;
    int short_out = f.number == 0 && below(9) == 0;
    struct slice out;
    lend(&out, 4 * (3 * count - short_out + (short_out ? 0 : below(4))));
    struct register_mesh_answer r = register_triangles(st, layers, cs, len, ss, steps, (uint32_t *)out.at, out.bytes / 4);
    if (f.number == 0 && short_out)
        g.number = 8, g.place = 0;
    told_of_layers(TRIANGLES, r.status, g);
    SAME(r.triangles == (g.number ? 0 : t) && r.six == (g.number ? 0 : six), "triangles or six times the volume");
    SAME(g.number || (t == count && memcmp(out.at, ts, 12 * t) == 0), "the closed list");
    kept(&out, g.number ? 0 : 12 * count, "numbers of the list");
    give_back(&out);
}

static void same_read(const uint8_t *f, size_t len);

static void try_file(const struct register_layer *st, size_t layers, size_t len, struct own_answer f, size_t steps) {
    struct own_answer g = f;
    if (g.number == 0)
        g = own_strips_fault(es, layers, ss, steps);
    size_t bytes = f.number ? 0 : 2 + 6 * layers + 4 * len + own_steps(es, layers), blocks = (bytes + 507) / 508;
    int short_out = f.number == 0 && below(9) == 0;
    struct slice out;
    lend(&out, f.number ? below(2000) : 512 * blocks - short_out + (short_out ? 0 : below(700)));
    struct register_bytes_answer r = register_write(st, layers, cs, len, ss, steps, out.at, out.bytes);
    if (f.number == 0 && short_out)
        g.number = 8, g.place = 0;
    told_of_layers(WRITE, r.status, g);
    SAME(r.bytes == (g.number ? 0 : 512 * blocks), "the number of bytes");
    kept(&out, g.number ? 0 : 512 * blocks, "bytes of the file's slice");
    if (g.number == 0) {
        struct own_bytes k = {contents, 0}, o = {file, 0};
        own_contents(&k, es, layers, cs, ss);
        own_seal(&o, contents, k.len, blocks);
        SAME(o.len == r.bytes && memcmp(out.at, file, o.len) == 0, "the file");
        same_read(file, o.len);
        for (int t = 0; t < 12; t++) {
            /* damaged: as it is, or with right checks again */
            size_t n = o.len;
            memcpy(sealed, file, n);
            if (t < 5) {
                size_t i = below(n);
                sealed[i] = (uint8_t)(sealed[i] + 1 + below(255));
            } else if (t == 5) {
                n = below(3) ? n - 1 - below(n - 1) : 0;
            } else {
                struct own_bytes again = {sealed, 0};
                size_t l = k.len;
                static uint8_t other[60000];
                memset(other, 0, sizeof other);
                memcpy(other, contents, l);
                for (size_t q = 1 + below(2); q-- > 0;) {
                    size_t i = below(3) ? below(l) : below(60 < l ? 60 : l);
                    other[i] = below(2) ? (uint8_t)rnd() : (uint8_t)below(3);
                }
                if (t == 10)
                    other[0] = (uint8_t)(below(2) ? below(2) : 21 + below(235)), other[1] = (uint8_t)(below(2) ? below(256) : 0);
                if (t == 6 && 508 * blocks > l)
                    other[l + below(508 * blocks - l)] = 1;
                size_t b = blocks + (t == 7) + (t == 8 ? 90 : 0);
                if (t == 9 && blocks > 1)
                    b--;
                if (b > 110)
                    b = 110;
                own_seal(&again, other, l < 508 * b ? 508 * b : l, b);
                n = again.len;
            }
            same_read(sealed, n);
        }
    }
    give_back(&out);
}

static void same_read(const uint8_t *f, size_t len) {
    static struct own_read want;
    static int32_t wanted[60000];
    static uint8_t opened[60000];
    want.c = wanted;
    own_read(&want, f, len, opened);
    struct slice lent[3]; /* entries, coordinates, strips */
    const size_t width[3] = {sizeof(struct register_layer), 4, 1};
    size_t need[3] = {want.layers, 2 * want.points, want.steps};
    int shortened = below(6) == 0 ? (int)below(3) : -1, room = 1;
    for (int k = 0; k < 3; k++) {
        size_t n = want.refused.number ? below(30) : need[k] + (below(5) ? below(3) : 20 + below(9));
        if (want.refused.number == 0 && shortened == k && need[k] > 0)
            n = below(3) ? need[k] - 1 : 0, room = 0;
        lend(&lent[k], n * width[k]);
    }
    struct register_layer *read = (struct register_layer *)lent[0].at;
    struct register_file_answer r = register_read(f, len, read, lent[0].bytes / width[0], (int32_t *)lent[1].at, lent[1].bytes / 4,
                                                  lent[2].at, lent[2].bytes);
    struct own_answer g = want.refused;
    if (g.number == 0 && !room)
        g.number = 8;
    if (g.number == 0)
        g = want.strip;
    told(READ, r.status, g);
    SAME(r.layers == (g.number ? 0 : want.layers), "the number of layers");
    SAME(r.points == (g.number ? 0 : want.points) && r.steps == (g.number ? 0 : want.steps), "points or steps");
    for (int k = 0; k < 3; k++)
        kept(&lent[k], g.number ? 0 : need[k] * width[k], "what is lent for reading");
    if (g.number == 0) {
        for (size_t k = 0; k < want.layers; k++)
            SAME(read[k].plane == want.es[k].plane && read[k].first == want.es[k].first && read[k].count == want.es[k].count, "an entry");
        SAME(memcmp(lent[1].at, wanted, 8 * want.points) == 0 && memcmp(lent[2].at, want.s, want.steps) == 0, "coordinates or steps");
    }
    for (int k = 0; k < 3; k++)
        give_back(&lent[k]);
}

static void try_stack(size_t most, int spoil) {
    size_t layers = below(12) ? 2 + below(below(8) ? 3 : 19) : below(2) ? 21 + below(below(2) ? 3 : 1000) : below(2);
    size_t len = make_stack(layers, most, spoil);
    const struct register_layer *st = lend_layers(layers);
    struct own_answer f = own_stack_fault(es, layers, cs, len);
    struct register_stack_answer r = register_judge_stack(st, layers, cs, len);
    told_of_layers(STACK, r.status, f);
    SAME(r.points == (f.number ? 0 : len / 2) && r.steps == (f.number ? 0 : own_steps(es, layers)), "points or steps");
    size_t steps = 30;
    if (f.number == 0) {
        steps = own_steps(es, layers);
        random_strips(layers);
        if (below(5) == 0)
            ss[below(steps)] = (uint8_t)below(3);
        if (below(8) == 0)
            steps--;
    }
    try_bands(st, layers, len, f);
    try_triangles(st, layers, len, f, steps);
    try_file(st, layers, len, f, steps);
    give_back(&entries);
}

/* ---- the listing */

static char text[70000], printed[600000];

static size_t put_number(char *p, int64_t v) {
    size_t n = (size_t)sprintf(p, "%s%s%lld", v < 0 ? "-" : "", below(9) == 0 ? "000" : "", (long long)(v < 0 ? -v : v));
    for (size_t k = 1 + below(3); k-- > 0;)
        p[n++] = below(3) ? ' ' : '\n';
    return n;
}

static void try_listing(size_t m, size_t n, int spoil) {
    size_t la = make_trace(ca, m, spoil), lb = make_trace(cb, n, spoil), t = 0;
    la -= la % 2, lb -= lb % 2;
    int64_t lower = (int64_t)below(2000) - 1000, upper = lower + (int64_t)below(30) - (spoil ? 3 : -1);
    if (spoil && below(9) == 0)
        upper = 100001;
    t += put_number(text + t, lower);
    t += put_number(text + t, (int64_t)(la / 2));
    for (size_t k = 0; k < la; k++)
        t += put_number(text + t, ca[k]);
    t += put_number(text + t, upper);
    t += put_number(text + t, (int64_t)(lb / 2));
    for (size_t k = 0; k < lb; k++)
        t += put_number(text + t, cb[k]);
    int unread = 0;
    if (spoil && below(4) == 0) {
        static const char odd[] = "x+.\t\r,";
        size_t k = below(t);
        text[k] = odd[below(6)];
        unread = 1;
    } else if (spoil && below(6) == 0) {
        t += put_number(text + t, 7);
        unread = 1;
    }
    size_t w = 0;
    struct own_answer f = own_pair_fault(ca, la, cb, lb);
    if (unread)
        f.number = 13, f.place = 0;
    else if (f.number == 0 && (upper > 100000 || upper <= lower))
        f.number = 7, f.place = 1;
    if (f.number) {
        w = (size_t)sprintf(printed, "refused %d %zu\n", f.number, f.place);
    } else {
        size_t steps = la / 2 + lb / 2;
        own_best_by_table(&own, ca, la / 2, cb, lb / 2, 1001);
        int64_t areas = own_area(ca, la / 2) + own_area(cb, lb / 2);
        w = (size_t)sprintf(printed, "%lld %lld\n", (long long)own.best, (long long)((upper - lower) * (2 * areas + own.best) / 2));
        for (size_t k = 0; k < own.count && k < 1000; k++) {
            for (size_t i = 0; i < steps; i++)
                printed[w++] = own.strips[k * steps + i] ? 'B' : 'A';
            printed[w++] = '\n';
        }
        w += (size_t)sprintf(printed + w, own.count > 1000 ? "more\n" : "end\n");
    }
    /* a refusal of the text is printed, and the answer is 0 then too */
    struct slice out;
    f.number = below(9) ? 0 : 8, f.place = 0;
    lend(&out, f.number ? 501046 - below(3) * below(501047) / 2 : 501047 + below(3));
    struct register_bytes_answer r = register_listing((const uint8_t *)text, t, out.at, out.bytes);
    told(LISTING, r.status, f);
    w = f.number ? 0 : w;
    SAME(r.bytes == w && memcmp(out.at, printed, w) == 0, "the text");
    kept(&out, w, "bytes behind the text");
    give_back(&out);
}

int main(int argc, char **argv) {
    state = 88172645463325252ull ^ (argc > 1 ? strtoull(argv[1], 0, 10) * 0x9e3779b97f4a7c15ull : 0);
    unsigned long pairs = argc > 2 ? strtoul(argv[2], 0, 10) : 100000;
    own.strips = malloc((size_t)MOST_STRIPS * 520);
    for (unsigned long k = 0; k < pairs; k++) {
        int spoil = below(3) == 0;
        try_pair(3 + below(4) - (spoil && below(9) == 0 ? 1 + below(3) : 0), 3 + below(3), spoil);
        if (k % 50 == 0)
            try_pair(3 + below(60), 3 + below(60), spoil);
        if (k % 2000 == 0)
            try_pair(249 + below(3), 249 + below(3), spoil);
        if (k % 10 == 0)
            try_stack(k % 100 == 0 ? 30 : 6, spoil);
        if (k % 50 == 0)
            try_listing(3 + below(k % 500 == 0 ? 40 : 4), 3 + below(4), spoil);
    }
    printf("seed %s, %lu pairs, %lu calls, every answer and every lent byte as expected\n", argc > 1 ? argv[1] : "0", pairs, tried);
    for (int e = 0; e <= LISTING; e++) {
        printf("%-12s", names[e]);
        for (int k = 0; k <= 100; k++)
            if (answers[e][k])
                printf(" %d:%lu", k, answers[e][k]);
        printf("\n");
    }
    return 0;
}
