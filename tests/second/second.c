/* The second program: draws pairs and stacks, and works out by own.h what each call must answer and leave in lent memory. It writes rows for
 * crates/rows: their text, which has the stacks in full and of the pairs only how many points they have, since crates/rows draws the same
 * ones; and what must come. It calls nothing of the software that is held against it. */
#include "../outside/own.h"
#include <stdio.h>

#define GUARD 9

/* ---- the sum */

static uint64_t sum;

static void fold(uint64_t n) {
    const uint64_t prime = 1000000000039u;
    sum = (sum * 1000003u + n % prime) % prime;
}

static void fold_signed(int64_t v) {
    if (v < 0)
        fold(1);
    fold((uint64_t)(v < 0 ? ~v : v));
}

static void fold_bytes(const uint8_t *p, size_t n) {
    for (size_t k = 0; k < n; k++)
        fold(p[k]);
}

/* so many times the guard */
static void fold_guard(size_t n) {
    for (size_t k = 0; k < n; k++)
        fold(GUARD);
}

static unsigned long due[17], none_left;

static void fold_refusal(struct own_answer r) {
    due[r.number]++;
    fold((uint64_t)r.number);
    fold(r.place);
}

static struct own_answer refusal(int number, size_t place) {
    struct own_answer r = {number, place};
    return r;
}

/* ---- what is drawn */

static uint64_t another(uint64_t seed) { return (seed % 2147483648u * 1103515245u + 12345u) % 2147483648u; }

static size_t by_seed(uint64_t seed, size_t n) { return n == 0 ? 0 : seed / 65536 % n; }

static void fill(int32_t *c, size_t len, uint64_t seed, int32_t most) {
    for (size_t k = 0; k < len; k++) {
        seed = another(seed);
        c[k] = (int32_t)(seed / 65536 % (uint64_t)(2 * most + 1)) - most;
    }
}

static void fold_trace(const int32_t *c, size_t len) {
    int f = own_fault(c, len);
    fold((uint64_t)f);
    if (f) {
        due[f]++;
        return;
    }
    fold_signed(own_area(c, len / 2));
    fold(len / 2);
}

/* ---- pairs */

static struct own_list own;

/* what a call leaves that writes a strip of so many steps into a slice of `room`, and zeros so many work bytes of 64 */
static void fold_found(const uint8_t *strip, size_t steps, size_t room, size_t cells) {
    fold_bytes(strip, steps);
    fold_guard(room - steps);
    for (size_t k = 0; k < 64; k++)
        fold(k < cells ? 0 : GUARD);
}

static size_t listed, refused, strips;

static void pair(size_t m, size_t n, uint64_t seed) {
    int32_t c[24];
    fill(c, 24, seed, seed % 2 ? 3 : 1);
    const int32_t *a = c, *b = c + 2 * m;
    size_t steps = m + n, cells = (m + 1) * (n + 1);
    fold_trace(a, 2 * m);
    fold_trace(b, 2 * n);
    struct own_answer f = own_pair_fault(a, 2 * m, b, 2 * n);
    fold_refusal(f.number ? f : refusal(8, 0));
    fold_guard(steps - 1 + 64);
    if (f.number) {
        refused++;
        /* best, the next one, and the list */
        for (int k = 0; k < 3; k++) {
            fold_refusal(f);
            fold_guard((k < 2 ? 16 : 150) + 64);
        }
        return;
    }
    size_t all = own_best_by_listing(&own, a, m, b, n);
    strips = all;
    listed += own.count;
    for (size_t k = 0; k < own.count; k++) {
        fold(0);
        fold_signed(own.best);
        fold_found(own.strips + k * steps, steps, 16, cells);
    }
    none_left++;
    fold(100);
    fold_found(own.strips + (own.count - 1) * steps, steps, 16, cells);
    size_t lines = own.count < 12 ? own.count : 12;
    fold(0);
    fold_signed(own.best);
    fold(lines);
    if (own.count > 12)
        fold(1);
    fold_found(own.strips, lines * steps, 150, cells);
    for (size_t number = 0; number >> steps == 0; number++) {
        uint8_t s[12];
        for (size_t k = 0; k < steps; k++)
            s[k] = number >> k & 1;
        if (own_is_strip(s, steps, m, n))
            fold_signed(own_value(a, m, b, n, s));
        else
            fold_refusal(refusal(9, 0));
    }
}

/* ---- stacks */

static uint8_t file[3200];

struct drawn {
    struct own_layer es[21];
    size_t layers, numbers;
    int32_t c[800];
};

static size_t points_for(int kind, int last, uint64_t seed) {
    switch (kind) {
    case 0: return by_seed(seed, 61) == 0 ? 2 : 3 + by_seed(seed, 3);
    case 1: return 3 + by_seed(seed, 2);
    default: return kind == 3 && last ? 250 + by_seed(seed, 2) : 10 + by_seed(seed, 31);
    }
}

static void draw(struct drawn *d, size_t layers, int kind, uint64_t seed) {
    size_t points = 0;
    memset(d, 0, sizeof *d);
    for (size_t k = 0; k < layers && k < 20; k++) {
        seed = another(another(seed));
        struct own_layer *e = &d->es[k];
        e->plane = (int64_t)(280 + 3 * k + seed / 65536 % 3) - 300;
        e->first = points;
        e->count = points_for(kind, k + 1 == layers, another(seed));
        uint64_t next = another(seed);
        for (int draws = by_seed(next, 16) == 0 ? 1 : 60; draws-- > 0;) {
            next = another(next);
            fill(d->c + 2 * points, 2 * e->count, next, kind > 1 ? 300 : next % 2 ? 3 : 1);
            if (own_fault(d->c + 2 * points, 2 * e->count) == 0)
                break;
        }
        points += e->count;
    }
    d->layers = layers;
    d->numbers = 2 * points;
}

static void alter(struct drawn *d, uint64_t seed) {
    size_t k = by_seed(another(seed), d->layers), which = by_seed(seed, 48);
    if (which == 8)
        d->layers = by_seed(another(another(seed)), 2);
    if (k >= 20)
        return;
    struct own_layer *e = &d->es[k];
    switch (which) {
    case 0: e->first++; break;
    case 1: e->first -= e->first > 0; break;
    case 2: e->count++; break;
    case 3: e->count -= e->count > 0; break;
    case 4: e->plane = 100001; break;
    case 5: e->plane = -100001; break;
    case 6:
    case 7: e->plane = d->es[k ? k - 1 : 0].plane; break;
    }
}

static void spoil(struct drawn *d, uint64_t seed) {
    static const int32_t to[] = {100001, -100001, 100000, -100000};
    size_t which = by_seed(seed, 40);
    if (which < 4 && d->numbers)
        d->c[by_seed(another(seed), d->numbers)] = to[which];
}

static void hand(struct drawn *d, uint64_t seed) {
    switch (by_seed(seed, 60)) {
    case 0: d->numbers -= d->numbers > 0; break;
    case 1: d->numbers -= d->numbers > 1 ? 2 : d->numbers; break;
    case 2: d->numbers++; break;
    case 3: d->numbers += 2; break;
    }
}

/* ---- rows of stacks: the text with its commands, and what must come */

static FILE *text, *come;

#define BOTH(...) (fprintf(text, __VA_ARGS__), fprintf(come, __VA_ARGS__))

static void say_refusal(struct own_answer r) {
    due[r.number]++;
    fprintf(come, " refused %d %zu", r.number, r.place);
}

static void say_hand(const struct drawn *d) {
    fprintf(text, "[coords 0\n");
    size_t points = 0;
    if (d->layers == 0)
        fprintf(text, "layer 20 0 0 0 0\n");
    for (size_t k = 0; k < d->layers && k < 20; k++)
        fprintf(text, "layer %zu %lld %zu %zu %zu%s", k, (long long)d->es[k].plane, d->es[k].first, d->es[k].count, d->layers,
                k + 1 < d->layers ? ";" : "\n");
    for (; points + 1 < d->numbers / 2; points += 2) {
        const int32_t *p = d->c + 2 * points;
        fprintf(text, "line 2 %d %d %d %d%s", p[0], p[1], p[2] - p[0], p[3] - p[1], points % 8 == 6 ? "\n" : ";");
    }
    if (points < d->numbers / 2)
        fprintf(text, "line 1 %d %d 0 0;", d->c[2 * points], d->c[2 * points + 1]);
    fprintf(text, "coords %zu\n]", d->numbers);
}

/* with these strips all is refused, and no lent byte is touched; a file is tried only where nothing is asked of what came back before */
static void say_none(const struct drawn *d, const uint8_t *s, size_t len, size_t t, size_t bytes) {
    struct own_answer r = own_strips_fault(d->es, d->layers, s, len);
    fprintf(text, "judge_strips;volume;triangles %zu 0 0", 3 * t);
    for (int k = 0; k < 3; k++)
        say_refusal(r);
    fprintf(come, " kept");
    if (bytes) {
        fprintf(text, ";write %zu 0", bytes);
        say_refusal(r);
        fprintf(come, " kept");
    }
    fprintf(text, "]");
}

/* room for every file */
static const size_t enough[3] = {20, 10000, 9500};

/* with room for so many entries, numbers and steps; a stack that comes back is empty behind its layers, which `kept` says too */
static void say_read(const uint8_t *f, size_t len, const size_t room[3]) {
    static struct own_read r;
    static int32_t c[4000];
    static uint8_t opened[4000];
    r.c = c;
    own_read(&r, f, len, opened);
    struct own_answer g = r.refused;
    if (g.number == 0 && (room[0] < r.layers || room[1] < 2 * r.points || room[2] < r.steps))
        g = refusal(8, 0);
    if (g.number == 0)
        g = r.strip;
    fprintf(text, "read %zu %zu %zu", room[0], room[1], room[2]);
    if (g.number) {
        fprintf(text, " 0 0 0]");
        say_refusal(g);
    } else {
        fprintf(text, " %zu %zu %zu]", r.layers, 2 * r.points, r.steps);
        fprintf(come, " %zu %zu %zu", r.layers, r.points, r.steps);
    }
    fprintf(come, " kept");
}

/* the strips in hand are those of an earlier row: they are judged only where the number of layers is refused before they are looked at */
static void say_unfit(struct own_answer f) {
    static const char *const calls[] = {"judge_stack", "best_strips 340 64 0 0", "volume", "triangles 24 0 0", "write 512 0", "judge_strips"};
    refused++;
    for (int k = 0; k < (f.number == 11 ? 6 : 5); k++) {
        BOTH("%s %.*s", k ? "," : "", (int)strcspn(calls[k], " "), calls[k]);
        fprintf(text, "[%s]", calls[k]);
        say_refusal(f);
        if (k == 1 || k == 3 || k == 4)
            fprintf(come, " kept");
    }
    BOTH("\n");
}

static uint8_t other(uint8_t byte, uint64_t seed) { return (uint8_t)(byte + 1 + seed / 65536 % 255); }

/* with a byte too few of either slice, and with enough; then the strips, or the sum of many */
static void say_best(const struct drawn *d, size_t steps, uint8_t *s) {
    size_t most = 0, at = 0;
    for (size_t k = 0; k + 1 < d->layers; k++) {
        const struct own_layer *e = &d->es[k], *g = e + 1;
        const int32_t *a = d->c + 2 * e->first, *b = d->c + 2 * g->first;
        size_t cells = (e->count + 1) * (g->count + 1);
        most = most < cells ? cells : most;
        if (e->count + g->count <= 10)
            own_best_by_listing(&own, a, e->count, b, g->count);
        else
            own_best_by_table(&own, a, e->count, b, g->count, 1);
        memcpy(s + at, own.strips, e->count + g->count);
        at += e->count + g->count;
    }
    fprintf(text, "[best_strips %zu %zu 0 0;best_strips %zu %zu 0 0;best_strips %zu %zu %zu %zu;", steps - 1, most, steps, most - 1,
            steps + 1, most + 1, steps, most);
    for (int k = 0; k < 2; k++) {
        say_refusal(refusal(8, 0));
        fprintf(come, " kept");
    }
    fprintf(text, "take_strips %zu]", steps);
    fprintf(come, " %zu kept", steps);
    BOTH(", strips");
    sum = 0;
    fold_bytes(s, steps);
    fprintf(text, steps < 60 ? "[print 0 %zu]" : "[sum %zu]", steps);
    for (size_t k = 0; k < steps && steps < 60; k++)
        fprintf(come, " %d", s[k]);
    if (steps >= 60)
        fprintf(come, " %llu", (unsigned long long)sum);
}

/* the volume, the closed list and the file with the right strips */
static size_t say_solid(const struct drawn *d, const uint8_t *s, size_t t, size_t blocks) {
    static uint32_t list[3600];
    static uint8_t contents[4000];
    struct own_bytes k = {contents, 0}, o = {file, 0};
    own_triangles(d->es, d->layers, s, list);
    long long six = (long long)own_six(d->es, d->layers, d->c, list, t);
    own_contents(&k, d->es, d->layers, d->c, s);
    own_seal(&o, contents, k.len, blocks);
    fprintf(text, "[volume;triangles %zu 0 0;triangles %zu %zu 0]", 3 * t - 1, 3 * t + 2, 3 * t);
    fprintf(come, " %lld", six);
    say_refusal(refusal(8, 0));
    fprintf(come, " kept %zu six %lld kept", t, six);
    if (t < 40) {
        BOTH(", list");
        fprintf(text, "[triangles 29990 %zu %zu]", 3 * t, 3 * t);
        for (size_t i = 0; i < 3 * t; i++)
            fprintf(come, " %u", list[i]);
    }
    BOTH(", write");
    fprintf(text, "[write %zu 0;write %zu %zu;sum %zu;take_file %zu]", o.len - 1, o.len + 3, o.len, o.len, o.len);
    say_refusal(refusal(8, 0));
    sum = 0;
    fold_bytes(file, o.len);
    fprintf(come, " kept %zu kept %llu", o.len, (unsigned long long)sum);
    return o.len;
}

/* the file read: each of the three rooms in turn one too small, all larger than needed, and with a byte altered. From the steps that came
 * back, strips that are none */
static void say_files(const struct drawn *d, uint8_t *s, size_t bytes, size_t steps, size_t t, uint64_t seed) {
    const size_t need[3] = {d->layers, d->numbers, steps};
    BOTH(", read");
    for (int turn = 0; turn < 3; turn++) {
        size_t room[3];
        for (int k = 0; k < 3; k++)
            room[k] = need[k] - (k == turn);
        fprintf(text, "[");
        say_read(file, bytes, room);
    }
    fprintf(text, "[");
    say_read(file, bytes, enough);
    fprintf(text, "[same_stack %zu;same_coords %zu;same_strips %zu]", d->layers, d->numbers, steps);
    fprintf(come, " same same same");
    s[steps] = 7;
    BOTH(", a step too few, one too many");
    for (size_t len = steps - 1; len < steps + 2; len += 2) {
        fprintf(text, "[take_strips %zu;", len);
        say_none(d, s, len, t, 0);
    }
    fprintf(text, "[take_strips %zu]", steps);
    BOTH(", damaged");
    size_t at = by_seed(another(seed), bytes);
    uint8_t right = file[at];
    file[at] = other(right, seed);
    fprintf(text, "[byte %zu %d;", at, file[at]);
    say_read(file, bytes, enough);
    file[at] = right;
}

/* the contents of a file of one block with a byte altered to a small number or near 255, sealed again */
static void say_sealed(uint64_t seed) {
    static const uint8_t to[] = {0, 1, 2, 3, 4, 255, 254, 253};
    static uint8_t contents[508], again[512];
    BOTH(", sealed again");
    for (int k = 0; k < 3; k++) {
        struct own_bytes o = {again, 0};
        seed = another(seed);
        size_t at = k == 0 ? by_seed(seed, 12) : by_seed(seed, 90);
        memcpy(contents, file, 508);
        contents[at] = to[by_seed(another(seed), 8)];
        own_seal(&o, contents, 508, 1);
        fprintf(text, "[write 512 512;take_file 508;byte %zu %d;seal;", at, contents[at]);
        fprintf(come, " 512 kept");
        say_read(again, 512, enough);
    }
}

static void say_fit(const struct drawn *d, uint64_t seed) {
    uint8_t s[400];
    size_t steps = own_steps(d->es, d->layers), t = steps + d->es[0].count + d->es[d->layers - 1].count - 4;
    size_t blocks = (2 + 6 * d->layers + 4 * d->numbers + steps + 507) / 508, at = by_seed(seed, steps);
    BOTH(" judge_stack");
    fprintf(text, "[judge_stack]");
    fprintf(come, " %zu %zu", d->numbers / 2, steps);
    BOTH(", best_strips");
    say_best(d, steps, s);
    BOTH(", volume");
    size_t bytes = say_solid(d, s, t, blocks);
    say_files(d, s, bytes, steps, t, seed);
    if (blocks == 1)
        say_sealed(seed);
    BOTH(", a byte altered");
    s[at] = other(s[at], seed);
    fprintf(text, "[step %zu %d;", at, s[at]);
    say_none(d, s, steps, t, bytes);
    BOTH("\n");
}

static void say_stacks(int tries, size_t least, size_t spread, int kind) {
    uint64_t row = least;
    for (int k = 0; k < tries; k++) {
        static struct drawn d;
        row = another(another(row) / 2 + 1);
        uint64_t start = another(another(row)), after = another(another(another(start)));
        draw(&d, least + by_seed(another(row), spread), kind, start);
        spoil(&d, after);
        alter(&d, another(after));
        alter(&d, another(another(after)));
        hand(&d, another(another(another(after))));
        say_hand(&d);
        BOTH("%zu layers, kind %d, stack %d:", d.layers, kind, k);
        struct own_answer f = own_stack_fault(d.es, d.layers, d.c, d.numbers);
        if (f.number)
            say_unfit(f);
        else
            say_fit(&d, after);
    }
}

/* ---- rows of pairs */

static void row_of_pairs(size_t m, size_t n) {
    uint64_t seed = m + 10 * n;
    sum = listed = refused = strips = 0;
    for (int k = 0; k < 2000; k++, seed = another(seed))
        pair(m, n, seed);
    BOTH("%zu by %zu points, strips, refused, best strips, sum:", m, n);
    fprintf(text, "[pairs %zu %zu]", m, n);
    fprintf(come, " %zu %zu %zu %llu", strips, refused, listed, (unsigned long long)sum);
    BOTH("\n");
}

/* second TEXT COME: writes the rows' text and what must come, and tells how often each number is the answer that is due */
int main(int argc, char **argv) {
    if (argc != 3 || !(text = fopen(argv[1], "w")) || !(come = fopen(argv[2], "w")))
        return 2;
    own.strips = malloc((size_t)MOST_STRIPS * 520);
    fprintf(text, "[# From here on the rows are drawn and written by tests/second/second.c, which works out what must come.\n]");
    for (size_t m = 3; m < 7; m++)
        for (size_t n = 3; n < 7; n++)
            row_of_pairs(m, n);
    say_stacks(30, 2, 1, 0);
    say_stacks(20, 3, 1, 0);
    say_stacks(15, 4, 1, 0);
    say_stacks(10, 5, 17, 1);
    say_stacks(4, 2, 4, 2);
    say_stacks(6, 2, 1, 3);
    printf("answers due, by number:");
    for (int k = 1; k < 17; k++)
        if (due[k])
            printf(" %d: %lu,", k, due[k]);
    printf(" 100: %lu\n", none_left);
    return fclose(text) || fclose(come);
}
