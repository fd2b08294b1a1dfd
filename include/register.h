/* The register software for C: link libexports_c.a (`rt lib` in crates/exports_c writes it to out/ there; the scripts copy it to
 * target/staticlib/libexports.a). A slice is a pointer and its length. Every function takes every input; pointers must be valid for their
 * lengths, and what is lent for writing must not overlap anything else. */
#ifndef REGISTER_H
#define REGISTER_H

#include <stdbool.h>
#include <stddef.h>
#include <stdint.h>

#ifdef __cplusplus
extern "C" {
#endif

/* Units: coordinates and planes in hundredths of a millimetre, so a value is in (1/100 mm)^2 and six times a volume in (1/100 mm)^3: 6·10^9 of
 * these are a millilitre. */

/* The number of an answer: 0 for success, 100 for none left, else the refusal's (docs/REFUSALS.md). */
enum register_number {
    REGISTER_SUCCESS = 0,
    REGISTER_SHAPE = 1,
    REGISTER_FEW = 2,
    REGISTER_MANY = 3,
    REGISTER_RANGE = 4,
    REGISTER_TWIN = 5,
    REGISTER_TURN = 6,
    REGISTER_PLANES = 7,
    REGISTER_ROOM = 8,
    REGISTER_STRIP = 9,
    REGISTER_BELOW = 10,
    REGISTER_LAYERS = 11,
    REGISTER_SPAN = 12,
    REGISTER_TEXT = 13,
    REGISTER_BLOCK = 14,
    REGISTER_CHECK = 15,
    REGISTER_CONTENT = 16,
    REGISTER_NONE_LEFT = 100
};

/* The room of a call for traces of m and n points, and what is always enough. */
#define REGISTER_STRIP_BYTES(m, n) ((size_t)(m) + (size_t)(n))
#define REGISTER_WORK_BYTES(m, n) (((size_t)(m) + 1) * ((size_t)(n) + 1))
#define REGISTER_LINE_BYTES(m, n, limit) (REGISTER_STRIP_BYTES(m, n) * (size_t)(limit))
#define REGISTER_MOST_LAYERS 20
#define REGISTER_MOST_COORDS 10000
#define REGISTER_MOST_STEPS 9500
#define REGISTER_MOST_WORK 63001
#define REGISTER_MOST_FILE 50176
#define REGISTER_LISTING_BYTES 501047

/* What every answer begins with. Unless the number is 0, all that follows in the answer is 0. */
struct register_status {
    uint8_t number; /* enum register_number */
    size_t place;   /* of a refusal that has one: the lowest trace, layer, band (its lower layer) or block at fault; else 0 */
};

struct register_answer {
    struct register_status status;
    int64_t value;
};

struct register_trace_answer {
    struct register_status status;
    int64_t area; /* twice the signed area */
    size_t count; /* number of points */
};

struct register_run_answer {
    struct register_status status;
    int64_t value;
    size_t count; /* how many strips were written */
    bool more;    /* whether some remain */
};

/* One layer of a stack. A stack is a slice of layers from the bottom, over one common coordinate list. Of more than 20 layers only their
 * number counts, which is refused. */
struct register_layer {
    int32_t plane;
    size_t first; /* its first point in the common list */
    size_t count; /* its number of points */
};

struct register_stack_answer {
    struct register_status status;
    size_t points; /* of all layers */
    size_t steps;  /* of all bands */
};

struct register_steps_answer {
    struct register_status status;
    size_t steps; /* how many were written */
};

struct register_mesh_answer {
    struct register_status status;
    size_t triangles; /* how many were written */
    int64_t six;      /* six times the volume */
};

struct register_bytes_answer {
    struct register_status status;
    size_t bytes; /* how many were written */
};

struct register_file_answer {
    struct register_status status;
    size_t layers;
    size_t points;
    size_t steps;
};

/* Coordinates are x then y; a strip is a byte a step, 0 for A and 1 for B. */
struct register_trace_answer register_judge(const int32_t *coords, size_t coords_len);

struct register_answer register_judge_strip(const int32_t *a, size_t a_len, const int32_t *b, size_t b_len, const uint8_t *strip,
                                            size_t strip_len);

/* m+n strip bytes and (m+1)(n+1) work bytes */
struct register_answer register_best(const int32_t *a, size_t a_len, const int32_t *b, size_t b_len, uint8_t *strip, size_t strip_len,
                                     uint8_t *work, size_t work_len);

struct register_answer register_next(const int32_t *a, size_t a_len, const int32_t *b, size_t b_len, uint8_t *strip, size_t strip_len,
                                     uint8_t *work, size_t work_len);

/* m+n bytes of lines for each of limit strips, and (m+1)(n+1) work bytes */
struct register_run_answer register_list_best(const int32_t *a, size_t a_len, const int32_t *b, size_t b_len, uint8_t *lines,
                                              size_t lines_len, uint8_t *work, size_t work_len, size_t limit);

/* Of a stack: 11, 1, 12, then trace by trace 2 to 6, then 7. */
struct register_stack_answer register_judge_stack(const struct register_layer *layers, size_t layers_len, const int32_t *coords,
                                                  size_t coords_len);

/* The first best strip of every band. A byte for each step of all bands, and the (m+1)(n+1) work bytes of the band that needs most. */
struct register_steps_answer register_best_strips(const struct register_layer *layers, size_t layers_len, const int32_t *coords,
                                                  size_t coords_len, uint8_t *strips, size_t strips_len, uint8_t *work, size_t work_len);

/* Six times the volume: the stack is judged, then the strips. */
struct register_answer register_volume(const struct register_layer *layers, size_t layers_len, const int32_t *coords, size_t coords_len,
                                       const uint8_t *strips, size_t strips_len);

/* The closed triangle list: three numbers a triangle, of which there are one a step and two fewer than the points of either end layer. */
struct register_mesh_answer register_triangles(const struct register_layer *layers, size_t layers_len, const int32_t *coords,
                                               size_t coords_len, const uint8_t *strips, size_t strips_len, uint32_t *out,
                                               size_t out_len);

/* The register file of a stack with its strips: blocks of 512 bytes, 98 at most. */
struct register_bytes_answer register_write(const struct register_layer *layers, size_t layers_len, const int32_t *coords,
                                            size_t coords_len, const uint8_t *strips, size_t strips_len, uint8_t *out, size_t out_len);

/* A register file, read: lend an entry a layer, two numbers a point and a byte a step. 20 layers, 10,000 coordinates and 9,500 steps are
 * always enough. Entries past the file's layers are left as they are. */
struct register_file_answer register_read(const uint8_t *file, size_t file_len, struct register_layer *layers, size_t layers_len,
                                          int32_t *coords, size_t coords_len, uint8_t *strips, size_t strips_len);

/* What the listing program prints for a text; lend 501,047 bytes. A refusal of the text is itself printed: the number is then 0. */
struct register_bytes_answer register_listing(const uint8_t *text, size_t text_len, uint8_t *out, size_t out_len);

#ifdef __cplusplus
}
#endif

#endif
