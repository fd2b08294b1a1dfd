/* mesh FILE: the closed triangle list of a register file, as PLY in text on standard output. Every number in it is whole: x, y and plane in
 * hundredths of a millimetre, in the order of the file's points, and three point numbers a triangle. A refusal is explained on standard
 * error, nothing is written, and the exit status is 1. README.md says how to build it. */
#include <inttypes.h>
#include <stdio.h>

#include "register.h"

/* a triangle a step, and two fewer than its points for each of the two caps */
#define MOST_TRIANGLES (REGISTER_MOST_STEPS + 2 * (250 - 2))

static struct register_layer layers[REGISTER_MOST_LAYERS];
static int32_t coords[REGISTER_MOST_COORDS];
static uint8_t strips[REGISTER_MOST_STEPS];
static uint32_t corners[3 * MOST_TRIANGLES];
static uint8_t file[REGISTER_MOST_FILE + 1]; /* one byte more, so that a file that is too long is refused as one */

/* the refusals that a register file can meet; docs/REFUSALS.md has all of them, with cause and remedy */
static const struct {
    uint8_t number;
    const char *says, *place;
} refusals[] = {
    {REGISTER_FEW, "FEW: a trace has under 3 points", "layer"},
    {REGISTER_MANY, "MANY: a trace has over 250 points", "layer"},
    {REGISTER_RANGE, "RANGE: a coordinate is outside -100,000 to 100,000", "layer"},
    {REGISTER_TWIN, "TWIN: equal neighbours (the last point and the first are neighbours)", "layer"},
    {REGISTER_TURN, "TURN: twice the signed area of a trace is 0 or less", "layer"},
    {REGISTER_PLANES, "PLANES: a plane is outside its range, or not above the one below", "layer"},
    {REGISTER_ROOM, "ROOM: some lent slice is too short", NULL},
    {REGISTER_STRIP, "STRIP: what is stored for a band is no strip of it", "the band above layer"},
    {REGISTER_LAYERS, "LAYERS: not 2 to 20 layers", NULL},
    {REGISTER_BLOCK, "BLOCK: the file is not 1 to 98 whole blocks of 512 bytes", NULL},
    {REGISTER_CHECK, "CHECK: a block's check or its two zero bytes are wrong", "block"},
    {REGISTER_CONTENT, "CONTENT: the contents run past the blocks, or need fewer, or the filler is not zero", NULL},
};

static int refused(const char *name, struct register_status status)
{
    fprintf(stderr, "mesh: %s: refused %d %zu", name, status.number, status.place);
    for (size_t k = 0; k < sizeof refusals / sizeof *refusals; k++)
        if (refusals[k].number == status.number) {
            fprintf(stderr, ". %s", refusals[k].says);
            if (refusals[k].place)
                fprintf(stderr, ", at %s %zu", refusals[k].place, status.place);
        }
    fputs(". docs/REFUSALS.md has cause and remedy.\n", stderr);
    return 1;
}

int main(int argc, char **argv)
{
    if (argc != 2) {
        fputs("usage: mesh FILE, a register file\n", stderr);
        return 2;
    }
    FILE *in = fopen(argv[1], "rb");
    if (!in) {
        perror(argv[1]);
        return 2;
    }
    size_t length = fread(file, 1, sizeof file, in);
    if (ferror(in)) {
        perror(argv[1]);
        return 2;
    }
    fclose(in);

    struct register_file_answer read =
        register_read(file, length, layers, REGISTER_MOST_LAYERS, coords, REGISTER_MOST_COORDS, strips, REGISTER_MOST_STEPS);
    if (read.status.number)
        return refused(argv[1], read.status);
    struct register_mesh_answer mesh =
        register_triangles(layers, read.layers, coords, 2 * read.points, strips, read.steps, corners, 3 * MOST_TRIANGLES);
    if (mesh.status.number)
        return refused(argv[1], mesh.status);

    printf("ply\nformat ascii 1.0\ncomment hundredths of a millimetre, six times the volume is %" PRId64 "\n", mesh.six);
    printf("element vertex %zu\nproperty int x\nproperty int y\nproperty int z\n", read.points);
    printf("element face %zu\nproperty list uchar int vertex_indices\nend_header\n", mesh.triangles);
    for (size_t k = 0; k < read.layers; k++)
        for (size_t p = layers[k].first; p < layers[k].first + layers[k].count; p++)
            printf("%" PRId32 " %" PRId32 " %" PRId32 "\n", coords[2 * p], coords[2 * p + 1], layers[k].plane);
    for (size_t t = 0; t < mesh.triangles; t++)
        printf("3 %" PRIu32 " %" PRIu32 " %" PRIu32 "\n", corners[3 * t], corners[3 * t + 1], corners[3 * t + 2]);
    if (fflush(stdout) || ferror(stdout)) {
        perror("mesh: standard output");
        return 2;
    }
    return 0;
}
