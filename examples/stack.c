/* stack [FILE]: a stack of two layers, from C: the best strip of its band, six times its volume, and its register file, which is written to
 * FILE if one is named. README.md says how to build it. */
#include <stdio.h>

#include "register.h"

static int refused(const char *call, struct register_status status)
{
    fprintf(stderr, "stack: %s: refused %d %zu (docs/REFUSALS.md)\n", call, status.number, status.place);
    return 1;
}

int main(int argc, char **argv)
{
    const struct register_layer layers[] = {{0, 0, 3}, {1, 3, 3}}; /* plane, first point, number of points */
    const int32_t coords[] = {0, 0, 2, 0, 0, 2, 0, 0, 2, 0, 0, 2}; /* x, y of all points, from the lowest layer up */
    uint8_t strips[6], work[16], file[512];

    struct register_steps_answer best = register_best_strips(layers, 2, coords, 12, strips, 6, work, 16);
    if (best.status.number)
        return refused("best_strips", best.status);
    struct register_answer six = register_volume(layers, 2, coords, 12, strips, 6);
    if (six.status.number)
        return refused("volume", six.status);
    struct register_bytes_answer written = register_write(layers, 2, coords, 12, strips, 6, file, 512);
    if (written.status.number)
        return refused("write", written.status);

    for (size_t k = 0; k < best.steps; k++)
        putchar(strips[k] ? 'B' : 'A');
    printf("\nsix times the volume: %lld\n", (long long)six.value);
    printf("bytes of its register file: %zu\n", written.bytes);

    if (argc > 1) {
        FILE *out = fopen(argv[1], "wb");
        if (!out || fwrite(file, 1, written.bytes, out) != written.bytes || fclose(out)) {
            perror(argv[1]);
            return 1;
        }
    }
    return 0;
}
