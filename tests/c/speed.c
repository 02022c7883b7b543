/* Parses a file over and over from C, and reports the speed of the best round: speed FILE ROUNDS. */
#define _POSIX_C_SOURCE 200809L
#include "../../include/firthnapkin.h"
#include <stdio.h>
#include <stdlib.h>
#include <time.h>

static double now(void) {
    struct timespec t;
    clock_gettime(CLOCK_MONOTONIC, &t);
    return (double)t.tv_sec + (double)t.tv_nsec * 1e-9;
}

int main(int argc, char **argv) {
    FILE *file = argc == 3 ? fopen(argv[1], "rb") : NULL;
    if (file == NULL || fseek(file, 0, SEEK_END)) return 2;
    size_t length = (size_t)ftell(file), nodes_length, texts_length;
    rewind(file);
    uint8_t *source = malloc(length + 1), *texts = malloc(length + 1);
    firthnapkin_node *nodes = malloc((length + 1) * sizeof *nodes);
    firthnapkin_error error;
    if (source == NULL || texts == NULL || nodes == NULL || fread(source, 1, length, file) != length) return 2;
    const firthnapkin_limits limits = FIRTHNAPKIN_LIMITS_DEFAULT;
    double best = 0;
    for (long round = atol(argv[2]); round > 0; round--) {
        double start = now();
        uint32_t status =
            firthnapkin_parse(source, length, &limits, nodes, length, &nodes_length, texts, length, &texts_length, &error);
        double speed = (double)length / (now() - start) / 1e6;
        if (status != FIRTHNAPKIN_OK) return 1;
        if (speed > best) best = speed;
    }
    fprintf(stderr, "from C %.2f MB/s, %zu nodes\n", best, nodes_length);
    return 0;
}
