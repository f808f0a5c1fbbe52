/* Runs a script so many times in this process: time SCRIPT TIMES. Says the milliseconds of the quickest run and of the one in the middle,
   by the processor's clock. */
#include "../fedcm.h"
#include <stdio.h>
#include <stdlib.h>
#include <time.h>

static double now(void) {
    struct timespec at;
    clock_gettime(CLOCK_PROCESS_CPUTIME_ID, &at);
    return (double)at.tv_sec * 1e3 + (double)at.tv_nsec / 1e6;
}

static int order(const void *a, const void *b) {
    double first = *(const double *)a, second = *(const double *)b;
    return (first > second) - (first < second);
}

int main(int argc, char **argv) {
    FILE *file = argc == 3 ? fopen(argv[1], "rb") : NULL;
    int times = argc == 3 ? atoi(argv[2]) : 0;
    if (file == NULL || times < 1 || fseek(file, 0, SEEK_END) != 0) return 70;
    size_t size = (size_t)ftell(file), room = 4 * size + 65536, length = 0;
    rewind(file);
    unsigned char *script = malloc(size + 1), *out = malloc(room);
    double *took = malloc((size_t)times * sizeof *took);
    if (script == NULL || out == NULL || took == NULL || fread(script, 1, size, file) != size) return 70;
    for (int at = 0; at < times; at++) {
        double begun = now();
        if (fedcm_run(script, size, out, room, &length) != FEDCM_DONE || length > room) return 1;
        took[at] = now() - begun;
    }
    qsort(took, (size_t)times, sizeof *took, order);
    printf("%.4f %.4f\n", took[0], took[times / 2]);
    return 0;
}
