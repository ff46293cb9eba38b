/* Swaps the one edge of a sheet of QUADS_LIMIT quads that puts all of them at one point, by include/quads.h. */
#include <quads.h>
#include <stdio.h>
#include <stdlib.h>
#include <string.h>

#define COUNT(a) (sizeof(a) / sizeof *(a))

enum { POINTS = 6, QUADS = QUADS_LIMIT };

/* Six points on the high z face of the unit box. */
static const double points[] = {0, 0, 1, 1, 0.5, 1, 0.5, 0, 1, 0.5, 0.5, 1, 1, 0, 1, 0, 0.5, 1};
static uint32_t quads[4 * (size_t)QUADS];
static uint8_t labels[QUADS];

/* Two quads along the edge from 0 to 1, and the others across the points 0, 2, 1 and 4. */
static void fill(void)
{
    static const uint32_t first[] = {0, 1, 3, 5, 1, 0, 2, 4}, other[] = {0, 2, 1, 4};
    for (size_t i = 0; i < QUADS; i++) memcpy(quads + 4 * i, other, sizeof other);
    memcpy(quads, first, sizeof first);
    memset(labels, 7, sizeof labels);
}

/* How many quads have a point for a corner. */
static unsigned valence(uint32_t point)
{
    unsigned found = 0;
    for (size_t i = 0; i < COUNT(quads); i++) found += quads[i] == point;
    return found;
}

/* How many bytes of some memory are not 0; after a call none of the work is. */
static size_t filled(const void *memory, size_t length)
{
    const unsigned char *bytes = memory;
    size_t found = 0;
    for (size_t i = 0; i < length; i++) found += bytes[i] != 0;
    return found;
}

int main(void)
{
    static const double numbers[10] = {0, 0, 1, 0}, bounds[6] = {0, 0, 0, 1, 1, 1};
    const size_t work_len = QUADS_WORK(POINTS, QUADS), floats_len = QUADS_FLOATS(POINTS, QUADS);
    uint32_t *work = malloc(work_len * sizeof *work);
    double *floats = malloc(floats_len * sizeof *floats);
    uint64_t answer[4] = {7, 7, 7, 7};
    if (work == NULL || floats == NULL) return 1;
    memset(work, 255, work_len * sizeof *work);
    memset(floats, 255, floats_len * sizeof *floats);
    fill();
    printf("%u quads, %u at the point 2\n", (unsigned)QUADS, valence(2));
    uint32_t number = quads_regularize(points, COUNT(points), quads, COUNT(quads), labels, COUNT(labels),
        POINTS, QUADS, QUADS, QUADS_PLANE, numbers, COUNT(numbers), bounds, COUNT(bounds), -1, 2, 1,
        work, work_len, floats, floats_len, answer, COUNT(answer));
    size_t left = filled(work, work_len * sizeof *work) + filled(floats, floats_len * sizeof *floats);
    printf("regularize %u: %llu swaps, %u at the point 2, %zu bytes left in the work\n", number,
        (unsigned long long)answer[0], valence(2), left);
    free(work);
    free(floats);
    return 0;
}
