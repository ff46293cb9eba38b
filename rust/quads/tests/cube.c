/* Refines the unit cube, measures it and two pillows at one point, gives corners per point, prints the cube's page,
   measures it above minus infinity, saves and opens the cube, and reads the sum of its file, by include/quads.h. */
#include <quads.h>
#include <stdio.h>
#include <string.h>

#define COUNT(a) (sizeof(a) / sizeof *(a))

/* The unit cube: six quads labelled 2 to 7, all turned outwards. */
static const double points[] = {0, 0, 0, 1, 0, 0, 0, 1, 0, 1, 1, 0, 0, 0, 1, 1, 0, 1, 0, 1, 1, 1, 1, 1};
static const uint32_t quads[] = {0, 4, 6, 2, 1, 3, 7, 5, 0, 1, 5, 4, 2, 6, 7, 3, 0, 2, 3, 1, 4, 5, 7, 6};
static const uint8_t labels[] = {2, 3, 4, 5, 6, 7};

/* Two pillows, each two quads back to back, on some of the points of the cube; they share point 0. */
static const uint32_t pillows[] = {0, 1, 3, 2, 2, 3, 1, 0, 0, 4, 5, 6, 6, 5, 4, 0};
static const uint8_t one_label[] = {6, 6, 6, 6};

/* The refined cube: 26 points and 24 quads. */
static double finer_points[3 * 26];
static uint32_t finer_quads[4 * 24];
static uint8_t finer_labels[24];

/* The numbers of the field, and work for each of these sheets. */
static const double numbers[10] = {0, 0, 1, 0};
static uint32_t work[QUADS_WORK(26, 24)];
static double floats[QUADS_FLOATS(26, 24)];

/* Refines the cube. */
static uint32_t refine(void)
{
    uint64_t answer[4];
    uint32_t number = quads_refine(points, COUNT(points), quads, COUNT(quads), labels, COUNT(labels), 8, 6, 6,
        finer_points, COUNT(finer_points), finer_quads, COUNT(finer_quads), finer_labels, COUNT(finer_labels),
        work, COUNT(work), floats, COUNT(floats), answer, COUNT(answer));
    printf("refine %u: %llu points, %llu quads, last label %u\n", number, (unsigned long long)answer[1],
        (unsigned long long)answer[2], finer_labels[23]);
    return number;
}

/* Measures np points of the cube with nq quads in the box from 0 to `side`. */
static uint32_t quality(size_t np, const uint32_t *q, const uint8_t *l, size_t nq, double side)
{
    const double bounds[6] = {0, 0, 0, side, side, side};
    uint64_t answer[10];
    double measures[4];
    uint32_t number = quads_quality(points, COUNT(points), q, 4 * nq, l, nq, np, nq, nq,
        QUADS_PLANE, numbers, COUNT(numbers), bounds, COUNT(bounds), -1, 2,
        work, COUNT(work), floats, COUNT(floats), answer, COUNT(answer), measures, COUNT(measures));
    printf("quality %u: %llu quads, %llu bad links, tight %llu, valid %llu, least shape %g\n", number,
        (unsigned long long)answer[0], (unsigned long long)answer[5], (unsigned long long)answer[8],
        (unsigned long long)answer[9], measures[0]);
    return number;
}

/* Gives the corners per point of a sheet of np points and nq quads in the box from 0 to `side`. */
static uint32_t corners(const double *p, size_t np, const uint32_t *q, const uint8_t *l, size_t nq, double side)
{
    const double bounds[6] = {0, 0, 0, side, side, side};
    uint64_t answer[2] = {7, 7};
    uint32_t number = quads_corners_per_point(p, 3 * np, q, 4 * nq, l, nq, np, nq, nq,
        QUADS_PLANE, numbers, COUNT(numbers), bounds, COUNT(bounds), -1, 2,
        work, COUNT(work), floats, COUNT(floats), answer, COUNT(answer));
    printf("corners %u: %llu per point, remainder %llu\n", number, (unsigned long long)answer[0],
        (unsigned long long)answer[1]);
    return number;
}

/* Prints the page of the cube in the box from 0 to `side`; a refusal leaves zeros in place of it. */
static uint32_t page(double side)
{
    const double bounds[6] = {0, 0, 0, side, side, side};
    uint8_t text[QUADS_PAGE];
    uint32_t number = quads_page(points, COUNT(points), quads, COUNT(quads), labels, COUNT(labels), 8, 6, 6,
        QUADS_PLANE, numbers, COUNT(numbers), bounds, COUNT(bounds), -1, 2,
        work, COUNT(work), floats, COUNT(floats), text, COUNT(text));
    printf("page %u:\n", number);
    if (text[0] != 0) fwrite(text, 1, QUADS_PAGE, stdout);
    return number;
}

/* Divides the corners of the cube above minus infinity, and subdivides it there, which is refused: whether it is so. */
static int bottomless(void)
{
    const double bounds[6] = {0, 0, 0, 1, 1, 1}, lower = -1.0 / 0.0;
    uint64_t answer[4];
    uint32_t measured = quads_corners_per_point(points, COUNT(points), quads, COUNT(quads), labels, COUNT(labels),
        8, 6, 6, QUADS_PLANE, numbers, COUNT(numbers), bounds, COUNT(bounds), lower, 2,
        work, COUNT(work), floats, COUNT(floats), answer, COUNT(answer));
    printf("above minus infinity: corners %u: %llu per point, ", measured, (unsigned long long)answer[0]);
    uint32_t made = quads_subdivide(points, COUNT(points), quads, COUNT(quads), labels, COUNT(labels), 8, 6, 6,
        QUADS_PLANE, numbers, COUNT(numbers), bounds, COUNT(bounds), lower, 2,
        finer_points, COUNT(finer_points), finer_quads, COUNT(finer_quads), finer_labels, COUNT(finer_labels),
        work, COUNT(work), floats, COUNT(floats), answer, COUNT(answer));
    printf("subdivide %u: %llu points\n", made, (unsigned long long)answer[1]);
    return measured == QUADS_ACCEPTED && made == QUADS_BOX;
}

/* The box from 0 to 1 and two levels, of which the upper is no number. */
static const double header[8] = {0, 0, 0, 1, 1, 1, -1, 0.0 / 0.0};

/* The cube's job file in front of some bytes more. */
static uint8_t file[QUADS_JOB_BYTES(8, 6, 6) + 9];

/* Saves the cube in the first bytes of the file slice, with so much work: the bytes of its file. */
static uint64_t save_job(size_t length, size_t work_length)
{
    uint64_t answer[4];
    uint32_t number = quads_save_job(header, COUNT(header), points, COUNT(points), quads, COUNT(quads),
        labels, COUNT(labels), 8, 6, 6, work, work_length, file, length, answer, COUNT(answer));
    printf("save %u: %llu bytes, %llu points, %llu quads, %llu labels\n", number, (unsigned long long)answer[0],
        (unsigned long long)answer[1], (unsigned long long)answer[2], (unsigned long long)answer[3]);
    return answer[0];
}

/* Opens the first bytes of the file slice, with so much work, which is full before and must be zero after it: whether
   the cube and its header are there again, byte for byte. */
static int open_job(size_t length, size_t work_length)
{
    double opened[8], new_points[24];
    uint32_t new_quads[24];
    uint8_t new_labels[6];
    uint64_t answer[4];
    memset(work, 255, work_length * sizeof *work);
    uint32_t number = quads_open_job(file, length, opened, COUNT(opened), new_points, COUNT(new_points),
        new_quads, COUNT(new_quads), new_labels, COUNT(new_labels), work, work_length, answer, COUNT(answer));
    for (size_t i = 0; i < work_length; i++) {
        if (work[i] != 0) return -1;
    }
    int same = memcmp(opened, header, sizeof header) == 0 && memcmp(new_points, points, sizeof points) == 0
        && memcmp(new_quads, quads, sizeof quads) == 0 && memcmp(new_labels, labels, sizeof labels) == 0;
    printf("open %u: %llu points, %llu quads, %llu labels, %s\n", number, (unsigned long long)answer[1],
        (unsigned long long)answer[2], (unsigned long long)answer[3], same ? "the same bytes" : "other bytes");
    return same;
}

/* Reads the sum of the first bytes of the file slice, into so many elements: the number. */
static uint32_t job_sum(size_t length, size_t answer_length)
{
    uint64_t answer[2] = {7, 7};
    uint32_t number = quads_job_sum(file, length, answer, answer_length);
    printf("sum %u: written %llu, %llu\n", number, (unsigned long long)answer[0], (unsigned long long)answer[1]);
    return number;
}

/* The bytes of the cube's file, and of the one as it was saved before the sum was in it. */
#define BYTES QUADS_JOB_BYTES(8, 6, 6)
#define OLD_BYTES (BYTES - 8)

/* Saves, opens and reads the sum of the cube, of the cube with a sum that is not its own, and of the older file. */
static int jobs(void)
{
    int kept = save_job(BYTES - 1, 8) == 0 && save_job(COUNT(file), 7) == 0 && save_job(COUNT(file), 8) == BYTES
        && open_job(BYTES, 8) == 1 && open_job(BYTES, 7) == 0 && open_job(COUNT(file), 8) == 0
        && job_sum(BYTES, 2) == QUADS_ACCEPTED && job_sum(BYTES, 1) == QUADS_SHORT
        && job_sum(COUNT(file), 2) == QUADS_TRAILER;
    file[BYTES - 12] = 9;
    int told = job_sum(BYTES, 2) == QUADS_ACCEPTED && open_job(BYTES, 8) == 0;
    memcpy(file + OLD_BYTES - 4, "\x14\0\0", 4);
    return kept && told && job_sum(OLD_BYTES, 2) == QUADS_ACCEPTED && open_job(OLD_BYTES, 8) == 1;
}

int main(void)
{
    return !(refine() == QUADS_ACCEPTED && quality(8, quads, labels, 6, 1) == QUADS_ACCEPTED
        && quality(8, quads, labels, 6, -1) == QUADS_BOX && quality(7, pillows, one_label, 4, 1) == QUADS_ACCEPTED
        && corners(points, 8, quads, labels, 6, 1) == QUADS_ACCEPTED
        && corners(finer_points, 26, finer_quads, finer_labels, 24, 1) == QUADS_ACCEPTED
        && corners(points, 8, quads, labels, 6, -1) == QUADS_BOX && page(1) == QUADS_ACCEPTED
        && page(-1) == QUADS_BOX && bottomless() && jobs());
}
