/*
 * quads.h: labelled quad sheets around a band of a scalar field, drawn, refined, cleaned up, measured and saved.
 *
 * The library is target/staticlib/libquads.a, made by `tools/staticlib quads`. It needs memcpy and memset and nothing else, allocates nothing,
 * keeps nothing between calls, and may be called from several threads at once.
 *
 * A SLICE is a pointer with the number of its elements after it: `const double *points, size_t points_len`. The pointer is aligned and not
 * null, and its elements are there to be read, or to be read and written where it is not const; with a length of 0 none is touched. A slice
 * that is written overlaps no other slice of the call. That is all that a caller owes: whatever the numbers, counts and lengths are, a call
 * ends, reads and writes only what it is lent, and answers with 0 or with the number of a refusal.
 *
 * A SHEET is three slices and three counts: np points of three coordinates each, nq quads of four point numbers each, nl labels. A sheet has
 * one label a quad: 0 the upper level, 1 the lower level, 2 and 3 the low and high box faces in x, 4 and 5 in y, 6 and 7 in z. The slices may
 * be longer than the counts say.
 *
 * A BAND is five arguments: the kind of its field, at least ten numbers, at least six bounds (low x, y, z, then high x, y, z) and two levels.
 *   QUADS_PLANE    numbers a, b, c, d:       a*x + b*y + c*z - d
 *   QUADS_BALL     numbers cx, cy, cz, r:    (x - cx)^2 + (y - cy)^2 + (z - cz)^2 - r
 *   QUADS_QUADRIC  numbers k0 to k9:         k0*x*x + k1*y*y + k2*z*z + k3*x*y + k4*y*z + k5*z*x + k6*x + k7*y + k8*z + k9
 * A plane and a ball use the first four numbers; the others are not looked at.
 * Both levels are finite, the lower below the upper. quads_quality, quads_corners_per_point and quads_page, which
 * measure, take a lower level of minus infinity too, so that old sheets can be measured; every other function that
 * tests a band refuses it with QUADS_BOX. quads_coarsen with no pass tests no band.
 *
 * WORK is two slices, `work` and `floats`. For a lent sheet they hold at least QUADS_WORK(np, nq) and QUADS_FLOATS(np, nq) elements, for
 * drawing QUADS_DRAW_WORK(cells) and QUADS_DRAW_FLOATS(cells). What is in them does not matter. After every call all of both is zero.
 * To save and to open a job takes `work` alone, one element for each point of the sheet, and to read the sum of a job
 * file takes none.
 *
 * A JOB FILE holds a box, two levels and a sheet; the field is not in it. All numbers are little-endian, a double stands
 * by its 64 bits, and the parts touch:
 *   at 0     eight doubles: low x, y, z, high x, y, z, lower level, upper level
 *   at 64    np points, three doubles each
 *   at q     nq quads, four uint32_t each: q = 64 + 24 * np
 *   at l     nl labels, a byte each: l = q + 16 * nq
 *   at t     the trailer, 28 bytes that end the file; t = l + nl:
 *     at t        four uint32_t: 64, q, l and t
 *     at t + 16   the squared sum of the sheet, a uint64_t
 *     at t + 24   the length of the trailer, a uint32_t: 28
 * So it has QUADS_JOB_BYTES(np, nq, nl) bytes, 92 or more. The sheet need not be one that other functions accept:
 * labels may be more or fewer than quads, and any number may stand anywhere.
 * The SQUARED SUM is the sum over the np points of (k - 4)^2, where k is how many of the 4 * nq corners name the point:
 * a quad that names a point twice counts twice there, a corner that is np or more counts nowhere, a point that none
 * names adds 16. A sheet without points has the sum 0.
 * Files that were saved before the sum was in them have a trailer of 20 bytes, five uint32_t: 64, q, l, t and the
 * length 20. They are eight bytes shorter, 84 or more, and still open; saved again, they have the trailer of 28 bytes.
 *
 * The ANSWER slice has at least four elements (for quality ten, for corners per point and the sum of a job two; the
 * page has none). After a call it holds
 *   answer[0]   the number of swaps or merges, or the bytes of a saved file; 0 where the operation counts none
 *   answer[1]   the points, answer[2] the quads and answer[3] the labels of the sheet that was made, altered or saved
 * (for quality, corners per point and the sum of a job what is said at the function) and zeros there after a refusal.
 * Elements behind these stay as they came, and so does a whole answer slice that is too short. The same holds of
 * quality's four measures: each of the two slices by its own length, whatever the other's is.
 *
 * AFTER SUCCESS every slice that the operation writes a sheet, a page or a file to has it in front and zeros behind it.
 * AFTER A REFUSAL a sheet that was to be altered in its own slices is bit for bit as it came, and the slices for a new
 * sheet, for a page, for a file or for the header of a job are all zero, also those that are too short.
 *
 * THE ORDER OF REFUSALS is said at each function; the first that applies is returned. SHORT (lent) means a slice of the
 * sheet shorter than its count says, too little work, or a numbers, bounds, answer, measures, page, header or file slice
 * that is too short. SHORT (result) means more points or quads than the slices for the new sheet, or QUADS_LIMIT, hold.
 * A kind above 2 is refused with QUADS_BOX, where a band of any other fault is.
 *
 * OLDER CALLERS. quads_save_job and quads_open_job take `work` since the sum is in the file, and QUADS_JOB_BYTES is
 * eight more. A caller that was written for an older header must lend the work and be compiled again with this one; an
 * object file that was compiled with the older one still links, and must not be used.
 * A lower level of minus infinity was accepted by every function but quads_extract_candidate, which returned
 * QUADS_BOTTOMLESS. Now every function that tests a band, but for the three that measure, returns QUADS_BOX, and none
 * returns QUADS_BOTTOMLESS.
 *
 * THE MACHINE. The library is compiled for x86-64. A call needs the floating-point environment that a C program starts with: rounding to
 * nearest, subnormal numbers kept (no flush to zero, no denormals are zero); it changes nothing in it. It uses no more than 64 KiB of stack.
 */
#ifndef QUADS_H
#define QUADS_H

#include <stddef.h>
#include <stdint.h>

#ifdef __cplusplus
extern "C" {
#endif

/* The most points, quads or labels of a sheet. */
#define QUADS_LIMIT 1048576

/* The bytes of a page: eight lines of 41. */
#define QUADS_PAGE 328

/* The kinds of field. */
#define QUADS_PLANE 0
#define QUADS_BALL 1
#define QUADS_QUADRIC 2

/* The elements of `work` and `floats` for a lent sheet of np points and nq quads. */
#define QUADS_WORK(np, nq) (64 * ((size_t)(np) + (size_t)(nq)))
#define QUADS_FLOATS(np, nq) (16 * ((size_t)(np) + (size_t)(nq)))

/* The elements of `work` and `floats` for drawing with 4 to 128 cells. */
#define QUADS_DRAW_WORK(cells) (12 * ((size_t)(cells) + 2) * ((size_t)(cells) + 2) * ((size_t)(cells) + 2))
#define QUADS_DRAW_FLOATS(cells) (((size_t)(cells) + 3) * ((size_t)(cells) + 3) * ((size_t)(cells) + 3))

/* The bytes of a job file, as it is saved, with a sheet of np points, nq quads and nl labels. */
#define QUADS_JOB_BYTES(np, nq, nl) (92 + 24 * (size_t)(np) + 16 * (size_t)(nq) + (size_t)(nl))

/* What a call returns. */
enum {
    QUADS_ACCEPTED = 0,
    QUADS_BOX = 1,        /* box: a level not finite, the levels not in order, or the box not finite or empty; in
                             quality, corners per point and page the lower level may be minus infinity */
    QUADS_BOTTOMLESS = 2, /* bottomless: no longer returned; a lower level that is not finite is QUADS_BOX */
    QUADS_CELLS = 3,      /* cells: drawing with other than 4 to 128 cells */
    QUADS_SAMPLES = 4,    /* samples: a sample of the grid is not finite */
    QUADS_BARE = 5,       /* bare: no point, no quad, not one label a quad, or a point not finite; refine: the labels only */
    QUADS_CORNER = 6,     /* corner: a label above 7, a point number out of range, a corner twice; refine: the range only */
    QUADS_CLASH = 7,      /* clash: a point without a quad, or with labels of both levels or of two opposite faces */
    QUADS_EDGE = 8,       /* edge: an edge without exactly two quads */
    QUADS_ASTRAY = 9,     /* astray: a point of the finer sheet cannot be projected */
    QUADS_ROW = 10,       /* row: a copy of a point finds no place in twenty steps */
    QUADS_NORMAL = 11,    /* normal: the normal at a quad's centre is not finite or shorter than 0.5 */
    QUADS_LARGE = 12,     /* large: a lent sheet, or one in a job file, above QUADS_LIMIT */
    QUADS_SHORT = 13,     /* short: a slice holds too little */
    QUADS_TRAILER = 14,   /* trailer: a job file that is too short, or whose trailer is not that of its parts */
    QUADS_SUM = 17        /* sum: the squared sum that a job file says is not that of its sheet */
};

/*
 * Draws the sheet around a band, over a grid of `cells` cells a side, into the three slices for a new sheet. How many points and quads it has
 * is known once it is drawn: at most four points and three quads for each of the (cells + 2)^3 cells, and never more than QUADS_LIMIT; slices for
 * QUADS_LIMIT points, quads and labels always suffice.
 * Refusals: SHORT (numbers or bounds: without them there is no band), BOX, CELLS, SHORT (work or answer), SAMPLES,
 * SHORT (result), BARE, CLASH.
 */
uint32_t quads_extract_candidate(
    uint32_t kind, const double *numbers, size_t numbers_len, const double *bounds, size_t bounds_len,
    double lower, double upper, size_t cells,
    double *new_points, size_t new_points_len, uint32_t *new_quads, size_t new_quads_len,
    uint8_t *new_labels, size_t new_labels_len,
    uint32_t *work, size_t work_len, double *floats, size_t floats_len, uint64_t *answer, size_t answer_len);

/*
 * Makes the finer sheet: each edge gets its midpoint and each quad its centre, and each quad becomes four of its label. The new sheet has
 * np points, one for each edge and one for each quad (at most np + 5 * nq), and 4 * nq quads. A sheet without quads is accepted.
 * Refusals: LARGE, SHORT (lent), BARE, CORNER, SHORT (result).
 */
uint32_t quads_refine(
    const double *points, size_t points_len, const uint32_t *quads, size_t quads_len,
    const uint8_t *labels, size_t labels_len, size_t np, size_t nq, size_t nl,
    double *new_points, size_t new_points_len, uint32_t *new_quads, size_t new_quads_len,
    uint8_t *new_labels, size_t new_labels_len,
    uint32_t *work, size_t work_len, double *floats, size_t floats_len, uint64_t *answer, size_t answer_len);

/*
 * Makes the finer sheet of the same quads as quads_refine, its points smoothed by the rule of Catmull and Clark, with creases between labels,
 * and projected onto the band.
 * Refusals: LARGE, SHORT (lent), BOX, BARE, CORNER, CLASH, SHORT (result), EDGE, BARE, ASTRAY.
 */
uint32_t quads_subdivide(
    const double *points, size_t points_len, const uint32_t *quads, size_t quads_len,
    const uint8_t *labels, size_t labels_len, size_t np, size_t nq, size_t nl,
    uint32_t kind, const double *numbers, size_t numbers_len, const double *bounds, size_t bounds_len,
    double lower, double upper,
    double *new_points, size_t new_points_len, uint32_t *new_quads, size_t new_quads_len,
    uint8_t *new_labels, size_t new_labels_len,
    uint32_t *work, size_t work_len, double *floats, size_t floats_len, uint64_t *answer, size_t answer_len);

/*
 * Makes the sheet with a row of quads inside each patch of one label: each point on a border between labels gets a copy for each of its labels,
 * and each border edge two strip quads, behind the quads of the lent sheet. At most 5 * np points and 5 * nq quads.
 * Refusals: LARGE, SHORT (lent), BOX, BARE, CORNER, CLASH, SHORT (result), ROW, EDGE, CLASH.
 */
uint32_t quads_boundary_rows(
    const double *points, size_t points_len, const uint32_t *quads, size_t quads_len,
    const uint8_t *labels, size_t labels_len, size_t np, size_t nq, size_t nl,
    uint32_t kind, const double *numbers, size_t numbers_len, const double *bounds, size_t bounds_len,
    double lower, double upper,
    double *new_points, size_t new_points_len, uint32_t *new_quads, size_t new_quads_len,
    uint8_t *new_labels, size_t new_labels_len,
    uint32_t *work, size_t work_len, double *floats, size_t floats_len, uint64_t *answer, size_t answer_len);

/*
 * Swaps edges inside one label that bring the points nearer to four quads each, in at most `passes` passes; it ends early once a pass swaps
 * nothing. Only the quads are written. answer[0] is the number of swaps.
 * A pass keeps how many quads each point has in one element of `work` for each point; no such number passes QUADS_LIMIT,
 * whatever the sheet is, and a point may have all of QUADS_LIMIT quads. Sums of them are worked in 64 bits.
 * Refusals: LARGE, SHORT (lent), BOX, BARE, CORNER, CLASH; also with no pass.
 */
uint32_t quads_regularize(
    const double *points, size_t points_len, uint32_t *quads, size_t quads_len,
    const uint8_t *labels, size_t labels_len, size_t np, size_t nq, size_t nl,
    uint32_t kind, const double *numbers, size_t numbers_len, const double *bounds, size_t bounds_len,
    double lower, double upper, size_t passes,
    uint32_t *work, size_t work_len, double *floats, size_t floats_len, uint64_t *answer, size_t answer_len);

/*
 * quads_regularize, which also takes a swap that leaves the points as near to four quads as they are, if the worse of the two shapes gains 0.02
 * or more. Such swaps may go on for as many passes as it is given.
 * Refusals: LARGE, SHORT (lent), BOX, BARE, CORNER, CLASH; also with no pass.
 */
uint32_t quads_improve_layout(
    const double *points, size_t points_len, uint32_t *quads, size_t quads_len,
    const uint8_t *labels, size_t labels_len, size_t np, size_t nq, size_t nl,
    uint32_t kind, const double *numbers, size_t numbers_len, const double *bounds, size_t bounds_len,
    double lower, double upper, size_t passes,
    uint32_t *work, size_t work_len, double *floats, size_t floats_len, uint64_t *answer, size_t answer_len);

/*
 * Merges opposite corners of quads, in at most `passes` passes; it ends early once a pass merges nothing. The whole sheet is written; after a
 * pass that merged, its points are numbered by first use. answer[0] is the number of merges, answer[1..3] the counts of the sheet left.
 * Refusals: LARGE, SHORT (lent), BOX, BARE, CORNER, CLASH; with no pass LARGE and SHORT only.
 */
uint32_t quads_coarsen(
    double *points, size_t points_len, uint32_t *quads, size_t quads_len,
    uint8_t *labels, size_t labels_len, size_t np, size_t nq, size_t nl,
    uint32_t kind, const double *numbers, size_t numbers_len, const double *bounds, size_t bounds_len,
    double lower, double upper, size_t passes,
    uint32_t *work, size_t work_len, double *floats, size_t floats_len, uint64_t *answer, size_t answer_len);

/*
 * Measures the sheet. The answer slice has at least ten elements, the measures slice at least four; a refusal leaves zeros there.
 *   answer[0]    quads
 *   answer[1]    points of other than four quads
 *   answer[2]    edges of one quad
 *   answer[3]    edges of more than two quads
 *   answer[4]    edges of two quads that run the same way
 *   answer[5]    points whose quads are not one ring
 *   answer[6]    quads with the corners of an earlier one
 *   answer[7]    quads that are turned over or collapsed somewhere
 *   answer[8]    1 if tight: every edge has exactly two quads, running opposite ways, and the quads of every point
 *                are one ring (answer[2] to answer[5] are 0); no list of clean-up calls opens such a sheet
 *   answer[9]    1 if valid: answer[2] to answer[7] are 0, and measures[3] is finite
 *   measures[0]  the least shape of a quad
 *   measures[1]  the score, shape times size, below which one quad in twenty lies
 *   measures[2]  the mean score
 *   measures[3]  the least Jacobian, sampled at 5 by 5 places of each quad
 * The lower level may be minus infinity.
 * Refusals: LARGE, SHORT (lent), BOX, BARE, CORNER, CLASH, NORMAL.
 */
uint32_t quads_quality(
    const double *points, size_t points_len, const uint32_t *quads, size_t quads_len,
    const uint8_t *labels, size_t labels_len, size_t np, size_t nq, size_t nl,
    uint32_t kind, const double *numbers, size_t numbers_len, const double *bounds, size_t bounds_len,
    double lower, double upper,
    uint32_t *work, size_t work_len, double *floats, size_t floats_len, uint64_t *answer, size_t answer_len,
    double *measures, size_t measures_len);

/*
 * Gives the corners per point exactly: 4 * nq, the corners of all quads, divided by np, as a whole number and the remainder. So
 * answer[0] * np + answer[1] is 4 * nq, and answer[1] is below np. The cube has 3 and 0, the cube after quads_refine 3 and 18.
 * The answer slice has at least two elements; a refusal leaves zeros there.
 *   answer[0]    the quotient
 *   answer[1]    the remainder
 * It is refused as quality is, apart from NORMAL: a sheet that quality refuses with NORMAL is answered. The lower level
 * may be minus infinity, as there.
 * Refusals: LARGE, SHORT (lent), BOX, BARE, CORNER, CLASH.
 */
uint32_t quads_corners_per_point(
    const double *points, size_t points_len, const uint32_t *quads, size_t quads_len,
    const uint8_t *labels, size_t labels_len, size_t np, size_t nq, size_t nl,
    uint32_t kind, const double *numbers, size_t numbers_len, const double *bounds, size_t bounds_len,
    double lower, double upper,
    uint32_t *work, size_t work_len, double *floats, size_t floats_len, uint64_t *answer, size_t answer_len);

/*
 * Writes the page of the sheet: the eight counts of quads_quality, its answer[0] to answer[7], one to a line.
 *   quads          answer[0]: quads
 *   irregular      answer[1]: points of other than four quads
 *   boundary       answer[2]: edges of one quad
 *   nonmanifold    answer[3]: edges of more than two quads
 *   orientation    answer[4]: edges of two quads that run the same way
 *   links          answer[5]: points whose quads are not one ring
 *   duplicates     answer[6]: quads with the corners of an earlier one
 *   invalid        answer[7]: quads that are turned over or collapsed somewhere
 * A line is 41 bytes: its name left in 24 columns, its count right in 16, both filled with spaces, and byte 10. A count
 * stands in decimal digits, without zeros in front. So the page is QUADS_PAGE bytes; no zero byte ends it.
 * The page slice has at least QUADS_PAGE elements. After success the page is in front, and all behind it is zero; after
 * a refusal all of the slice is zero, also of one that is too short.
 * It shows exactly the counts that quads_quality gives for the sheet and the band, and is refused exactly as that is: a
 * page slice that is too short is a SHORT (lent), as an answer or measures slice is there. The lower level may be minus
 * infinity, as there.
 * Refusals: LARGE, SHORT (lent), BOX, BARE, CORNER, CLASH, NORMAL.
 */
uint32_t quads_page(
    const double *points, size_t points_len, const uint32_t *quads, size_t quads_len,
    const uint8_t *labels, size_t labels_len, size_t np, size_t nq, size_t nl,
    uint32_t kind, const double *numbers, size_t numbers_len, const double *bounds, size_t bounds_len,
    double lower, double upper,
    uint32_t *work, size_t work_len, double *floats, size_t floats_len, uint8_t *page, size_t page_len);

/*
 * Writes the job file of a header and a sheet. The header is at least eight doubles: low x, y, z, high x, y, z, lower
 * level, upper level. Nothing is asked of the numbers: every double, a NaN too, passes as its 64 bits, and neither the
 * band nor the sheet is tested: a lower level of minus infinity is saved as any other. header, points, quads and labels
 * are only read.
 * The work slice has at least np elements. What is in them does not matter. After every call all of the slice is zero,
 * also of one that is too short.
 * The file slice has at least QUADS_JOB_BYTES(np, nq, nl) elements. After success the file is in front, its trailer of
 * 28 bytes with the squared sum, and all behind it is zero; after a refusal all of the slice is zero, also of one that
 * is too short.
 *   answer[0]    the bytes of the file
 *   answer[1]    np, answer[2] nq and answer[3] nl
 * A refusal leaves zeros there.
 * Refusals: LARGE, SHORT (lent).
 */
uint32_t quads_save_job(
    const double *header, size_t header_len, const double *points, size_t points_len,
    const uint32_t *quads, size_t quads_len, const uint8_t *labels, size_t labels_len,
    size_t np, size_t nq, size_t nl, uint32_t *work, size_t work_len,
    uint8_t *file, size_t file_len, uint64_t *answer, size_t answer_len);

/*
 * Opens a job file: its eight doubles go to the header slice, its sheet to the three slices for a new sheet, each double
 * as its 64 bits. What quads_save_job wrote opens to the same bits, and a file with a trailer of 28 bytes that opens is
 * saved again byte for byte. One with a trailer of 20 bytes is saved again with the same bytes in front of its trailer,
 * and the trailer of 28. Neither the band nor the sheet is tested: a file with a lower level of minus infinity opens as
 * any other, and what it holds can be measured.
 * All of the file slice is the file, and its last bytes are the trailer: of a slice that quads_save_job wrote, lend the
 * first answer[0] bytes.
 * The header slice has at least eight elements, the other three as many as the file's sheet needs, and the work slice
 * one for each point of it: file_len / 24 points, file_len / 16 quads, file_len labels and file_len / 24 elements of
 * work always suffice, and so do QUADS_LIMIT of each. After success the header slice and the three have their parts of
 * the file in front and zeros behind them; after a refusal all of the four are zero, also those that are too short.
 * What is in the work slice does not matter. After every call all of it is zero, also where it is too short.
 *   answer[0]    0
 *   answer[1]    the points, answer[2] the quads and answer[3] the labels of the sheet
 * A refusal leaves zeros there. A file is refused with TRAILER, whatever else is wrong, if it has fewer than 84 bytes or
 * its trailer breaks a rule: its length, the last uint32_t of the file, is 20, or it is 28 and the file has 92 bytes or
 * more; points start at 64, points and quads are whole, no part starts before the one in front of it, and the trailer
 * starts as many bytes before the end as its length says. A file with a good trailer and more than QUADS_LIMIT points,
 * quads or labels is refused with LARGE. A file whose trailer of 28 bytes says another squared sum than its sheet has
 * is refused with SUM, behind all others; one with a trailer of 20 bytes never is, but needs the work too.
 * Refusals: TRAILER, LARGE, SHORT (header, the slices for the new sheet, work or answer), SUM.
 */
uint32_t quads_open_job(
    const uint8_t *file, size_t file_len, double *header, size_t header_len,
    double *new_points, size_t new_points_len, uint32_t *new_quads, size_t new_quads_len,
    uint8_t *new_labels, size_t new_labels_len, uint32_t *work, size_t work_len,
    uint64_t *answer, size_t answer_len);

/*
 * Reads the squared sum that the trailer of a job file says; of the file, it looks at its length and its trailer alone.
 * It does not compare the sum with the sheet: who must be sure opens the file, which quads_open_job refuses with SUM
 * where the two differ. All of the file slice is the file. The answer slice has at least two elements; a refusal leaves
 * zeros there.
 *   answer[0]    1 if the trailer has the sum, that is 28 bytes; 0 if it has 20
 *   answer[1]    the sum as the trailer says it; 0 if it says none
 * A file is refused with TRAILER exactly where quads_open_job refuses it so; one above QUADS_LIMIT is answered.
 * Refusals: TRAILER, SHORT (answer).
 */
uint32_t quads_job_sum(const uint8_t *file, size_t file_len, uint64_t *answer, size_t answer_len);

#ifdef __cplusplus
}
#endif

#endif
