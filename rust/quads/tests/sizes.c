/* Prints the sizes of include/quads.h for the numbers of points, quads, labels and cells that it is given, the limit
   and the bytes of a page. */
#include <quads.h>
#include <stdio.h>
#include <stdlib.h>

int main(int count, char **words)
{
    if (count != 5) return 1;
    unsigned long np = strtoul(words[1], NULL, 10), nq = strtoul(words[2], NULL, 10);
    unsigned long nl = strtoul(words[3], NULL, 10), cells = strtoul(words[4], NULL, 10);
    printf("%zu %zu %zu %zu %zu %d %d\n", QUADS_WORK(np, nq), QUADS_FLOATS(np, nq), QUADS_DRAW_WORK(cells),
        QUADS_DRAW_FLOATS(cells), QUADS_JOB_BYTES(np, nq, nl), QUADS_LIMIT, QUADS_PAGE);
    return 0;
}
