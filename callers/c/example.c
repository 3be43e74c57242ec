/* Reads a pair file on standard input, solves it, and prints what the program `group` prints. */
#include <inttypes.h>
#include <stdio.h>

#include "kandurzo.h"

int main(void) {
    static uint8_t bytes[65536]; /* an accepted file is at most 53,271 bytes */
    static kandurzo_pair_t list[KANDURZO_PAIRS];
    static uint8_t members[KANDURZO_MODULES];
    static uint32_t cores[KANDURZO_MODULES], shares[KANDURZO_PAIRS], work[KANDURZO_WORK];

    size_t count = fread(bytes, 1, sizeof bytes, stdin);
    kandurzo_changed_t file = kandurzo_read(bytes, count, list, KANDURZO_PAIRS, work, KANDURZO_WORK);
    if (file.number != 0) {
        printf("status=%" PRIu32 "\n", file.number);
        return 0;
    }
    kandurzo_solved_t found = kandurzo_solve(file.head, list, KANDURZO_PAIRS, members, KANDURZO_MODULES, cores, KANDURZO_MODULES, shares,
                                             KANDURZO_PAIRS, work, KANDURZO_WORK);
    if (found.number != 0) {
        printf("status=%" PRIu32 "\n", found.number);
        return 0;
    }
    printf("status=0\nratio=%" PRIu32 "/%" PRIu32 "\ncore=%" PRIu32 ",%" PRIu32 "\n", found.p, found.q, found.k, found.coresize);
    for (uint32_t v = 0; v < file.head.n; v++)
        if (members[v]) printf("member=%" PRIu32 "\n", v);
    return 0;
}
