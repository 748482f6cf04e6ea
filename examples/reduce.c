/* Reduces the table on standard input through the C interface and writes the smaller table to standard output. */
#include <stdio.h>
#include <stdlib.h>

#include "basilvault.h"

enum { STATES = BASILVAULT_MOST_STATES, SYMBOLS = BASILVAULT_MOST_SYMBOLS, BUDGET = 1000000 };

/* Room for every clause list of a table that can be read: the sections' starts tell how many states, moves and returns it has. */
static size_t room(const uint8_t *table, size_t n) {
    uint64_t starts[BASILVAULT_READ_VALUES];
    if (basilvault_read_within(STATES, SYMBOLS, table, n, starts, BASILVAULT_READ_VALUES) != 0) return 1;
    return BASILVAULT_LIST_BOUND(starts[2] - starts[1], (starts[4] - starts[2]) / 3, (n - 12 - starts[4]) / 4) + 1;
}

int main(void) {
    /* one byte more than the longest file, so that a longer one is seen to be too long */
    static uint8_t table[BASILVAULT_LONGEST_FILE + 1], map[STATES], out[BASILVAULT_LONGEST_FILE];
    uint64_t values[BASILVAULT_REDUCE_VALUES];
    size_t n = fread(table, 1, sizeof table, stdin), words = room(table, n);
    /* memory is taken as it is touched, and most lists are far shorter */
    uint16_t *list = calloc(words, sizeof *list);
    if (list == NULL) {
        perror("clause list");
        return 1;
    }
    uint32_t refused =
        basilvault_reduce_within(STATES, SYMBOLS, table, n, BUDGET, list, words, map, sizeof map, out, sizeof out, values, BASILVAULT_REDUCE_VALUES);
    free(list);
    if (refused != 0) {
        fprintf(stderr, "refused %u\n", (unsigned)refused);
        return 1;
    }
    fprintf(stderr, "classes %llu, guesses %llu, clause words %llu, %llu bytes, joined %llu of %llu%s\n", (unsigned long long)values[0],
            (unsigned long long)values[1], (unsigned long long)values[2], (unsigned long long)values[3], (unsigned long long)values[4],
            (unsigned long long)values[5], values[6] ? ", spent" : "");
    if (fwrite(out, 1, (size_t)values[3], stdout) != values[3] || fflush(stdout) != 0) {
        perror("standard output");
        return 1;
    }
    return 0;
}
