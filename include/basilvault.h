/* The reducer's C interface: the operations of the proved library (README.md says how to build and link it), each at the limits of 24 states and 32
 * symbols and, but for basilvault_fit, as NAME_within at given limits of 1 to 40 states and 1 to 64 symbols; others are refused by 39.
 *
 * A call. Each function returns the refusal's number (enum basilvault_refusal), or 0. Where it is 0 and `values` has room for all the answer's values,
 * they are its first elements; where it has not, 0 is returned all the same and nothing is stored in it. Buffers are written as the operations say; a
 * refused call leaves them as they were, but for the clause list of basilvault_reduce with 21.
 *
 * What a caller must see to. Each pointer is valid for its length, counted in elements, and aligned for its type. The buffers of one call do not
 * overlap: nothing is promised of a call in which one that is written lies over another one. A null pointer with the length 0 is fine. Nothing else has
 * to hold before a call: any bytes, numbers and lengths are answered or refused.
 *
 * What a call takes. Nothing is allocated or kept, and there are no globals: calls from several threads are fine, each on buffers of its own. A call
 * needs at most BASILVAULT_STACK bytes of stack. Every call ends. The time of basilvault_search, basilvault_reduce and basilvault_season grows with
 * the guesses that they make, at most the budget. On the hardest tables that were found a guess of a reduction takes 0.1 to 2 microseconds, and some 10 to 20
 * where over 32,768 words of the clause list are left once nothing more follows from it. A guess then reads those parts of the list in which a variable
 * stands that it has set, again and again while more is set; on a list of basilvault_search that was made to be slow it takes half a millisecond for 33,000
 * words and 70 milliseconds for a million. On shorter lists that were made to be slow it takes some 40 microseconds
 * (bench/README.md). basilvault_fit took an eighth of a second on the worst tables that were made. */
#ifndef BASILVAULT_H
#define BASILVAULT_H

#include <stddef.h>
#include <stdint.h>

#ifdef __cplusplus
extern "C" {
#endif

/* The version of the library, which the crate for Rust and the command have too. */
#define BASILVAULT_VERSION "1.0.0"

/* The largest limits, and those of a function without limits. */
#define BASILVAULT_MOST_STATES 40
#define BASILVAULT_MOST_SYMBOLS 64
#define BASILVAULT_STANDARD_STATES 24
#define BASILVAULT_STANDARD_SYMBOLS 32

/* The most records of a kind in a file, and the longest file at limits and at the largest ones. */
#define BASILVAULT_MOST_INTERNALS 1024
#define BASILVAULT_MOST_CALLS 1024
#define BASILVAULT_MOST_RETURNS 4096
#define BASILVAULT_LONGEST_FILE_WITHIN(states, symbols) ((states) + (symbols) + 22540)
#define BASILVAULT_LONGEST_FILE 22644

/* The most variables, one for each pair of states; use lines; calls open in a script; tables of a season. */
#define BASILVAULT_MOST_VARIABLES 780
#define BASILVAULT_MOST_LINES 65536
#define BASILVAULT_MOST_OPEN 64
#define BASILVAULT_MOST_TABLES 8

/* How many values an answer has. */
#define BASILVAULT_READ_VALUES 5
#define BASILVAULT_TOPS_VALUES 41
#define BASILVAULT_CLAUSES_VALUES 2
#define BASILVAULT_SEARCH_VALUES 1
#define BASILVAULT_CHECK_VALUES 1
#define BASILVAULT_QUOTIENT_VALUES 1
#define BASILVAULT_REDUCE_VALUES 7
#define BASILVAULT_USES_VALUES 41
#define BASILVAULT_CHOOSE_VALUES 1
#define BASILVAULT_SCRIPT_VALUES 1
#define BASILVAULT_RECORDS_VALUES 4
#define BASILVAULT_GENERATE_VALUES 1
#define BASILVAULT_FIT_VALUES 1
#define BASILVAULT_INTERSECTION_VALUES 1
#define BASILVAULT_UNION_VALUES 1
#define BASILVAULT_SEASON_VALUES 64

/* No clause list of a table with n >= 1 states, so many internals and calls together, and so many returns is longer: neither the whole list of
 * basilvault_clauses nor the shorter one of basilvault_reduce. Most lists are far shorter: the program has room for 32,768 words. */
#define BASILVAULT_LIST_BOUND(n, moves, returns)                                                                                       \
    ((size_t)(n) * ((size_t)(n)-1) + 2 * (size_t)(n) * ((size_t)(n)-1) * ((size_t)(n)-2) +                                             \
     (size_t)(moves) * ((size_t)(n)-1) * ((size_t)(n) + 2) + (size_t)(returns) * (size_t)(n) * (size_t)(n) * ((size_t)(n) + 3))

/* The most bytes of stack that a call takes, as measured, and some to spare. */
#define BASILVAULT_STACK 425984

/* Why a call is refused. Where several apply, the first in the operation's order is given, 39 before all. */
enum basilvault_refusal {
    BASILVAULT_REFUSED_LENGTH = 1,         /* a file of under 12 bytes, or longer than the limits permit */
    BASILVAULT_REFUSED_VERSION = 2,        /* a version other than 1 and 2 */
    BASILVAULT_REFUSED_DISTANCES = 3,      /* the first distance is not the length less 12, a distance rises, or a record section is not whole */
    BASILVAULT_REFUSED_COUNT = 4,          /* a count outside the limits in force */
    BASILVAULT_REFUSED_BYTE = 5,           /* a symbol byte over 2, or a state byte over 3 in version 1, over 63 in version 2 */
    BASILVAULT_REFUSED_INITIAL = 6,        /* no initial state */
    BASILVAULT_REFUSED_RECORD = 7,         /* a record with a state or symbol past the count, or a symbol of another kind */
    BASILVAULT_REFUSED_ORDER = 8,          /* records that do not ascend */
    BASILVAULT_REFUSED_LIST = 10,          /* the clause list is longer than its buffer */
    BASILVAULT_REFUSED_CLAUSES = 11,       /* too many variables, a clause past the end, a variable past the count or twice in a clause */
    BASILVAULT_REFUSED_NONE = 12,          /* no assignment satisfies the clauses */
    BASILVAULT_REFUSED_SPENT = 13,         /* the budget of guesses is spent; of basilvault_search alone */
    BASILVAULT_REFUSED_ANSWER = 14,        /* fewer answer bytes than variables */
    BASILVAULT_REFUSED_MAP_LENGTH = 15,    /* the map has not one byte a state */
    BASILVAULT_REFUSED_NUMBERING = 16,     /* class numbers that do not begin at 0 or skip one */
    BASILVAULT_REFUSED_LOOKS = 17,         /* joined states that differ in accepting or in their mark */
    BASILVAULT_REFUSED_INTERNALS = 18,     /* an internal move that a joined state does not match */
    BASILVAULT_REFUSED_CALLS = 19,         /* a call that a joined state does not match */
    BASILVAULT_REFUSED_RETURNS = 20,       /* a return that a joined state does not match over a joined stack state */
    BASILVAULT_REFUSED_OUT = 21,           /* the output is too short */
    BASILVAULT_REFUSED_MAP = 22,           /* the map buffer has under one byte a state */
    BASILVAULT_REFUSED_SYMBOL = 30,        /* a script with a symbol past the count, anywhere */
    BASILVAULT_REFUSED_DEPTH = 31,         /* a script with a 65th open call before any return on the empty stack */
    BASILVAULT_REFUSED_LINES = 32,         /* use lines whose length is not a multiple of 5, or over 65,536 lines */
    BASILVAULT_REFUSED_LINE_STATE = 33,    /* a use line with a state past the count */
    BASILVAULT_REFUSED_LENGTHS = 34,       /* no table, more than 8, or lengths that do not add up to the buffer */
    BASILVAULT_REFUSED_LOAD = 35,          /* a load whose state count, symbol counts added up, or density is outside its limits, or more states than
                                              permitted in two tables combined */
    BASILVAULT_REFUSED_LOAD_RECORDS = 36,  /* a load, or two tables combined, with more records of a kind than a file permits */
    BASILVAULT_REFUSED_SYMBOLS = 37,       /* two tables whose symbols differ */
    BASILVAULT_REFUSED_CHOICE = 38,        /* a second table with a choice */
    BASILVAULT_REFUSED_LIMITS = 39,        /* a limit of zero, or past its maximum */
    BASILVAULT_REFUSED_BOTH_MAPS = 40      /* of two maps the check accepts neither */
};

/* Five values: the starts of symbols, states, internals, calls and returns. */
uint32_t basilvault_read(const uint8_t *table, size_t table_len, uint64_t *values, size_t values_len);

/* 41 values: a word of tops for each possible state, then the number of tops found. */
uint32_t basilvault_tops(const uint8_t *table, size_t table_len, uint64_t *values, size_t values_len);

/* Two values: clauses and words. */
uint32_t basilvault_clauses(const uint8_t *table, size_t table_len, uint16_t *list, size_t list_len, uint64_t *values, size_t values_len);

/* One value: the guesses made. */
uint32_t basilvault_search(const uint16_t *list, size_t list_len, size_t variables, uint64_t budget, uint8_t *answer, size_t answer_len,
                           uint64_t *values, size_t values_len);

/* One value: the class count. */
uint32_t basilvault_check(const uint8_t *table, size_t table_len, const uint8_t *map, size_t map_len, uint64_t *values, size_t values_len);

/* One value: the quotient's length. */
uint32_t basilvault_quotient(const uint8_t *table, size_t table_len, const uint8_t *map, size_t map_len, uint8_t *out, size_t out_len,
                             uint64_t *values, size_t values_len);

/* Seven values: classes, guesses, clause words, quotient length, joined pairs, their ceiling, and 1 where the budget was spent, else 0.
 * A spent budget is no refusal: the best map found is delivered. */
uint32_t basilvault_reduce(const uint8_t *table, size_t table_len, uint64_t budget, uint16_t *list, size_t list_len, uint8_t *map,
                           size_t map_len, uint8_t *out, size_t out_len, uint64_t *values, size_t values_len);

/* 41 values: the use counts of the lines added up, a sum for each possible state by its number as a class, then the total. A line is a state (one
 * byte) and a use count (32 bits, little-endian). */
uint32_t basilvault_uses(const uint8_t *table, size_t table_len, const uint8_t *map, size_t map_len, const uint8_t *lines, size_t lines_len,
                         uint64_t *values, size_t values_len);

/* One value: which of two maps the check accepts, 1 the first, 2 the second; the one with fewer classes where both pass, the first when equal. */
uint32_t basilvault_choose(const uint8_t *table, size_t table_len, const uint8_t *first, size_t first_len, const uint8_t *second,
                           size_t second_len, uint64_t *values, size_t values_len);

/* One value: the length of a random table from a seed, which is written to `out`. Given are the counts of states and of internal, call and return
 * symbols, and how often a possible record is present, of 65,536 times. */
uint32_t basilvault_generate(uint32_t seed, size_t states, size_t internals, size_t calls, size_t returns, uint32_t density, uint8_t *out,
                             size_t out_len, uint64_t *values, size_t values_len);

/* One value: whether the table accepts the script, a symbol number a byte; 1 yes, 0 no. */
uint32_t basilvault_script(const uint8_t *table, size_t table_len, const uint8_t *script, size_t script_len, uint64_t *values,
                           size_t values_len);

/* Four values: the records of the table, and those of them that are kept, folded and dead under the map. One byte a record in file order: 0 kept,
 * 1 folded, 2 dead. */
uint32_t basilvault_records(const uint8_t *table, size_t table_len, const uint8_t *map, size_t map_len, uint8_t *out, size_t out_len,
                            uint64_t *values, size_t values_len);

/* One value: 1 where the second table accepts every word of the first, 0 where it does not. Both are read at 24 states and 32 symbols. */
uint32_t basilvault_fit(const uint8_t *first, size_t first_len, const uint8_t *second, size_t second_len, uint64_t *values, size_t values_len);

/* One value: the length of the table of the words that both tables accept, or of those that one of them accepts, which is written to `out`. */
uint32_t basilvault_intersection(const uint8_t *first, size_t first_len, const uint8_t *second, size_t second_len, uint8_t *out, size_t out_len,
                                 uint64_t *values, size_t values_len);
uint32_t basilvault_union(const uint8_t *first, size_t first_len, const uint8_t *second, size_t second_len, uint8_t *out, size_t out_len,
                          uint64_t *values, size_t values_len);

/* 64 values: for each of 8 tables its refusal's number or 0, classes, guesses, clause words, quotient length, joined pairs, their ceiling, and 1 where
 * its guesses were spent, else 0; zeros past the count. The tables stand back to back and `lengths` has `count` lengths, 1 to 8, that add up to
 * `tables_len`. Maps and reduced tables are written back to back; a refused table writes none, and the rest go on. */
uint32_t basilvault_season(const uint8_t *tables, size_t tables_len, const uint64_t *lengths, size_t count, uint64_t guesses, uint16_t *list,
                           size_t list_len, uint8_t *maps, size_t maps_len, uint8_t *out, size_t out_len, uint64_t *values, size_t values_len);

/* The same at limits. */
uint32_t basilvault_read_within(size_t states, size_t symbols, const uint8_t *table, size_t table_len, uint64_t *values, size_t values_len);
uint32_t basilvault_tops_within(size_t states, size_t symbols, const uint8_t *table, size_t table_len, uint64_t *values, size_t values_len);
uint32_t basilvault_clauses_within(size_t states, size_t symbols, const uint8_t *table, size_t table_len, uint16_t *list, size_t list_len,
                                   uint64_t *values, size_t values_len);
uint32_t basilvault_search_within(size_t states, size_t symbols, const uint16_t *list, size_t list_len, size_t variables, uint64_t budget,
                                  uint8_t *answer, size_t answer_len, uint64_t *values, size_t values_len);
uint32_t basilvault_check_within(size_t states, size_t symbols, const uint8_t *table, size_t table_len, const uint8_t *map, size_t map_len,
                                 uint64_t *values, size_t values_len);
uint32_t basilvault_quotient_within(size_t states, size_t symbols, const uint8_t *table, size_t table_len, const uint8_t *map, size_t map_len,
                                    uint8_t *out, size_t out_len, uint64_t *values, size_t values_len);
uint32_t basilvault_reduce_within(size_t states, size_t symbols, const uint8_t *table, size_t table_len, uint64_t budget, uint16_t *list,
                                  size_t list_len, uint8_t *map, size_t map_len, uint8_t *out, size_t out_len, uint64_t *values, size_t values_len);
uint32_t basilvault_uses_within(size_t states, size_t symbols, const uint8_t *table, size_t table_len, const uint8_t *map, size_t map_len,
                                const uint8_t *lines, size_t lines_len, uint64_t *values, size_t values_len);
uint32_t basilvault_choose_within(size_t states, size_t symbols, const uint8_t *table, size_t table_len, const uint8_t *first,
                                  size_t first_len, const uint8_t *second, size_t second_len, uint64_t *values, size_t values_len);
uint32_t basilvault_records_within(size_t states, size_t symbols, const uint8_t *table, size_t table_len, const uint8_t *map, size_t map_len,
                                   uint8_t *out, size_t out_len, uint64_t *values, size_t values_len);
uint32_t basilvault_script_within(size_t states, size_t symbols, const uint8_t *table, size_t table_len, const uint8_t *script,
                                  size_t script_len, uint64_t *values, size_t values_len);
uint32_t basilvault_generate_within(size_t state_limit, size_t symbol_limit, uint32_t seed, size_t states, size_t internals, size_t calls,
                                    size_t returns, uint32_t density, uint8_t *out, size_t out_len, uint64_t *values, size_t values_len);
uint32_t basilvault_intersection_within(size_t states, size_t symbols, const uint8_t *first, size_t first_len, const uint8_t *second,
                                        size_t second_len, uint8_t *out, size_t out_len, uint64_t *values, size_t values_len);
uint32_t basilvault_union_within(size_t states, size_t symbols, const uint8_t *first, size_t first_len, const uint8_t *second,
                                 size_t second_len, uint8_t *out, size_t out_len, uint64_t *values, size_t values_len);
uint32_t basilvault_season_within(size_t states, size_t symbols, const uint8_t *tables, size_t tables_len, const uint64_t *lengths,
                                  size_t count, uint64_t guesses, uint16_t *list, size_t list_len, uint8_t *maps, size_t maps_len, uint8_t *out,
                                  size_t out_len, uint64_t *values, size_t values_len);

#ifdef __cplusplus
}
#endif

#endif
