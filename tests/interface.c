/* What include/basilvault.h says of a call, tried on the tables that are named: the stack that a call takes, null pointers with the length 0, a `values`
 * that is too short, the bound for the clause list, and calls from several threads at once. Says what differs and ends with 1, or with 0. */
#define _GNU_SOURCE
#include <pthread.h>
#include <stdio.h>
#include <stdlib.h>
#include <string.h>
#include <sys/mman.h>

#include "basilvault.h"

enum { STATES = BASILVAULT_MOST_STATES, SYMBOLS = BASILVAULT_MOST_SYMBOLS, WORDS = 1 << 20, ROOM = 4 << 20, SCRIPT = 1000, THREADS = 4 };

/* A table, and the buffers of one thread. */
struct work {
    uint8_t table[BASILVAULT_LONGEST_FILE + 1], map[STATES], out[BASILVAULT_LONGEST_FILE], script[SCRIPT], lines[10], answer[BASILVAULT_MOST_VARIABLES];
    uint16_t *list;
    size_t length, states, words;
    uint32_t number;
    uint64_t values[64];
};

static int faults;

static void expect(int so, const char *what, const char *of) {
    if (!so) {
        fprintf(stderr, "%s: %s\n", of, what);
        faults++;
    }
}

static void *do_nothing(void *p) { return p; }

#define OPERATION(name, ...)                                                                                                           \
    static void *do_##name(void *p) {                                                                                                  \
        struct work *w = p;                                                                                                            \
        w->number = basilvault_##name(__VA_ARGS__, w->values, 64);                                                                     \
        return p;                                                                                                                      \
    }

OPERATION(read_within, STATES, SYMBOLS, w->table, w->length)
OPERATION(tops_within, STATES, SYMBOLS, w->table, w->length)
OPERATION(clauses_within, STATES, SYMBOLS, w->table, w->length, w->list, WORDS)
OPERATION(search_within, STATES, SYMBOLS, w->list, w->words, w->states *(w->states - 1) / 2, 2000, w->answer, sizeof w->answer)
OPERATION(reduce_within, STATES, SYMBOLS, w->table, w->length, 2000, w->list, WORDS, w->map, sizeof w->map, w->out, sizeof w->out)
OPERATION(check_within, STATES, SYMBOLS, w->table, w->length, w->map, w->states)
OPERATION(quotient_within, STATES, SYMBOLS, w->table, w->length, w->map, w->states, w->out, sizeof w->out)
OPERATION(uses_within, STATES, SYMBOLS, w->table, w->length, w->map, w->states, w->lines, sizeof w->lines)
OPERATION(choose_within, STATES, SYMBOLS, w->table, w->length, w->map, w->states, w->map, w->states)
OPERATION(script_within, STATES, SYMBOLS, w->table, w->length, w->script, SCRIPT)
OPERATION(records_within, STATES, SYMBOLS, w->table, w->length, w->map, w->states, w->out, sizeof w->out)
OPERATION(generate_within, STATES, SYMBOLS, 1, 12, 2, 2, 2, 9000, w->out, sizeof w->out)
OPERATION(fit, w->table, w->length, w->table, w->length)
OPERATION(intersection_within, STATES, SYMBOLS, w->table, w->length, w->table, w->length, w->out, sizeof w->out)
OPERATION(union_within, STATES, SYMBOLS, w->table, w->length, w->table, w->length, w->out, sizeof w->out)

static void *do_season_within(void *p) {
    struct work *w = p;
    uint64_t lengths[1] = {w->length};
    w->number = basilvault_season_within(STATES, SYMBOLS, w->table, w->length, lengths, 1, 2000, w->list, WORDS, w->map, sizeof w->map, w->out,
                                         sizeof w->out, w->values, 64);
    return p;
}

/* In this order: the search is lent the clause list, and what follows reduce its map. */
static const struct {
    const char *name;
    void *(*call)(void *);
} operations[] = {
    {"read", do_read_within},   {"tops", do_tops_within},       {"clauses", do_clauses_within},   {"search", do_search_within}, {"reduce", do_reduce_within},
    {"check", do_check_within}, {"quotient", do_quotient_within}, {"uses", do_uses_within},       {"choose", do_choose_within}, {"script", do_script_within},
    {"records", do_records_within}, {"generate", do_generate_within}, {"fit", do_fit},            {"season", do_season_within},
    {"intersection", do_intersection_within}, {"union", do_union_within},
};
enum { OPERATIONS = sizeof operations / sizeof *operations };

/* How many bytes of a thread's stack a call changes: the stack is painted beforehand. */
static size_t stack_of(void *(*call)(void *), struct work *w) {
    uint8_t *stack = mmap(NULL, ROOM, PROT_READ | PROT_WRITE, MAP_PRIVATE | MAP_ANONYMOUS, -1, 0);
    pthread_attr_t attributes;
    pthread_t thread;
    if (stack == MAP_FAILED) exit(2);
    memset(stack, 0xa5, ROOM);
    pthread_attr_init(&attributes);
    if (pthread_attr_setstack(&attributes, stack, ROOM) != 0 || pthread_create(&thread, &attributes, call, w) != 0) exit(2);
    pthread_join(thread, NULL);
    pthread_attr_destroy(&attributes);
    size_t kept = 0;
    while (kept < ROOM && stack[kept] == 0xa5) kept++;
    munmap(stack, ROOM);
    return ROOM - kept;
}

static size_t section(const struct work *w, size_t i) {
    const uint8_t *trailer = w->table + w->length - 12;
    return (size_t)trailer[2 * i] + 256u * trailer[2 * i + 1];
}

/* Every operation on a table: its stack, and the bound for the list. */
static void try_table(struct work *w, const char *path, size_t *most) {
    FILE *file = fopen(path, "rb");
    if (file == NULL) exit(2);
    w->length = fread(w->table, 1, sizeof w->table, file);
    fclose(file);
    if (basilvault_read_within(STATES, SYMBOLS, w->table, w->length, w->values, 64) != 0) return;
    w->states = section(w, 1) - section(w, 2);
    size_t moves = (section(w, 2) - section(w, 4)) / 3, returns = section(w, 4) / 4;
    w->words = 0;
    for (size_t i = 0; i < OPERATIONS; i++) {
        size_t bytes = stack_of(operations[i].call, w);
        if (*most < bytes) *most = bytes;
        expect(bytes <= BASILVAULT_STACK, "takes more stack than the header says", operations[i].name);
        if (operations[i].call == do_clauses_within && w->number == 0) {
            w->words = (size_t)w->values[1];
            expect(w->words <= BASILVAULT_LIST_BOUND(w->states, moves, returns), "has a longer list than the header's bound", path);
        }
    }
}

/* The search over a list of over 65,536 words of which `left` are left at rest, in clauses of two, and one of the variable 779 with which the others hold. With
 * 32,768 it takes the most room; with more the list is searched by segments. */
static void try_long_list(struct work *w, size_t left, size_t *most) {
    w->states = STATES;
    w->words = 0;
    w->list[w->words++] = 1;
    w->list[w->words++] = 2 * 779;
    for (size_t i = 0; w->words <= 65536; i++) {
        w->list[w->words++] = 2;
        w->list[w->words++] = (uint16_t)(2 * (i % 778));
        w->list[w->words] = w->words + 1 <= left ? (uint16_t)(2 * (i % 778 + 1) + i % 2) : 2 * 779;
        w->words++;
    }
    size_t bytes = stack_of(do_search_within, w);
    if (*most < bytes) *most = bytes;
    expect(w->number == 0, "finds no assignment", "search of a long list");
    expect(bytes <= BASILVAULT_STACK, "takes more stack than the header says", "search of a long list");
}

/* Null pointers, and a `values` one short: 0 is returned and nothing stored. */
static void try_edges(void) {
    static const uint8_t least[13] = {3, 1, 0, 1, 0, 0, 0, 0, 0, 0, 0, 1, 0};
    uint64_t values[BASILVAULT_TOPS_VALUES];
    for (size_t i = 0; i < BASILVAULT_TOPS_VALUES; i++) values[i] = 9;
    expect(basilvault_read(NULL, 0, NULL, 0) == BASILVAULT_REFUSED_LENGTH, "a null table is not refused by 1", "read");
    expect(basilvault_reduce(NULL, 0, 0, NULL, 0, NULL, 0, NULL, 0, NULL, 0) == BASILVAULT_REFUSED_LENGTH, "a null table is not refused by 1", "reduce");
    expect(basilvault_search(NULL, 0, 0, 0, NULL, 0, NULL, 0) == 0, "an empty list is refused", "search");
    expect(basilvault_season(NULL, 0, NULL, 0, 0, NULL, 0, NULL, 0, NULL, 0, NULL, 0) == BASILVAULT_REFUSED_LENGTHS, "no table is not refused by 34", "season");
    expect(basilvault_script(least, 13, NULL, 0, values, 1) == 0 && values[0] == 1, "the empty script is not accepted", "script");
    values[0] = 9;
    expect(basilvault_tops(least, 13, values, BASILVAULT_TOPS_VALUES - 1) == 0, "a short values is refused", "tops");
    for (size_t i = 0; i < BASILVAULT_TOPS_VALUES; i++) expect(values[i] == 9, "a short values is written", "tops");
}

int main(int count, char **paths) {
    size_t most = 0;
    struct work *works[THREADS];
    pthread_t threads[THREADS];
    for (size_t i = 0; i < THREADS; i++) {
        works[i] = calloc(1, sizeof *works[i]);
        if (works[i] == NULL || (works[i]->list = calloc(WORDS, 2)) == NULL) return 2;
    }
    size_t idle = stack_of(do_nothing, works[0]);
    for (int i = 1; i < count; i++) try_table(works[0], paths[i], &most);
    try_edges();
    try_long_list(works[THREADS - 1], 32768, &most);
    try_long_list(works[THREADS - 1], 65536, &most);
    /* the last table, by several threads at once: each as by itself */
    do_reduce_within(works[0]);
    for (size_t i = 1; i < THREADS; i++) {
        memcpy(works[i]->table, works[0]->table, sizeof works[i]->table);
        works[i]->length = works[0]->length;
        if (pthread_create(&threads[i], NULL, do_reduce_within, works[i]) != 0) return 2;
    }
    for (size_t i = 1; i < THREADS; i++) {
        pthread_join(threads[i], NULL);
        expect(works[i]->number == works[0]->number && memcmp(works[i]->values, works[0]->values, 7 * sizeof(uint64_t)) == 0, "differs between threads", "reduce");
    }
    printf("a call takes at most %zu bytes of stack, %zu more than a thread that does nothing\n", most, most - idle);
    return faults == 0 ? 0 : 1;
}
