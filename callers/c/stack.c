/* Runs every call in threads that have the stack which kandurzo.h states for it, and prints how much of it was used at most. There must be 8 KiB left.
 *
 * Here are the calls, the lists and files on which they are made, and the numbers wanted; painted.h has the threads and the measure. The lists are one pair of
 * two modules, and two of 512 modules and 4,096 pairs, with stop counts and with counts of 1; and those of as many modules without pairs. Every number that a
 * call can answer is met, 15 aside. */
#include "painted.h"

#include <stdio.h>
#include <stdlib.h>
#include <string.h>

#include "kandurzo.h"

enum { ROOM = 8192, FILE_BYTES = 65536 };

/* What the calls are passed. */
static kandurzo_head_t head;
static kandurzo_pair_t list[KANDURZO_PAIRS];
static size_t room = KANDURZO_PAIRS, entries = KANDURZO_MODULES, words = KANDURZO_WORK, text_room = KANDURZO_TEXT, count;
static uint32_t a, b, w, q, k;
static uint8_t file[FILE_BYTES], text[KANDURZO_TEXT], members[KANDURZO_MODULES], others[KANDURZO_MODULES];
static uint16_t order[KANDURZO_MODULES];
static uint32_t cores[KANDURZO_MODULES], shares[KANDURZO_PAIRS], work[KANDURZO_WORK];

static uint32_t start(void) { return kandurzo_start(head.n).number; }

static uint32_t add(void) {
    kandurzo_changed_t answer = kandurzo_add(head, list, room, a, b, w);
    head = answer.head;
    return answer.number;
}

static uint32_t add_to(void) { return kandurzo_add_to(&head, list, room, a, b, w); }

static uint32_t remove_pair(void) {
    kandurzo_changed_t answer = kandurzo_remove(head, list, room, a, b);
    head = answer.head;
    return answer.number;
}

static uint32_t remove_from(void) { return kandurzo_remove_from(&head, list, room, a, b); }

static kandurzo_placed_t placed;

static uint32_t place(void) {
    placed = kandurzo_place(head, list, room, a, b);
    return placed.number;
}

static uint32_t read_file(void) { return kandurzo_read(file, count, list, room, work, words).number; }

static uint32_t read_dimacs(void) { return kandurzo_read_dimacs(file, count, list, room, work, words).number; }

static uint32_t write_dimacs(void) {
    kandurzo_written_t answer = kandurzo_write_dimacs(head, list, room, text, text_room);
    if (answer.number == 0) count = answer.length;
    return answer.number;
}

static uint32_t peel(void) { return kandurzo_peel(head, list, room, order, entries, cores, entries, work, words); }

static uint32_t solve(void) {
    kandurzo_solved_t found = kandurzo_solve(head, list, room, members, entries, cores, entries, shares, KANDURZO_PAIRS, work, words);
    if (found.number == 0) q = found.q;
    return found.number;
}

static uint32_t check(void) { return kandurzo_check(head, list, room, members, entries, shares, KANDURZO_PAIRS, work, words).number; }

static uint32_t surplus(void) { return kandurzo_surplus(head, list, room, members, entries, others, entries).number; }

static uint32_t kit(void) { return kandurzo_kit(head, list, room, k, others, entries, work, words).number; }

/* Each call, the bytes stated for it, and the most that it used. */
enum call { START, ADD, ADD_TO, REMOVE, REMOVE_FROM, PLACE, READ, READ_DIMACS, WRITE_DIMACS, PEEL, SOLVE, CHECK, SURPLUS, KIT, CALLS };

static struct painted calls[CALLS] = {
    {"start", start, KANDURZO_STACK_START, 0},
    {"add", add, KANDURZO_STACK_ADD, 0},
    {"add_to", add_to, KANDURZO_STACK_ADD, 0},
    {"remove", remove_pair, KANDURZO_STACK_REMOVE, 0},
    {"remove_from", remove_from, KANDURZO_STACK_REMOVE, 0},
    {"place", place, KANDURZO_STACK_PLACE, 0},
    {"read", read_file, KANDURZO_STACK_READ, 0},
    {"read_dimacs", read_dimacs, KANDURZO_STACK_READ_DIMACS, 0},
    {"write_dimacs", write_dimacs, KANDURZO_STACK_WRITE_DIMACS, 0},
    {"peel", peel, KANDURZO_STACK_PEEL, 0},
    {"solve", solve, KANDURZO_STACK_SOLVE, 0},
    {"check", check, KANDURZO_STACK_CHECK, 0},
    {"surplus", surplus, KANDURZO_STACK_SURPLUS, 0},
    {"kit", kit, KANDURZO_STACK_KIT, 0},
};

/* Makes a call on the stack stated for it; the number wanted must come. */
static void run(enum call call, uint32_t wanted) {
    uint32_t answer = run_painted(&calls[call]);
    if (answer != wanted) {
        fprintf(stderr, "stack: %s answered %u, not %u\n", calls[call].name, (unsigned)answer, (unsigned)wanted);
        exit(1);
    }
}

/* A number below `bound`, by a small generator (xorshift). */
static uint32_t below(uint32_t bound) {
    static uint32_t state = 2463534242;
    state ^= state << 13;
    state ^= state >> 17;
    state ^= state << 5;
    return state % bound;
}

/* Stops of a pair more, unless there would be too many. */
static void put(uint32_t x, uint32_t y, uint32_t stops) {
    uint32_t answer = kandurzo_add_to(&head, list, KANDURZO_PAIRS, x, y, stops);
    if (answer != 0 && answer != 19) fail("a list could not be made");
}

static void one_pair(void) {
    head = kandurzo_start(2).head;
    put(0, 1, 7);
}

/* Half of the pairs among the first 80 modules, the others anywhere; any counts. */
static void dense(void) {
    head = kandurzo_start(KANDURZO_MODULES).head;
    while (head.m < KANDURZO_PAIRS) {
        uint32_t among = head.m < KANDURZO_PAIRS / 2 ? 80 : KANDURZO_MODULES, x = below(among), y = below(among);
        if (x != y) put(x, y, 1 + below(KANDURZO_STOPS));
    }
}

/* A ring with chords of seven lengths, each pair with as many stops as there can be. */
static void ring(void) {
    static const uint32_t lengths[] = {1, 2, 3, 5, 8, 13, 21, 34};
    head = kandurzo_start(KANDURZO_MODULES).head;
    for (size_t i = 0; i < sizeof lengths / sizeof *lengths; i++)
        for (uint32_t v = 0; v < KANDURZO_MODULES; v++) put(v, (v + lengths[i]) % KANDURZO_MODULES, KANDURZO_STOPS);
}

/* Place of the pair a,b: 1 if it is held, else 0, and at which record. */
static void stands(uint32_t held, uint32_t at) {
    static kandurzo_pair_t before[KANDURZO_PAIRS];
    memcpy(before, list, sizeof before);
    run(PLACE, 0);
    if (placed.held != held || placed.at != at || memcmp(before, list, sizeof before) != 0) fail("another place, or the list changed");
}

/* Place, and the calls that change a list, all refuse by the number wanted. */
static void refused(enum call adds, enum call removes, uint32_t wanted) {
    run(adds, wanted);
    run(removes, wanted);
    run(PLACE, wanted);
    if (placed.held != 0 || placed.at != 0) fail("a place beside a refusal");
}

/* Counts that add refuses in a full list for the pair a,b: 18 and, where it is held, with this count, 19. */
static void counts_refused(enum call adds, uint32_t count) {
    static const uint32_t outside[] = {0, KANDURZO_STOPS + 1, UINT32_MAX};
    for (size_t i = 0; i < sizeof outside / sizeof *outside; i++) w = outside[i], run(adds, 18);
    w = KANDURZO_STOPS + 1 - count;
    if (count != 0) run(adds, 19);
}

/* Place, and the calls that change a list: a held pair gets all the stops that it can have, also in a full list, and is taken out and put in again. The list
 * is then as before. */
static void edits(enum call adds, enum call removes) {
    static kandurzo_pair_t records[KANDURZO_PAIRS];
    memcpy(records, list, sizeof records);
    kandurzo_head_t before = head;
    uint32_t at = head.m / 2, count = list[at].w;
    a = list[at].b, b = list[at].a;
    stands(1, at);
    room = head.m;
    counts_refused(adds, count);
    w = KANDURZO_STOPS - count;
    run(adds, w > 0 ? 0 : 18);
    if (list[at].w != KANDURZO_STOPS) fail("another count");
    run(removes, 0);
    stands(0, at);
    run(removes, 14);
    room = head.m;
    counts_refused(adds, 0);
    w = count;
    run(adds, 11);
    stands(0, at);
    room = KANDURZO_PAIRS;
    run(adds, 0);
    if (head.n != before.n || head.m != before.m || memcmp(records, list, sizeof records) != 0) fail("another list than before");
}

/* What place, and the calls that change a list, all refuse; a count of 0 comes after it. */
static void pairs_refused(enum call adds, enum call removes) {
    kandurzo_head_t before = head;
    kandurzo_pair_t first = list[0];
    w = 0, a = b = first.a;
    refused(adds, removes, 5);
    a = head.n;
    refused(adds, removes, 4);
    b = a;
    refused(adds, removes, 5);
    head.n = 0;
    refused(adds, removes, 13);
    head = before;
    list[0].w = 0;
    refused(adds, removes, 13);
    list[0] = first;
}

/* The list's pair file, or its DIMACS file with a comment before each `e` line: its lines in any order, and each pair's modules too. */
static void write_file(int dimacs) {
    static kandurzo_pair_t left[KANDURZO_PAIRS];
    memcpy(left, list, sizeof left);
    count = (size_t)sprintf((char *)file, dimacs ? "p edge %u %u\n" : "modules=%u\npairs=%u\n", (unsigned)head.n, (unsigned)head.m);
    for (uint32_t m = head.m; m > 0; m--) {
        uint32_t i = below(m), turned = below(2);
        unsigned x = turned ? left[i].b : left[i].a, y = turned ? left[i].a : left[i].b;
        char *end = (char *)file + count;
        count += (size_t)(dimacs ? sprintf(end, "c\ne %u %u\n", x + 1, y + 1) : sprintf(end, "%u,%u,%u\n", x, y, (unsigned)left[i].w));
        left[i] = left[m - 1];
    }
}

/* A file that a reader refuses, and the number. */
struct wrong {
    const char *text;
    uint32_t number;
};

/* A reader on the list's own file, then with too little room, on the file cut and with one byte more, and on those that it refuses. */
static void reads(enum call call, uint32_t cut, uint32_t longer, const struct wrong *wrong, size_t many) {
    static kandurzo_pair_t before[KANDURZO_PAIRS];
    memcpy(before, list, sizeof before);
    memset(list, 0, head.m * sizeof *list);
    run(call, 0);
    if (memcmp(before, list, sizeof before) != 0) fail("another list than the file's");
    words--;
    run(call, 12);
    words++;
    room = head.m - 1;
    run(call, 11);
    room = KANDURZO_PAIRS;
    count--;
    run(call, cut);
    count += 2;
    run(call, longer);
    for (size_t i = 0; i < many; i++) {
        count = strlen(wrong[i].text);
        memcpy(file, wrong[i].text, count);
        run(call, wrong[i].number);
    }
}

#define ONE "modules=2\npairs=1\n"
#define TWO "modules=2\npairs=2\n0,1,1\n"

static void pair_files(void) {
    static const struct wrong wrong[] = {
        {"modules=0\npairs=0\n", 2}, {"modules=2\npairs=4097\n", 3}, {ONE "pair=0,1\n", 1}, {ONE "0,1\n", 1}, {ONE "0,2,0\n", 4}, {ONE "1,1,0\n", 5},
        {ONE "2,2,1\n", 5}, {ONE "0,1,0\n", 18}, {TWO "1,0,1001\n", 18}, {TWO "1,0,2\n", 10},
    };
    write_file(0);
    reads(READ, 1, 6, wrong, sizeof wrong / sizeof *wrong);
}

/* The list written, also where that is refused; what was written is read, and then the list's lines in any order. Its counts are then 1. */
static void dimacs_files(void) {
    static const struct wrong wrong[] = {
        {"", 16}, {"c\n", 16}, {"p col 2 0\n", 16}, {"p edge 0 0\n", 2}, {"p edge 2 4097\n", 3}, {"p edge 2 1\n", 17},
        {"p edge 2 0\ne 1 2\n", 17}, {"p edge 2 1\ne 1 3\n", 4}, {"p edge 2 1\ne 1 1\n", 5}, {"p edge 2 1\ne 0 0\n", 5},
        {"p edge 2 2\ne 1 2\ne 2 1\n", 10},
    };
    run(WRITE_DIMACS, 0);
    memcpy(file, text, count);
    for (uint32_t j = 0; j < head.m; j++) list[j].w = 1;
    run(WRITE_DIMACS, 0);
    if (memcmp(file, text, count) != 0) fail("counts in the file");
    reads(READ_DIMACS, 16, 16, NULL, 0);
    text_room--;
    run(WRITE_DIMACS, 12);
    text_room++;
    uint32_t n = head.n;
    head.n = 0;
    run(WRITE_DIMACS, 13);
    head.n = n;
    write_file(1);
    reads(READ_DIMACS, 16, 16, wrong, sizeof wrong / sizeof *wrong);
    write_file(1);
    count += (size_t)sprintf((char *)file + count, "c\ne 1 2\n");
    run(READ_DIMACS, 17);
}

/* Peel, solve, check, surplus and kit, with short buffers, and on a list and a head that disagree. */
static void searches_refused(void) {
    entries = head.n - 1;
    for (enum call call = PEEL; call <= KIT; call++) run(call, 12);
    entries = KANDURZO_MODULES;
    uint32_t n = head.n;
    head.n = 0;
    for (enum call call = PEEL; call <= KIT; call++) run(call, 13);
    head.n = n;
}

/* Kits of at least one module, half of the modules and all, with the number wanted of these, and k outside 1 to N, with the number wanted of that. */
static void kits(uint32_t made, uint32_t refused) {
    const uint32_t sizes[] = {1, (head.n + 1) / 2, head.n}, outside[] = {0, head.n + 1, UINT32_MAX};
    for (int i = 0; i < 3; i++) k = sizes[i], run(KIT, made), k = outside[i], run(KIT, refused);
}

/* Peel, solve, check, surplus and kit, on an agreeing list and head and on others, with right and wrong groups and shares. */
static void searches(void) {
    memset(others, 1, sizeof others);
    for (enum call call = PEEL; call <= SURPLUS; call++) run(call, 0);
    kits(0, 21);
    searches_refused();
    shares[0] = list[0].w * q + 1;
    run(CHECK, 8);
    memset(members, 0, sizeof members);
    run(CHECK, 7);
    run(SURPLUS, 7);
    memset(shares, 0, sizeof shares);
    members[0] = 1;
    run(CHECK, 9);
}

/* As many modules without pairs: solve, check and kit turn such a list down, whatever the group or k is, and all else serves it, also once a pair has come
 * and gone. */
static void no_pairs(void) {
    head = kandurzo_start(head.n).head;
    memset(others, 1, sizeof others);
    for (int turn = 0; turn < 2; turn++) {
        a = 0, b = head.n - 1, w = KANDURZO_STOPS;
        stands(0, 0);
        run(REMOVE, 14);
        run(REMOVE_FROM, 14);
        run(PEEL, 0);
        run(SOLVE, 20);
        for (int byte = 2; byte >= 0; byte--) {
            memset(members, byte, sizeof members);
            run(CHECK, 20);
            run(SURPLUS, byte == 1 ? 0 : 7);
        }
        kits(20, 20);
        searches_refused();
        write_file(0);
        run(READ, 0);
        run(WRITE_DIMACS, 0);
        memcpy(file, text, count);
        run(READ_DIMACS, 0);
        run(turn == 0 ? ADD : ADD_TO, 0);
        searches();
        run(turn == 0 ? REMOVE : REMOVE_FROM, 0);
    }
}

int main(void) {
    static void (*const lists[])(void) = {one_pair, dense, ring};
    int status = 0;
    watch();
    for (size_t i = 0; i < sizeof lists / sizeof *lists; i++) {
        head.n = 0;
        run(START, 2);
        lists[i]();
        run(START, 0);
        edits(ADD, REMOVE);
        edits(ADD_TO, REMOVE_FROM);
        pairs_refused(ADD, REMOVE);
        pairs_refused(ADD_TO, REMOVE_FROM);
        pair_files();
        searches();
        dimacs_files();
        searches();
        no_pairs();
    }
    for (enum call call = START; call < CALLS; call++) {
        printf("%-12s %6zu bytes of stack used, %6zu stated\n", calls[call].name, calls[call].used, calls[call].stated);
        if (calls[call].used + ROOM > calls[call].stated) {
            fprintf(stderr, "stack: %s: less than 8 KiB of what is stated is left\n", calls[call].name);
            status = 1;
        }
    }
    return status;
}
