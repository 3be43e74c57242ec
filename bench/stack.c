/* Prints how many bytes of stack each call uses on pair files, the least and the most, the list that takes the most, and what kandurzo.h states.
 *
 *    stack < FILES      the names of pair files, a line each
 *
 * Each call runs in a thread of its own, whose stack is lent and painted beforehand: the lowest byte that lost its paint shows how deep the call went, counted
 * from the thread's own function, so that the caller's frame is in it. The stack is larger than stated, so that a build that wants more is measured too.
 * callers/c/stack.c runs every call, also where it refuses, on the stack that is stated. */
#define _DEFAULT_SOURCE
#include <pthread.h>
#include <stdio.h>
#include <stdlib.h>
#include <string.h>
#include <sys/mman.h>

#include "../callers/c/kandurzo.h"

enum { PAINT = 0xA5, GUARD = 65536, STACK = 524288, FILE_BYTES = 65536, NAME_BYTES = 256 };

/* The list, and what else the calls are passed. */
static kandurzo_head_t head;
static kandurzo_pair_t list[KANDURZO_PAIRS], again[KANDURZO_PAIRS], pair;
static char name[NAME_BYTES];
static uint8_t file[FILE_BYTES], text[KANDURZO_TEXT], members[KANDURZO_MODULES], others[KANDURZO_MODULES];
static size_t bytes, written;
static uint16_t order[KANDURZO_MODULES];
static uint32_t cores[KANDURZO_MODULES], shares[KANDURZO_PAIRS], work[KANDURZO_WORK];

static uint32_t changed(kandurzo_changed_t answer) {
    head = answer.head;
    return answer.number;
}

static uint32_t start(void) { return kandurzo_start(KANDURZO_MODULES).number; }
static uint32_t read_file(void) { return changed(kandurzo_read(file, bytes, list, KANDURZO_PAIRS, work, KANDURZO_WORK)); }
static uint32_t place(void) { return kandurzo_place(head, list, KANDURZO_PAIRS, pair.a, pair.b).number; }
static uint32_t remove_pair(void) { return changed(kandurzo_remove(head, list, KANDURZO_PAIRS, pair.a, pair.b)); }
static uint32_t add(void) { return changed(kandurzo_add(head, list, KANDURZO_PAIRS, pair.a, pair.b, pair.w)); }
static uint32_t remove_from(void) { return kandurzo_remove_from(&head, list, KANDURZO_PAIRS, pair.a, pair.b); }
static uint32_t add_to(void) { return kandurzo_add_to(&head, list, KANDURZO_PAIRS, pair.a, pair.b, pair.w); }
static uint32_t read_dimacs(void) { return kandurzo_read_dimacs(text, written, again, KANDURZO_PAIRS, work, KANDURZO_WORK).number; }
static uint32_t surplus(void) { return kandurzo_surplus(head, list, head.m, members, head.n, others, head.n).number; }
static uint32_t peel(void) { return kandurzo_peel(head, list, head.m, order, head.n, cores, head.n, work, KANDURZO_WORK); }
static uint32_t check(void) { return kandurzo_check(head, list, head.m, members, head.n, shares, head.m, work, KANDURZO_WORK).number; }

static uint32_t kit(void) { return kandurzo_kit(head, list, head.m, (head.n + 1) / 2, members, head.n, work, KANDURZO_WORK).number; }

static uint32_t write_dimacs(void) {
    kandurzo_written_t answer = kandurzo_write_dimacs(head, list, head.m, text, KANDURZO_TEXT);
    written = answer.length;
    return answer.number;
}

static uint32_t solve(void) {
    return kandurzo_solve(head, list, head.m, members, head.n, cores, head.n, shares, head.m, work, KANDURZO_WORK).number;
}

/* Each call in the order in which they are made on a list, the bytes stated for it, and what it used. */
static struct {
    const char *name;
    uint32_t (*make)(void);
    size_t stated, least, most;
    char worst[NAME_BYTES];
} calls[] = {
    {"start", start, KANDURZO_STACK_START, SIZE_MAX, 0, ""},
    {"read", read_file, KANDURZO_STACK_READ, SIZE_MAX, 0, ""},
    {"place", place, KANDURZO_STACK_PLACE, SIZE_MAX, 0, ""},
    {"remove", remove_pair, KANDURZO_STACK_REMOVE, SIZE_MAX, 0, ""},
    {"add", add, KANDURZO_STACK_ADD, SIZE_MAX, 0, ""},
    {"remove_from", remove_from, KANDURZO_STACK_REMOVE, SIZE_MAX, 0, ""},
    {"add_to", add_to, KANDURZO_STACK_ADD, SIZE_MAX, 0, ""},
    {"write_dimacs", write_dimacs, KANDURZO_STACK_WRITE_DIMACS, SIZE_MAX, 0, ""},
    {"read_dimacs", read_dimacs, KANDURZO_STACK_READ_DIMACS, SIZE_MAX, 0, ""},
    {"peel", peel, KANDURZO_STACK_PEEL, SIZE_MAX, 0, ""},
    {"solve", solve, KANDURZO_STACK_SOLVE, SIZE_MAX, 0, ""},
    {"check", check, KANDURZO_STACK_CHECK, SIZE_MAX, 0, ""},
    {"surplus", surplus, KANDURZO_STACK_SURPLUS, SIZE_MAX, 0, ""},
    {"kit", kit, KANDURZO_STACK_KIT, SIZE_MAX, 0, ""},
};

enum { CALLS = sizeof calls / sizeof *calls };

/* The call under way, the lowest byte of its stack, and what came of it. */
static size_t now, used;
static uint8_t *lowest;
static uint32_t number;

static void fail(const char *what) {
    fprintf(stderr, "stack: %s, %s: %s\n", name, calls[now].name, what);
    exit(1);
}

/* The thread: makes the call, then looks for the lowest byte without paint. */
static void *measured(void *argument) {
    volatile uint8_t here = 0;
    number = calls[now].make();
    uint8_t *deepest = lowest;
    while (*deepest == PAINT) deepest++;
    used = (size_t)((uintptr_t)&here - (uintptr_t)deepest);
    return argument;
}

static void run(void) {
    pthread_attr_t attributes;
    pthread_t thread;
    memset(lowest, PAINT, STACK);
    if (pthread_attr_init(&attributes) != 0 || pthread_attr_setstack(&attributes, lowest, STACK) != 0) fail("no stack");
    if (pthread_create(&thread, &attributes, measured, NULL) != 0 || pthread_join(thread, NULL) != 0) fail("no thread");
    pthread_attr_destroy(&attributes);
    if (number != 0) fail("refused");
    if (used < calls[now].least) calls[now].least = used;
    if (used > calls[now].most) {
        calls[now].most = used;
        memcpy(calls[now].worst, name, sizeof name);
    }
}

/* All calls on the pair file; the pair of its middle line is taken out and put in again. */
static void measure(void) {
    FILE *in = fopen(name, "rb");
    if (in == NULL) fail("no such file");
    bytes = fread(file, 1, sizeof file, in);
    fclose(in);
    for (now = 0; now < CALLS; now++) {
        if (calls[now].make == place) pair = list[head.m / 2];
        run();
    }
}

int main(void) {
    uint8_t *memory = mmap(NULL, GUARD + STACK, PROT_READ | PROT_WRITE, MAP_PRIVATE | MAP_ANONYMOUS, -1, 0);
    if (memory == MAP_FAILED || mprotect(memory, GUARD, PROT_NONE) != 0) fail("no memory");
    lowest = memory + GUARD;
    memset(others, 1, sizeof others);
    while (fgets(name, sizeof name, stdin) != NULL) {
        name[strcspn(name, "\n")] = 0;
        measure();
    }
    printf("| call | least bytes | most bytes | stated | most on |\n|---|---|---|---|---|\n");
    for (size_t i = 0; i < CALLS; i++) {
        const char *last = strrchr(calls[i].worst, '/');
        printf("| %s | %zu | %zu | %zu | %s |\n", calls[i].name, calls[i].least, calls[i].most, calls[i].stated, last == NULL ? calls[i].worst : last + 1);
    }
    return 0;
}
