/* For stack.c: a call made in a thread whose stack is painted, and how much of that stack it used. Gives `struct painted`, `run_painted`, `watch` and `fail`.
 *
 * A thread's stack is lent and painted beforehand, and the pages below it cannot be touched: the lowest byte that lost its paint shows how deep the call
 * went, counted from the thread's own function, thus some bytes too many. What a thread needs to start comes on top, as the system states it.
 *
 * To be included before any other header: it asks the system's headers for more than C has. */
#ifndef PAINTED_H
#define PAINTED_H

#define _DEFAULT_SOURCE
#include <pthread.h>
#include <signal.h>
#include <stddef.h>
#include <stdint.h>
#include <stdio.h>
#include <stdlib.h>
#include <string.h>
#include <sys/mman.h>
#include <unistd.h>

enum { PAINT = 0xA5, GUARD = 65536 };

/* A call: its name, what makes it and answers its number, the bytes of stack stated for it, and the most that it used. */
struct painted {
    const char *name;
    uint32_t (*make)(void);
    size_t stated, used;
};

/* The call under way, the lowest byte of its stack, and what came of it. */
static struct painted none = {"no call", NULL, 0, 0}, *now = &none;
static uint8_t *lowest;
static uint32_t number;
static size_t used;

/* Ends the program, with the name of the last call that was made. */
static inline void fail(const char *what) {
    fprintf(stderr, "stack: %s: %s\n", now->name, what);
    exit(1);
}

/* Runs on a stack of its own, since the thread's has no room left. */
static void overflowed(int signal) {
    static const char told[] = ": a fault, as when the stack stated in kandurzo.h is not enough\n";
    (void)signal;
    if (write(2, now->name, strlen(now->name)) < 0 || write(2, told, sizeof told - 1) < 0) _exit(2);
    _exit(1);
}

/* Gives a thread that stack. */
static void lend_spare(void) {
    static uint8_t spare[65536];
    stack_t own = {.ss_sp = spare, .ss_size = sizeof spare, .ss_flags = 0};
    if (sigaltstack(&own, NULL) != 0) fail("no spare stack");
}

/* From now on a fault ends the program with the name of the call under way. */
static inline void watch(void) {
    struct sigaction action = {.sa_handler = overflowed, .sa_flags = SA_ONSTACK};
    lend_spare();
    if (sigaction(SIGSEGV, &action, NULL) != 0) fail("no handler");
}

/* The thread: makes the call, then looks for the lowest byte without paint. */
static void *measured(void *argument) {
    volatile uint8_t here = 0;
    lend_spare();
    number = now->make();
    uint8_t *deepest = lowest;
    while (*deepest == PAINT) deepest++;
    used = (size_t)((uintptr_t)&here - (uintptr_t)deepest);
    return argument;
}

/* Makes a call in a thread with the stack stated for it, keeps what it used if that is the most so far, and answers its number. */
static inline uint32_t run_painted(struct painted *call) {
    now = call;
    size_t page = (size_t)sysconf(_SC_PAGESIZE), size = call->stated + (size_t)sysconf(_SC_THREAD_STACK_MIN);
    size = (size + page - 1) / page * page;
    uint8_t *memory = mmap(NULL, GUARD + size, PROT_READ | PROT_WRITE, MAP_PRIVATE | MAP_ANONYMOUS, -1, 0);
    if (memory == MAP_FAILED || mprotect(memory, GUARD, PROT_NONE) != 0) fail("no memory");
    lowest = memory + GUARD;
    memset(lowest, PAINT, size);

    pthread_attr_t attributes;
    pthread_t thread;
    if (pthread_attr_init(&attributes) != 0 || pthread_attr_setstack(&attributes, lowest, size) != 0) fail("no stack");
    if (pthread_create(&thread, &attributes, measured, NULL) != 0 || pthread_join(thread, NULL) != 0) fail("no thread");
    pthread_attr_destroy(&attributes);
    munmap(memory, GUARD + size);

    if (used > call->used) call->used = used;
    return number;
}

#endif
