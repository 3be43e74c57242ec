/* Kandurzo from C: fault groups of a pair list (document 01; document 02, items 1 to 4, 6 and 7).
 *
 * A list has N modules (1 to 512), numbered 0 to N-1, and M pairs (at most 4,096) of two different modules, each with its stop count W (1 to 1,000): in how
 * many stop reports the pair was named. The caller lends every buffer: a head with N and M, and records, smaller module first, in strictly rising order by
 * first and then second number, whatever the counts. Of a list, `length` is how many records there are room for; the first M are held. A call uses no heap
 * and no static memory, only some of the caller's stack while it runs; a thread must have as many bytes free as KANDURZO_STACK_SOLVE and the like say.
 *
 * Inside counts, loads and the stops of a module are sums of stop counts: where every W is 1 they count pairs.
 *
 * Each call answers a number: 0, or that of the first cause, in the order given at the call, whose condition holds. A refused call changes no head,
 * list or answer buffer. Lengths are counted in entries. Buffers may be longer than wanted: entries past those named are never written. A buffer that a
 * call writes must not overlap another one of that call, and a pointer must not be null, also where the length is 0.
 *
 *    1  a line is missing, is not of the form due there, or lacks its LF
 *    2  N outside 1 to 512
 *    3  the file's M above 4,096
 *    4  a module number is N or more; in a DIMACS file, where modules are numbered from 1, it is 0 or above N
 *    5  a module is paired with itself, be it one of the N or not: 5 comes before 4
 *    6  bytes follow the last pair line
 *    7  a member byte above 1 among the first N, or none is 1
 *    8  a share above W times Q among the first M
 *    9  a load above P
 *   10  in a file, the pair is named on an earlier line
 *   11  no free record for a new pair; for the readers, the list is shorter than the file's M
 *   12  a lent buffer is shorter than stated
 *   13  head and list disagree: N, M or one of the first M records is not as above, be it that a held record's W is outside 1 to 1,000
 *   14  the pair to remove is not held
 *   15  a group than which none is denser has no split with all loads at or below P (proved never to come)
 *   16  in a DIMACS file, a line is of none of its forms, out of place, or lacks its LF, or there is no `p` line
 *   17  in a DIMACS file, the count of `e` lines is not M
 *   18  W outside 1 to 1,000
 *   19  the raised count passes 1,000
 *   20  the list holds no pair, and so it has no group and no kit: no stops, no group
 *   21  k outside 1 to N
 */
#ifndef KANDURZO_H
#define KANDURZO_H

#include <stddef.h>
#include <stdint.h>

#ifdef __cplusplus
extern "C" {
#endif

enum {
    KANDURZO_MODULES = 512, /* most modules, and the length of member bytes, core numbers and leaving order that is always enough */
    KANDURZO_PAIRS = 4096,  /* most pairs, and the length of list and shares that is always enough */
    KANDURZO_STOPS = 1000,  /* the highest stop count of a pair */
    KANDURZO_WORK = 16384,  /* words of the work buffer */
    KANDURZO_TEXT = 65536   /* bytes of the text buffer */
};

/* Bytes of the caller's stack that a call uses at most while it runs. stack.c measures them: each is what was measured and at least 8 KiB of room, for
 * other builds of the library, other memset and memcpy, and their binding at first use. */
enum {
    KANDURZO_STACK_START = 16384,
    KANDURZO_STACK_ADD = 59392,    /* add and add_to */
    KANDURZO_STACK_REMOVE = 59392, /* remove and remove_from */
    KANDURZO_STACK_PLACE = 16384,
    KANDURZO_STACK_READ = 16384,
    KANDURZO_STACK_READ_DIMACS = 16384,
    KANDURZO_STACK_WRITE_DIMACS = 59392,
    KANDURZO_STACK_PEEL = 56320,
    KANDURZO_STACK_SOLVE = 106496, /* the most: enough for every call */
    KANDURZO_STACK_CHECK = 16384,
    KANDURZO_STACK_SURPLUS = 59392,
    KANDURZO_STACK_KIT = 58368
};

/* A record: the pair's smaller module, its larger, and its stop count. */
typedef struct {
    uint16_t a, b, w;
} kandurzo_pair_t;

/* A head: the number of modules, and of pairs held. */
typedef struct {
    uint32_t n, m;
} kandurzo_head_t;

/* The number, and the head after the call. */
typedef struct {
    uint32_t number;
    kandurzo_head_t head;
} kandurzo_changed_t;

/* The number; 1 if the pair is held, else 0; its place, or the place where it would go. Beside a refusal all else is 0. */
typedef struct {
    uint32_t number, held, at;
} kandurzo_placed_t;

/* The number; how many bytes were written, 0 beside a refusal. */
typedef struct {
    uint32_t number, length;
} kandurzo_written_t;

/* The number; P and Q, the found group's inside count (at most 4,096,000) and its number of modules; K, P/Q rounded up; the number of modules in the core
 * of order K; P divided by Q, rounded once. Beside a refusal all else is 0. */
typedef struct {
    uint32_t number, p, q, k, coresize;
    double ratio;
} kandurzo_solved_t;

/* The number; P and Q, 0 beside a refusal. */
typedef struct {
    uint32_t number, p, q;
} kandurzo_verdict_t;

/* The number; the surplus, 0 beside a refusal. */
typedef struct {
    uint32_t number;
    int64_t value;
} kandurzo_difference_t;

/* Start: a head of n modules without pairs. Refuses by 2; the head is then 0,0. */
kandurzo_changed_t kandurzo_start(uint32_t n);

/* Add: w stops more of the pair of modules a and b, in either order. A held pair's count is raised by w; a new pair goes to its place with the count w, and
 * later records shift up. Answers the new head, or beside a refusal the one passed. Refuses by 13, 5, 4, 18 (w alone), 19 (a held pair's count with w more),
 * 11 (a new pair only: a full list still takes stops of held pairs). */
kandurzo_changed_t kandurzo_add(kandurzo_head_t head, kandurzo_pair_t *list, size_t length, uint32_t a, uint32_t b, uint32_t w);

/* Remove: the pair of modules a and b, in either order, with its whole count; later records shift down and the one freed becomes 0,0,0. Answers the new
 * head, or beside a refusal the one passed. Refuses by 13, 5, 4, 14. */
kandurzo_changed_t kandurzo_remove(kandurzo_head_t head, kandurzo_pair_t *list, size_t length, uint32_t a, uint32_t b);

/* Add, on the caller's own head; answers the number. Refuses by 13, 5, 4, 18, 19, 11. */
uint32_t kandurzo_add_to(kandurzo_head_t *head, kandurzo_pair_t *list, size_t length, uint32_t a, uint32_t b, uint32_t w);

/* Remove, on the caller's own head; answers the number. Refuses by 13, 5, 4, 14. */
uint32_t kandurzo_remove_from(kandurzo_head_t *head, kandurzo_pair_t *list, size_t length, uint32_t a, uint32_t b);

/* Place: whether the pair of modules a and b, in either order, is held, and its place, or the place where it would go. Counted from 0 among the M held
 * records: all before it are smaller, and none from there on is, whatever the counts; it is M where all M are smaller. Where the pair is not held, add puts it
 * there (or refuses by 18, or by 11 where no record is free); where it is, add raises the count of the record there (or refuses by 18 or 19), and remove takes
 * that record. Changes nothing. Refuses by 13, 5, 4. */
kandurzo_placed_t kandurzo_place(kandurzo_head_t head, const kandurzo_pair_t *list, size_t length, uint32_t a, uint32_t b);

/* Read: a pair file, which is `modules=N`, `pairs=M` and M lines `A,B,W`, a pair with its stop count, each ended by LF. Makes a new head and writes the
 * first M records. Wants 16,384 words of work. Refuses by 12 (work); on the first line 1, 2; on the second 1, 3, 11; on a pair line 1, 5, 4, 18, 10; last 6.
 * The head is then 0,0. The work buffer is untouched after 12 and holds 16,384 zero words after any other return. */
kandurzo_changed_t kandurzo_read(const uint8_t *bytes, size_t count, kandurzo_pair_t *list, size_t length, uint32_t *work, size_t work_length);

/* Read a DIMACS edge file: one line `p edge N M`, then M lines `e A B`, modules numbered from 1 (in the list from 0); anywhere, comments, which are `c`
 * alone, or `c`, a blank and any bytes. Each line is ended by LF. Each pair gets the count 1. Makes a new head and writes the first M records. Wants 16,384
 * words of work. Refuses by 12 (work); then line by line, on the `p` line 16, 2, 3, 11, on an `e` line 16, 17 (M came already), 5, 4, 10, on any other 16;
 * last 16 (no `p` line), 17 (fewer than M). The head is then 0,0. The work buffer is untouched after 12 and holds 16,384 zero words after any other
 * return. */
kandurzo_changed_t kandurzo_read_dimacs(const uint8_t *bytes, size_t count, kandurzo_pair_t *list, size_t length, uint32_t *work, size_t work_length);

/* Write a DIMACS edge file: `p edge N M`, then `e A B` for each pair in list order, smaller module first, no counts, no comments, each line ended by LF. Read
 * again, it gives the same pairs with the count 1 each: the same list where all counts are 1. Answers how many bytes it has; those of the text past them are
 * never written. Wants 65,536 bytes of text. Refuses by 13, 12. */
kandurzo_written_t kandurzo_write_dimacs(kandurzo_head_t head, const kandurzo_pair_t *list, size_t length, uint8_t *text, size_t text_length);

/* Peel: writes the leaving order (again and again the module with fewest stops with modules still present leaves; of equals, the lowest number) and the
 * core numbers (the largest k such that the module belongs to a group in which each member has at least k stops inside). Stops are sums of stop counts: a
 * core number is at most 90,000. Wants N entries of order and of cores, 16,384 words of work. Refuses by 13, 12. The work buffer is untouched after 12 or 13
 * and holds 16,384 zero words after any other return. */
uint32_t kandurzo_peel(kandurzo_head_t head, const kandurzo_pair_t *list, size_t length, uint16_t *order, size_t order_length, uint32_t *cores,
                       size_t cores_length, uint32_t *work, size_t work_length);

/* Solve: the largest group of greatest ratio. Writes its member bytes (1 in, 0 out), the core numbers, and a share for each pair: of W times Q units the
 * smaller module receives the share and the larger one the rest, and no module's load is above P. A pair with an end outside the core of order K goes wholly
 * to the end that left first. A list without pairs has no group. Wants N entries of members and of cores, M of shares, 16,384 words of work. Refuses by 13,
 * 12, 20, 15. The work buffer is untouched after 12 or 13 and holds 16,384 zero words after any other return. */
kandurzo_solved_t kandurzo_solve(kandurzo_head_t head, const kandurzo_pair_t *list, size_t length, uint8_t *members, size_t members_length,
                                 uint32_t *cores, size_t cores_length, uint32_t *shares, size_t shares_length, uint32_t *work, size_t work_length);

/* Check: takes member bytes and shares from anyone, counts P and Q of that group itself, and accepts, of a list with a pair, exactly if the shares are a split
 * at size Q, W times Q units for each pair, with no load above P: then no group is denser, and no split has a lower greatest load over its share size. Wants N
 * member bytes, M shares, 16,384 words of work. Refuses by 13, 12, 20, 7, 8, 9. The work buffer is untouched after 12 or 13 and holds 16,384 zero words after
 * any other return. */
kandurzo_verdict_t kandurzo_check(kandurzo_head_t head, const kandurzo_pair_t *list, size_t length, const uint8_t *members, size_t members_length,
                                  const uint32_t *shares, size_t shares_length, uint32_t *work, size_t work_length);

/* Surplus of the first group against the second: modules of the second times inside count of the first, minus inside count of the second times modules
 * of the first. Above zero exactly if the first is denser, zero exactly if the ratios are equal. Wants N member bytes of each. Refuses by 13, 12, 7. */
kandurzo_difference_t kandurzo_surplus(kandurzo_head_t head, const kandurzo_pair_t *list, size_t length, const uint8_t *first, size_t first_length,
                                       const uint8_t *second, size_t second_length);

/* Kit: a group with at least k modules. A planner wants it in the place of solve's group where suppliers pack kits from a least size k: that group, than
 * which none is denser, may have fewer modules; where it has k or more, it is the one to take. The sets left over in the leaving order are those present when
 * 0, 1, 2 and so on modules have left; of those with at least k modules the kit is the one of greatest ratio, of equals the larger. Three times its ratio is
 * no less than the ratio of any group with at least k modules; for a group of s modules, be s below k or not, (2s + k)/s times is enough. Writes the kit's
 * member bytes (1 in, 0 out) and answers P and Q, its inside count and its number of modules. Wants N entries of members, 16,384 words of work. Refuses by
 * 13, 12, 20, 21. The work buffer is untouched after 12 or 13 and holds 16,384 zero words after any other return. */
kandurzo_verdict_t kandurzo_kit(kandurzo_head_t head, const kandurzo_pair_t *list, size_t length, uint32_t k, uint8_t *members, size_t members_length,
                                uint32_t *work, size_t work_length);

#ifdef __cplusplus
}
#endif

#endif
