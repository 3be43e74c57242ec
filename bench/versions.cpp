// Times two builds of Kandurzo against each other, on many lists, in one process.
//
//   versions REPETITIONS < FILES
//
// Is linked with both archives, the names of one beginning with `old_` and those of the other with `new_` (see `versions`). FILES are the names of pair files,
// a line each. A repetition makes each call on each list once by both builds, in two passes over all of them in an order by chance: in a pass the builds take
// turns, in the next one each does what the other did. So a list hardly ever comes twice in a row (compare.cpp says why), nor behind the same neighbour.
//
// Prints a line `CALL OLD NEW FILE` for each call and list: processor times in microseconds, a tenth of the repetitions being quicker. Both builds must
// answer the same, the shares aside, which each must accept from the other; else the program ends.
#include <algorithm>
#include <cstring>
#include <deque>
#include <iostream>
#include <random>

#include "../callers/c/kandurzo.h"
#include "common.hpp"

#define CALLS(CALL) CALL(read) CALL(peel) CALL(solve) CALL(check) CALL(kit) CALL(surplus) CALL(add_to) CALL(remove_from)
#define DECLARED(call) decltype(kandurzo_##call) old_kandurzo_##call, new_kandurzo_##call;
#define FIELD(call) decltype(&kandurzo_##call) call;
#define OLD(call) old_kandurzo_##call,
#define NEW(call) new_kandurzo_##call,

extern "C" {
CALLS(DECLARED)
}

struct Library {
    CALLS(FIELD)
};

static const Library libraries[] = {{CALLS(OLD)}, {CALLS(NEW)}};

// The buffers lent to both builds, for all lists.
static struct {
    kandurzo_head_t head;
    kandurzo_pair_t list[KANDURZO_PAIRS];
    uint8_t members[KANDURZO_MODULES], others[KANDURZO_MODULES];
    uint16_t order[KANDURZO_MODULES];
    uint32_t cores[KANDURZO_MODULES], shares[KANDURZO_PAIRS], work[KANDURZO_WORK];
} lent;

// A list, and what the old build answers to it. `added` are the pairs that are added to the others of the list.
struct Listed {
    std::string path, file;
    kandurzo_head_t head;
    std::vector<kandurzo_pair_t> list, added;
    kandurzo_solved_t solved;
    kandurzo_verdict_t kit;
    std::vector<uint8_t> members, packed;
    std::vector<uint16_t> order;
    std::vector<uint32_t> cores, shares;
};

static void agree(bool same, const Listed &list) {
    if (!same) fail("the builds differ, or decline, on " + list.path);
}

template <class Values, class Buffer> static bool holds(const Buffer &buffer, const Values &values) {
    return std::equal(values.begin(), values.end(), buffer);
}

static void read(const Library &library, const Listed &list) {
    auto bytes = reinterpret_cast<const uint8_t *>(list.file.data());
    kandurzo_changed_t read = library.read(bytes, list.file.size(), lent.list, KANDURZO_PAIRS, lent.work, KANDURZO_WORK);
    lent.head = read.head;
    agree(read.number == 0, list);
}

static void peel(const Library &library, const Listed &list) {
    uint32_t n = list.head.n, m = list.head.m;
    agree(library.peel(list.head, list.list.data(), m, lent.order, n, lent.cores, n, lent.work, KANDURZO_WORK) == 0, list);
}

static kandurzo_solved_t solved(const Library &library, const Listed &list) {
    uint32_t n = list.head.n, m = list.head.m;
    return library.solve(list.head, list.list.data(), m, lent.members, n, lent.cores, n, lent.shares, m, lent.work, KANDURZO_WORK);
}

static void solve(const Library &library, const Listed &list) {
    kandurzo_solved_t s = solved(library, list), o = list.solved;
    agree(s.number == 0 && s.p == o.p && s.q == o.q && s.k == o.k && s.coresize == o.coresize && s.ratio == o.ratio, list);
}

static void check(const Library &library, const Listed &list) {
    uint32_t n = list.head.n, m = list.head.m;
    kandurzo_verdict_t v = library.check(list.head, list.list.data(), m, lent.members, n, lent.shares, m, lent.work, KANDURZO_WORK);
    agree(v.number == 0 && v.p == list.solved.p && v.q == list.solved.q, list);
}

// A kit of at least half of the modules, rounded up.
static kandurzo_verdict_t packed(const Library &library, const Listed &list) {
    uint32_t n = list.head.n;
    return library.kit(list.head, list.list.data(), list.head.m, (n + 1) / 2, lent.members, n, lent.work, KANDURZO_WORK);
}

static void kit(const Library &library, const Listed &list) {
    kandurzo_verdict_t v = packed(library, list);
    agree(v.number == 0 && v.p == list.kit.p && v.q == list.kit.q, list);
}

static void surplus(const Library &library, const Listed &list) {
    uint32_t n = list.head.n;
    kandurzo_difference_t d = library.surplus(list.head, list.list.data(), list.head.m, lent.members, n, lent.others, n);
    agree(d.number == 0 && d.value >= 0, list);
}

static void add(const Library &library, const Listed &list) {
    for (kandurzo_pair_t r : list.added) agree(library.add_to(&lent.head, lent.list, KANDURZO_PAIRS, r.b, r.a, r.w) == 0, list);
}

// The answer of solve, and all modules, for check and surplus.
static void answered(const Library &, const Listed &list) {
    std::copy(list.members.begin(), list.members.end(), lent.members);
    std::copy(list.shares.begin(), list.shares.end(), lent.shares);
    memset(lent.others, 1, list.head.n);
}

// The list without those that are to be added.
static void taken_out(const Library &library, const Listed &list) {
    lent.head = list.head;
    std::copy(list.list.begin(), list.list.end(), lent.list);
    for (kandurzo_pair_t r : list.added) agree(library.remove_from(&lent.head, lent.list, KANDURZO_PAIRS, r.a, r.b) == 0, list);
}

static void nothing(const Library &, const Listed &) {}

static const struct {
    const char *name;
    void (*run)(const Library &, const Listed &), (*before)(const Library &, const Listed &);
} calls[] = {{"solve", solve, nothing}, {"peel", peel, nothing}, {"check", check, answered}, {"kit", kit, nothing}, {"read", read, nothing},
             {"surplus", surplus, answered}, {"add", add, taken_out}};

// What the old build answers.
static void ask(const Library &library, Listed &list) {
    read(library, list);
    uint32_t n = lent.head.n, m = lent.head.m, few = std::min(m, 8u);
    list.head = lent.head;
    list.list.assign(lent.list, lent.list + m);
    for (uint32_t i = 0; i < few; i++) list.added.push_back(list.list[(2 * i + 1) * m / (2 * few)]);
    list.solved = solved(library, list);
    list.members.assign(lent.members, lent.members + n);
    list.shares.assign(lent.shares, lent.shares + m);
    list.kit = packed(library, list);
    list.packed.assign(lent.members, lent.members + n);
    peel(library, list);
    list.order.assign(lent.order, lent.order + n);
    list.cores.assign(lent.cores, lent.cores + n);
}

static bool same_pairs(const Listed &list) {
    return lent.head.n == list.head.n && lent.head.m == list.head.m && !memcmp(lent.list, list.list.data(), list.head.m * sizeof *lent.list);
}

// The new build answers the same, and each accepts the other's shares.
static void ask_again(const Library &old, const Library &library, const Listed &list) {
    read(library, list);
    agree(same_pairs(list), list);
    taken_out(library, list), add(library, list);
    agree(same_pairs(list), list);
    solve(library, list);
    agree(holds(lent.members, list.members) && holds(lent.cores, list.cores), list);
    check(old, list);
    answered(library, list), check(library, list), surplus(library, list);
    kit(library, list);
    agree(holds(lent.members, list.packed), list);
    peel(library, list);
    agree(holds(lent.order, list.order) && holds(lent.cores, list.cores), list);
}

struct Job {
    const Listed *list;
    size_t call;
    std::vector<double> times[2];
};

static void run(std::vector<Job> &jobs, int repetitions) {
    std::mt19937 random(1);
    for (int pass = 0; pass < 2 * repetitions; pass++) {
        if (pass % 2 == 0) std::shuffle(jobs.begin(), jobs.end(), random);
        for (size_t i = 0; i < jobs.size(); i++) {
            auto &[list, call, times] = jobs[i];
            size_t build = (i + pass) % 2;
            calls[call].before(libraries[build], *list);
            double begin = microseconds();
            calls[call].run(libraries[build], *list);
            times[build].push_back(microseconds() - begin);
        }
    }
}

// The time at a tenth of the repetitions: other work on the machine makes some longer, none shorter.
static double low(std::vector<double> &times) {
    std::sort(times.begin(), times.end());
    return times[times.size() / 10];
}

int main(int count, char **words) {
    if (count != 2) fail("versions REPETITIONS < FILES");
    std::deque<Listed> lists;
    for (std::string path; std::getline(std::cin, path);) {
        Listed &list = lists.emplace_back();
        list.path = path, list.file = text(path);
        ask(libraries[0], list), ask_again(libraries[0], libraries[1], list);
    }
    std::vector<Job> jobs;
    for (const Listed &list : lists)
        for (size_t call = 0; call < std::size(calls); call++) jobs.push_back({&list, call, {}});
    run(jobs, atoi(words[1]));
    for (Job &job : jobs) printf("%s %.2f %.2f %s\n", calls[job.call].name, low(job.times[0]), low(job.times[1]), job.list->path.c_str());
}
