// Times Kandurzo beside libraries in use today, on many lists, all in one process.
//
//   compare REPETITIONS BATCH
//
// BATCH is a file with a line `WHAT FILE` for each list: its pair file, and what is wanted: `ours` to leave the others out; `quick` for our solve and for
// those of LEMON and Boost-BK, whole and core; `searches` for all of solve, check and peel; `all`; or `programme` for all and, once, the linear programme.
//
// A repetition makes each call on each list once, all of them in an order by chance: a list that is solved twice in a row is known by heart to the processor's
// guesses of branches, which makes it look up to three times as quick as it is among others. The next repetition has another order.
//
// Prints, for each list, a line `list FILE`, then `NAME MICROSECONDS` for each call (processor time, the median of the repetitions), `p` and `q` of the
// greatest ratio, and `differs`, on how many modules Boost's weighted core numbers are others. Every density and every core number is compared with ours,
// but for Boost's weighted core numbers; a difference ends the program.
#include <deque>
#include <memory>
#include <random>

#include "adds.hpp"
#include "common.hpp"
#include "listed.hpp"
#include "peels.hpp"
#include "reads.hpp"
#include "solves.hpp"

static void jobs(Listed &list) {
    solves(list);
    if (list.what == "quick") return;
    auto drawn = std::make_shared<Drawn>(list);
    check(list), peels(list, drawn);
    if (list.what == "searches") return;
    reads(list), dimacs(list, drawn);
    adds(list), raises(list);
}

static std::deque<Listed> opened(const char *batch, Lent &lent) {
    std::deque<Listed> lists;
    std::ifstream in(batch);
    for (std::string what, path; in >> what >> path;) jobs(lists.emplace_back(path, what, lent));
    return lists;
}

static void run(std::deque<Listed> &lists, int repetitions) {
    std::mt19937 random(1);
    std::vector<Job *> order;
    for (Listed &list : lists)
        for (Job &job : list.jobs) order.push_back(&job);
    for (int i = 0; i < repetitions; i++) {
        std::shuffle(order.begin(), order.end(), random);
        for (Job *job : order) {
            job->before();
            double begin = microseconds();
            job->run();
            job->times.push_back(microseconds() - begin);
            job->after();
        }
    }
}

static void print(Listed &list) {
    printf("list %s\n", list.path.c_str());
    for (Job &job : list.jobs) {
        std::sort(job.times.begin(), job.times.end());
        printf("%s %.2f\n", job.name.c_str(), job.times[job.times.size() / 2]);
    }
    if (list.what == "programme") printf("solve GLPK %.2f\n", by_programme(list));
    printf("p %u\nq %u\ndiffers %d\n", list.ours.p, list.ours.q, differing(list));
}

int main(int count, char **words) {
    if (count != 3) fail("compare REPETITIONS BATCH");
    static Lent lent;
    std::deque<Listed> lists = opened(words[2], lent);
    run(lists, atoi(words[1]));
    for (Listed &list : lists) print(list);
}
