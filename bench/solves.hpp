// Solve by ours and by others, and check.
//
// The others find the greatest ratio by minimum cuts in Goldberg's network and Dinkelbach's iteration: a cut that shows a denser group raises the guess,
// until none does. Stop counts are capacities. Three ways to use it: `textbook` takes the whole list and Goldberg's own capacities, and begins at the whole
// list's ratio; `whole` takes capacities without what would go straight from source to target; `core` also begins at the densest remainder of a peeling (by
// buckets where all counts are 1, else by a heap) and puts only the core of that order into the network, which is where ours begins. The linear programme is
// Charikar's in its smaller, dual form: hand out each pair's stops between its ends so that the greatest load is least.
#pragma once

#include <cmath>

#include "listed.hpp"
#include "networks.hpp"
#include "starts.hpp"

inline void check(Listed &list) {
    Lent &lent = list.lent;
    auto answered = [&] {
        std::copy(list.members.begin(), list.members.end(), lent.members);
        std::copy(list.shares.begin(), list.shares.end(), lent.shares);
    };
    auto run = [&] {
        kandurzo_verdict_t v =
            kandurzo_check(list.head, list.list.data(), list.m, lent.members, list.n, lent.shares, list.m, lent.work, KANDURZO_WORK);
        if (v.number || v.p != list.ours.p || v.q != list.ours.q) fail("check declines");
    };
    list.time("check ours", run, [] {}, answered);
}

inline void solves(Listed &list) {
    list.time("solve ours", [&] { list.solve(); });
    for (auto [way, begin] : {std::pair{"core", core}, {"whole", whole}, {"textbook", textbook}}) {
        auto engine = [&list, way = way, begin = begin](const std::string &name, Ratio (*run)(Scope)) {
            list.time("solve " + name + " " + way, [&list, run, begin] {
                Ratio r = run(begin(list.n, list.pairs));
                if (r.p * list.ours.q != list.ours.p * r.q) fail("another density");
            });
        };
        engine("LEMON", list.ones ? densest<Lemon<int>> : densest<Lemon<long>>);
        engine("Boost-push-relabel", densest<BoostPushRelabel>);
        engine("Boost-BK", densest<BoostKolmogorov>);
        engine("igraph", densest<Igraph>);
    }
}

// How long the linear programme takes. Two densities may be nearer to each other than its tolerance.
inline double by_programme(const Listed &list) {
    double begin = microseconds();
    double load = programme(list.n, list.pairs);
    double took = microseconds() - begin;
    if (std::fabs(load - list.ours.ratio) > 1e-6 * std::max(1.0, list.ours.ratio)) fail("another density by the linear programme");
    return took;
}
