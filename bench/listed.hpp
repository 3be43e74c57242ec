// One list as all calls get it, what ours answers to it, and what is to be timed on it.
#pragma once

#include <algorithm>
#include <cstring>
#include <functional>
#include <numeric>
#include <string>
#include <vector>

#include "../callers/c/kandurzo.h"
#include "common.hpp"

// The buffers that are lent to our calls, the same for all lists.
struct Lent {
    kandurzo_pair_t list[KANDURZO_PAIRS];
    uint8_t members[KANDURZO_MODULES], text[KANDURZO_TEXT];
    uint16_t order[KANDURZO_MODULES];
    uint32_t cores[KANDURZO_MODULES], shares[KANDURZO_PAIRS], work[KANDURZO_WORK];
};

// What is timed; `before` and `after` are not.
struct Job {
    std::string name;
    std::function<void()> run, before, after;
    std::vector<double> times;
};

struct Listed {
    std::string path, what, file;  // the pair file's name, which jobs are wanted (see compare.cpp), and the file
    Lent &lent;
    kandurzo_head_t head;
    std::vector<kandurzo_pair_t> list;
    int n, m;
    bool ones;
    Pairs pairs, scattered;
    kandurzo_solved_t ours;
    std::vector<uint8_t> members;
    std::vector<uint32_t> cores, shares;
    std::vector<Job> jobs;

    Listed(const std::string &path, const std::string &what, Lent &lent) : path(path), what(what), file(text(path)), lent(lent) {
        head = read();
        n = head.n, m = head.m;
        list.assign(lent.list, lent.list + m);
        for (kandurzo_pair_t r : list) pairs.push_back({r.a, r.b, r.w});
        ones = stops(pairs) == m;
        int stride = m / 2 + 1;
        while (m && std::gcd(stride, m) != 1) stride++;
        for (int j = 0; j < m; j++) scattered.push_back(pairs[long(j) * stride % m]);
        ours = solve();
        members.assign(lent.members, lent.members + n);
        cores.assign(lent.cores, lent.cores + n);
        shares.assign(lent.shares, lent.shares + m);
    }

    kandurzo_head_t read() {
        auto bytes = reinterpret_cast<const uint8_t *>(file.data());
        kandurzo_changed_t opened = kandurzo_read(bytes, file.size(), lent.list, KANDURZO_PAIRS, lent.work, KANDURZO_WORK);
        if (opened.number) fail("a file is refused");
        return opened.head;
    }

    kandurzo_solved_t solve() {
        kandurzo_solved_t found =
            kandurzo_solve(head, list.data(), m, lent.members, n, lent.cores, n, lent.shares, m, lent.work, KANDURZO_WORK);
        if (found.number) fail("solve declines");
        return found;
    }

    bool wanted(const std::string &name) const {
        auto has = [&](const char *part) { return name.find(part) != std::string::npos; };
        if (what == "ours") return has("ours") || has("shuffled");
        return what != "quick" || has("ours") || ((has("LEMON") || has("Boost-BK")) && !has("textbook"));
    }

    void time(const std::string &name, std::function<void()> run, std::function<void()> after = [] {}, std::function<void()> before = [] {}) {
        if (wanted(name)) jobs.push_back({name, run, before, after, {}});
    }

    template <class Values> void same_cores(const Values &values) const {
        if (!std::equal(cores.begin(), cores.end(), std::begin(values))) fail("other core numbers");
    }
};
