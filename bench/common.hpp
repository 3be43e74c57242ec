// What the programs share.
#pragma once

#include <cstdio>
#include <cstdlib>
#include <ctime>
#include <fstream>
#include <sstream>
#include <string>
#include <utility>
#include <vector>

// Two modules and the pair's stop count.
struct Stops {
    int a, b, w;
};

using Pairs = std::vector<Stops>;

struct Ratio {
    long p, q;
};

[[noreturn]] inline void fail(const std::string &why) {
    fprintf(stderr, "bench: %s\n", why.c_str());
    exit(1);
}

// All stop counts together.
inline long stops(const Pairs &pairs) {
    long sum = 0;
    for (const Stops &pair : pairs) sum += pair.w;
    return sum;
}

inline std::string text(const std::string &path) {
    std::ifstream in(path);
    std::stringstream all;
    all << in.rdbuf();
    return all.str();
}

// The processor time of this thread: what others do on the machine meanwhile is not counted.
inline double microseconds() {
    timespec t;
    clock_gettime(CLOCK_THREAD_CPUTIME_ID, &t);
    return t.tv_sec * 1e6 + t.tv_nsec / 1e3;
}
