// Pair files and DIMACS edge files read and written by ours and by others, from memory.
//
// scanf only converts the numbers; LEMON and igraph read a maximum flow problem with the stop counts as capacities.
#pragma once

#include <memory>

#include "dimacs.hpp"
#include "listed.hpp"
#include "peels.hpp"

// The list as a maximum flow problem.
inline std::string flow_problem(const Listed &list) {
    std::string n = std::to_string(list.n), lines = "p max " + n + " " + std::to_string(list.m) + "\nn 1 s\nn " + n + " t\n";
    for (auto [a, b, w] : list.pairs) lines += "a " + std::to_string(a + 1) + " " + std::to_string(b + 1) + " " + std::to_string(w) + "\n";
    return lines;
}

inline void read_by_scanf(Listed &list) {
    FILE *in = fmemopen(list.file.data(), list.file.size(), "r");
    unsigned a, b, w, lines = 0;
    if (fscanf(in, "modules=%u\npairs=%u\n", &a, &b) != 2) fail("scanf");
    while (fscanf(in, "%u,%u,%u\n", &a, &b, &w) == 3) lines++;
    fclose(in);
    if (lines != list.head.m) fail("scanf");
}

inline void read_by_igraph(const Listed &list, std::string &problem) {
    FILE *in = fmemopen(problem.data(), problem.size(), "r");
    igraph_t graph;
    igraph_integer_t source, target;
    igraph_vector_t capacity;
    igraph_vector_init(&capacity, 0);
    igraph_read_graph_dimacs_flow(&graph, in, nullptr, nullptr, &source, &target, &capacity, false);
    fclose(in);
    if (igraph_ecount(&graph) != list.m || VECTOR(capacity)[list.m - 1] != list.pairs.back().w) fail("igraph reads");
    igraph_vector_destroy(&capacity);
    igraph_destroy(&graph);
}

inline void read_by_lemon(const Listed &list, const std::string &problem) {
    std::istringstream in(problem);
    lemon::SmartDigraph graph;
    lemon::SmartDigraph::ArcMap<int> capacity(graph);
    lemon::SmartDigraph::Node source, target;
    readDimacsMax(in, graph, capacity, source, target);
    if (countArcs(graph) != list.m || capacity[graph.arcFromId(list.m - 1)] != list.pairs.back().w) fail("LEMON reads");
}

inline void reads(Listed &list) {
    auto problem = std::make_shared<std::string>(flow_problem(list));
    list.time("read ours", [&] { list.read(); });
    list.time("read scanf", [&] { read_by_scanf(list); });
    list.time("read igraph", [&list, problem] { read_by_igraph(list, *problem); });
    list.time("read LEMON", [&list, problem] { read_by_lemon(list, *problem); });
}

// DIMACS edge files, and the pair file with its lines in the same order as those that are shuffled.
inline void dimacs(Listed &list, const std::shared_ptr<Drawn> &drawn) {
    auto files = std::make_shared<Dimacs>(list);
    list.time("read shuffled", [files] { files->read_pairs(); });
    list.time("read_dimacs shuffled", [files] { files->read(files->shuffled); });
    list.time("read_dimacs ours", [files] { files->read(files->listed); });
    list.time("read_dimacs scanf", [files] { files->read_by_scanf(); });
    list.time("read_dimacs igraph", [files] { files->read_by_igraph(files->listed); });
    list.time("read_dimacs LEMON", [files] { files->read_by_lemon(); });
    list.time("read_dimacs commented ours", [files] { files->read(files->commented); });
    list.time("read_dimacs commented igraph", [files] { files->read_by_igraph(files->commented); });
    list.time("write_dimacs ours", [files] { files->write(); });
    list.time("write_dimacs sprintf", [files] { files->write_by_sprintf(); });
    list.time("write_dimacs LEMON", [files] { files->write_by_lemon(); });
    list.time("write_dimacs igraph", [files, drawn] { files->write_by_igraph(drawn->graph); });
}
