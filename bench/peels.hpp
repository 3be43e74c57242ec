// Peel by ours and by others.
//
// The graphs of the others stand already, or are made of the pairs within the time; only ours gives the leaving order. igraph and Boost count pairs, so they
// run where all counts are 1. With others Boost has weighted core numbers, which take a module's stops away from all who have more, also where that leaves
// them below the module that went: they differ from the core numbers of document 01, and are not compared.
#pragma once

#include <memory>

#include <boost/graph/adjacency_list.hpp>
#include <boost/graph/core_numbers.hpp>

#include "listed.hpp"
#include "networks.hpp"
#include "starts.hpp"

using Adjacent = boost::adjacency_list<boost::vecS, boost::vecS, boost::undirectedS>;
using Weighted = boost::adjacency_list<boost::vecS, boost::vecS, boost::undirectedS, boost::no_property, boost::property<boost::edge_weight_t, int>>;

inline Adjacent adjacent(const Listed &list) {
    Adjacent graph(list.n);
    for (auto [a, b, w] : list.pairs) add_edge(a, b, graph);
    return graph;
}

inline Weighted weighted(const Listed &list) {
    Weighted graph(list.n);
    for (auto [a, b, w] : list.pairs) add_edge(a, b, w, graph);
    return graph;
}

// As a graph of igraph's, with a buffer for its core numbers.
struct Drawn {
    igraph_t graph;
    igraph_vector_int_t ends, numbers;

    Drawn(const Listed &list) {
        igraph_vector_int_init(&ends, 2 * list.m), igraph_vector_int_init(&numbers, list.n);
        for (int j = 0; j < list.m; j++) VECTOR(ends)[2 * j] = list.pairs[j].a, VECTOR(ends)[2 * j + 1] = list.pairs[j].b;
        igraph_create(&graph, &ends, list.n, false);
    }

    ~Drawn() {
        igraph_destroy(&graph);
        igraph_vector_int_destroy(&ends), igraph_vector_int_destroy(&numbers);
    }
};

// Boost's core numbers of a graph with as many modules as there are numbers.
template <class Graph> void number(Graph &graph, std::vector<int> &numbers) {
    core_numbers(graph, boost::make_iterator_property_map(numbers.begin(), get(boost::vertex_index, graph)));
}

inline void weigh(Weighted &graph, std::vector<int> &numbers) {
    auto map = boost::make_iterator_property_map(numbers.begin(), get(boost::vertex_index, graph));
    weighted_core_numbers(graph, map, boost::make_core_numbers_visitor(boost::null_visitor()));
}

// On how many modules Boost's weighted core numbers are others.
inline int differing(const Listed &list) {
    std::vector<int> numbers(list.n);
    Weighted graph = weighted(list);
    weigh(graph, numbers);
    int others = 0;
    for (int v = 0; v < list.n; v++) others += list.cores[v] != uint32_t(numbers[v]);
    return others;
}

inline void peels_by_igraph(Listed &list, const std::shared_ptr<Drawn> &drawn) {
    auto same = [&list, drawn] { list.same_cores(std::vector<int>(VECTOR(drawn->numbers), VECTOR(drawn->numbers) + list.n)); };
    auto make = [&list, drawn] {
        igraph_t graph;
        igraph_create(&graph, &drawn->ends, list.n, false);
        igraph_coreness(&graph, &drawn->numbers, IGRAPH_ALL);
        igraph_destroy(&graph);
    };
    list.time("peel igraph", [drawn] { igraph_coreness(&drawn->graph, &drawn->numbers, IGRAPH_ALL); }, same);
    list.time("peel igraph from pairs", make, same);
}

inline void peels_by_boost(Listed &list) {
    auto standing = std::make_shared<Adjacent>(adjacent(list));
    auto numbers = std::make_shared<std::vector<int>>(list.n);
    auto same = [&list, numbers] { list.same_cores(*numbers); };
    auto make = [&list, numbers] {
        Adjacent graph = adjacent(list);
        number(graph, *numbers);
    };
    auto compressed = [&list, numbers] {
        std::vector<std::pair<int, int>> both;
        both.reserve(2 * list.m);
        for (auto [a, b, w] : list.pairs) both.push_back({a, b}), both.push_back({b, a});
        Rows graph(boost::edges_are_unsorted, both.begin(), both.end(), list.n);
        number(graph, *numbers);
    };
    list.time("peel Boost", [standing, numbers] { number(*standing, *numbers); }, same);
    list.time("peel Boost from pairs", make, same);
    list.time("peel Boost-CSR from pairs", compressed, same);
}

inline void peels_weighted(Listed &list) {
    auto standing = std::make_shared<Weighted>(weighted(list));
    auto numbers = std::make_shared<std::vector<int>>(list.n);
    list.time("peel Boost-weighted", [standing, numbers] { weigh(*standing, *numbers); });
    list.time("peel Boost-weighted from pairs", [&list, numbers] {
        Weighted graph = weighted(list);
        weigh(graph, *numbers);
    });
}

inline void peels_by_heap(Listed &list) {
    auto partners = std::make_shared<Partners>(list.n, list.pairs);
    auto numbers = std::make_shared<std::vector<int>>(list.n);
    auto same = [&list, numbers] { list.same_cores(*numbers); };
    list.time("peel heap", [&list, partners, numbers] { *numbers = by_heap(*partners, stops(list.pairs)).cores; }, same);
    auto make = [&list, numbers] { *numbers = by_heap(Partners(list.n, list.pairs), stops(list.pairs)).cores; };
    list.time("peel heap from pairs", make, same);
}

inline void peels(Listed &list, const std::shared_ptr<Drawn> &drawn) {
    Lent &lent = list.lent;
    auto ours = [&] {
        if (kandurzo_peel(list.head, list.list.data(), list.m, lent.order, list.n, lent.cores, list.n, lent.work, KANDURZO_WORK)) fail("peel declines");
    };
    list.time("peel ours", ours, [&] { list.same_cores(lent.cores); });
    peels_by_heap(list);
    peels_weighted(list);
    if (list.ones) peels_by_igraph(list, drawn), peels_by_boost(list);
}
