// Add by ours and by others: whole lists pair by pair, in a scattered order, and counts of held pairs raised. igraph's pairs have no counts.
#pragma once

#include <map>
#include <memory>

#include <boost/graph/adjacency_list.hpp>
#include <igraph/igraph.h>

#include "listed.hpp"

using Mapped = boost::adjacency_list<boost::setS, boost::vecS, boost::undirectedS, boost::no_property, boost::property<boost::edge_weight_t, int>>;
using Table = std::map<std::pair<int, int>, int>;

inline void add_by_ours(Listed &list) {
    kandurzo_head_t head = kandurzo_start(list.n).head;
    for (auto [a, b, w] : list.scattered)
        if (kandurzo_add_to(&head, list.lent.list, KANDURZO_PAIRS, a, b, w)) fail("add declines");
    if (memcmp(list.lent.list, list.list.data(), list.m * sizeof *list.lent.list)) fail("another list");
}

inline void adds(Listed &list) {
    list.time("add ours", [&] { add_by_ours(list); });
    list.time("add std::map", [&] {
        Table table;
        for (auto [a, b, w] : list.scattered) table[{a, b}] += w;
        if (table.size() != list.head.m) fail("another table");
    });
    list.time("add Boost", [&] {
        Mapped graph(list.n);
        for (auto [a, b, w] : list.scattered) put(boost::edge_weight, graph, add_edge(a, b, graph).first, w);
        if (num_edges(graph) != list.head.m) fail("another graph");
    });
    list.time("add igraph", [&] {
        igraph_t graph;
        igraph_empty(&graph, list.n, false);
        for (auto [a, b, w] : list.scattered) igraph_add_edge(&graph, a, b);
        igraph_destroy(&graph);
    });
}

// One stop more of each pair of the list, its counts being 1 before.
inline void raises(Listed &list) {
    auto table = std::make_shared<Table>();
    auto graph = std::make_shared<Mapped>(list.n);
    for (auto [a, b, w] : list.pairs) (*table)[{a, b}] = 1, put(boost::edge_weight, *graph, add_edge(a, b, *graph).first, 1);
    kandurzo_pair_t *records = list.lent.list;
    auto ones = [&list, records] {
        for (int j = 0; j < list.m; j++) records[j] = {list.list[j].a, list.list[j].b, 1};
    };
    auto raise = [&list, records] {
        kandurzo_head_t head = list.head;
        for (auto [a, b, w] : list.scattered)
            if (kandurzo_add_to(&head, records, KANDURZO_PAIRS, a, b, 1)) fail("add declines");
    };
    auto raised = [&list, records] {
        for (int j = 0; j < list.m; j++)
            if (records[j].w != 2) fail("another count");
    };
    list.time("raise ours", raise, raised, ones);
    list.time("raise std::map", [&list, table] {
        for (auto [a, b, w] : list.scattered) (*table)[{a, b}]++;
    });
    list.time("raise Boost", [&list, graph] {
        auto weight = get(boost::edge_weight, *graph);
        for (auto [a, b, w] : list.scattered) weight[edge(a, b, *graph).first]++;
    });
}
