// Goldberg's network of a list with stop counts, and its least cut by the libraries.
#pragma once

#include <algorithm>
#include <numeric>
#include <vector>

#include <boost/graph/boykov_kolmogorov_max_flow.hpp>
#include <boost/graph/compressed_sparse_row_graph.hpp>
#include <boost/graph/push_relabel_max_flow.hpp>
#include <igraph/igraph.h>
#include <lemon/preflow.h>
#include <lemon/smart_graph.h>

#include "common.hpp"

// Modules 0 to n-1, source n, target n+1. Arc 2i+1 is the reverse of arc 2i. First an arc from the source and one to the target for each module, then
// the pairs, which can be cut in both directions: as one arc and its reverse, or, where a library wants every reverse to have no capacity, as two
// arcs with a reverse each (`doubled`).
struct Network {
    int n;
    bool doubled;
    Pairs pairs;
    std::vector<int> from, to;
    std::vector<long> degree, capacity;
    long all;  // all stop counts together

    Network(int n, const Pairs &pairs, bool doubled) : n(n), doubled(doubled), pairs(pairs), degree(n), all(stops(pairs)) {
        for (int v = 0; v < n; v++) edge(n, v), edge(v, n + 1);
        for (auto [a, b, w] : pairs) {
            edge(a, b), degree[a] += w, degree[b] += w;
            if (doubled) edge(b, a);
        }
        capacity.resize(from.size());
    }

    void edge(int a, int b) {
        from.push_back(a), to.push_back(b);
        from.push_back(b), to.push_back(a);
    }

    // With these capacities a cut is least where q * inside - p * modules is greatest. `base` is what each module gets from the source in any case: M * q
    // in Goldberg's paper, with stop counts their sum times q; without it, only one of a module's two arcs has a capacity. A pair's is its stop count times q.
    void guess(Ratio r, bool textbook) {
        for (int v = 0; v < n; v++) {
            long over = degree[v] * r.q - 2 * r.p, base = textbook ? all * r.q : std::max(over, 0L);
            capacity[4 * v] = base, capacity[4 * v + 2] = base - over;
        }
        size_t i = 4 * n;
        for (const Stops &pair : pairs)
            for (int way = 0; way < 2; way++, i += 1 + doubled) capacity[i] = pair.w * r.q;
    }
};

// With counts of 1 every sum of capacities fits in 32 bits; with others it does not.
template <class Value> struct Lemon {
    static constexpr bool doubled = true;
    lemon::SmartDigraph graph;
    lemon::SmartDigraph::ArcMap<Value> capacity;

    Lemon(const Network &net) : capacity(graph) {
        graph.reserveNode(net.n + 2), graph.reserveArc(net.from.size() / 2);
        for (int v = 0; v < net.n + 2; v++) graph.addNode();
        for (size_t i = 0; i < net.from.size(); i += 2) graph.addArc(graph.nodeFromId(net.from[i]), graph.nodeFromId(net.to[i]));
    }

    std::vector<char> source_side(const Network &net) {
        for (size_t i = 0; i < net.from.size(); i += 2) capacity[graph.arcFromId(i / 2)] = net.capacity[i];
        lemon::Preflow<lemon::SmartDigraph, lemon::SmartDigraph::ArcMap<Value>> flow(graph, capacity, graph.nodeFromId(net.n), graph.nodeFromId(net.n + 1));
        flow.runMinCut();
        std::vector<char> side(net.n);
        for (int v = 0; v < net.n; v++) side[v] = flow.minCut(graph.nodeFromId(v));
        return side;
    }
};

using Rows = boost::compressed_sparse_row_graph<boost::directedS>;

struct Boost {
    Rows graph;
    std::vector<int> place;  // where an arc stands in the rows
    std::vector<long> capacity, residual;
    std::vector<Rows::edge_descriptor> reverse;

    Boost(const Network &net) {
        int count = net.from.size(), nodes = net.n + 2;
        std::vector<int> first(nodes + 1);
        for (int v : net.from) first[v + 1]++;
        std::partial_sum(first.begin(), first.end(), first.begin());
        place.resize(count);
        std::vector<std::pair<int, int>> arcs(count);
        for (int i = 0; i < count; i++) place[i] = first[net.from[i]]++, arcs[place[i]] = {net.from[i], net.to[i]};
        graph = Rows(boost::edges_are_sorted, arcs.begin(), arcs.end(), nodes);
        capacity.resize(count), residual.resize(count), reverse.resize(count);
        for (int i = 0; i < count; i++) reverse[place[i]] = Rows::edge_descriptor(net.to[i], place[i ^ 1]);
    }

    template <class T> auto map(std::vector<T> &values) {
        return boost::make_iterator_property_map(values.begin(), get(boost::edge_index, graph));
    }

    void load(const Network &net) {
        for (size_t i = 0; i < place.size(); i++) capacity[place[i]] = net.capacity[i];
    }
};

struct BoostPushRelabel : Boost {
    static constexpr bool doubled = true;
    using Boost::Boost;

    std::vector<char> source_side(const Network &net) {
        load(net);
        push_relabel_max_flow(graph, net.n, net.n + 1, map(capacity), map(residual), map(reverse), get(boost::vertex_index, graph));
        std::vector<char> side(net.n + 2);
        std::vector<int> queue{net.n};
        side[net.n] = 1;
        for (size_t at = 0; at < queue.size(); at++)
            for (auto [e, end] = out_edges(size_t(queue[at]), graph); e != end; ++e)
                if (int u = target(*e, graph); !side[u] && get(map(residual), *e) > 0) side[u] = 1, queue.push_back(u);
        return side;
    }
};

struct BoostKolmogorov : Boost {
    static constexpr bool doubled = false;
    using Boost::Boost;

    std::vector<char> source_side(const Network &net) {
        load(net);
        int nodes = net.n + 2;
        std::vector<Rows::edge_descriptor> before(nodes);
        std::vector<boost::default_color_type> color(nodes);
        std::vector<long> distance(nodes);
        auto index = get(boost::vertex_index, graph);
        boykov_kolmogorov_max_flow(graph, map(capacity), map(residual), map(reverse), boost::make_iterator_property_map(before.begin(), index),
                                   boost::make_iterator_property_map(color.begin(), index),
                                   boost::make_iterator_property_map(distance.begin(), index), index, net.n, net.n + 1);
        std::vector<char> side(nodes);
        for (int v = 0; v < nodes; v++) side[v] = color[v] == boost::black_color;
        return side;
    }
};

struct Igraph {
    static constexpr bool doubled = true;
    igraph_t graph;
    igraph_vector_t capacity;

    Igraph(const Network &net) {
        igraph_vector_int_t ends;
        igraph_vector_int_init(&ends, net.from.size());
        for (size_t i = 0; i < net.from.size(); i += 2) VECTOR(ends)[i] = net.from[i], VECTOR(ends)[i + 1] = net.to[i];
        igraph_create(&graph, &ends, net.n + 2, true);
        igraph_vector_int_destroy(&ends);
        igraph_vector_init(&capacity, net.from.size() / 2);
    }

    ~Igraph() {
        igraph_destroy(&graph);
        igraph_vector_destroy(&capacity);
    }

    std::vector<char> source_side(const Network &net) {
        for (size_t i = 0; i < net.from.size(); i += 2) VECTOR(capacity)[i / 2] = net.capacity[i];
        igraph_vector_int_t near, far;
        igraph_vector_int_init(&near, 0), igraph_vector_int_init(&far, 0);
        igraph_real_t value;
        igraph_maxflow(&graph, &value, nullptr, nullptr, &near, &far, net.n, net.n + 1, &capacity, nullptr);
        std::vector<char> side(net.n + 2);
        for (igraph_integer_t i = 0; i < igraph_vector_int_size(&near); i++) side[VECTOR(near)[i]] = 1;
        igraph_vector_int_destroy(&near), igraph_vector_int_destroy(&far);
        return side;
    }
};
