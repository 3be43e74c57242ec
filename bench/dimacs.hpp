// A list's DIMACS edge files, from memory and into it: read and written by ours and by others. They have no stop counts; the pair file has.
//
// igraph reads the very bytes that ours reads and makes a graph of them. LEMON knows no `edge` files: it reads and writes the same pairs on lines
// `p mat N M` and `a A B`. Boost's reader loses the second number of an `e` line (dimacs_basic_reader, 1.74). igraph writes its edge list, one pair a
// line; the others' graphs to write stand already.
#pragma once

#include <algorithm>
#include <cstdint>
#include <cstdio>
#include <cstdlib>
#include <cstring>
#include <random>
#include <sstream>
#include <string>
#include <vector>

#include <igraph/igraph.h>
#include <lemon/dimacs.h>
#include <lemon/smart_graph.h>

#include "listed.hpp"

class Dimacs {
    kandurzo_head_t head;
    const std::vector<kandurzo_pair_t> &list;
    Lent &lent;
    lemon::SmartDigraph arcs;

    static std::string both(int a, int b) { return std::to_string(a) + " " + std::to_string(b) + "\n"; }

  public:
    std::string listed, commented, shuffled;  // in list order, the same with a comment before each line, in any order with either module first
    std::string pair_file;                    // the pair file with the pairs as in `shuffled`
    std::string mat;                          // as `listed`, with the lines that LEMON reads

    Dimacs(const Listed &listed_pairs) : head(listed_pairs.head), list(listed_pairs.list), lent(listed_pairs.lent) {
        std::mt19937 random(1);
        Pairs pairs(listed_pairs.pairs), scattered(pairs);
        std::vector<kandurzo_pair_t> ones(list);
        std::shuffle(scattered.begin(), scattered.end(), random);
        listed = shuffled = "p edge " + both(head.n, head.m);
        mat = "p mat " + both(head.n, head.m);
        commented = "c a list of fault pairs\n" + listed;
        pair_file = "modules=" + std::to_string(head.n) + "\npairs=" + std::to_string(head.m) + "\n";
        for (kandurzo_pair_t &one : ones) one.w = 1;
        for (uint32_t v = 0; v < head.n; v++) arcs.addNode();
        for (auto [a, b, w] : pairs) {
            listed += "e " + both(a + 1, b + 1);
            mat += "a " + both(a + 1, b + 1);
            commented += "c pair " + both(a, b) + "e " + both(a + 1, b + 1);
            arcs.addArc(arcs.nodeFromId(a), arcs.nodeFromId(b));
        }
        for (auto [a, b, w] : scattered) {
            if (random() % 2) std::swap(a, b);
            shuffled += "e " + both(a + 1, b + 1);
            pair_file += std::to_string(a) + "," + std::to_string(b) + "," + std::to_string(w) + "\n";
        }
        for (const std::string *file : {&listed, &commented, &shuffled}) read(*file), same(ones);
        read_pairs(), same(list);
        write();
        if (listed != std::string(lent.text, lent.text + listed.size())) fail("another file is written");
    }

    // The last file read has these records.
    void same(const std::vector<kandurzo_pair_t> &wanted) {
        if (memcmp(lent.list, wanted.data(), head.m * sizeof *lent.list)) fail("another list is read");
        memset(lent.list, 0, sizeof lent.list);
    }

    void read(const std::string &file) {
        auto bytes = reinterpret_cast<const uint8_t *>(file.data());
        if (kandurzo_read_dimacs(bytes, file.size(), lent.list, KANDURZO_PAIRS, lent.work, KANDURZO_WORK).number) fail("the DIMACS file is refused");
    }

    void read_pairs() {
        auto bytes = reinterpret_cast<const uint8_t *>(pair_file.data());
        if (kandurzo_read(bytes, pair_file.size(), lent.list, KANDURZO_PAIRS, lent.work, KANDURZO_WORK).number) fail("the shuffled file is refused");
    }

    void read_by_scanf() {
        FILE *in = fmemopen(listed.data(), listed.size(), "r");
        unsigned a, b, lines = 0;
        if (fscanf(in, "p edge %u %u\n", &a, &b) != 2) fail("scanf");
        while (fscanf(in, "e %u %u\n", &a, &b) == 2) lines++;
        fclose(in);
        if (lines != head.m) fail("scanf");
    }

    void read_by_lemon() {
        std::istringstream in(mat);
        lemon::SmartDigraph graph;
        readDimacsMat(in, graph);
        if (countArcs(graph) != int(head.m)) fail("LEMON reads");
    }

    void read_by_igraph(std::string &file) {
        FILE *in = fmemopen(file.data(), file.size(), "r");
        igraph_t graph;
        igraph_integer_t source, target;
        igraph_vector_t capacity;
        igraph_vector_init(&capacity, 0);
        igraph_read_graph_dimacs_flow(&graph, in, nullptr, nullptr, &source, &target, &capacity, false);
        fclose(in);
        if (igraph_vcount(&graph) != head.n || igraph_ecount(&graph) != head.m) fail("igraph reads");
        igraph_vector_destroy(&capacity);
        igraph_destroy(&graph);
    }

    void write() {
        kandurzo_written_t written = kandurzo_write_dimacs(head, list.data(), head.m, lent.text, KANDURZO_TEXT);
        if (written.number || written.length != listed.size()) fail("write_dimacs declines");
    }

    void write_by_sprintf() {
        char *out = reinterpret_cast<char *>(lent.text);
        int length = sprintf(out, "p edge %u %u\n", unsigned(head.n), unsigned(head.m));
        for (uint32_t j = 0; j < head.m; j++) length += sprintf(out + length, "e %u %u\n", list[j].a + 1u, list[j].b + 1u);
        if (size_t(length) != listed.size()) fail("sprintf");
    }

    void write_by_lemon() {
        std::ostringstream out;
        writeDimacsMat(out, arcs);
        std::string written = out.str();  // LEMON numbers the modules in an order of its own
        if (std::count(written.begin(), written.end(), '\n') != head.m + 1) fail("LEMON writes");
    }

    void write_by_igraph(const igraph_t &graph) {
        char *bytes;
        size_t length;
        FILE *out = open_memstream(&bytes, &length);
        igraph_write_graph_edgelist(&graph, out);
        fclose(out);
        if (length == 0) fail("igraph writes");
        free(bytes);
    }
};
