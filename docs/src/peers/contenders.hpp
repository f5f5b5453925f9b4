// The engine and its peers: ways to the distances from a node, all over the same network.
//
// What can be made once for a network is made by the constructors: the graphs of the peers, their maps, the engine's
// scratch. `run` is one query and is timed; `distance` reads what it found and is not.
#pragma once

#include "network.hpp"

extern "C" {
#include "overlap.h"
}

#include <boost/graph/compressed_sparse_row_graph.hpp>
#include <boost/graph/dijkstra_shortest_paths.hpp>
#include <boost/graph/dijkstra_shortest_paths_no_color_map.hpp>
#include <lemon/bin_heap.h>
#include <lemon/dijkstra.h>
#include <lemon/quad_heap.h>
#include <lemon/static_graph.h>

#include <cstring>
#include <memory>
#include <utility>

class Engine {
  public:
    explicit Engine(const Network &network)
        : network(network), scratch(scratch_words(network)), answers(network.nodes()) {}

    // The whole call.
    void run(uint32_t source) { expect(0, call(source)); }

    // The network check alone: a node that is not below n is refused by 7 right behind it, before scratch is touched.
    void check() { expect(7, call(network.nodes())); }

    // What the call does between the check and the expansion, by the same function: every word of scratch becomes 0.
    void clear() {
        std::memset(scratch.data(), 0, scratch.size() * sizeof(uint32_t));
        // for all that the compiler knows, somebody reads the words now
        asm volatile("" : : "r"(scratch.data()) : "memory");
    }

    uint32_t distance(uint32_t node) const { return answers[node]; }

    // Document 01: S = 16 × n + 8 × (A + n) × m, where m is 1 for distances.
    static size_t scratch_words(const Network &network) {
        const size_t n = network.nodes();
        return 16 * n + 8 * (network.arcs() + n);
    }

  private:
    uint32_t call(uint32_t node) {
        return overlap_distances(network.starts.data(), network.starts.size(), network.neighbours.data(),
                                 network.neighbours.size(), network.weights.data(), network.weights.size(), node,
                                 scratch.data(), scratch.size(), answers.data(), answers.size());
    }

    static void expect(uint32_t number, uint32_t returned) {
        if (returned != number) {
            throw std::runtime_error("overlap_distances returned " + std::to_string(returned));
        }
    }

    const Network &network;
    std::vector<uint32_t> scratch, answers;
};

class Peer {
  public:
    explicit Peer(const char *name) : name(name) {}
    virtual ~Peer() = default;
    virtual void run(uint32_t source) = 0;
    virtual uint32_t distance(uint32_t node) const = 0;

    const std::string name;
};

// The arcs as pairs of nodes, in the order of the network's arrays. The peers number their arcs in the same order.
inline std::vector<std::pair<uint32_t, uint32_t>> arc_pairs(const Network &network) {
    std::vector<std::pair<uint32_t, uint32_t>> pairs;
    for (uint32_t node = 0; node < network.nodes(); ++node) {
        for (uint32_t arc = network.starts[node]; arc < network.starts[node + 1]; ++arc) {
            pairs.emplace_back(node, network.neighbours[arc]);
        }
    }
    return pairs;
}

// LEMON's Dijkstra on its fastest graph, with a heap of its own. The search object is kept, so its maps and its heap are
// allocated once; `run` initialises them. No predecessors are stored, as the engine hands out none.
using LemonGraph = lemon::StaticDigraph;
using LemonLengths = LemonGraph::ArcMap<uint32_t>;
using LemonPlaces = LemonGraph::NodeMap<int>;

template <class Heap> class Lemon : public Peer {
  public:
    Lemon(const char *name, const Network &network)
        : Peer(name), lengths(built(graph, network)), search(graph, lengths) {
        for (size_t arc = 0; arc < network.arcs(); ++arc) {
            lengths[graph.arc(static_cast<int>(arc))] = network.weights[arc];
        }
        search.predMap(no_predecessors);
    }

    void run(uint32_t source) override { search.run(graph.node(static_cast<int>(source))); }

    uint32_t distance(uint32_t node) const override {
        const auto at = graph.node(static_cast<int>(node));
        return search.reached(at) ? search.dist(at) : OVERLAP_NONE;
    }

  private:
    using NoPredecessors = lemon::NullMap<LemonGraph::Node, LemonGraph::Arc>;
    using Plain = lemon::Dijkstra<LemonGraph, LemonLengths>;
    using WithoutPredecessors = typename Plain::template SetPredMap<NoPredecessors>::Create;
    using Search = typename WithoutPredecessors::template SetStandardHeap<Heap, LemonPlaces>::Create;

    static LemonGraph &built(LemonGraph &graph, const Network &network) {
        const auto pairs = arc_pairs(network);
        graph.build(static_cast<int>(network.nodes()), pairs.begin(), pairs.end());
        return graph;
    }

    LemonGraph graph;
    LemonLengths lengths;
    NoPredecessors no_predecessors;
    Search search;
};

using LemonBinary = Lemon<lemon::BinHeap<uint32_t, LemonPlaces>>;
using LemonQuad = Lemon<lemon::QuadHeap<uint32_t, LemonPlaces>>;

// Boost's Dijkstra on its compressed graph with 32-bit indices, which is faster than with its usual 64-bit ones, and with
// its own choice of heap, a 4-ary one. Weights and distances are plain arrays; no predecessors are stored. It allocates the
// heap in every run, and has no form that keeps it. Without colours it tells by the distances which nodes it has seen.
template <bool with_colours> class Boost : public Peer {
  public:
    Boost(const char *name, const Network &network)
        : Peer(name), graph(built(network)), weights(network.weights), distances(network.nodes()) {}

    void run(uint32_t source) override {
        const auto weight = boost::make_iterator_property_map(weights.data(), get(boost::edge_index, graph));
        const auto distance = boost::make_iterator_property_map(distances.data(), get(boost::vertex_index, graph));
        const auto maps = boost::weight_map(weight).distance_map(distance);
        if constexpr (with_colours) {
            boost::dijkstra_shortest_paths(graph, source, maps);
        } else {
            boost::dijkstra_shortest_paths_no_color_map(graph, source, maps);
        }
    }

    // A node that can't be reached has the greatest 32-bit number, which is NONE.
    uint32_t distance(uint32_t node) const override { return distances[node]; }

  private:
    using Graph = boost::compressed_sparse_row_graph<boost::directedS, boost::no_property, boost::no_property,
                                                     boost::no_property, uint32_t, uint32_t>;

    static Graph built(const Network &network) {
        const auto pairs = arc_pairs(network);
        return Graph(boost::edges_are_sorted, pairs.begin(), pairs.end(), network.nodes());
    }

    Graph graph;
    std::vector<uint32_t> weights, distances;
};

inline std::vector<std::unique_ptr<Peer>> all_peers(const Network &network) {
    std::vector<std::unique_ptr<Peer>> peers;
    peers.push_back(std::make_unique<LemonBinary>("LEMON", network));
    peers.push_back(std::make_unique<LemonQuad>("LEMON, 4-ary heap", network));
    peers.push_back(std::make_unique<Boost<true>>("Boost", network));
    peers.push_back(std::make_unique<Boost<false>>("Boost, no colours", network));
    return peers;
}
