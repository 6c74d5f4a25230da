// The first peer: a minimum cut of the time network by LEMON's push-relabel algorithm (Preflow).
//
// What was tried of LEMON: runMinCut leaves out the second phase, which would make a flow of the preflow.
// StaticDigraph was mostly a fifth quicker than SmartDigraph, LinkedElevator mostly a tenth quicker than the
// usual Elevator, so these are used. A smaller number for "unbounded" changed little. The network turned round
// is not used: over the ten campaigns it was quicker by a tenth (five quicker, five slower, and without the
// time to turn it), but over 42 others of full size it was slower by an eighth.
#define LEMON_ONLY_TEMPLATES  // headers alone, no library to link
#include <lemon/elevator.h>
#include <lemon/preflow.h>
#include <lemon/static_graph.h>

#include <optional>

#include "cut_planner.hpp"

namespace bench {

namespace {

using Graph = lemon::StaticDigraph;

// The capacities where they stand in the network, as a map of LEMON.
struct Capacities {
    using Key = Graph::Arc;
    using Value = int64_t;
    const int64_t *of = nullptr;
    Value operator[](const Key &arc) const { return of[Graph::index(arc)]; }
};

using Levels = lemon::LinkedElevator<Graph, Graph::Node>;
using Preflow = lemon::Preflow<Graph, Capacities>::SetStandardElevator<Levels>::Create;

class PreflowCut {
public:
    static constexpr const char *name = "LEMON";

    int64_t find(const TimeNetwork &network) {
        preflow.reset();
        graph.build(network.nodes, network.arcs.begin(), network.arcs.end());
        capacities.of = network.capacities.data();
        preflow.emplace(graph, capacities, Graph::node(source), Graph::node(sink));
        preflow->runMinCut();
        return preflow->flowValue();
    }

    bool on_source_side(int node) const { return preflow->minCut(Graph::node(node)); }

private:
    Graph graph;
    Capacities capacities;
    std::optional<Preflow> preflow;
};

}  // namespace

std::unique_ptr<Planner> make_lemon() { return std::make_unique<CutPlanner<PreflowCut>>(); }

}  // namespace bench
