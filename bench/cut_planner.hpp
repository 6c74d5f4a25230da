// What the two peers have in common: read the table, build its time network, have a minimum cut found, and
// read the starts from it.
#pragma once

#include <numeric>

#include "network.hpp"
#include "planner.hpp"

namespace bench {

// A Cut finds a minimum cut of a network and tells its capacity, and then which nodes lie with the source.
template <typename Cut>
class CutPlanner : public Planner {
public:
    std::string name() const override { return Cut::name; }

    void plan(const File &file, Plan &plan) override {
        table.read(file);
        network.build(table);
        const int64_t capacity = cut.find(network);
        starts_of_cut(table, [&](int node) { return cut.on_source_side(node); }, plan.starts);
        plan.cost = std::accumulate(table.floors.begin(), table.floors.end(), capacity);
    }

private:
    Table table;
    TimeNetwork network;
    Cut cut;
};

}  // namespace bench
