// What the three contenders have in common: each takes the bytes of a table file to starts and cost.
#pragma once

#include <cstdint>
#include <memory>
#include <string>

#include "table.hpp"

namespace bench {

struct Plan {
    Starts starts;
    int64_t cost = 0;
};

// A planner keeps its memory from call to call.
class Planner {
public:
    virtual ~Planner() = default;
    virtual std::string name() const = 0;

    // Finds a start list of least cost. The table has one.
    virtual void plan(const File &file, Plan &plan) = 0;
};

std::unique_ptr<Planner> make_ours();
std::unique_ptr<Planner> make_lemon();
std::unique_ptr<Planner> make_dinic();

}  // namespace bench
