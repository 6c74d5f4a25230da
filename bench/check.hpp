// Checks what a contender answers against the table itself, and tells how hard the lags bind.
#pragma once

#include <string>

#include "planner.hpp"
#include "table.hpp"

namespace bench {

// The first thing wrong with a plan as words, or nothing: starts within the horizon and open, all lags kept,
// and the cost that of the starts.
inline std::string fault_of(const Table &table, const Plan &plan) {
    if (int(plan.starts.size()) != table.activities) return "wrong number of starts";
    int64_t cost = 0;
    for (int a = 0; a < table.activities; ++a) {
        const int start = plan.starts[a];
        if (start >= table.horizon) return "activity " + std::to_string(a) + " starts past the horizon";
        if (table.price(a, start) == closed) {
            return "activity " + std::to_string(a) + " starts in a closed slot";
        }
        cost += table.price(a, start);
    }
    for (size_t k = 0; k < table.lags.size(); ++k) {
        const Lag &lag = table.lags[k];
        if (plan.starts[lag.to] < plan.starts[lag.from] + lag.gap) {
            return "lag " + std::to_string(k) + " is broken";
        }
    }
    if (cost != plan.cost) {
        return "cost " + std::to_string(plan.cost) + ", but its starts cost " + std::to_string(cost);
    }
    return "";
}

// The first cheapest slot of each activity by itself, as if there were no lags.
inline Starts floor_starts(const Table &table) {
    Starts starts(table.activities, 0);
    for (int a = 0; a < table.activities; ++a) {
        while (table.price(a, starts[a]) != table.floors[a]) ++starts[a];
    }
    return starts;
}

// Lags by how much later the to-activity starts than it has to: broken below 0, tight at 0.
struct Binding {
    int broken = 0;
    int tight = 0;
};

inline Binding binding_of(const Table &table, const Starts &starts) {
    Binding binding;
    for (const Lag &lag : table.lags) {
        const int slack = starts[lag.to] - starts[lag.from] - lag.gap;
        binding.broken += slack < 0;
        binding.tight += slack == 0;
    }
    return binding;
}

}  // namespace bench
