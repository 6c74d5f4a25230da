// Builds the time network of a table (docs/PLANNING.md) as one list of arcs, which both peers take, and
// reads the starts from a cut of it.
#pragma once

#include <cstdint>
#include <numeric>
#include <utility>
#include <vector>

#include "table.hpp"

namespace bench {

constexpr int source = 0;
constexpr int sink = 1;

// Stands for "no capacity": above what any start list can cost over its floors (64 activities, each
// 2,000,000,000 at most), and so small that all arcs together stay far within 64 bits.
constexpr int64_t unbounded = 128'000'000'001;

// Built again and again in the same memory. The arcs stand in the order of their tails.
struct TimeNetwork {
    int nodes = 0;
    std::vector<std::pair<int, int>> arcs;  // tail and head
    std::vector<int64_t> capacities;

    void build(const Table &table);

private:
    std::vector<int> first_lag;  // where the lags that lead from each activity begin in `leaving`
    std::vector<Lag> leaving;

    void sort_lags(const Table &table);
    void add(int tail, int head, int64_t capacity);
    void add_point(const Table &table, int activity, int slot);
};

// The node of "this activity starts at this slot or later".
inline int node_of(const Table &table, int activity, int slot) {
    if (slot <= 0) return source;
    if (slot >= table.horizon) return sink;
    return 2 + activity * (table.horizon - 1) + slot - 1;
}

inline void TimeNetwork::sort_lags(const Table &table) {
    first_lag.assign(table.activities + 1, 0);
    for (const Lag &lag : table.lags) ++first_lag[lag.from];
    std::partial_sum(first_lag.begin(), first_lag.end(), first_lag.begin());
    leaving.resize(table.lags.size());
    for (const Lag &lag : table.lags) leaving[--first_lag[lag.from]] = lag;
}

// No flow needs an arc into the source or out of the sink, so the list has none; that favours the peers.
inline void TimeNetwork::add(int tail, int head, int64_t capacity) {
    if (head == source) return;
    arcs.emplace_back(tail, head);
    capacities.push_back(capacity);
}

// The arcs that leave a point: on to the next slot, back to the one before, and one for each lag.
inline void TimeNetwork::add_point(const Table &table, int activity, int slot) {
    const int here = node_of(table, activity, slot);
    const int32_t price = table.price(activity, slot);
    const int64_t above_floor = int64_t(price) - table.floors[activity];
    add(here, node_of(table, activity, slot + 1), price == closed ? unbounded : above_floor);
    add(here, node_of(table, activity, slot - 1), unbounded);
    for (int k = first_lag[activity]; k < first_lag[activity + 1]; ++k) {
        add(here, node_of(table, leaving[k].to, slot + leaving[k].gap), unbounded);
    }
}

inline void TimeNetwork::build(const Table &table) {
    nodes = table.activities * (table.horizon - 1) + 2;
    arcs.clear();
    capacities.clear();
    sort_lags(table);
    for (int a = 0; a < table.activities; ++a) add_point(table, a, 0);
    for (int a = 0; a < table.activities; ++a) {
        for (int slot = 1; slot < table.horizon; ++slot) add_point(table, a, slot);
    }
}

// The start of an activity is its last slot whose point lies on the side of the source. The arcs back are
// unbounded, so the points on that side are those up to some slot.
template <typename OnSourceSide>
void starts_of_cut(const Table &table, OnSourceSide on_source_side, Starts &starts) {
    starts.resize(table.activities);
    for (int a = 0; a < table.activities; ++a) {
        int slot = 0;
        while (slot + 1 < table.horizon && on_source_side(node_of(table, a, slot + 1))) ++slot;
        starts[a] = uint8_t(slot);
    }
}

}  // namespace bench
