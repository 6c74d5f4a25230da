// Reads a table file (docs/FORMAT.md) for the two peers of the planner and for the check of all answers.
//
// The files come from our own generator, so nothing is validated here; that favours the peers, for the
// planner looks for every fault of a file before it plans.
#pragma once

#include <cstddef>
#include <cstdint>
#include <vector>

namespace bench {

using File = std::vector<uint8_t>;
using Starts = std::vector<uint8_t>;

constexpr int32_t closed = INT32_MIN;  // stands in the place of a price where a slot is closed

// start(to) is at least start(from) + gap.
struct Lag {
    int from;
    int to;
    int gap;
};

// Read again and again into the same table, so that its memory is allocated once.
struct Table {
    int activities = 0;
    int horizon = 0;
    std::vector<int32_t> prices;  // activity by activity and slot by slot
    std::vector<int32_t> floors;  // the least open price of each activity, or 0 if it has none
    std::vector<Lag> lags;

    int32_t price(int activity, int slot) const { return prices[size_t(activity) * horizon + slot]; }
    void read(const File &file);
};

// Numbers lie lowest byte first; intervals and prices are in two's complement.
inline uint16_t word16(const uint8_t *at) { return uint16_t(at[0] | at[1] << 8); }

inline int32_t price32(const uint8_t *at) {
    return int32_t(uint32_t(at[0]) | uint32_t(at[1]) << 8 | uint32_t(at[2]) << 16 | uint32_t(at[3]) << 24);
}

inline int32_t floor_of(const int32_t *prices, int horizon) {
    int32_t least = INT32_MAX;
    for (int slot = 0; slot < horizon; ++slot) {
        if (prices[slot] != closed && prices[slot] < least) least = prices[slot];
    }
    return least == INT32_MAX ? 0 : least;
}

inline Lag lag_of(const uint8_t *relation, const uint8_t *durations) {
    const int from = relation[3];
    const int to = relation[4];
    const int interval = int16_t(word16(relation + 5));
    const int from_end = relation[0] == 'F' ? durations[from] : 0;
    const int to_end = relation[1] == 'F' ? durations[to] : 0;
    const int gap = interval + from_end - to_end;
    return relation[2] == 'L' ? Lag{from, to, gap} : Lag{to, from, -gap};
}

inline void Table::read(const File &file) {
    horizon = file[1];
    activities = file[2];
    const uint8_t *durations = file.data() + 3;
    const uint8_t *at = durations + activities + 2;
    prices.resize(size_t(activities) * horizon);
    for (int32_t &price : prices) {
        price = price32(at);
        at += 4;
    }
    floors.resize(activities);
    for (int a = 0; a < activities; ++a) floors[a] = floor_of(&prices[size_t(a) * horizon], horizon);
    lags.resize(word16(at));
    at += 2;
    for (Lag &lag : lags) {
        lag = lag_of(at, durations);
        at += 7;
    }
}

}  // namespace bench
