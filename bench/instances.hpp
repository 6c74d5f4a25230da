// The ten campaigns of the benchmark, as table files; how they are drawn stands in instances.cpp.
#pragma once

#include <cstdint>
#include <vector>

#include "table.hpp"

namespace bench {

enum class Prices {
    rough,    // every price is drawn by itself
    shared,   // a price of the slot that all activities pay, and a part of its own
    against,  // rises with the distance from a wished slot, and early activities wish to be late
};

struct Instance {
    int activities;
    int horizon;
    int relations;
    Prices prices;
    uint64_t seed;
};

const char *name_of(Prices prices);

// From the smallest to the largest; the last three have full size.
const std::vector<Instance> &instances();

// The same bytes on every machine.
File table_file(const Instance &instance);

}  // namespace bench
