// The planner of this repository, called through its C interface in memory lent once at full size.
#include <stdexcept>
#include <string>
#include <vector>

#include "../include/campaign_planner.h"
#include "planner.hpp"

namespace bench {

namespace {

class Ours : public Planner {
public:
    std::string name() const override { return "ours"; }

    void plan(const File &file, Plan &plan) override {
        plan.starts.resize(CAMPAIGN_START_BYTES);
        const uint32_t refusal =
            campaign_cheapest(file.data(), file.size(), plan.starts.data(), plan.starts.size(), flow.data(),
                              flow.size(), nodes.data(), nodes.size(), &plan.cost);
        if (refusal != 0) {
            throw std::runtime_error("campaign_cheapest refused " + std::to_string(CAMPAIGN_FAULT(refusal)) +
                                     " " + std::to_string(CAMPAIGN_PLACE(refusal)));
        }
        plan.starts.resize(file[2]);  // the number of activities
    }

private:
    std::vector<uint64_t> flow = std::vector<uint64_t>(CAMPAIGN_FLOW_WORDS);
    std::vector<uint32_t> nodes = std::vector<uint32_t>(CAMPAIGN_NODE_WORDS);
};

}  // namespace

std::unique_ptr<Planner> make_ours() { return std::make_unique<Ours>(); }

}  // namespace bench
