// The second peer: a minimum cut of the time network by a plain Dinic over adjacency arrays.
//
// Levels are distances to the sink, not from the source: that is about twice as quick on these networks, for
// the search in depth then meets fewer dead ends.
#include <algorithm>
#include <numeric>

#include "cut_planner.hpp"

namespace bench {

namespace {

class DinicCut {
public:
    static constexpr const char *name = "Dinic";

    int64_t find(const TimeNetwork &network);

    // The last search for levels came to its end, so it found every node from which the sink can be reached.
    bool on_source_side(int node) const { return level[node] < 0; }

private:
    // Each arc of the network stands twice: at its tail with the capacity left, at its head with the flow.
    struct Half {
        int to;
        int twin;  // where the other half stands
        int64_t room;
    };

    std::vector<int> first;  // where the halves of each node begin; one more at the end
    std::vector<Half> halves;
    std::vector<int> level;    // distance to the sink; below 0 where there is no way, or none left
    std::vector<int> current;  // the half of each node at which the search in depth goes on
    std::vector<int> queue;

    void load(const TimeNetwork &network);
    bool find_levels();
    int64_t push(int node, int64_t most);
};

void DinicCut::load(const TimeNetwork &network) {
    first.assign(network.nodes + 1, 0);
    for (const auto &[tail, head] : network.arcs) {
        ++first[tail];
        ++first[head];
    }
    std::partial_sum(first.begin(), first.end(), first.begin());
    halves.resize(2 * network.arcs.size());
    for (size_t k = 0; k < network.arcs.size(); ++k) {
        const auto [tail, head] = network.arcs[k];
        const int there = --first[tail];
        const int back = --first[head];
        halves[there] = {head, back, network.capacities[k]};
        halves[back] = {tail, there, 0};
    }
    level.resize(network.nodes);
    current.resize(network.nodes);
    queue.resize(network.nodes);
}

// Whether there is a way from the source to the sink; then the search ends as soon as it has the source.
bool DinicCut::find_levels() {
    std::fill(level.begin(), level.end(), -1);
    level[sink] = 0;
    queue[0] = sink;
    for (int done = 0, found = 1; done < found; ++done) {
        const int node = queue[done];
        for (int k = first[node]; k < first[node + 1]; ++k) {
            const int before = halves[k].to;
            if (level[before] >= 0 || halves[halves[k].twin].room == 0) continue;
            level[before] = level[node] + 1;
            if (before == source) return true;
            queue[found++] = before;
        }
    }
    return false;
}

// Pushes as much as it can, up to a limit, from the node down the levels to the sink.
int64_t DinicCut::push(int node, int64_t most) {
    if (node == sink) return most;
    int64_t pushed = 0;
    for (int &k = current[node]; k < first[node + 1]; ++k) {
        Half &half = halves[k];
        if (half.room == 0 || level[half.to] != level[node] - 1) continue;
        const int64_t more = push(half.to, std::min(most - pushed, half.room));
        half.room -= more;
        halves[half.twin].room += more;
        pushed += more;
        if (pushed == most) return pushed;
    }
    if (pushed == 0) level[node] = -1;
    return pushed;
}

int64_t DinicCut::find(const TimeNetwork &network) {
    load(network);
    int64_t value = 0;
    while (find_levels()) {
        std::copy(first.begin(), first.end() - 1, current.begin());
        value += push(source, INT64_MAX);
    }
    return value;
}

}  // namespace

std::unique_ptr<Planner> make_dinic() { return std::make_unique<CutPlanner<DinicCut>>(); }

}  // namespace bench
