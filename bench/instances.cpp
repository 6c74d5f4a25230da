// Draws the table files of the benchmark: always feasible, the same on every machine, and not easy.
//
// Each campaign is built around a hidden start list. Its slots are open, and every relation gets an interval
// that the hidden list keeps with a slack of a few slots at most; so there is always a list that meets it.
//
// What makes the campaigns hard:
// - Relations join activities that are near each other in the order of the hidden list, and no two say the
//   same of the same pair. So they form long chains through all activities, and a start that moves is felt
//   far away.
// - One relation in three is a greatest interval, the others are least intervals, all nearly tight. So the
//   chains can be bent and stretched only a little, and an activity pushes some and pulls others.
// - Prices know nothing of the hidden list, or work against it: the cheapest slots of the activities break
//   about half of the lags, and the best compromise is far above the floors. Prices jump from slot to slot,
//   so that a great many compromises cost nearly the same.
// - Closed slots lie everywhere, so starts cannot slide slot by slot.
#include "instances.hpp"

#include <algorithm>
#include <cstdlib>
#include <numeric>
#include <set>
#include <tuple>

namespace bench {

namespace {

// Numbers by splitmix64. Never drawn twice in one expression: the order would be the compiler's choice.
class Draw {
public:
    explicit Draw(uint64_t seed) : state(seed) {}

    int between(int least, int greatest) { return least + int(next() % uint64_t(greatest - least + 1)); }

    bool one_in(int many) { return between(1, many) == 1; }

private:
    uint64_t state;

    uint64_t next() {
        state += 0x9E3779B97F4A7C15;
        uint64_t mixed = state;
        mixed = (mixed ^ (mixed >> 30)) * 0xBF58476D1CE4E5B9;
        mixed = (mixed ^ (mixed >> 27)) * 0x94D049BB133111EB;
        return mixed ^ (mixed >> 31);
    }
};

struct Activity {
    int duration;
    int hidden;  // its slot in the hidden start list
};

// The greatest parts of a price; together 1,000,000.
struct Parts {
    int shared;    // the same for all activities in a slot
    int distance;  // grows with the distance from the wished slot
    int own;       // drawn for each activity and slot
};

constexpr int reach = 4;           // relations join activities at most so far apart in the hidden order
constexpr int greatest_slack = 3;  // of a relation, in the hidden start list

Parts parts_of(Prices prices) {
    switch (prices) {
        case Prices::shared: return {700'000, 0, 300'000};
        case Prices::against: return {0, 600'000, 400'000};
        default: return {0, 0, 1'000'000};
    }
}

void put(File &file, int number, int bytes) {
    for (int k = 0; k < bytes; ++k) file.push_back(uint8_t(uint32_t(number) >> (8 * k)));
}

std::vector<Activity> draw_activities(const Instance &instance, Draw &draw) {
    std::vector<Activity> activities(instance.activities);
    const int margin = instance.horizon / 8;
    for (Activity &activity : activities) {
        activity.duration = draw.between(0, instance.horizon / 8);
        activity.hidden = draw.between(margin, instance.horizon - 1 - margin);
    }
    return activities;
}

// One slot in ten is closed, but never a hidden start; one in twenty-five has a price below 0.
void put_prices(const Instance &instance, const std::vector<Activity> &activities, Draw &draw, File &file) {
    const int horizon = instance.horizon;
    const Parts parts = parts_of(instance.prices);
    std::vector<int> shared(horizon);
    for (int &part : shared) part = draw.between(0, parts.shared);
    put(file, instance.activities * horizon, 2);
    for (const Activity &activity : activities) {
        const int wish = horizon - 1 - activity.hidden + draw.between(-horizon / 8, horizon / 8);
        for (int slot = 0; slot < horizon; ++slot) {
            const int away = parts.distance / horizon * std::abs(slot - wish);
            int price = shared[slot] + away + draw.between(0, parts.own);
            if (draw.one_in(25)) price = draw.between(-100'000, -1);
            if (draw.one_in(10) && slot != activity.hidden) price = closed;
            put(file, price, 4);
        }
    }
}

// The numbers of the activities in the order of the hidden list.
std::vector<int> hidden_order(const std::vector<Activity> &activities) {
    std::vector<int> order(activities.size());
    std::iota(order.begin(), order.end(), 0);
    std::stable_sort(order.begin(), order.end(),
                     [&](int a, int b) { return activities[a].hidden < activities[b].hidden; });
    return order;
}

// A relation of two activities that the hidden list keeps.
void put_relation(const std::vector<Activity> &activities, int from, int to, bool greatest, Draw &draw,
                  File &file) {
    const bool from_finish = draw.one_in(2);
    const bool to_finish = draw.one_in(2);
    const int slack = draw.between(0, greatest_slack);
    const int from_end = activities[from].hidden + (from_finish ? activities[from].duration : 0);
    const int to_end = activities[to].hidden + (to_finish ? activities[to].duration : 0);
    const int apart = to_end - from_end;
    put(file, from_finish ? 'F' : 'S', 1);
    put(file, to_finish ? 'F' : 'S', 1);
    put(file, greatest ? 'M' : 'L', 1);
    put(file, from, 1);
    put(file, to, 1);
    put(file, greatest ? apart + slack : apart - slack, 2);
}

void put_relations(const Instance &instance, const std::vector<Activity> &activities, Draw &draw,
                   File &file) {
    const std::vector<int> order = hidden_order(activities);
    std::set<std::tuple<int, int, bool>> said;
    put(file, instance.relations, 2);
    while (int(said.size()) < instance.relations) {
        const int before = draw.between(0, instance.activities - 2);
        const int after = before + draw.between(1, reach);
        const bool greatest = draw.one_in(3);
        if (after >= instance.activities || !said.emplace(before, after, greatest).second) continue;
        put_relation(activities, order[before], order[after], greatest, draw, file);
    }
}

}  // namespace

const char *name_of(Prices prices) {
    switch (prices) {
        case Prices::shared: return "shared";
        case Prices::against: return "against";
        default: return "rough";
    }
}

const std::vector<Instance> &instances() {
    static const std::vector<Instance> all = {
        {8, 32, 20, Prices::rough, 1},      {12, 40, 40, Prices::shared, 2},
        {16, 48, 56, Prices::against, 3},   {24, 64, 88, Prices::rough, 4},
        {32, 64, 120, Prices::shared, 5},   {40, 96, 152, Prices::against, 6},
        {52, 112, 208, Prices::rough, 7},   {64, 128, 256, Prices::rough, 8},
        {64, 128, 256, Prices::shared, 9},  {64, 128, 256, Prices::against, 10},
    };
    return all;
}

File table_file(const Instance &instance) {
    Draw draw(instance.seed);
    const std::vector<Activity> activities = draw_activities(instance, draw);
    File file;
    put(file, 'T', 1);
    put(file, instance.horizon, 1);
    put(file, instance.activities, 1);
    for (const Activity &activity : activities) put(file, activity.duration, 1);
    put_prices(instance, activities, draw, file);
    put_relations(instance, activities, draw, file);
    return file;
}

}  // namespace bench
