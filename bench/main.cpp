// The driver of the benchmark: runs the three contenders on the ten campaigns, checks every answer, and
// prints the median times and their ratios. Exits 1 if any answer is wrong.
#include <algorithm>
#include <cmath>
#include <cstdio>
#include <cstdlib>
#include <cstring>
#include <numeric>
#include <stdexcept>
#include <string>
#include <time.h>
#include <vector>

#include "check.hpp"
#include "instances.hpp"
#include "machine.hpp"
#include "planner.hpp"

namespace bench {

namespace {

constexpr size_t contenders = 3;
constexpr int fewest_rounds = 5;
constexpr double patience = 60;  // seconds for a campaign; then no more rounds than the fewest

struct Options {
    int rounds = 25;
    int only = 0;  // the number of one campaign; 0: all
};

struct Campaign {
    size_t number;
    File file;
    Table table;
    int64_t least_cost = 0;
};

using Planners = std::vector<std::unique_ptr<Planner>>;

struct Row {
    double median[contenders];  // milliseconds
    double over(size_t peer) const { return median[0] / median[peer]; }
};

// Seconds that this thread has had the processor: other work on the machine is not counted.
double now() {
    timespec time;
    clock_gettime(CLOCK_THREAD_CPUTIME_ID, &time);
    return double(time.tv_sec) + 1e-9 * double(time.tv_nsec);
}

double median_of(std::vector<double> values) {
    std::sort(values.begin(), values.end());
    const size_t half = values.size() / 2;
    return values.size() % 2 == 1 ? values[half] : (values[half - 1] + values[half]) / 2;
}

double geometric_mean(const std::vector<Row> &rows, size_t peer) {
    double logs = 0;
    for (const Row &row : rows) logs += std::log(row.over(peer));
    return std::exp(logs / double(rows.size()));
}

[[noreturn]] void wrong(const Campaign &campaign, const Planner &planner, const std::string &what) {
    throw std::runtime_error("WRONG: campaign " + std::to_string(campaign.number) + ", " + planner.name() +
                             ": " + what);
}

// Seconds of one call; what it answers is checked after the clock has stopped.
double timed(Planner &planner, const Campaign &campaign, Plan &plan) {
    const double start = now();
    try {
        planner.plan(campaign.file, plan);
    } catch (const std::exception &problem) {
        wrong(campaign, planner, problem.what());
    }
    const double seconds = now() - start;
    const std::string fault = fault_of(campaign.table, plan);
    if (!fault.empty()) wrong(campaign, planner, fault);
    return seconds;
}

void compare_costs(const Campaign &campaign, const Planner &planner, const Plan &plan) {
    if (plan.cost != campaign.least_cost) {
        wrong(campaign, planner, "cost " + std::to_string(plan.cost) + ", but before " +
                                     std::to_string(campaign.least_cost) + " was found");
    }
}

// Draws a campaign and prints how its lags bind. The planner's cost is the one that all must agree with.
Campaign open_campaign(size_t number, Planner &planner) {
    const Instance &instance = instances()[number - 1];
    Campaign campaign{number, table_file(instance), {}, 0};
    campaign.table.read(campaign.file);
    Plan plan;
    timed(planner, campaign, plan);
    campaign.least_cost = plan.cost;
    const Table &table = campaign.table;
    const int64_t floors = std::accumulate(table.floors.begin(), table.floors.end(), int64_t(0));
    std::printf("%3zu  %-8s %5zu %7d %6d %11lld %11lld %11lld\n", number, name_of(instance.prices),
                table.lags.size(), binding_of(table, floor_starts(table)).broken,
                binding_of(table, plan.starts).tight, (long long)floors, (long long)plan.cost,
                (long long)(plan.cost - floors));
    return campaign;
}

std::vector<Campaign> open_campaigns(const Options &options, Planner &planner) {
    std::printf("How the lags bind. Broken: by the cheapest slots, each activity by itself. Tight: without\n"
                "slack in the cheapest plan. Above: what that plan costs above the floors.\n\n"
                "  k  prices    lags  broken  tight      floors        cost       above\n");
    std::vector<Campaign> campaigns;
    for (size_t number = 1; number <= instances().size(); ++number) {
        if (options.only != 0 && size_t(options.only) != number) continue;
        campaigns.push_back(open_campaign(number, planner));
    }
    return campaigns;
}

void print_row(const Campaign &campaign, int rounds, const Row &row) {
    const int n = campaign.table.activities;
    const int horizon = campaign.table.horizon;
    const int lags = int(campaign.table.lags.size());
    std::printf("%3zu %3d %4d %4d %6d %6d %7d %9.3f %9.3f %9.3f %11.3f %11.3f\n", campaign.number, n, horizon,
                lags, n * (horizon - 1) + 2, horizon * (2 * n + lags), rounds, row.median[0], row.median[1],
                row.median[2], row.over(1), row.over(2));
    std::fflush(stdout);
}

// Times the contenders in turn, round by round; the first round is not counted.
Row race(const Campaign &campaign, const Planners &planners, const Options &options) {
    std::vector<double> seconds[contenders];
    Plan plans[contenders];
    const double start = now();
    int counted = 0;
    for (int round = 0; round <= options.rounds; ++round) {
        if (counted >= fewest_rounds && now() - start > patience) break;
        for (size_t p = 0; p < contenders; ++p) {
            const double taken = timed(*planners[p], campaign, plans[p]);
            compare_costs(campaign, *planners[p], plans[p]);
            if (round > 0) seconds[p].push_back(taken);
        }
        counted = round;
    }
    Row row;
    for (size_t p = 0; p < contenders; ++p) row.median[p] = 1000 * median_of(seconds[p]);
    print_row(campaign, counted, row);
    return row;
}

void print_means(const char *of, const std::vector<Row> &rows) {
    std::printf("%-69s %11.3f %11.3f\n", of, geometric_mean(rows, 1), geometric_mean(rows, 2));
}

std::vector<Row> race_all(const std::vector<Campaign> &campaigns, const Planners &planners,
                          const Options &options) {
    std::printf("\nMedian milliseconds of processor time from the bytes of the file to starts and cost,\n"
                "contenders in turn.\n\n"
                "  k   n    H    m  nodes   arcs  rounds");
    for (const auto &planner : planners) std::printf(" %6s ms", planner->name().c_str());
    for (size_t p = 1; p < contenders; ++p) {
        std::printf(" %11s", (planners[0]->name() + "/" + planners[p]->name()).c_str());
    }
    std::printf("\n");
    std::vector<Row> rows;
    for (const Campaign &campaign : campaigns) rows.push_back(race(campaign, planners, options));
    return rows;
}

void run(const Options &options) {
    print_machine();
    Planners planners;
    planners.push_back(make_ours());
    planners.push_back(make_lemon());
    planners.push_back(make_dinic());
    const std::vector<Campaign> campaigns = open_campaigns(options, *planners.back());
    const std::vector<Row> rows = race_all(campaigns, planners, options);
    std::printf("\n");
    print_means("Geometric mean", rows);
    if (options.only == 0) print_means("Geometric mean of the largest three", {rows.end() - 3, rows.end()});
    std::printf("\nAll answers agree: in every round the same cost from all three, it is what the starts\n"
                "cost, and the starts are open and keep all lags.\n");
    print_load("at the end");
}

[[noreturn]] void usage() {
    std::fprintf(stderr, "options: [--rounds N] [--only K], N at least 1, K from 1 to %zu\n",
                 instances().size());
    std::exit(2);
}

Options parse(int count, char **words) {
    Options options;
    for (int k = 1; k < count; k += 2) {
        const int number = k + 1 < count ? std::atoi(words[k + 1]) : 0;
        if (number < 1) usage();
        if (std::strcmp(words[k], "--rounds") == 0) {
            options.rounds = number;
        } else if (std::strcmp(words[k], "--only") == 0 && size_t(number) <= instances().size()) {
            options.only = number;
        } else {
            usage();
        }
    }
    return options;
}

}  // namespace

}  // namespace bench

int main(int count, char **words) {
    try {
        bench::run(bench::parse(count, words));
    } catch (const std::exception &problem) {
        std::fflush(stdout);
        std::fprintf(stderr, "%s\n", problem.what());
        return 1;
    }
    return 0;
}
