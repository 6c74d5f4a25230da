// Prints what the figures depend on: processor, compiler, libraries, memory, and how busy the machine is.
#pragma once

#include <lemon/config.h>

#include <cstdio>
#include <cstdlib>
#include <fstream>
#include <string>
#include <thread>

namespace bench {

inline std::string processor() {
    std::ifstream info("/proc/cpuinfo");
    for (std::string line; std::getline(info, line);) {
        if (line.rfind("model name", 0) == 0) return line.substr(line.find(':') + 2);
    }
    return "unknown";
}

inline void print_load(const char *when) {
    double load = 0;
    if (getloadavg(&load, 1) == 1) std::printf("Load %s: %.2f (last minute)\n", when, load);
}

// BENCH_FLAGS are the flags that bench/run gave the compiler.
inline void print_machine() {
    std::printf("Processor: %s, %u cores\n", processor().c_str(), std::thread::hardware_concurrency());
    std::printf("Peers and driver: g++ %s %s; LEMON %s\n", __VERSION__, BENCH_FLAGS, LEMON_VERSION);
    std::printf("Memory: kept from call to call and never cleared by the driver. Ours clears the node words\n"
                "that it took, within the time measured; LEMON allocates graph and maps in each call.\n");
    print_load("at the start");
    std::printf("\n");
}

}  // namespace bench
