// Writes the table files of the benchmark into a directory, for other programs to read.
#include <cstdio>
#include <fstream>
#include <string>

#include "instances.hpp"

int main(int count, char **words) {
    if (count != 2) {
        std::fprintf(stderr, "usage: write_files DIR\n");
        return 2;
    }
    int number = 0;
    for (const bench::Instance &instance : bench::instances()) {
        char name[32];
        std::snprintf(name, sizeof name, "/campaign-%02d.table", ++number);
        const std::string path = words[1] + std::string(name);
        const bench::File file = bench::table_file(instance);
        std::ofstream out(path, std::ios::binary);
        out.write(reinterpret_cast<const char *>(file.data()), std::streamsize(file.size()));
        out.close();
        if (!out) {
            std::fprintf(stderr, "cannot write %s\n", path.c_str());
            return 1;
        }
        std::printf("%s: %zu bytes\n", path.c_str(), file.size());
    }
    return 0;
}
