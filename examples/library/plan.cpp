// Prints a plan, as plan.c does. The buffer grows to the size that the output needs. Run it in the
// root of the repository:
//
//   c++ -std=c++17 -I dist examples/library/plan.cpp dist/libsagas.a -o plan
//   ./plan examples/trip.toml examples/trip.case.json
#include <cstdlib>
#include <fstream>
#include <iostream>
#include <iterator>
#include <string>
#include <utility>

#include "sagas.h"

static const uint8_t *bytes(const std::string &text) { return reinterpret_cast<const uint8_t *>(text.data()); }

static std::pair<uint32_t, std::string> plan(const std::string &definition, const std::string &saga_case) {
    std::string buffer(4096, '\0');
    for (;;) {
        size_t used = 0;
        uint32_t status = sagas_plan(bytes(definition), definition.size(), bytes(saga_case), saga_case.size(), reinterpret_cast<uint8_t *>(&buffer[0]), buffer.size(), &used);
        buffer.resize(used);
        if (status != SAGAS_BUFFER_TOO_SMALL) return {status, buffer};
    }
}

static std::string read_file(const char *path) {
    std::ifstream file(path, std::ios::binary);
    if (!file) {
        std::cerr << path << ": it cannot be read\n";
        std::exit(4);
    }
    return {std::istreambuf_iterator<char>(file), {}};
}

int main(int count, char **given) {
    if (count != 3) {
        std::cerr << "usage: plan DEFINITION CASE\n";
        return 2;
    }
    auto [status, text] = plan(read_file(given[1]), read_file(given[2]));
    (status == SAGAS_INVALID ? std::cerr : std::cout) << text;
    return static_cast<int>(status);
}
