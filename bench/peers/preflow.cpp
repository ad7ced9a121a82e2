// Reads a network in DIMACS form and prints the value of a greatest flow by LEMON's preflow; on standard error the
// seconds of each of many runs, with the graph built anew in each.
#include <chrono>
#include <cstdint>
#include <fstream>
#include <iostream>
#include <lemon/preflow.h>
#include <lemon/smart_graph.h>
#include <sstream>
#include <string>
#include <vector>

static const int TIMES = 101;

struct Line {
    int from, to;
    std::int64_t most;
};

struct Network {
    int nodes = 0, source = 0, sink = 0;
    std::vector<Line> lines;
};

static Network read(std::istream& in) {
    Network net;
    std::string line;
    while (std::getline(in, line)) {
        std::istringstream words(line);
        std::string kind;
        words >> kind;
        if (kind == "p") {
            std::string max;
            words >> max >> net.nodes;
        } else if (kind == "n") {
            int node;
            std::string end;
            words >> node >> end;
            (end == "s" ? net.source : net.sink) = node - 1;
        } else if (kind == "a") {
            Line read;
            words >> read.from >> read.to >> read.most;
            net.lines.push_back({read.from - 1, read.to - 1, read.most});
        }
    }
    return net;
}

static std::int64_t greatest(const Network& net) {
    lemon::SmartDigraph graph;
    graph.reserveNode(net.nodes);
    graph.reserveArc(static_cast<int>(net.lines.size()));
    for (int node = 0; node < net.nodes; ++node) graph.addNode();
    lemon::SmartDigraph::ArcMap<std::int64_t> most(graph);
    for (const Line& line : net.lines)
        most[graph.addArc(graph.nodeFromId(line.from), graph.nodeFromId(line.to))] = line.most;
    lemon::Preflow<lemon::SmartDigraph, lemon::SmartDigraph::ArcMap<std::int64_t>> flow(
        graph, most, graph.nodeFromId(net.source), graph.nodeFromId(net.sink));
    flow.run();
    return flow.flowValue();
}

int main(int count, char** words) {
    std::ifstream file;
    if (count > 1) file.open(words[1]);
    const Network net = read(count > 1 ? file : std::cin);
    std::cout << "value " << greatest(net) << "\n";
    std::cerr << std::fixed;
    std::cerr.precision(9);
    for (int time = 0; time < TIMES; ++time) {
        const auto start = std::chrono::steady_clock::now();
        const std::int64_t value = greatest(net);
        const std::chrono::duration<double> took = std::chrono::steady_clock::now() - start;
        if (value >= 0) std::cerr << took.count() << "\n";
    }
}
