// LEMON: its reader of problems, and its push-relabel. Reads a problem on standard input, and writes a solution.
#include <iostream>

#include <lemon/dimacs.h>
#include <lemon/preflow.h>
#include <lemon/smart_graph.h>

int main() {
    using Graph = lemon::SmartDigraph;
    using Numbers = Graph::ArcMap<long long>;
    Graph graph;
    Numbers capacities(graph);
    Graph::Node source, sink;
    lemon::readDimacsMax(std::cin, graph, capacities, source, sink);
    lemon::Preflow<Graph, Numbers> preflow(graph, capacities, source, sink);
    preflow.run();
    std::cout << "s " << preflow.flowValue() << '\n';
    for (int j = 0; j < graph.arcNum(); ++j) {
        const Graph::Arc arc = graph.arcFromId(j);
        std::cout << "f " << graph.id(graph.source(arc)) + 1 << ' ' << graph.id(graph.target(arc)) + 1 << ' '
                  << preflow.flow(arc) << '\n';
    }
}
