/* read_graphviz of the Boost Graph Library, into a directed graph, or where the text asks for it, an undirected one. */
#include "batch.h"
#include <boost/graph/adjacency_list.hpp>
#include <boost/graph/graphviz.hpp>

template <class Direction> static int read_as(const std::string &text) {
    boost::adjacency_list<boost::vecS, boost::vecS, Direction> graph;
    boost::dynamic_properties properties(boost::ignore_other_properties);
    return boost::read_graphviz(text, graph, properties);
}

static int taken(const char *text, size_t length) {
    std::string whole(text, length);
    try {
        try {
            return read_as<boost::bidirectionalS>(whole);
        } catch (const boost::undirected_graph_error &) {
            return read_as<boost::undirectedS>(whole);
        }
    } catch (const boost::graph_exception &) {
        return 0;
    }
}
