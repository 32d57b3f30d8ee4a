// The strongly connected components of the reachable part by Boost.Graph, afresh after each change. Verdict only.
#include <boost/graph/adjacency_list.hpp>
#include <boost/graph/breadth_first_search.hpp>
#include <boost/graph/filtered_graph.hpp>
#include <boost/graph/strong_components.hpp>
#include <vector>

#include "lines.h"

typedef boost::adjacency_list<boost::vecS, boost::vecS, boost::directedS> Graph;

static Graph graph;

static int has(unsigned source, unsigned target)
{
    while (num_vertices(graph) < size)
        add_vertex(graph);
    return boost::edge(source, target, graph).second;
}

static void insert(unsigned source, unsigned target)
{
    boost::add_edge(source, target, graph);
}

static void take_out(unsigned source, unsigned target)
{
    boost::remove_edge(source, target, graph);
}

// The states that a search has coloured: the reachable ones.
struct Reachable {
    const std::vector<boost::default_color_type> *colours;
    bool operator()(unsigned state) const { return (*colours)[state] != boost::white_color; }
};

static bool free_round()
{
    std::vector<boost::default_color_type> colours(size, boost::white_color);
    auto index = get(boost::vertex_index, graph);
    boost::queue<unsigned> queue;
    boost::breadth_first_visit(graph, start, queue, boost::default_bfs_visitor(),
                               boost::make_iterator_property_map(colours.begin(), index));
    boost::filtered_graph<Graph, boost::keep_all, Reachable> part(graph, boost::keep_all(), Reachable{&colours});
    std::vector<unsigned> component(size);
    unsigned count = boost::strong_components(part, boost::make_iterator_property_map(component.begin(), index));
    std::vector<unsigned> members(count), marks(count);
    for (unsigned state = 0; state < size; state++)
        if (colours[state] != boost::white_color) {
            members[component[state]] += 1u + (unsigned)has(state, state);     // one that returns to itself counts twice
            marks[component[state]] += pays[state];
        }
    for (unsigned i = 0; i < count; i++)
        if (members[i] > 1 && marks[i])
            return true;
    return false;
}

static void answer_now()
{
    put_word(free_round() ? "round" : "none");
    put_end();
}

static int answer_question(const struct record *)
{
    return 0;
}

int main()
{
    watch();
    return 0;
}
