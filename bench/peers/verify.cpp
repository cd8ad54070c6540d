/* verify DOC: the peer of `arcv verify` for times. It reads the document and the router files that bench/networks.py writes, answers
   each policy and prints a report of the same form, which `arcv check` can judge. Searches and flows are those of the Boost Graph
   Library. It proves nothing, refuses nothing, and knows no services and no interface that is shut down. */
#include "network.hpp"

#include <boost/graph/adjacency_list.hpp>
#include <boost/graph/boykov_kolmogorov_max_flow.hpp>
#include <boost/graph/breadth_first_search.hpp>
#include <boost/graph/filtered_graph.hpp>

#include <algorithm>
#include <cstdio>

using Traits = boost::adjacency_list_traits<boost::vecS, boost::vecS, boost::directedS>;
struct Edge {
    int arc = -1; /* 2 * link, and 1 more where it goes from b to a; -1 of edges for flow alone */
    int capacity = 0, left = 0;
    Traits::edge_descriptor back;
};
struct Node {
    boost::default_color_type color;
    long distance;
    Traits::edge_descriptor before;
};
using Graph = boost::adjacency_list<boost::vecS, boost::vecS, boost::directedS, Node, Edge>;
using Vertex = Graph::vertex_descriptor;
using EdgeOf = Graph::edge_descriptor;

struct Class { Prefix source, target; };

/* the answer of each list for one class, found once */
class Answers {
    const Network &net;
    Class of;
    std::vector<signed char> known;

public:
    Answers(const Network &net, Class of) : net(net), of(of), known(net.lists.size(), -1) {}
    bool permits(int list) {
        if (list < 0) return true;
        if (known[list] < 0) known[list] = net.permits(list, of.source, of.target);
        return known[list];
    }
    bool passes(int arc) { return permits(net.tail(arc).outbound) && permits(net.head(arc).inbound); }
};

struct Passes { /* the arcs over which a class may go */
    const Graph *graph = nullptr;
    const std::vector<char> *routed = nullptr;
    Answers *answers = nullptr;
    const Network *net = nullptr;
    bool spares_waypoints = false;
    bool operator()(const EdgeOf &edge) const {
        int arc = (*graph)[edge].arc;
        return arc >= 0 && (*routed)[arc] && !(spares_waypoints && net->links[arc / 2].is_waypoint) && answers->passes(arc);
    }
};

class Verifier {
    const Network &net;
    Graph graph;
    std::vector<EdgeOf> edges;      /* of each arc */
    std::vector<EdgeOf> feeders;    /* from the extra vertex to each router */
    std::vector<int> listed;        /* links with a list at an end */
    std::vector<Prefix> source_marks, target_marks;
    std::string text;

    void say(const std::string &word) { text += ' '; text += word; }
    void end_line() { text += '\n'; }
    void say(const Class &one) { say(one.source.text()); say(one.target.text()); }
    void block(size_t number, const Policy &policy, const char *answer, size_t count) {
        text += std::to_string(number);
        say(policy.kind); say(answer); say(std::to_string(count));
        end_line();
    }

public:
    explicit Verifier(const Network &net) : net(net), graph(net.routers.size() + 1) {
        const Vertex extra = net.routers.size();
        for (size_t at = 0; at < net.links.size(); at++) {
            const size_t a = net.tail(2 * at).router, b = net.head(2 * at).router;
            EdgeOf there = add_edge(a, b, graph).first, back = add_edge(b, a, graph).first;
            graph[there] = {int(2 * at), 0, 0, back};
            graph[back] = {int(2 * at + 1), 0, 0, there};
            edges.push_back(there);
            edges.push_back(back);
            if (net.has_list(2 * at)) listed.push_back(int(at));
        }
        for (Vertex v = 0; v < extra; v++) {
            EdgeOf there = add_edge(extra, v, graph).first, back = add_edge(v, extra, graph).first;
            graph[there] = {-1, 0, 0, back};
            graph[back] = {-1, 0, 0, there};
            feeders.push_back(there);
        }
        mark();
    }

    std::string report() {
        text = "arc-report 1\n";
        for (size_t at = 0; at < net.policies.size(); at++) answer(at + 1, net.policies[at]);
        return text + "end\n";
    }

private:
    void mark() {
        for (const List &list : net.lists)
            for (const Entry &entry : list.entries) {
                source_marks.push_back(entry.source);
                target_marks.push_back(entry.target);
            }
        for (const Policy &policy : net.policies) {
            source_marks.push_back(policy.source);
            target_marks.push_back(policy.target);
        }
        for (auto *marks : {&source_marks, &target_marks}) {
            std::sort(marks->begin(), marks->end());
            marks->erase(std::unique(marks->begin(), marks->end()), marks->end());
        }
    }

    /* the parts of a prefix, halved while a mark lies strictly inside */
    static void halve(Prefix whole, const std::vector<Prefix> &marks, std::vector<Prefix> &parts) {
        bool split = false;
        for (const Prefix &it : marks) split |= whole.length < it.length && whole.holds(it);
        if (!split) { parts.push_back(whole); return; }
        halve(whole.half(0), marks, parts);
        halve(whole.half(1), marks, parts);
    }

    static std::vector<Prefix> parts_of(Prefix whole, const std::vector<Prefix> &marks) {
        std::vector<Prefix> inner, parts;
        auto from = std::lower_bound(marks.begin(), marks.end(), Prefix{whole.address, 0});
        for (auto it = from; it != marks.end() && whole.covers(it->address); ++it)
            if (whole.length < it->length) inner.push_back(*it);
        halve(whole, inner, parts);
        return parts;
    }

    std::vector<Class> classes_of(const Policy &policy) {
        std::vector<Class> classes;
        for (const Prefix &source : parts_of(policy.source, source_marks))
            for (const Prefix &target : parts_of(policy.target, target_marks)) classes.push_back({source, target});
        return classes;
    }

    void answer(size_t number, const Policy &policy) {
        const Face &source = net.owner(policy.source), &target = net.owner(policy.target);
        std::vector<char> routed(2 * net.links.size());
        for (size_t arc = 0; arc < routed.size(); arc++) routed[arc] = net.is_routed(int(arc), target);
        const std::vector<Class> classes = classes_of(policy);
        if (policy.kind == "reach") reach(number, policy, source, target, routed, classes);
        else blocked(number, policy, source, target, routed, classes);
    }

    /* blocked and through: one search for each class */
    void blocked(size_t number, const Policy &policy, const Face &source, const Face &target, const std::vector<char> &routed, const std::vector<Class> &classes) {
        std::vector<std::vector<char>> sides;
        for (const Class &one : classes) {
            Answers answers(net, one);
            std::vector<char> side(net.routers.size());
            if (answers.permits(source.inbound)) {
                std::vector<EdgeOf> before(num_vertices(graph));
                side = search(source.router, Passes{&graph, &routed, &answers, &net, policy.kind == "through"}, before);
                if (side[target.router] && answers.permits(target.outbound)) {
                    block(number, policy, "no", 1);
                    walk(one, source.router, target.router, before);
                    return;
                }
            }
            sides.push_back(std::move(side));
        }
        block(number, policy, "yes", classes.size());
        for (size_t at = 0; at < classes.size(); at++) {
            text += "closed";
            say(classes[at]);
            say_side(sides[at]);
        }
    }

    std::vector<char> search(Vertex from, const Passes &passes, std::vector<EdgeOf> &before) {
        boost::filtered_graph<Graph, Passes> part(graph, passes);
        std::vector<boost::default_color_type> colors(num_vertices(graph));
        auto color = boost::make_iterator_property_map(colors.begin(), get(boost::vertex_index, graph));
        auto tree = boost::make_iterator_property_map(before.begin(), get(boost::vertex_index, graph));
        auto visitor = boost::make_bfs_visitor(boost::record_edge_predecessors(tree, boost::on_tree_edge()));
        boost::breadth_first_search(part, from, boost::visitor(visitor).color_map(color));
        std::vector<char> side(net.routers.size());
        for (size_t at = 0; at < side.size(); at++) side[at] = colors[at] != boost::white_color;
        return side;
    }

    void walk(const Class &one, Vertex source, Vertex target, const std::vector<EdgeOf> &before) {
        std::vector<int> links;
        for (Vertex at = target; at != source; at = boost::source(before[at], graph)) links.push_back(graph[before[at]].arc / 2);
        text += "walk";
        say(one);
        for (auto it = links.rbegin(); it != links.rend(); ++it) say(std::to_string(*it + 1));
        end_line();
    }

    void say_side(const std::vector<char> &side) {
        for (size_t at = 0; at < side.size(); at++)
            if (side[at]) say(net.routers[at].name);
        end_line();
    }

    void reach(size_t number, const Policy &policy, const Face &source, const Face &target, const std::vector<char> &routed, const std::vector<Class> &classes) {
        std::vector<Answers> answers;
        for (const Class &one : classes) answers.emplace_back(net, one);
        const bool apart = source.router != target.router;
        if (apart && refused(number, policy, routed, classes, answers)) return;
        for (size_t at = 0; at < classes.size(); at++)
            if (!answers[at].permits(source.inbound) || !answers[at].permits(target.outbound)) {
                block(number, policy, "no", 1);
                text += "denied";
                say(classes[at]);
                end_line();
                return;
            }
        if (!apart) { block(number, policy, "yes", 0); return; }
        flow(number, policy, source.router, target.router, routed);
    }

    /* whether a list on a link that carries routes denies a class */
    bool refused(size_t number, const Policy &policy, const std::vector<char> &routed, const std::vector<Class> &classes, std::vector<Answers> &answers) {
        for (int link : listed)
            for (size_t at = 0; at < classes.size(); at++)
                for (int arc : {2 * link, 2 * link + 1})
                    if (routed[arc] && !answers[at].passes(arc)) {
                        block(number, policy, "refused", 1);
                        text += "acl-on-routed-link";
                        say(dotted(classes[at].source.address)); say(dotted(classes[at].target.address)); say(std::to_string(link + 1));
                        end_line();
                        return true;
                    }
        return false;
    }

    void flow(size_t number, const Policy &policy, Vertex source, Vertex target, const std::vector<char> &routed) {
        const int wanted = policy.failures + 1;
        for (size_t arc = 0; arc < edges.size(); arc++) graph[edges[arc]].capacity = routed[arc];
        graph[feeders[source]].capacity = wanted;
        const int found = boost::boykov_kolmogorov_max_flow(
            graph, get(&Edge::capacity, graph), get(&Edge::left, graph), get(&Edge::back, graph), get(&Node::before, graph),
            get(&Node::color, graph), get(&Node::distance, graph), get(boost::vertex_index, graph), num_vertices(graph) - 1, target);
        graph[feeders[source]].capacity = 0;
        if (found < wanted) cut(number, policy, routed);
        else paths(number, policy, source, target, wanted);
    }

    void cut(size_t number, const Policy &policy, const std::vector<char> &routed) {
        std::vector<char> side(net.routers.size());
        for (size_t at = 0; at < side.size(); at++) side[at] = graph[at].color == boost::black_color;
        block(number, policy, "no", 2);
        text += "cut";
        for (size_t arc = 0; arc < edges.size(); arc++)
            if (routed[arc] && side[net.tail(int(arc)).router] && !side[net.head(int(arc)).router]) say(std::to_string(arc / 2 + 1));
        end_line();
        text += "side";
        say_side(side);
    }

    void paths(size_t number, const Policy &policy, Vertex source, Vertex target, int wanted) {
        std::vector<char> used(edges.size());
        for (size_t arc = 0; arc < edges.size(); arc++) used[arc] = graph[edges[arc]].capacity - graph[edges[arc]].left == 1;
        std::vector<std::vector<int>> found(wanted);
        for (auto &links : found)
            for (Vertex at = source; at != target;) {
                auto [it, last] = out_edges(at, graph);
                while (it != last && (graph[*it].arc < 0 || !used[graph[*it].arc])) ++it;
                used[graph[*it].arc] = 0;
                links.push_back(graph[*it].arc / 2 + 1);
                at = boost::target(*it, graph);
            }
        std::sort(found.begin(), found.end());
        block(number, policy, "yes", found.size());
        for (const auto &links : found) {
            text += "path";
            for (int link : links) say(std::to_string(link));
            end_line();
        }
    }
};

int main(int count, char **words) {
    if (count != 2) return 4;
    const Network net = read_network(words[1]);
    const std::string text = Verifier(net).report();
    fwrite(text.data(), 1, text.size(), stdout);
    return 0;
}
