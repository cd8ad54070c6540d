/* Reads a document and its router files. */
#include "network.hpp"

#include <boost/property_tree/json_parser.hpp>
#include <boost/property_tree/ptree.hpp>

#include <algorithm>
#include <charconv>
#include <fstream>
#include <iterator>
#include <stdexcept>
#include <string_view>
#include <unordered_map>

using Words = std::vector<std::string_view>;
using std::string_view;

std::string dotted(uint32_t address) {
    std::string text;
    for (int shift = 24; shift >= 0; shift -= 8) {
        if (shift < 24) text += '.';
        text += std::to_string(address >> shift & 255);
    }
    return text;
}

bool Network::permits(int list, const Prefix &source, const Prefix &target) const {
    for (const Entry &entry : lists[list].entries)
        if (entry.source.holds(source) && entry.target.holds(target)) return entry.permits;
    return false;
}

bool Network::takes_route(int filter, const Prefix &prefix) const {
    if (filter < 0) return true;
    for (const RouteEntry &entry : filters[filter].entries)
        if (entry.prefix.covers(prefix.address) && entry.least <= prefix.length && prefix.length <= entry.most) return entry.permits;
    return false;
}

bool Network::is_routed(int arc, const Face &target) const {
    const Face &from = tail(arc), &to = head(arc);
    return target.is_told && from.is_able && to.is_able && !from.is_off && !to.is_off && takes_route(from.filter, target.subnet);
}

const Face &Network::owner(const Prefix &prefix) const {
    auto it = std::upper_bound(hosts.begin(), hosts.end(), std::make_pair(Prefix{prefix.address, 33}, 0));
    if (it == hosts.begin() || !(--it)->first.holds(prefix)) throw std::runtime_error("endpoint");
    return faces[it->second];
}

namespace {

uint32_t number(string_view word) {
    uint32_t value = 0;
    std::from_chars(word.data(), word.data() + word.size(), value);
    return value;
}

uint32_t address_of(string_view word) {
    uint32_t value = 0, part = 0;
    for (char byte : word) {
        if (byte == '.') { value = value << 8 | part; part = 0; }
        else part = 10 * part + uint32_t(byte - '0');
    }
    return value << 8 | part;
}

int ones(uint32_t mask) { return __builtin_popcount(mask); }
Prefix by_mask(uint32_t address, uint32_t mask) { return {address & mask, ones(mask)}; }

Prefix by_slash(string_view word) {
    size_t at = word.find('/');
    return {address_of(word.substr(0, at)), int(number(word.substr(at + 1)))};
}

void split(string_view line, Words &words) {
    words.clear();
    for (size_t at = 0; at < line.size();) {
        while (at < line.size() && line[at] == ' ') at++;
        size_t from = at;
        while (at < line.size() && line[at] != ' ') at++;
        if (from < at) words.push_back(line.substr(from, at - from));
    }
}

struct Neighbour { uint32_t as = 0; bool down = false; std::string filter; };

/* what a router's file says, before the files are put together */
struct Settings {
    uint32_t as = 0; /* 0: OSPF */
    std::vector<Prefix> networks;
    std::vector<std::string> passive;
    std::unordered_map<uint32_t, Neighbour> neighbours;
    std::unordered_map<std::string, int> lists, filters;
    std::vector<std::pair<std::string, std::string>> bound; /* of each interface, inbound and outbound */
};

class Reader {
    Network &net;
    Settings &settings;
    size_t router, first;
    enum Block { None, Interface, Ospf, Bgp, List } block = None;
    int list = -1;

public:
    Reader(Network &net, Settings &settings) : net(net), settings(settings), router(net.routers.size()), first(net.faces.size()) { net.routers.emplace_back(); }

    void read(const std::string &path) {
        std::ifstream file(path, std::ios::binary);
        if (!file) throw std::runtime_error(path);
        file.seekg(0, std::ios::end);
        std::string text(size_t(file.tellg()), '\0');
        file.seekg(0);
        file.read(text.data(), std::streamsize(text.size()));
        Words words;
        for (string_view left = text; !left.empty();) {
            size_t at = left.find('\n');
            string_view line = left.substr(0, at);
            left = at == string_view::npos ? string_view() : left.substr(at + 1);
            split(line, words);
            if (!words.empty()) read_line(line[0] == ' ', words);
        }
    }

private:
    void read_line(bool indented, const Words &words) {
        if (!indented) top(words);
        else if (block == Interface) interface_line(words);
        else if (block == Ospf) ospf_line(words);
        else if (block == Bgp) bgp_line(words);
        else if (block == List) entry_line(words);
    }

    void top(const Words &words) {
        block = None;
        if (words[0] == "hostname") net.routers[router].name = words[1];
        else if (words[0] == "interface") {
            block = Interface;
            net.faces.emplace_back();
            net.faces.back().router = router;
            net.faces.back().name = words[1];
            settings.bound.emplace_back();
        } else if (words[0] == "router") {
            block = words[1] == "ospf" ? Ospf : Bgp;
            if (block == Bgp) settings.as = number(words[2]);
        } else if (words[0] == "ip" && words[1] == "access-list") {
            block = List;
            list = settings.lists.emplace(words[3], int(net.lists.size())).first->second;
            net.lists.emplace_back();
        } else if (words[0] == "ip" && words[1] == "prefix-list") route_line(words);
    }

    void interface_line(const Words &words) {
        Face &face = net.faces.back();
        if (words[0] != "ip") return;
        if (words[1] == "address") {
            face.address = address_of(words[2]);
            face.subnet = by_mask(face.address, address_of(words[3]));
        } else if (words[1] == "access-group") (words[3] == "in" ? settings.bound.back().first : settings.bound.back().second) = words[2];
    }

    void ospf_line(const Words &words) {
        if (words[0] == "network") settings.networks.push_back(by_mask(address_of(words[1]), ~address_of(words[2])));
        else if (words[0] == "passive-interface") settings.passive.emplace_back(words[1]);
    }

    void bgp_line(const Words &words) {
        if (words[0] == "network") { settings.networks.push_back(by_mask(address_of(words[1]), address_of(words[3]))); return; }
        if (words[0] != "neighbor") return;
        Neighbour &other = settings.neighbours[address_of(words[1])];
        if (words[2] == "remote-as") other.as = number(words[3]);
        else if (words[2] == "shutdown") other.down = true;
        else if (words[2] == "prefix-list") other.filter = words[3];
    }

    static Prefix area(const Words &words, size_t &at) {
        if (words[at] == "any") { at++; return {0, 0}; }
        if (words[at] == "host") { at += 2; return {address_of(words[at - 1]), 32}; }
        at += 2;
        return by_mask(address_of(words[at - 2]), ~address_of(words[at - 1]));
    }

    void entry_line(const Words &words) {
        size_t at = 2;
        Prefix source = area(words, at), target = area(words, at);
        net.lists[list].entries.push_back({words[0] == "permit", source, target});
    }

    void route_line(const Words &words) {
        auto [it, fresh] = settings.filters.emplace(words[2], int(net.filters.size()));
        if (fresh) net.filters.emplace_back();
        Prefix prefix = by_slash(words[4]);
        net.filters[it->second].entries.push_back({words[3] == "permit", prefix, prefix.length, words.size() > 6 ? int(number(words[6])) : prefix.length});
    }
};

int found(const std::unordered_map<std::string, int> &names, const std::string &name) {
    auto it = names.find(name);
    return it == names.end() ? -1 : it->second;
}

/* what a router's process says of its interfaces, but for neighbours */
void settle(Network &net, const Settings &settings, size_t first) {
    for (size_t at = first; at < net.faces.size(); at++) {
        Face &face = net.faces[at];
        face.inbound = found(settings.lists, settings.bound[at - first].first);
        face.outbound = found(settings.lists, settings.bound[at - first].second);
        for (const Prefix &it : settings.networks) {
            face.is_told |= settings.as ? it == face.subnet : it.covers(face.address);
            face.is_able |= !settings.as && it.covers(face.address);
        }
        for (const std::string &name : settings.passive) face.is_off |= name == face.name;
    }
}

void settle_session(Face &face, const Face &far, const Settings &settings, uint32_t far_as) {
    auto it = settings.neighbours.find(far.address);
    if (it == settings.neighbours.end()) return;
    face.is_able = it->second.as == far_as;
    face.is_off = it->second.down;
    face.filter = found(settings.filters, it->second.filter);
}

/* only lists that are bound tell packets apart */
void drop_unbound(Network &net) {
    std::vector<char> bound(net.lists.size());
    for (const Face &face : net.faces)
        for (int list : {face.inbound, face.outbound})
            if (list >= 0) bound[list] = 1;
    for (size_t at = 0; at < bound.size(); at++)
        if (!bound[at]) net.lists[at].entries.clear();
}

} // namespace

Network read_network(const char *document) {
    boost::property_tree::ptree tree;
    boost::property_tree::read_json(document, tree);
    Network net;
    std::vector<Settings> settings;
    for (const auto &it : tree.get_child("routers")) {
        const size_t first = net.faces.size();
        settings.emplace_back();
        Reader(net, settings.back()).read(it.second.data());
        settle(net, settings.back(), first);
    }
    std::unordered_map<std::string, int> places;
    for (size_t at = 0; at < net.faces.size(); at++) places[net.routers[net.faces[at].router].name + ":" + net.faces[at].name] = int(at);
    std::vector<char> joined(net.faces.size());
    for (const auto &it : tree.get_child("links")) {
        const int a = places.at(it.second.get<std::string>("a")), b = places.at(it.second.get<std::string>("b"));
        net.links.push_back({a, b, it.second.get("waypoint", false)});
        for (auto [end, far] : {std::make_pair(a, b), std::make_pair(b, a)}) {
            joined[end] = 1;
            if (settings[net.faces[end].router].as)
                settle_session(net.faces[end], net.faces[far], settings[net.faces[end].router], settings[net.faces[far].router].as);
        }
    }
    for (size_t at = 0; at < joined.size(); at++)
        if (!joined[at]) net.hosts.emplace_back(net.faces[at].subnet, int(at));
    std::sort(net.hosts.begin(), net.hosts.end());
    for (const auto &it : tree.get_child("policies"))
        net.policies.push_back({it.second.get<std::string>("kind"), by_slash(it.second.get<std::string>("from")), by_slash(it.second.get<std::string>("to")), it.second.get("failures", 0)});
    drop_unbound(net);
    return net;
}
