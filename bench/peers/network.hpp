/* The network of a document and its router files, of the forms that bench/networks.py writes. */
#pragma once
#include <cstdint>
#include <string>
#include <vector>

std::string dotted(uint32_t address);

struct Prefix {
    uint32_t address;
    int length;
    bool covers(uint32_t other) const { return length == 0 || (address ^ other) >> (32 - length) == 0; }
    bool holds(const Prefix &other) const { return length <= other.length && covers(other.address); }
    Prefix half(int upper) const { return {address + (uint32_t(upper) << (31 - length)), length + 1}; }
    std::string text() const { return dotted(address) + "/" + std::to_string(length); }
    bool operator<(const Prefix &other) const { return address != other.address ? address < other.address : length < other.length; }
    bool operator==(const Prefix &other) const { return address == other.address && length == other.length; }
};

struct Entry { bool permits; Prefix source, target; };
struct List { std::vector<Entry> entries; };
struct RouteEntry { bool permits; Prefix prefix; int least, most; };
struct RouteList { std::vector<RouteEntry> entries; };

struct Face {
    size_t router = 0;
    std::string name;
    uint32_t address = 0;
    Prefix subnet{0, 0};
    int inbound = -1, outbound = -1; /* lists; -1: none that stands is bound */
    bool is_able = false;            /* OSPF is enabled, or the far end is a neighbour of the right AS */
    bool is_off = false;             /* passive, or the neighbour is shut down */
    bool is_told = false;            /* its subnet is advertised */
    int filter = -1;
};

struct Router { std::string name; };
struct Link { int a, b; bool is_waypoint; };
struct Policy { std::string kind; Prefix source, target; int failures; };

struct Network {
    std::vector<Router> routers;
    std::vector<Face> faces;
    std::vector<Link> links;
    std::vector<Policy> policies;
    std::vector<List> lists;
    std::vector<RouteList> filters;

    const Face &tail(int arc) const { return faces[arc % 2 ? links[arc / 2].b : links[arc / 2].a]; }
    const Face &head(int arc) const { return faces[arc % 2 ? links[arc / 2].a : links[arc / 2].b]; }
    bool has_list(int arc) const { return (tail(arc).inbound & tail(arc).outbound & head(arc).inbound & head(arc).outbound) != -1; }
    bool permits(int list, const Prefix &source, const Prefix &target) const;
    bool takes_route(int filter, const Prefix &prefix) const;
    bool is_routed(int arc, const Face &target) const;
    const Face &owner(const Prefix &prefix) const; /* the interface whose host network holds it */
    std::vector<std::pair<Prefix, int>> hosts;     /* in rising order */
};

Network read_network(const char *document);
