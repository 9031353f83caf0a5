// How long SimGrid takes to start flows over the routes of a network and to find their rates, for bench/simgrid.py.
//
//     bin/simgrid NETWORK TIMES      NETWORK is a file with one line, as bin/networks reads it
//
// Prints the least time in microseconds. Links have no latency and no cross traffic, so that rates are max-min fair.
#include <algorithm>
#include <chrono>
#include <fstream>
#include <iostream>
#include <set>
#include <simgrid/s4u.hpp>
#include <sstream>
#include <string>
#include <vector>

namespace sg = simgrid::s4u;

static std::vector<std::string> parts(const std::string& text, char mark) {
    std::vector<std::string> found;
    std::stringstream stream(text);
    for (std::string part; std::getline(stream, part, mark);) found.push_back(part);
    return found;
}

static void measure(std::vector<sg::Host*> from, std::vector<sg::Host*> to, int times) {
    double least = 1e18;
    for (int run = 0; run < times; run++) {
        std::vector<sg::CommPtr> flows;
        flows.reserve(from.size());
        auto start = std::chrono::steady_clock::now();
        for (size_t i = 0; i < from.size(); i++) flows.push_back(sg::Comm::sendto_async(from[i], to[i], 1ULL << 40));
        sg::this_actor::sleep_for(1e-6);
        auto end = std::chrono::steady_clock::now();
        least = std::min(least, std::chrono::duration<double, std::micro>(end - start).count());
        for (auto& flow : flows) flow->cancel();
        sg::this_actor::sleep_for(1e-6);
    }
    std::cout << least << std::endl;
}

int main(int argc, char** argv) {
    sg::Engine engine(&argc, argv);
    for (auto setting : {"network/model:CM02", "network/crosstraffic:no", "network/TCP-gamma:0"})
        sg::Engine::set_config(setting);
    std::ifstream file(argv[1]);
    std::string calls, caps, routes;
    file >> calls >> caps >> routes;
    auto* zone = sg::create_full_zone("zone");
    std::vector<sg::Link*> links;
    for (auto& cap : parts(caps, ','))
        links.push_back(zone->create_link("link" + std::to_string(links.size()), std::stod(cap))->set_latency(0)->seal());
    std::vector<sg::Host*> from, to;
    for (auto& route : parts(routes, ';')) {
        auto number = std::to_string(from.size());
        from.push_back(zone->create_host("from" + number, 1e9));
        to.push_back(zone->create_host("to" + number, 1e9));
        auto listed = parts(route, ',');
        std::vector<sg::LinkInRoute> used;
        for (auto& link : std::set<std::string>(listed.begin(), listed.end())) used.emplace_back(links[std::stoi(link)]);
        zone->add_route(from.back()->get_netpoint(), to.back()->get_netpoint(), nullptr, nullptr, used, false);
    }
    auto* host = zone->create_host("host", 1e9);
    zone->seal();
    sg::Actor::create("measure", host, measure, from, to, std::stoi(argv[2]));
    engine.run();
}
