// A plain test generator in C++, to time `atpg run` with one worker beside: the search of search_peer.cpp and the simulation of peer_regions.hpp in the
// loop of `run` (peer_loop.hpp). With `regions` faults are simulated by fanout-free regions. With `--compact K` so many rounds make the patterns fewer
// (peer_rounds.hpp).
//   c++ -O2 -std=c++20 -o run_peer run_peer.cpp && ./run_peer NETLIST [LIMIT [regions]] [--compact K]
#include <chrono>
#include <cstring>
#include <sstream>
#include "peer_rounds.hpp"

// It is a program: here it is a part, its main function unused, and it has a netlist and faults of its own.
#define main unused_main
namespace searching {
#include "search_peer.cpp"
}
#undef main

/// PODEM over the classes of the loop, which are in the same order.
struct Searches {
    searching::Netlist netlist;
    searching::Measures measures;
    searching::Sim sim;
    searching::Counts counts;
    searching::Search search;
    std::vector<searching::Fault> faults;

    explicit Searches(const char* path)
        : netlist(searching::read(path)), measures(netlist), sim(netlist), search{netlist, measures, sim, counts, {}},
          faults(searching::representatives(netlist)) {
        search.make_orders();
    }

    void settle(Loop& loop, size_t place, searching::u64 limit) {
        int end = search.attempts(faults[place], limit);
        if (end != 0) {
            loop.verdicts[place] = end == 1 ? Verdict::Redundant : Verdict::Aborted;
            return;
        }
        Cube cube;
        for (Id x : loop.sources) cube.push_back(static_cast<Bit>(sim.decided[x]));
        loop.take(std::move(cube));
    }
};

int main(int count, char** words) {
    int rounds = 0;
    if (count > 3 && std::strcmp(words[count - 2], "--compact") == 0) {
        rounds = std::atoi(words[count - 1]);
        count -= 2;
    }
    if (count < 2) return 2;
    auto limit = static_cast<searching::u64>(count > 2 ? std::atoi(words[2]) : 100);
    Loop loop(words[1], count > 3 && std::strcmp(words[3], "regions") == 0);
    Searches searches(words[1]);
    if (searches.faults.size() != loop.faults.size()) std::abort();
    loop.draw();
    for (size_t k = 0; k < loop.verdicts.size(); k++)
        if (loop.verdicts[k] == Verdict::Open) searches.settle(loop, k, limit);
    loop.publish();
    if (rounds > 0) Rounds(loop, searches.measures.zero, searches.measures.one).make_fewer(rounds);
    loop.print();
}
