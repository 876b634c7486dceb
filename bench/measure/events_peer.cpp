// The plain C++ loop beside which bench/measure/events times the evaluator by events: each gate's stem stuck, one after the other, over one set of
// words, and taken back. events_peer NETLIST ROUNDS: what `timings events times` prints, and the gate evaluations.
#include "peer_netlist.hpp"

int main(int count, char** words) {
    if (count < 3) return 2;
    Netlist netlist = read_netlist(words[1]);
    Events events(netlist);
    Pcg32 random(1, 54);
    auto draw = [&random] { Word low = random.next(); return low | Word{random.next()} << 32; };
    for (Id x = 0; x < netlist.inputs; x++) events.values[x] = draw();
    for (Id x : netlist.cells) events.values[x] = draw();
    events.settle();
    for (int round = 0; round < std::atoi(words[2]); round++) {
        std::uint64_t changed = 0;
        events.evaluations = 0;
        double start = seconds();
        for (Id x : netlist.order) {
            events.stick_stem(x, x % 2 == 1 ? ones : 0);
            changed += events.trail.size();
            events.undo();
        }
        double taken = seconds() - start;
        std::printf("changed %llu seconds %.6f evaluations %llu\n", static_cast<unsigned long long>(changed), taken,
                    static_cast<unsigned long long>(events.evaluations));
    }
}
