// A plain test generator by SAT, to time `atpg run` beside: the loop of run_peer.cpp (peer_loop.hpp, faults simulated by fanout-free regions), where
// each search is a question to CaDiCaL, without a limit, so that every class is settled.
//   c++ -O2 -std=c++20 -o sat_peer sat_peer.cpp -lcadical && ./sat_peer NETLIST
// All faults of a fanout-free region show at its head or not at all, so they share their clauses: for each signal that is needed its good value; for
// each signal after the head from which a point is reached also its faulty value, and whether the fault shows there and goes on from there. A fault
// then is a set of assumptions about good values: its line has the other bit, and the pins beside its way to the head let it pass. First the point
// nearest to the head is asked for alone, whose clauses are few; then, for what can't be shown there, all. One solver serves regions as they come, with
// a literal that switches the clauses of each off once it is done; when it has too many variables a new one begins.
// What a test leaves free is what no good or faulty value on the way to one point depends on.
#include <cadical.hpp>
#include <cstdlib>
#include "peer_loop.hpp"

constexpr size_t most = 8;  // times the variables of a head's clauses in a solver before a new one begins

/// Which signals an observed point can be reached from, and the next signal that all ways there have in common.
struct Ways {
    const Netlist& netlist;
    std::vector<bool> reaches;
    std::vector<Id> next, length;  // none: the points; the signals in common from here on

    Ways(const Netlist& given, const Points& points)
        : netlist(given), reaches(given.signals(), false), next(given.signals(), none), length(given.signals(), 1) {
        for (size_t k = given.order.size(); k-- > 0;) look(points, given.order[k]);
        for (Id x = 0; x < given.signals(); x++)
            if (given.places[x] == none) look(points, x);
    }

    Id common(Id one, Id other) const {
        while (one != other && one != none && other != none) {
            Id& longer = length[one] >= length[other] ? one : other;
            longer = next[longer];
        }
        return one == other ? one : none;
    }

    void look(const Points& points, Id x) {
        reaches[x] = points.first[x] != none;
        bool is_first = !reaches[x];
        for (const Id *fan = netlist.fans.begin(x), *last = netlist.fans.end(x); fan != last; fan++) {
            Id gate = netlist.order[*fan];
            if (!reaches[gate]) continue;
            next[x] = is_first ? gate : common(next[x], gate);
            reaches[x] = true;
            is_first = false;
        }
        if (next[x] != none) length[x] = length[next[x]] + 1;
    }
};

inline bool is_all(Kind kind) { return kind == Kind::And || kind == Kind::Nand; }
inline bool is_any(Kind kind) { return kind == Kind::Or || kind == Kind::Nor; }

/// A solver and the clauses of gates. Clauses under a literal hold where it is false.
struct Clauses {
    std::unique_ptr<CaDiCaL::Solver> solver;
    int variables = 0;

    void begin() {
        solver = std::make_unique<CaDiCaL::Solver>();
        solver->set("lucky", 0);  // what it tries before it searches takes longer than most of these searches
        solver->set("stabilizeonly", 1);  // few restarts, decisions by activity: a third of the time on multipliers
        solver->set("chrono", 0);
        variables = 0;
    }
    int fresh() { return ++variables; }

    void add(int under, std::initializer_list<int> literals) {
        if (under != 0) solver->add(under);
        for (int literal : literals) solver->add(literal);
        solver->add(0);
    }
    /// A literal that is true where all of these are.
    int all(const std::vector<int>& literals, int sign, int under) {
        int out = fresh();
        for (int literal : literals) add(under, {-out, sign * literal});
        if (under != 0) solver->add(under);
        solver->add(out);
        for (int literal : literals) solver->add(-sign * literal);
        solver->add(0);
        return out;
    }
    int parity(const std::vector<int>& literals, int under) {
        int left = literals[0];
        for (size_t k = 1; k < literals.size(); k++) {
            int right = literals[k], out = fresh();
            add(under, {-out, left, right});
            add(under, {-out, -left, -right});
            add(under, {out, -left, right});
            add(under, {out, left, -right});
            left = out;
        }
        return left;
    }
    int made(Kind kind, const std::vector<int>& pins, int under) {
        switch (kind) {
            case Kind::And: return all(pins, 1, under);
            case Kind::Nand: return -all(pins, 1, under);
            case Kind::Or: return -all(pins, -1, under);
            case Kind::Nor: return all(pins, -1, under);
            case Kind::Xor: return parity(pins, under);
            case Kind::Xnor: return -parity(pins, under);
            case Kind::Not: return -pins[0];
            default: return pins[0];
        }
    }
    bool truth(int literal) { return (solver->val(std::abs(literal)) > 0) == (literal > 0); }
};

/// The clauses of a region's head, and the search for each fault of the region.
struct Search {
    const Netlist& netlist;
    const Points& points;
    const Regions& regions;
    const Ways& ways;
    Clauses clauses;
    Id head = none;                          // none: the fault's line is itself a point's
    bool is_part = false;                    // whether there are more points than the nearest, which is asked for
    int off = 0;                             // true switches the clauses of the head off
    std::vector<int> good, faulty, shows;    // literals
    std::vector<Id> support, after;          // signals in the order of their values; those after the head
    std::vector<Id> in_support, in_after, has_good;  // a signal is in if it has the number of this turn, or of this solver
    Id turn = 0, solver_turn = 0;
    std::vector<int> pins;
    std::vector<Id> beside;                  // the signals that a fault's assumptions are about, and what else decides whether it shows at the head
    std::vector<int> assumed;
    std::vector<Id> needs_good, needs_faulty;
    Id trace = 0;

    Search(const Loop& loop, const Ways& given)
        : netlist(loop.netlist), points(loop.points), regions(loop.together.regions), ways(given) {
        for (auto* each : {&good, &faulty, &shows}) each->assign(netlist.signals(), 0);
        for (auto* each : {&in_support, &in_after, &has_good, &needs_good, &needs_faulty}) each->assign(netlist.signals(), 0);
    }

    bool is_gate(Id x) const { return netlist.places[x] != none; }
    bool is_after(Id x) const { return in_after[x] == turn; }
    Id site_of(const Fault& fault) const {
        return fault.line == Fault::Line::Pin ? *(netlist.pins.begin(fault.signal) + fault.place) : fault.signal;
    }

    // ---- the clauses of a head

    /// For the faults that only a point reads, which need a signal's value.
    void aim_at(Id signal) {
        begin(none);
        list_support(signal);
        make();
    }

    void aim(Id given, bool nearest) {
        begin(given);
        list_after();
        if (nearest) keep_nearest();
        for (Id x : after) list_support(x);
        make();
    }

    void begin(Id given) {
        turn++;
        head = given;
        is_part = false;
        support.clear();
        after.clear();
    }

    void make() {
        if (off != 0) clauses.add(0, {off});
        if (!clauses.solver || static_cast<size_t>(clauses.variables) > most * (support.size() + 2 * after.size())) {
            clauses.begin();
            solver_turn++;
        }
        off = clauses.fresh();
        for (Id x : support) make_good(x);
        if (head != none) make_faulty();
    }

    void list_after() {
        after.push_back(head);
        in_after[head] = turn;
        for (size_t k = 0; k < after.size(); k++)
            for (const Id *fan = netlist.fans.begin(after[k]), *last = netlist.fans.end(after[k]); fan != last; fan++) {
                Id gate = netlist.order[*fan];
                if (is_after(gate) || !ways.reaches[gate]) continue;
                in_after[gate] = turn;
                after.push_back(gate);
            }
        std::sort(after.begin() + 1, after.end(), [&](Id one, Id other) { return netlist.places[one] < netlist.places[other]; });
    }

    /// Only what lies on ways to the first point.
    void keep_nearest() {
        list_support(*std::find_if(after.begin(), after.end(), [&](Id x) { return points.first[x] != none; }));
        std::vector<Id> kept;
        for (Id x : after) {
            if (in_support[x] == turn) kept.push_back(x);
            else in_after[x] = 0;
        }
        is_part = kept.size() < after.size();
        after.swap(kept);
    }

    /// All that a signal's value depends on, each signal behind its pins.
    void list_support(Id root) {
        if (in_support[root] == turn) return;
        std::vector<std::pair<Id, Id>> path{{root, 0}};
        in_support[root] = turn;
        while (!path.empty()) {
            auto& [x, at] = path.back();
            if (!is_gate(x) || at == netlist.pins.size(x)) {
                support.push_back(x);
                path.pop_back();
                continue;
            }
            Id pin = *(netlist.pins.begin(x) + at++);
            if (in_support[pin] == turn) continue;
            in_support[pin] = turn;
            path.push_back({pin, 0});
        }
    }

    void make_good(Id x) {
        if (has_good[x] == solver_turn) return;
        has_good[x] = solver_turn;
        pins.clear();
        if (is_gate(x))
            for (const Id *pin = netlist.pins.begin(x), *last = netlist.pins.end(x); pin != last; pin++) pins.push_back(good[*pin]);
        good[x] = is_gate(x) ? clauses.made(netlist.kinds[x], pins, 0) : clauses.fresh();
    }

    void make_faulty() {
        faulty[head] = -good[head];
        for (size_t k = 1; k < after.size(); k++) make_faulty(after[k]);
        for (Id x : after) make_next(x);
        for (Id x = ways.next[head]; x != none; x = ways.next[x]) clauses.add(off, {shows[x]});
    }

    /// A fault that shows at a gate passes the pins beside.
    void make_faulty(Id gate) {
        Kind kind = netlist.kinds[gate];
        int shown = shows[gate] = clauses.fresh();
        pins.clear();
        for (const Id *pin = netlist.pins.begin(gate), *last = netlist.pins.end(gate); pin != last; pin++) {
            pins.push_back(is_after(*pin) ? faulty[*pin] : good[*pin]);
            if (is_after(*pin)) continue;
            if (is_all(kind)) clauses.add(off, {-shown, good[*pin]});
            if (is_any(kind)) clauses.add(off, {-shown, -good[*pin]});
        }
        faulty[gate] = clauses.made(kind, pins, off);
        clauses.add(off, {-shown, good[gate], faulty[gate]});
        clauses.add(off, {-shown, -good[gate], -faulty[gate]});
    }

    /// Where it shows it goes on, up to a point.
    void make_next(Id x) {
        if (points.first[x] != none) return;
        CaDiCaL::Solver& solver = *clauses.solver;
        solver.add(off);
        if (x != head) solver.add(-shows[x]);
        for (const Id *fan = netlist.fans.begin(x), *last = netlist.fans.end(x); fan != last; fan++)
            if (is_after(netlist.order[*fan])) solver.add(shows[netlist.order[*fan]]);
        solver.add(0);
    }

    // ---- a fault

    /// A fault's effect comes through a gate from the pin at a place.
    void pass(Id gate, Id place) {
        Kind kind = netlist.kinds[gate];
        for (Id k = 0; k < netlist.pins.size(gate); k++) {
            if (k == place) continue;
            Id pin = *(netlist.pins.begin(gate) + k);
            beside.push_back(pin);
            if (is_all(kind)) assumed.push_back(good[pin]);
            if (is_any(kind)) assumed.push_back(-good[pin]);
        }
    }

    void assume(const Fault& fault) {
        Id site = site_of(fault), x = fault.signal;
        beside.assign(1, site);
        assumed.assign(1, fault.stuck == 0 ? good[site] : -good[site]);
        if (head == none) return;
        if (fault.line == Fault::Line::Pin) pass(x, fault.place);
        while (x != head) {
            Id gate = regions.only_reader(x);
            pass(gate, static_cast<Id>(std::find(netlist.pins.begin(gate), netlist.pins.end(gate), x) - netlist.pins.begin(gate)));
            x = gate;
        }
    }

    /// Whether there is a test.
    bool finds(const Fault& fault) {
        assume(fault);
        for (int literal : assumed) clauses.solver->assume(literal);
        clauses.solver->assume(-off);
        return clauses.solver->solve() == 10;
    }

    // ---- the inputs and cells that a test needs

    void need(Id x, bool is_faulty) { (is_faulty && is_after(x) ? needs_faulty : needs_good)[x] = trace; }
    bool is_needed(Id x, bool is_faulty) const { return (is_faulty && is_after(x) ? needs_faulty : needs_good)[x] == trace; }

    /// One pin where it decides its gate, one that is needed anyhow or the lowest; else all.
    void follow(Id gate, bool is_faulty) {
        Kind kind = netlist.kinds[gate];
        const Id *first = netlist.pins.begin(gate), *last = netlist.pins.end(gate);
        Id best = none;
        for (const Id* pin = first; pin != last && (is_all(kind) || is_any(kind)); pin++) {
            if (clauses.truth(is_faulty && is_after(*pin) ? faulty[*pin] : good[*pin]) != is_any(kind)) continue;
            if (is_needed(*pin, is_faulty)) return;
            if (best == none || netlist.places[*pin] + 1 < netlist.places[best] + 1) best = *pin;  // none + 1 is 0
        }
        if (best != none) return need(best, is_faulty);
        for (const Id* pin = first; pin != last; pin++) need(*pin, is_faulty);
    }

    /// What the first point at which the fault shows depends on, with the fault and without it.
    Cube cube(const Loop& loop) {
        trace++;
        auto shown = std::find_if(after.begin(), after.end(), [&](Id x) { return points.first[x] != none && clauses.truth(good[x]) != clauses.truth(faulty[x]); });
        if (head == none) need(beside[0], false);
        else needs_good[*shown] = needs_faulty[*shown] = trace;
        for (size_t k = support.size(); k-- > 0;) {
            Id x = support[k];
            if (x == head)
                for (Id signal : beside) need(signal, false);
            if (x == head || !is_gate(x)) continue;
            if (needs_good[x] == trace) follow(x, false);
            if (needs_faulty[x] == trace) follow(x, true);
        }
        Cube cube;
        for (Id x : loop.sources) {
            bool is_free = in_support[x] != turn || needs_good[x] != trace;
            cube.push_back(is_free ? Bit::Free : clauses.truth(good[x]) ? Bit::One : Bit::Zero);
        }
        return cube;
    }
};

/// All classes of a loop that are open, region by region.
struct Searches {
    Loop& loop;
    Ways ways;
    Search search;
    std::vector<std::vector<size_t>> waiting;  // the open classes of each head

    explicit Searches(Loop& given) : loop(given), ways(given.netlist, given.points), search(given, ways), waiting(given.netlist.signals()) {}

    /// Whether there is a test, which the loop then has.
    bool finds(size_t place) {
        if (!search.finds(loop.faults[place])) return false;
        loop.take(search.cube(loop));
        return true;
    }

    /// The open ones of a head's classes; those without a test stay in the list where not all points were asked for.
    void settle_region(Id head, bool nearest) {
        std::vector<size_t> open, rest;
        for (size_t k : waiting[head])
            if (loop.verdicts[k] == Verdict::Open) open.push_back(k);
        if (!open.empty() && ways.reaches[head]) search.aim(head, nearest);
        for (size_t k : open) {
            if (loop.verdicts[k] != Verdict::Open || (ways.reaches[head] && finds(k))) continue;
            if (ways.reaches[head] && search.is_part) rest.push_back(k);
            else loop.verdicts[k] = Verdict::Redundant;
        }
        waiting[head].swap(rest);
    }

    void settle_all() {
        for (size_t k = 0; k < loop.faults.size(); k++)
            if (loop.verdicts[k] == Verdict::Open && !is_observed_only(loop.netlist, loop.faults[k]))
                waiting[search.regions.head_of(loop.faults[k])].push_back(k);
        for (size_t k = 0; k < loop.faults.size(); k++) {
            if (loop.verdicts[k] != Verdict::Open) continue;
            if (!is_observed_only(loop.netlist, loop.faults[k])) {
                for (bool nearest : {true, false}) settle_region(search.regions.head_of(loop.faults[k]), nearest);
                continue;
            }
            search.aim_at(search.site_of(loop.faults[k]));
            if (!finds(k)) loop.verdicts[k] = Verdict::Redundant;
        }
    }
};

int main(int count, char** words) {
    if (count < 2) return 2;
    Loop loop(words[1], true);
    loop.draw();
    Searches searches(loop);
    searches.settle_all();
    loop.publish();
    loop.print();
}
