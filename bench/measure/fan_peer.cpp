// A plain FAN of the same policy as crates/fan, to compare with: decisions on head lines, fanout stems, and bound inputs and cells; what is
// forced first; eight attempts, each a whole search. (Fujiwara and Shimono, On the acceleration of test generation algorithms, 1983.)
//
//     clang++ -O2 -std=c++20 -o fan_peer bench/measure/fan_peer.cpp && ./fan_peer FILE.bench LIMIT
#include "search_peer.hpp"
#include <queue>

// ---- bound signals and head lines

enum Role : u8 { Bound, Head, Inner };

struct Roles {
    const Netlist& n;
    std::vector<u8> base, role;  // whatever the fault, and of the last one
    std::vector<u32> changed;

    explicit Roles(const Netlist& n) : n(n), base(n.count, Inner) {
        std::vector<u8> bound(n.count, 0);
        for (u32 x : n.order) {
            bool is = n.pin_count(x) == 0;
            for (u32 k = 0; k < n.pin_count(x); k++) is |= bound[n.pin(x, k)] || is_stem(n.pin(x, k));
            bound[x] = is;
        }
        for (u32 x = 0; x < n.count; x++) {
            bool is_read = n.observed[x];
            for (u32 i = n.fan_begin[x]; i < n.fan_begin[x + 1]; i++) is_read |= bound[n.fan[i]];
            base[x] = bound[x] ? Bound : is_read ? Head : Inner;
        }
        role = base;
    }
    bool is_stem(u32 x) const { return n.lines[x].size() >= 4; }
    void put(u32 x, Role r) { role[x] = r, changed.push_back(x); }
    // what a fault binds besides is a chain: a signal of two readers is a stem, and what reads it is bound anyway
    void aim(const Fault& f) {
        for (u32 x : changed) role[x] = base[x];
        changed.clear();
        u32 x = f.sort == 0 || (f.sort == 1 && n.is_gate(f.signal)) ? f.signal : NONE;
        while (x != NONE && role[x] != Bound) {
            put(x, Bound);
            for (u32 k = 0; n.is_gate(x) && k < n.pin_count(x); k++) if (role[n.pin(x, k)] == Inner) put(n.pin(x, k), Head);
            x = n.lines[x].size() == 2 && n.fan_begin[x] < n.fan_begin[x + 1] ? n.fan[n.fan_begin[x]] : NONE;
        }
    }
    bool may(u32 x) const { return role[x] != Inner; }
    bool is_end(u32 x) const { return role[x] == Head || (!n.is_gate(x) && role[x] == Bound); }
};

// ---- the search

struct Manner { bool together, stems; int round = -1; };  // the round of pins by a hash, or none
struct Aim { u32 signal = NONE; bool bit = false; };
struct Votes { u32 zero = 0, one = 0; };

static bool inverts(Kind kind) { return kind == Nand || kind == Nor || kind == Xnor || kind == Not; }
static bool joins(Kind kind) { return kind == And || kind == Nand; }
static bool parts(Kind kind) { return kind == Or || kind == Nor; }
static bool adds(Kind kind) { return kind == Xor || kind == Xnor; }

struct Fan {
    const Netlist& n;
    const Measures& m;
    const Roles& roles;
    Sim& sim;
    Counts& counts;
    Manner manner{};
    struct Side { u32 signal; bool bit; bool tried; size_t mark; u64 nodes; };
    std::vector<Side> stack;
    std::vector<Votes> votes;
    std::vector<u8> met;
    std::vector<u32> rounds, paths;  // the last round in which each signal was come to, and those that wait
    u32 round = 0;
    u64 salt = 0;

    Fan(const Netlist& n, const Measures& m, const Roles& roles, Sim& sim, Counts& counts)
        : n(n), m(m), roles(roles), sim(sim), counts(counts), votes(n.count), met(n.count, 0), rounds(n.count, 0), at(n.count, 0) {}

    Tri good(u32 x) const { return sim.labels[x].good(); }
    bool open(u32 x) const { return n.is_gate(x) && roles.role[x] != Head && sim.labels[x].own() == X; }
    u32 driver() const { return sim.fault.sort == 1 ? n.pin(sim.fault.signal, sim.fault.pin) : sim.fault.signal; }
    u32 place(u32 x) const { return n.is_gate(x) ? n.place[x] + 1 : 0; }
    bool cheap(u32 x) const { return m.one[x] == m.zero[x] ? mixed(salt ^ x) & 1 : m.one[x] < m.zero[x]; }
    Votes votes_for(bool bit, u32 count) const { return bit ? Votes{0, count} : Votes{count, 0}; }

    struct Pins { u32 unknown = 0; bool odd = false; };
    Pins pins_of(u32 x) const {
        Pins p;
        for (u32 k = 0; k < n.pin_count(x); k++) p.unknown += good(n.pin(x, k)) == X, p.odd ^= good(n.pin(x, k)) == One;
        return p;
    }
    template <class Cost> u32 pin_by(u32 x, Cost cost) const {
        u32 best = NONE;
        u64 least = 0;
        for (u32 k = 0; k < n.pin_count(x); k++) {
            u32 p = n.pin(x, k);
            u64 own = cost(p);
            if (good(p) == X && (best == NONE || own < least)) best = p, least = own;
        }
        return best;
    }
    u64 hash(u32 p) const { return mixed(salt_of(sim.fault) ^ (u64)manner.round << 32 ^ p); }
    u32 easiest(u32 x, bool bit) const { return pin_by(x, [&](u32 p) { return manner.round < 0 ? m.of(p, bit) : hash(p); }); }
    u32 hardest(u32 x, bool bit) const { return pin_by(x, [&](u32 p) { return manner.round < 0 ? ~0u - m.of(p, bit) : hash(p); }); }

    // the D-frontier: gates with an effect on a pin that may still come to have it, kept along the stack with what came and left
    std::vector<u32> front, at;  // and of each signal its place there, from 1
    struct Turned { u32 gate; bool in; };
    std::vector<Turned> turned;
    struct Mark { size_t turned, trail; };
    std::vector<Mark> marks;
    size_t looked = 0;
    void add(u32 x) { front.push_back(x), at[x] = front.size(); }
    void remove(u32 x) {
        u32 last = front.back();
        front[at[x] - 1] = last, at[last] = at[x], at[x] = 0;
        front.pop_back();
    }
    void undo_to(size_t length) {
        for (; turned.size() > length; turned.pop_back()) turned.back().in ? remove(turned.back().gate) : add(turned.back().gate);
    }
    bool may_get(u32 x) const { return sim.labels[x].differs() && !sim.effect(sim.labels[x]); }
    void come(u32 x) { if (n.is_gate(x) && !at[x] && may_get(x)) add(x), turned.push_back({x, true}); }
    void look_at(u32 x) {
        if (at[x] && !may_get(x)) remove(x), turned.push_back({x, false});
        if (sim.effect(sim.labels[x])) for (u32 i = n.fan_begin[x]; i < n.fan_begin[x + 1]; i++) come(n.fan[i]);
    }
    void begin() {
        undo_to(0), marks.clear(), looked = 0;
        if (sim.fault.sort == 1) come(sim.fault.signal);
        else if (sim.fault.sort == 0) look_at(sim.fault.signal);
    }
    void follow() {
        if (stack.empty()) return begin();
        if (marks.size() >= stack.size()) {
            Mark mark = marks[stack.size() - 1];
            marks.resize(stack.size() - 1);
            undo_to(mark.turned), looked = mark.trail;
        }
        marks.push_back({turned.size(), looked});
        for (; looked < sim.trail.size(); looked++) look_at(sim.trail[looked].signal);
    }
    // whether the effect may still come from a gate to an observed point
    void meet(u32 x) { if (rounds[x] != round) rounds[x] = round, paths.push_back(x); }
    bool leads(u32 gate) {
        paths.clear();
        for (meet(gate); !paths.empty();) {
            u32 x = paths.back();
            paths.pop_back();
            if (n.observed[x]) return true;
            for (u32 i = n.fan_begin[x]; i < n.fan_begin[x + 1]; i++) {
                u32 z = n.fan[i];
                if (sim.labels[z].differs() && !sim.effect(sim.labels[z])) meet(z);
            }
        }
        return false;
    }
    u32 nearest() {
        for (round++;;) {
            u32 best = NONE;
            for (u32 x : front) if (rounds[x] != round && (best == NONE || m.seen[x] < m.seen[best] || (m.seen[x] == m.seen[best] && x < best))) best = x;
            if (best == NONE || leads(best)) return best;
        }
    }

    // what may be forced
    std::vector<Aim> aims() const {
        std::vector<Aim> all;
        auto ask = [&](u32 x, bool bit) { for (u32 k = 0; k < n.pin_count(x); k++) if (good(n.pin(x, k)) == X) all.push_back({n.pin(x, k), bit}); };
        if (good(driver()) == X) all.push_back({driver(), !sim.fault.value});
        for (auto& side : stack) {
            u32 x = side.signal;
            if (!open(x)) continue;
            bool bit = side.bit != inverts(n.kind[x]);
            Pins p = pins_of(x);
            if (joins(n.kind[x]) ? bit || p.unknown == 1 : parts(n.kind[x]) ? !bit || p.unknown == 1 : adds(n.kind[x]) ? p.unknown == 1 : true)
                ask(x, adds(n.kind[x]) ? bit != p.odd : bit);
        }
        u32 single = front.size() == 1 ? front[0] : NONE;
        if (single != NONE && (joins(n.kind[single]) || parts(n.kind[single])))
            for (u32 k = 0; k < n.pin_count(single); k++) {
                u32 p = n.pin(single, k);
                if (good(p) == X && !sim.labels[p].differs()) all.push_back({p, joins(n.kind[single])});
            }
        return all;
    }

    // one objective, traced back
    Aim into(Aim a) const {
        Kind kind = n.kind[a.signal];
        bool bit = a.bit != inverts(kind);
        if (adds(kind)) {
            Pins p = pins_of(a.signal);
            u32 pin = pin_by(a.signal, [&](u32 q) { return std::min(m.zero[q], m.one[q]); });
            return {pin, pin != NONE && (p.unknown == 1 ? bit != p.odd : cheap(pin))};
        }
        bool all = joins(kind) ? bit : parts(kind) && !bit;
        return {all ? hardest(a.signal, bit) : easiest(a.signal, bit), bit};
    }
    Aim objective() {
        if (good(driver()) == X) return {driver(), !sim.fault.value};
        Aim decided, pin;
        auto lower = [&](u32 x, const Aim& best) { return best.signal == NONE || place(x) < place(best.signal); };
        for (auto& side : stack) if (open(side.signal) && lower(side.signal, decided)) decided = {side.signal, side.bit};
        u32 gate = nearest();
        for (u32 k = 0; gate != NONE && k < n.pin_count(gate); k++) {
            u32 p = n.pin(gate, k);
            if (good(p) == X && lower(p, pin)) pin = {p, joins(n.kind[gate]) || (!parts(n.kind[gate]) && cheap(p))};
        }
        if (pin.signal != NONE && lower(pin.signal, decided)) return pin;
        return decided.signal == NONE ? decided : into(decided);
    }
    Aim traced() {
        for (Aim a = objective(); a.signal != NONE; a = into(a)) {
            u32 x = a.signal;
            if (roles.role[x] == Head || !n.is_gate(x) || (manner.stems && roles.is_stem(x) && !sim.labels[x].differs())) return a;
        }
        return {};
    }

    // all objectives together, by votes
    struct Wait { u32 place, signal; bool operator<(const Wait& w) const { return place != w.place ? place < w.place : signal < w.signal; } };
    std::priority_queue<Wait> waiting;
    void want(u32 x, Votes v) {
        if (good(x) != X) return;
        if (!met[x]) met[x] = 1, votes[x] = {}, waiting.push({place(x), x}), touched.push_back(x);
        votes[x].zero += v.zero, votes[x].one += v.one;
    }
    std::vector<u32> touched;
    void spread(u32 x, Votes v) {
        Kind kind = n.kind[x];
        if (inverts(kind)) std::swap(v.zero, v.one);
        if (adds(kind)) {
            Pins p = pins_of(x);
            for (u32 k = 0; k < n.pin_count(x); k++) {
                u32 q = n.pin(x, k);
                want(q, p.unknown == 1 ? (p.odd ? Votes{v.one, v.zero} : v) : votes_for(cheap(q), v.zero + v.one));
            }
            return;
        }
        bool bit = joins(kind);  // all pins at this bit, or one at the other
        if (!joins(kind) && !parts(kind)) { for (u32 k = 0; k < n.pin_count(x); k++) want(n.pin(x, k), v); return; }
        for (u32 k = 0; k < n.pin_count(x); k++) want(n.pin(x, k), votes_for(bit, bit ? v.one : v.zero));
        u32 some = bit ? v.zero : v.one, pin = some ? easiest(x, !bit) : NONE;
        if (pin != NONE) want(pin, votes_for(!bit, some));
    }
    Aim voted() {
        for (u32 x : touched) met[x] = 0;
        touched.clear(), waiting = {};
        if (good(driver()) == X) want(driver(), votes_for(!sim.fault.value, 1));
        else {
            for (auto& side : stack) if (open(side.signal)) spread(side.signal, votes_for(side.bit, 1));
            u32 gate = nearest();
            for (u32 k = 0; gate != NONE && k < n.pin_count(gate); k++)
                want(n.pin(gate, k), votes_for(joins(n.kind[gate]) || (!parts(n.kind[gate]) && cheap(n.pin(gate, k))), 1));
        }
        Aim best;
        u32 most = 0;
        while (!waiting.empty()) {
            u32 x = waiting.top().signal;
            waiting.pop();
            Votes v = votes[x];
            Aim a{x, v.one > v.zero};
            if (roles.role[x] == Head || !n.is_gate(x)) {
                if (best.signal == NONE || v.zero + v.one > most) best = a, most = v.zero + v.one;
            } else if (roles.is_stem(x) && !sim.labels[x].differs() && (manner.stems || (v.zero && v.one))) return a;
            else spread(x, v);
        }
        return best;
    }
    bool splits(u32 x) const { return good(x) == X && (roles.is_end(x) || (roles.is_stem(x) && roles.may(x))); }
    Aim choose() {
        Aim a = manner.together ? voted() : traced();
        if (a.signal != NONE && splits(a.signal)) return a;
        for (u32 x = 0; x < n.count; x++) if (good(x) == X && roles.is_end(x)) return {x, false};
        abort();
    }

    // where a side leads
    bool justified(u32 last) const {
        for (auto& side : stack) if (open(side.signal)) return false;
        return !open(last);
    }
    State look(Aim a, bool stays) {
        size_t mark = sim.trail.size();
        counts.looks++;
        sim.assign(a.signal, a.bit);
        State s = sim.state();
        for (size_t i = mark; i < sim.trail.size(); i++) {
            u32 x = sim.trail[i].signal;
            if (sim.decided[x] != X && sim.labels[x].own() != X && sim.labels[x].own() != sim.decided[x]) s = Blocked;
        }
        if (s == Test && !justified(a.signal)) s = Going;
        if (s == Blocked || (s == Going && !stays)) sim.undo(mark, a.signal);
        return s;
    }
    void push(Aim a, bool tried, size_t mark) { counts.decisions++, stack.push_back({a.signal, a.bit, tried, mark, 0}); }
    // The last untried side, where sides of short attempts are looked at for the first time. 0: a test, 1: the tree is whole, 2: it may go on
    int turn(u64& closed) {
        u64 nodes = 1;
        while (!stack.empty()) {
            Side side = stack.back();
            sim.undo(side.mark, side.signal);
            stack.pop_back();
            if (side.tried) { nodes += side.nodes + 1; continue; }
            Aim other{side.signal, !side.bit};
            State s = looks ? Going : look(other, true);
            if (s == Test) return 0;
            if (s == Blocked) { closed++, nodes++; continue; }
            if (looks) sim.assign(other.signal, other.bit);
            stack.push_back({other.signal, other.bit, true, side.mark, nodes});
            return 2;
        }
        counts.tree += nodes;
        return 1;
    }
    // goes to a side and back to the other one where it is closed; 0: a test, 1: both are closed, 2: it may go on
    int go(Aim a, State other) {
        size_t mark = sim.trail.size();
        State one = look(a, true);
        if (one == Test) return 0;
        if (one == Going) { push(a, other == Blocked, mark); return 2; }
        if (other == Blocked) return 1;
        Aim b{a.signal, !a.bit};
        if (looks) { sim.assign(b.signal, b.bit), push(b, true, mark); return 2; }
        State two = look(b, true);
        if (two == Going) push(b, true, mark);
        return two == Test ? 0 : two == Going ? 2 : 1;
    }
    // 0: a test, 1: redundant, 2: given up
    bool looks = false;  // at both sides of each decision, as the last attempt does
    int run(Manner how, u64 limit, bool last) {
        manner = how, looks = last;
        salt = salt_of(sim.fault);
        stack.clear();
        State s = sim.state();
        if (s != Going) return s == Test ? 0 : 1;
        for (u64 closed = 0; closed < limit;) {
            follow();
            Aim a;
            State other = Going;
            for (Aim each : aims()) {
                if (good(each.signal) != X || !roles.may(each.signal)) continue;
                if (!looks && splits(each.signal)) { a = each; break; }  // a place is decided without a look
                other = look({each.signal, !each.bit}, false);
                if (other == Test) return 0;
                if (other == Blocked) { a = each; break; }
            }
            if (a.signal == NONE) {
                a = choose();
                if (looks) other = look({a.signal, !a.bit}, false);
                if (other == Test) return 0;
            }
            int end = go(a, other);
            if (end == 1) closed++, end = turn(closed);
            if (end != 2) return end;
        }
        return 2;
    }
};

int main(int argc, char** argv) {
    if (argc < 3) return 2;
    Netlist n = read(argv[1]);
    u64 limit = std::max(1, atoi(argv[2]));
    bool list = argc > 3;
    auto faults = representatives(n);
    Counts counts;
    auto begin = std::chrono::steady_clock::now();
    Measures m(n);
    Sim sim(n);
    Roles roles(n);
    constexpr struct { Manner manner; u64 most; } attempts[] = {{{false, false}, 16}, {{true, true}, 64}, {{false, true}, 64},
        {{false, false, 0}, 16}, {{false, false, 1}, 16}, {{false, false, 2}, 16}, {{false, false, 3}, 16}, {{true, false}, 0}};
    Fan search(n, m, roles, sim, counts);
    for (auto& f : faults) {
        roles.aim(f);
        int end = 2;
        for (auto& attempt : attempts) {
            if (attempt.most >= limit) continue;
            sim.aim(f);
            end = search.run(attempt.manner, attempt.most ? attempt.most : limit, !attempt.most);
            if (end != 2) break;
        }
        (end == 0 ? counts.tests : end == 1 ? counts.closed : counts.aborted)++;
        if (list && end) printf("%d sort %d signal %u pin %u value %d\n", end, f.sort, f.signal, f.pin, f.value);
    }
    double seconds = std::chrono::duration<double>(std::chrono::steady_clock::now() - begin).count();
    print(counts, faults.size(), sim, seconds);
}
