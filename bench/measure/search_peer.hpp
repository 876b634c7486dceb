// What the plain searches of search_peer.cpp and fan_peer.cpp stand on: a netlist, its classes' first members, measures, and labels of a path
// by events with a trail.
#pragma once
#include <algorithm>
#include <chrono>
#include <cstdint>
#include <cstdio>
#include <cstdlib>
#include <fstream>
#include <numeric>
#include <sstream>
#include <string>
#include <unordered_map>
#include <vector>

using u8 = uint8_t;
using u32 = uint32_t;
using u64 = uint64_t;

enum Kind : u8 { And, Nand, Or, Nor, Xor, Xnor, Not, Buff, Dff, Const0, Const1, Input };
enum Tri : u8 { Zero, One, X };
constexpr u32 NONE = ~0u;
constexpr u32 DEAR = 1u << 30;

struct Netlist {
    u32 count = 0;
    std::vector<u32> inputs, outputs, cells, order, place;
    std::vector<Kind> kind;
    std::vector<u32> pin_begin, pins;        // of each signal
    std::vector<u32> fan_begin, fan;         // gates that read each signal
    std::vector<std::vector<u32>> lines;     // readers: definition and pin, or NONE and the output
    std::vector<u8> observed;                // read by an output or a cell

    u32 pin_count(u32 x) const { return pin_begin[x + 1] - pin_begin[x]; }
    u32 pin(u32 x, u32 k) const { return pins[pin_begin[x] + k]; }
    bool is_gate(u32 x) const { return kind[x] != Input && kind[x] != Dff; }
};

static Kind kind_of(std::string word) {
    for (auto& c : word) c = toupper(c);
    if (word == "AND") return And;
    if (word == "NAND") return Nand;
    if (word == "OR") return Or;
    if (word == "NOR") return Nor;
    if (word == "XOR") return Xor;
    if (word == "XNOR") return Xnor;
    if (word == "NOT" || word == "INV") return Not;
    if (word == "BUF" || word == "BUFF") return Buff;
    if (word == "DFF") return Dff;
    fprintf(stderr, "no gate %s\n", word.c_str());
    exit(2);
}

static Netlist read(const char* path) {
    std::ifstream file(path);
    std::string line;
    std::vector<std::string> inputs, outputs;
    struct Equation { std::string name; Kind kind; std::vector<std::string> pins; };
    std::vector<Equation> equations;
    while (std::getline(file, line)) {
        line = line.substr(0, line.find('#'));
        for (auto& c : line) if (c == '=' || c == '(' || c == ')' || c == ',' || c == '\r' || c == '\t') c = ' ';
        std::istringstream words(line);
        std::vector<std::string> w;
        for (std::string s; words >> s;) w.push_back(s);
        if (w.empty()) continue;
        if (w[0] == "INPUT" && w.size() == 2) inputs.push_back(w[1]);
        else if (w[0] == "OUTPUT" && w.size() == 2) {
            if (std::find(outputs.begin(), outputs.end(), w[1]) == outputs.end()) outputs.push_back(w[1]);
        } else equations.push_back({w[0], kind_of(w[1]), std::vector<std::string>(w.begin() + 2, w.end())});
    }
    Netlist n;
    std::unordered_map<std::string, u32> ids;
    for (auto& s : inputs) { n.inputs.push_back(n.count); ids[s] = n.count++; n.kind.push_back(Input); }
    for (auto& e : equations) { ids[e.name] = n.count++; n.kind.push_back(e.kind); }
    n.pin_begin.assign(n.inputs.size() + 1, 0);
    for (auto& e : equations) {
        for (auto& p : e.pins) n.pins.push_back(ids.at(p));
        n.pin_begin.push_back(n.pins.size());
    }
    n.lines.resize(n.count);
    n.observed.assign(n.count, 0);
    std::vector<std::vector<u32>> fans(n.count);
    for (u32 x = 0; x < n.count; x++) {
        if (n.kind[x] == Dff) n.cells.push_back(x);
        for (u32 k = 0; k < n.pin_count(x); k++) {
            u32 p = n.pin(x, k);
            n.lines[p].push_back(x), n.lines[p].push_back(k);
            if (n.kind[x] == Dff) n.observed[p] = 1;
            else if (fans[p].empty() || fans[p].back() != x) fans[p].push_back(x);
        }
    }
    for (auto& s : outputs) {
        u32 x = ids.at(s);
        n.outputs.push_back(x);
        n.observed[x] = 1;
        n.lines[x].push_back(NONE), n.lines[x].push_back(x);
    }
    n.fan_begin.assign(1, 0);
    for (auto& f : fans) { n.fan.insert(n.fan.end(), f.begin(), f.end()); n.fan_begin.push_back(n.fan.size()); }
    std::vector<u32> waits(n.count, 0), ready;
    n.place.assign(n.count, NONE);
    for (u32 x = 0; x < n.count; x++) {
        if (!n.is_gate(x)) { ready.push_back(x); continue; }
        u32 distinct = 0;
        for (u32 k = 0; k < n.pin_count(x); k++) {
            bool seen = false;
            for (u32 j = 0; j < k; j++) seen |= n.pin(x, j) == n.pin(x, k);
            distinct += !seen;
        }
        waits[x] = distinct;
        if (!distinct) ready.push_back(x);
    }
    for (size_t i = 0; i < ready.size(); i++) {
        u32 x = ready[i];
        if (n.is_gate(x)) { n.place[x] = n.order.size(); n.order.push_back(x); }
        for (u32 j = n.fan_begin[x]; j < n.fan_begin[x + 1]; j++) if (!--waits[n.fan[j]]) ready.push_back(n.fan[j]);
    }
    return n;
}

// ---- faults and classes

struct Fault { u32 signal; u32 pin; bool value; u8 sort; };  // sort 0: stem, 1: pin, 2: output

static std::vector<Fault> representatives(const Netlist& n) {
    std::vector<Fault> all;
    std::vector<u32> stem_at(n.count);
    std::unordered_map<u64, u32> pin_at;
    for (u32 x = 0; x < n.count; x++) {
        stem_at[x] = all.size();
        for (int v = 0; v < 2; v++) all.push_back({x, 0, v == 1, 0});
        auto& r = n.lines[x];
        if (r.size() < 4) continue;
        for (size_t i = 0; i < r.size(); i += 2) {
            if (r[i] != NONE) pin_at[(u64)r[i] << 32 | r[i + 1]] = all.size();
            for (int v = 0; v < 2; v++) all.push_back(r[i] == NONE ? Fault{x, 0, v == 1, 2} : Fault{r[i], r[i + 1], v == 1, 1});
        }
    }
    std::vector<u32> parent(all.size());
    std::iota(parent.begin(), parent.end(), 0);
    auto root = [&](u32 i) { while (parent[i] != i) i = parent[i] = parent[parent[i]]; return i; };
    auto join = [&](u32 i, u32 j) { i = root(i), j = root(j); if (i < j) parent[j] = i; else parent[i] = j; };
    for (u32 x = 0; x < n.count; x++) {
        if (!n.is_gate(x)) continue;
        for (u32 k = 0; k < n.pin_count(x); k++) {
            auto at = pin_at.find((u64)x << 32 | k);
            u32 line = at == pin_at.end() ? stem_at[n.pin(x, k)] : at->second;
            u32 out = stem_at[x];
            switch (n.kind[x]) {
                case And: join(line, out); break;
                case Nand: join(line, out + 1); break;
                case Or: join(line + 1, out + 1); break;
                case Nor: join(line + 1, out); break;
                case Buff: join(line, out), join(line + 1, out + 1); break;
                case Not: join(line, out + 1), join(line + 1, out); break;
                default: break;
            }
        }
    }
    std::vector<Fault> first;
    for (u32 i = 0; i < all.size(); i++) if (root(i) == i) first.push_back(all[i]);
    return first;
}

// ---- measures (Goldstein, Controllability/observability analysis of digital circuits, 1979)

struct Measures {
    std::vector<u32> zero, one, seen;
    static u32 sum(u32 a, u32 b) { return std::min(a + b, DEAR); }

    explicit Measures(const Netlist& n) : zero(n.count, 1), one(n.count, 1), seen(n.count, DEAR) {
        for (u32 x : n.order) control(n, x);
        for (u32 x : n.outputs) seen[x] = 0;
        for (u32 x : n.cells) seen[n.pin(x, 0)] = 0;
        for (size_t i = n.order.size(); i-- > 0;) observe(n, n.order[i]);
    }
    void control(const Netlist& n, u32 x) {
        u32 all0 = 1, all1 = 1, any0 = DEAR, any1 = DEAR, even = 0, odd = DEAR;
        for (u32 k = 0; k < n.pin_count(x); k++) {
            u32 p = n.pin(x, k);
            all0 = sum(all0, zero[p]), all1 = sum(all1, one[p]);
            any0 = std::min(any0, zero[p]), any1 = std::min(any1, one[p]);
            u32 e = std::min(sum(even, zero[p]), sum(odd, one[p])), o = std::min(sum(even, one[p]), sum(odd, zero[p]));
            even = e, odd = o;
        }
        u32 c0, c1;
        switch (n.kind[x]) {
            case And: c0 = sum(any0, 1), c1 = all1; break;
            case Nand: c1 = sum(any0, 1), c0 = all1; break;
            case Or: c1 = sum(any1, 1), c0 = all0; break;
            case Nor: c0 = sum(any1, 1), c1 = all0; break;
            case Xor: c0 = sum(even, 1), c1 = sum(odd, 1); break;
            case Xnor: c1 = sum(even, 1), c0 = sum(odd, 1); break;
            case Not: c0 = all1, c1 = all0; break;
            case Const0: c0 = 0, c1 = DEAR; break;
            case Const1: c0 = DEAR, c1 = 0; break;
            default: c0 = all0, c1 = all1; break;
        }
        zero[x] = c0, one[x] = c1;
    }
    u32 side(const Netlist& n, u32 x, u32 p) const {
        switch (n.kind[x]) {
            case And: case Nand: return one[p];
            case Or: case Nor: return zero[p];
            default: return std::min(zero[p], one[p]);
        }
    }
    void observe(const Netlist& n, u32 x) {
        u32 all = sum(seen[x], 1);
        for (u32 k = 0; k < n.pin_count(x); k++) all = sum(all, side(n, x, n.pin(x, k)));
        for (u32 k = 0; k < n.pin_count(x); k++) {
            u32 p = n.pin(x, k);
            u32 own = side(n, x, p);
            u32 cost = all >= DEAR ? DEAR : all - own;
            seen[p] = std::min(seen[p], cost);
        }
    }
    u32 of(u32 x, bool bit) const { return bit ? one[x] : zero[x]; }
};

// ---- numbers that look drawn

// the finisher of SplitMix64
static inline u64 mixed(u64 z) {
    z = (z ^ (z >> 30)) * 0xbf58476d1ce4e5b9ull;
    z = (z ^ (z >> 27)) * 0x94d049bb133111ebull;
    return z ^ (z >> 31);
}
static inline u64 salt_of(const Fault& f) {
    u64 place = f.sort == 0 ? 0 : f.sort == 2 ? 1 : (u64)f.pin + 2;
    return mixed((u64)f.signal << 32 ^ place << 1 ^ (u64)f.value);
}

// ---- labels of a path

// A label in one byte: what the signal may have without the fault and with it (a bit for 0, a bit for 1, X is both), whether the two may differ, and
// what its pins tell of it, so that a gate is made by and/or of its pins' labels.
class Label {
    u8 bits = 0;
    explicit Label(unsigned bits) : bits((u8)bits) {}
    static Tri tri(unsigned may) { return (Tri)((may & 3) - 1); }

public:
    enum : u8 { Good0 = 1, Good1 = 2, Faulty0 = 4, Faulty1 = 8, Differs = 16, Own = 32, Zeros = Good0 | Faulty0, Ones = Good1 | Faulty1 };
    Label() = default;
    bool operator==(const Label&) const = default;
    static unsigned may(Tri v) { return v + 1u; }
    Tri good() const { return tri(bits); }
    Tri faulty() const { return tri(bits / Faulty0); }
    Tri own() const { return tri(bits / Own); }
    bool differs() const { return bits & Differs; }
    bool effect() const { return (bits & 15) == (Good0 | Faulty1) || (bits & 15) == (Good1 | Faulty0); }
    u8 pins() const { return bits & (Zeros | Ones | Differs); }
    /// What a signal has whose pins make this, decided or not.
    static Label of(u8 decision, unsigned made) {
        unsigned own = made & 3, good = decision == X ? own : may((Tri)decision);
        unsigned faulty = made & Differs ? made / Faulty0 & 3 : good;
        bool differs = (made & Differs) && (good == 3 || good != faulty);
        return Label(own * Own | good | faulty * Faulty0 | differs * Differs);
    }
    Label stuck(bool value) const {
        unsigned faulty = may(value ? One : Zero);
        return Label((bits & ~(Faulty0 | Faulty1 | Differs)) | faulty * Faulty0 | ((bits & 3u) != faulty) * Differs);
    }
};

static Tri known(bool b) { return b ? One : Zero; }

struct Together {  // what labels on pins are together
    unsigned all = ~0u, any = 0, unknown = 0, odd = 0, last = 0;
    void with(Label l) {
        unsigned pin = l.pins();
        all &= pin, any |= pin, unknown |= pin & pin >> 1, odd ^= pin, last = pin;
    }
    static unsigned inverted(unsigned made) { return (made & Label::Zeros) << 1 | (made & Label::Ones) >> 1 | (made & Label::Differs); }
    unsigned conjunction() const { return (any & (Label::Zeros | Label::Differs)) | (all & Label::Ones); }
    unsigned disjunction() const { return (all & Label::Zeros) | (any & (Label::Ones | Label::Differs)); }
    unsigned parity() const {
        unsigned free = unknown & Label::Zeros, ones = odd >> 1 & Label::Zeros;  // of both values, at their places of 0
        return (free | (Label::Zeros & ~ones)) | (free | ones) << 1 | (any & Label::Differs);
    }
    unsigned through(Kind kind) const {
        switch (kind) {
            case And: return conjunction();
            case Nand: return inverted(conjunction());
            case Or: return disjunction();
            case Nor: return inverted(disjunction());
            case Xor: return parity();
            case Xnor: return inverted(parity());
            case Not: return inverted(last);
            case Const0: return Label::Zeros;
            case Const1: return Label::Ones;
            default: return last;
        }
    }
};

struct Change { u32 signal; Label before; };
enum State { Test, Blocked, Going };

struct Sim {
    const Netlist& n;
    Fault fault{};
    std::vector<u8> decided;  // a Tri
    std::vector<Label> labels;
    std::vector<Change> trail;
    std::vector<u64> fine, coarse;
    std::vector<Label> start;
    u64 evaluated = 0;

    explicit Sim(const Netlist& n) : n(n), decided(n.count, X), labels(n.count), fine(n.order.size() / 64 + 1), coarse(n.order.size() / 4096 + 1) {
        fault.sort = 3;
        for (u32 x : n.inputs) labels[x] = source(x);
        for (u32 x : n.cells) labels[x] = source(x);
        for (u32 x : n.order) labels[x] = made(x);
        start = labels;
    }
    Label on_line(bool here, Label l) const { return here ? l.stuck(fault.value) : l; }
    Label source(u32 x) const { return on_line(fault.sort == 0 && fault.signal == x, Label::of(decided[x], 3)); }
    Label made(u32 x) const {
        Together pins;
        if (fault.sort == 1 && fault.signal == x)
            for (u32 k = 0; k < n.pin_count(x); k++) pins.with(on_line(fault.pin == k, labels[n.pin(x, k)]));
        else
            for (u32 k = 0; k < n.pin_count(x); k++) pins.with(labels[n.pin(x, k)]);
        return on_line(fault.sort == 0 && fault.signal == x, Label::of(decided[x], pins.through(n.kind[x])));
    }
    void mark(u32 place) {
        fine[place >> 6] |= 1ull << (place & 63);
        coarse[place >> 12] |= 1ull << (place >> 6 & 63);
    }
    void take(u32 x, Label l) {
        if (l == labels[x]) return;
        trail.push_back({x, labels[x]});
        labels[x] = l;
        for (u32 i = n.fan_begin[x]; i < n.fan_begin[x + 1]; i++) mark(n.place[n.fan[i]]);
    }
    void settle() {
        for (size_t w = 0; w < coarse.size(); w++)
            while (coarse[w]) {
                u32 v = w * 64 + __builtin_ctzll(coarse[w]);
                u32 place = v * 64 + __builtin_ctzll(fine[v]);
                fine[v] &= fine[v] - 1;
                if (!fine[v]) coarse[w] &= coarse[w] - 1;
                u32 x = n.order[place];
                evaluated++;
                take(x, made(x));
            }
    }
    void touch(u32 x) {
        if (n.is_gate(x)) mark(n.place[x]);
        else take(x, source(x));
        settle();
    }
    void aim(Fault f) {
        labels = start;
        trail.clear();
        std::fill(decided.begin(), decided.end(), X);
        fault = f;
        if (f.sort == 0 || (f.sort == 1 && n.is_gate(f.signal))) touch(f.signal);
    }
    void assign(u32 x, bool bit) { decided[x] = known(bit); touch(x); }
    void undo(size_t mark, u32 x) {
        while (trail.size() > mark) labels[trail.back().signal] = trail.back().before, trail.pop_back();
        decided[x] = X;
    }
    bool effect(Label l) const { return l.effect(); }
    State state() const {
        bool differs = false;
        for (u32 x : n.outputs) {
            Label l = on_line(fault.sort == 2 && fault.signal == x, labels[x]);
            if (effect(l)) return Test;
            differs |= l.differs();
        }
        for (u32 x : n.cells) {
            Label l = on_line(fault.sort == 1 && fault.signal == x, labels[n.pin(x, 0)]);
            if (effect(l)) return Test;
            differs |= l.differs();
        }
        return differs ? Going : Blocked;
    }
};

struct Counts { u64 tests = 0, closed = 0, aborted = 0, decisions = 0, looks = 0, tree = 0, decided = 0; };

static void print(const Counts& counts, size_t classes, const Sim& sim, double seconds) {
    printf("classes %zu tests %llu closed %llu aborted %llu\n", classes, (unsigned long long)counts.tests, (unsigned long long)counts.closed, (unsigned long long)counts.aborted);
    printf("decisions of trees %llu of tests %llu\n", (unsigned long long)counts.tree, (unsigned long long)counts.decided);
    printf("decisions %llu looks %llu evaluations %llu\n", (unsigned long long)counts.decisions, (unsigned long long)counts.looks, (unsigned long long)sim.evaluated);
    printf("seconds %.3f\n", seconds);
}
