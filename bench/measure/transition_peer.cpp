// A plain C++ model of `atpg transition` (PODEM, one worker), to try what would be spared.
//
//     g++ -O2 -std=c++20 -o transition_peer transition_peer.cpp && ./transition_peer NET [mode=2] [OPTION ..]
//
// Without an option: 64 drawn patterns, shares, batches, all cubes merged at the end. With `rounds` what a round's tests detect isn't searched:
// `lines=S every=2` searches each S-th fault that is left first and then all others; `every=K` alone takes K batches a round, gathered over all that is
// left, `draw=D` draws 64 patterns more as long as a batch of them detects one in D of what is left. mode=2 evaluates only launched words.
#include <cstring>
#include <numeric>
#include <map>
#include <ctime>
#define main unused_main
#include "search_peer.cpp"
#undef main

static double now() { timespec t; clock_gettime(CLOCK_PROCESS_CPUTIME_ID, &t); return t.tv_sec + 1e-9 * t.tv_nsec; }
static std::map<std::string, double> spent;
struct Timer { const char* what; double begin; Timer(const char* w) : what(w), begin(now()) {} ~Timer() { spent[what] += now() - begin; } };

// finishes a netlist whose inputs, kinds and pins stand
static void finish(Netlist& n) {
    n.lines.resize(n.count);
    n.observed.assign(n.count, 0);
    std::vector<std::vector<u32>> fans(n.count);
    for (u32 x = 0; x < n.count; x++) {
        if (n.kind[x] == Dff) n.cells.push_back(x);
        for (u32 k = 0; k < n.pin_count(x); k++) {
            u32 p = n.pin(x, k);
            n.lines[p].push_back(x), n.lines[p].push_back(k);
            if (n.kind[x] == Dff) n.observed[p] = 1;
            else if (fans[p].empty() || fans[p].back() != x) fans[p].push_back(x);
        }
    }
    for (u32 x : n.outputs) { n.observed[x] = 1; n.lines[x].push_back(NONE), n.lines[x].push_back(x); }
    n.fan_begin.assign(1, 0);
    for (auto& f : fans) { n.fan.insert(n.fan.end(), f.begin(), f.end()); n.fan_begin.push_back(n.fan.size()); }
    std::vector<u32> waits(n.count, 0), ready;
    n.place.assign(n.count, NONE);
    for (u32 x = 0; x < n.count; x++) {
        if (!n.is_gate(x)) { ready.push_back(x); continue; }
        u32 distinct = 0;
        for (u32 k = 0; k < n.pin_count(x); k++) {
            bool seen = false;
            for (u32 j = 0; j < k; j++) seen |= n.pin(x, j) == n.pin(x, k);
            distinct += !seen;
        }
        waits[x] = distinct;
        if (!distinct) ready.push_back(x);
    }
    for (size_t i = 0; i < ready.size(); i++) {
        u32 x = ready[i];
        if (n.is_gate(x)) { n.place[x] = n.order.size(); n.order.push_back(x); }
        for (u32 j = n.fan_begin[x]; j < n.fan_begin[x + 1]; j++) if (!--waits[n.fan[j]]) ready.push_back(n.fan[j]);
    }
}

static std::vector<Fault> universe(const Netlist& n) {
    std::vector<Fault> all;
    for (u32 x = 0; x < n.count; x++) {
        for (int v = 0; v < 2; v++) all.push_back({x, 0, v == 1, 0});
        auto& r = n.lines[x];
        if (r.size() < 4) continue;
        for (size_t i = 0; i < r.size(); i += 2)
            for (int v = 0; v < 2; v++) all.push_back(r[i] == NONE ? Fault{x, 0, v == 1, 2} : Fault{r[i], r[i + 1], v == 1, 1});
    }
    return all;
}
static u32 source_of(const Netlist& n, const Fault& f) { return f.sort == 1 ? n.pin(f.signal, f.pin) : f.signal; }
static bool same_line(const Fault& a, const Fault& b) { return a.sort == b.sort && a.signal == b.signal && (a.sort != 1 || a.pin == b.pin); }
static bool is_stem(const Fault& f, u32 x) { return f.sort == 0 && f.signal == x; }
static bool apart(const Netlist& n, const Fault& f, const Fault& g) {
    return !same_line(f, g) && !is_stem(f, source_of(n, g)) && !is_stem(g, source_of(n, f));
}

struct Maker {
    const Netlist& n;
    u32 I, D;
    explicit Maker(const Netlist& n) : n(n), I(n.inputs.size()), D(n.count - n.inputs.size()) {}
    u32 second(u32 x) const { return x < I ? x : x + D; }
    u32 tie(size_t j) const { return I + 2 * D + 3 * j; }
    // measured: every slow line by the list, as marks do
    u32 read(const std::vector<Fault>& slow, const std::vector<std::vector<u32>>& at, u8 sort, u32 z, u32 k, u32 x) const {
        for (u32 j : at[x]) {
            const Fault& f = slow[j];
            if (is_stem(f, x) || (f.sort == sort && f.signal == z && (sort != 1 || f.pin == k))) return tie(j) + 2;
        }
        return second(x);
    }
    Netlist batch(const std::vector<Fault>& slow) const {
        Netlist b;
        std::vector<std::vector<u32>> at(n.count);
        for (u32 j = 0; j < slow.size(); j++) at[source_of(n, slow[j])].push_back(j);
        b.count = I + 2 * D + 3 * slow.size();
        b.inputs = n.inputs;
        b.kind.assign(I, Input);
        b.pin_begin.assign(I + 1, 0);
        auto close = [&](Kind kind) { b.kind.push_back(kind); b.pin_begin.push_back(b.pins.size()); };
        for (u32 x = I; x < n.count; x++) {
            for (u32 k = 0; k < n.pin_count(x); k++) b.pins.push_back(n.kind[x] == Dff ? read(slow, at, 1, x, k, n.pin(x, k)) : n.pin(x, k));
            close(n.kind[x]);
        }
        for (u32 x = I; x < n.count; x++) {
            for (u32 k = 0; k < n.pin_count(x); k++) b.pins.push_back(n.kind[x] == Dff ? n.pin(x, k) : read(slow, at, 1, x, k, n.pin(x, k)));
            close(n.kind[x] == Dff ? Buff : n.kind[x]);
        }
        for (u32 j = 0; j < slow.size(); j++) {
            const Fault& f = slow[j];
            u32 x = source_of(n, f);
            close(f.value ? Const0 : Const1);
            b.pins.push_back(x), b.pins.push_back(tie(j)); close(f.value ? And : Or);
            b.pins.push_back(second(x)), b.pins.push_back(tie(j) + 1); close(f.value ? Or : And);
        }
        for (u32 y : n.outputs) b.outputs.push_back(read(slow, at, 2, y, 0, y));
        finish(b);
        return b;
    }
};

// ---- words of 64 patterns in two frames

struct Pcg { u64 state = 0, inc; Pcg(u64 s, u64 stream) : inc(stream << 1 | 1) { next(); state += s; next(); }
    u32 next() { u64 o = state; state = o * 6364136223846793005ull + inc; u32 x = ((o >> 18) ^ o) >> 27; u32 r = o >> 59; return x >> r | x << (-r & 31); } };

using Cube = std::vector<u8>;  // Tri of inputs, then cells

struct Words {
    const Netlist& n;
    std::vector<u64> value;
    std::vector<std::pair<u32, u64>> trail;
    std::vector<u64> fine, coarse;
    u64 evaluated = 0;
    std::vector<u32> first;
    explicit Words(const Netlist& n) : n(n), value(n.count, 0), fine(n.order.size() / 64 + 1), coarse(n.order.size() / 4096 + 1), first(n.count, NONE) {
        u32 p = 0;
        for (u32 x : n.outputs) first[x] = std::min(first[x], p), p++;
        for (u32 x : n.cells) first[n.pin(x, 0)] = std::min(first[n.pin(x, 0)], p), p++;
    }
    u64 made(u32 x, u32 stuck_pin = NONE, u64 stuck = 0) const {
        auto at = [&](u32 k) { return k == stuck_pin ? stuck : value[n.pin(x, k)]; };
        u64 w; u32 c = n.pin_count(x);
        switch (n.kind[x]) {
            case And: case Nand: w = ~0ull; for (u32 k = 0; k < c; k++) w &= at(k); return n.kind[x] == And ? w : ~w;
            case Or: case Nor: w = 0; for (u32 k = 0; k < c; k++) w |= at(k); return n.kind[x] == Or ? w : ~w;
            case Xor: case Xnor: w = 0; for (u32 k = 0; k < c; k++) w ^= at(k); return n.kind[x] == Xor ? w : ~w;
            case Not: return ~at(0);
            case Const0: return 0; case Const1: return ~0ull;
            default: return at(0);
        }
    }
    void settle() { for (u32 x : n.order) value[x] = made(x); }
    void take(u32 x, u64 w) {
        if (w == value[x]) return;
        trail.push_back({x, value[x]});
        value[x] = w;
        for (u32 i = n.fan_begin[x]; i < n.fan_begin[x + 1]; i++) { u32 p = n.place[n.fan[i]]; fine[p >> 6] |= 1ull << (p & 63); coarse[p >> 12] |= 1ull << (p >> 6 & 63); }
    }
    void run() {
        for (size_t w = 0; w < coarse.size(); w++)
            while (coarse[w]) {
                u32 v = w * 64 + __builtin_ctzll(coarse[w]);
                u32 p = v * 64 + __builtin_ctzll(fine[v]);
                fine[v] &= fine[v] - 1;
                if (!fine[v]) coarse[w] &= coarse[w] - 1;
                evaluated++;
                take(n.order[p], made(n.order[p]));
            }
    }
    u64 propagated(const Fault& f, u64 stuck) {
        if (f.sort == 2) return stuck ^ value[f.signal];
        if (f.sort == 1 && n.kind[f.signal] == Dff) return stuck ^ value[n.pin(f.signal, 0)];
        evaluated++;
        if (f.sort == 0) take(f.signal, stuck); else take(f.signal, made(f.signal, f.pin, stuck));
        run();
        u64 seen = 0;
        for (auto& [x, before] : trail) if (first[x] != NONE) seen |= before ^ value[x];
        for (; !trail.empty(); trail.pop_back()) value[trail.back().first] = trail.back().second;
        return seen;
    }
};

struct Two {
    const Netlist& n;
    Words first, second;
    int mode = 0;  // 0: as it is, 1: not where no launched pattern excites, 2: only launched patterns are stuck
    u64 sims = 0;
    explicit Two(const Netlist& n) : n(n), first(n), second(n) {}
    u64 used = 0;
    void load(const Cube* p, size_t count) {
        std::vector<u32> sources(n.inputs); sources.insert(sources.end(), n.cells.begin(), n.cells.end());
        for (size_t k = 0; k < sources.size(); k++) { u64 w = 0; for (size_t j = 0; j < count; j++) w |= (u64)(p[j][k] == One) << j; first.value[sources[k]] = w; }
        first.settle();
        for (u32 x : n.inputs) second.value[x] = first.value[x];
        for (u32 x : n.cells) second.value[x] = first.value[n.pin(x, 0)];
        second.settle();
        used = count == 64 ? ~0ull : (1ull << count) - 1;
    }
    u64 detects(const Fault& f) {
        u32 x = source_of(n, f);
        u64 old = f.value ? ~0ull : 0;
        u64 launched = used & ~(first.value[x] ^ old);
        u64 excited = launched & (second.value[x] ^ old);
        if (mode >= 1 && !excited) return 0;
        sims++;
        if (mode == 2) return second.propagated(f, second.value[x] ^ excited) & launched;
        return second.propagated(f, old) & launched;
    }
};

struct Params { bool rounds = false; int draw = 0; size_t batch = 64; bool skip = false; int mode = 0; u64 limit = 100; bool last_all = true; size_t together = 0; bool single = false; size_t lines = 0; size_t every = 0; };

int main(int argc, char** argv) {
    Params P;
    for (int i = 2; i < argc; i++) {
        if (!strcmp(argv[i], "rounds")) P.rounds = true;
        else if (!strncmp(argv[i], "draw=", 5)) P.draw = atoi(argv[i] + 5);
        else if (!strncmp(argv[i], "mode=", 5)) P.mode = atoi(argv[i] + 5);
        else if (!strncmp(argv[i], "lines=", 6)) P.lines = atoi(argv[i] + 6);
        else if (!strncmp(argv[i], "every=", 6)) P.every = atoi(argv[i] + 6);
        else if (!strncmp(argv[i], "batch=", 6)) P.batch = atoi(argv[i] + 6);
        else if (!strncmp(argv[i], "limit=", 6)) P.limit = atoi(argv[i] + 6);
        else if (!strncmp(argv[i], "together=", 9)) P.together = atoi(argv[i] + 9);
        else if (!strcmp(argv[i], "known")) P.last_all = false;
    }
    double t0 = now();
    Netlist n = read(argv[1]);
    Maker maker(n);
    auto faults = universe(n);
    size_t width = n.inputs.size() + n.cells.size();
    printf("faults %zu read %.4f\n", faults.size(), now() - t0);
    t0 = now();
    Measures* m0;
    { Timer t("measures");
      Netlist f = maker.batch({Fault{0, 0, false, 0}});
      m0 = new Measures(f);
      size_t most = f.count + 3 * 2048;
      m0->zero.resize(most, DEAR), m0->one.resize(most, DEAR), m0->seen.resize(most, DEAR); }
    Measures& m = *m0;
    // 0 open 1 detected 2 redundant 3 aborted 4 tested: has a cube that isn't simulated
    std::vector<u8> verdict(faults.size(), 0);
    std::vector<Cube> patterns;
    Two two(n);
    two.mode = P.mode;
    Pcg drawn(1, 1);
    {
        Timer t("draw");
        for (int round = 0;; round++) {
            std::vector<Cube> some(64, Cube(width));
            for (auto& c : some) for (auto& b : c) b = drawn.next() & 1 ? One : Zero;
            two.load(some.data(), 64);
            size_t before = 0, hit = 0;
            std::vector<u32> worth(64, 0); std::vector<std::pair<u32, u32>> hits;
            for (size_t k = 0; k < faults.size(); k++) {
                if (verdict[k]) continue;
                before++;
                u64 d = two.detects(faults[k]);
                if (d) hits.push_back({k, 63 - __builtin_clzll(d)}), worth[63 - __builtin_clzll(d)]++;
            }
            u32 least = P.draw >= 100 ? 4 : 1;
            for (auto& [k, j] : hits) if (worth[j] >= least) verdict[k] = 1, hit++;
            for (int j = 0; j < 64; j++) if (worth[j] >= least || P.draw == 0) patterns.push_back(some[j]);
            printf("drawn %zu of %zu\n", hit, before);
            if (P.draw == 0 || hit * (P.draw % 100) < before) break;
        }
    }
    size_t most = P.together ? P.together : std::clamp<size_t>((n.count) / 16, 64, 1024);
    std::map<int,int> hist[3]; std::map<int,double> histt[3];
    Counts counts;
    u64 evaluated = 0;
    size_t batches = 0, searched = 0, tests = 0, published = 0, first_label = 0;
    std::vector<Cube> cubes;
    Pcg filler(1, 0);
    auto merged_filled = [&](std::vector<Cube>& cubes) {
        Timer t("merge");
        std::vector<Cube> results;
        for (auto& c : cubes) {
            auto into = std::find_if(results.begin(), results.end(), [&](const Cube& r) { for (size_t k = 0; k < width; k++) if (r[k] != X && c[k] != X && r[k] != c[k]) return false; return true; });
            if (into == results.end()) { results.push_back(c); continue; }
            for (size_t k = 0; k < width; k++) if (c[k] != X) (*into)[k] = c[k];
        }
        for (auto& c : results) for (auto& b : c) if (b == X) b = filler.next() & 1 ? One : Zero;
        cubes.clear();
        return results;
    };
    auto publish = [&]() {
        if (cubes.empty()) return;
        published++;
        auto filled = merged_filled(cubes);
        Timer t("publish");
        for (size_t b = 0; b < filled.size(); b += 64) {
            two.load(&filled[b], std::min<size_t>(64, filled.size() - b));
            for (size_t k = 0; k < faults.size(); k++) if (verdict[k] == 0 || verdict[k] == 3 || verdict[k] == 4) if (two.detects(faults[k])) verdict[k] = 1;
        }
        patterns.insert(patterns.end(), filled.begin(), filled.end());
    };
    auto search_batch = [&](const std::vector<u32>& places) {
        std::vector<Fault> slow;
        for (u32 k : places) slow.push_back(faults[k]);
        batches++;
        Netlist* b;
        { Timer t("batch netlist"); b = new Netlist(maker.batch(slow)); }
        Sim* sim; Search* search;
        { Timer t("room"); sim = new Sim(*b); search = new Search{*b, m, *sim, counts, {}}; search->make_orders(); }
        for (u32 j = 0; j < slow.size(); j++) {
            u32 k = places[j];
            if (verdict[k]) continue;
            searched++;
            double s0 = now(); u64 e0 = sim->evaluated;
            int end = search->attempts({maker.tie(j), 0, slow[j].value, 0}, P.limit);
            double d = now() - s0;
            spent[end == 0 ? "search test" : end == 1 ? "search redundant" : "search aborted"] += d;
            counts.tests += end == 0; hist[end][search->attempts_made]++; histt[end][search->attempts_made] += d;
            if (end == 1 && sim->trail.empty()) first_label++;
            verdict[k] = end == 0 ? 4 : end == 1 ? 2 : 3;
            if (end == 0) {
                tests++;
                Cube c;
                for (u32 x : n.inputs) c.push_back(sim->decided[x]);
                for (u32 x : n.cells) c.push_back(sim->decided[x]);
                cubes.push_back(c);
                if (P.rounds && cubes.size() >= P.batch) publish();
            }
        }
        evaluated += sim->evaluated;
        delete search; delete sim; delete b;
    };
    double s1 = now();
    std::vector<size_t> sizes;
    if (!P.rounds) {
        size_t left = std::count(verdict.begin(), verdict.end(), 0);
        size_t shares = std::max<size_t>(1, (left + 2 * most - 1) / (2 * most));
        size_t size = std::max<size_t>(1, (faults.size() + shares - 1) / shares);
        for (size_t k = 0; k < faults.size(); k++) {
            if (verdict[k]) continue;
            size_t to = std::min(faults.size(), (k / size + 1) * size);
            std::vector<u32> places;
            { Timer t("gather");
            for (size_t i = k; i < to && places.size() < most; i++) {
                if (verdict[i]) continue;
                bool ok = true;
                for (u32 j : places) if (!apart(n, faults[j], faults[i])) { ok = false; break; }
                if (ok) places.push_back(i);
            } }
            sizes.push_back(places.size());
            search_batch(places);
        }
    } else if (P.lines) {
        // `every` rounds over residues of the faults' numbers mod `lines`, the last over all
        for (size_t r = 0; r < P.every; r++) {
            std::vector<u8> marks(faults.size());
            size_t left = 0;
            for (size_t k = 0; k < faults.size(); k++) { marks[k] = !verdict[k] && (r + 1 == P.every || k % P.lines == r); left += marks[k]; }
            size_t shares = std::max<size_t>(1, (left + 2 * most - 1) / (2 * most));
            size_t size = std::max<size_t>(1, (faults.size() + shares - 1) / shares);
            for (size_t k = 0; k < faults.size(); k++) {
                if (!marks[k]) continue;
                size_t to = std::min(faults.size(), (k / size + 1) * size);
                std::vector<u32> places;
                for (size_t i = k; i < to && places.size() < most; i++) {
                    if (!marks[i]) continue;
                    bool ok = true;
                    for (u32 j : places) if (!apart(n, faults[j], faults[i])) { ok = false; break; }
                    if (ok) places.push_back(i);
                }
                search_batch(places);
                for (u32 i : places) marks[i] = 0;
            }
            publish();
        }
    } else if (P.every) {
        // rounds: `every` batches of `most` lines from all that are open (each greedily), then publish
        size_t rounds = 0;
        for (size_t k = 0; k < faults.size(); ) {
            if (verdict[k]) { k++; continue; }
            rounds++;
            std::vector<u8> mark(faults.size(), 0);
            std::vector<std::vector<u32>> all;
            size_t from = k;
            for (size_t b = 0; b < P.every; b++) {
                std::vector<u32> places;
                { Timer t("gather");
                std::vector<u8> stem(n.count, 0), read(n.count, 0);
                std::unordered_map<u64, u8> pin;
                for (size_t i = from; i < faults.size() && places.size() < most; i++) {
                    if (verdict[i] || mark[i]) continue;
                    const Fault& f = faults[i];
                    u32 x = source_of(n, f);
                    if (f.sort == 0 ? (stem[x] || read[x]) : stem[x]) continue;
                    if (f.sort == 0) stem[x] = 1;
                    else { u64 key = (u64)f.sort << 60 | (u64)f.signal << 24 | f.pin; if (pin[key]) continue; pin[key] = 1; read[x] = 1; }
                    places.push_back(i); mark[i] = 1;
                } }
                if (places.size()) all.push_back(places);
            }
            for (auto& p : all) search_batch(p);
            publish();
        }
        printf("rounds %zu\n", rounds);
    } else {
        for (size_t k = 0; k < faults.size(); k++) {
            if (verdict[k]) continue;
            std::vector<u32> places;
            { Timer t("gather");
            // by marks: which lines are taken, which stems, and how many lines read each stem
            std::vector<u8> stem(n.count, 0), read(n.count, 0);
            std::vector<std::pair<u32,u32>> none;
            size_t from = k;
            std::unordered_map<u64, u8> pin;
            for (size_t i = from; i < faults.size() && places.size() < most; i++) {
                if (verdict[i]) continue;
                const Fault& f = faults[i];
                u32 x = source_of(n, f);
                if (f.sort == 0 ? (stem[x] || read[x]) : stem[x]) continue;
                if (f.sort == 0) stem[x] = 1;
                else { u64 key = (u64)f.sort << 60 | (u64)f.signal << 24 | f.pin; if (pin[key]) continue; pin[key] = 1; read[x] = 1; }
                places.push_back(i);
            } }
            sizes.push_back(places.size());
            search_batch(places);
            if (!verdict[k]) abort();
        }
        publish();
    }
    printf("searches %zu batches %zu tests %zu closed-at-first %zu published %zu\n", searched, batches, tests, first_label, published);
    if (!P.rounds) { auto filled = merged_filled(cubes); patterns.insert(patterns.end(), filled.begin(), filled.end()); }
    printf("search phase %.4f\n", now() - s1);
    size_t kept = 0;
    {
        Timer t("last");
        std::vector<u8> told(faults.size(), 0);
        std::vector<u8> need(patterns.size(), 0);
        for (size_t end = patterns.size(); end > 0;) {
            size_t begin = end > 64 ? end - 64 : 0;
            two.load(&patterns[begin], end - begin);
            for (size_t k = 0; k < faults.size(); k++) {
                if (told[k] || (!P.last_all && verdict[k] == 2)) continue;
                u64 d = two.detects(faults[k]);
                if (d) told[k] = 1, need[begin + 63 - __builtin_clzll(d)] = 1;
            }
            end = begin;
        }
        for (size_t k = 0; k < faults.size(); k++) if (told[k]) { if (verdict[k] == 2) abort(); verdict[k] = 1; } else if (verdict[k] == 1 || verdict[k] == 4) abort();
        kept = std::count(need.begin(), need.end(), 1);
    }
    printf("detected %zu redundant %zu aborted %zu patterns %zu of %zu\n", std::count(verdict.begin(), verdict.end(), 1), std::count(verdict.begin(), verdict.end(), 2), std::count(verdict.begin(), verdict.end(), 3), kept, patterns.size());
    printf("evaluated: labels %llu words %llu sims %llu\n", (unsigned long long)evaluated, (unsigned long long)(two.second.evaluated), (unsigned long long)two.sims);
    for (auto& [w, s] : spent) printf("  %-18s %.4f\n", w.c_str(), s);
    for (int e = 0; e < 3; e++) for (auto& [a, c] : hist[e]) printf("   end %d attempts %d: %d in %.4f\n", e, a, c, histt[e][a]);
    printf("total %.4f\n", now() - t0);
}
