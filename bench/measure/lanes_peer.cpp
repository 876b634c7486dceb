// A plain player of 128 faulty machines side by side in C++, to time `atpg chaintest` and `atpg diagnose` beside: which values are known, and which
// bits they are, two words each a signal, and a batch ends once each of its machines is told. For each shift of the chains those gates are chosen
// whose value isn't known in every machine where scan inputs and cells are X, and which a cell or a scan output reads by way of such gates: they
// alone are evaluated while it shifts.
// It reads a scanned netlist, a file laid out as the writer of this repository does, and faults (`stem NAME BIT`, `pin NAME K BIT`, `out NAME BIT`),
// and checks nothing of them. Without a log it tells of each fault the first strobe that is known to be wrong; with one, which faults explain it;
// with `=K` it writes the log of fault K.
// `--at-once=N` plays N machines in legs, and packs those that are left together anew after each, with what their cells hold; -DWORDS=1 builds it with
// one word of 64 machines a signal.
//   g++ -O2 -std=c++17 -o lanes_peer lanes_peer.cpp && ./lanes_peer [--at-once=N] NET.scan TEST.stil FAULTS [LOG | =K]
#include <algorithm>
#include <cstring>
#include <sstream>

#include "peer_netlist.hpp"
#ifndef WORDS
#define WORDS 2
#endif
constexpr size_t side_by_side = 64 * WORDS;
/// A bit for each machine: bit k % 64 of word k / 64 for machine k.
typedef uint64_t Bits __attribute__((vector_size(8 * WORDS)));
static const Bits every = ~Bits{};

static inline Bits bit_of(size_t k) {
    Bits bits{};
    bits[k / 64] = Word{1} << k % 64;
    return bits;
}

static inline bool any(const Bits& bits) {
    Word some = 0;
    for (int w = 0; w < WORDS; w++) some |= bits[w];
    return some;
}

constexpr size_t unfound = ~size_t{0};
/// The value of machine k is known where bit k of `known` is 1, and then it is bit k of `value`.
struct Lanes {
    Bits known{}, value{};
};

struct Cycle {
    std::vector<char> drive;   // a bit for each input
    std::vector<std::pair<Id, char>> strobes;  // outputs and bits
    bool pulse;
    size_t shift;  // which shift of the chains it is of, from 1 on; 0 for none
};

struct Fault {
    char line;  // 's'tem, 'p'in, 'o'ut
    Id signal, place;
    bool bit;
};

/// A line at which machines are stuck.
struct Force {
    char line;
    Id signal, place;
    Bits mask{}, bits{};
};

static Lanes forced(Lanes v, const Force& f) { return {v.known | f.mask, (v.value & ~f.mask) | f.bits}; }

static std::vector<std::string> read_names(const char* path) {
    std::ifstream file(path);
    std::vector<std::string> inputs, definitions;
    for (std::string line; std::getline(file, line);) {
        size_t open = line.find('('), is = line.find(" = ");
        if (open == std::string::npos) continue;
        if (is != std::string::npos) definitions.push_back(line.substr(0, is));
        else if (line[0] == 'I') inputs.push_back(line.substr(6, line.find(')') - 6));
    }
    inputs.insert(inputs.end(), definitions.begin(), definitions.end());
    return inputs;
}

static std::vector<std::string> words_of(const std::string& line) {
    std::vector<std::string> words;
    for (size_t at = line.find(" = "); at != std::string::npos; at = line.find(" = ", at + 3)) words.push_back(line.substr(at + 3, line.find(';', at) - at - 3));
    return words;
}

static std::vector<Cycle> read_cycles(const Netlist& net, const char* path, Id& chains) {
    std::vector<Cycle> cycles;
    std::ifstream file(path);
    std::string held;
    size_t shifts = 0;
    Id outputs = static_cast<Id>(net.outputs.size());
    auto add = [&](const std::string& pi, const std::string& si, bool pulse, const std::string& po, const std::string& so, size_t shift) {
        Cycle cycle{{}, {}, pulse, shift};
        for (char bit : pi + si) cycle.drive.push_back(bit == '1');
        for (Id k = 0; k < po.size(); k++)
            if (po[k] != 'X') cycle.strobes.push_back({k, po[k] == 'H'});
        for (Id k = 0; k < so.size(); k++)
            if (so[k] != 'X') cycle.strobes.push_back({outputs - static_cast<Id>(so.size()) + k, so[k] == 'H'});
        cycles.push_back(std::move(cycle));
    };
    for (std::string line; std::getline(file, line);) {
        if (line.compare(0, 8, "      V ") == 0) {
            auto parts = words_of(line);
            held = parts[0];
            chains = static_cast<Id>((parts.size() - 3) / 2);
        } else if (line.compare(0, 4, "  Ca") == 0) {
            auto parts = words_of(line);
            shifts++;
            for (size_t t = 0; t < parts[0].size(); t++) {
                std::string si, so;
                for (Id c = 0; c < chains; c++) si += parts[c][t], so += parts[chains + c][t];
                add(held, si, true, "", so, shifts);
            }
        } else if (line.compare(0, 4, "  V ") == 0) {
            auto parts = words_of(line);
            std::string si, so;
            for (Id c = 0; c < chains; c++) si += parts[1 + c][0], so += parts[3 + chains + c][0];
            add(parts[0], si, parts[1 + chains] == "P", parts[2 + chains], so, 0);
        }
    }
    return cycles;
}

struct Player {
    const Netlist& net;
    std::vector<Lanes> values, next, idle;
    std::vector<Id> steps;  // the gates that the shift evaluates
    std::vector<char> read;
    std::vector<Force> forces;
    std::vector<std::vector<Id>> at;  // for each signal the forces at lines that it names
    std::vector<char> named;

    explicit Player(const Netlist& given) : net(given), values(given.signals()), next(given.cells.size()), idle(next), at(given.signals()), named(given.signals(), 0) {}

    void stick(const std::vector<Fault>& faults, size_t first, size_t count) {
        for (const Force& f : forces) at[f.signal].clear(), named[f.signal] = 0;
        forces.clear();
        for (size_t k = 0; k < count; k++) {
            const Fault& f = faults[first + k];
            auto same = [&](const Force& g) { return g.line == f.line && g.signal == f.signal && g.place == f.place; };
            auto found = std::find_if(forces.begin(), forces.end(), same);
            if (found == forces.end()) {
                at[f.signal].push_back(static_cast<Id>(forces.size()));
                named[f.signal] = 1;
                forces.push_back({f.line, f.signal, f.place});
                found = forces.end() - 1;
            }
            found->mask |= bit_of(k);
            if (f.bit) found->bits |= bit_of(k);
        }
        std::fill(values.begin(), values.end(), Lanes{});
        std::fill(next.begin(), next.end(), Lanes{});
    }

    Lanes on(char line, Id signal, Id place, Lanes v) const {
        for (Id f : at[signal])
            if (forces[f].line == line && forces[f].place == place) v = forced(v, forces[f]);
        return v;
    }

    template <class Pin> Lanes made(Id x, Pin pin) const {
        Id count = static_cast<Id>(net.pins.size(x));
        Lanes v;
        switch (net.kinds[x]) {
            case Kind::And: case Kind::Nand: {
                Bits zeros{}, known = every, all = every;
                for (Id k = 0; k < count; k++) { Lanes p = pin(k); zeros |= p.known & ~p.value; known &= p.known; all &= p.value; }
                v = {known | zeros, all};
                break;
            }
            case Kind::Or: case Kind::Nor: {
                Bits some{}, known = every, any{};
                for (Id k = 0; k < count; k++) { Lanes p = pin(k); some |= p.known & p.value; known &= p.known; any |= p.value; }
                v = {known | some, any};
                break;
            }
            case Kind::Xor: case Kind::Xnor: {
                v = {every, Bits{}};
                for (Id k = 0; k < count; k++) { Lanes p = pin(k); v.known &= p.known; v.value ^= p.value; }
                break;
            }
            case Kind::Const0: return {every, Bits{}};
            case Kind::Const1: return {every, every};
            default: v = pin(0);
        }
        bool turned = net.kinds[x] == Kind::Nand || net.kinds[x] == Kind::Nor || net.kinds[x] == Kind::Xnor || net.kinds[x] == Kind::Not;
        if (turned) v.value = ~v.value;
        return v;
    }

    /// What comes onto inputs and cells; of the last so many inputs nothing is known.
    void drive(const Cycle& cycle, Id free, const std::vector<Lanes>& state) {
        for (Id x = 0; x < net.inputs; x++) {
            Lanes v = x + free < net.inputs ? Lanes{every, cycle.drive[x] ? every : Bits{}} : Lanes{};
            values[x] = named[x] ? on('s', x, 0, v) : v;
        }
        for (size_t c = 0; c < net.cells.size(); c++) {
            Id x = net.cells[c];
            values[x] = named[x] ? on('s', x, 0, state[c]) : state[c];
        }
    }

    void evaluate(const std::vector<Id>& gates) {
        for (Id x : gates) {
            const Id* pins = net.pins.begin(x);
            if (named[x]) values[x] = on('s', x, 0, made(x, [&](Id k) { return on('p', x, k, values[pins[k]]); }));
            else values[x] = made(x, [&](Id k) { return values[pins[k]]; });
        }
    }

    void settle(const Cycle& cycle) {
        drive(cycle, 0, next);
        evaluate(cycle.shift ? steps : net.order);
    }

    /// Chooses the gates of a shift, of which this is a cycle.
    void plan(const Cycle& cycle, Id chains) {
        drive(cycle, chains, idle);
        evaluate(net.order);
        read.assign(net.signals(), 0);
        for (Id x : net.cells) read[*net.pins.begin(x)] = 1;
        for (size_t k = net.outputs.size() - chains; k < net.outputs.size(); k++) read[net.outputs[k]] = 1;
        auto is_step = [&](Id x) { return read[x] && any(values[x].known ^ every); };
        for (size_t k = net.order.size(); k-- > 0;)
            if (is_step(net.order[k])) for (const Id *p = net.pins.begin(net.order[k]), *last = net.pins.end(net.order[k]); p != last; p++) read[*p] = 1;
        steps.clear();
        for (Id x : net.order)
            if (is_step(x)) steps.push_back(x);
    }

    Lanes shown(Id output) const {
        Id x = net.outputs[output];
        return named[x] ? on('o', x, 0, values[x]) : values[x];
    }

    void tick() {
        for (size_t c = 0; c < net.cells.size(); c++) {
            Id x = net.cells[c], pin = *net.pins.begin(x);
            next[c] = named[x] ? on('p', x, 0, values[pin]) : values[pin];
        }
    }
};

int main(int count, char** words) {
    size_t at_once = side_by_side;
    if (count > 1 && std::strncmp(words[1], "--at-once=", 10) == 0) at_once = std::strtoull(words[1] + 10, nullptr, 10), count--, words++;
    if (count < 4 || at_once == 0) return 2;
    Netlist net = read_netlist(words[1]);
    std::vector<std::string> names = read_names(words[1]);
    std::unordered_map<std::string, Id> ids;
    for (Id x = 0; x < names.size(); x++) ids[names[x]] = x;
    Id chains = 0;
    std::vector<Cycle> cycles = read_cycles(net, words[2], chains);
    std::vector<Fault> faults;
    std::ifstream list(words[3]);
    for (std::string line; std::getline(list, line);) {
        std::istringstream text(line);
        std::string kind, name;
        Id place = 0, bit = 0;
        text >> kind >> name;
        if (kind == "pin") text >> place;
        text >> bit;
        faults.push_back({kind[0], ids.at(name), place, bit == 1});
    }
    bool logs = count > 4 && words[4][0] == '=', diagnoses = count > 4 && !logs;
    if (logs) faults = {faults.at(std::strtoull(words[4] + 1, nullptr, 10))};
    std::vector<std::vector<char>> logged(diagnoses ? cycles.size() : 0, std::vector<char>(net.outputs.size(), 0));
    if (diagnoses) {
        std::unordered_map<std::string, Id> places;
        for (Id k = 0; k < net.outputs.size(); k++) places[names[net.outputs[k]]] = k;
        std::ifstream log(words[4]);
        std::string head;
        std::getline(log, head);
        size_t cycle;
        for (std::string name; log >> cycle >> name;) logged[cycle][places.at(name)] = 1;
    }
    if (logs) std::puts("atpg fail log 1");
    double begin = seconds();
    Player player(net);
    size_t told = 0, played = 0;
    std::vector<std::pair<size_t, Id>> found(faults.size(), {unfound, 0});
    for (size_t first = 0; first < faults.size(); first += at_once) {
        std::vector<size_t> machines;
        for (size_t k = first; k < std::min(faults.size(), first + at_once); k++) machines.push_back(k);
        std::vector<std::vector<Lanes>> states((machines.size() + side_by_side - 1) / side_by_side, std::vector<Lanes>(net.cells.size()));
        for (size_t c = 0; c < cycles.size() && !machines.empty();) {
            // a leg: up to a quarter more cycles than before, and to the end of its shift; where no more go at once than stand side by side, all cycles
            size_t end = at_once == side_by_side ? cycles.size() : std::min(c + std::max<size_t>(1, c / 4), cycles.size());
            while (end < cycles.size() && cycles[end].shift && cycles[end - 1].shift == cycles[end].shift) end++;
            std::vector<size_t> rest;
            std::vector<std::vector<Lanes>> kept;
            for (size_t start = 0; start < machines.size(); start += side_by_side) {
                size_t count = std::min<size_t>(side_by_side, machines.size() - start);
                std::vector<Fault> team;
                for (size_t k = 0; k < count; k++) team.push_back(faults[machines[start + k]]);
                player.stick(team, 0, count);
                player.next = states[start / side_by_side];
                Bits left{};
                for (size_t k = 0; k < count; k++) left |= bit_of(k);
                for (size_t t = c; t < end && any(left); t++) {
                    const Cycle& cycle = cycles[t];
                    if (cycle.shift && (t == c || cycles[t - 1].shift != cycle.shift)) player.plan(cycle, chains);
                    player.settle(cycle);
                    for (auto [output, bit] : cycle.strobes) {
                        Lanes v = player.shown(output);
                        Bits wrong = bit ? ~v.value : v.value, said = v.known & wrong;
                        if (logs) {
                            if (said[0] & 1) std::printf("%zu %s\n", t, names[net.outputs[output]].c_str());
                            continue;
                        }
                        if (diagnoses) said = ~v.known | (logged[t][output] ? ~wrong : wrong);
                        said &= left;
                        for (size_t w = 0; w < WORDS; w++) for (Word some = said[w]; some; some &= some - 1) {
                            size_t k = 64 * w + static_cast<size_t>(__builtin_ctzll(some));
                            found[machines[start + k]] = {t, output};
                            left &= ~bit_of(k);
                        }
                    }
                    if (cycle.pulse) player.tick();
                    played++;
                }
                for (size_t k = 0; k < count; k++) {
                    if (!(left[k / 64] >> k % 64 & 1)) continue;
                    size_t to = rest.size() % side_by_side;
                    if (to == 0) kept.emplace_back(net.cells.size());
                    for (size_t x = 0; x < net.cells.size(); x++) {
                        kept.back()[x].known[to / 64] |= (player.next[x].known[k / 64] >> k % 64 & 1) << to % 64;
                        kept.back()[x].value[to / 64] |= (player.next[x].value[k / 64] >> k % 64 & 1) << to % 64;
                    }
                    rest.push_back(machines[start + k]);
                }
            }
            std::swap(machines, rest);
            std::swap(states, kept);
            c = end;
        }
    }
    for (size_t k = 0; k < faults.size(); k++) {
        bool open = found[k].first == unfound;
        told += !open;
        if (logs) continue;
        if (diagnoses) { if (open) std::printf("%zu\n", k); }
        else if (open) std::printf("%zu untold\n", k);
        else std::printf("%zu fails %zu %s\n", k, found[k].first, names[net.outputs[found[k].second]].c_str());
    }
    std::fprintf(stderr, "%zu faults %zu told %zu cycles %.3f s\n", faults.size(), told, played, seconds() - begin);
}
