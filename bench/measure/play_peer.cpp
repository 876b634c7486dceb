// A plain player of STIL files in C++, to time `atpg play` beside: the same loop, each gate in three values in each cycle.
// It reads a scanned netlist as canonical .bench and a file laid out as the writer of this repository does, and checks nothing of either.
//   g++ -O2 -std=c++17 -o play_peer play_peer.cpp && ./play_peer NET.scan TEST.stil
#include <cstdio>
#include <cstdlib>
#include <fstream>
#include <iostream>
#include <string>
#include <unordered_map>
#include <vector>

// A value by what it may be: bit 0 for "may be 0", bit 1 for "may be 1". X is 3.
using Tri = unsigned char;
constexpr Tri Zero = 1, One = 2, X = 3;

enum class Kind { Input, And, Nand, Or, Nor, Xor, Xnor, Not, Buff, Dff, Const0, Const1 };

struct Signal {
    Kind kind = Kind::Input;
    std::vector<int> pins;
};

struct Netlist {
    std::vector<std::string> names;
    std::vector<Signal> signals;
    std::vector<int> inputs, outputs, cells, order;
    std::unordered_map<std::string, int> numbers;

    int number(const std::string &name) {
        auto [found, is_new] = numbers.try_emplace(name, (int)signals.size());
        if (is_new) {
            names.push_back(name);
            signals.emplace_back();
        }
        return found->second;
    }
};

static const std::unordered_map<std::string, Kind> kinds = {
    {"AND", Kind::And}, {"NAND", Kind::Nand}, {"OR", Kind::Or}, {"NOR", Kind::Nor}, {"XOR", Kind::Xor}, {"XNOR", Kind::Xnor},
    {"NOT", Kind::Not}, {"BUFF", Kind::Buff}, {"DFF", Kind::Dff}, {"CONST0", Kind::Const0}, {"CONST1", Kind::Const1}};

static Netlist read_bench(const char *path) {
    Netlist net;
    std::ifstream file(path);
    std::string line;
    while (std::getline(file, line)) {
        size_t open = line.find('('), close = line.rfind(')'), is = line.find(" = ");
        if (open == std::string::npos) continue;
        std::string inside = line.substr(open + 1, close - open - 1);
        if (is == std::string::npos) {
            int signal = net.number(inside);
            (line[0] == 'I' ? net.inputs : net.outputs).push_back(signal);
            continue;
        }
        int signal = net.number(line.substr(0, is));
        std::vector<int> pins;
        for (size_t at = 0; at < inside.size();) {
            size_t comma = std::min(inside.find(", ", at), inside.size());
            pins.push_back(net.number(inside.substr(at, comma - at)));
            at = comma + 2;
        }
        net.signals[signal] = {kinds.at(line.substr(is + 3, open - is - 3)), pins};
        if (net.signals[signal].kind == Kind::Dff) net.cells.push_back(signal);
    }
    return net;
}

static bool is_source(Kind kind) { return kind == Kind::Input || kind == Kind::Dff; }

static void put_in_order(Netlist &net) {
    std::vector<int> missing(net.signals.size());
    std::vector<std::vector<int>> readers(net.signals.size());
    std::vector<int> &ready = net.order;
    for (size_t s = 0; s < net.signals.size(); s++) {
        if (is_source(net.signals[s].kind)) continue;
        for (int pin : net.signals[s].pins)
            if (!is_source(net.signals[pin].kind)) {
                missing[s]++;
                readers[pin].push_back((int)s);
            }
        if (missing[s] == 0) ready.push_back((int)s);
    }
    for (size_t k = 0; k < ready.size(); k++)
        for (int reader : readers[ready[k]])
            if (--missing[reader] == 0) ready.push_back(reader);
}

// The gates flat, for the loop.
struct Gate {
    Kind kind;
    int out, first, count;
};

struct Player {
    Netlist net;
    std::vector<Gate> gates;
    std::vector<int> pins;
    std::vector<Tri> values, next;

    explicit Player(Netlist read) : net(std::move(read)), values(net.signals.size(), X), next(net.cells.size(), X) {
        for (int signal : net.order) {
            const Signal &s = net.signals[signal];
            gates.push_back({s.kind, signal, (int)pins.size(), (int)s.pins.size()});
            pins.insert(pins.end(), s.pins.begin(), s.pins.end());
        }
    }

    static Tri complement(Tri v) { return (Tri)((v >> 1 | v << 1) & 3); }

    void settle() {
        for (const Gate &g : gates) {
            const int *pin = &pins[g.first], *end = pin + g.count;
            Tri v = 0;
            switch (g.kind) {
            case Kind::And:
            case Kind::Nand: {
                Tri all = One, any = 0;
                for (; pin < end; pin++) all &= values[*pin], any |= values[*pin];
                v = (Tri)((all & One) | (any & Zero));
                if (g.kind == Kind::Nand) v = complement(v);
                break;
            }
            case Kind::Or:
            case Kind::Nor: {
                Tri all = Zero, any = 0;
                for (; pin < end; pin++) all &= values[*pin], any |= values[*pin];
                v = (Tri)((all & Zero) | (any & One));
                if (g.kind == Kind::Nor) v = complement(v);
                break;
            }
            case Kind::Xor:
            case Kind::Xnor: {
                v = Zero;
                for (; pin < end; pin++) v = v == X || values[*pin] == X ? X : v == values[*pin] ? Zero : One;
                if (g.kind == Kind::Xnor) v = complement(v);
                break;
            }
            case Kind::Not: v = complement(values[*pin]); break;
            case Kind::Const0: v = Zero; break;
            case Kind::Const1: v = One; break;
            default: v = values[*pin];
            }
            values[g.out] = v;
        }
    }

    void tick() {
        for (size_t k = 0; k < net.cells.size(); k++) next[k] = values[net.signals[net.cells[k]].pins[0]];
        for (size_t k = 0; k < net.cells.size(); k++) values[net.cells[k]] = next[k];
    }
};

// The words that a line assigns, in order.
static void words_of(const std::string &line, std::vector<std::string> &words) {
    words.clear();
    for (size_t at = line.find(" = "); at != std::string::npos; at = line.find(" = ", at + 3))
        words.push_back(line.substr(at + 3, line.find(';', at) - at - 3));
}

static bool strobe(Tri value, char wanted, const char *&answer) {
    if (wanted == 'X') return true;
    if (value == X) return answer = "unknown", false;
    if (value != (wanted == 'H' ? One : Zero)) return answer = "fails", false;
    return true;
}

int main(int count, char **words) {
    if (count != 3) return 2;
    Netlist read = read_bench(words[1]);
    put_in_order(read);
    Player player(std::move(read));
    Netlist &net = player.net;
    std::ifstream file(words[2]);
    std::string line, shift;
    std::vector<std::string> parts;
    unsigned long long cycle = 0;
    const char *answer = nullptr;

    auto one = [&](const std::string &pi, const std::vector<char> &si, bool pulse, const std::string &po, const std::vector<char> &so) {
        for (size_t k = 0; k < pi.size(); k++) player.values[net.inputs[k]] = pi[k] == '1' ? One : Zero;
        for (size_t k = 0; k < si.size(); k++) player.values[net.inputs[pi.size() + k]] = si[k] == '1' ? One : Zero;
        player.settle();
        for (size_t k = 0; k < po.size(); k++)
            if (!strobe(player.values[net.outputs[k]], po[k], answer)) return printf("%s at cycle %llu signal %s\n", answer, cycle, net.names[net.outputs[k]].c_str()), false;
        for (size_t k = 0; k < so.size(); k++) {
            int output = net.outputs[net.outputs.size() - so.size() + k];
            if (!strobe(player.values[output], so[k], answer)) return printf("%s at cycle %llu signal %s\n", answer, cycle, net.names[output].c_str()), false;
        }
        if (pulse) player.tick();
        cycle++;
        return true;
    };

    size_t chains = 0;
    std::vector<char> si, so;
    while (std::getline(file, line)) {
        if (line.compare(0, 8, "      V ") == 0) {
            words_of(line, parts);
            shift = parts[0];
            chains = (parts.size() - 3) / 2;
        } else if (line.compare(0, 4, "  Ca") == 0) {
            words_of(line, parts);
            for (size_t t = 0; t < parts[0].size(); t++) {
                si.clear(), so.clear();
                for (size_t c = 0; c < chains; c++) si.push_back(parts[c][t]), so.push_back(parts[chains + c][t]);
                if (!one(shift, si, true, "", so)) return 1;
            }
        } else if (line.compare(0, 4, "  V ") == 0) {
            words_of(line, parts);
            si.clear(), so.clear();
            if (chains) {
                for (size_t c = 0; c < chains; c++) si.push_back(parts[1 + c][0]), so.push_back(parts[3 + chains + c][0]);
                if (!one(parts[0], si, parts[1 + chains] == "P", parts[2 + chains], so)) return 1;
            } else if (!one(parts[0], si, false, parts[1], so)) {
                return 1;
            }
        }
    }
    puts("passes");
    fprintf(stderr, "%llu cycles\n", cycle);
}
