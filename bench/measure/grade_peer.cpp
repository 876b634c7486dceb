// A plain grader of tests in C++, to time `atpg grade` beside: 64 patterns in a word, by regions, each class dropped at the first pattern that detects
// it; then its stuck line is put onto the words once more, and of the points that it reaches the one strobed first is taken.
// It reads a design, and a file of patterns laid out as the writer of this repository does, of which it checks that it strobes what the design shows;
// it writes the same text.
//   g++ -O2 -std=c++17 -o grade_peer grade_peer.cpp && ./grade_peer NET TEST.stil OUT
#include <cstring>
#include "peer_regions.hpp"

/// The names of signals, in the order of their numbers.
static std::vector<std::string> read_names(const char* path) {
    std::ifstream file(path);
    std::vector<std::string> inputs, definitions;
    for (std::string line; std::getline(file, line);) {
        std::string text;
        for (char letter : line) {
            if (letter == '#') break;
            if (!std::isspace(static_cast<unsigned char>(letter))) text += letter;
        }
        size_t open = text.find('('), is = text.find('=');
        if (open == std::string::npos) continue;
        if (is != std::string::npos) definitions.push_back(text.substr(0, is));
        else if (kind_of(text.substr(0, open)) == Kind::Input) inputs.push_back(text.substr(open + 1, text.find(')') - open - 1));
    }
    inputs.insert(inputs.end(), definitions.begin(), definitions.end());
    return inputs;
}

static std::vector<std::string> words_of(const std::string& line) {
    std::vector<std::string> words;
    for (size_t at = line.find(" = "); at != std::string::npos; at = line.find(" = ", at + 3))
        words.push_back(line.substr(at + 3, line.find(';', at) - at - 3));
    return words;
}

/// A pattern: the characters that it drives and strobes, of the cells in their order.
struct Test {
    std::string inputs, cells, outputs, captured;
};

/// The first cell of a chain.
static size_t start_of(size_t cells, size_t chains, size_t chain) { return chain * (cells / chains) + std::min(chain, cells % chains); }

/// The tests of a file: each vector with the load before it and the load behind.
static std::vector<Test> read_tests(const Netlist& net, const char* path, size_t& chains) {
    std::ifstream file(path);
    std::vector<Test> tests;
    std::vector<std::string> load;
    bool waits = false;
    chains = 0;
    size_t cells = net.cells.size();
    auto unloaded = [&](const std::vector<std::string>& words, Test& test) {
        test.captured.assign(cells, 'X');
        for (size_t c = 0; c < chains; c++)
            for (size_t k = start_of(cells, chains, c), t = start_of(cells, chains, c + 1) - k; t-- > 0; k++) test.captured[k] = words[chains + c][t];
    };
    for (std::string line; std::getline(file, line);) {
        if (line.compare(0, 8, "      V ") == 0) chains = (words_of(line).size() - 3) / 2;
        else if (line.compare(0, 4, "  Ca") == 0) {
            load = words_of(line);
            if (waits) unloaded(load, tests.back());
            waits = false;
        } else if (line.compare(0, 4, "  V ") == 0) {
            auto words = words_of(line);
            Test test;
            test.inputs = words[0].substr(0, net.inputs);
            test.outputs = words[chains == 0 ? 1 : 2 + chains];
            test.cells.assign(cells, '0');
            for (size_t c = 0; c < chains; c++)
                for (size_t start = start_of(cells, chains, c), k = start; k < start_of(cells, chains, c + 1); k++)
                    test.cells[k] = load[c][load[c].size() - 1 - (k - start)];
            tests.push_back(test);
            waits = chains > 0;
        }
    }
    return tests;
}

/// When points are strobed for the first pattern: by the cycle, and then by the output; and the least such number of each signal.
struct Keys {
    size_t longest;
    std::vector<Word> of, least;

    Keys(const Netlist& net, size_t chains) : longest(chains == 0 ? 0 : (net.cells.size() + chains - 1) / chains), least(net.signals(), ones) {
        Id outputs = static_cast<Id>(net.outputs.size());
        for (Id k = 0; k < outputs; k++) read(net.outputs[k], Word{4 * longest} << 32 | k);
        for (size_t c = 0; c < chains; c++) {
            size_t begin = start_of(net.cells.size(), chains, c), end = start_of(net.cells.size(), chains, c + 1);
            for (size_t k = begin; k < end; k++) read(*net.pins.begin(net.cells[k]), Word{4 * longest + 1 + (end - 1 - k)} << 32 | (outputs + c));
        }
    }
    void read(Id x, Word key) {
        of.push_back(key);
        least[x] = std::min(least[x], key);
    }
};

/// The key of the first strobe at which the pattern of a bit shows a fault that it detects; observed alone, its one point is the hit's.
static Word spot(Events& events, const Keys& keys, const Fault& fault, const Hit& hit) {
    if (is_observed_only(events.netlist, fault)) return keys.of[hit.point];
    if (fault.line == Fault::Line::Stem) events.stick_stem(fault.signal, fault.stuck);
    else events.stick_pin(fault.signal, fault.place, fault.stuck);
    Word key = ones;
    for (const Change& change : events.trail)
        if ((change.before ^ events.values[change.signal]) >> hit.pattern & 1) key = std::min(key, keys.least[change.signal]);
    events.undo();
    return key;
}

/// Pattern k of a batch has bit 63 - k, so that the last one that is found comes first.
static void drive(Events& events, const std::vector<Test>& tests, size_t first) {
    const Netlist& net = events.netlist;
    auto word = [&](std::string Test::*part, size_t place) {
        Word bits = 0;
        for (size_t k = 0; k < 64 && first + k < tests.size(); k++) bits |= Word{(tests[first + k].*part)[place] == '1'} << (63 - k);
        return bits;
    };
    for (Id x = 0; x < net.inputs; x++) events.values[x] = word(&Test::inputs, x);
    for (size_t k = 0; k < net.cells.size(); k++) events.values[net.cells[k]] = word(&Test::cells, k);
    events.settle();
}

/// Whether a batch strobes what the design shows.
static bool strobes(const Events& events, const std::vector<Test>& tests, size_t first) {
    const Netlist& net = events.netlist;
    for (size_t k = 0; k < 64 && first + k < tests.size(); k++) {
        auto same = [&](char strobe, Id x) { return strobe == (events.values[x] >> (63 - k) & 1 ? 'H' : 'L'); };
        for (size_t o = 0; o < net.outputs.size(); o++)
            if (!same(tests[first + k].outputs[o], net.outputs[o])) return false;
        for (size_t c = 0; c < net.cells.size(); c++)
            if (!same(tests[first + k].captured[c], *net.pins.begin(net.cells[c]))) return false;
    }
    return true;
}

int main(int count, char** words) {
    if (count < 4) return 2;
    Netlist net = read_netlist(words[1]);
    std::vector<std::string> names = read_names(words[1]);
    size_t chains;
    std::vector<Test> tests = read_tests(net, words[2], chains);
    Universe universe(net);
    std::vector<Id> roots = classes(net, universe);
    std::vector<Word> keys_found(universe.faults.size(), ones);  // for each first member the key
    std::vector<size_t> first_pattern(universe.faults.size(), 0);
    std::vector<Id> left;
    for (Id k = 0; k < roots.size(); k++)
        if (roots[k] == k) left.push_back(k);
    Keys keys(net, chains);
    Points points(net);
    Events events(net);
    ByRegions together(net, Way::Chosen);
    std::vector<Hit> hits;
    std::vector<Fault> faults;
    for (size_t first = 0; first < tests.size(); first += 64) {
        drive(events, tests, first);
        if (!strobes(events, tests, first)) return 1;
        size_t unused = tests.size() - first < 64 ? 64 - (tests.size() - first) : 0;
        faults.clear();
        for (Id k : left) faults.push_back(universe.faults[k]);
        hits.clear();
        together.hits(events, points, faults, hits);
        std::vector<Id> rest;
        size_t next = 0;
        for (size_t k = 0; k < left.size(); k++) {
            if (next == hits.size() || hits[next].fault != k || hits[next].pattern < static_cast<int>(unused)) {
                next += next < hits.size() && hits[next].fault == k;
                rest.push_back(left[k]);
                continue;
            }
            keys_found[left[k]] = spot(events, keys, faults[k], hits[next]);
            first_pattern[left[k]] = first + static_cast<size_t>(63 - hits[next].pattern);
            next++;
        }
        left.swap(rest);
    }
    size_t detected = 0;
    for (Id root : roots) detected += keys_found[root] != ones;
    std::string text = "atpg grade 1\nfaults " + std::to_string(roots.size()) + " detected " + std::to_string(detected) + " undetected ";
    text += std::to_string(roots.size() - detected) + " unknown 0\n";
    for (Id k = 0; k < roots.size(); k++) {
        const Fault& fault = universe.faults[k];
        if (fault.line == Fault::Line::Stem) text += "stem " + names[fault.signal];
        else if (fault.line == Fault::Line::Pin) text += "pin " + names[fault.signal] + " " + std::to_string(fault.place);
        else text += "out " + names[fault.signal];
        text += fault.stuck == 0 ? "/0" : "/1";
        Word key = keys_found[roots[k]];
        if (key == ones) {
            text += " undetected\n";
            continue;
        }
        size_t output = key & 0xffffffffu;
        bool scans = output >= net.outputs.size();
        text += " detected " + std::to_string((key >> 32) + first_pattern[roots[k]] * (keys.longest + 1)) + " ";
        if (scans) text += "SC__so" + std::to_string(output - net.outputs.size());
        else text += (net.outputs[output] < net.inputs ? "SC__o_" : "") + names[net.outputs[output]];
        text += "\n";
    }
    std::ofstream(words[3]) << text;
}
