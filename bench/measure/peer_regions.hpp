// What the C++ peers of fault simulation share: faults and their classes, observed points, and what 64 patterns in a word detect, by events: one
// propagation for all faults of a fanout-free region, from its head (Antreich and Schulz 1987), or one for four heads side by side.
#pragma once
#include <algorithm>
#include <memory>
#include <numeric>
#include "peer_netlist.hpp"

/// A line stuck: the stem of a signal, a pin of its definition, or (place `none`) an output.
struct Fault {
    enum class Line : std::uint8_t { Stem, Pin, Out } line;
    Id signal, place;
    Word stuck;
};

/// All faults of a netlist, and how many stand before those of each signal.
struct Universe {
    std::vector<Fault> faults;
    std::vector<Id> starts;

    explicit Universe(const Netlist& netlist) {
        for (Id x = 0; x < netlist.signals(); x++) {
            starts.push_back(static_cast<Id>(faults.size()));
            add({Fault::Line::Stem, x, 0, 0});
            if (netlist.readers[x].size() < 2) continue;
            for (const Reader& reader : netlist.readers[x])
                add({reader.place == none ? Fault::Line::Out : Fault::Line::Pin, reader.signal, reader.place, 0});
        }
    }
    void add(Fault fault) {
        faults.push_back(fault);
        fault.stuck = ones;
        faults.push_back(fault);
    }
};

/// The class of a fault, as the least fault that it is joined with.
struct Joined {
    std::vector<Id> parents;

    explicit Joined(size_t count) : parents(count) { std::iota(parents.begin(), parents.end(), 0u); }
    Id least(Id fault) {
        while (parents[fault] != fault) fault = parents[fault] = parents[parents[fault]];
        return fault;
    }
    void join(Id one, Id other) {
        one = least(one);
        other = least(other);
        parents[std::max(one, other)] = std::min(one, other);
    }
};

/// A pin's fault is the same as the gate's stem stuck at what it makes the gate, where it decides it.
inline void join_at(Joined& joined, Kind kind, Id pin, Id stem) {
    switch (kind) {
        case Kind::And: joined.join(pin, stem); break;
        case Kind::Nand: joined.join(pin, stem + 1); break;
        case Kind::Or: joined.join(pin + 1, stem + 1); break;
        case Kind::Nor: joined.join(pin + 1, stem); break;
        case Kind::Not: joined.join(pin, stem + 1); joined.join(pin + 1, stem); break;
        case Kind::Buff: joined.join(pin, stem); joined.join(pin + 1, stem + 1); break;
        default: break;
    }
}

/// For each fault the first member of its class.
inline std::vector<Id> classes(const Netlist& netlist, const Universe& universe) {
    Joined joined(universe.faults.size());
    for (Id x = 0; x < netlist.signals(); x++) {
        const auto& readers = netlist.readers[x];
        for (Id k = 0; k < readers.size(); k++) {
            if (readers[k].place == none) continue;
            Id pin = universe.starts[x] + (readers.size() < 2 ? 0 : 2 * (k + 1));
            join_at(joined, netlist.kinds[readers[k].signal], pin, universe.starts[readers[k].signal]);
        }
    }
    std::vector<Id> roots;
    for (Id k = 0; k < universe.faults.size(); k++) roots.push_back(joined.least(k));
    return roots;
}

/// The first member of each class.
inline std::vector<Fault> representatives(const Netlist& netlist) {
    Universe universe(netlist);
    std::vector<Id> roots = classes(netlist, universe);
    std::vector<Fault> first;
    for (Id k = 0; k < roots.size(); k++)
        if (roots[k] == k) first.push_back(universe.faults[k]);
    return first;
}

/// What the points are: the outputs in order, then the cells.
struct Points {
    Id count = 0;
    std::vector<Id> first;    // the first point that reads each signal, or the count
    std::vector<Id> numbers;  // of each cell

    explicit Points(const Netlist& netlist) : first(netlist.signals(), none), numbers(netlist.signals(), none) {
        for (Id x : netlist.outputs) read(x);
        for (Id cell : netlist.cells) {
            numbers[cell] = count;
            read(*netlist.pins.begin(cell));
        }
    }
    void read(Id x) {
        first[x] = std::min(first[x], count);
        count++;
    }
};

/// The last pattern that detects a fault, and the first point.
struct Hit {
    size_t fault;
    int pattern;
    Id point;
};

/// The hit of a fault whose line is at once observed.
inline bool at_point(const Events& events, Id signal, Id point, const Fault& fault, size_t number, std::vector<Hit>& hits) {
    Word differs = events.values[signal] ^ fault.stuck;
    if (differs == 0) return false;
    hits.push_back({number, 63 - __builtin_clzll(differs), point});
    return true;
}

inline bool detect(Events& events, const Points& points, const Fault& fault, size_t number, std::vector<Hit>& hits) {
    const Netlist& netlist = events.netlist;
    if (fault.line == Fault::Line::Out) return at_point(events, fault.signal, points.first[fault.signal], fault, number, hits);
    if (fault.line == Fault::Line::Pin && netlist.kinds[fault.signal] == Kind::Dff)
        return at_point(events, *netlist.pins.begin(fault.signal), points.numbers[fault.signal], fault, number, hits);
    if (fault.line == Fault::Line::Stem) events.stick_stem(fault.signal, fault.stuck);
    else events.stick_pin(fault.signal, fault.place, fault.stuck);
    Word all = 0;
    for (const Change& change : events.trail)
        if (points.first[change.signal] != none) all |= change.before ^ events.values[change.signal];
    if (all != 0) {
        int last = 63 - __builtin_clzll(all);
        Id point = none;
        for (const Change& change : events.trail)
            if ((change.before ^ events.values[change.signal]) >> last & 1) point = std::min(point, points.first[change.signal]);
        hits.push_back({number, last, point});
    }
    events.undo();
    return all != 0;
}

/// The heads of fanout-free regions, and for words that have settled under which patterns a change of a signal changes its head.
struct Regions {
    const Netlist& netlist;
    std::vector<Id> heads;
    std::vector<Word> open;

    explicit Regions(const Netlist& given) : netlist(given), heads(given.signals()), open(given.signals(), ones) {
        for (Id x = 0; x < given.signals(); x++) heads[x] = x;
        for (size_t k = given.order.size(); k-- > 0;) aim(given.order[k]);
        for (Id x = 0; x < given.signals(); x++) aim(x);
    }
    /// The gate that alone reads a signal, if there is one.
    Id only_reader(Id x) const {
        const auto& readers = netlist.readers[x];
        bool single = readers.size() == 1 && readers[0].place != none && netlist.kinds[readers[0].signal] != Kind::Dff;
        return single ? readers[0].signal : none;
    }
    void aim(Id x) {
        Id gate = only_reader(x);
        if (gate != none) heads[x] = heads[gate];
    }
    /// Under which patterns each pin of a gate alone decides it: `once` and `twice` have the patterns with one pin and with two at the
    /// controlling value.
    struct Sides {
        bool is_parity, is_or;
        Word once = 0, twice = 0;

        Sides(const Events& events, Id gate) {
            Kind kind = events.netlist.kinds[gate];
            is_or = kind == Kind::Or || kind == Kind::Nor;
            is_parity = !is_or && kind != Kind::And && kind != Kind::Nand;
            if (is_parity) return;
            for (const Id *pin = events.netlist.pins.begin(gate), *last = events.netlist.pins.end(gate); pin != last; pin++) {
                Word controls = is_or ? events.values[*pin] : ~events.values[*pin];
                twice |= once & controls;
                once |= controls;
            }
        }
        Word of(Word value) const { return is_parity ? ones : ~(twice | (once & (is_or ? ~value : value))); }
    };
    /// From the last gate to the first: what passes the gate and then reaches its head.
    void pass_back(const Events& events) {
        std::fill(open.begin(), open.end(), ones);
        for (size_t k = netlist.order.size(); k-- > 0;) {
            Id gate = netlist.order[k];
            bool reads_alone = false;
            for (const Id *pin = netlist.pins.begin(gate), *last = netlist.pins.end(gate); pin != last; pin++)
                reads_alone = reads_alone || heads[*pin] != *pin;
            if (!reads_alone) continue;
            Sides sides(events, gate);
            for (const Id *pin = netlist.pins.begin(gate), *last = netlist.pins.end(gate); pin != last; pin++)
                if (only_reader(*pin) == gate) open[*pin] = sides.of(events.values[*pin]) & open[gate];
        }
    }
    Id head_of(const Fault& fault) const { return heads[fault.signal]; }
    /// Under which patterns a fault changes its head. Its line is a stem or a gate's pin.
    Word reach(const Events& events, const Fault& fault) const {
        if (fault.line == Fault::Line::Stem) return (events.values[fault.signal] ^ fault.stuck) & open[fault.signal];
        Word value = events.values[*(netlist.pins.begin(fault.signal) + fault.place)];
        Word excited = value ^ fault.stuck;
        return excited == 0 ? 0 : excited & Sides(events, fault.signal).of(value) & open[fault.signal];
    }
};

/// Whether only a point reads the fault's line.
inline bool is_observed_only(const Netlist& netlist, const Fault& fault) {
    return fault.line == Fault::Line::Out || (fault.line == Fault::Line::Pin && netlist.kinds[fault.signal] == Kind::Dff);
}

/// Four words side by side.
typedef Word Four __attribute__((vector_size(32)));

constexpr int lanes = 4;

inline void spread(Four& four, Word word) { four = Four{word, word, word, word}; }

inline bool is_zero(const Four& four) { return (four[0] | four[1] | four[2] | four[3]) == 0; }

/// Four machines over the same words, each with the stem of one signal stuck.
struct Side {
    Events& events;  // whose words have settled, and whose places wait
    const Netlist& netlist;
    std::vector<Four> values;
    std::vector<Id> trail;
    std::vector<std::uint8_t> stuck_in;  // for each signal 1 + the lane in which it is stuck, or 0
    Word stuck[lanes];
    std::uint64_t evaluations = 0;

    explicit Side(Events& given) : events(given), netlist(given.netlist), values(netlist.signals()), stuck_in(netlist.signals(), 0) {
        trail.reserve(2 * netlist.signals());
    }

    void begin() {
        for (Id x = 0; x < netlist.signals(); x++) spread(values[x], events.values[x]);
    }

    /// What the gate of a signal makes of its pins' words.
    void make(Id x, Four& four) const {
        const Id *p = netlist.pins.begin(x), *last = netlist.pins.end(x);
        Kind kind = netlist.kinds[x];
        four = values[*p++];
        switch (kind) {
            case Kind::And: case Kind::Nand: for (; p != last; p++) four &= values[*p]; break;
            case Kind::Or: case Kind::Nor: for (; p != last; p++) four |= values[*p]; break;
            default: for (; p != last; p++) four ^= values[*p]; break;
        }
        if (kind == Kind::Nand || kind == Kind::Nor || kind == Kind::Xnor || kind == Kind::Not) four = ~four;
    }

    void take_value(Id x, Four& four) {
        if (stuck_in[x] != 0) four[stuck_in[x] - 1] = stuck[stuck_in[x] - 1];
        if (is_zero(four ^ values[x])) return;
        trail.push_back(x);
        values[x] = four;
        for (const Id *fan = netlist.fans.begin(x), *last = netlist.fans.end(x); fan != last; fan++) events.insert(*fan);
    }

    /// Each stem is stuck at its word in its own lane.
    void stick(const Id* stems, const Word* words, int count) {
        for (int lane = 0; lane < count; lane++) {
            stuck_in[stems[lane]] = static_cast<std::uint8_t>(lane + 1);
            stuck[lane] = words[lane];
            Four four = values[stems[lane]];
            take_value(stems[lane], four);
        }
        for (Id place = events.take_least(); place != none; place = events.take_least()) {
            Four four;
            make(netlist.order[place], four);
            evaluations++;
            take_value(netlist.order[place], four);
        }
        for (int lane = 0; lane < count; lane++) stuck_in[stems[lane]] = 0;
    }

    void undo() {
        for (Id x : trail) spread(values[x], events.values[x]);
        trail.clear();
    }
};

/// A change that a point reads: the first such point, and the patterns under which it is one.
struct Shown {
    Id point;
    Word under;
};

/// Whether heads change much in common, by four of each 64 that go one by one.
struct Common {
    static constexpr size_t block = 64;
    static constexpr double most = 0.55;  // of the changes one by one that are left where four go side by side
    std::vector<std::uint32_t> seen_in;   // for each signal the group in which it last changed
    std::uint32_t group = 0;
    std::uint64_t changes = 0, distinct = 0;

    explicit Common(const Netlist& netlist) : seen_in(netlist.signals(), 0) {}
    static bool is_counted(size_t at) { return at % block < lanes; }
    void count(const Events& events, size_t k) {
        if (k % lanes == 0) group++;
        changes += events.trail.size();
        for (const Change& change : events.trail) {
            distinct += seen_in[change.signal] != group;
            seen_in[change.signal] = group;
        }
    }
    bool is_much() const { return static_cast<double>(distinct) < most * static_cast<double>(changes); }
};

enum class Way { One, Side, Chosen };

/// The hits of all given faults, in their order: one propagation for each head that some fault reaches, or for four heads.
struct ByRegions {
    Regions regions;
    Way way;
    std::vector<Id> next, first, heads;  // the faults of each head, one linked to the other
    std::vector<Word> reaches;
    std::vector<Hit> found;              // for each fault, pattern -1 where none was
    std::vector<Shown> shown;
    std::vector<Id> shown_side;          // the changed signals that points read
    std::unique_ptr<Side> side;
    Common common;
    std::uint64_t alone = 0, together = 0;  // how many heads

    ByRegions(const Netlist& netlist, Way given) : regions(netlist), way(given), first(netlist.signals(), none), common(netlist) {}

    void show(const Events& events, const Points& points, Id fault) {
        Word all = 0;
        shown.clear();
        for (const Change& change : events.trail)
            if (points.first[change.signal] != none) {
                shown.push_back({points.first[change.signal], change.before ^ events.values[change.signal]});
                all |= shown.back().under;
            }
        for (Id k = fault; k != none; k = next[k]) {
            Word under = all & reaches[k];
            if (under == 0) continue;
            found[k] = {k, 63 - __builtin_clzll(under), none};
            for (const Shown& each : shown)
                if (each.under >> found[k].pattern & 1) found[k].point = std::min(found[k].point, each.point);
        }
    }
    void show_lane(const Events& events, const Points& points, Word all, int lane, Id fault) {
        for (Id k = fault; k != none; k = next[k]) {
            Word under = all & reaches[k];
            if (under == 0) continue;
            found[k] = {k, 63 - __builtin_clzll(under), none};
            for (Id x : shown_side)
                if ((side->values[x][lane] ^ events.values[x]) >> found[k].pattern & 1) found[k].point = std::min(found[k].point, points.first[x]);
        }
    }
    Word turned(const Events& events, Id head) const {
        Word mask = 0;
        for (Id k = first[head]; k != none; k = next[k]) mask |= reaches[k];
        return events.values[head] ^ mask;
    }
    void tell(Events& events, const Points& points, size_t at) {
        Id head = heads[at];
        events.stick_stem(head, turned(events, head));
        show(events, points, first[head]);
        if (way == Way::Chosen && Common::is_counted(at)) common.count(events, at);
        events.undo();
        first[head] = none;
        alone++;
    }
    void tell_side(Events& events, const Points& points, const Id* stems, int count) {
        Word words[lanes];
        for (int lane = 0; lane < count; lane++) words[lane] = turned(events, stems[lane]);
        side->stick(stems, words, count);
        Four all = {0, 0, 0, 0};
        shown_side.clear();
        for (Id x : side->trail) {
            if (points.first[x] == none) continue;
            Four good;
            spread(good, events.values[x]);
            all |= side->values[x] ^ good;
            shown_side.push_back(x);
        }
        for (int lane = 0; lane < count; lane++) {
            show_lane(events, points, all[lane], lane, first[stems[lane]]);
            first[stems[lane]] = none;
        }
        side->undo();
        together += static_cast<std::uint64_t>(count);
    }
    bool goes_side(size_t at) const { return way == Way::Side || (way == Way::Chosen && !Common::is_counted(at) && common.is_much()); }
    void tell_all(Events& events, const Points& points) {
        bool has_begun = false;
        for (size_t at = 0; at < heads.size();) {
            if (!goes_side(at)) {
                tell(events, points, at++);
                continue;
            }
            if (!side) side = std::make_unique<Side>(events);
            if (!has_begun) side->begin();
            has_begun = true;
            size_t count = std::min<size_t>(lanes, heads.size() - at);
            tell_side(events, points, &heads[at], static_cast<int>(count));
            at += count;
        }
    }
    /// The faults by the heads that they reach; of those that only a point reads, what is found.
    void gather(Events& events, const Points& points, const std::vector<Fault>& faults) {
        std::vector<Hit> at;
        for (Id k = 0; k < faults.size(); k++) {
            if (is_observed_only(events.netlist, faults[k])) {
                at.clear();
                if (detect(events, points, faults[k], k, at)) found[k] = at[0];
                continue;
            }
            reaches[k] = regions.reach(events, faults[k]);
            if (reaches[k] == 0) continue;
            Id head = regions.head_of(faults[k]);
            if (first[head] == none) heads.push_back(head);
            next[k] = first[head];
            first[head] = k;
        }
    }
    void hits(Events& events, const Points& points, const std::vector<Fault>& faults, std::vector<Hit>& hits) {
        regions.pass_back(events);
        next.assign(faults.size(), none);
        reaches.assign(faults.size(), 0);
        found.assign(faults.size(), {0, -1, 0});
        heads.clear();
        gather(events, points, faults);
        tell_all(events, points);
        for (Id k = 0; k < faults.size(); k++)
            if (found[k].pattern >= 0) hits.push_back({k, found[k].pattern, found[k].point});
    }
};
