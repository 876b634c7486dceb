// Rounds that leave fewer of a loop's patterns, as crates/fewer_patterns does: which bits of patterns the faults left to them need is traced, for 64
// patterns at once; patterns relaxed to these bits are merged and filled anew.
#pragma once
#include "peer_loop.hpp"

/// Which bits of up to 64 patterns, which have settled, the detection of faults rests on.
struct Tracing {
    const Events& events;
    const Netlist& netlist;
    const std::vector<std::uint32_t>&zero_costs, &one_costs;
    std::vector<std::uint8_t> seen, comes_to_point;  // for each signal, whether a point reads it, and whether one stands behind it
    std::vector<Word> followed, open;                // for each signal, under which patterns it is followed, and comes to the head of its region
    std::vector<std::uint8_t> differs, turned;       // for each signal, whether it differs with the head turned, and is followed there
    std::vector<Id> changed, touched;
    std::vector<Word> waiting;  // places, a bit for each
    size_t first = 0, last = 0; // the words of those that wait
    int lane = 0;               // the pattern that is looked at

    Tracing(const Events& given, const std::vector<std::uint32_t>& zero, const std::vector<std::uint32_t>& one)
        : events(given), netlist(given.netlist), zero_costs(zero), one_costs(one), seen(netlist.signals(), 0), comes_to_point(netlist.signals(), 0),
          differs(netlist.signals(), 0), turned(netlist.signals(), 0), waiting(netlist.order.size() / 64 + 1, 0) {
        for (Id x : netlist.outputs) seen[x] = 1;
        for (Id cell : netlist.cells) seen[*netlist.pins.begin(cell)] = 1;
        for (size_t k = netlist.order.size(); k-- > 0;) look_behind(netlist.order[k]);
    }
    void look_behind(Id x) {
        comes_to_point[x] = seen[x];
        for (const Id *fan = netlist.fans.begin(x), *end = netlist.fans.end(x); fan != end; fan++) comes_to_point[x] |= comes_to_point[netlist.order[*fan]];
    }
    void begin() {
        followed.assign(netlist.signals(), 0);
        open.assign(netlist.signals(), 0);
    }
    bool is_source(Id x) const { return netlist.places[x] == none; }
    Word mask() const { return Word{1} << lane; }
    bool good(Id x) const { return events.values[x] >> lane & 1; }
    bool faulty(Id x) const { return good(x) != (differs[x] != 0); }
    bool is_needed(Id x) const { return followed[x] >> lane & 1; }
    /// The bit of a pin that decides a gate, or -1.
    int decides(Id gate) const {
        switch (netlist.kinds[gate]) {
            case Kind::And: case Kind::Nand: case Kind::Not: case Kind::Buff: return 0;
            case Kind::Or: case Kind::Nor: return 1;
            default: return -1;
        }
    }
    std::uint32_t cost(Id x, bool bit) const { return bit ? one_costs[x] : zero_costs[x]; }

    // with the head turned

    void wait(Id place) {
        waiting[place / 64] |= Word{1} << (place % 64);
        first = std::min<size_t>(first, place / 64);
        last = std::max<size_t>(last, place / 64);
    }
    Id waits_no_more(size_t word, int bit) {
        waiting[word] ^= Word{1} << bit;
        return static_cast<Id>(word * 64 + static_cast<size_t>(bit));
    }
    Id nothing_waits() {
        first = waiting.size();
        last = 0;
        return none;
    }
    Id take_first() {
        for (; first <= last; first++)
            if (waiting[first] != 0) return waits_no_more(first, __builtin_ctzll(waiting[first]));
        return nothing_waits();
    }
    Id take_last() {
        for (; last + 1 > first; last--)
            if (waiting[last] != 0) return waits_no_more(last, 63 - __builtin_clzll(waiting[last]));
            else if (last == 0) break;
        return nothing_waits();
    }
    bool faulty_of(Id gate) const {
        const Id *pin = netlist.pins.begin(gate), *end = netlist.pins.end(gate);
        Kind kind = netlist.kinds[gate];
        int by = decides(gate);
        bool is_opposite = kind == Kind::Nand || kind == Kind::Nor || kind == Kind::Not || kind == Kind::Xnor;
        if (by < 0) {
            bool odd = false;
            for (; pin != end; pin++) odd = odd != faulty(*pin);
            return odd != is_opposite;
        }
        bool some = std::any_of(pin, end, [&](Id x) { return faulty(x) == (by == 1); });
        return (some == (by == 1)) != is_opposite;
    }
    void change(Id x) {
        differs[x] = 1;
        changed.push_back(x);
        for (const Id *fan = netlist.fans.begin(x), *end = netlist.fans.end(x); fan != end; fan++)
            if (comes_to_point[netlist.order[*fan]]) wait(*fan);
    }
    /// Turns a signal's bit, until that comes to an observed signal: this one.
    Id turn_bit(Id head) {
        if (seen[head]) return head;
        change(head);
        Id found = none;
        for (Id place = take_first(); place != none; place = take_first()) {
            Id gate = netlist.order[place];
            if (found != none || faulty_of(gate) == good(gate)) continue;
            change(gate);
            if (seen[gate]) found = gate;
        }
        return found;
    }
    void follow_turned(Id x, Id head) {
        if (x == head || turned[x]) return;
        if (is_source(x) || (!is_source(head) && netlist.places[x] < netlist.places[head])) {
            followed[x] |= mask();
            return;
        }
        turned[x] = 1;
        touched.push_back(x);
        wait(netlist.places[x]);
    }
    void follow_pins_turned(Id gate, Id head) {
        int by = decides(gate);
        Id best = none;
        std::uint64_t least = 0;
        for (const Id *pin = netlist.pins.begin(gate), *end = netlist.pins.end(gate); by >= 0 && pin != end; pin++) {
            if (faulty(*pin) != (by == 1)) continue;
            bool is_followed = *pin == head || turned[*pin] || (is_needed(*pin) && !differs[*pin]);
            std::uint64_t own = is_followed ? 0 : std::uint64_t{cost(*pin, by == 1)} + 1;
            if (best == none || own < least) best = *pin, least = own;
        }
        if (best != none) follow_turned(best, head);
        else
            for (const Id *pin = netlist.pins.begin(gate), *end = netlist.pins.end(gate); pin != end; pin++) follow_turned(*pin, head);
    }
    /// What is needed for a difference at a head to be seen: both bits of what differs.
    void turn(Id head) {
        followed[head] |= mask();
        Id found = turn_bit(head);
        if (found != none) {
            followed[found] |= mask();
            follow_turned(found, head);
        }
        for (Id place = take_last(); place != none; place = take_last()) {
            Id gate = netlist.order[place];
            if (differs[gate]) followed[gate] |= mask();
            follow_pins_turned(gate, head);
        }
        for (Id x : touched) turned[x] = 0;
        for (Id x : changed) differs[x] = 0;
        touched.clear();
        changed.clear();
    }

    // what a fault needs

    void follow_others(Id gate, Id but) {
        for (const Id *pin = netlist.pins.begin(gate), *end = netlist.pins.end(gate); pin != end; pin++)
            if (*pin != but) followed[*pin] |= mask();
    }
    /// What is needed for a difference to come from a signal to the head of its region, which is turned but where that was done.
    void open_way(Id from) {
        for (Id x = from;;) {
            if (open[x] & mask()) return;
            open[x] |= mask();
            if (netlist.readers[x].size() != 1 || seen[x]) return turn(x);
            Id gate = netlist.readers[x][0].signal;
            follow_others(gate, x);
            x = gate;
        }
    }
    void need(const Fault& fault) {
        if (is_observed_only(netlist, fault)) {
            followed[fault.line == Fault::Line::Out ? fault.signal : *netlist.pins.begin(fault.signal)] |= mask();
            return;
        }
        if (fault.line == Fault::Line::Stem) followed[fault.signal] |= mask();
        else follow_others(fault.signal, none);
        open_way(fault.signal);
    }

    // what that rests on, for all patterns

    void follow_back(Id gate) {
        const Id *begin = netlist.pins.begin(gate), *end = netlist.pins.end(gate);
        int by = decides(gate);
        Word under = followed[gate], left = 0;
        if (by >= 0) {
            Word decided = 0;
            for (const Id* pin = begin; pin != end; pin++) {
                Word at = by == 1 ? events.values[*pin] : ~events.values[*pin];
                left |= at;
                decided |= at & followed[*pin];
            }
            left &= under;
            under &= ~left;
            left &= ~decided;
        }
        for (const Id* pin = begin; under != 0 && pin != end; pin++) followed[*pin] |= under;
        while (left != 0) left ^= follow_cheapest(gate, by == 1, left);
    }
    /// Follows the cheapest pin that decides the gate under some of these patterns: under which it does.
    Word follow_cheapest(Id gate, bool by, Word left) {
        Id best = none;
        Word best_at = 0;
        for (const Id *pin = netlist.pins.begin(gate), *end = netlist.pins.end(gate); pin != end; pin++) {
            Word at = (by ? events.values[*pin] : ~events.values[*pin]) & left;
            if (at != 0 && (best == none || cost(*pin, by) < cost(best, by))) best = *pin, best_at = at;
        }
        followed[best] |= best_at;
        return best_at;
    }
    void trace() {
        for (size_t k = netlist.order.size(); k-- > 0;)
            if (followed[netlist.order[k]] != 0) follow_back(netlist.order[k]);
    }
};

/// Cubes in words: which places of each row have a bit, and which a 1.
struct CubeRows {
    size_t words;
    std::vector<Word> set{}, ones{};

    size_t count() const { return set.size() / words; }
    void push() {
        set.resize(set.size() + words, 0);
        ones.resize(ones.size() + words, 0);
    }
    void put(size_t row, size_t place, bool bit) {
        set[row * words + place / 64] |= Word{1} << (place % 64);
        ones[row * words + place / 64] |= Word{bit} << (place % 64);
    }
    bool has(size_t row, size_t place) const { return set[row * words + place / 64] >> (place % 64) & 1; }
    bool one(size_t row, size_t place) const { return ones[row * words + place / 64] >> (place % 64) & 1; }
    size_t size(size_t row) const {
        size_t size = 0;
        for (size_t k = row * words; k < (row + 1) * words; k++) size += static_cast<size_t>(__builtin_popcountll(set[k]));
        return size;
    }
    size_t size() const {
        size_t size = 0;
        for (Word word : set) size += static_cast<size_t>(__builtin_popcountll(word));
        return size;
    }
    bool is_opposed(size_t row, const CubeRows& others, size_t other) const {
        for (size_t k = 0; k < words; k++) {
            size_t one = row * words + k, two = other * words + k;
            if (set[one] & others.set[two] & (ones[one] ^ others.ones[two])) return true;
        }
        return false;
    }
    void join(size_t row, const CubeRows& others, size_t other) {
        for (size_t k = 0; k < words; k++) {
            set[row * words + k] |= others.set[other * words + k];
            ones[row * words + k] |= others.ones[other * words + k];
        }
    }
    /// Fewer rows with the bits of all: each joins the first that it doesn't contradict, those of most bits first.
    CubeRows merged() const {
        std::vector<size_t> order(count()), sizes;
        std::iota(order.begin(), order.end(), size_t{0});
        for (size_t row : order) sizes.push_back(size(row));
        std::stable_sort(order.begin(), order.end(), [&](size_t one, size_t other) { return sizes[one] > sizes[other]; });
        CubeRows results{words};
        for (size_t row : order) {
            size_t into = 0;
            while (into < results.count() && results.is_opposed(into, *this, row)) into++;
            if (into == results.count()) results.push();
            results.join(into, *this, row);
        }
        return results;
    }
};

/// Patterns, where classes are last detected by them, and how many are needed.
struct Made {
    std::vector<Cube> patterns;
    std::vector<Id> last;
    size_t needed = 0;
};

/// The rounds over a loop whose cubes are all published.
struct Rounds {
    Loop& loop;
    Tracing tracing;

    Rounds(Loop& given, const std::vector<std::uint32_t>& zero_costs, const std::vector<std::uint32_t>& one_costs)
        : loop(given), tracing(given.events, zero_costs, one_costs) {}

    size_t needed_now() const {
        return static_cast<size_t>(std::count_if(loop.sources.begin(), loop.sources.end(), [&](Id x) { return tracing.is_needed(x); }));
    }

    /// Which bits the classes need that are left to each of these patterns: a few at first, and four times as many each time. What needs nearly all
    /// bits by then is taken whole.
    void trace_part(const std::vector<size_t>* left, size_t count) {
        tracing.begin();
        bool goes_on = true;
        for (size_t from = 0, to = 8; goes_on; from = to, to *= 4) {
            goes_on = false;
            for (size_t k = 0; k < count; k++) {
                if (left[k].size() <= from) continue;
                tracing.lane = static_cast<int>(k);
                if (from > 0 && needed_now() * 16 >= loop.sources.size() * 15) {
                    for (Id x : loop.sources) tracing.followed[x] |= tracing.mask();
                    continue;
                }
                for (size_t j = from; j < std::min(to, left[k].size()); j++) tracing.need(loop.faults[left[k][j]]);
                goes_on = goes_on || left[k].size() > to;
            }
            tracing.trace();
        }
    }

    /// A row for each pattern to which a class is left: the bits that such classes need.
    CubeRows relaxed(const Made& from, const std::vector<size_t>& classes) {
        std::vector<std::vector<size_t>> left(from.patterns.size());
        for (size_t k = 0; k < classes.size(); k++) left[from.last[k]].push_back(classes[k]);
        CubeRows rows{loop.sources.size() / 64 + 1};
        for (size_t begin = 0; begin < left.size(); begin += full) {
            size_t count = std::min(full, left.size() - begin);
            loop.settle(&from.patterns[begin], count);
            trace_part(&left[begin], count);
            for (size_t k = 0; k < count; k++) {
                if (left[begin + k].empty()) continue;
                tracing.lane = static_cast<int>(k);
                rows.push();
                for (size_t at = 0; at < loop.sources.size(); at++)
                    if (tracing.is_needed(loop.sources[at])) rows.put(rows.count() - 1, at, tracing.good(loop.sources[at]));
            }
        }
        return rows;
    }

    /// In every other round the last row comes first, else they are shuffled.
    std::vector<size_t> order_of(size_t count, int round) {
        std::vector<size_t> order(count);
        std::iota(order.begin(), order.end(), size_t{0});
        if (round % 2 == 0) std::reverse(order.begin(), order.end());
        else
            for (size_t k = count; k > 1; k--) std::swap(order[k - 1], order[loop.random.next() % k]);
        return order;
    }
    std::vector<Cube> filled(const CubeRows& rows, int round) {
        std::vector<Cube> results;
        for (size_t row : order_of(rows.count(), round)) {
            Cube cube(loop.sources.size());
            for (size_t k = 0; k < cube.size(); k++) {
                bool bit = rows.has(row, k) ? rows.one(row, k) : loop.random.next() & 1;
                cube[k] = bit ? Bit::One : Bit::Zero;
            }
            results.push_back(cube);
        }
        return results;
    }

    /// The best patterns after so many rounds, each taken only where it detects all these classes.
    std::vector<Cube> improved(const Made& first, const std::vector<size_t>& classes, int rounds) {
        Made best = first, from = first;
        bool is_dense = false;
        for (int round = 0; round < rounds && !is_dense; round++) {
            CubeRows rows = relaxed(from, classes);
            is_dense = rows.size() * 10 > rows.count() * loop.sources.size() * 9;
            Made tried;
            tried.patterns = filled(rows.merged(), round);
            tried.last = loop.last_of(tried.patterns, classes);
            tried.needed = Loop::needed(tried.patterns.size(), tried.last);
            bool detects_all = std::find(tried.last.begin(), tried.last.end(), none) == tried.last.end();
            bool is_enough = detects_all && tried.patterns.size() <= first.patterns.size();
            if (is_enough && tried.needed < best.needed) best = tried;
            from = is_enough && tried.needed == best.needed ? tried : best;
        }
        return best.patterns;
    }

    /// The last patterns, which detect seven tenths of what is detected, stay as they are, but where there are few of all.
    void make_fewer(int rounds) {
        std::vector<Cube>& patterns = loop.patterns;
        std::vector<size_t> classes = loop.detected(), before;
        Made front;
        std::vector<Id> last = loop.last_of(patterns, classes);
        std::vector<size_t> counts = Loop::left_counts(patterns.size(), last);
        size_t start = patterns.size(), left = classes.size();
        if (start > 64)
            while (start > 0 && left > classes.size() / 10 * 3) left -= counts[--start];
        for (size_t k = 0; k < classes.size(); k++) {
            if (last[k] == none || last[k] >= start) continue;
            before.push_back(classes[k]);
            front.last.push_back(last[k]);
        }
        auto tail = patterns.begin() + static_cast<std::ptrdiff_t>(start);
        front.patterns.assign(patterns.begin(), tail);
        front.needed = Loop::needed(start, front.last);
        std::vector<Cube> fewer = improved(front, before, rounds);
        fewer.insert(fewer.end(), tail, patterns.end());
        patterns.swap(fewer);
    }
};
