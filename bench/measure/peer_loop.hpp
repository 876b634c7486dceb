// What the plain test generators share, whatever they search by: the loop of `run`. Drawn patterns come first; the classes that are still open are
// searched; a batch of cubes is merged, filled and simulated, 64 patterns in a word, and what they detect is dropped; at last the patterns are
// simulated from the last to the first, and those that are no class's last detector go. No files are written, and no evidence is kept.
#pragma once
#include <cstdio>
#include "peer_regions.hpp"

constexpr size_t full = 64;  // patterns in a word

enum class Bit : std::uint8_t { Zero, One, Free };

/// A bit or none for each input, then for each cell.
using Cube = std::vector<Bit>;

enum class Verdict { Open, Detected, Redundant, Aborted };

/// A netlist's classes with what is known of each, and the patterns made so far.
struct Loop {
    Netlist netlist;
    Events events;
    Points points;
    ByRegions together;
    bool by_regions;
    Pcg32 random{1, 0};
    std::vector<Fault> faults;   // the first member of each class
    std::vector<size_t> members; // of each class
    std::vector<Verdict> verdicts;
    std::vector<Cube> cubes, patterns;
    std::vector<Id> sources;
    size_t batch = full;  // so many cubes are waited for

    Loop(const char* path, bool regions)
        : netlist(read_netlist(path)), events(netlist), points(netlist), together(netlist, Way::One), by_regions(regions) {
        Universe universe(netlist);
        std::vector<size_t> sizes(universe.faults.size(), 0);
        std::vector<Id> roots = classes(netlist, universe);
        for (Id root : roots) sizes[root]++;
        for (Id k = 0; k < roots.size(); k++) {
            if (roots[k] != k) continue;
            faults.push_back(universe.faults[k]);
            members.push_back(sizes[k]);
        }
        verdicts.assign(faults.size(), Verdict::Open);
        for (Id x = 0; x < netlist.inputs; x++) sources.push_back(x);
        sources.insert(sources.end(), netlist.cells.begin(), netlist.cells.end());
        batch = batch_size(verdicts.size());
    }

    /// How many tests make a batch where so many classes are left: a batch looks at each of these, whatever it detects. More cubes than fill a word
    /// take 64 MB at most.
    size_t batch_size(size_t left) const {
        constexpr size_t share = 256, most_bytes = size_t{1} << 26;
        return std::max(full, std::min(left / share, most_bytes / std::max<size_t>(sources.size(), 1)));
    }

    static bool contradicts(const Cube& one, const Cube& other) {
        for (size_t k = 0; k < one.size(); k++)
            if (one[k] != Bit::Free && other[k] != Bit::Free && one[k] != other[k]) return true;
        return false;
    }

    /// Each cube joins the first that it doesn't contradict.
    std::vector<Cube> merged() const {
        std::vector<Cube> results;
        for (const Cube& cube : cubes) {
            auto into = std::find_if(results.begin(), results.end(), [&](const Cube& other) { return !contradicts(cube, other); });
            if (into == results.end()) {
                results.push_back(cube);
                continue;
            }
            for (size_t k = 0; k < cube.size(); k++)
                if (cube[k] != Bit::Free) (*into)[k] = cube[k];
        }
        return results;
    }

    void settle(const Cube* first, size_t count) {
        for (size_t k = 0; k < sources.size(); k++) {
            Word word = 0;
            for (size_t j = 0; j < count; j++) word |= Word{first[j][k] == Bit::One} << j;
            if (count < full && count > 0) word |= first[count - 1][k] == Bit::One ? ~Word{0} << count : 0;
            events.values[sources[k]] = word;
        }
        events.settle();
    }

    /// What the patterns that have settled detect of the classes at these places, in order.
    std::vector<Hit> hits_of(const std::vector<size_t>& left) {
        std::vector<Fault> asked;
        for (size_t k : left) asked.push_back(faults[k]);
        std::vector<Hit> hits;
        if (by_regions) together.hits(events, points, asked, hits);
        else
            for (size_t k = 0; k < asked.size(); k++) detect(events, points, asked[k], k, hits);
        return hits;
    }

    std::vector<size_t> undetected() const {
        std::vector<size_t> places;
        for (size_t k = 0; k < verdicts.size(); k++)
            if (verdicts[k] == Verdict::Open || verdicts[k] == Verdict::Aborted) places.push_back(k);
        return places;
    }

    std::vector<size_t> detected() const {
        std::vector<size_t> places;
        for (size_t k = 0; k < verdicts.size(); k++)
            if (verdicts[k] == Verdict::Detected) places.push_back(k);
        return places;
    }

    /// A search has found a test; a batch of them is made patterns.
    void take(Cube cube) {
        cubes.push_back(std::move(cube));
        if (cubes.size() >= batch) publish();
    }

    void publish() {
        if (cubes.empty()) return;
        std::vector<Cube> filled = merged();
        for (Cube& cube : filled)
            for (Bit& bit : cube)
                if (bit == Bit::Free) bit = random.next() & 1 ? Bit::One : Bit::Zero;
        std::vector<size_t> left = undetected();
        for (size_t begin = 0; begin < filled.size(); begin += full) {
            settle(&filled[begin], std::min(full, filled.size() - begin));
            for (const Hit& hit : hits_of(left)) verdicts[left[hit.fault]] = Verdict::Detected;
            std::erase_if(left, [&](size_t k) { return verdicts[k] == Verdict::Detected; });
        }
        patterns.insert(patterns.end(), filled.begin(), filled.end());
        cubes.clear();
        batch = batch_size(left.size());
    }

    /// Drawn patterns before any class is searched: of each batch those that are the last to detect some classes, up to a batch that detects few.
    void draw() {
        constexpr size_t worth = 4, least = 64;
        Pcg32 drawn{1, Word{1} << 33};
        std::vector<size_t> left(verdicts.size());
        std::iota(left.begin(), left.end(), 0);
        for (bool goes_on = !left.empty(); goes_on;) {
            std::vector<Cube> some(full, Cube(sources.size()));
            for (Cube& cube : some)
                for (Bit& bit : cube) bit = drawn.next() & 1 ? Bit::One : Bit::Zero;
            settle(some.data(), some.size());
            std::vector<Hit> hits = hits_of(left);
            std::vector<size_t> told(full, 0), rest;
            for (const Hit& hit : hits) told[hit.pattern]++;
            for (size_t k = 0, next = 0; k < left.size(); k++) {
                bool is_hit = next < hits.size() && hits[next].fault == k;
                if (is_hit && told[hits[next].pattern] >= worth) verdicts[left[k]] = Verdict::Detected;
                else rest.push_back(left[k]);
                next += is_hit;
            }
            for (size_t k = 0; k < full; k++)
                if (told[k] >= worth) patterns.push_back(some[k]);
            goes_on = !rest.empty() && left.size() - rest.size() >= (left.size() + least - 1) / least;
            left.swap(rest);
        }
        batch = batch_size(left.size());
    }

    /// Where each of these classes is last detected, or none.
    std::vector<Id> last_of(const std::vector<Cube>& some, const std::vector<size_t>& classes) {
        std::vector<Id> last(classes.size(), none);
        std::vector<size_t> left(classes.size());
        std::iota(left.begin(), left.end(), size_t{0});
        for (size_t end = some.size(); end > 0;) {
            size_t begin = end > full ? end - full : 0;
            settle(&some[begin], end - begin);
            std::vector<size_t> asked, later;
            for (size_t k : left) asked.push_back(classes[k]);
            std::vector<Hit> hits = hits_of(asked);
            for (size_t k = 0, next = 0; k < left.size(); k++) {
                if (next == hits.size() || hits[next].fault != k) later.push_back(left[k]);
                else last[left[k]] = static_cast<Id>(std::min(begin + static_cast<size_t>(hits[next++].pattern), end - 1));
            }
            left.swap(later);
            end = begin;
        }
        return last;
    }

    /// Of how many classes each pattern is the last detector.
    static std::vector<size_t> left_counts(size_t patterns, const std::vector<Id>& last) {
        std::vector<size_t> counts(patterns, 0);
        for (Id place : last)
            if (place != none) counts[place]++;
        return counts;
    }

    /// How many patterns are some class's last detector.
    static size_t needed(size_t patterns, const std::vector<Id>& last) {
        std::vector<size_t> counts = left_counts(patterns, last);
        return static_cast<size_t>(std::count_if(counts.begin(), counts.end(), [](size_t count) { return count > 0; }));
    }

    size_t count(Verdict verdict) const { return std::count(verdicts.begin(), verdicts.end(), verdict); }

    size_t faults_of(Verdict verdict) const {
        size_t count = 0;
        for (size_t k = 0; k < verdicts.size(); k++) count += verdicts[k] == verdict ? members[k] : 0;
        return count;
    }

    /// The last pass, and what has come of the classes and of the faults.
    void print() {
        size_t kept = needed(patterns.size(), last_of(patterns, detected()));
        std::printf("classes %zu detected %zu redundant %zu aborted %zu open %zu patterns %zu of %zu\n", verdicts.size(), count(Verdict::Detected),
                    count(Verdict::Redundant), count(Verdict::Aborted), count(Verdict::Open), kept, patterns.size());
        std::printf("faults: detected %zu redundant %zu aborted %zu\n", faults_of(Verdict::Detected), faults_of(Verdict::Redundant), faults_of(Verdict::Aborted));
    }
};
