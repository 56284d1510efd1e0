// Loads a whole object with plain C and C++: rows, scopes, cross-checks, and an index of all
// addresses. The index is built by one sweep over the sorted endpoints of rows and ranges, with
// 64-ary bitmap trees for the active ones. Prints the time of each part.
extern "C" {
#include "object.h"
}
#include "../sums.hpp"
#include "timing.h"
#include <algorithm>
#include <cstring>
#include <vector>

// A set of numbers below a bound, which finds the first member at or after a number.
class Bits {
    std::vector<std::vector<uint64_t>> levels;

public:
    static constexpr uint64_t none = ~0ull;

    explicit Bits(uint64_t bound) {
        do {
            bound = (bound + 63) / 64;
            levels.emplace_back(std::max<uint64_t>(bound, 1));
        } while (bound > 1);
    }

    void insert(uint64_t number) {
        for (auto &level : levels) {
            uint64_t &word = level[number / 64], before = word;
            word |= 1ull << number % 64;
            if (before) return;
            number /= 64;
        }
    }

    void remove(uint64_t number) {
        for (auto &level : levels) {
            uint64_t &word = level[number / 64];
            word &= ~(1ull << number % 64);
            if (word) return;
            number /= 64;
        }
    }

    uint64_t first(uint64_t number) const {
        for (size_t height = 0; height < levels.size(); height++) {
            if (number / 64 >= levels[height].size()) return none;
            if (uint64_t word = levels[height][number / 64] >> number % 64) {
                number += __builtin_ctzll(word);
                while (height--) number = number * 64 + __builtin_ctzll(levels[height][number]);
                return number;
            }
            number = number / 64 + 1;
        }
        return none;
    }
};

struct Segment {
    uint64_t from, to;
    uint32_t row, scope;
};

static const uint32_t nothing = ~0u;
static uint64_t calls;

struct Sweep {
    Bits active_rows{rows.count}, subprograms{range_count}, inlined{range_count};
    std::vector<uint32_t> owners; // the index of the scope of each range
    std::vector<Segment> segments;

    Sweep() {
        owners.reserve(range_count);
        for (size_t i = 0; i < scope_count; i++) owners.resize(scopes[i].ranges_end, i);
    }

    void change(uint32_t key, bool opens) {
        calls++;
        if (key < rows.count) return opens ? active_rows.insert(key) : active_rows.remove(key);
        Bits &set = scopes[owners[key - rows.count]].inlined ? inlined : subprograms;
        opens ? set.insert(key - rows.count) : set.remove(key - rows.count);
    }

    // Returns the innermost scope of the chain: starts at the first subprogram and repeatedly goes
    // to the first inlined subroutine below.
    uint32_t innermost() const {
        calls++;
        uint64_t found = subprograms.first(0);
        if (found == Bits::none) return nothing;
        for (uint32_t scope = owners[found];;) {
            calls++;
            found = inlined.first(scopes[scope].ranges_end);
            if (found == Bits::none || owners[found] >= scopes[scope].end) return scope;
            scope = owners[found];
        }
    }

    template <class Ends> void run(const Ends &ends) {
        uint64_t last = 0;
        uint32_t row = nothing, scope = nothing;
        for (size_t i = 0, j = 0; j < ends.closes.size();) {
            uint64_t at = ends.address(ends.closes[j]);
            if (i < ends.opens.size()) at = std::min(at, ends.address(ends.opens[i]));
            if (row != nothing || scope != nothing) segments.push_back({last, at, row, scope});
            while (i < ends.opens.size() && ends.address(ends.opens[i]) == at)
                change(ends.key(ends.opens[i++]), true);
            while (j < ends.closes.size() && ends.address(ends.closes[j]) == at)
                change(ends.key(ends.closes[j++]), false);
            calls++;
            uint64_t first = active_rows.first(0);
            row = first == Bits::none ? nothing : first;
            scope = innermost();
            last = at;
        }
    }
};

// Calls `take` with the start, the end and the key of each non-empty row and range. The key is the
// index of a row, or the number of rows + the index of a range.
template <class Take> static void each_cover(Take take) {
    for (uint32_t i = 0; i + 1 < rows.count; i++) {
        const row &row = rows.items[i], &next = rows.items[i + 1];
        if (!row.end && row.address < next.address) take(row.address, next.address, i);
    }
    for (uint32_t i = 0; i < range_count; i++)
        take(ranges[i].from, ranges[i].to, uint32_t(rows.count + i));
}

static int bits_of(uint64_t number) { return number ? 64 - __builtin_clzll(number) : 0; }

// The lowest and the highest endpoint, the number of intervals, and the widths in bits of keys and
// of addresses relative to the lowest endpoint.
struct Extent {
    uint64_t low = ~0ull, high = 0;
    size_t count = 0;
    int key_bits = bits_of(rows.count + range_count), address_bits = 0;

    Extent() {
        each_cover([this](uint64_t from, uint64_t to, uint32_t) {
            low = std::min(low, from);
            high = std::max(high, to);
            count++;
        });
        if (count) address_bits = bits_of(high - low);
    }
};

// The endpoints as numbers: the address relative to the lowest one, and the key in the low bits.
template <class Number> struct Ends {
    Extent extent;
    std::vector<Number> opens, closes, other;

    explicit Ends(const Extent &known) : extent(known) {
        opens.reserve(extent.count);
        closes.reserve(extent.count);
        each_cover([this](uint64_t from, uint64_t to, uint32_t key) {
            opens.push_back(Number(from - extent.low) << extent.key_bits | key);
            closes.push_back(Number(to - extent.low) << extent.key_bits | key);
        });
        other.resize(extent.count);
        sort(opens);
        sort(closes);
        other = {};
    }

    uint64_t address(Number end) const { return extent.low + uint64_t(end >> extent.key_bits); }
    uint32_t key(Number end) const { return end & ((1ull << extent.key_bits) - 1); }

private:
    void sort(std::vector<Number> &ends) {
        for (int bit = 0; bit < extent.address_bits; bit += 11)
            sort_by(ends, extent.key_bits + bit);
    }

    // Sorts stably by eleven bits.
    void sort_by(std::vector<Number> &ends, int shift) {
        size_t places[2049] = {};
        for (Number end : ends) places[size_t(end >> shift) % 2048 + 1]++;
        for (int i = 0; i < 2048; i++) places[i + 1] += places[i];
        for (Number end : ends) other[places[size_t(end >> shift) % 2048]++] = end;
        ends.swap(other);
    }
};

static const std::vector<Segment> &make_index() {
    static Sweep sweep;
    Extent extent;
    if (extent.key_bits + extent.address_bits <= 64) sweep.run(Ends<uint64_t>(extent));
    else sweep.run(Ends<unsigned __int128>(extent));
    return sweep.segments;
}

int main(int argc, char **argv) {
    struct section sections[SECTION_COUNT];
    uint64_t size;
    if (argc < 2) return 2;
    const uint8_t *bytes = file_bytes(argv[1], &size);
    timespec start = now();
    if (find_sections(bytes, size, sections) || read_lines(sections)) return 1;
    timespec lines = now();
    if (read_scopes(sections) || join()) return 1;
    timespec entries = now();
    const std::vector<Segment> &segments = make_index();
    timespec end = now();
    if (argc > 2 && !strcmp(argv[2], "sums")) {
        print_sums(sections, segments);
        return 0;
    }
    printf("lines %ld us, scopes %ld us, index %ld us, %zu segments, %lu calls, %ld us\n",
        microseconds(start, lines), microseconds(lines, entries), microseconds(entries, end),
        segments.size(), (unsigned long)calls, microseconds(start, end));
    return 0;
}
