// The tables with which an address is looked up after the segments are built.
#ifndef LOOKUP_HPP
#define LOOKUP_HPP
#include "index.hpp"

// For each bucket of addresses, the number of segments that start in lower buckets.
class Buckets {
    std::vector<uint32_t> counts;
    uint64_t low = 0;
    int shift = 0;

public:
    Buckets() {
        if (segments.empty()) return;
        low = segments.front().from;
        while ((segments.back().from - low) >> shift >= segments.size()) shift++;
        counts.reserve(segments.size() + 1);
        for (uint32_t i = 0; i < segments.size(); i++)
            while (counts.size() <= (segments[i].from - low) >> shift) counts.push_back(i);
        counts.push_back(segments.size());
    }

    // Makes the processor fetch what a search starts with.
    void prefetch(uint64_t at) const {
        if (counts.empty() || at < low) return;
        __builtin_prefetch(&counts[std::min<uint64_t>((at - low) >> shift, counts.size() - 2)]);
    }

    // Returns the segment that contains an address, or NULL.
    const Segment *find(uint64_t at) const {
        if (segments.empty() || at < low) return NULL;
        uint64_t bucket = std::min<uint64_t>((at - low) >> shift, counts.size() - 2);
        uint32_t first = counts[bucket] ? counts[bucket] - 1 : 0, last = counts[bucket + 1];
        while (first < last) {
            uint32_t middle = first + (last - first) / 2;
            if (segments[middle].from <= at) first = middle + 1;
            else last = middle;
        }
        return first && at < segments[first - 1].to ? &segments[first - 1] : NULL;
    }
};
#endif
