// The index of all addresses of an object: the segments between neighboring endpoints of rows and
// ranges. One sweep over the addresses merges the sequences of rows and the sorted endpoints.
#ifndef INDEX_HPP
#define INDEX_HPP
#include "endpoints.hpp"
#include "sequences.hpp"

struct Segment {
    uint64_t from, to;
    uint32_t row, scope;
};

// The active scopes: those with an open range. Most ranges are nested, as the scopes are. As long
// as they are, the scopes are in a chain. Otherwise, they are in sets: 64-ary bitmap trees.
class ActiveScopes {
    Bits subprograms{scope_count}, inlined{scope_count};
    std::vector<uint32_t> open_ranges; // of each scope in the sets
    std::vector<uint32_t> chain;       // a subprogram, and scopes each inlined in the one before
    size_t in_sets = 0;                // the number of open ranges in the sets

    Bits &set_of(uint32_t scope) { return scopes[scope].inlined ? inlined : subprograms; }

    bool continues_chain(uint32_t scope) const {
        if (in_sets) return false;
        if (chain.empty()) return !scopes[scope].inlined;
        return scopes[scope].inlined && scope > chain.back() && scope < scopes[chain.back()].end;
    }

    void put(uint32_t scope) {
        in_sets++;
        if (!open_ranges[scope]++) set_of(scope).insert(scope);
    }

    void put_chain() {
        for (uint32_t scope : chain) put(scope);
        chain.clear();
    }

public:
    ActiveScopes() : open_ranges(scope_count) {}

    void open(uint32_t scope) {
        calls++;
        if (continues_chain(scope)) return chain.push_back(scope);
        put_chain();
        put(scope);
    }

    void close(uint32_t scope) {
        calls++;
        if (!chain.empty() && chain.back() == scope) return chain.pop_back();
        put_chain();
        in_sets--;
        if (!--open_ranges[scope]) set_of(scope).remove(scope);
    }

    // Returns the innermost scope: the last one of the chain. In the sets, it starts at the first
    // subprogram and repeatedly goes to the first inlined subroutine below.
    uint32_t innermost() const {
        if (!in_sets) return chain.empty() ? nothing : chain.back();
        calls++;
        uint64_t found = subprograms.first(0);
        if (found == Bits::none) return nothing;
        for (uint32_t scope = found;; scope = found) {
            calls++;
            found = inlined.first(scope + 1);
            if (found >= scopes[scope].end) return scope;
        }
    }
};

static std::vector<Segment> segments;

// Appends the segments of all addresses. The row changes only where a row starts or ends, and the
// innermost scope only where a range of a scope below its own end does. Ranges are closed before
// others are opened.
template <class Number> static void sweep(const Endpoints<Number> &endpoints) {
    Sequences running;
    ActiveScopes active;
    auto start = endpoints.starts.begin(), last_start = endpoints.starts.end();
    auto end = endpoints.ends.begin(), last_end = endpoints.ends.end();
    uint64_t before = 0;
    uint32_t row = nothing, scope = nothing;
    while (end != last_end || !running.are_done()) {
        uint64_t at = running.next();
        if (start != last_start) at = std::min(at, endpoints.address(*start));
        if (end != last_end) at = std::min(at, endpoints.address(*end));
        if (row != nothing || scope != nothing) segments.push_back({before, at, row, scope});
        if (running.move_to(at)) row = running.row();
        uint32_t limit = scope == nothing ? scope_count : scopes[scope].end;
        bool has_changed = false;
        for (; end != last_end && endpoints.address(*end) == at; end++) {
            active.close(endpoints.scope(*end));
            has_changed |= endpoints.scope(*end) < limit;
        }
        for (; start != last_start && endpoints.address(*start) == at; start++) {
            active.open(endpoints.scope(*start));
            has_changed |= endpoints.scope(*start) < limit;
        }
        if (has_changed) scope = active.innermost();
        before = at;
    }
}

static void make_index() {
    Extent extent;
    segments.reserve(rows.count + 2 * range_count); // at most one segment for each endpoint
    if (extent.fits(64)) sweep(Endpoints<uint64_t>(extent));
    else sweep(Endpoints<unsigned __int128>(extent));
}
#endif
