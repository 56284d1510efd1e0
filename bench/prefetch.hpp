// A prefetch of the data for several answers at once.
#ifndef PREFETCH_HPP
#define PREFETCH_HPP
#include "lookup.hpp"
#include "reply_text.hpp"

static bool covers(uint32_t scope, uint64_t at) {
    uint32_t range = scope ? scopes[scope - 1].ranges_end : 0;
    for (; range < scopes[scope].ranges_end; range++)
        if (ranges[range].from <= at && at < ranges[range].to) return true;
    return false;
}

// Makes the processor fetch the data for the answers to the next lines at once, so that it waits
// for memory once, not for each answer in turn.
class Prefetch {
    static const unsigned most = 8;
    const Buckets &buckets;
    bool has_functions;
    unsigned lines = 0;

    static void prefetch_scopes(uint32_t scope) {
        for (; scope != nothing; scope = parents[scope]) {
            const struct scope &found = scopes[scope];
            const char *name = text_at(found.name, found.name_section);
            for (int line = 0; line < 4; line++) __builtin_prefetch(name + 64 * line);
            __builtin_prefetch(&ranges[scope ? scopes[scope - 1].ranges_end : 0]);
        }
    }

    void prefetch(const uint64_t *addresses, unsigned count) const {
        const Segment *found[most];
        for (unsigned i = 0; i < count; i++) buckets.prefetch(addresses[i]);
        for (unsigned i = 0; i < count; i++) found[i] = buckets.find(addresses[i]);
        for (unsigned i = 0; i < count; i++) {
            if (!found[i]) continue;
            if (found[i]->row != nothing) __builtin_prefetch(&rows.items[found[i]->row]);
            if (found[i]->scope != nothing) __builtin_prefetch(&scopes[found[i]->scope]);
        }
        for (unsigned i = 0; i < count && has_functions; i++)
            if (found[i]) prefetch_scopes(found[i]->scope);
    }

public:
    Prefetch(const Buckets &buckets, bool has_functions)
        : buckets(buckets), has_functions(has_functions) {}

    // Is called before a line is served, with the text from the line on.
    void before_line(const char *text, const char *end) {
        if (lines) {
            lines--;
            return;
        }
        uint64_t addresses[most];
        unsigned count = 0;
        for (const char *last; count < most; text = last + 1) {
            last = (const char *)memchr(text, '\n', end - text);
            if (!last) break;
            addresses[count++] = strtoull(text, NULL, 16);
        }
        if (count < 2) return;
        lines = count - 1;
        prefetch(addresses, count);
    }
};
#endif
