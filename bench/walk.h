// Walks the entries of units. Stores one bit for each entry, and the offset and the depths of each
// scope. A pass over the scopes alone finds where they end (entries.c).
#include "ranges.h"

enum { DEPTH_LIMIT = 256, NO_DEPTH = UINT16_MAX };

// A scope, and the least depth of the entries and null entries since the scope before it.
struct place {
    uint32_t offset;
    uint16_t depth, least;
};

static struct place *places;
static size_t place_count, place_capacity;
static uint64_t entry_count;

// The entries of the current table by the first byte of their code. The length is 0 if the walk has
// to read the entry.
static struct short_entry short_entries[256];

// Fills the short entries with those of a table.
static void use_table(const struct table *table) {
    static const struct table *used;
    if (table == used) return;
    used = table;
    memset(short_entries, 0, sizeof short_entries);
    short_entries[0] = (struct short_entry){.length = 1, .change = -1};
    for (uint32_t code = 1; code < 0x80 && code <= table->dense; code++)
        short_entries[code] = declarations[table->first + code - 1].entry;
}

// Checks that an entry is valid at this depth, and stores the root.
static void check_depth(struct bytes *b, struct unit *unit, uint32_t depth, uint32_t offset) {
    if (!depth && unit->has_root) fail(b, TWO_ROOTS);
    else if (depth > DEPTH_LIMIT) fail(b, TOO_DEEP);
    else if (!depth) {
        unit->has_root = 1;
        unit->root = offset;
    }
}

// Reads any entry or null entry of a unit at a depth. Returns its end.
static struct bytes read_entry(struct unit *unit, const uint8_t *at, uint32_t depth,
    struct short_entry *entry) {
    const uint8_t *info = sections[INFO].start;
    struct bytes b = {at, info + unit->end, GOOD};
    uint64_t code = uleb(&b);
    *entry = (struct short_entry){.change = depth ? -1 : 0};
    if (!code || b.bad) return b;
    const struct declaration *declaration = find(&tables[unit->table], code);
    if (!declaration) {
        fail(&b, ABBREV_CODE);
        return b;
    }
    check_depth(&b, unit, depth, at - info);
    if (b.bad) return b;
    go(&b, steps + declaration->passing, steps + declaration->reading, unit->width, NULL);
    *entry = declaration->entry;
    return b;
}

// Walks the entries of a unit.
static int walk(struct unit *unit) {
    const uint8_t *info = sections[INFO].start, *at = info + unit->first, *end = info + unit->end;
    uint32_t depth = 0, least = NO_DEPTH;
    use_table(&tables[unit->table]);
    while (at < end) {
        uint32_t offset = at - info;
        struct short_entry entry = short_entries[*at];
        int is_short = (depth - 1 < DEPTH_LIMIT) & (entry.length != 0) & (entry.length <= end - at);
        if (__builtin_expect(is_short, 1)) at += entry.length;
        else {
            struct bytes b = read_entry(unit, at, depth, &entry);
            if (b.bad) return refuse(INFO, b.bad, offset);
            at = b.at;
        }
        least = depth < least ? depth : least;
        starts[offset / 64] |= (uint64_t)(entry.bits & IS_ENTRY) << offset % 64;
        entry_count += entry.bits & IS_ENTRY;
        places = grown(places, place_count, &place_capacity, sizeof *places);
        places[place_count] = (struct place){offset, depth, least};
        place_count += entry.bits / IS_SCOPE;
        least = entry.bits & IS_SCOPE ? NO_DEPTH : least;
        depth += entry.change;
    }
    unit->past_scope = place_count;
    return depth ? refuse(INFO, TREE_OPEN, unit->start) : 0;
}
