// The address ranges of scopes (DWARF 5, 2.17 and 7.25).
#include "names.h"

enum { RANGE_LIMIT = 4194304 };

enum {
    DW_RLE_end_of_list, DW_RLE_base_addressx, DW_RLE_startx_endx, DW_RLE_startx_length,
    DW_RLE_offset_pair, DW_RLE_base_address, DW_RLE_start_end, DW_RLE_start_length
};

struct range *ranges;
size_t range_count;
static size_t range_room, range_items;

// The tombstone: a start address of dead code, which covers nothing.
static const uint64_t dropped = ~0ull;

// Appends a range unless it is empty.
static enum cause cover(unsigned __int128 from, unsigned __int128 to) {
    if (from >> 64 || to >> 64) return OVERFLOWS;
    if (to < from) return RANGE_BACKWARDS;
    if (to == from) return GOOD;
    ranges = grown(ranges, range_count, &range_room, sizeof *ranges);
    ranges[range_count++] = (struct range){(uint64_t)from, (uint64_t)to};
    return GOOD;
}

static enum cause cover_live(uint64_t from, unsigned __int128 to) {
    return from == dropped ? GOOD : cover(from, to);
}

static uint64_t indexed(struct bytes *b, const struct unit *unit) {
    uint64_t index = uleb(b), address = 0;
    if (b->bad) return 0;
    enum cause cause = item(ADDR, &unit->addresses, 8, index, &address);
    if (cause) fail(b, cause);
    return address;
}

// The current base of a list.
struct base {
    uint64_t address;
    uint8_t is_there;
};

static void read_pair(struct bytes *b, const struct base *base) {
    uint64_t start = uleb(b), end = uleb(b), from = base->address;
    if (!base->is_there) fail(b, BASE);
    if (b->bad || from == dropped) return;
    enum cause cause = cover((unsigned __int128)from + start, (unsigned __int128)from + end);
    if (cause) fail(b, cause);
}

// Reads an item with a start address.
static void read_start(struct bytes *b, const struct unit *unit, uint64_t kind) {
    int is_indexed = kind == DW_RLE_startx_endx || kind == DW_RLE_startx_length;
    uint64_t start = is_indexed ? indexed(b, unit) : fixed(b, 8);
    unsigned __int128 end;
    if (kind == DW_RLE_startx_endx) end = indexed(b, unit);
    else if (kind == DW_RLE_start_end) end = fixed(b, 8);
    else end = (unsigned __int128)start + uleb(b);
    if (b->bad) return;
    enum cause cause = cover_live(start, end);
    if (cause) fail(b, cause);
}

// Reads the range list at an offset.
static enum cause read_list(const struct unit *unit, uint64_t place) {
    struct section section = sections[RNGLISTS];
    if (place > section.size) return SHORT;
    struct bytes b = {section.start + place, section.start + section.size, GOOD};
    struct base base = {unit->low_pc, unit->has_low_pc};
    while (!b.bad) {
        uint64_t kind = fixed(&b, 1);
        if (b.bad || kind == DW_RLE_end_of_list) break;
        if (kind > DW_RLE_start_length) return RANGE_KIND;
        if (range_items++ >= RANGE_LIMIT) return TOO_MANY;
        if (kind == DW_RLE_base_addressx) base = (struct base){indexed(&b, unit), 1};
        else if (kind == DW_RLE_base_address) base = (struct base){fixed(&b, 8), 1};
        else if (kind == DW_RLE_offset_pair) read_pair(&b, &base);
        else read_start(&b, unit, kind);
    }
    return b.bad;
}

// Reads the range from low_pc to high_pc.
static enum cause read_bounds(const struct unit *unit, const struct values *values) {
    uint64_t low = values->numbers[AT_LOW_PC], high = values->numbers[AT_HIGH_PC];
    if (range_items++ >= RANGE_LIMIT) return TOO_MANY;
    enum cause cause = address_of(unit, values->forms[AT_LOW_PC], low, &low);
    if (cause) return cause;
    if (!is_address(values->forms[AT_HIGH_PC]))
        return cover_live(low, (unsigned __int128)low + high);
    cause = address_of(unit, values->forms[AT_HIGH_PC], high, &high);
    return cause ? cause : cover_live(low, high);
}

// Reads the ranges of a scope with these attributes.
static enum cause read_ranges(const struct unit *unit, const struct values *values) {
    int has_low = has(values, AT_LOW_PC), has_high = has(values, AT_HIGH_PC);
    if (has(values, AT_RANGES)) {
        if (has_low || has_high) return PC_AND_RANGES;
        uint64_t place = values->numbers[AT_RANGES];
        if (values->forms[AT_RANGES] == DW_FORM_sec_offset) return read_list(unit, place);
        const struct items *lists = &unit->range_lists;
        enum cause cause = item(RNGLISTS, lists, unit->width, place, &place);
        if (cause) return cause;
        return place > sections[RNGLISTS].size ? SHORT : read_list(unit, lists->base + place);
    }
    if (!has_high) return GOOD;
    return has_low ? read_bounds(unit, values) : PC_AND_RANGES;
}
