// The attributes of roots: the tables of a unit (DWARF 5, 7.26 to 7.28) and its low_pc.
#include "units.h"

// Reads the header of a table, which ends at the base of the table.
static enum cause read_items(enum section_name name, uint8_t width, struct items *items) {
    struct section section = sections[name];
    uint64_t head = (width == 8 ? 12 : 4) + (name == RNGLISTS ? 8 : 4);
    if (items->base < head || items->base > section.size) return BASE;
    struct bytes b = {section.start + items->base - head, section.start + section.size, GOOD};
    uint8_t format;
    uint64_t length = initial_length(&b, &format);
    if (b.bad) return b.bad;
    if (format != width) return LENGTH;
    const uint8_t *base = section.start + items->base;
    if (length > (uint64_t)(b.end - b.at) || b.at + length < base) return SHORT;
    uint64_t room = b.at + length - base;
    expect(&b, 2, 5, VERSION);
    if (name != STR_OFFSETS) {
        expect(&b, 1, 8, ADDRESS_SIZE);
        expect(&b, 1, 0, SEGMENT_SIZE);
    }
    if (b.bad) return b.bad;
    uint8_t item = name == ADDR ? 8 : width;
    items->count = name == RNGLISTS ? fixed(&b, 4) : room / item;
    items->is_there = 1;
    return items->count > room / item ? SHORT : GOOD;
}

// Reads an item of a table with items of this width.
static enum cause item(enum section_name name, const struct items *items, uint8_t width,
    uint64_t index, uint64_t *found) {
    if (!items->is_there) return BASE;
    if (index >= items->count) return INDEX;
    const uint8_t *place = sections[name].start + items->base + index * width;
    *found = 0;
    if (width == 8) memcpy(found, place, 8);
    else memcpy(found, place, 4);
    return GOOD;
}

static inline enum cause address_of(const struct unit *unit, uint8_t form, uint64_t number,
    uint64_t *found) {
    *found = number;
    return form == DW_FORM_addr ? GOOD : item(ADDR, &unit->addresses, 8, number, found);
}

static enum cause read_base(const struct values *values, enum slot slot, enum section_name name,
    const struct unit *unit, struct items *items) {
    if (!has(values, slot)) return GOOD;
    items->base = values->numbers[slot];
    return read_items(name, unit->width, items);
}

static enum cause read_bases(struct unit *unit, const struct values *v) {
    enum cause cause = read_base(v, AT_STR_OFFSETS_BASE, STR_OFFSETS, unit, &unit->string_offsets);
    if (cause) return cause;
    cause = read_base(v, AT_ADDR_BASE, ADDR, unit, &unit->addresses);
    if (cause) return cause;
    cause = read_base(v, AT_RNGLISTS_BASE, RNGLISTS, unit, &unit->range_lists);
    if (cause || !has(v, AT_LOW_PC)) return cause;
    return address_of(unit, v->forms[AT_LOW_PC], v->numbers[AT_LOW_PC], &unit->low_pc);
}

static int read_roots(void) {
    for (size_t i = 0; i < unit_count; i++) {
        struct unit *unit = &units[i];
        if (!unit->has_root) continue;
        struct values values;
        read_again(unit, unit->root, &values);
        enum cause cause = read_bases(unit, &values);
        if (cause) return refuse(INFO, cause, unit->root);
        unit->has_low_pc = has(&values, AT_LOW_PC);
        unit->has_stmt_list = has(&values, AT_STMT_LIST);
        if (unit->has_stmt_list) unit->stmt_list = values.numbers[AT_STMT_LIST];
    }
    return 0;
}
