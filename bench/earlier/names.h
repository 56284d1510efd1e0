// The names of scopes, along origin chains (DWARF 5, 2.13, 2.15 and 3.3.8).
#include "roots.h"

enum { HOP_LIMIT = 16, KEPT_BITS = 12 };

struct names {
    struct text name, linkage_name;
};

// The cached names of a reference target.
struct kept_names {
    uint32_t target;
    struct names names;
};

static struct kept_names kept[1 << KEPT_BITS];
static uint64_t *starts; // bitmap of the entry offsets in .debug_info

static int is_entry(uint64_t offset) { return starts[offset / 64] >> offset % 64 & 1; }

// Finds the start of the string of an attribute.
static enum cause text_of(const struct unit *unit, const struct values *values, enum slot slot,
    struct text *text) {
    uint8_t form = values->forms[slot];
    uint64_t place = values->numbers[slot];
    enum cause cause = GOOD;
    text->section = form == DW_FORM_string ? INFO : form == DW_FORM_line_strp ? LINE_STR : STR;
    if (text->section == STR && form != DW_FORM_strp)
        cause = item(STR_OFFSETS, &unit->string_offsets, unit->width, place, &place);
    if (cause) return cause;
    if (place >= sections[text->section].texts_end) return STRING;
    text->place = place;
    return GOOD;
}

// Returns the attribute that refers to the next entry of the origin chain, or UNUSED.
static enum slot next_of(const struct values *values) {
    enum slot slot = has(values, AT_ORIGIN) ? AT_ORIGIN : AT_SPECIFICATION;
    return has(values, slot) && values->forms[slot] != DW_FORM_ref_sig8 ? slot : UNUSED;
}

// Replaces `unit` and `offset` by the unit and the offset of the target of a reference.
static enum cause find_place(const struct values *values, enum slot slot,
    const struct unit **unit, uint64_t *offset) {
    uint64_t number = values->numbers[slot];
    if (values->forms[slot] == DW_FORM_ref_addr) {
        *offset = number;
        *unit = unit_at(number);
        return *unit ? GOOD : REFERENCE;
    }
    *offset = (*unit)->start + number;
    return number < (*unit)->end - (*unit)->start ? GOOD : REFERENCE;
}

// The same, and checks that an entry starts at the target.
static enum cause find_target(const struct values *values, enum slot slot,
    const struct unit **unit, uint64_t *offset) {
    enum cause cause = find_place(values, slot, unit, offset);
    return cause || is_entry(*offset) ? cause : REFERENCE;
}

// The first values of each name in an origin chain, and their units.
struct first_names {
    struct values values;
    const struct unit *units[2];
};

static void take_names(struct first_names *first, const struct values *values,
    const struct unit *unit) {
    for (enum slot slot = AT_NAME; slot <= AT_LINKAGE_NAME; slot++) {
        if (has(&first->values, slot) || !has(values, slot)) continue;
        first->values.has |= 1u << slot;
        first->values.forms[slot] = values->forms[slot];
        first->values.numbers[slot] = values->numbers[slot];
        first->units[slot] = unit;
    }
}

// Follows the origin chain of an entry with these values.
static enum cause follow(const struct unit *unit, struct values *values,
    struct first_names *first) {
    for (int hops = 0;; hops++) {
        take_names(first, values, unit);
        enum slot slot = next_of(values);
        if (slot == UNUSED) return GOOD;
        if (hops == HOP_LIMIT) return ORIGIN_DEPTH;
        uint64_t offset;
        enum cause cause = find_target(values, slot, &unit, &offset);
        if (cause) return cause;
        read_again(unit, offset, values);
    }
}

static enum cause texts_of(const struct first_names *first, struct names *names) {
    enum cause cause = GOOD;
    *names = (struct names){0};
    if (has(&first->values, AT_NAME))
        cause = text_of(first->units[AT_NAME], &first->values, AT_NAME, &names->name);
    if (cause || !has(&first->values, AT_LINKAGE_NAME)) return cause;
    return text_of(first->units[AT_LINKAGE_NAME], &first->values, AT_LINKAGE_NAME,
        &names->linkage_name);
}

// Reads the names of an entry with these values. An entry without names has the names of its
// reference target. These are cached for the next reference to that target.
static enum cause read_names(const struct unit *unit, const struct values *own,
    struct names *names) {
    struct kept_names *known = NULL;
    uint64_t target = 0;
    enum slot slot = next_of(own);
    if (slot != UNUSED && !has(own, AT_NAME) && !has(own, AT_LINKAGE_NAME)) {
        const struct unit *other = unit;
        enum cause cause = find_place(own, slot, &other, &target);
        if (cause) return cause;
        known = &kept[(uint32_t)(target * 0x9e3779b1u) >> (32 - KEPT_BITS)];
        if (target && known->target == target) { // offset 0 is a header
            *names = known->names;
            return GOOD;
        }
    }
    struct values values = *own;
    struct first_names first = {0};
    enum cause cause = follow(unit, &values, &first);
    if (!cause) cause = texts_of(&first, names);
    if (known && !cause) *known = (struct kept_names){target, *names};
    return cause;
}
