// The units of an object, their abbreviation tables, and the attributes of entries.
#include "declarations.h"

// The table of items at a base of a unit.
struct items {
    uint64_t base, count;
    uint8_t is_there;
};

struct unit {
    uint32_t start, first, end, root, past_scope, table;
    uint8_t width, has_root, has_low_pc, has_stmt_list;
    struct items string_offsets, addresses, range_lists;
    uint64_t low_pc, stmt_list, abbreviations;
};

enum { DECLARATION_LIMIT = 4194304 };
enum { DW_UT_compile = 1, DW_UT_type, DW_UT_partial };

static const struct section *sections;
static struct unit *units;
static struct table *tables;
static size_t unit_count, unit_room, table_count, table_room;

// Reads a unit header and moves `b` to the end of the unit. Type units are skipped.
static enum cause read_header(struct bytes *b) {
    struct unit unit = {.start = b->at - sections[INFO].start};
    uint64_t length = initial_length(b, &unit.width);
    struct bytes header = {b->at, b->at, GOOD};
    skip(b, length);
    if (b->bad) return b->bad;
    header.end = b->at;
    expect(&header, 2, 5, VERSION);
    uint64_t type = fixed(&header, 1);
    if (!header.bad && type == DW_UT_type) return GOOD;
    if (type != DW_UT_compile && type != DW_UT_partial) fail(&header, UNIT_TYPE);
    expect(&header, 1, 8, ADDRESS_SIZE);
    unit.abbreviations = fixed(&header, unit.width);
    unit.first = header.at - sections[INFO].start;
    unit.end = header.end - sections[INFO].start;
    units = grown(units, unit_count, &unit_room, sizeof unit);
    units[unit_count++] = unit;
    return header.bad;
}

static int read_headers(void) {
    struct section info = sections[INFO];
    struct bytes b = {info.start, info.start + info.size, GOOD};
    while (b.at < b.end) {
        uint64_t start = b.at - info.start;
        enum cause cause = read_header(&b);
        if (cause) return refuse(INFO, cause, start);
    }
    return 0;
}

// Returns the slot of a unit's table in a hash table with `room` slots. A slot is 1 + the index of
// the table, or 0 if it is empty.
static uint32_t *table_slot(uint32_t *slots, uint64_t room, const struct unit *unit) {
    uint64_t key = unit->abbreviations * 2 + (unit->width == 8);
    uint64_t at = (key * 0x9e3779b97f4a7c15u >> 32) & (room - 1);
    while (slots[at]) {
        const struct table *table = &tables[slots[at] - 1];
        if (table->place == unit->abbreviations && table->width == unit->width) break;
        at = (at + 1) & (room - 1);
    }
    return &slots[at];
}

// Reads the tables of all units. A table is read once for all units that name it, but its
// declarations count for each.
static int read_tables(void) {
    uint64_t left = DECLARATION_LIMIT, room = 64;
    while (room < unit_count * 2) room *= 2;
    uint32_t *slots = calloc(room, sizeof *slots);
    if (!slots) abort();
    for (size_t i = 0; i < unit_count; i++) {
        uint32_t *slot = table_slot(slots, room, &units[i]);
        if (!*slot || tables[*slot - 1].count > left) {
            struct table table = {.place = units[i].abbreviations, .width = units[i].width};
            if (read_table(sections[ABBREV], &table, left)) return 1;
            tables = grown(tables, table_count, &table_room, sizeof table);
            tables[table_count++] = table;
            *slot = table_count;
        }
        units[i].table = *slot - 1;
        left -= tables[*slot - 1].count;
    }
    free(slots);
    return 0;
}

// Reads a value. Returns the number, or the offset of a string or a block.
static inline uint64_t use(struct bytes *b, struct form form) {
    const uint8_t *start = b->at;
    if (form.layout == FIXED) return fixed(b, form.width);
    if (form.layout == UNSIGNED) return uleb(b);
    pass(b, form.layout);
    return start - sections[INFO].start;
}

// Reads a signed count, which must not be negative.
static uint64_t use_signed(struct bytes *b) {
    int64_t number = sleb(b);
    if (number < 0) fail(b, ATTR_FORM);
    return (uint64_t)number;
}

// Reads the value of an attribute whose form precedes it (DW_FORM_indirect).
static void find_form(struct bytes *b, struct step step, uint8_t width, struct values *values) {
    uint64_t number = uleb(b);
    struct form form = form_of(number, width);
    if (!is_direct(form)) fail(b, FORM);
    else if (!accepts(step.slot, number)) fail(b, ATTR_FORM);
    if (b->bad) return;
    if (step.slot == UNUSED) {
        if (form.layout == FIXED) skip(b, form.width);
        else pass(b, form.layout);
        return;
    }
    uint64_t value = form.layout == SIGNED ? use_signed(b) : use(b, form);
    if (!values) return;
    values->has |= 1u << step.slot;
    values->forms[step.slot] = number;
    values->numbers[step.slot] = value;
}

static inline void read_value(struct bytes *b, const struct step *step, struct values *values) {
    uint64_t number;
    if (step->layout == CONSTANT) number = step->constant;
    else if (step->layout == SIGNED) number = use_signed(b);
    else number = use(b, (struct form){step->layout, step->width});
    if (!values) return;
    values->has |= 1u << step->slot;
    values->forms[step->slot] = step->form;
    values->numbers[step->slot] = number;
}

// Reads or skips the attributes of an entry. Stores the attributes that the steps read in `values`.
static inline __attribute__((always_inline)) void go(struct bytes *b, const struct step *step,
    const struct step *past, uint8_t width, struct values *values) {
    for (; step < past; step++) {
        skip(b, step->skipped);
        switch (step->action) {
        case NOTHING: break;
        case PASS: pass(b, step->layout); break;
        case USE: read_value(b, step, values); break;
        case FIND_FORM: find_form(b, *step, width, values); break;
        default: fail(b, ATTR_FORM);
        }
    }
}

// Re-reads the used attributes of a valid entry at an offset.
static void read_again(const struct unit *unit, uint64_t offset, struct values *values) {
    struct bytes b = {sections[INFO].start + offset, sections[INFO].start + unit->end, GOOD};
    const struct declaration *declaration = find(&tables[unit->table], uleb(&b));
    values->has = 0;
    go(&b, steps + declaration->reading, steps + declaration->past, unit->width, values);
}

// Returns the unit that contains an offset, or NULL.
static const struct unit *unit_at(uint64_t offset) {
    size_t low = 0, high = unit_count;
    while (low < high) {
        size_t middle = low + (high - low) / 2;
        if (units[middle].end <= offset) low = middle + 1;
        else high = middle;
    }
    return low < unit_count && units[low].start <= offset ? &units[low] : NULL;
}
