// Abbreviation tables (DWARF 5, 7.5.3). Each declaration has two lists of steps: one skips the
// attributes of an entry, the other reads the used ones. A step skips all values of known widths
// before the next value that needs more.
#include "attributes.h"

enum { DW_TAG_inlined_subroutine = 0x1d, DW_TAG_subprogram = 0x2e };

// The action after the skipped bytes. For FIND_FORM, the form is in the entry.
enum action { NOTHING, PASS, USE, FIND_FORM, REFUSE };

struct step {
    uint8_t action, slot, form, layout, width;
    uint16_t skipped;
    int64_t constant;
};

// The steps that read start at the end of those that skip.
struct declaration {
    uint32_t passing, reading, past;
    uint8_t is_scope, is_inlined, children;
};

// A code, and the index of its declaration in the table.
struct code {
    uint64_t code;
    uint32_t number;
};

// The first declarations have the codes from 1 to `dense`. Other codes are in a hash table.
struct table {
    uint64_t place;
    struct code *codes;
    uint32_t first, count, dense, code_room;
    uint8_t width;
};

struct attribute {
    uint64_t name, form;
    int64_t constant;
};

static struct declaration *declarations;
static struct step *steps;
static struct attribute *attributes; // of the current declaration
static size_t declaration_count, declaration_room, step_count, step_room, attribute_room;

// Returns the slot of a code in the hash table, which is empty if the code is new.
static struct code *code_slot(const struct table *table, uint64_t code) {
    uint64_t mask = table->code_room - 1, at = (code * 0x9e3779b97f4a7c15u >> 32) & mask;
    while (table->codes[at].code && table->codes[at].code != code) at = (at + 1) & mask;
    return &table->codes[at];
}

static inline const struct declaration *find(const struct table *table, uint64_t code) {
    if (code - 1 < table->dense) return &declarations[table->first + code - 1];
    if (!table->codes) return NULL;
    const struct code *found = code_slot(table, code);
    return found->code ? &declarations[table->first + found->number] : NULL;
}

static void grow_codes(struct table *table) {
    struct table old = *table;
    table->code_room = old.code_room ? old.code_room * 2 : 64;
    table->codes = calloc(table->code_room, sizeof *table->codes);
    if (!table->codes) abort();
    for (uint32_t i = 0; i < old.code_room; i++)
        if (old.codes[i].code) *code_slot(table, old.codes[i].code) = old.codes[i];
    free(old.codes);
}

// Adds the code of the next declaration.
static void add_code(struct table *table, uint64_t code) {
    if (table->dense == table->count && code == table->dense + 1ull) {
        table->dense++;
        return;
    }
    if ((table->count - table->dense) * 2 >= table->code_room) grow_codes(table);
    *code_slot(table, code) = (struct code){code, table->count};
}

static void add_step(struct step step, uint32_t skipped) {
    step.skipped = skipped;
    steps = grown(steps, step_count, &step_room, sizeof step);
    steps[step_count++] = step;
}

// Returns the step of an attribute. It reads the attribute if `reads` is set and it is used.
static struct step step_over(const struct attribute *attribute, uint8_t width, int reads) {
    enum slot slot = slot_of(attribute->name);
    struct form form = form_of(attribute->form, width);
    int is_used = slot != UNUSED;
    struct step step = {NOTHING, slot, attribute->form, form.layout, form.width, 0,
        attribute->constant};
    if (form.layout == INDIRECT) step.action = FIND_FORM;
    else if (!accepts(slot, attribute->form)) step.action = REFUSE;
    else if (is_used && form.layout == CONSTANT && attribute->constant < 0) step.action = REFUSE;
    else if (is_used && (reads || form.layout == SIGNED)) step.action = USE;
    else if (form.layout != FIXED && form.layout != CONSTANT) step.action = PASS;
    return step;
}

static void add_steps(size_t count, uint8_t width, int reads) {
    uint32_t skipped = 0;
    for (size_t i = 0; i < count; i++) {
        struct step step = step_over(&attributes[i], width, reads);
        if (step.action == NOTHING && skipped + step.width <= UINT16_MAX) {
            skipped += step.width;
            continue;
        }
        add_step(step, skipped);
        skipped = step.action == NOTHING ? step.width : 0;
    }
    if (skipped) add_step((struct step){.action = NOTHING}, skipped);
}

// Returns whether an earlier attribute of the declaration has the same name.
static int is_twice(uint64_t name, size_t count) {
    static uint32_t seen[0x4000], declaration; // the last declaration with each name
    if (!count) declaration++;
    if (name < 0x4000) {
        int is_seen = seen[name] == declaration;
        seen[name] = declaration;
        return is_seen;
    }
    for (size_t i = 0; i < count; i++)
        if (attributes[i].name == name) return 1;
    return 0;
}

// Reads the attributes of a declaration. Returns their number.
static size_t read_attributes(struct bytes *b) {
    for (size_t count = 0;; count++) {
        struct attribute attribute = {.name = uleb(b)};
        attribute.form = uleb(b);
        if (b->bad || (!attribute.name && !attribute.form)) return count;
        if (!attribute.name || form_of(attribute.form, 4).layout == UNKNOWN) fail(b, FORM);
        if (is_twice(attribute.name, count)) fail(b, ATTR_TWICE);
        if (attribute.form == DW_FORM_implicit_const) attribute.constant = sleb(b);
        attributes = grown(attributes, count, &attribute_room, sizeof attribute);
        attributes[count] = attribute;
    }
}

// Reads the declaration of a code. The table may have `room` declarations.
static void read_declaration(struct bytes *b, struct table *table, uint64_t code, uint64_t room) {
    if (table->count >= room) return fail(b, TOO_MANY);
    if (find(table, code)) return fail(b, ABBREV_TWICE);
    uint64_t tag = uleb(b), children = fixed(b, 1);
    if (children > 1) fail(b, CHILDREN);
    if (b->bad) return;
    size_t count = read_attributes(b);
    if (b->bad) return;
    struct declaration declaration = {.passing = step_count, .children = children};
    declaration.is_inlined = tag == DW_TAG_inlined_subroutine;
    declaration.is_scope = declaration.is_inlined || tag == DW_TAG_subprogram;
    add_steps(count, table->width, 0);
    declaration.reading = step_count;
    add_steps(count, table->width, 1);
    declaration.past = step_count;
    declarations = grown(declarations, declaration_count, &declaration_room, sizeof declaration);
    declarations[declaration_count++] = declaration;
    add_code(table, code);
    table->count++;
}

// Reads a table of at most `room` declarations at its offset. Returns 0 if it is valid.
static int read_table(struct section section, struct table *table, uint64_t room) {
    uint64_t start = table->place < section.size ? table->place : section.size;
    struct bytes b = {section.start + start, section.start + section.size, GOOD};
    table->first = declaration_count;
    for (;;) {
        uint64_t place = table->place - start + (b.at - section.start), code = uleb(&b);
        if (code && !b.bad) read_declaration(&b, table, code, room);
        if (b.bad) return refuse(ABBREV, b.bad, place);
        if (!code) return 0;
    }
}
