// Short plans of declarations (DWARF 5, 7.5.3). A plan has the offsets of the used attributes in
// the entries of a declaration, so that these can be re-read without any step for the others.
#ifndef PLANS_H
#define PLANS_H
#include "attributes.h"

// The offset of an attribute that a declaration does not have. Offsets are relative to the end of
// the code and are below this one.
enum { ABSENT = 255 };

// A number of one to eight bytes: the eight bytes at `offset`, shifted left and right by `shift`.
struct number_place {
    uint8_t offset, shift;
};

// A string whose value is its 4-byte offset in a section.
struct string_place {
    uint8_t offset, section;
};

// The attributes that origin chains use. The reference is a 4-byte one within the unit.
struct name_plan {
    struct string_place name, linkage_name;
    uint8_t reference, is_usable;
};

// The attributes of a scope. `calls` says which of a call file and a call line there are. The call
// file is `constant_file` if the declaration has its value.
struct scope_plan {
    struct name_plan names;
    uint8_t low_pc, ranges, calls, is_usable;
    struct number_place high_pc, call_file, call_line;
    uint32_t constant_file;
};

static const struct scope_plan empty_plan = {
    .names = {{ABSENT, 0}, {ABSENT, 0}, ABSENT, 1}, .low_pc = ABSENT, .ranges = ABSENT,
    .is_usable = 1, .high_pc = {ABSENT, 0}, .call_file = {ABSENT, 0}, .call_line = {ABSENT, 0}
};

// Returns the number at a place of an entry, whose attributes start at `at`. The bytes of a file
// have zeros after their end (timing.h).
static inline uint64_t number_at(const uint8_t *at, struct number_place place) {
    uint64_t number;
    memcpy(&number, at + place.offset, sizeof number);
    return number << place.shift >> place.shift;
}

static inline uint32_t offset_at(const uint8_t *at) {
    uint32_t offset;
    memcpy(&offset, at, sizeof offset);
    return offset;
}

// Adds a string to a plan. Returns whether plans can have its form.
static int plan_string(struct string_place *place, uint64_t form, uint8_t width, uint8_t offset) {
    *place = (struct string_place){offset, form == DW_FORM_line_strp ? LINE_STR : STR};
    return width == 4 && (form == DW_FORM_strp || form == DW_FORM_line_strp);
}

// Adds the reference of an origin chain to a plan. Returns whether it is the only one, and plans
// can have its form.
static int plan_reference(struct name_plan *plan, uint64_t form, uint8_t offset) {
    int is_first = plan->reference == ABSENT;
    plan->reference = offset;
    return is_first && form == DW_FORM_ref4;
}

// Adds a number to a plan. Returns whether it has at most `widest` bytes.
static int plan_number(struct number_place *place, uint64_t form, uint8_t width, uint8_t widest,
    uint8_t offset) {
    *place = (struct number_place){offset, 64 - 8 * width};
    return is_count(form) && width && width <= widest;
}

// Adds an attribute that is at an offset to a plan. Returns whether plans can have its form.
static int plan_attribute(struct scope_plan *plan, enum slot slot, uint64_t form, uint8_t width,
    uint8_t offset) {
    switch (slot) {
    case AT_NAME: return plan_string(&plan->names.name, form, width, offset);
    case AT_LINKAGE_NAME: return plan_string(&plan->names.linkage_name, form, width, offset);
    case AT_ORIGIN: case AT_SPECIFICATION: return plan_reference(&plan->names, form, offset);
    case AT_LOW_PC: plan->low_pc = offset; return form == DW_FORM_addr;
    case AT_HIGH_PC: return plan_number(&plan->high_pc, form, width, 8, offset);
    case AT_RANGES: plan->ranges = offset; return form == DW_FORM_sec_offset && width == 4;
    case AT_CALL_FILE: return plan_number(&plan->call_file, form, width, 4, offset);
    case AT_CALL_LINE: return plan_number(&plan->call_line, form, width, 4, offset);
    default: return 0;
    }
}

// Adds a used attribute to a plan. Returns whether the plan can have it.
static int plan_used(struct scope_plan *plan, const struct attribute *attribute, enum slot slot,
    struct form form, uint64_t offset) {
    if (form.layout == FIXED && offset + form.width <= ABSENT)
        return plan_attribute(plan, slot, attribute->form, form.width, offset);
    plan->constant_file = attribute->constant;
    return slot == AT_CALL_FILE && form.layout == CONSTANT && attribute->constant >= 0
        && attribute->constant <= UINT32_MAX;
}

// Makes the plan of a declaration with these attributes. All used attributes must be before the
// first one of variable length. If only attributes of scopes are unusual, the names are usable.
static struct scope_plan make_plan(const struct attribute *attributes, size_t count,
    uint8_t width) {
    struct scope_plan plan = empty_plan;
    uint64_t offset = 0;
    for (const struct attribute *attribute = attributes; attribute < attributes + count;
         attribute++) {
        enum slot slot = slot_of(attribute->name);
        struct form form = form_of(attribute->form, width);
        if (slot != UNUSED && !plan_used(&plan, attribute, slot, form, offset)) {
            plan.is_usable = 0;
            plan.names.is_usable &= !is_name(slot);
        }
        plan.calls |= HAS_FILE * (slot == AT_CALL_FILE) + HAS_LINE * (slot == AT_CALL_LINE);
        if (form.layout == FIXED) offset += form.width;
        else if (form.layout != CONSTANT) offset = ABSENT;
    }
    int has_low = plan.low_pc != ABSENT, has_high = plan.high_pc.offset != ABSENT;
    if (has_high && !has_low) plan.is_usable = 0;
    if (plan.ranges != ABSENT && (has_low || has_high)) plan.is_usable = 0;
    return plan;
}
#endif
