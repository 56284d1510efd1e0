// The names of scopes by the plans of their declarations. If a plan is missing, or a name or a
// reference is invalid, nothing is stored, and the functions of names.h read the names or find the
// fault.
#include "names.h"

// Adds a string of an entry, unless there is one already. Returns whether it is valid.
static inline int add_string(struct text *text, struct string_place place, const uint8_t *at) {
    if (place.offset == ABSENT || text->section != ELF) return 1;
    *text = (struct text){offset_at(at + place.offset), place.section};
    return text->place < sections[place.section].texts_end;
}

// Adds the names of an entry that are not there yet. Returns whether they are valid.
static inline int add_names(struct names *names, const struct name_plan *plan, const uint8_t *at) {
    return add_string(&names->name, plan->name, at)
        && add_string(&names->linkage_name, plan->linkage_name, at);
}

// Follows the origin chain that starts with a reference, and adds the names that are not there yet.
// Returns whether this succeeds.
static int follow_plans(const struct unit *unit, uint64_t reference, struct names *names) {
    const struct table *table = &tables[unit->table];
    for (int followed = 0; followed < REFERENCE_LIMIT; followed++) {
        uint64_t offset = unit->start + reference;
        if (offset >= unit->end || !is_entry(offset)) return 0;
        const uint8_t *entry = sections[INFO].start + offset;
        const struct name_plan *plan = name_plan_of(table, entry);
        if (!plan || !add_names(names, plan, entry + 1)) return 0;
        if (plan->reference == ABSENT) return 1;
        reference = offset_at(entry + 1 + plan->reference);
    }
    return 0;
}

// Reads the names of the target of a reference, which are cached. Returns whether this succeeds.
static inline int find_names(const struct unit *unit, uint64_t reference, struct names *names) {
    uint64_t target = unit->start + reference;
    if (!target || target >= unit->end) return 0;
    struct cached_names *cached_entry = slot_of_target(target);
    if (cached_entry->target != target) {
        if (!follow_plans(unit, reference, names)) return 0;
        *cached_entry = (struct cached_names){target, *names};
    }
    *names = cached_entry->names;
    return 1;
}

// Reads the names of a scope, whose attributes start at `at`. Returns whether this succeeds.
static inline int read_planned_names(const struct unit *unit, const struct name_plan *plan,
    const uint8_t *at, struct names *names) {
    *names = (struct names){0};
    if (!add_names(names, plan, at)) return 0;
    if (plan->reference == ABSENT) return 1;
    uint64_t reference = offset_at(at + plan->reference);
    int has_names = plan->name.offset != ABSENT || plan->linkage_name.offset != ABSENT;
    return has_names ? follow_plans(unit, reference, names) : find_names(unit, reference, names);
}
