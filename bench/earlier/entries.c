// Reads the units, entries and scopes of an object with plain loops that make the same checks as
// our reader, and prints the time. It stores one bit for each entry, and re-reads the attributes of
// roots, scopes and reference targets.
#include "ranges.h"
#include "timing.h"

enum { DEPTH_LIMIT = 256 };

struct call {
    uint64_t file, line;
};

struct scope *scopes;
size_t scope_count;
static struct call *wide_calls;
static size_t scope_room, call_count, call_room;
static uint64_t entry_count;

static void add_scope(const struct unit *unit, uint32_t offset, uint8_t inlined) {
    scopes = grown(scopes, scope_count, &scope_room, sizeof *scopes);
    scopes[scope_count] = (struct scope){.offset = offset, .end = scope_count + 1,
        .unit = unit - units, .inlined = inlined};
    scope_count++;
}

// Returns the declaration of the entry whose attributes follow, and checks that the entry is valid
// at this depth.
static inline const struct declaration *declared(struct bytes *b, struct unit *unit, uint64_t code,
    uint32_t depth, uint32_t offset) {
    const struct declaration *declaration = find(&tables[unit->table], code);
    if (__builtin_expect(!declaration, 0)) fail(b, ABBREV_CODE);
    else if (!depth && unit->has_root) fail(b, TWO_ROOTS);
    else if (depth > DEPTH_LIMIT) fail(b, TOO_DEEP);
    else if (!depth) {
        unit->has_root = 1;
        unit->root = offset;
    }
    return declaration;
}

// Reads the entries of a unit. Stores its scopes, each with the index after its last descendant.
static int read_entries(struct unit *unit) {
    const uint8_t *info = sections[INFO].start;
    struct bytes b = {info + unit->first, info + unit->end, GOOD};
    size_t open[DEPTH_LIMIT + 1]; // 1 + the index of the open scope at each depth, or 0
    uint32_t depth = 0;
    while (b.at < b.end) {
        uint32_t offset = b.at - info;
        uint64_t code = uleb(&b);
        if (!code && !b.bad) {
            if (depth && open[--depth]) scopes[open[depth] - 1].end = scope_count;
            continue;
        }
        const struct declaration *declaration = declared(&b, unit, code, depth, offset);
        if (!b.bad)
            go(&b, steps + declaration->passing, steps + declaration->reading, unit->width, NULL);
        if (b.bad) return refuse(INFO, b.bad, offset);
        starts[offset / 64] |= 1ull << offset % 64;
        entry_count++;
        if (declaration->is_scope) add_scope(unit, offset, declaration->is_inlined);
        if (declaration->children) open[depth++] = declaration->is_scope ? scope_count : 0;
    }
    unit->past_scope = scope_count;
    return depth ? refuse(INFO, TREE_OPEN, unit->start) : 0;
}

static void keep_call(struct scope *scope, const struct values *values) {
    uint64_t file = has(values, AT_CALL_FILE) ? values->numbers[AT_CALL_FILE] : 0;
    uint64_t line = has(values, AT_CALL_LINE) ? values->numbers[AT_CALL_LINE] : 0;
    scope->calls = HAS_FILE * has(values, AT_CALL_FILE) + HAS_LINE * has(values, AT_CALL_LINE);
    scope->call_file = file;
    scope->call_line = line;
    if (file <= UINT32_MAX && line <= UINT32_MAX) return;
    scope->calls |= IS_WIDE;
    scope->call_file = call_count;
    wide_calls = grown(wide_calls, call_count, &call_room, sizeof *wide_calls);
    wide_calls[call_count++] = (struct call){file, line};
}

// Reads a scope.
static enum cause read_scope(struct scope *scope) {
    const struct unit *unit = &units[scope->unit];
    struct values values;
    struct names names;
    read_again(unit, scope->offset, &values);
    enum cause cause = read_names(unit, &values, &names);
    if (!cause) cause = read_ranges(unit, &values);
    if (cause) return cause;
    keep_call(scope, &values);
    scope->name = names.name.place;
    scope->name_section = names.name.section;
    scope->linkage_name = names.linkage_name.place;
    scope->linkage_section = names.linkage_name.section;
    scope->ranges_end = range_count;
    return GOOD;
}

int read_scopes(const struct section *found) {
    sections = found;
    starts = calloc(found[INFO].size / 64 + 1, sizeof *starts);
    if (!starts) abort();
    if (read_headers() || read_tables()) return 1;
    for (size_t i = 0; i < unit_count; i++)
        if (read_entries(&units[i])) return 1;
    if (read_roots()) return 1;
    for (size_t i = 0; i < scope_count; i++) {
        enum cause cause = read_scope(&scopes[i]);
        if (cause) return refuse(INFO, cause, scopes[i].offset);
    }
    free(starts);
    return 0;
}

#ifdef WHOLE
// Returns the number of files of a unit's line program: 0 if the unit names none, -1 if there is no
// program at the offset.
static int64_t files_of(const struct unit *unit) {
    size_t low = 0, high = program_count;
    if (!unit->has_stmt_list) return 0;
    while (low < high) {
        size_t middle = low + (high - low) / 2;
        if (programs[middle].offset < unit->stmt_list) low = middle + 1;
        else high = middle;
    }
    if (low == program_count || programs[low].offset != unit->stmt_list) return -1;
    return programs[low].past - programs[low].files;
}

int join(void) {
    size_t number = 0;
    for (const struct unit *unit = units; unit < units + unit_count; unit++) {
        int64_t files = files_of(unit);
        if (files < 0) return refuse(INFO, STMT_LIST, unit->root);
        for (; number < unit->past_scope; number++) {
            const struct scope *scope = &scopes[number];
            if (!scope->inlined || !(scope->calls & HAS_FILE)) continue;
            uint64_t file = scope->call_file;
            if (scope->calls & IS_WIDE) file = wide_calls[file].file;
            if (file >= (uint64_t)files) return refuse(INFO, CALL_FILE, scope->offset);
        }
    }
    return 0;
}
#else
int main(int argc, char **argv) {
    struct section found[SECTION_COUNT];
    uint64_t size;
    if (argc != 2) return 2;
    const uint8_t *bytes = file_bytes(argv[1], &size);
    struct timespec start = now();
    if (find_sections(bytes, size, found) || read_scopes(found)) return 1;
    printf("%zu units, %lu entries, %zu scopes, %zu ranges, %ld us\n", unit_count,
        (unsigned long)entry_count, scope_count, range_count, microseconds(start, now()));
    return 0;
}
#endif
