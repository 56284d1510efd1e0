// Prints the numbers and the sums of the stored data, which bench/same_data.py compares. Include it
// after object.h, which declares the data: the one of bench/earlier declares other rows.
#ifndef SUMS_HPP
#define SUMS_HPP
#include <cstdio>
#include <vector>

// The sum of values, each multiplied by its position from 1 on.
struct Sum {
    uint64_t count = 0, total = 0;

    void add(uint64_t value) { total += ++count * value; }

    void print(const char *what) const {
        printf("%lu %s, sum %016lx\n", (unsigned long)count, what, (unsigned long)total);
    }
};

// Returns the sum of the bytes of a string, or 0 if there is no string.
static inline uint64_t sum_of_text(const struct section *sections, uint8_t section, uint32_t at) {
    uint64_t sum = 0;
    if (section == ELF) return 0;
    for (const uint8_t *byte = sections[section].start + at; *byte; byte++) sum += *byte;
    return sum;
}

static inline void print_row_sums() {
    Sum all, files;
    for (size_t i = 0; i < rows.count; i++) {
        const row *row = &rows.items[i];
        all.add(row->address + 3ull * row->line + 5 * is_end(row));
        files.add(file_of(row));
    }
    all.print("rows");
    files.print("files of rows");
}

static inline void print_scope_sums(const struct section *sections) {
    Sum all, names, calls;
    for (size_t i = 0; i < scope_count; i++) {
        const scope &scope = scopes[i];
        all.add(scope.offset + 3ull * scope.end + 5 * scope.inlined + 7ull * scope.ranges_end);
        names.add(sum_of_text(sections, scope.name_section, scope.name)
            + 3 * sum_of_text(sections, scope.linkage_section, scope.linkage_name));
        calls.add(scope.call_file + 3ull * scope.call_line + 5 * scope.calls);
    }
    all.print("scopes");
    names.print("names of scopes");
    calls.print("calls of scopes");
}

template <class Segments>
static void print_sums(const struct section *sections, const Segments &segments) {
    Sum covers, addresses;
    print_row_sums();
    print_scope_sums(sections);
    for (size_t i = 0; i < range_count; i++) covers.add(ranges[i].from + 3 * ranges[i].to);
    covers.print("ranges");
    for (const auto &segment : segments)
        addresses.add(segment.from + 3 * segment.to + 5ull * segment.row + 7ull * segment.scope);
    addresses.print("segments");
}
#endif
