// The sections of an object, the causes of refusals, and the data that the readers store.
#ifndef OBJECT_H
#define OBJECT_H
#include <stddef.h>
#include <stdint.h>

enum section_name {
    ELF, INFO, ABBREV, LINE, LINE_STR, STR, STR_OFFSETS, ADDR, RNGLISTS, SECTION_COUNT
};

// The causes, in the order of their words in elf.c.
enum cause {
    GOOD, NOT_ELF, CLASS, FILE_TYPE, TABLE, SECTION_TWICE, COMPRESSED, NO_LOAD, RANGE, SHORT, LEB,
    LENGTH, VERSION, UNIT_TYPE, ADDRESS_SIZE, SEGMENT_SIZE, ABBREV_CODE, ABBREV_TWICE, FORM,
    ATTR_TWICE, ATTR_FORM, TWO_ROOTS, TREE_OPEN, TOO_DEEP, STRING, INDEX, BASE, RANGE_BACKWARDS,
    OVERFLOWS, PC_AND_RANGES, REFERENCE, ORIGIN_DEPTH, LINE_PARAMS, OPCODE_LENGTHS, EXTENDED,
    FILE_FORMAT, DIR_INDEX, FILE_INDEX, GOES_BACK, SEQUENCE_OPEN, STMT_LIST, CALL_FILE, TOO_MANY,
    LINE_RANGE, CHILDREN, RANGE_KIND
};

// A string that starts before `texts_end` ends in the section. There is no NUL at or after it.
struct section {
    const uint8_t *start;
    uint64_t size, texts_end;
};

// The start of a string. The section is ELF if there is no string.
struct text {
    uint32_t place;
    uint8_t section;
};

struct path {
    uint32_t place, directory;
    uint8_t section;
};

// The directories of a line program are the paths from index `directories` to `files`, and its
// files are those from `files` to `past`.
struct line_program {
    uint32_t offset, directories, files, past;
};

struct row {
    uint64_t address;
    uint32_t program, file, line;
    uint8_t end;
};

struct rows {
    struct row *items;
    size_t count, room;
};

static inline int is_end(const struct row *row) { return row->end; }
static inline uint32_t file_of(const struct row *row) { return row->file; }

struct range {
    uint64_t from, to;
};

// The ranges of a scope start at the end of the previous scope's ranges. The bits of `calls` show
// whether there is a call file and a call line. If one needs 64 bits, `call_file` is the index of a
// 64-bit call site.
struct scope {
    uint32_t offset, end, ranges_end, unit, call_file, call_line;
    uint32_t name, linkage_name;
    uint8_t inlined, name_section, linkage_section, calls;
};

enum { HAS_FILE = 1, HAS_LINE = 2, IS_WIDE = 4 };

extern struct rows rows;
extern struct line_program *programs;
extern struct range *ranges;
extern struct scope *scopes;
extern size_t program_count, scope_count, range_count;

// Prints the refusal of an object to standard error. Returns 1.
int refuse(enum section_name section, enum cause cause, uint64_t at);

// These return 0 if the object is valid, and 1 if it is refused.
int find_sections(const uint8_t *bytes, uint64_t size, struct section *sections);
int read_lines(const struct section *sections);
int read_scopes(const struct section *sections);
int join(void);
#endif
