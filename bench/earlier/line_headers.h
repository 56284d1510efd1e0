// The headers of line programs (DWARF 5, 6.2.4): parameters, directories and files.
#include "forms.h"

// A field of an entry: its content and its layout.
struct field {
    uint64_t content, form;
    struct form layout;
};

enum { DW_LNCT_path = 1, DW_LNCT_directory_index = 2 };

// The advance of a special opcode.
struct advance {
    uint32_t address;
    int32_t line;
};

struct header {
    struct bytes fields, instructions;
    struct advance special[256]; // by the opcode
    uint8_t lengths[256];        // the number of operands of each opcode
    uint64_t file_count, constant_advance;
    uint8_t width, minimum_length, line_base, line_range, opcode_base;
};

static const struct section *sections;
static struct path *paths;
static size_t path_count, path_room;

// Reads the bounds of the program at the start of `section`, and moves `section` to its end.
static enum cause read_bounds(struct bytes *section, struct header *header) {
    uint64_t length = initial_length(section, &header->width);
    struct bytes b = {section->at, section->at, GOOD};
    skip(section, length);
    if (section->bad) return section->bad;
    b.end = section->at;
    expect(&b, 2, 5, VERSION);
    expect(&b, 1, 8, ADDRESS_SIZE);
    expect(&b, 1, 0, SEGMENT_SIZE);
    uint64_t header_length = fixed(&b, header->width);
    header->fields = b;
    skip(&b, header_length);
    header->fields.end = b.at;
    header->instructions = b;
    return b.bad;
}

// Computes the advances of special opcodes, unless they are those of the previous program.
static void find_advances(struct header *h, uint8_t minimum, uint8_t base, uint8_t range,
    uint8_t opcode_base) {
    if (h->minimum_length == minimum && h->line_base == base && h->line_range == range
        && h->opcode_base == opcode_base) return;
    h->minimum_length = minimum;
    h->line_base = base;
    h->line_range = range;
    h->opcode_base = opcode_base;
    for (int opcode = opcode_base; opcode < 256; opcode++) {
        int adjusted = opcode - opcode_base;
        h->special[opcode].address = minimum * (adjusted / range);
        h->special[opcode].line = (int8_t)base + adjusted % range;
    }
    h->constant_advance = minimum * ((255 - opcode_base) / range);
}

static void read_parameters(struct bytes *b, struct header *header) {
    static const uint8_t standard[] = {0, 1, 1, 1, 1, 0, 0, 0, 1, 0, 0, 1};
    uint8_t minimum = fixed(b, 1);
    expect(b, 1, 1, LINE_PARAMS);
    skip(b, 1);
    uint8_t base = fixed(b, 1), range = fixed(b, 1);
    if (!range) fail(b, LINE_PARAMS);
    uint8_t opcode_base = fixed(b, 1);
    if (!opcode_base) fail(b, LINE_PARAMS);
    if (b->bad) return;
    find_advances(header, minimum, base, range, opcode_base);
    for (int opcode = 1; opcode < opcode_base && !b->bad; opcode++) {
        header->lengths[opcode] = fixed(b, 1);
        if (opcode <= 12 && header->lengths[opcode] != standard[opcode - 1])
            fail(b, OPCODE_LENGTHS);
    }
}

static int has_good_form(const struct field *field, int is_path, int is_index) {
    uint64_t form = field->form;
    if (is_path)
        return form == DW_FORM_string || form == DW_FORM_strp || form == DW_FORM_line_strp;
    if (is_index)
        return form == DW_FORM_data1 || form == DW_FORM_data2 || form == DW_FORM_udata;
    return is_direct(field->layout);
}

// Reads a format. Stores the fields that have bytes, and returns whether the format is valid.
static int read_format(struct bytes *b, uint8_t width, int are_files, struct field *fields,
    int *count) {
    int path_fields = 0, index_fields = 0, are_good = 1;
    *count = 0;
    for (uint64_t left = fixed(b, 1); left; left--) {
        struct field field = {.content = uleb(b), .form = 0};
        field.form = uleb(b);
        field.layout = form_of(field.form, width);
        int is_path = field.content == DW_LNCT_path;
        int is_index = are_files && field.content == DW_LNCT_directory_index;
        path_fields += is_path;
        index_fields += is_index;
        are_good &= has_good_form(&field, is_path, is_index);
        if (field.layout.layout != FIXED || field.layout.width) fields[(*count)++] = field;
    }
    return are_good && path_fields == 1 && index_fields <= 1;
}

static void read_path(struct bytes *b, const struct field *field, struct path *path) {
    if (field->form == DW_FORM_string) {
        path->section = LINE;
        path->place = b->at - sections[LINE].start;
        pass_text(b);
        return;
    }
    path->section = field->form == DW_FORM_strp ? STR : LINE_STR;
    uint64_t place = fixed(b, field->layout.width);
    if (place >= sections[path->section].texts_end) fail(b, STRING);
    path->place = place;
}

// Reads the table of directories or of files. Returns the number of its entries.
static uint64_t read_entries(struct bytes *b, uint8_t width, int are_files, uint64_t directories) {
    struct field fields[255];
    int field_count, is_good = read_format(b, width, are_files, fields, &field_count);
    uint64_t count = uleb(b);
    if (count && !is_good) fail(b, FILE_FORMAT);
    for (uint64_t left = count; left && !b->bad; left--) {
        struct path path = {0};
        uint64_t directory = 0;
        for (const struct field *field = fields; field < fields + field_count; field++) {
            if (field->content == DW_LNCT_path) read_path(b, field, &path);
            else if (are_files && field->content == DW_LNCT_directory_index)
                directory = field->layout.width ? fixed(b, field->layout.width) : uleb(b);
            else if (field->layout.layout == FIXED) skip(b, field->layout.width);
            else pass(b, field->layout.layout);
        }
        if (are_files && directory >= directories) fail(b, DIR_INDEX);
        path.directory = directory;
        paths = grown(paths, path_count, &path_room, sizeof path);
        paths[path_count++] = path;
    }
    return count;
}

// Reads the header of the program at the start of `section`, and moves `section` to the end of the
// program.
static enum cause read_header(struct bytes *section, struct header *header,
    struct line_program *program) {
    enum cause cause = read_bounds(section, header);
    if (cause) return cause;
    struct bytes *b = &header->fields;
    read_parameters(b, header);
    program->directories = path_count;
    uint64_t directories = read_entries(b, header->width, 0, 0);
    program->files = path_count;
    header->file_count = read_entries(b, header->width, 1, directories);
    program->past = path_count;
    return b->bad;
}
